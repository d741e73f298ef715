"""That stand-ins, each wrong in one respect, are found wrong, and what tools/test says of them and of what differs."""

import os
import re
import subprocess
import sys
import tempfile

from testing.network import Failed, expect
from testing.script import TOP

TEST, STAND_IN = os.path.join(TOP, "tools", "test"), os.path.join(TOP, "tools", "testing", "stand_in")
# How one is started: without what a site adds to Python, which may take longer than all else.
PLAYER = [sys.executable, "-S", STAND_IN]
# What the whole test says of a stand-in that fails one test, as a pattern: the stand-in, the test, and the pattern.
SAID = (
    ("DigitChanged", "worked run first_answer", r"""crates/worked_runs/data/first_answer\.events:8: standard output, line 2:
  expected 0 127\.0\.0\.1:40001 50450002D1010AFF3231
    NON, 2\.05 Content, Message ID 0x0002, no token, Max-Age 10, payload "21"
  got 0 127\.0\.0\.1:40001 50450002D1010AFF3230
    NON, 2\.05 Content, Message ID 0x0002, no token, Max-Age 10, payload "20\""""),
    ("LineLost", "worked run silent_origin", r"""crates/worked_runs/data/silent_origin\.events:\d+: .*
  expected \d+ 127\.0\.0\.1:40001 [0-9A-F]+
    NON, 5\.04 Gateway Timeout, .*
  got the end"""),
    ("CommentLost", "worked run first_answer", r"""crates/worked_runs/data/first_answer\.events:8: .* another event:
  expected at event 4: 127\.0\.0\.1:40001 [0-9A-F]+
    NON, 2\.05 Content, .*
  got at event 3: (.|\n)*"""),
    ("TextChanged", "worked run words_bad_key", r"""crates/worked_runs/data/words_bad_key\.events:5: standard error, line 1:
  expected coap-proxyd: config: key colour
  got coap-proxyd config: key colour"""),
    ("StatusIsOne", "worked run bad_bytes", r"crates/\S+/bad_bytes\.events: status: expected 2, got 1 .*"),
    ("CodeChanged", "socket a_confirmable_get_goes_by_a_map",
     r"the response: expected CON, 2\.05 Content, token 0x\w+, .*; got CON, 2\.04 Changed, Message ID 0x\w{4}, .*"),
    ("SourcesAreOne", "socket the_same_bytes_of_another_client_are_new", r"expected a response, got nothing for \S+ s"),
    ("StatusIsOne", "recording a_size_is_that_of_a_recording", r"the run: the status: expected 2, got 1"),
)

# What a failing test tells of what was expected and what came.
LONG = [f"line {number} of what a test compares" for number in range(9)]
TOLD = (
    (2, 3, "expected 2, got 3"),
    ({"a": 1, "b": 2}, {"a": 1, "b": 3, "c": 4}, "of 'b': expected 2, got 3; of 'c': expected nothing, got 4"),
    ({"a", "b"}, {"b", "c"}, """lacking ["'a'"], beyond it ["'c'"]"""),
    (["a", "b"], ["a"], "expected ['a', 'b'], got ['a']"),
    (LONG, [*LONG[:3], "x", *LONG[4:]], f"entry 4 of 9: expected {LONG[3]!r}, got 'x'"),
    (LONG, LONG[:8], f"entry 9 of 9: expected {LONG[8]!r}, got the end of 8"),
    ("\n".join(LONG), "\n".join([*LONG, "x"]), f"line 9 of 9: expected {LONG[8]!r}, got {LONG[8] + chr(10)!r} of 10"),
)


def must_fail(wrong, program, play, *what):
    """Has a test fail for a stand-in that is wrong."""
    try:
        play([*PLAYER, wrong, *program], *what)
    except Failed:
        return
    raise Failed(f"a program that is {wrong} passed")


def differences_are_told():
    """What a test says where something isn't as wanted: what differs, and no more."""
    for wanted, came, told in TOLD:
        try:
            expect("it", wanted, came)
        except Failed as failure:
            expect("what is told", f"it: {told}", str(failure))
        else:
            raise Failed(f"{wanted!r} and {came!r} pass for the same")


def must_say(program, wrong, name, pattern):
    """Has tools/test end with a status and a last line that say that a program which is wrong failed a test, and say
    before in these words what was expected and what came."""
    with tempfile.TemporaryDirectory(prefix="coap-proxyd-test-") as folder:
        script = os.path.join(folder, "wrong")
        with open(script, "w") as file:
            file.write(f'#!/bin/sh\nexec "{sys.executable}" -S "{STAND_IN}" {wrong} "{program[0]}" "$@"\n')
        os.chmod(script, 0o755)
        words = [sys.executable, TEST, script, "--only", f"^{name}$"]
        done = subprocess.run(words, stdout=subprocess.PIPE, stderr=subprocess.STDOUT, text=True, timeout=50)
    *lines, last = done.stdout.splitlines()
    expect("how it ends", (1, "0 passed, 1 failed"), (done.returncode, last), "the status", "the last line")
    said = "\n".join(lines).partition(f"\nfailed: {name}: ")[2]
    if not re.fullmatch(pattern, said):
        raise Failed(f"it is said: expected {pattern}, got {said}")
