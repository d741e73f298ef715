"""The suite of tools/conformance: that the cases are those that the page of RFC 7252 names, what the output is, and that
stand-ins are told apart; and tools/compare."""

import os
import shlex
import subprocess
import sys
import tempfile

from conforming import output, rows, suite
from conforming.cases import (
    ENDED, ERROR, KEPT, KEPT_AGAIN, MUST, NOT_KEPT, NOT_OFFERED, NOT_SEEN, SHOULD, Case, NotKept, NotOffered, Outcome,
    name_of,
)
from conforming.playing import Play
from conforming.running import Setup
from testing.network import Skipped, expect, free_port, has_ipv6

TOOLS = os.path.dirname(os.path.dirname(os.path.abspath(__file__)))


def one(stage):
    """The sentence that decides."""


def outcome(name, level, result, text=""):
    """An outcome of a case that nobody plays."""
    return Outcome(Case(name, "a # b", "5.6", level, one, (), (), (), (), False, False), result, text)


SOME = [
    outcome("kept_one", MUST, KEPT), outcome("lost_one", MUST, NOT_KEPT, 'a "b" came'),
    outcome("dear_one", SHOULD, NOT_KEPT, "x"), outcome("bare_one", MUST, NOT_OFFERED, "it has no cache"),
    outcome("last_one", MUST, ENDED, "it ended"), outcome("rare_one", MUST, KEPT_AGAIN, "z"),
    outcome("own_one", MUST, ERROR, "y"),
]
TAP = """TAP version 14
1..7
ok 1 - 5.6 MUST kept_one a \\# b
not ok 2 - 5.6 MUST lost_one a \\# b
  ---
  result: "not kept"
  level: "MUST"
  section: "5.6"
  rfc: "The sentence that decides."
  came: "a \\"b\\" came"
  ...
not ok 3 - 5.6 SHOULD dear_one a \\# b # TODO a SHOULD
  ---
  result: "not kept"
  level: "SHOULD"
  section: "5.6"
  rfc: "The sentence that decides."
  came: "x"
  ...
ok 4 - 5.6 MUST bare_one a \\# b # SKIP not offered: it has no cache
not ok 5 - 5.6 MUST last_one a \\# b
  ---
  result: "ended"
  level: "MUST"
  section: "5.6"
  rfc: "The sentence that decides."
  came: "it ended"
  ...
ok 6 - 5.6 MUST rare_one a \\# b
  ---
  result: "kept at the second time"
  level: "MUST"
  section: "5.6"
  rfc: "The sentence that decides."
  came: "z"
  ...
not ok 7 - 5.6 MUST own_one a \\# b
  ---
  result: "error"
  level: "MUST"
  section: "5.6"
  rfc: "The sentence that decides."
  came: "y"
  ...
# 5.6: 1 kept, 1 kept at the second time, 2 not kept, 1 ended, 1 not offered, 1 error
# MUST: 1 kept, 1 kept at the second time, 1 not kept, 1 ended, 1 not offered, 1 error
# SHOULD: 1 not kept
# all: 1 kept, 1 kept at the second time, 2 not kept, 1 ended, 1 not offered, 1 error"""


def cases_stand_in_rows():
    """Each case stands in a row of the page, and each row has a case or says why not."""
    expect("what differs", [], rows.check_names(suite.CASES))
    expect("whether there are 250 cases", True, len(suite.CASES) >= 250)
    names = [name_of(it) for it in suite.CASES]
    expect("how many cases share a name", 0, len(names) - len(set(names)))


def output_is_tap():
    """What is written for each kind of result."""
    expect("the output", TAP.splitlines(), output.tap(SOME).splitlines())
    wanted = {"kept_one": 0, "lost_one": 1, "dear_one": 0, "bare_one": 0, "last_one": 1, "rare_one": 0, "own_one": 2}
    expect("the status of each", wanted, {it.case.family: output.status([it]) for it in SOME})
    expect("the status of all", 2, output.status(SOME))


class Nobody:
    """A proxy that isn't there, for cases that ask nothing of it."""

    setup, offers, scale, count, is_v6 = Setup(["nobody"], None, None, None, True, []), {"forward"}, 1.0, 1, False

    def start(self):
        return self.count

    def is_running(self):
        return True


def what_comes_and_goes_is_told():
    """What is kept when it is played again, not offered then, or not seen, is told with what came at first; and a fault
    of the suite is an error."""
    faults, came = {"keeps": None, "has_not": NotOffered("not there"), "errs": ValueError("a slip")}, {}

    def play(name):
        def function(stage):
            came[name] = came.get(name, 0) + 1
            if came[name] == 1 and name != "errs":
                raise NotKept("this")
            if faults[name] is not None:
                raise faults[name]

        return Case(name, "", "5.6", MUST, function, (), (), (), (), False, False)

    outcomes = {it.case.family: it for it in Play(Nobody()).play([play(name) for name in faults])}
    expect("what is kept then", (KEPT_AGAIN, "this"), outcomes["keeps"][1:3])
    expect("what isn't there then", (NOT_OFFERED, "not there; at first this"), outcomes["has_not"][1:3])
    erred = outcomes["errs"]
    expect("a fault of the suite", (ERROR, True), (erred.result, "ValueError: a slip" in erred.text))
    later = Play(Nobody())
    for result in (NOT_KEPT, NOT_SEEN):
        later.note(Outcome(play("keeps"), result, result))
    expect("what isn't seen then", (NOT_KEPT, NOT_KEPT), later.outcomes["keeps"][1:3])


def both_ways_are_played():
    """What is wrong under a prefix alone isn't kept there alone, and each line says in which way it was played."""
    stand_in, prefix = os.path.join(TOOLS, "conforming", "stand_in"), "/r={address}:{origin}"
    command = [sys.executable, stand_in, "SendsOnceUnderPrefixes", "1", "{address}", "{port}", "{name}", prefix]
    name = "4.2 MUST a_request_that_is_not_acknowledged_is_sent_again"
    forward, reverse = f"1 - {name} (by Proxy-Uri)", f"2 - {name} under a prefix"
    alone = f"not ok 1 - {name} (under a prefix)"
    for by, wanted in (
        ([], [f"ok {forward}", f"not ok {reverse}"]),
        (["forward"], [f"ok {forward}"]), (["reverse"], [alone]),
    ):
        words = ["--forward", "--reverse", prefix, "--only", name[9:], *(["--by", *by] if by else [])]
        _, text = run(*words, "--", *command)
        came = [it for it in text.splitlines() if it.startswith(("ok", "not ok"))]
        expect("the lines", wanted, came)


def cases_are_listed():
    """All that --only names, in lines of their own."""
    status, text = run("--list", "--only", "^3 MUST a_ping|ends_within_its_token|a_silent_origin")
    wanted = [f"3 MUST a_ping_of_another_version_is_ignored {it}" for it in (0, 2, 3)]
    wanted += ["3 MUST a_request_that_ends_within_its_token_is_rejected"]
    wanted += ["4.7 MUST a_silent_origin_is_sent_a_byte_a_second [--long]"]
    wanted += ["4.7 MUST a_silent_origin_is_sent_a_byte_a_second under a prefix [reverse, another way, --long]"]
    expect("what is listed", (0, wanted), (status, text.splitlines()), "the status", "the lines")


def rows_are_compared():
    """What isn't kept and isn't listed is found, and what is listed and kept."""
    family = next(it for row in rows.rows() if row.heading == "Not kept" for it in row.families)
    case = next(it for it in suite.CASES if it.family == family)
    other = next(it for it in suite.CASES if it.family == "a_stale_response_is_not_given")
    expect("how many differ", 0, len(rows.check_outcomes([Outcome(other, KEPT)])))
    expect("how many differ", 1, len(rows.check_outcomes([Outcome(other, NOT_KEPT, "x")])))
    expect("how many differ", 1, len(rows.check_outcomes([Outcome(case, KEPT)])))


def run(*words):
    """What a tool writes, and its status."""
    command = [sys.executable, os.path.join(TOOLS, "conformance"), *words]
    pipes = {"stdout": subprocess.PIPE, "stderr": subprocess.STDOUT, "universal_newlines": True}
    done = subprocess.run(command, timeout=100, **pipes)
    return done.returncode, done.stdout


def stand_ins_are_told_apart():
    """Some cases of the format pass with right stand-ins and fail with wrong ones."""
    status, text = run("--self-test", "--only", "^3 MUST a_.*(of_another_version|marker)")
    expect("status and text", (0, " 0 faults"), (status, text.rstrip("\n")[-9:]), "the status", "how the text ends")


def it_speaks_ipv6():
    """So do the stand-ins, which are asked by each way."""
    if not has_ipv6():
        raise Skipped("there is no ::1")
    only = "^5.7.[23] MUST a_request.*GET, confirmable|a_ping|port_that_was"
    status, text = run("--v6", "--self-test", "--only", only)
    expect("status and text", (0, " 0 faults"), (status, text.rstrip("\n")[-9:]), "the status", "how the text ends")


def a_wrong_stand_in_is_not_kept():
    """A proxy that a command starts and that is wrong: its faults, and those alone, are told. One that ends is started
    again."""
    stand_in = os.path.join(TOOLS, "conforming", "stand_in")
    for fault, only, told in (
        ("UnsafeForwarded", "an_unsafe_option_is_refused|a_response_code_reaches", "11 kept, 4 not kept"),
        ("RejectsBySilence", "empty_confirmable_message_is|a_request_with_a_long|a_.*class", "3 kept, 18 not kept"),
        ("VariantsKept", "with_options_stale|change_makes_the_root", "3 kept, 3 not kept"),
        ("AnswersFromAnotherPort", "port_that_was_asked", "4 not kept"),
        ("EndsAtGarbage", "it_goes_on_after (one byte|1,500 zeros|three)", "3 ended"),
    ):
        command = [sys.executable, stand_in, fault, "0.1", "{address}", "{port}", "{name}"]
        status, text = run("--forward", "--only", only, "--", *command)
        came = status, text.splitlines()[-1]
        expect("how it ends", (1, f"# all: {told}"), came, "the status", "the last line")


def a_proxy_that_ends_is_no_pass():
    """A proxy that ends is told of, by each way of starting, and what wasn't kept before stays so. One that ends only
    while much is under way is, too. What can't be started again ends the run."""
    stand_in = os.path.join(TOOLS, "conforming", "stand_in")
    only = "a_response_code_reaches_the_client|it_goes_on_after_a_request_for (an|a) unknown|a_ping_of"
    host, port = "127.200.1.1", str(free_port())
    words = [sys.executable, stand_in, "EndsAfterFaults", "0.1"]
    running = subprocess.Popen([*words, host, port, "proxy.test"])
    try:
        status, text = run("--against", f"{host}:{port}", "--forward", "--only", only)
    finally:
        running.kill()
        running.wait()
    told = ["# all: 3 kept, 11 not kept, 1 ended, 1 not seen", "Bail out! the proxy answered no more"]
    expect("how it ends", (1, told), (status, text.splitlines()[-2:]), "the status", "the last lines")
    among = "is_not_acknowledged (GET|POST|PUT|DELETE)|acknowledged_while_its_origin"
    for fault, only, told in (
        ("EndsAfterFaults", only, "3 kept, 11 not kept, 2 ended"), ("EndsAmongMany", among, "8 ended"),
    ):
        command = [sys.executable, stand_in, fault, "0.1", "{address}", "{port}", "{name}"]
        status, text = run("--forward", "--only", only, "--", *command)
        came = status, text.splitlines()[-1]
        expect("how it ends", (1, f"# all: {told}"), came, "the status", "the last line")


def it_runs_alone():
    """An archive of it, the same bytes each time, has all that it needs: it tells its stand-ins apart in a folder that
    has nothing else, and says what it lacks."""
    with tempfile.TemporaryDirectory(prefix="coap-proxyd-test-") as folder:
        made = []
        for _ in range(2):
            words = [os.path.join(TOOLS, "package"), "--conformance", folder]
            path = subprocess.run(words, stdout=subprocess.PIPE, check=True, text=True).stdout.strip()
            with open(path, "rb") as file:
                made.append(file.read())
        expect("whether both are the same", True, made[0] == made[1])
        subprocess.run(["tar", "-C", folder, "-xzf", path], check=True)
        tool = os.path.join(path[: -len(".tar.gz")], "tools", "conformance")
        some = ["--self-test", "--only", "^3 MUST a_.*(of_another_version|marker)"]
        for words, status, end in ((some, 0, " 0 faults\n"), ([], 2, " says it\n")):
            command = [sys.executable, tool, *words]
            done = subprocess.run(command, cwd=folder, stdout=subprocess.PIPE, text=True, timeout=100)
            came = done.returncode, done.stdout[-len(end) :]
            expect("how it ends", (status, end), came, "the status", "the text")


def what_cannot_be_tried_is_said():
    """No stack trace, and a status that isn't 0."""
    for words in (
        ["--against", "192.0.2.1"], ["--forward", "--", "/no/such/program"], ["--only", "no such case"],
        ["--against", "127.0.0.1", "--host", "a.test=192.0.2.1"],
    ):
        status, text = run(*words)
        came = status, text.count("\n"), text[:9]
        expect("how it ends", (2, 1, "Bail out!"), came, "the status", "lines", "how they begin")


def builds_are_compared(program):
    """Random traffic shows no difference between a program and itself, and one between it and a stand-in that changes
    what a replay writes."""
    stand_in = os.path.join(TOOLS, "testing", "stand_in")
    wrong = [sys.executable, "-S", stand_in, "DigitChanged", *program]
    with tempfile.TemporaryDirectory(prefix="coap-proxyd-test-") as folder:
        for name, words in (("old", program), ("wrong", wrong)):
            with open(os.path.join(folder, name), "w") as file:
                file.write(f'#!/bin/sh\nexec {shlex.join(words)} "$@"\n')
            os.chmod(file.name, 0o755)
        for new, status, told in (("old", 0, "2 runs, 0 differ"), ("wrong", 1, "2 runs, 2 differ")):
            command = [sys.executable, os.path.join(TOOLS, "compare"), "old", new, "2", "300"]
            done = subprocess.run(command, cwd=folder, stdout=subprocess.PIPE, text=True, timeout=60)
            came = done.returncode, done.stdout.splitlines()[-1]
            expect(f"how a comparison with the {new} one ends", (status, told), came, "the status", "the last line")
        expect("which files are left", ["compare-1", "compare-2"], sorted({it[:9] for it in os.listdir(folder) if "-" in it}))


CASES = (
    cases_stand_in_rows, output_is_tap, rows_are_compared, stand_ins_are_told_apart, it_speaks_ipv6,
    a_wrong_stand_in_is_not_kept, a_proxy_that_ends_is_no_pass, what_comes_and_goes_is_told, both_ways_are_played,
    cases_are_listed, it_runs_alone, what_cannot_be_tried_is_said,
)
