"""The worked runs: what the program writes for the words, the configuration and the events of each (docs/REPLAY.md)."""

import itertools
import os
import re
import subprocess
import tempfile
from collections import namedtuple

from testing.network import Broken, Failed, expect
from testing.telling import line_text

TOP = os.path.dirname(os.path.dirname(os.path.dirname(os.path.abspath(__file__))))
# A run has the name of its file, from the top of the repository, if it is in one.
Run = namedtuple("Run", "name words config events output file", defaults=("",))

# Lines of worked runs: what an origin is asked, what its client is told, and a tick.
ASKED, TOLD = b"# > 127.0.0.1:5690 480100010000000000000001B474656D70\n", b"# > 127.0.0.1:40001 50450002D1010AFF3231\n"
ALSO, TICK = b"# > 127.0.0.1:5690 480100020000000000000002B474656D700178\n", b"0 0 tick\n"
HIT, NOTHING = b"9001 0 127.0.0.1:40001 50010008B174\n", b"# > nothing\n"
# What a file may say wrongly: the change, its run, what stands in the file, and what does in its place.
CHANGES = (
    ("another_byte", "first_answer", TOLD, TOLD[:-2] + b"0\n"),
    ("another_address", "first_answer", TOLD, TOLD.replace(b":40001", b":40002")),
    ("another_moment", "hit_aged", TOLD + HIT, HIT + TOLD),
    ("another_event", "first_answer", TICK + TOLD, TOLD + TICK),
    ("another_order", "order_at_one_moment", ASKED + b"3 0 tick\n" + ALSO, ALSO + b"3 0 tick\n" + ASKED),
    ("another_status", "bad_bytes", b"# > status 2: ", b"# > status 1: "),
    ("another_text", "words_bad_key", b": key colour\n", b": key color\n"),
    ("a_line_more", "first_answer", TOLD, TOLD + TOLD),
    ("a_line_less", "first_answer", TOLD, b""),
    ("nothing_in_place_of_a_line", "no_last_line_feed", TOLD, NOTHING),
    ("a_line_in_place_of_nothing", "ignored_messages", NOTHING, TOLD),
    ("no_line_and_not_nothing", "no_events", NOTHING, b""),
)


def after(lines, mark):
    """What follows a mark in the lines that begin with it."""
    return [line[len(mark) :] for line in lines if line.startswith(mark)]


def output_of(lines):
    """What a run's lines `# > ..` say that is written: the datagrams, each at the moment of the event above it, and
    then `status N: TEXT` if it stops with a fault. `# > nothing` says that nothing is. None if there is no such line.
    """
    text, moment, stops, is_said = b"", b"", False, False
    for line in lines:
        if line.startswith(b"# >"):
            said, is_said = line[len(b"# > ") :], True
            stops = stops or said.startswith(b"status ")
            if stops or said != b"nothing":
                text += (b"" if stops else moment + b" ") + said + b"\n"
        elif line and not line.startswith(b"#"):
            moment = line.split(b" ")[0]
    return text if is_said else None


def run_of(name, events, file=""):
    """The worked run of a name and the bytes of its file."""
    lines = events.split(b"\n")
    words = after(lines, b"# words:")[0].decode().split()
    config = b"".join(line + b"\n" for line in after(lines, b"# config: "))
    return Run(name, words, config, events, output_of(lines), file)


def changed(runs, change):
    """A worked run with a change that must be found."""
    _, name, old, new = change
    run = runs[name]
    if run.events.count(old) != 1:
        raise Broken(f"{run.file} has {run.events.count(old)} times what is to be changed: {old!r}")
    return run_of(name, run.events.replace(old, new), run.file)


def runs(folder):
    """All worked runs of the crate in this folder."""
    data = os.path.join(folder, "data")
    for name in sorted(file[:-7] for file in os.listdir(data) if file.endswith(".events")):
        path = os.path.join(data, f"{name}.events")
        with open(path, "rb") as file:
            yield run_of(name, file.read(), os.path.relpath(path, TOP))


def expected(output):
    """The status, the standard output and the standard error for what a worked run has as output: what the program
    writes, and a line `status N: TEXT` if it stops with a fault. Help and version are faults with the status 0."""
    lines, mark, fault = (b"\n" + output).partition(b"\nstatus ")
    if not mark:
        return 0, output, b""
    status, _, text = fault.partition(b": ")
    # A text of several lines ends its last line itself.
    text = text[:-1] if text.endswith(b"\n\n") else text
    written = lines[1:] + b"\n" if lines else b""
    return (0, written + text, b"") if status == b"0" else (int(status), written, text)


def play(program, run):
    """Runs the program as a worked run says, and returns status, standard output and standard error."""
    with tempfile.TemporaryDirectory(prefix="coap-proxyd-test-") as folder:
        words = list(run.words)
        if run.config and "--config" not in words:
            words += ["--config", "run.toml"]
        if run.config:
            with open(os.path.join(folder, words[words.index("--config") + 1]), "wb") as file:
                file.write(run.config)
        pipe = subprocess.PIPE
        done = subprocess.run([*program, *words], input=run.events, stdout=pipe, stderr=pipe, cwd=folder, timeout=50)
        return done.returncode, done.stdout, done.stderr


def said_at(events):
    """The lines `# > ..` of a run's file by which something is written, with their numbers."""
    lines = enumerate(events.split(b"\n"), 1)
    return [(number, line) for number, line in lines if line.startswith(b"# >") and line + b"\n" != NOTHING]


def place_of(run, at, is_error):
    """Where a run's file says what a line of standard output or error must be, or else behind which line of the file it
    says nothing more."""
    said = said_at(run.events)
    datagrams = sum(1 for _ in itertools.takewhile(lambda it: not it[1].startswith(b"# > status "), said))
    numbers = [number for number, _ in said][datagrams if is_error else 0 :]
    if not run.file or not numbers:
        return run.file or run.name
    return f"{run.file}:{numbers[at]}" if at < len(numbers) else f"{run.file}, behind line {numbers[-1]}"


def first_difference(run, stream, wanted, came):
    """What differs in the first line in which two texts do: where that is, and both, with their datagrams decoded."""
    one, other = wanted.split(b"\n"), came.split(b"\n")
    at = next((n for n, (a, b) in enumerate(zip(one, other)) if a != b), min(len(one), len(other)))
    lines = (line_text(text[at]) or "the end" if at < len(text) else "the end" for text in (one, other))
    place = place_of(run, at, stream == "standard error")
    return "{}: {}, line {}:\n  expected {}\n  got {}".format(place, stream, at + 1, *lines)


def check(run, came):
    """Fails where what came isn't what a worked run says, or where that says nothing of it."""
    if run.output is None:
        raise Failed("no line says what must be written")
    wanted = expected(run.output)
    if "--log" in run.words:
        # A log has one line more, which says what a fault comes from.
        came = (*came[:2], re.sub(rb"^cause: .*\n", b"", came[2], flags=re.MULTILINE))
    if wanted[0] != came[0]:
        raise Failed(f"{run.file or run.name}: status: expected {wanted[0]}, got {came[0]} ({came[2][:200]!r})")
    for stream, one, other in zip(("standard output", "standard error"), wanted[1:], came[1:]):
        if one != other:
            raise Failed(first_difference(run, stream, one, other))


def places(events):
    """After which event each datagram stands in the file of a run: the event's number, and the line."""
    number, found = 0, []
    for line in itertools.takewhile(lambda it: not it.startswith(b"# > status "), events.split(b"\n")):
        if line.startswith(b"# > ") and line + b"\n" != NOTHING:
            found.append((number, line[len(b"# > ") :]))
        elif line and not line.startswith(b"#"):
            number += 1
    return found


def check_places(program, run):
    """Fails where a datagram isn't sent at the event after which it stands in the file of a run, if it has events. What
    is said of each event with --explain shows at which one it is sent."""
    if "--replay" not in run.words:
        return
    number, came = 0, []
    for line in play(program, run._replace(words=[*run.words, "--explain"]))[1].splitlines():
        words = line.split(b" ", 2)
        if words[0] == b"#":
            number = int(words[1])
        else:
            came.append((number, b" ".join(words[1:])))
    found = places(run.events)
    # What stands right before a last line that lacks its line feed may belong to that.
    if found and found != came and not run.events.endswith(b"\n"):
        found[-1] = found[-1][0] + 1, found[-1][1]
    for at, (wanted, sent) in enumerate(zip(found, came)):
        if wanted != sent:
            told = [f"at event {number}: {line_text(line)}" for number, line in (wanted, sent)]
            place = place_of(run, at, False)
            raise Failed(f"{place}: it is sent at another event:\n  expected {told[0]}\n  got {told[1]}")
    expect(f"{run.file}: how many datagrams are sent", len(found), len(came))


def check_count(folder):
    """Fails where there are not as many runs as the program that plays them must say."""
    count = len(list(runs(folder)))
    with open(os.path.join(folder, "stdout"), "rb") as file:
        expect("what must be said of all runs", b"%d runs agree in both stores\n" % count, file.read())
