"""What tools/ladder reads: heads of files and what the program says, old and new, and what peers choose, which is
shown so that it is text and nothing else."""

import os
import subprocess
import sys
import tempfile

from drawing import words
from drawing.lines import fit
from reading import messages, replays, runs
from reading.choosing import Choice, chosen_rows
from testing.captures import PROXY, capture, packet
from testing.coap import BLOCK2, CON, ETAG, GET, MAX_AGE, URI_PATH, URI_QUERY, message
from testing.drawn import LADDER, MAP, ODD, limits, rows_of, written
from testing.network import RESULT, expect
# The front of a recording.
HEAD = "# coap-proxyd 0.3.0 --replay"


def heads_old_and_new_are_read(program):
    lines = (
        f"{HEAD} --id 7 --salt 9 --config=/etc/a\\ b.toml --map=/=coap://127.0.0.1:5690/ --record=/x",
        "# config: version = 2",
        "# recorded since 2026-11-27T14:03:05.123Z",
        "# name: 127.0.0.1:1 a \x1b\u202e<b>",
        "# title: x",
        "",
        "8 0 tick",
        "# config: not = this",
    )
    with tempfile.TemporaryDirectory(prefix="coap-proxyd-test-") as folder:
        path = written(folder, lines)
        head = replays.head_of(path)
        expect("the time of day", 1_795_788_185_123, head.since)
        expect("the names", {"127.0.0.1:1": "a \\u{001b}\\u{202e}<b>"}, head.names)
        given = replays.replay_words(head, (), folder)
        expect(
            "the words",
            ["--id", "7", "--salt", "9", "--map=/=coap://127.0.0.1:5690/", "--config", f"{folder}/replay.toml"],
            given,
        )
        with open(given[-1], encoding="utf-8") as file:
            expect("the configuration", "version = 2\n", file.read())
        expect("words that are given", ["--map", "x"], replays.replay_words(head, ["--map", "x"], folder))
        expect(
            "no time of day", None, replays.head_of(written(folder, ["# recorded since yesterday", "0 0 tick"])).since
        )


def a_head_names_no_file_to_the_program(program):
    with tempfile.TemporaryDirectory(prefix="coap-proxyd-test-") as folder:
        names = [os.path.join(folder, name) for name in ("a", "b", "c")]
        files = f"--record={names[0]} --stats-file {names[1]} --record {names[2]} --stats 1"
        path = written(folder, [f"{HEAD} {files} --map /=coap://127.0.0.1:1/", "0 0 127.0.0.1:40001 50010007B174"])
        expect("how many rows", 1, len(rows_of(program, path)[0]))
        expect("what was written", ["run.events"], os.listdir(folder))


def what_is_said_is_read_old_and_new(program):
    said = [
        "# 1 0 127.0.0.1:40001 NON GET coap://127.0.0.1:5690/temp opened\n",
        "# 2 0 tick sent GET to 127.0.0.1:5690\n",
        "0 127.0.0.1:5690 480100010000000000000001B474656D70\n",
        "# 3 62000 2026-11-28T14:04:07.123Z tick gave up GET coap://127.0.0.1:5690/temp at 127.0.0.1:5690, 5 times in 62 s\n",
    ]
    found = list(replays.said_of(said))
    expect("the outcomes", ["opened", "sent", "gave up"], [replays.outcome_of(it.words) for it in found])
    expect(
        "the targets",
        ["coap://127.0.0.1:5690/temp", "", "coap://127.0.0.1:5690/temp"],
        [replays.target_of(it.words) for it in found],
    )
    expect("what was sent", [0, 1, 0], [len(it.sent) for it in found])
    events = [
        replays.Event(0, "127.0.0.1:40001", bytes.fromhex("50010007B174")),
        replays.Event(0, None, b""),
        replays.Event(62_000, None, b""),
    ]
    seen = [it for event, one in zip(events, found) for it in runs.seen_of_event(event, one)]
    rows, _ = chosen_rows(seen, Choice(), 10)
    expect("what is given up", rows[0].exchange, rows[2].exchange)
    expect(
        "how it is told",
        "gave up",
        words.note_text(rows[2]),
    )


# Options, and how they are told.
OPTIONS = (
    (ETAG, b"\xab", "ETag 0xab"), (12, b"", "Content-Format 0 (text/plain)"), (5, b"", "If-None-Match empty"),
    (12, b"\x28", "Content-Format 40 (application/link-format)"), (12, b"\xff\xff", "Content-Format 65535"),
    (MAX_AGE, b"\x3c", "Max-Age 60"), (MAX_AGE, b"", "Max-Age 0"), (MAX_AGE, bytes(5), "Max-Age 0x0000000000"),
    (BLOCK2, b"\x1e", "Block2 1/1/1024"), (BLOCK2, bytes(4), "Block2 0x00000000"), (6, b"", "Observe 0"),
    (9, b"\x09\x01", "OSCORE 0x0901"), (2000, b"\x01", "Option 2000 0x01"), (2000, b"", "Option 2000 empty"),
    (URI_PATH, b"", 'Uri-Path ""'),
)


def options_are_told_in_their_forms(program):
    for code, value, wanted in OPTIONS:
        expect(f"option {code}", wanted, f"{messages.option_name(code)} {messages.option_value(code, value)}")
    parts = [(URI_PATH, b"a/b"), (URI_PATH, b""), (URI_QUERY, b"x&y"), (URI_QUERY, b"z")]
    read = messages.read(message(CON, GET, 1, b"", parts))
    expect("a path", "/a%2Fb/?x%26y&z", messages.path_of(read))


def odd_bytes_are_shown(program):
    for value, wanted in ODD:
        expect(repr(value), wanted, messages.shown(value))
    expect("a payload that is text", '"a\\u{000a}b"', messages.quoted(b"a\nb"))
    expect("one that isn't", "0x00ff", messages.quoted(b"\x00\xff"))
    inner = "\u2068\u05e9\u05dc\u2069"
    expect(
        "a cut text ends its marks",
        True,
        all(cut.count("\u2068") == cut.count("\u2069") for cut in (fit(inner, room, 10) for room in range(0, 40, 2))),
    )


def limits_are_those_of_the_configuration(program):
    with tempfile.TemporaryDirectory(prefix="coap-proxyd-test-") as folder:
        path = written(
            folder,
            ["version = 2", "[limits]", "exchanges = 1_000", "client_exchanges = 7 # of each", "waiters=0x10"],
            "c.toml",
        )
        found = runs.limits_of(["--config", path])
        names = "exchanges", "waiters", "con_records"
        expect("the limits", (1000, 16, 4096), tuple(found[name] for name in names), *names)
        expect("those by default", (256, 1024), tuple(limits()[name] for name in names[:2]), *names[:2])


# What is said of a run that is too long to be drawn.
TOO_MANY = (
    b"ladder: these are more than 200,000 datagrams: choose some by --from, --to, --client, --origin or --target, or "
    b"count them by --summary\n"
)


def drawn(program, *words):
    """The status of tools/ladder for these words, what it writes, and what it says."""
    pipe = subprocess.PIPE
    done = subprocess.run([sys.executable, LADDER, "--program", program, *words], stdout=pipe, stderr=pipe, timeout=50)
    return done.returncode, done.stdout, done.stderr


def too_many_are_refused_with_a_hint(program):
    with tempfile.TemporaryDirectory(prefix="coap-proxyd-test-") as folder:
        path = os.path.join(folder, "run.events")
        with open(path, "w", encoding="ascii") as file:
            file.write(f"# words: --replay {' '.join(MAP)}\n")
            for number in range(2_000_000):
                file.write(f"{number} 0 127.0.0.1:{1024 + number % 60_000} 5001{number % 65_536:04X}B174\n")
        expect("what comes of it", (2, b"", TOO_MANY), drawn(program[0], path), *RESULT)
        choice = Choice(first=1_000, last=1_999)
        expect("how many are chosen", 1_000, sum(row.inward for row in rows_of(program, path, choice=choice)[0]))


def a_long_capture_is_refused_before_it_is_replayed(program):
    sent = packet(0, "127.0.0.1:40001", PROXY, bytes.fromhex("50010007B174"))
    with tempfile.TemporaryDirectory(prefix="coap-proxyd-test-") as folder:
        path = os.path.join(folder, "run.pcap")
        with open(path, "wb") as file:
            file.write(capture(b"") + sent * 3_001)
        wanted = 2, b"", TOO_MANY.replace(b"200,000", b"3,000")
        expect("what comes of it", wanted, drawn("/bin/false", "--svg", path, *MAP), *RESULT)
        expect("at that endpoint", wanted, drawn("/bin/false", "--svg", "--at", PROXY, path, *MAP), *RESULT)
        wanted = 2, b"", b"ladder: no datagrams of 127.0.0.1:5690\n"
        expect("at another", wanted, drawn("/bin/false", "--svg", "--at", "127.0.0.1:5690", path, *MAP), *RESULT)


CASES = (
    heads_old_and_new_are_read, a_head_names_no_file_to_the_program, what_is_said_is_read_old_and_new,
    options_are_told_in_their_forms, odd_bytes_are_shown, limits_are_those_of_the_configuration,
    too_many_are_refused_with_a_hint, a_long_capture_is_refused_before_it_is_replayed,
)
