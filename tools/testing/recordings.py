"""Recordings of the program while it serves a socket: a replay of one sends the same, byte for byte."""

import fcntl
import os
import re
import resource
import shlex
import struct
import subprocess
import tempfile
import termios
import time
from datetime import datetime, timedelta

from testing.coap import CHANGED, CON, CONTENT, GET, NON, NOT_SUPPORTED, PROXY_URI, PUT, message
from testing.network import FAULT, PATIENCE, RESULT, Life, case_list, expect, expect_datagram, free_port
from testing.statistics import await_metric
from testing.steps import T, TEMP, expect_hit, max_age

CASES, case = case_list()


# What stands after a backslash in a word of a shell, and what stands for itself.
SINCE = re.compile(r"# recorded since (2[0-9]{3}-[01][0-9]-[0-3][0-9]T[0-2][0-9]:[0-5][0-9]:[0-5][0-9]\.[0-9]{3}Z)")
ODD, PLAIN = " !\"#$&'()*;<>?[\\]^`{|}~\x7f", "%+,-./:=@_059AMZamz\u00e9"


def words_of(first):
    """The words behind the version in the first line of a recording."""
    version, *words = shlex.split(first[len("# coap-proxyd ") :])
    expect("whether a version comes first", True, version[0].isdigit())
    return words


def replayed(program, path, words=None):
    """The datagrams that a replay of a recording sends, in hexadecimal digits, but for the Resets of what it was asked
    to see that it is ready. The words are those that it says, if no others are given."""
    with open(path, encoding="utf-8") as file:
        first, rest = file.readline(), file.read()
    words = words or words_of(first)
    done = subprocess.run([*program, *words], input=first + rest, stdout=subprocess.PIPE, text=True, timeout=20)
    expect("the status of the replay", 0, done.returncode)
    sent = [line.split(" ")[2] for line in done.stdout.splitlines()]
    return [data for data in sent if not data.startswith("70")]


def expect_sent(wanted, sent):
    """Fails where a replay doesn't send these datagrams, in hexadecimal digits."""
    for at, (one, other) in enumerate(zip(wanted, sent), 1):
        expect_datagram(f"datagram {at} of the replay", bytes.fromhex(one), bytes.fromhex(other))
    expect("how many datagrams the replay sends", len(wanted), len(sent))


def expect_replayed(stage, path, *messages):
    """Waits until a recording is written, and fails if its replay doesn't send these messages."""
    seen, until = [it.data.hex().upper() for it in messages], time.monotonic() + PATIENCE
    while replayed(stage.program, path) != seen and time.monotonic() < until:
        time.sleep(0.2)
    expect_sent(seen, replayed(stage.program, path))


@case("PayloadChanged")
def a_replay_of_a_recording_sends_the_same(stage):
    origin, path = stage.peer(), os.path.join(stage.folder, "run.events")
    client = stage.peer(to=stage.proxy("--map", f"/t=coap://{origin.authority}/temp", "--record", path))
    request = client.request(GET, [T])
    acknowledged, asked = client.expect_acknowledgement(request), origin.expect_request(GET, [TEMP])
    answer = origin.answer(asked, CONTENT, [max_age(60)], b"21")
    life = Life(60, answer.at)
    told = client.expect_separate(request, CONTENT, payload=b"21", life=life)
    hit = expect_hit(client, life)[1]
    client.send(request.data)
    again = client.receive("the acknowledgement again")
    expect_replayed(stage, path, acknowledged, asked, told, hit, again)


@case("PayloadChanged", "RecordingEndsSoon")
def a_recording_has_datagrams_of_4096_bytes(stage):
    origin, path = stage.peer(), os.path.join(stage.folder, "run.events")
    words = ("--map", f"/t=coap://{origin.authority}/temp", "--record", path)
    client = stage.peer(to=stage.proxy(*words, config="[limits]\ndatagram = 4096\n"))
    # Beside a head and a token there are an option and the marker of the payload, and a response has room for a Max-Age.
    payload, changed = b"x" * (4096 - 12 - 5 - 1), b"y" * (4096 - 12 - 6 - 1)
    request = client.request(PUT, [T], payload)
    acknowledged, asked = client.expect_acknowledgement(request), origin.expect_request(PUT, [TEMP], payload)
    origin.answer(asked, CHANGED, payload=changed)
    expect_replayed(stage, path, acknowledged, asked, client.expect_separate(request, CHANGED, payload=changed))


@case("OtherFirstId")
def a_recording_says_how_its_run_was_started(stage):
    origin, path = stage.peer(), os.path.join(stage.folder, "run.events")
    counts = os.path.join(stage.folder, "counts.prom")
    text = (
        f"version = 1\nnames = ['old.test'] # \"$a\" 'b'\n\n[hosts]\n\t'h.test' = '192.0.2.7'\n"
        f"[[map]]\nprefix = '/t'\norigin = 'coap://{origin.authority}/temp'"
    )
    name = (ODD + "\n" + PLAIN).replace("/", "") + ".toml"
    shown = ("".join(f"\\{byte}" for byte in ODD) + "\"$(printf '\\n%s' " + PLAIN).replace("/", "") + ".toml"
    started = ["--id", "257", "--salt", "258"]
    others = ["--map=/u=coap://192.0.2.7/x", "-P,proxy.test"]
    words = ("--config", stage.file(name, text), *started, *others, "--record", path)
    client = stage.peer(to=stage.proxy(*words, "--stats", "1", "--stats-file", counts))
    request = client.request(GET, [T], kind=NON)
    asked = origin.expect_bytes("the request", message(CON, GET, 257, (259).to_bytes(8, "big"), [TEMP]))
    origin.answer(asked, CONTENT, [max_age(60)], b"21")
    told = client.receive("an answer")
    refused = client.request(GET, [(PROXY_URI, b"coap://old.test/t")], kind=NON)
    seen = [it.data.hex().upper() for it in (asked, told, client.expect_response(refused, NOT_SUPPORTED))]
    # The configuration that it had: a stand-in gives it one with another origin.
    config = max((os.path.join(stage.folder, it) for it in os.listdir(stage.folder) if it.startswith(ODD)), key=len)
    again = ["--replay", *started, "--config", config, *others]
    until = time.monotonic() + PATIENCE
    while replayed(stage.program, path, again) != seen and time.monotonic() < until:
        time.sleep(0.2)
    expect_sent(seen, replayed(stage.program, path, again))
    with open(path, encoding="utf-8") as file:
        first, *lines = file.read().split("\n")
    at = f" --config={stage.folder}/{shown}{'.inner' if config.endswith('.inner') else ''})\""
    expect("how often the configuration is named", 1, first.count(at))
    expect("the other words", ["--replay", *started, *others], words_of(first.replace(at, "")))
    with open(config, encoding="utf-8") as file:
        wanted = [f"# config: {line}" for line in file.read().split("\n")]
    expect("the configuration", wanted, lines[: len(wanted)])
    expect("whether the time of day follows", True, bool(SINCE.fullmatch(lines[len(wanted)])))
    expect("whether events follow", True, lines[len(wanted) + 1][:1].isdigit())
    await_metric(counts, 'coap_proxyd_requests_total{outcome="refused_5.05"}', 1)


def run_a_turn(program, path, *more):
    """The status and the standard error of a turn that is recorded to a file."""
    words = [*program, "-A", "127.0.0.1", "-p", str(free_port()), "--turns", "1", "--record", path, *more]
    done = subprocess.run(words, stdout=subprocess.PIPE, stderr=subprocess.PIPE, timeout=20)
    return done.returncode, done.stderr


def a_file_that_is_there_stays_as_it_is(program):
    with tempfile.TemporaryDirectory(prefix="coap-proxyd-test-") as folder:
        path = os.path.join(folder, "run.events")
        expect("the first run", (0, b""), run_a_turn(program, path), *FAULT)
        with open(path, "rb") as file:
            text = file.read()
        expect("how many turns it has", 1, len([line for line in text.splitlines() if not line.startswith(b"#")]))
        expect("the second run", (1, b"coap-proxyd: file\n"), run_a_turn(program, path), *FAULT)
        with open(path, "rb") as file:
            expect("the file", text, file.read())


def a_line_that_is_too_long_for_a_recording_is_a_fault(program):
    with tempfile.TemporaryDirectory(prefix="coap-proxyd-test-") as folder:
        path, config = os.path.join(folder, "run.events"), os.path.join(folder, "proxy.toml")
        # With `# config: ` before it a line of the configuration may have 16,384 bytes.
        for count, end, files in ((16_375, (1, b"coap-proxyd: file\n"), 1), (16_374, (0, b""), 2)):
            with open(config, "w", encoding="ascii") as file:
                file.write("version = 1\n" + "#" * count)
            expect(f"a run with {count} bytes in a line", end, run_a_turn(program, path, "--config", config), *FAULT)
            expect("how many files there are", files, len(os.listdir(folder)))


def limited():
    """Has files be as full at 160 bytes as they are on a disk without room."""
    resource.setrlimit(resource.RLIMIT_FSIZE, (160, 160))


def a_full_disk_ends_the_recording_alone(program):
    with tempfile.TemporaryDirectory(prefix="coap-proxyd-test-") as folder:
        path = os.path.join(folder, "run.events")
        words = [*program, "-A", "127.0.0.1", "-p", str(free_port()), "--turns", "7", "--record", path]
        # What is too long for a file is refused then, and ends nothing.
        pipe, more = subprocess.PIPE, {"preexec_fn": limited, "restore_signals": False}
        done = subprocess.run(words, stdout=pipe, stderr=pipe, timeout=20, **more)
        expect("the run", (0, b"coap-proxyd: the recording has ended\n"), (done.returncode, done.stderr), *FAULT)
        with open(path, "rb") as file:
            lines = file.read().split(b"\n")
        labels = "behind the last line feed", "whether there are several lines"
        expect("how it ends", (b"", True), (lines[-1], len(lines) > 2), *labels)


def a_recording_ends_before_it_is_too_long(program):
    with tempfile.TemporaryDirectory(prefix="coap-proxyd-test-") as folder:
        for most, end in ((160, b"coap-proxyd: the recording has ended\n"), (10_000, b"")):
            path = os.path.join(folder, f"{most}.events")
            words = [*program, "-A", "127.0.0.1", "-p", str(free_port()), "--turns", "7", "--record", path]
            words += ["--record-bytes", str(most)]
            done = subprocess.run(words, stdout=subprocess.PIPE, stderr=subprocess.PIPE, timeout=20)
            expect("the run", (0, end), (done.returncode, done.stderr), *FAULT)
            with open(path, "rb") as file:
                text = file.read()
            expect("whether it is short enough", True, len(text) <= most and text.endswith(b"\n"))
            events = [line for line in text.splitlines() if not line.startswith(b"#")]
            expect("whether all turns are there", not end, len(events) == 7)
        short = run_a_turn(program, os.path.join(folder, "short.events"), "--record-bytes", "10")
        expect("a run whose head is too long", 1, short[0])


def a_size_is_that_of_a_recording(program):
    for words in (["--record-bytes", "1000"], ["--replay", "--record-bytes", "1000"]):
        done = subprocess.run([*program, *words], stdin=subprocess.DEVNULL, stderr=subprocess.PIPE, timeout=20)
        expect("the run", (2, b"coap-proxyd: arguments\n"), (done.returncode, done.stderr), *FAULT)


def a_recording_in_a_folder_is_named_by_its_moment(program):
    with tempfile.TemporaryDirectory(prefix="coap-proxyd-test-") as folder:
        expect("two runs", [(0, b"")] * 2, [run_a_turn(program, folder + "/") for _ in range(2)])
        for name in os.listdir(folder):
            with open(os.path.join(folder, name), encoding="utf-8") as file:
                since = SINCE.fullmatch(file.read().splitlines()[1]).group(1)
            expect("the name", since.replace(":", ".") + ".events", name)
        expect("how many files there are", 2, len(os.listdir(folder)))
        missing = os.path.join(folder, "missing", "")
        expect("a run without the folder", (1, b"coap-proxyd: file\n"), run_a_turn(program, missing), *FAULT)


def an_account_has_the_time_of_day(program):
    head, run = "# recorded since 2026-11-27T23:59:59.900Z\n", [*program, "--replay", "--explain"]
    for first, shown in (("", ""), (head, "2026-11-28T00:00:00.001Z ")):
        done = subprocess.run(run, input=first + "101 0 tick\n", stdout=subprocess.PIPE, text=True, timeout=20)
        wanted = (0, f"# 1 101 {shown}tick idle\n")
        expect("what is said", wanted, (done.returncode, done.stdout), "the status", "the output")
    pipe = subprocess.PIPE
    done = subprocess.run(run, input=head + "night\n", stdout=pipe, stderr=pipe, text=True, timeout=20)
    expect("the status after a bad event", 2, done.returncode)


def an_account_of_a_recording_has_its_time_of_day(program):
    with tempfile.TemporaryDirectory(prefix="coap-proxyd-test-") as folder:
        path, config = os.path.join(folder, "run.events"), os.path.join(folder, "proxy.toml")
        with open(config, "w", encoding="ascii") as file:
            file.write("version = 1\n\n[limits]\nnstart = 1\n")
        expect("the run", (0, b""), run_a_turn(program, path, "--config", config), *FAULT)
        with open(path, encoding="utf-8") as file:
            text = file.read()
        first, *_, event = text.splitlines()
        began = datetime.fromisoformat(re.search(SINCE, text).group(1).replace("Z", "+00:00"))
        shown = began + timedelta(milliseconds=int(event.split(" ")[0]))
        run = [*program, *words_of(first), "--explain"]
        done = subprocess.run(run, input=text, stdout=subprocess.PIPE, text=True, timeout=20)
        told = f"# 1 {event.split(' ')[0]} {shown.isoformat(timespec='milliseconds').replace('+00:00', 'Z')} tick idle\n"
        expect("what is said", (0, told), (done.returncode, done.stdout), "the status", "the output")
        pipe = subprocess.PIPE
        done = subprocess.run(run, input=text + "night\n", stdout=pipe, stderr=pipe, text=True, timeout=20)
        expect("after a bad event", (2, told), (done.returncode, done.stdout), "the status", "the output")


def left_in(pipe):
    """How many bytes of a pipe aren't read yet."""
    return struct.unpack("i", fcntl.ioctl(pipe, termios.FIONREAD, bytes(4)))[0]


def given_in_pieces(words, pieces):
    """What comes of a program whose input is a pipe that gives each piece once the one before was read: the status, and
    what it writes."""
    pipe = subprocess.PIPE
    with subprocess.Popen(words, stdin=pipe, stdout=pipe, stderr=pipe) as process:
        for piece in pieces:
            process.stdin.write(piece.encode())
            process.stdin.flush()
            until = time.monotonic() + PATIENCE
            while left_in(process.stdin) and process.poll() is None and time.monotonic() < until:
                time.sleep(0.001)
        output, errors = process.communicate(timeout=20)
    return process.returncode, output.decode(), errors.decode()


def an_account_has_the_time_of_day_however_its_head_comes(program):
    first, since = "# coap-proxyd 0.3.0 --replay\n", "# recorded since 2026-11-27T23:59:59.900Z\n"
    config = [f"# config: # {number:080}\n" for number in range(200)]
    run, told = [*program, "--replay", "--explain"], "# 1 101 2026-11-28T00:00:00.001Z tick idle\n"
    for what, head in (
        ("one line at first", (first, since)),
        ("parts of a line", (first[:1], first[1:] + since[:20], since[20:-1], since[-1:])),
        ("more than one read takes", (first + "".join(config) + since,)),
        ("a line at once, and many of them", (first, *config, since)),
        ("a megabyte", (first, 60 * "".join(config), since)),
    ):
        # The number of a line that is wrong counts those of the head.
        bad = "".join(head).count("\n") + 2
        done = given_in_pieces(run, (*head, "101 0 tick\n", "night\n"))
        expect(f"a head that comes as {what}", (2, told, f"line {bad}: bad event\n"), done, *RESULT)
    # A comment that a replay doesn't read ends it as it did, and one that is the last of an input needs no line feed.
    done = given_in_pieces(run, ("#" * 16_385 + f"\n{since}101 0 tick\n",))
    expect("a comment that is too long", (2, "", "line 1: bad event\n"), done, *RESULT)
    expect("a head alone", (0, "", ""), given_in_pieces(run, (first, since[:-1])), *RESULT)


ENDS = (
    a_file_that_is_there_stays_as_it_is, a_line_that_is_too_long_for_a_recording_is_a_fault,
    a_full_disk_ends_the_recording_alone, a_recording_ends_before_it_is_too_long, a_size_is_that_of_a_recording,
    a_recording_in_a_folder_is_named_by_its_moment, an_account_has_the_time_of_day,
    an_account_of_a_recording_has_its_time_of_day, an_account_has_the_time_of_day_however_its_head_comes,
)
