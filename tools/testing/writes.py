"""What the program writes where nobody reads, where lines are left out or torn, and where a recording ends."""

import contextlib
import fcntl
import os
import re
import resource
import subprocess
import tempfile
import time

from testing import programs
from testing.coap import CON, EMPTY, GET, NON, RST, message
from testing.logs import Log, authority, expect_form
from testing.network import PATIENCE, Stage, case_list, expect, expect_between, expect_message, free_port
from testing.recordings import limited
from testing.script import read

# Functions that try a program, and the stand-ins that they must find wrong.
CASES, case = case_list()
F_SETPIPE_SZ = 1031


@case("LeftOutUncounted", "LinesTwice")
def more_lines_than_are_written(program):
    with Stage(program) as stage:
        log = Log(stage, "non_records = 1\nclient_non_records = 1")
        begun = time.monotonic()
        for _ in range(200):
            log.client.request(GET, [], kind=NON)
        # While they come slowly, a line may be written now and then, with one before it that counts those left out.
        dropped, left_out = log.await_dropped(200)
        more = 5 * (time.monotonic() - begun)
        expect_between("how many lines were written", 20, 20 + more, dropped)
        expect_between("how many lines say what was left out", 1, 1 + more, len(left_out))
        expect("how many were written and left out", 200, dropped + sum(left_out))


@case("WaitsForReaders")
def a_log_that_nobody_reads_keeps_nobody_waiting(program):
    with Stage(program) as stage:
        reading, writing = os.pipe()
        try:
            fcntl.fcntl(writing, F_SETPIPE_SZ, 8192)
            config = "[limits]\nnon_records = 1\nclient_non_records = 1\n"
            address = stage.proxy("--log", config=config, version=2, output=writing)
            client, until, count = stage.peer(to=address), time.monotonic() + 16, 0
            client.request(GET, [], kind=NON)
            # The pipe is full before all of these are written.
            while time.monotonic() < until:
                client.request(GET, [], kind=NON)
                count += 1
                client.send(message(CON, EMPTY, client.new_id()))
                while client.receive("a Reset").message.kind != RST:
                    pass
                time.sleep(0.05)
            os.set_blocking(reading, False)
            before = os.read(reading, 8192).decode()
            expect_between("what was written, in bytes", 4000, 8192, len(before))
            time.sleep(1.5)
            said = os.read(reading, 8192).decode()
            expect_form("the first line after that", r"left_out lines=[1-9][0-9]*", said.lstrip("\n").split("\n")[0])
            # All of them, and who has most of the table: nothing is lost that isn't counted.
            written = len(re.findall("^(?:dropped|full) ", before + said, re.MULTILINE))
            left_out = [int(it) for it in re.findall("^left_out lines=([0-9]+)$", before + said, re.MULTILINE)]
            expect("how many lines were written and left out", count + 1, written + sum(left_out))
        finally:
            os.close(reading)
            os.close(writing)


@case("WaitsForReaders")
def a_log_that_nobody_reads_takes_no_time(program):
    with Stage(program) as stage:
        reading, writing = os.pipe()
        try:
            fcntl.fcntl(writing, F_SETPIPE_SZ, 4096)
            config = "[limits]\nnon_records = 1\nclient_non_records = 1\n"
            client = stage.peer(to=stage.proxy("--log", config=config, version=2, output=writing))
            os.set_blocking(writing, False)
            with contextlib.suppress(BlockingIOError):
                while True:
                    os.write(writing, b"no room\n" * 16)
            os.set_blocking(writing, True)
            client.request(GET, [], kind=NON)
            client.receive("a refusal")
            taken = []
            # As many lines as are tried at once: each of these is dropped, and that would be a line.
            for _ in range(15):
                begun = time.monotonic()
                client.request(GET, [], kind=NON)
                client.send(message(CON, EMPTY, client.new_id()))
                expect_message("what a ping is answered", client.receive("a Reset"), kind=RST)
                taken.append(time.monotonic() - begun)
            # The machine may be loaded in most of them, but not in all.
            expect_between("the shortest time for one, in seconds", 0, 0.04, min(taken))
        finally:
            os.close(reading)
            os.close(writing)


@case("LogKept")
def a_line_after_one_that_was_torn_is_a_line(program):
    # What is too long for a file is refused, and ends nothing.
    with Stage(["sh", "-c", 'trap "" XFSZ; exec "$0" "$@"', *program]) as stage:
        log = Log(stage, "non_records = 1\nclient_non_records = 1")
        for _ in range(2):
            log.client.request(GET, [], kind=NON)
        log.await_lines("full")
        own, size = stage.programs[-1].pid, os.path.getsize(log.path)
        _, most = resource.prlimit(own, resource.RLIMIT_FSIZE)
        resource.prlimit(own, resource.RLIMIT_FSIZE, (size + len("dropped cl"), most))
        log.client.request(GET, [], kind=NON)
        until = time.monotonic() + PATIENCE
        while os.path.getsize(log.path) < size + len("dropped cl") and time.monotonic() < until:
            time.sleep(0.05)
        resource.prlimit(own, resource.RLIMIT_FSIZE, (most, most))
        log.client.request(GET, [], kind=NON)
        text = ""
        while text.count("dropped client=") < 1 and time.monotonic() < until:
            time.sleep(0.05)
            text = read(log.path)[size:]
        expect_form("what is written", r"dropped cl\nleft_out lines=1\ndropped client=[^\n]+\n", text)


@case("WaitsForReaders")
def counts_that_nobody_reads_keep_nobody_waiting(program):
    with Stage(program) as stage:
        reading, writing = os.pipe()
        try:
            fcntl.fcntl(writing, F_SETPIPE_SZ, 4096)
            full = b"no room\n" * 512
            os.write(writing, full)
            client, until = stage.peer(to=stage.proxy("--stats", "1", output=writing)), time.monotonic() + 3
            while time.monotonic() < until:
                client.send(message(CON, EMPTY, client.new_id()))
                client.receive("a Reset")
                time.sleep(0.05)
            expect("what was there before", full, os.read(reading, 4096))
            time.sleep(1.5)
            os.set_blocking(reading, False)
            expect_form("the first line after that", "seconds=[0-9]+ .*", os.read(reading, 4096).decode().split("\n")[0])
        finally:
            os.close(reading)
            os.close(writing)


@case("EndUnsaid")
def a_recording_that_ends(program):
    with tempfile.TemporaryDirectory(prefix="coap-proxyd-test-") as folder:
        words = ["-A", "127.0.0.1", "-p", str(free_port()), "--turns", "7", "--log", "--record", f"{folder}/run.events"]
        more = {"preexec_fn": limited, "restore_signals": False}
        done = subprocess.run([*program, *words], stderr=subprocess.PIPE, timeout=20, **more)
        lines = [line for line in done.stderr.decode().splitlines() if not line.startswith("listening ")]
        expect_form("what is said of its end", "recording_ended bytes=[0-9]+", "\n".join(lines))


@case("LinesTwice")
def a_recording_goes_on_after_writes_that_were_interrupted(program):
    settings, shimmed = programs.shimmed(program[-1], programs.INTERRUPTING)
    with Stage(["env", *settings, *program[:-1], shimmed]) as stage:
        path, said = os.path.join(stage.folder, "run.events"), stage.file("said.txt", "")
        with open(said, "wb") as output:
            client = stage.peer(to=stage.proxy("--log", "--record", path, output=output))
        # They are written together, once nothing comes any more.
        for _ in range(2):
            for _ in range(50):
                client.send(message(CON, EMPTY, client.new_id()))
                client.receive("a Reset")
            time.sleep(0.3)
        until, count = time.monotonic() + PATIENCE, 0
        while count < 100 and time.monotonic() < until:
            time.sleep(0.05)
            count = read(path).count(f" {authority(client)} ")
        expect("how many datagrams are in the recording", 100, count)
        expect_form("what is said", "listening [^\n]+\n", read(said))


@case("EndUnsaid")
def a_recording_that_is_full_has_the_lines_that_fit(program):
    with Stage(program) as stage:
        path, said, most = os.path.join(stage.folder, "run.events"), os.path.join(stage.folder, "log"), 4000
        with open(said, "wb") as output:
            words = ("--log", "--record", path, "--record-bytes", str(most))
            client = stage.peer(to=stage.proxy(*words, output=output))
        # These are written together, once nothing comes any more.
        for _ in range(300):
            client.send(message(CON, EMPTY, client.new_id()))
            client.receive("a Reset")
        until, ends = time.monotonic() + PATIENCE, []
        while not ends and time.monotonic() < until:
            time.sleep(0.05)
            ends = re.findall("^recording_ended bytes=([0-9]+)$", read(said), re.MULTILINE)
        with open(path, "rb") as file:
            text = file.read()
        expect("what is said of its end", [str(len(text))], ends)
        expect("how it ends", b"\n", text[-1:])
        longest = len("99999 1000 127.255.255.255:65535 4000FFFF\n")
        expect_between("how many bytes it has", most - longest, most, len(text))


# Where a stand-in that passes on each line would itself be what the case finds: one that waits for a reader, or that tears
# a line.
BY_THEMSELVES = (a_log_that_nobody_reads_keeps_nobody_waiting, a_line_after_one_that_was_torn_is_a_line)
