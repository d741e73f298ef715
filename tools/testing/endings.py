"""How the program ends where it can't do what it is asked for: its status, and what it writes where."""

import subprocess
import tempfile

from testing.network import RESULT, expect

CASES = []
FILE, SOCKET = b"coap-proxyd: file\n", b"coap-proxyd: socket\n"


def case(function):
    """Notes a function that tries a program."""
    CASES.append(function)
    return function


def expect_end(program, words, status, errors, **streams):
    """Has a program end with a status and this text on standard error, after it wrote nothing else. Streams may stand
    in place of the usual ones."""
    pipe = subprocess.PIPE
    usual = {"stdin": subprocess.DEVNULL, "stdout": pipe, "stderr": pipe}
    done = subprocess.run([*program, *words], timeout=20, **{**usual, **streams})
    came = done.returncode, done.stdout or b"", done.stderr or b""
    expect("what comes of it", (status, b"", errors), came, *RESULT)


@case
def what_cannot_be_written_is_a_fault(program):
    with open("/dev/full", "wb") as full:
        expect_end(program, ["--help"], 1, FILE, stdout=full)
        expect_end(program, ["--version"], 1, FILE, stdout=full)
        with tempfile.TemporaryFile() as events:
            events.write(b"0 0 127.0.0.1:40001 40000001\n")
            events.seek(0)
            expect_end(program, ["--replay"], 1, FILE, stdin=events, stdout=full)


@case
def what_is_said_of_an_event_and_cannot_be_written_is_a_fault(program):
    with open("/dev/full", "wb") as full, tempfile.TemporaryFile() as events:
        # It sends nothing, so that this alone is to be written.
        events.write(b"0 0 tick\n")
        events.seek(0)
        expect_end(program, ["--replay", "--explain"], 1, FILE, stdin=events, stdout=full)


@case
def a_fault_that_cannot_be_written_keeps_its_status(program):
    with open("/dev/full", "wb") as full:
        expect_end(program, ["--id", "65536"], 2, b"", stderr=full)
        expect_end(program, ["--replay", "--config", "/nowhere/proxy.toml"], 1, b"", stderr=full)


@case
def an_input_that_cannot_be_read_is_a_fault(program):
    with open("/dev/null", "wb") as unreadable:
        expect_end(program, ["--replay"], 1, FILE, stdin=unreadable)


@case
def a_configuration_that_cannot_be_read_is_a_fault(program):
    with tempfile.TemporaryDirectory(prefix="coap-proxyd-test-") as folder:
        for name in (folder, f"{folder}/none.toml"):
            expect_end(program, ["--replay", "--config", name], 1, FILE)
            expect_end(program, ["-A", "127.0.0.1", "-p", "1", "--config", name, "--turns", "1"], 1, FILE)


@case
def an_argument_that_is_no_text_is_a_fault(program):
    expect_end(program, ["--replay", "--map", b"/t=coap://127.0.0.1/\xff"], 2, b"coap-proxyd: arguments\n")


@case
def an_address_that_the_host_does_not_have_is_a_fault(program):
    expect_end(program, ["-A", "192.0.2.1", "-p", "49152", "--turns", "1"], 1, SOCKET)
