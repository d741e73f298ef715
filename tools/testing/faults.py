"""What the program says of a fault beside its text, in a log and at a terminal; and there that it listens."""

import errno
import os
import pty
import subprocess
import tempfile

from testing.logs import expect_form
from testing.network import Stage, case_list, expect, free_port

# Functions that try a program, and the stand-ins that they must find wrong.
CASES, case = case_list()


def fault(program, words):
    """What a program writes to a pipe as it ends with a fault."""
    done = subprocess.run([*program, *words], stdin=subprocess.DEVNULL, stderr=subprocess.PIPE, timeout=20)
    return done.stderr.decode()


def at_terminal(program, words):
    """What a program writes to a terminal until it ends."""
    ours, theirs = pty.openpty()
    try:
        silent = subprocess.DEVNULL
        process = subprocess.Popen([*program, *words], stdin=silent, stdout=silent, stderr=theirs)
    finally:
        os.close(theirs)
    with os.fdopen(ours, "rb", buffering=0) as terminal:
        process.wait(20)
        return b"".join(chunks(terminal)).decode().replace("\r\n", "\n")


def chunks(terminal):
    """What comes from a terminal, until nobody has it open any more: the system passes it on in parts, some of them after
    the program has ended."""
    try:
        while data := terminal.read(8192):
            yield data
    except OSError as end:
        expect("how a terminal ends", errno.EIO, end.errno)


def expect_fault(program, words, first, *causes):
    """Has a fault be its text alone in a pipe, and be followed by what it comes from in a log and at a terminal: by one
    of these, where C libraries have other words for it."""
    expect("what is written to a pipe", first, fault(program, words))
    logged = fault(program, [*words, "--log"])
    cause = next((it for it in causes if logged == first + it), causes[0])
    expect("what is written to a log", first + cause, logged)
    expect("what is written to a terminal", first + cause, at_terminal(program, words))


@case("CauseUnsaid")
def what_the_system_said_of_a_fault(program):
    port = str(free_port())
    expect_fault(
        program, ["-A", "192.0.2.1", "-p", port, "--turns", "1"], "coap-proxyd: socket\n",
        f"cause: 192.0.2.1:{port}: Cannot assign requested address (os error 99)\n",
        f"cause: 192.0.2.1:{port}: Address not available (os error 99)\n",
    )
    with Stage(program) as stage:
        host, port = stage.proxy()
        expect_fault(
            program, ["-A", host, "-p", str(port), "--turns", "1"], "coap-proxyd: socket\n",
            f"cause: {host}:{port}: Address already in use (os error 98)\n",
            f"cause: {host}:{port}: Address in use (os error 98)\n",
        )
    expect_fault(
        program, ["--config", "/nowhere/proxy.toml"], "coap-proxyd: file\n",
        "cause: /nowhere/proxy.toml: No such file or directory (os error 2)\n",
    )
    with tempfile.NamedTemporaryFile(prefix="coap-proxyd-test-") as there:
        words = ["-A", "127.0.0.1", "-p", str(free_port()), "--turns", "1", "--record", there.name]
        expect("the recording", f"coap-proxyd: file\n", fault(program, words))
        said = at_terminal(program, words).split("\n")[1:]
        expect("at a terminal", ["coap-proxyd: file", f"cause: {there.name}: File exists (os error 17)", ""], said)


WORDS = (
    (["-A", "10.0.0"], "address", '-A "10.0.0": no address'),
    (["-P", "proxy.test"], "proxy option", '-P "proxy.test": no comma'),
    (["-P", "coap://a,b"], "proxy option", '-P "coap://a,b": no next proxy'),
    (["--map", "/t"], "map option", '--map "/t": no equals sign'),
    (["--map", "t=coap://127.0.0.1"], "map option",
     'map 1, "t" to "coap://127.0.0.1": the prefix doesn\'t begin with a slash, or has a ? or a #'),
    (["--map", "/t=coap://nowhere/"], "map option",
     'map 1, "/t" to "coap://nowhere/": the origin\'s host is no address, and isn\'t among the hosts'),
    (["--map", "/t=coap://10.0.0.1:x/"], "map option",
     'map 1, "/t" to "coap://10.0.0.1:x/": the origin is no URI that can be carried'),
    (["--map", "/t#a=coap://10.0.0.1/"], "map option",
     'map 1, "/t#a" to "coap://10.0.0.1/": the prefix doesn\'t begin with a slash, or has a ? or a #'),
    (["--map", "/t?a=coap://10.0.0.1/"], "map option",
     'map 1, "/t?a" to "coap://10.0.0.1/": the prefix doesn\'t begin with a slash, or has a ? or a #'),
    (["--explain"], "arguments", "--explain is for a replay, and --replay isn't given"),
    (["--record-bytes", "1000"], "arguments", "--record-bytes is for a recording, and --record isn't given"),
    (["--explain", "--record-bytes", "1000"], "arguments", "--explain is for a replay, and --replay isn't given"),
)
# What is for a socket, each beside --replay.
FOR_SOCKETS = (
    ["--record", "/nowhere/run.events"], ["--record-bytes", "1000"], ["--log"], ["--stats", "60"],
    ["--stats-file", "/nowhere/counts"], ["--receive-buffer", "1000"],
)
CONFIGURATIONS = (
    ("version = 1\nnames = [\n", "config: syntax", "line 3: "),
    ("version = 1\nnames = ['a', 'b,c']\n", "config: routes", 'name 2, "b,c": no name'),
    ("version = 1\n[hosts]\n'h' = '10.0.0'\n", "config: routes", 'host "h" at "10.0.0": no address'),
    ("version = 1\n[hosts]\n'10.0.0.1' = '10.0.0.2'\n", "config: routes",
     'host "10.0.0.1" at "10.0.0.2": no name of a host'),
    ("version = 1\n[hosts]\n'b,c' = '10.0.0.2'\n", "config: routes", 'host "b,c" at "10.0.0.2": no name of a host'),
    ("version = 1\n[hosts]\n'a' = '10.0.0.1'\n'A' = '10.0.0.2'\n", "config: routes", ": the name stands twice"),
    ("version = 1\n" + "".join(f"[[map]]\nprefix = '/{it}'\norigin = '{it}://10.0.0.1'\n" for it in ("coap", "coaps")),
     "config: routes", 'map 2, "/coaps" to "coaps://10.0.0.1": the origin has a scheme other than coap'),
    ("version = 1\n[[map]]\nprefix = '/a'\norigin = 'coap://10.0.0.1?q'\n", "config: routes",
     'map 1, "/a" to "coap://10.0.0.1?q": the origin has a query'),
    ("version = 1\n" + "[[map]]\nprefix = '/a'\norigin = 'coap://10.0.0.1'\n" * 65, "config: routes", "65 maps of 64"),
    (f"version = 1\nnames = {[f'n{it}' for it in range(65)]}\n", "config: routes", "65 names of 64"),
    ("version = 1\n[hosts]\n" + "".join(f"'h{it}' = '10.0.0.1'\n" for it in range(257)), "config: routes",
     "257 hosts of 256"),
)


@case("CauseUnsaid")
def what_is_wrong_with_the_words(program):
    for words, text, cause in WORDS:
        expect_fault(program, words, f"coap-proxyd: {text}\n", f"cause: {cause}\n")
    for words in FOR_SOCKETS:
        said = f"coap-proxyd: arguments\ncause: {words[0]} is for a socket, and --replay has none\n"
        expect("what is written to a terminal", said, at_terminal(program, ["--replay", *words]))


@case("CauseUnsaid")
def what_is_wrong_with_a_configuration(program):
    for config, text, cause in CONFIGURATIONS:
        with tempfile.NamedTemporaryFile("w", prefix="coap-proxyd-test-", suffix=".toml") as file:
            file.write(config)
            file.flush()
            words, first = ["--config", file.name], f"coap-proxyd: {text}\n"
            expect("what is written to a pipe", first, fault(program, words))
            said = fault(program, [*words, "--log"])
            expect("the first line", first, said[: len(first)])
            expect(f"whether {cause!r} is in {said!r}", True, cause in said[len(first) :] and said.count("\n") == 2)


@case("CauseUnsaid")
def what_is_wrong_with_a_map_beside_a_configuration(program):
    with tempfile.NamedTemporaryFile("w", prefix="coap-proxyd-test-", suffix=".toml") as file:
        file.write("version = 1\n[hosts]\n'h' = '10.0.0.1'\n[[map]]\nprefix = '/a'\norigin = 'coap://h/'\n")
        file.flush()
        for host, said in (
            ("nowhere", "the origin's host is no address, and isn't among the hosts"),
            ("h:x", "the origin is no URI that can be carried"),
        ):
            origin = f"coap://{host}/"
            expect_fault(
                program, ["--config", file.name, "--map", f"/b={origin}"], "coap-proxyd: map option\n",
                f'cause: map 2, "/b" to "{origin}": {said}\n',
            )


@case("ListeningUnsaid")
def somebody_at_a_terminal_is_told_that_it_listens(program):
    port = free_port()
    said = at_terminal(program, ["-A", "127.0.0.1", "-p", str(port), "--turns", "1"])
    form = rf"listening version=[^ ]+ listen=127\.0\.0\.1:{port} maps=0 names=0 hosts=0 limits=1 receive_buffer=\d+\n"
    expect_form("what is said", form, said)
    done = subprocess.run(
        [*program, "-A", "127.0.0.1", "-p", str(free_port()), "--turns", "1"], stderr=subprocess.PIPE, timeout=20
    )
    expect("what is written to a pipe", b"", done.stderr)
