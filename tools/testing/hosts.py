"""What the program asks of the system: how long its socket waits, and for its secrets. And what it does where a clock goes
fast, or stands still."""

import contextlib
import ctypes
import fcntl
import glob
import os
import socket
import struct
import subprocess
import tempfile
import time

from testing import programs
from testing.coap import CON, CONTENT, EMPTY, GET, NON, RST, message
from testing.network import PATIENCE, Failed, Skipped, Stage, case_list, expect, expect_between, expect_message, free_port
from testing.statistics import metrics
from testing.steps import T, TEMP, path

CASES, case = case_list()
# The numbers of calls that are the same on all processors, and the form of a time.
PIDFD_OPEN, PIDFD_GETFD, TIME = 434, 438, struct.Struct("@ll")
# How fast a clock goes that shows sixty days in five seconds, more milliseconds than 32 bits count, and one that shows as
# many seconds.
MILLION, BILLION = 1_000_000, 1_000_000_000
STANDING = b"coap-proxyd: the clock stands still\n"
UPTIME = "coap_proxyd_uptime_seconds"


def paced(program, speed, *more):
    """A program whose clock goes so many times as fast as it does, with more settings of the environment."""
    settings, shimmed = programs.shimmed(program[-1], programs.PACING)
    return ["env", f"CLOCK_SPEED={speed}", *more, *settings, *program[:-1], shimmed]


@contextlib.contextmanager
def served(program, speed, *words):
    """A program whose clock goes so fast serves a socket. Yields a client of it, and the path of what it says."""
    with Stage(paced(program, speed)) as stage:
        said = stage.file("said.txt", "")
        with open(said, "wb") as output:
            address = stage.proxy(*words, output=output)
        yield stage.peer(to=address), said


def await_uptime(path, seconds):
    """Has a file of counts come to say that the program runs for so many seconds, and be a right one whenever it is
    read."""
    until, uptime = time.monotonic() + 3 * PATIENCE, None
    while time.monotonic() < until:
        if os.path.exists(path):
            uptime = metrics(path)[UPTIME]
            if uptime >= seconds:
                return
        time.sleep(0.05)
    raise Failed(f"seconds since the start: expected {seconds} at least, got {uptime}")


@case("CountsUnwritten")
def a_file_of_counts_alone_is_written_anew_each_minute(program):
    with tempfile.TemporaryDirectory(prefix="coap-proxyd-test-") as folder:
        path = os.path.join(folder, "counts.prom")
        with served(program, 60, "--stats-file", path):
            await_uptime(path, 60)
            first = os.stat(path).st_size
            await_uptime(path, 240)
            # A number may have some digits more.
            expect_between("how many bytes it has", first, first + 200, os.stat(path).st_size)


@case("CountsUnwritten")
def a_clock_goes_on_after_fifty_days(program):
    with tempfile.TemporaryDirectory(prefix="coap-proxyd-test-") as folder:
        path = os.path.join(folder, "counts.prom")
        with served(program, MILLION, "--stats-file", path):
            await_uptime(path, 60 * 86_400)


@case("CountsUnwritten")
def seconds_are_counted_after_two_centuries(program):
    with tempfile.TemporaryDirectory(prefix="coap-proxyd-test-") as folder:
        path = os.path.join(folder, "counts.prom")
        with served(program, BILLION, "--stats-file", path):
            await_uptime(path, 1 << 32)


@case("StandingUnsaid")
def a_clock_that_stands_still_is_said_once(program):
    with served(program, 0, "--stats", "86400") as (client, path):
        for _ in range(10_100):
            client.send(message(CON, EMPTY, client.new_id()))
            expect_message("what a ping is answered", client.receive("a Reset"), kind=RST)
        with open(path, "rb") as said:
            expect("what is said", [STANDING], said.readlines())


# Random bytes


def drawn(program, words):
    """For how many random bytes a program asks the system in each of its calls, and how it ends."""
    settings, shimmed = programs.shimmed(program[-1], programs.DRAWING)
    with tempfile.TemporaryDirectory(prefix="coap-proxyd-test-") as folder:
        notes = os.path.join(folder, "drawn")
        with open(notes, "wb"):
            # A program that asks for none leaves it empty.
            pass
        words = ["env", f"DRAWN_TO={notes}", *settings, *program[:-1], shimmed, *words]
        done = subprocess.run(words, stdin=subprocess.DEVNULL, stdout=subprocess.DEVNULL, timeout=20)
        with open(notes, encoding="ascii") as file:
            return sorted(map(int, file)), done.returncode


@case("ServesNothing")
def its_secrets_are_random_bytes_of_the_system(program):
    """Of its cache's hashes 16; over a socket also of the first Message ID 2, of the salt 8, and of its draws 8."""
    expect("a replay", ([16], 0), drawn(program, ["--replay"]), "its random bytes", "its status")
    words = ["-A", "127.0.0.1", "-p", str(free_port()), "--turns", "1"]
    expect("a run", ([2, 8, 8, 16], 0), drawn(program, words), "its random bytes", "its status")


# The mode and the options of its socket


def call(number, *arguments):
    """What a system call returns, by its number."""
    returned = ctypes.CDLL(None, use_errno=True).syscall(number, *arguments)
    if returned < 0:
        raise Skipped(f"the system call {number} isn't answered: {os.strerror(ctypes.get_errno())}")
    return returned


def own_socket(process):
    """The UDP socket of a program, as a socket of this one, too: the first of its descriptors that is one."""
    lent = call(PIDFD_OPEN, process.pid, 0)
    for path in sorted(glob.glob(f"/proc/{process.pid}/fd/*"), key=lambda it: int(os.path.basename(it))):
        if os.readlink(path).startswith("socket:"):
            return socket.socket(fileno=call(PIDFD_GETFD, lent, int(os.path.basename(path)), 0))
    raise Failed("it has no socket")


def milliseconds(option, of):
    """How long a socket waits, by one of its options."""
    seconds, micros = TIME.unpack(of.getsockopt(socket.SOL_SOCKET, option, TIME.size))
    return seconds * 1000 + micros / 1000


def its_socket_waits_while_nothing_comes(program):
    """Of two clients that wait for one answer the second is sent it after a read that doesn't wait, and then it waits again:
    by the mode of its socket, which the system has in both, and no clock."""
    with Stage(program) as stage:
        proxy, first, origin = stage.mapped()
        second = stage.peer(to=proxy)
        with own_socket(stage.programs[-1]) as its:
            modes = []
            for name in ("a", "b", "c"):
                for client in (first, second):
                    client.request(GET, [T, *path(name)], kind=NON)
                origin.answer(origin.expect_request(GET, [TEMP, *path(name)]), CONTENT, [], b"21")
                for client in (first, second):
                    expect_message("what it is answered", client.receive("an answer"), code=CONTENT)
                # Each wait is a second, and it takes one to be waiting.
                time.sleep(0.3)
                modes.append(fcntl.fcntl(its, fcntl.F_GETFL) & os.O_NONBLOCK)
            expect("the modes in which a read doesn't wait", [0, 0, 0], modes)


def its_socket_waits_no_longer_than_it_should(program):
    """The kernel rounds each wait up to its own steps, of ten milliseconds at most."""
    with Stage(program) as stage:
        stage.proxy()
        with own_socket(stage.programs[-1]) as its:
            expect_between("milliseconds that a read waits", 4, 13, milliseconds(socket.SO_RCVTIMEO, its))
            expect_between("milliseconds that a send waits", 50, 59, milliseconds(socket.SO_SNDTIMEO, its))
            expect("whether it may send to all", 0, its.getsockopt(socket.SOL_SOCKET, socket.SO_BROADCAST))


# These look into the program's process, where a stand-in has none of its own.
SOCKET_CASES = (its_socket_waits_while_nothing_comes, its_socket_waits_no_longer_than_it_should)
