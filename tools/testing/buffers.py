"""That the program asks for a receive buffer, and says how large the one is that the system gave it."""

import os
import signal
import socket

from testing.coap import CON, EMPTY, RST, message
from testing.network import Stage, case_list, expect, expect_between, expect_message, udp
from testing.statistics import await_metric

CASES, case = case_list()
METRIC = "coap_proxyd_receive_buffer_bytes"
# What is asked for: nothing, less than a socket has, and more than any system gives.
ASKED = (None, 5000, 1_073_741_823)
# How many messages come while the program doesn't read. The usual buffer has room for all of them, and one of 4,608 bytes,
# the least that Linux gives, for six at most.
MESSAGES, FEW = 200, 20


def given(asked=None):
    """How large a receive buffer the system gives a socket that asks for so many bytes, or for as many as it has."""
    with udp("127.0.0.1") as other:
        usual = other.getsockopt(socket.SOL_SOCKET, socket.SO_RCVBUF)
        other.setsockopt(socket.SOL_SOCKET, socket.SO_RCVBUF, asked or usual)
        return other.getsockopt(socket.SOL_SOCKET, socket.SO_RCVBUF)


def words(asked):
    """The words that ask for so many bytes."""
    return [] if asked is None else ["--receive-buffer", str(asked)]


@case("BufferUnsaid", "BufferUnasked")
def how_large_the_receive_buffer_is_stands_in_log_and_counts(program):
    for asked in ASKED:
        with Stage(program) as stage:
            log, counts = (os.path.join(stage.folder, name) for name in ("log", "counts.prom"))
            with open(log, "wb") as output:
                stage.proxy("--log", "--stats", "1", "--stats-file", counts, *words(asked), output=output)
            wanted = given(asked)
            await_metric(counts, METRIC, wanted)
            with open(log, encoding="ascii") as file:
                line = file.readline().split()
            expect("the first line of the log", ("listening", f"receive_buffer={wanted}"), (line[0], line[-1]))


def answered_after_a_pause(stage, *said):
    """How many of the messages are rejected that came while the program was stopped."""
    client = stage.peer(to=stage.proxy(*said))
    group = stage.programs[-1].pid
    os.killpg(group, signal.SIGSTOP)
    for _ in range(MESSAGES):
        client.send(message(CON, EMPTY, client.new_id()))
    os.killpg(group, signal.SIGCONT)
    count = 0
    while client.poll(0.5) is not None:
        count += 1
    client.send(message(CON, EMPTY, client.new_id()))
    expect_message("what a message after the pause is answered", client.receive("a Reset"), kind=RST)
    return count


@case("BufferUnasked")
def what_comes_in_a_pause_waits_in_the_receive_buffer(program):
    with Stage(program) as stage:
        expect("how many wait in the usual buffer", MESSAGES, answered_after_a_pause(stage))
    with Stage(program) as stage:
        expect_between("how many wait in a small buffer", 1, FEW, answered_after_a_pause(stage, *words(1)))
