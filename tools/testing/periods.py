"""When the program writes its counts while it serves a socket: once in a period, again after a write that failed, and to a
file that is never read in part. And that what the system doesn't take is counted."""

import os
import time

from testing.coap import CON, EMPTY, GET, NON, PROXY_URI, message
from testing.hosts import await_uptime, paced
from testing.leaps import Clock
from testing.network import PATIENCE, Failed, case_list, expect, expect_between, expect_in
from testing.statistics import await_metric, metrics

CASES, case = case_list()
UNWRITTEN = b"coap-proxyd: the counts can't be written to their file\n"
LOST, FAULTS = "coap_proxyd_lost_turns_total", "coap_proxyd_send_faults_total"
RECEIVED, RESENT = "coap_proxyd_datagrams_received_total", "coap_proxyd_retransmissions_total"


def counting(stage, config=None):
    """A client of a proxy that writes its counts each second, the path of their file, and that of what it says."""
    path, said = os.path.join(stage.folder, "counts.prom"), stage.file("said.txt", "")
    with open(said, "wb") as output:
        address = stage.proxy("--stats", "1", "--stats-file", path, config=config, output=output)
    return stage.peer(to=address), path, said


def read_bytes(path):
    """The bytes of a file."""
    with open(path, "rb") as file:
        return file.read()


@case("NotCounted")
def counts_are_written_once_in_a_period(stage):
    started = time.monotonic()
    client, path, said = counting(stage)
    await_metric(path, LOST, 0)
    writes = set()
    while len(writes) < 4 and time.monotonic() < started + PATIENCE:
        # Each of these is a turn.
        client.send(message(CON, EMPTY, client.new_id()))
        client.receive("a Reset")
        writes.add(os.stat(path).st_mtime_ns)
        time.sleep(0.01)
    most = int(time.monotonic() - started) + 1
    expect_between("how often the file was written", 4, most, len(writes))
    expect_between("how many lines were written", 3, most, read_bytes(said).count(b"\n"))


@case("NotCounted")
def counts_of_periods_that_passed_at_once_are_written_once(stage):
    clock = Clock(stage.folder)
    stage.program = paced(stage.program, 1, f"CLOCK_AHEAD={clock.path}")
    client, path, said = counting(stage)
    await_metric(path, LOST, 0)
    clock.leap(3600)
    started, before = time.monotonic(), read_bytes(said).count(b"\n")
    for _ in range(60):
        client.send(message(CON, EMPTY, client.new_id()))
        client.receive("a Reset")
    await_uptime(path, 3600)
    most = 2 + int(time.monotonic() - started)
    expect_between("how many lines were written", 1, most, read_bytes(said).count(b"\n") - before)


@case("NotCounted")
def counts_are_written_with_the_turn_that_ends_a_period(stage):
    clock, rounds = Clock(stage.folder), 8
    stage.program = paced(stage.program, 0, f"CLOCK_AHEAD={clock.path}")
    client, path, _ = counting(stage)
    received = []
    for number in range(rounds + 1):
        # It waits for a datagram. If that comes before a second is over, it ends the period; the last one ends without any.
        time.sleep(0.05)
        clock.leap(1)
        if number < rounds:
            client.send(message(CON, EMPTY, client.new_id()))
            client.receive("a Reset")
        await_uptime(path, number + 1)
        received.append(metrics(path)[RECEIVED])
    wanted = [received[-1] - rounds + number for number in range(1, rounds + 1)]
    is_counted = any(one == other for one, other in zip(wanted, received))
    expect("whether the datagram that ends a period is counted in it", True, is_counted)


@case("NotCounted")
def the_file_is_never_read_in_part(stage):
    _, path, _ = counting(stage)
    await_metric(path, LOST, 0)
    with open(path, "rb") as old:
        first, text = os.fstat(old.fileno()), old.read()
        until = time.monotonic() + PATIENCE
        while os.stat(path).st_mtime_ns == first.st_mtime_ns and time.monotonic() < until:
            time.sleep(0.02)
        expect("whether another file has its name", True, os.stat(path).st_ino != first.st_ino)
        old.seek(0)
        expect("what a reader of the file before has", text, old.read())
    metrics(path)


@case("NotCounted")
def a_write_that_failed_is_tried_again(stage):
    path = os.path.join(stage.folder, "counts.prom")
    # A file on a disk that is full.
    os.symlink("/dev/full", f"{path}.tmp")
    _, _, said = counting(stage)
    until = time.monotonic() + PATIENCE
    while UNWRITTEN not in read_bytes(said) and time.monotonic() < until:
        time.sleep(0.05)
    expect_in("what is said where nothing can be written", UNWRITTEN, read_bytes(said))
    time.sleep(1.1)
    expect("whether there is a file", False, os.path.exists(path))
    os.remove(f"{path}.tmp")
    await_metric(path, LOST, 0)
    expect("how often it is said", 1, read_bytes(said).count(UNWRITTEN))


@case("NotCounted")
def what_the_system_does_not_take_is_counted(stage):
    client, path, _ = counting(stage, config="names = ['proxy.test']\n")
    # No socket may send there that doesn't say so before.
    client.request(GET, [(PROXY_URI, b"coap://255.255.255.255/t")], kind=NON)
    numbers = await_metric(path, FAULTS, 1)
    expect("what was sent again", 0, numbers[RESENT])
    numbers = await_metric(path, RESENT, 1)
    expect("faults", 2, numbers[FAULTS])
    if numbers["coap_proxyd_datagrams_sent_total"] >= numbers[RECEIVED]:
        raise Failed("what the system didn't take counts as sent")
