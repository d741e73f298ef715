"""That each datagram that the system doesn't take is counted once, whatever error it gives: by a shim that gives each of
them, and by the network of a namespace that a case makes."""

import errno
import os
import time

from testing import programs
from testing.coap import CON, EMPTY, GET, NON, PROXY_URI, RST, message
from testing.links import HERE, PORT, wait_until_ready
from testing.namespaces import namespaces, socket_in
from testing.network import PATIENCE, Failed, Stage, case_list, expect, expect_message
from testing.statistics import metrics
from testing.steps import path

CASES, case = case_list()
RECEIVED, SENT, FAULTS, RESENT = (
    f"coap_proxyd_{name}_total" for name in ("datagrams_received", "datagrams_sent", "send_faults", "retransmissions")
)
REFUSED, OPENED = (f'coap_proxyd_requests_total{{outcome="{outcome}"}}' for outcome in ("refused_4.04", "opened"))
# What is at the front of the tokens of messages that the shim refuses (testing/denying.c), and with which errors it does.
# After EAGAIN a datagram is sent once more, and is one all the same.
MARK = 0xFA
ERRORS = (
    errno.EPERM, errno.EINTR, errno.EAGAIN, errno.ENOMEM, errno.EACCES, errno.EINVAL, errno.EMSGSIZE, errno.ENETDOWN,
    errno.ENETUNREACH, errno.ENOBUFS, errno.EHOSTUNREACH,
)
# What becomes of what is sent to addresses in these networks: a rule of a firewall refuses it, or a route does. There is no
# route to the last.
RULES = {"198.18.0": "drop", "198.18.1": "reject"}
ROUTES = {"198.18.2": "unreachable", "198.18.3": "prohibit", "198.18.4": "blackhole"}
NETWORKS = (*RULES, *ROUTES, "198.18.5")


def await_counts(counts, is_wanted):
    """The numbers of a file of counts, once they are as wanted."""
    until, numbers = time.monotonic() + PATIENCE, {}
    while time.monotonic() < until:
        if os.path.exists(counts):
            numbers = metrics(counts)
            if is_wanted(numbers):
                return numbers
        time.sleep(0.05)
    raise Failed(f"faults: {numbers.get(FAULTS)}, of requests: {numbers.get(REFUSED)}, {numbers.get(OPENED)}")


def settle(client):
    """Has all be handled that was sent before: a ping is rejected."""
    client.send(message(CON, EMPTY, client.new_id()))
    expect_message("what a ping is answered", client.receive("a Reset"), kind=RST)


@case("NonConfirmablesTwice")
def each_error_of_a_send_is_counted_once(program):
    """Of each error there are twice as many as of the one before, so that the sum is right only if each is."""
    settings, shimmed = programs.shimmed(program[-1], programs.DENYING)
    with Stage(["env", *settings, *program[:-1], shimmed]) as stage:
        counts, limits = os.path.join(stage.folder, "counts.prom"), "[limits]\nnon_records = 65536\n"
        client = stage.peer(to=stage.proxy("--stats", "1", "--stats-file", counts, config=limits))
        wanted = [error for place, error in enumerate(ERRORS) for _ in range(1 << place)]
        for number, error in enumerate(wanted, 1):
            client.send(message(NON, GET, client.new_id(), bytes([MARK, error]), path("t")))
            if number % 50 == 0:
                # A buffer has room for that many.
                settle(client)
        settle(client)
        numbers = await_counts(counts, lambda it: it[REFUSED] >= len(wanted))
        expect("datagrams that the system didn't take", len(wanted), numbers[FAULTS])
        expect("datagrams that it took", numbers[RECEIVED] - len(wanted), numbers[SENT])


# Errors that the network gives


def lines_of(name):
    """The commands that have a namespace refuse what is sent to networks."""
    yield ("ip", "-n", name, "link", "set", "lo", "up")
    yield ("ip", "-n", name, "addr", "add", f"{HERE}/32", "dev", "lo")
    inside = ("ip", "netns", "exec", name, "nft")
    yield (*inside, "add table inet t { chain out { type filter hook output priority 0; }; }")
    for network, verdict in RULES.items():
        yield ("ip", "-n", name, "route", "add", f"{network}.0/24", "dev", "lo")
        yield (*inside, f"add rule inet t out ip daddr {network}.0/24 {verdict}")
    for network, kind in ROUTES.items():
        yield ("ip", "-n", name, "route", "add", kind, f"{network}.0/24")


@case("NotCounted")
def what_the_network_does_not_take_is_counted_once(program):
    """Of each way there are twice as many origins as of the one before. Each is asked once, and then again."""
    with namespaces(1, lines_of, "nft") as (name,), Stage(program) as stage, socket_in(name, HERE) as client:
        config = stage.file("names.toml", "version = 1\nnames = ['proxy.test']\n")
        counts = os.path.join(stage.folder, "counts.prom")
        words = ["-A", HERE, "-p", str(PORT), "--config", config, "--stats", "1", "--stats-file", counts]
        stage.start(["ip", "netns", "exec", name, *program, *words])
        wait_until_ready(client)
        origins = [f"{network}.{n}" for place, network in enumerate(NETWORKS) for n in range(1, (1 << place) + 1)]
        for number, origin in enumerate(origins):
            data = message(NON, GET, 1000 + number, b"", [(PROXY_URI, f"coap://{origin}/t".encode())])
            client.sendto(data, (HERE, PORT))
        for least in (0, len(origins)):
            numbers = await_counts(counts, lambda it: it[OPENED] == len(origins) <= it[FAULTS] and it[RESENT] >= least)
            expect("datagrams that the network didn't take", len(origins) + numbers[RESENT], numbers[FAULTS])
