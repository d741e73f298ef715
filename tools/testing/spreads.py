"""What must hold of what tools/spread writes: each client has one instance, also for its duplicates, and all are used;
and clients of both families are answered from the address that they asked, with what devices in other networks have."""

import os
import re
import shutil
import socket
import subprocess
import sys
import threading
import time
from collections import namedtuple

from testing import links, namespaces
from reading.messages import code_name
from testing.coap import ACK, CON, CONTENT, EMPTY, GET, MAX_AGE, message, read
from testing.network import SILENCE, Skipped, Stage, end, expect, udp
from testing.steps import path

SCRIPT = os.path.join(os.path.dirname(os.path.dirname(os.path.abspath(__file__))), "spread")
INSTANCES, CLIENTS = 3, 24
# The port at which the first instance listens.
FIRST = 5691

# What a family has: the address that clients ask, theirs, their network and the way to it; and the address of a device,
# with that of the host which it is to see.
Side = namedtuple("Side", "asked client network way device seen")
# Addresses for documentation (RFC 5737, RFC 3849). One family, with the device on the host itself; or both, with the
# devices in a network of their own, from which there is no way to the address that clients ask.
ONE = [Side(links.HERE, "198.51.100.{}", "198.51.100.0/24", links.THERE, links.HERE, links.HERE)]
BOTH = [
    Side(links.HERE, "198.51.100.{}", "198.51.100.0/24", links.THERE, "10.77.0.7", "10.77.0.1"),
    Side("2001:db8::1", "2001:db8:1::{}", "2001:db8:1::/64", "2001:db8::2", "fd00:77::7", "fd00:77::1"),
]


def lines_of(near, far, inner):
    """The commands that make a host with two addresses of each family towards its clients, of which the system answers
    from the one that they don't ask, and with a network of devices behind it."""
    yield from namespaces.join(near, far, ("near", "far"), ("192.0.2.50", links.THERE))
    yield from namespaces.join(near, inner, ("inside", "device"), (BOTH[0].seen, BOTH[0].device))
    yield ("ip", "-n", near, "addr", "add", f"{BOTH[0].asked}/24", "dev", "near")
    places = [(near, "2001:db8::50", "near"), (far, BOTH[1].way, "far")]
    places += [(near, BOTH[1].seen, "inside"), (inner, BOTH[1].device, "device")]
    for name, address, link in places:
        yield ("ip", "-n", name, "addr", "add", f"{address}/64", "dev", link, "nodad")
    # A deprecated address takes what is sent to it, but isn't picked to send from.
    yield ("ip", "-n", near, "addr", "add", f"{BOTH[1].asked}/64", "dev", "near", "nodad", "preferred_lft", "0")
    # The clients' addresses are on no link, but routed to it.
    yield ("ip", "netns", "exec", far, "sysctl", "-w", "net.ipv6.ip_nonlocal_bind=1")


class Spread:
    """Instances of a program in one namespace, clients in another, and devices in a third."""

    def __init__(self, stage, near, far, inner, sides, devices):
        self.stage, self.near, self.sides, self.devices, self.instances = stage, near, sides, devices, {}
        self.settings = {**os.environ, "DESTDIR": stage.folder}
        for side in sides:
            if not namespaces.run("ip", "-n", far, "route", "add", "local", side.network, "dev", "lo"):
                raise Skipped("this system has no routes for so many clients")
            namespaces.run("ip", "-n", near, "route", "add", side.network, "via", side.way)
        self.origins = [namespaces.socket_in(inner, side.device) for side in devices]
        # Each client has two ports, since it is its address that counts.
        self.clients = []
        for side in [*sides, *sides]:
            self.clients += [namespaces.socket_in(far, side.client.format(number)) for number in range(1, CLIENTS + 1)]
            for client in self.clients[-CLIENTS:]:
                client.connect((side.asked, links.PORT))
        self.everyone = range(len(self.clients) // 2)

    def inside(self, *words):
        """The words that have a command run where the instances are."""
        return ["ip", "netns", "exec", self.near, *words]

    def write(self, *more):
        """Has tools/spread write all files, and the table be loaded. The first device is /d0."""
        hosts = [f"[{side.device}]" if ":" in side.device else side.device for side in self.devices]
        uris = [f"coap://{host}:{origin.getsockname()[1]}/" for host, origin in zip(hosts, self.origins)]
        maps = "".join(f'[[map]]\nprefix = "/d{number}"\norigin = "{uri}"\n' for number, uri in enumerate(uris))
        config = self.stage.file("p.toml", f"version = 1\n{maps}")
        places = [word for side in self.sides for word in ("--address", side.asked)]
        words = [sys.executable, SCRIPT, str(INSTANCES), *places, "--config", config, *more]
        subprocess.run(words, env=self.settings, stdout=subprocess.DEVNULL, check=True, timeout=20)
        if not namespaces.run(*self.inside("nft", "-f", self.rules())):
            raise Skipped("this system doesn't load the table of tools/spread")

    def start(self, number):
        """Starts an instance, as the unit would."""
        with open(os.path.join(self.stage.folder, f"etc/default/coap-proxyd-spread{number}")) as lines:
            place = dict(line.strip().split("=") for line in lines)
        config = os.path.join(self.stage.folder, f"etc/coap-proxyd/spread{number}.toml")
        words = ["-A", place["ADDRESS"], "-p", place["PORT"], "--config", config, place["OPTIONS"]]
        self.instances[number] = self.stage.start(self.inside(*self.stage.program, *words))

    def rules(self):
        """The file with the table."""
        return os.path.join(self.stage.folder, "etc/coap-proxyd/spread.nft")

    def checked(self):
        """The status of tools/spread --check, and its lines."""
        words = self.inside(sys.executable, SCRIPT, "--check")
        done = subprocess.run(words, env=self.settings, stdout=subprocess.PIPE, universal_newlines=True, timeout=60)
        return done.returncode, done.stdout.splitlines()

    def check(self):
        """The status of tools/spread --check, and the instances that it says are there."""
        status, lines = self.checked()
        return status, [line.split(",")[0] for line in lines if line.endswith(": there")]

    def start_late(self, numbers):
        """Starts instances while tools/spread --check asks for them, which finds them all the same."""
        starting = threading.Timer(1.5, lambda: [self.start(number) for number in numbers])
        starting.start()
        try:
            everyone = [*(f"spread{number}" for number in range(1, INSTANCES + 1)), "the balancer"]
            expect("what is found of instances that start late", (0, everyone * len(self.sides)), self.check())
        finally:
            starting.join()

    def answer_origin(self, device):
        """Answers what a device is asked with the port that asks, which must be that of the host in its network."""
        data, source = self.origins[device].recvfrom(2_000)
        expect("which address of the host a device sees", self.devices[device].seen, source[0])
        asked = read(data)
        options = [(MAX_AGE, b"\x3c")]
        answer = message(ACK, CONTENT, asked.message_id, asked.token, options, str(source[1]).encode())
        self.origins[device].sendto(answer, source)

    def receive(self, client, device):
        """The answer that a client gets, as bytes; a separate one is acknowledged."""
        data = client.recv(2_000)
        if read(data).code == EMPTY:
            self.answer_origin(device)
            data = client.recv(2_000)
            client.send(message(ACK, EMPTY, read(data).message_id))
        expect("the code of an answer", code_name(CONTENT), code_name(read(data).code))
        return data

    def ask(self, number, message_id, device=0):
        """Has a client ask for a device, and returns what it gets. The port of its instance is the payload."""
        self.clients[number].send(message(CON, GET, message_id, b"\xaa", path(f"d{device}")))
        return self.receive(self.clients[number], device)

    def ports(self, message_id, numbers, device=0):
        """The ports of the instances that these clients have, by client."""
        return {number: int(read(self.ask(number, message_id, device)).payload) for number in numbers}


def expect_awaited(spread):
    """Has the unit start behind all instances, so that its start ends when they listen."""
    with open(os.path.join(spread.stage.folder, "etc/systemd/system/coap-proxyd-spread.service")) as file:
        lines = dict(line.strip().split("=", 1) for line in file if line.startswith(("Wants=", "After=")))
    units = " ".join(f"coap-proxyd@spread{number}.service" for number in range(1, INSTANCES + 1))
    expect("what the unit starts and waits for", {"Wants": units, "After": units}, lines)


def expect_same_from_other_ports(spread, ports):
    """Has each client have the same instance from another port."""
    count = len(spread.everyone)
    others = spread.ports(1, range(count, 2 * count))
    expect("who has which from another port", ports, {number - count: port for number, port in others.items()})


def expect_duplicates(spread):
    """Has each client get the same bytes for the same message again, a second later."""
    first = [spread.ask(number, 2) for number in spread.everyone]
    time.sleep(1.1)
    expect("what duplicates get", first, [spread.ask(number, 2) for number in spread.everyone])


def expect_others_served(spread, ports):
    """Ends an instance, has the clients of the others be answered, and then its own, too, once it is started again."""
    end(spread.instances[2])
    expect("which instances are there", ["spread1", "spread3"], [it for it in spread.check()[1] if it.startswith("spread")])
    others = [number for number, port in ports.items() if port != FIRST + 1]
    expect("who has which", {number: ports[number] for number in others}, spread.ports(3, others))
    spread.start_late([2])
    expect("who has which after a start", ports, spread.ports(4, ports))


def expect_nothing_sent_to_many(spread, far):
    """Has no instance answer what is sent to all hosts or to a group, as none does that binds one address."""
    def to_group():
        it = udp("::")
        it.setsockopt(socket.IPPROTO_IPV6, socket.IPV6_MULTICAST_IF, socket.if_nametoindex("far"))
        return it

    every, group = namespaces.socket_in(far, "0.0.0.0"), namespaces.made_in(far, to_group)
    every.setsockopt(socket.SOL_SOCKET, socket.SO_BROADCAST, 1)
    for client, address in ((every, "192.0.2.255"), (group, "ff02::1")):
        client.sendto(message(CON, GET, 1, b"\xaa", path("nothing")), (address, FIRST))
        came = namespaces.received(client, SILENCE)
        expect(f"what is answered to {address}", None, came and code_name(read(came[0]).code))
        client.close()


def expect_told_of_connections(spread):
    """Has tools/spread --check say how many connections the kernel tracks: one for each port of a client at least."""
    found = re.fullmatch("connections: the kernel tracks ([0-9]+) of at most [0-9]+", spread.checked()[1][-1])
    least = len(spread.clients)
    expect("whether all are among what it tracks", True, found is not None and least <= int(found[1]) <= 2 * least)


def expect_flush_told(spread):
    """Has tools/spread --check say of a table that was flushed by what it is loaded again."""
    namespaces.run(*spread.inside("nft", "flush", "ruleset"))
    status, lines = spread.checked()
    told = [line for line in lines if line.endswith(f": nft -f {spread.rules()}")]
    expect("what is said of each family's table", (1, len(spread.sides)), (status, len(told)))


def expect_removed(spread):
    """Has tools/spread remove all that it wrote, and what instances leave: counts, and links to these."""
    counts, exporter = "run/coap-proxyd", "var/lib/prometheus/node-exporter"
    path, link = (os.path.join(spread.stage.folder, it, "coap-proxyd@spread1.prom") for it in (counts, exporter))
    for it in (path, link):
        os.makedirs(os.path.dirname(it))
    with open(path, "w"):
        os.symlink(path, link)
    words = [sys.executable, SCRIPT, "--remove"]
    subprocess.run(words, env=spread.settings, stdout=subprocess.DEVNULL, check=True, timeout=20)
    left = [name for _, _, names in os.walk(spread.stage.folder) for name in names]
    expect("what is left of it", ["p.toml"], left)


def expect_spread(spread):
    """Has clients be spread over instances, each of which is used by clients of each family."""
    spread.write()
    expect_awaited(spread)
    spread.start_late(range(1, INSTANCES + 1))
    ports = spread.ports(1, spread.everyone)
    for side in range(len(spread.sides)):
        used = {ports[number] for number in spread.everyone[side * CLIENTS : (side + 1) * CLIENTS]}
        expect("which instances are used", {FIRST + number for number in range(INSTANCES)}, used)
    expect_same_from_other_ports(spread, ports)
    expect_duplicates(spread)
    expect_told_of_connections(spread)
    return ports


def gives_each_client_one_instance(program):
    """Has clients be spread over instances, in namespaces of their own."""
    if shutil.which("nft") is None:
        raise Skipped("there is no nft")
    with links.slow_link("1gbit") as (near, far), Stage(program) as stage:
        spread = Spread(stage, near, far, near, ONE, ONE)
        ports = expect_spread(spread)
        expect_others_served(spread, ports)
        expect_removed(spread)


def serves_both_families(program):
    """Has clients of both families get what devices of both have, which are in a network of their own. They are
    connected, so that they get no answer from another address than the one that they ask."""
    with namespaces.namespaces(3, lines_of, "nft", "sysctl") as (near, far, inner), Stage(program) as stage:
        spread = Spread(stage, near, far, inner, BOTH, BOTH)
        ports = expect_spread(spread)
        expect("who has which for the other device", ports, spread.ports(3, spread.everyone, device=1))
        expect_nothing_sent_to_many(spread, far)
        expect_flush_told(spread)
        expect_removed(spread)


def reaches_other_networks(program, bound, devices):
    """Has IPv4 clients get what these devices have, where the instances bind all addresses of IPv4, or of both."""
    with namespaces.namespaces(3, lines_of, "nft", "sysctl") as (near, far, inner), Stage(program) as stage:
        spread = Spread(stage, near, far, inner, BOTH[:1], devices)
        spread.write("--bind", bound)
        spread.start_late(range(1, INSTANCES + 1))
        for device in range(len(devices)):
            ports = spread.ports(device, spread.everyone, device)
            expect("which instances are used", {FIRST + number for number in range(INSTANCES)}, set(ports.values()))


# What instances bind that a single address is given for, with the devices that they reach.
BOUND = {"0.0.0.0": BOTH[:1], "::": BOTH}
