"""What must hold of the rules in examples/coap-proxyd.nft: who isn't listed gets neither an answer nor a request, of one
instance, of those that tools/spread writes and of those of tools/fleet, over IPv4 and over IPv6, and no answer of a
container; and who is listed sends no more than that, from whatever ports."""

import os
import re
import subprocess
import sys
import time
from collections import namedtuple

from checking import firewall
from reading.messages import code_name
from testing.coap import ACK, CON, CONTENT, EMPTY, GET, MAX_AGE, RST, message, read
from testing.namespaces import join, namespaces, received, run, socket_in
from testing.network import SILENCE, Broken, Failed, Skipped, Stage, expect, expect_between
from testing.script import TOP
from testing.steps import path

# The host with the proxies, the end of the link to it, and addresses at that end which the example lists, or doesn't.
Hosts = namedtuple("Hosts", "here there device dashboard listed stranger unlisted")
FOUR = Hosts("192.0.2.1", "192.0.2.2", "192.0.2.7", "192.0.2.10", "198.51.100.9", "192.0.2.8", "203.0.113.9")
SIX = Hosts(*(f"2001:db8:{it}" for it in (":1", ":2", ":7", ":10", "1::9", ":8", "2::9")))
PORT = 5683
RULES = os.path.join(TOP, "examples", "coap-proxyd.nft")

# The address of a container, and the table by which its port is published.
INNER = "10.88.0.2"
PUBLISHED = f"""table ip published {{
    chain arriving {{
        type nat hook prerouting priority dstnat
        udp dport {PORT} dnat to {INNER}:{PORT}
    }}
    chain leaving {{
        type nat hook postrouting priority srcnat
        ip saddr {INNER} masquerade
    }}
}}
"""
MAP = '[[map]]\nprefix = "{}"\norigin = "{}"\n'
# Proxies that run: at which ports, and the paths of the device and of the stranger.
Running = namedtuple("Running", "ports device stranger")


def lines_of(near, far):
    """The commands that make the namespace of the proxies and that of all others."""
    yield from join(near, far, ("near", "far"), FOUR[:2])
    yield ("ip", "-n", near, "addr", "add", f"{SIX.here}/64", "dev", "near", "nodad")
    for address in FOUR[2:]:
        yield ("ip", "-n", far, "addr", "add", f"{address}/24", "dev", "far")
    for address in SIX[1:]:
        yield ("ip", "-n", far, "addr", "add", f"{address}/64", "dev", "far", "nodad")
    for network in ("198.51.100.0/24", "2001:db8:1::/64"):
        yield ("ip", "-n", far, "route", "add", "local", network, "dev", "lo")
    yield ("ip", "netns", "exec", far, "sysctl", "-w", "net.ipv6.ip_nonlocal_bind=1")
    for network in ("198.51.100.0/24", "203.0.113.0/24"):
        yield ("ip", "-n", near, "route", "add", network, "via", FOUR.there)
    for network in ("2001:db8:1::/64", "2001:db8:2::/64"):
        yield ("ip", "-n", near, "route", "add", network, "via", SIX.there)


def uri_host(address):
    """An address as it stands in a URI."""
    return f"[{address}]" if ":" in address else address


class Site:
    """A host with the rules of the example as they stand, clients, a device and a stranger."""

    def __init__(self, stage, near, far, hosts=FOUR):
        self.stage, self.near, self.hosts = stage, near, hosts
        self.sockets = {name: socket_in(far, name) for name in hosts[2:]}
        self.asking, self.asked = socket_in(far, hosts.dashboard), 0
        asked = (hosts.device, hosts.stranger)
        self.uris = {it: f"coap://{uri_host(it)}:{self.sockets[it].getsockname()[1]}/" for it in asked}
        self.load(RULES)

    def load(self, rules):
        """Loads rules on the host."""
        if not run("ip", "netns", "exec", self.near, "nft", "-f", rules):
            raise Skipped(f"this system doesn't load {os.path.basename(rules)}")

    def tool(self, name, *words):
        """Runs a tool, which writes below the folder of the stage."""
        settings = {**os.environ, "DESTDIR": self.stage.folder}
        words = [sys.executable, os.path.join(TOP, "tools", name), *words]
        done = subprocess.run(words, env=settings, stdout=subprocess.PIPE, universal_newlines=True, timeout=50)
        expect(f"the status of {name}", 0, done.returncode)
        expect(f"whether {name} says that the rules hold", True, "The rules of coap-proxyd.nft hold" in done.stdout)

    def start(self, address, port, config):
        """Starts an instance."""
        words = ["-A", address, "-p", str(port), "--config", config]
        self.stage.start(["ip", "netns", "exec", self.near, *self.stage.program, *words])

    def start_all(self, folder, names, configs):
        """Starts the instances whose files are in a folder, and returns their ports."""
        ports = []
        for name in names:
            with open(os.path.join(folder, f"coap-proxyd-{name}")) as lines:
                place = dict(line.strip().split("=") for line in lines)
            ports.append(int(place["PORT"]))
            self.start(place["ADDRESS"], place["PORT"], os.path.join(configs, f"{name}.toml"))
        return ports

    def config(self):
        """A configuration with a map for the device and one for the stranger."""
        maps = (("/t", self.uris[self.hosts.device]), ("/u", self.uris[self.hosts.stranger]))
        return self.stage.file("p.toml", "version = 2\n" + "".join(MAP.format(*it) for it in maps))

    def wait(self, ports):
        """Waits until a proxy answers at each of these ports, which another port of the dashboard asks."""
        client, until = self.asking, time.monotonic() + 20
        for port in ports:
            self.asked += 1
            while True:
                if time.monotonic() > until:
                    raise Broken(f"no proxy is at port {port}")
                client.sendto(message(CON, EMPTY, self.asked), (self.hosts.here, port))
                came = received(client, 0.1)
                if came and read(came[0]).kind == RST and read(came[0]).message_id == self.asked:
                    break

    def ask(self, name, port, segments, message_id):
        """Has a client send a request."""
        self.sockets[name].sendto(message(CON, GET, message_id, b"\xaa", path(*segments)), (self.hosts.here, port))


def one(site):
    """One instance."""
    site.start(site.hosts.here, PORT, site.config())
    return Running([PORT], ["t"], ["u"])


def spread(site, *more):
    """Three instances of tools/spread, of which this client has one."""
    site.tool("spread", "3", "--address", site.hosts.here, "--config", site.config(), *more)
    etc = os.path.join(site.stage.folder, "etc")
    site.load(os.path.join(etc, "coap-proxyd", "spread.nft"))
    names = [f"spread{number}" for number in (1, 2, 3)]
    ports = site.start_all(os.path.join(etc, "default"), names, os.path.join(etc, "coap-proxyd"))
    return Running([PORT, *ports], ["t"], ["u"])


def spread_of_both(site):
    """Three of them that serve the other family, too."""
    return spread(site, "--address", (SIX if site.hosts is FOUR else FOUR).here)


def fleet(site):
    """The two instances of tools/fleet, for the device and the stranger."""
    sensors = site.stage.file("sensors", f"t {site.uris[site.hosts.device]}\nu {site.uris[site.hosts.stranger]}\n")
    folder = os.path.join(site.stage.folder, "fleet")
    site.tool("fleet", sensors, folder, "--address", site.hosts.here)
    return Running(site.start_all(folder, ["front", "g1"], folder), ["g1", "t"], ["g1", "u"])


def expect_listed_served(site, running):
    """Has a client that is listed get what the device has, which is listed, too."""
    client, device = site.sockets[site.hosts.listed], site.sockets[site.hosts.device]
    site.ask(site.hosts.listed, PORT, running.device, 1)
    asked = received(device, 5)
    if asked is None:
        raise Failed("expected a request at the device, got none for 5 s")
    request = read(asked[0])
    answer = message(ACK, CONTENT, request.message_id, request.token, [(MAX_AGE, b"\x3c")], b"21")
    device.sendto(answer, asked[1])
    codes = []
    while CONTENT not in codes:
        came = received(client, 5)
        if came is None:
            raise Failed(f"expected an answer of the device, got {list(map(code_name, codes))}")
        codes.append(read(came[0]).code)
        if read(came[0]).kind == CON:
            client.sendto(message(ACK, EMPTY, read(came[0]).message_id), came[1])


def expect_stranger_silent(site, running):
    """Has the stranger get no request."""
    site.ask(site.hosts.listed, PORT, running.stranger, 2)
    came = received(site.sockets[site.hosts.listed], 5)
    expect("whether a request for the stranger is taken", (ACK, EMPTY), came and read(came[0])[:2])
    came = received(site.sockets[site.hosts.stranger], SILENCE)
    expect("what a host gets that isn't listed", None, came and code_name(read(came[0]).code))


def expect_unlisted_silent(site, running):
    """Has a client that isn't listed get no answer, at any port."""
    for number, port in enumerate(running.ports):
        site.ask(site.hosts.unlisted, port, running.device, number)
    came = received(site.sockets[site.hosts.unlisted], SILENCE)
    expect("what a client gets that isn't listed", None, came and code_name(read(came[0]).code))


def holds(program, start, hosts):
    """Has the rules hold for proxies that are started so, at the addresses of a family."""
    with namespaces(2, lines_of, "nft", "sysctl") as (near, far), Stage(program) as stage:
        site = Site(stage, near, far, hosts)
        running = start(site)
        site.wait(running.ports)
        expect_listed_served(site, running)
        expect_stranger_silent(site, running)
        expect_unlisted_silent(site, running)


def published_lines_of(near, far, inner):
    """The same, with a namespace of a container in that of the host."""
    yield from lines_of(near, far)
    yield from join(near, inner, ("in", "out"), ("10.88.0.1", INNER))
    yield ("ip", "-n", inner, "route", "add", "default", "via", "10.88.0.1")
    yield ("ip", "netns", "exec", near, "sysctl", "-w", "net.ipv4.ip_forward=1")


def holds_for_a_published_port(program):
    """Has the rules keep a client that isn't listed from a container whose port is published, as podman does it."""
    with namespaces(3, published_lines_of, "nft", "sysctl") as (near, far, inner), Stage(program) as stage:
        site = Site(stage, near, far)
        with open(RULES) as file:
            forward = re.sub("(?m)^    #(chain forward|    |})", r"    \1", file.read())
        expect("whether the rules have the chain", True, "\n    chain forward {\n" in forward)
        site.load(stage.file("forward.nft", forward))
        site.load(stage.file("published.nft", PUBLISHED))
        words = ["-A", "0.0.0.0", "-p", str(PORT), "--config", site.config()]
        stage.start(["ip", "netns", "exec", inner, *program, *words])
        running = Running([PORT], ["t"], ["u"])
        site.wait(running.ports)
        expect_listed_served(site, running)
        expect_unlisted_silent(site, running)


def answered(site, sockets, count):
    """Has each socket send so many requests, and returns how many of them are answered. They are sent as fast as the
    proxy takes them, whose buffer holds 250."""
    sent = 0
    for number in range(count):
        for client in sockets:
            client.sendto(message(CON, GET, number, b"\xaa", path("nothing")), (site.hosts.here, PORT))
            sent += 1
            if sent % 100 == 0:
                site.wait([PORT])
    came = 0
    for client in sockets:
        while received(client, SILENCE if client is sockets[0] else 0.001):
            came += 1
    return came


def bounds_an_address_and_all_together(program, hosts, network):
    """Has an address with many ports send no more than one with one, and many addresses no more than they may together,
    while a dashboard is answered."""
    with namespaces(2, lines_of, "nft", "sysctl") as (near, far), Stage(program) as stage:
        site = Site(stage, near, far, hosts)
        site.start(hosts.here, PORT, stage.file("p.toml", "version = 2\n"))
        site.wait([PORT])
        ports = [socket_in(far, network.format(200)) for _ in range(30)]
        expect_between("how many messages of an address are answered", 10, 14, answered(site, ports, 10))
        addresses = [socket_in(far, network.format(number)) for number in range(1, 151)]
        expect_between("how many of 150 addresses", 480, 600, answered(site, addresses, 10))
        expect("how many of a dashboard", 200, answered(site, [site.sockets[hosts.dashboard]], 200))
        for client in ports + addresses:
            client.close()


def the_tools_know_the_ports(_):
    """Has the ports of the rules be those that the tools know."""
    with open(RULES) as file:
        text = file.read()
    ports = f"{firewall.PORTS[0]}-{firewall.PORTS[-1]}"
    expect("whether the rules have these ports", True, f"flags interval\n        elements = {{ {ports} }}" in text)
    said = "In coap-proxyd.nft the set `ports` must have 6000-6071, or these rules let everybody in."
    expect("what is said of others", [None, said], [firewall.advice(5_683, 5_754), firewall.advice(6_000, 6_071)])


KINDS = [(start, FOUR) for start in (one, spread, spread_of_both, fleet)]
KINDS += [(start, SIX) for start in (one, spread_of_both, fleet)]
# Each with a network of clients that the example lists.
FAMILIES = [(FOUR, "198.51.100.{}"), (SIX, "2001:db8:1::{}")]
