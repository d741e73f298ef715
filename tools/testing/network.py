"""Endpoints on the loopback, and programs that serve them for as long as a case needs them."""

import itertools
import math
import os
import random
import re
import shutil
import signal
import socket
import struct
import subprocess
import tempfile
import time
from collections import namedtuple

from testing.coap import ACK, CON, EMPTY, MAX_AGE, NON, message, number, number_bytes, read
from testing.telling import datagram_text, difference_text, parts_text

# How long a datagram that must come may take, and how long it is watched that none comes, in seconds. The machine may
# be loaded.
PATIENCE, SILENCE = 6.0, 0.4

# The Linux option that has each datagram come with the moment of its arrival, and the form of that moment.
SO_TIMESTAMPNS, TIMESPEC = 35, struct.Struct("@ll")

# A message that was sent or came: as a message and as bytes, the other address, and the moment on the system's clock.
Came = namedtuple("Came", "message data source at")
# A response of an origin: its Max-Age, a moment before the proxy got it, one after that, if there is one yet, and how
# many proxies it passes.
Life = namedtuple("Life", "max_age sent seen proxies", defaults=(None, 1))

# What must hold: a name, a function that tries it on a stage, and the stand-ins that it must find wrong.
Case = namedtuple("Case", "name function stand_ins")

# What is told of a program that has ended, and of one whose output isn't looked at.
RESULT = ("the status", "standard output", "standard error")
FAULT = RESULT[::2]


class Failed(Exception):
    """What a case expected, and what came."""


class Skipped(Exception):
    """Why a case can't be tried here."""


class Broken(Exception):
    """Why a program couldn't be tested at all."""


def case_list():
    """A list of cases, and what a function is marked with to be among them: the stand-ins that it must find wrong, of
    which there is at least one."""
    cases = []

    def case(stand_in, *more):
        def note(function):
            cases.append(Case(function.__name__, function, (stand_in, *more)))
            return function

        return note

    return cases, case


def expect(what, wanted, came, *labels):
    """Fails where something isn't as wanted. If its parts have labels, those are told that differ."""
    if wanted == came:
        return
    parts = zip((f"{label}: " for label in labels), wanted, came) if labels else [("", wanted, came)]
    told = (f"{label}{difference_text(one, other)}" for label, one, other in parts if one != other)
    raise Failed(f"{what}: {'; '.join(told)}")


def expect_in(what, part, whole):
    """Fails where a text or a list doesn't have this part."""
    if part not in whole:
        raise Failed(f"{what}: expected {part!r} in it, got {whole!r}")


def expect_like(what, pattern, lines):
    """Fails where none of these lines begins as a regular expression says."""
    if not any(re.match(pattern, line) for line in lines):
        raise Failed("\n  ".join([f"{what}: expected a line like {pattern!r}, got", *lines]))


def expect_datagram(what, wanted, came):
    """Fails where a datagram doesn't have these very bytes."""
    if wanted != came:
        raise Failed(f"{what}: expected {datagram_text(wanted)}; got {datagram_text(came)} (0x{wanted.hex()}, 0x{came.hex()})")


def expect_message(what, came, **parts):
    """Fails where a message has other parts than these, which have the names of its fields."""
    if any(getattr(came.message, name) != value for name, value in parts.items()):
        raise Failed(f"{what}: expected {parts_text(parts)}; got {datagram_text(came.data)}")


def expect_between(what, least, most, came):
    """Fails where a number isn't within bounds."""
    if not least <= came <= most:
        raise Failed(f"{what}: expected {least} to {most}, got {came}")


def left(max_age, age):
    """What is left of a Max-Age after so many seconds: an age is rounded up."""
    return max(0, max_age - max(0, math.ceil(age)))


def expect_age(life, asked, came):
    """Fails where a response that came at some moment to a request of an earlier one doesn't have the Max-Age that is
    left of this life. The proxy's clock may differ by a millisecond or two, and each proxy rounds up an age."""
    values = [value for option, value in came.message.options if option == MAX_AGE]
    expect("how many Max-Age it has", 1, len(values))
    shortest = 0 if life.seen is None else asked - life.seen
    least = left(life.max_age - life.proxies + 1, came.at - life.sent + 0.002)
    most = left(life.max_age, shortest - 0.002)
    expect_between("Max-Age", least, most, number(values[0]))
    expect("the bytes of Max-Age", number_bytes(number(values[0])), values[0])


class Peer:
    """A UDP socket on the loopback: a client, an origin or a stranger."""

    def __init__(self, host, to=None):
        self.socket = udp(host)
        self.socket.bind((host, 0))
        self.socket.setsockopt(socket.SOL_SOCKET, SO_TIMESTAMPNS, 1)
        self.host, self.port = host, self.socket.getsockname()[1]
        self.authority = f"[{host}]:{self.port}" if ":" in host else f"{host}:{self.port}"
        self.to, self.random = to, random.Random()
        self.next_id = self.random.randrange(0x10000)

    def new_id(self):
        """A Message ID that this socket hasn't used yet."""
        self.next_id = (self.next_id + 1) % 0x10000
        return self.next_id

    def send(self, data, to=None):
        """Sends a datagram, and returns the moment just before."""
        at = time.time()
        self.socket.sendto(data, to or self.to)
        return at

    def poll(self, seconds):
        """The next datagram that comes within so many seconds, if one does, where it came from, and when."""
        self.socket.settimeout(max(seconds, 0.001))
        try:
            data, more, _, source = self.socket.recvmsg(65_536, 64)
        except socket.timeout:
            return None
        at = time.time()
        if more:
            seconds, nanoseconds = TIMESPEC.unpack(more[0][2][: TIMESPEC.size])
            at = seconds + nanoseconds / 1e9
        return data, source[:2], at

    def receive(self, what="a message", seconds=PATIENCE):
        """The next datagram, which must come, and be a message."""
        came = self.poll(seconds)
        if came is None:
            raise Failed(f"expected {what}, got nothing for {seconds} s")
        try:
            return Came(read(came[0]), *came)
        except ValueError:
            raise Failed(f"expected {what}, got {datagram_text(came[0])}") from None

    def expect_bytes(self, what, data):
        """Has the next datagram be these very bytes."""
        came = self.receive(what)
        expect_datagram(what, data, came.data)
        return came

    def expect_silence(self, what, seconds=SILENCE):
        """Has no datagram come for a while."""
        came = self.poll(seconds)
        if came is not None:
            raise Failed(f"{what}: expected nothing, got {datagram_text(came[0])}")

    # As a client.

    def request(self, code, options=(), payload=b"", kind=CON):
        """Sends a request, and returns it."""
        token = bytes(self.random.randrange(256) for _ in range(self.random.choice((1, 2, 4, 8))))
        data = message(kind, code, self.new_id(), token, options, payload)
        return Came(read(data), data, self.to, self.send(data))

    def expect_acknowledgement(self, request):
        """Has the next datagram be an Empty acknowledgement of a request."""
        return self.expect_bytes("an acknowledgement", message(ACK, EMPTY, request.message.message_id))

    def expect_response(self, request, code, options=(), payload=b"", life=None):
        """Has the next datagram answer a request: in its acknowledgement, or in a Non-confirmable message. If it has
        a life, there must also be the Max-Age that is left of it."""
        kind = ACK if request.message.kind == CON else NON
        came = self.receive("a response")
        check_response(came, kind, request, code, options, payload, life)
        if kind == ACK:
            expect_message("the response", came, message_id=request.message.message_id)
        return came

    def expect_separate(self, request, code, options=(), payload=b"", life=None):
        """Has the next datagram answer a request in a Confirmable message, and acknowledges that."""
        came = self.receive("a separate response")
        check_response(came, CON, request, code, options, payload, life)
        self.send(message(ACK, EMPTY, came.message.message_id))
        return came

    def expect_late(self, request, *answer, **more):
        """Has what answers a request that was forwarded: a Confirmable one is acknowledged, and answered separately."""
        if request.message.kind == NON:
            return self.expect_response(request, *answer, **more)
        self.expect_acknowledgement(request)
        return self.expect_separate(request, *answer, **more)

    # As an origin.

    def expect_request(self, code, options=(), payload=b""):
        """Has the next datagram be a request of the proxy."""
        came = self.receive("a request")
        expect_message("a request", came, kind=CON, code=code, options=in_order(options), payload=payload)
        expect("how long the token of a request is", 8, len(came.message.token))
        return came

    def answer(self, request, code, options=(), payload=b"", kind=ACK):
        """Answers a request of the proxy, and returns the message with its moment."""
        message_id = request.message.message_id if kind == ACK else self.new_id()
        data = message(kind, code, message_id, request.message.token, options, payload)
        return Came(read(data), data, request.source, self.send(data, request.source))

    def acknowledge(self, request, kind=ACK):
        """Acknowledges or rejects a message by an Empty one."""
        self.send(message(kind, EMPTY, request.message.message_id), request.source)


def in_order(options):
    """Options by their numbers. Those of one number stay in their order."""
    return sorted(options, key=lambda it: it[0])


def check_response(came, kind, request, code, options, payload, life):
    """Fails where a message isn't this response to a request."""
    wanted = in_order(options)
    if life is not None:
        # Its Max-Age is looked at by itself.
        wanted = in_order(wanted + [it for it in came.message.options if it[0] == MAX_AGE])
    parts = {"kind": kind, "code": code, "token": request.message.token, "options": wanted, "payload": payload}
    expect_message("the response", came, **parts)
    if life is not None:
        expect_age(life, request.at, came)


# What was started and isn't ended yet, and whether no more is to be started.
STARTED, ENDING = set(), []


class Stage:
    """What one case has on the loopback. All of it is ended and removed when the case is done."""

    def __init__(self, program):
        self.program = program
        # An address that hardly any other case has, so that none takes a port which another is about to use.
        self.host = "127.%d.%d.%d" % tuple(random.randrange(64, 255) for _ in range(3))
        self.folder = tempfile.mkdtemp(prefix="coap-proxyd-test-")
        self.peers, self.programs = [], []

    def __enter__(self):
        return self

    def __exit__(self, *_):
        for process in self.programs:
            end(process)
        for peer in self.peers:
            peer.socket.close()
        shutil.rmtree(self.folder)
        if any(process.returncode == os.EX_SOFTWARE for process in self.programs):
            raise Broken("a stand-in ended with an error of its own")

    def peer(self, host=None, to=None):
        """A socket, which sends to this address if nothing else is said."""
        self.peers.append(Peer(host or self.host, to))
        return self.peers[-1]

    def file(self, name, text):
        """Puts a text into a file, and returns its path."""
        path = os.path.join(self.folder, name)
        with open(path, "w", encoding="utf-8") as file:
            file.write(text)
        return path

    def start(self, words, output=subprocess.DEVNULL):
        """Starts a program in a session of its own."""
        if ENDING:
            raise Broken("the test is ending")
        process = subprocess.Popen(
            words, stdin=subprocess.DEVNULL, stdout=output, stderr=output, cwd=self.folder, start_new_session=True
        )
        self.programs.append(process)
        STARTED.add(process)
        return process

    def proxy(self, *words, config=None, host=None, version=1, output=subprocess.DEVNULL):
        """Starts the program at a free port, with a configuration of this version if there is one. Returns its address
        once it is ready."""
        host = host or self.host
        if config is not None:
            words += ("--config", self.file(f"proxy-{len(self.programs)}.toml", f"version = {version}\n{config}"))
        for _ in range(5):
            port = free_port()
            process = self.start([*self.program, "-A", host, "-p", str(port), *words], output)
            if self.is_ready(process, (host, port)):
                return host, port
        raise Broken("the program didn't serve any of five ports")

    def is_ready(self, process, address):
        """Whether a program comes to reject an Empty Confirmable message, or ends before."""
        peer, until = self.peer("::1" if ":" in address[0] else None, address), time.monotonic() + 20
        while process.poll() is None and time.monotonic() < until:
            peer.send(message(CON, EMPTY, peer.new_id()))
            if peer.poll(0.05) is not None:
                return True
        return False

    def mapped(self, limits="", host=None, version=1):
        """A proxy that maps /t to /temp of an origin, with these lines of limits; a client; and the origin."""
        origin = self.peer(host)
        config = f"[limits]\n{limits}\n" if limits else None
        proxy = self.proxy("--map", f"/t=coap://{origin.authority}/temp", config=config, host=host, version=version)
        return proxy, self.peer(host, proxy), origin


def udp(host):
    """A UDP socket for an address of this family."""
    return socket.socket(socket.AF_INET6 if ":" in host else socket.AF_INET, socket.SOCK_DGRAM)


# Ports for programs, each of which is named once in a round. Linux has none of them for a socket that asks for any port,
# so that no client or origin takes it before the program that is told of it does. Each process begins somewhere else.
PORTS = range(18000, 32000)
NEXT_PORT = itertools.cycle(random.sample(PORTS, len(PORTS)))


def taken_ports():
    """The UDP ports that sockets of this host have. Binding one to find out would keep it from its program, as long as a
    program that another thread starts in that moment has a copy of the socket."""
    taken = set()
    for name in ("/proc/net/udp", "/proc/net/udp6"):
        if os.path.exists(name):
            with open(name, encoding="ascii") as file:
                taken.update(int(line.split()[1].rpartition(":")[2], 16) for line in file.readlines()[1:])
    return taken


def free_port():
    """A port that was free a moment ago."""
    taken = taken_ports()
    for _ in PORTS:
        port = next(NEXT_PORT)
        if port not in taken:
            return port
    raise Broken("no port is free")


def has_ipv6():
    """Whether there is ::1."""
    try:
        with udp("::1") as probe:
            probe.bind(("::1", 0))
            return True
    except OSError:
        return False


def end(process):
    """Ends a program that was started in a session of its own, and what it started."""
    if process.poll() is None:
        process.terminate()
        try:
            process.wait(5)
        except subprocess.TimeoutExpired:
            os.killpg(process.pid, signal.SIGKILL)
            process.wait()
    for stream in (process.stdout, process.stderr):
        if stream is not None:
            stream.close()
    STARTED.discard(process)


def end_all():
    """Ends all that was started, and has nothing more start."""
    ENDING.append(True)
    for process in list(STARTED):
        end(process)
