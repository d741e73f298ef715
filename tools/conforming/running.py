"""The proxy that is tried: one that runs already, or one that a command starts, and starts again if it ends."""

import os
import queue
import random
import re
import shutil
import subprocess
import tempfile
import threading
import time
from collections import namedtuple

from conforming import wire
from conforming.cases import WAYS, Broken, NotKept, NotOffered
from conforming.endpoints import Client
from conforming.stage import Stage
from conforming.wire import CON, EMPTY, GET
from testing.network import STARTED, end, free_port

# How a proxy is reached: the words that start it, or none; its address; the name that it is known by, or none; whether
# it is a forward-proxy; its prefixes, each with the origin's address, as texts with places; the text of a file for it,
# or none, in which a place is written like @port@; the words that start it with a next proxy, or none; and another
# name that it knows with its address, as a text with places like NAME=ADDRESS, or none; and whether all is over IPv6.
Setup = namedtuple(
    "Setup", "command host port name is_forward prefixes file chained known is_v6", defaults=(None, (), None, False)
)
# How many origins a command has places for: {origin}, {origin2} ..
ORIGINS = 24
# How long a proxy may take until it answers after its start, and while cases are played, in seconds.
READY, STILL_READY = 20, 6


class Lease:
    """A prefix of a reverse-proxy, and the origin that it leads to, for one case at a time."""

    def __init__(self, text):
        prefix, _, origin = text.partition("=")
        authority, _, base = origin.replace("coap://", "", 1).partition("/")
        host, _, port = authority.rpartition(":")
        if not prefix.startswith("/") or not port.isdigit():
            raise Broken(f"{text} isn't PREFIX=ADDRESS:PORT")
        self.prefix, self.host, self.port = segments_of(prefix), host.strip("[]"), int(port)
        self.base, self.endpoint = segments_of(base), None


def segments_of(path):
    """The segments of a path, without the slash before it and one behind it."""
    return [it.encode() for it in path.strip("/").split("/") if it]


def loopback(is_v6):
    """An address that hardly anybody else has; of IPv6 there is one."""
    return "::1" if is_v6 else "127.%d.%d.%d" % tuple(random.randrange(64, 255) for _ in range(3))


class Proxy:
    """A proxy, and what it offers. It may take `ready` seconds until it answers after its start."""

    ready = READY

    def __init__(self, setup, scale=1.0, offers=()):
        self.setup, self.scale, self.offers = setup, scale, set(offers)
        self.name = setup.name
        self.lock, self.count, self.process = threading.Lock(), 0, None
        self.leases = queue.Queue()
        self.is_v6 = setup.is_v6
        host = setup.host or loopback(self.is_v6)
        self.address = (host, setup.port or free_port())
        self.client_host = "::1" if self.is_v6 else "127.0.0.1"
        self.places = {"address": host, "literal": wire.literal(host), "name": setup.name or "", **origin_ports()}
        self.places["host"] = wire.literal(loopback(self.is_v6))
        # A name that it knows, and that name's address.
        known = (setup.known or "").format(**self.places).partition("=")
        self.known = (known[0], known[2].strip("[]")) if setup.known else None
        for text in setup.prefixes:
            self.leases.put(Lease(text.format(port=self.address[1], **self.places)))
        self.has_prefixes = bool(setup.prefixes)
        self.folder = tempfile.mkdtemp(prefix="conformance-")

    def close(self):
        """Ends what was started, and removes its files."""
        with self.lock:
            if self.process is not None:
                end(self.process)
                self.process = None
        shutil.rmtree(self.folder, ignore_errors=True)

    def lease(self):
        """A prefix, once no other case has it."""
        if not self.has_prefixes:
            raise NotOffered("it is no reverse-proxy")
        try:
            return self.leases.get(timeout=300)
        except queue.Empty:
            raise Broken("no prefix was free") from None

    def give_back(self, lease, is_silent):
        """Has other cases have a prefix, unless its origin may be left alone now and there are others."""
        if not is_silent or self.leases.qsize() < 4:
            self.leases.put(lease)

    # The process

    def words(self, host, port, command=None, **more):
        places = {**self.places, "address": host, "port": port, **more}
        places["file"] = os.path.join(self.folder, "file")
        if self.setup.file is not None:
            text = re.sub(r"@(\w+)@", lambda it: str(places.get(it[1], it[0])), self.setup.file)
            with open(places["file"], "w", encoding="utf-8") as file:
                file.write(text)
        return [it.format(**places) for it in command or self.setup.command]

    def spawn(self, host, port, command=None, **more):
        """Starts a command, the setup's unless another is given."""
        try:
            return self.run(self.words(host, port, command, **more))
        except (OSError, KeyError, IndexError, ValueError) as error:
            raise Broken(f"it can't be started: {error}") from None

    def run(self, words):
        """Starts a program in a session of its own."""
        process = subprocess.Popen(
            words, stdin=subprocess.DEVNULL, stdout=subprocess.DEVNULL, stderr=subprocess.DEVNULL, cwd=self.folder,
            start_new_session=True,
        )
        STARTED.add(process)
        return process

    def instance(self, words):
        """A program that a stage ends."""
        return Instance(self.run(words))

    def start(self):
        """Starts the proxy, if a command does that, and waits until it answers. Returns how often it was started."""
        with self.lock:
            if self.setup.command and not self.is_running():
                if self.process is not None:
                    end(self.process)
                self.process = self.spawn(*self.address)
                self.count += 1
                self.wait_until_ready(self.process, self.address)
            elif not self.setup.command and not self.count:
                self.count = 1
                self.wait_until_ready(None, self.address)
            return self.count

    def is_running(self):
        """Whether the process that was started still runs. One that wasn't started here is taken to."""
        return not self.setup.command or (self.process is not None and self.process.poll() is None)

    def answers(self):
        """Whether the proxy still answers: rejects an Empty message, as it must, or answers something else."""
        client, ping = Client(self.client_host, self.address), wire.message(CON, EMPTY, 7)
        try:
            for _ in range(4):
                client.send_raw(ping)
                if client.poll(0.25) is not None:
                    return True
            self.wait_until_ready(None, self.address, STILL_READY)
            return True
        except NotKept:
            return True
        except (Broken, OSError):
            return False
        finally:
            client.close()

    def wait_until_ready(self, process, address, seconds=None):
        """Waits until a proxy rejects an Empty message, or answers a request."""
        client, until = Client(self.client_host, address), time.monotonic() + (seconds or self.ready)
        while time.monotonic() < until:
            if process is not None and process.poll() is not None:
                break
            try:
                client.send_raw(wire.message(CON, EMPTY, client.new_id()))
                client.request(GET, wire.path("is", "it", "ready"))
                if client.poll(0.1) is not None:
                    client.close()
                    return
            except (OSError, NotKept):
                time.sleep(0.05)
        client.close()
        raise Broken("the proxy didn't answer")

    def start_at_any_address(self, stage):
        """Starts another process of the command at 0.0.0.0, until the stage is closed. Returns where it listens."""
        address = ("0.0.0.0", free_port())
        process = self.spawn(*address)
        stage.instances.append(Instance(process))
        self.wait_until_ready(process, (self.client_host, address[1]))
        return address

    def start_chained(self, stage):
        """Starts another process, which has a next proxy, until the stage is closed. Returns where it listens, and the
        next proxy, which the suite plays."""
        following = stage.origin()
        address = (self.address[0], free_port())
        process = self.spawn(*address, self.setup.chained, next=f"{following.host}:{following.port}")
        stage.instances.append(Instance(process))
        self.wait_until_ready(process, address)
        following.came.clear()
        return address, following

    # What it offers

    def find_offers(self):
        """Finds out what it offers, by requests that any proxy of that kind serves."""
        ways = [("forward", self.setup.is_forward), ("scheme", self.setup.is_forward), ("reverse", self.has_prefixes)]
        self.offers = {way for way, is_told in ways if is_told and self.forwards(way)}
        if not self.offers:
            raise Broken("no request reached an origin: is it told --forward, or --reverse with its prefixes?")
        if self.caches():
            self.offers.add("cache")
        if self.name and self.setup.is_forward:
            self.offers.add("name")
        if self.known and self.setup.is_forward:
            self.offers.add("host")
        if self.address[1] != 5683:
            self.offers.add("another port")
        if any("{address}" in it for it in self.setup.command) and not self.is_v6:
            self.offers.add("any address")
        if self.setup.chained:
            self.offers.add("chain")
        if shutil.which("coap-server-notls") or shutil.which("coap-server"):
            self.offers.add("libcoap")
        if "reverse" in self.offers and self.offers & {"forward", "scheme"}:
            self.offers.add("another way")

    def choose(self, way):
        """Has it be asked in one way alone: by URIs, or under its prefixes."""
        others = {"forward": {"reverse"}, "reverse": {"forward", "scheme", "chain"}}
        self.offers -= {*others[way], "another way"}
        if not self.offers & set(WAYS):
            raise Broken(f"it can't be asked by {way}")

    def forwards(self, way):
        """Whether a GET reaches an origin in this way."""
        with Stage(self, self.scale) as stage:
            resource, client = stage.resource(way=way), stage.client()
            client.request(GET, resource.here)
            asked = resource.origin.new(3)
            if asked is not None:
                resource.origin.answer(asked)
            return asked is not None

    def caches(self):
        """Whether it answers a second GET of what is fresh by itself."""
        with Stage(self, self.scale) as stage:
            try:
                resource = stage.resource()
                stage.fetch(resource, [wire.max_age(100)])
                stage.get_stored(resource)
                return True
            except (NotKept, NotOffered):
                return False


class Instance:
    """A process that a stage started."""

    def __init__(self, process):
        self.process = process

    def end(self):
        end(self.process)


def origin_ports():
    """The places of a command for the ports of origins."""
    return {f"origin{n if n > 1 else ''}": free_port() for n in range(1, ORIGINS + 1)}
