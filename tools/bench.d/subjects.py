"""What the bench measures side by side: a bare echo, an ideal relay, this proxy and libcoap's. Each is started afresh
for each measurement."""

import os
import random
import shutil
import subprocess
import tempfile
import time

from testing.coap import CON, EMPTY, GET, URI_PATH, message
from testing.network import STARTED, end, free_port, udp

HERE = os.path.dirname(os.path.abspath(__file__))
PROGRAMS = ("load", "pace", "origin", "echo", "relay")
# How long what is started for a measurement serves at most, in seconds.
LIFE = 120
# The greatest limits, so that no measurement meets one (docs/coap-proxyd.8, CAPACITY).
CONFIG = """version = 1
names = ["proxy.test"]
[limits]
cache_bytes = 268435456
cache_entries = 65536
exchanges = 4096
waiters = 16384
con_records = 65536
non_records = 65536
nstart = 16
[[map]]
prefix = "/b"
origin = "coap://{origin}/"
"""
# What a program has that isn't told anything but its name, and what it has as installed.
DEFAULTS = 'version = 2\nnames = ["proxy.test"]\n'
INSTALLED = os.path.join(os.path.dirname(os.path.dirname(HERE)), "examples", "coap-proxyd.toml")


class Broken(Exception):
    """Why nothing can be measured."""


class Bench:
    """The programs of the bench, compiled, at an address of the loopback of its own."""

    def __init__(self, program):
        self.program, self.started = program, []
        self.folder = tempfile.mkdtemp(prefix="bench-")
        self.host = "127.%d.%d.%d" % tuple(random.randrange(64, 255) for _ in range(3))
        self.compile()

    def compile(self):
        """Compiles the programs by the C compiler."""
        compiler = shutil.which("cc") or shutil.which("gcc") or shutil.which("clang")
        if compiler is None:
            raise Broken("there is no C compiler: apt-get install gcc libc6-dev")
        for name in PROGRAMS:
            words = [compiler, "-O2", "-o", self.path(name), os.path.join(HERE, f"{name}.c")]
            done = subprocess.run(words, stdout=subprocess.PIPE, stderr=subprocess.STDOUT, universal_newlines=True)
            if done.returncode:
                raise Broken(f"{name}.c can't be compiled: {done.stdout}")

    def path(self, name):
        return os.path.join(self.folder, name)

    def close(self):
        """Ends what was started, and removes the programs."""
        self.end_all()
        shutil.rmtree(self.folder, ignore_errors=True)

    def start(self, words):
        """Starts a program in a session of its own."""
        process = subprocess.Popen(
            [str(it) for it in words], stdin=subprocess.DEVNULL, stdout=subprocess.DEVNULL,
            stderr=subprocess.DEVNULL, cwd=self.folder, start_new_session=True,
        )
        STARTED.add(process)
        self.started.append(process)
        return process

    def end_all(self):
        for process in self.started:
            end(process)
        self.started.clear()

    def wait_until_ready(self, process, port, asked=message(CON, EMPTY, 1)):
        """Waits until a program answers an Empty Confirmable message, or another one, somehow."""
        with udp(self.host) as probe:
            probe.bind((self.host, 0))
            probe.settimeout(0.05)
            until = time.monotonic() + 10
            while process.poll() is None and time.monotonic() < until:
                probe.sendto(asked, (self.host, port))
                try:
                    probe.recv(100)
                    return
                except (OSError, ConnectionError):
                    pass
        raise Broken(f"{process.args[0]} didn't answer")

    def origin(self, life=LIFE, max_age=600):
        """An origin that serves for so many seconds, and whose answers are fresh for so long. Returns its port."""
        port = free_port()
        process = self.start([self.path("origin"), self.host, port, life, max_age])
        self.wait_until_ready(process, port, message(CON, GET, 1, b"", [(URI_PATH, b"r1")]))
        return port

    def load(self, port, *words):
        """The words that have the load ask this port."""
        return [self.path("load"), self.host, str(port), *(str(it) for it in words)]


class Subject:
    """Something that is measured: its name, and whether it serves a way to name resources."""

    def __init__(self, name, ways, is_echo=False):
        self.name, self.ways, self.is_echo = name, ways, is_echo

    def lead(self, way, bench, origin):
        """How the load names resources: a prefix, or the beginning of a Proxy-Uri."""
        return "/b/" if way == "map" else f"coap://{bench.host}:{origin}/"


class Echo(Subject):
    def __init__(self):
        super().__init__("echo", ("map", "uri"), True)

    def start(self, bench, port, origin, life):
        return bench.start([bench.path("echo"), bench.host, port, life])


class Relay(Subject):
    def __init__(self):
        super().__init__("relay", ("map", "uri"))

    def start(self, bench, port, origin, life):
        return bench.start([bench.path("relay"), bench.host, port, life, bench.host, origin])


class Ours(Subject):
    def __init__(self, name="coap-proxyd", config=CONFIG):
        super().__init__(name, ("map", "uri"))
        self.config = config

    def start(self, bench, port, origin, life):
        config = bench.path(f"proxy-{port}.toml")
        with open(config, "w", encoding="utf-8") as file:
            file.write(self.config.format(origin=f"{bench.host}:{origin}"))
        return bench.start([bench.program, "-A", bench.host, "-p", port, "--config", config])


class Libcoap(Subject):
    def __init__(self):
        super().__init__("libcoap", ("uri",))
        self.program = shutil.which("coap-server-notls") or shutil.which("coap-server")
        if self.program is None:
            raise Broken("libcoap's server isn't installed: apt-get install libcoap3-bin")

    def start(self, bench, port, origin, life):
        return bench.start([self.program, "-A", bench.host, "-p", port, "-P", ",proxy.test"])


def with_each_limits():
    """This proxy with its greatest limits, as installed, and with its defaults."""
    with open(INSTALLED, encoding="utf-8") as file:
        installed = file.read().replace("version = 2\n", DEFAULTS, 1)
    of_limits = (("its greatest limits", CONFIG), ("as installed", installed), ("its defaults", DEFAULTS))
    return [Ours(f"coap-proxyd, {name}", config) for name, config in of_limits]


def serve(bench, subject, origin, life=LIFE):
    """Starts a subject. Returns its process and its port."""
    port = free_port()
    process = subject.start(bench, port, origin, life)
    asked = message(CON, GET, 1, b"", [(URI_PATH, b"r1")]) if subject.name == "relay" else message(CON, EMPTY, 1)
    bench.wait_until_ready(process, port, asked)
    return process, port
