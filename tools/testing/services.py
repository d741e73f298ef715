"""What must hold of the unit of systemd, and of the scripts that it runs: one sees the socket, one names recordings, and
one links counts."""

import os
import re
import shutil
import subprocess
import tempfile
import time

from testing.network import FAULT, expect, expect_between, expect_in, free_port

TOP = os.path.dirname(os.path.dirname(os.path.dirname(os.path.abspath(__file__))))
RECORDED = re.compile(r"RECORD=--record (.*-[0-9]{4}-[01][0-9]-[0-3][0-9]T[0-2][0-9]\.[0-5][0-9]\.[0-6][0-9]Z\.events)\n")


# What the unit takes from the service, and how it is started again: the lines of its section that systemd reads beside
# those of the program, its files and its sockets' addresses.
KEPT = """Restart=always RestartSec=5s RestartPreventExitStatus=2 DynamicUser=yes NoNewPrivileges=yes CapabilityBoundingSet=
AmbientCapabilities= UMask=0077 ProtectSystem=strict PrivateTmp=yes PrivateIPC=yes RemoveIPC=yes PrivateUsers=yes
PrivateMounts=yes ProtectHome=yes ProtectProc=invisible ProcSubset=pid PrivateDevices=yes DevicePolicy=closed
ProtectKernelTunables=yes ProtectKernelModules=yes ProtectKernelLogs=yes ProtectControlGroups=yes ProtectClock=yes
ProtectHostname=yes RestrictNamespaces=yes RestrictSUIDSGID=yes SocketBindAllow=udp SocketBindDeny=any
RestrictRealtime=yes LockPersonality=yes MemoryDenyWriteExecute=yes SystemCallArchitectures=native MemoryMax=128M""".split()
KEPT += [
    "InaccessiblePaths=-/dev/shm -/dev/mqueue", "RestrictAddressFamilies=AF_INET AF_INET6",
    "SystemCallFilter=@system-service", "SystemCallFilter=~@privileged @resources",
]
UNIT = os.path.join(TOP, "examples", "coap-proxyd.service")
# The most that systemd may find exposed, in tenths: as root with nothing taken away it is 96.
EXPOSED = 11


def run_script(name, *words):
    """The status of a script of the examples, and what it writes to standard error."""
    words = ["sh", os.path.join(TOP, "examples", f"coap-proxyd.{name}"), *words]
    done = subprocess.run(words, stdin=subprocess.DEVNULL, stderr=subprocess.PIPE, timeout=20)
    return done.returncode, done.stderr.decode()


def start(program, port):
    """Starts a program at a port of the loopback."""
    words = [*program, "-A", "127.0.0.1", "-p", str(port)]
    return subprocess.Popen(words, stdin=subprocess.DEVNULL, stdout=subprocess.DEVNULL, stderr=subprocess.DEVNULL)


def awaited(process):
    """The status of the script for a process, which is taken away when it ends, as systemd does."""
    path = os.path.join(TOP, "examples", "coap-proxyd.await-socket")
    script = subprocess.Popen(["sh", path, str(process.pid)], stdin=subprocess.DEVNULL)
    until = time.monotonic() + 20
    while script.poll() is None and time.monotonic() < until:
        process.poll()
        time.sleep(0.02)
    script.kill()
    return script.wait()


def settings_of(text):
    """The lines of a unit's section of the service that set something, but for what it starts and by which files."""
    section = text.partition("[Service]\n")[2].partition("\n[")[0]
    lines = [line for line in section.splitlines() if line and not line.startswith("#")]
    return [line for line in lines if not re.match("Type=|Environment|ExecStart", line)]


def exposure_is_within(path):
    """Whether systemd finds no more exposed than may be by the unit of a path."""
    words = ["systemd-analyze", "security", "--offline=true", f"--threshold={EXPOSED}", path]
    return not subprocess.run(words, stdout=subprocess.DEVNULL, stderr=subprocess.DEVNULL, timeout=20).returncode


def the_unit_takes_away_what_the_service_does_not_need(_):
    with open(UNIT, encoding="utf-8") as file:
        text = file.read()
    expect("what is set", sorted(KEPT), sorted(settings_of(text)))
    if shutil.which("systemd-analyze") is None:
        return
    expect("whether no more is exposed", True, exposure_is_within(UNIT))
    with tempfile.TemporaryDirectory(prefix="coap-proxyd-test-") as folder:
        path = os.path.join(folder, "coap-proxyd.service")
        with open(path, "w", encoding="utf-8") as file:
            file.write(text.replace("RestrictNamespaces=yes\n", ""))
        expect("whether no more is exposed where namespaces are left", False, exposure_is_within(path))


def the_socket_is_seen(program):
    port = free_port()
    first, second, idle = start(program, port), None, None
    try:
        expect("the status where it listens", 0, awaited(first))
        second = start(program, port)
        expect("the status where the port is taken", 1, awaited(second))
        begun, idle = time.monotonic(), subprocess.Popen(["sleep", "1"])
        expect("the status where a process has no socket", 1, awaited(idle))
        expect_between("how long that took", 0.9, 20, time.monotonic() - begun)
    finally:
        for process in filter(None, (first, second, idle)):
            process.kill()
            process.wait()


def each_recording_has_a_name(_):
    with tempfile.TemporaryDirectory(prefix="coap-proxyd-test-") as folder:
        names, said = [], os.path.join(folder, "words")
        for _ in range(2):
            done = run_script("name-recording", os.path.join(folder, "east"), said)
            expect("what comes of it", (0, ""), done, *FAULT)
            with open(said) as file:
                names.append(RECORDED.fullmatch(file.read())[1])
            open(names[-1], "x").close()
        expect("what there is", {said, *names}, {os.path.join(folder, name) for name in os.listdir(folder)})
        status, text = run_script("name-recording", os.path.join(folder, "nowhere", "east"), said)
        expect("the status where none can be written", 0, status)
        expect_in("what is said then", "coap-proxyd: nothing is recorded: ", text)
        with open(said) as file:
            expect("the words then", "RECORD=\n", file.read())


def counts_are_linked(_):
    with open(os.path.join(TOP, "examples", "coap-proxyd.stats.conf")) as file:
        text = file.read().replace("%N", "coap-proxyd@g1")
    written = re.search("--stats-file ([^ \"]*)", text)[1]
    script = re.search(r"(?m)^ExecStartPost=\+-/bin/sh -c '(.*)'$", text)[1]
    with tempfile.TemporaryDirectory(prefix="coap-proxyd-test-") as folder:
        there = os.path.join(folder, "node-exporter")
        script = script.replace("/var/lib/prometheus/node-exporter", there)
        expect("the status without the folder", 0, subprocess.run(["sh", "-c", script], timeout=20).returncode)
        os.mkdir(there)
        for _ in range(2):
            expect("the status with it", 0, subprocess.run(["sh", "-c", script], timeout=20).returncode)
        expect("which links there are", ["coap-proxyd@g1.prom"], os.listdir(there))
        expect("where it leads", written, os.readlink(os.path.join(there, "coap-proxyd@g1.prom")))


CASES = (
    counts_are_linked, the_socket_is_seen, each_recording_has_a_name,
    the_unit_takes_away_what_the_service_does_not_need,
)
