"""What tools/from-capture says of captures: those of worked runs, in which the proxy sent what it must."""

import os
import re
import socket
import struct
import subprocess
import tempfile

from testing import worked
from testing.network import expect

TOP = os.path.dirname(os.path.dirname(os.path.dirname(os.path.abspath(__file__))))
PROXY = "127.0.0.1:5683"
# Worked runs that have a socket's endpoints, and those of them whose answers are sent as soon as they come.
RUNS = ("first_answer", "hit_aged", "joined", "confirmable_client", "change", "validation", "duplicate_of_a_hit")
PROMPT = tuple(name for name in RUNS if name != "joined")

# Two requests with their answers, of which the first one is missing, and a hit.
LATE = b"""# > 127.0.0.1:5690 480100010000000000000001B474656D70
0 0 127.0.0.1:5690 684500010000000000000001D1010AFF3231
# > 127.0.0.1:40001 50450002D1010AFF3231
1 0 127.0.0.1:40001 50010008B1740178
# > 127.0.0.1:5690 480100030000000000000002B474656D700178
1 0 127.0.0.1:5690 684500030000000000000002D1010AFF3233
# > 127.0.0.1:40001 50450004D1010AFF3233
2 0 127.0.0.1:40001 50010009B1740178
# > 127.0.0.1:40001 50450005D10109FF3233
"""
# What is said at the end of them.
KNOWN = [
    "from event 1 on, all that the replay sends is in the capture, and 2 datagrams of the capture aren't in the replay",
    "what is said of the events before 8 isn't known; from there on:",
    "in all: opened 1, sent 1, answered 1, delivered 1, hit 1",
    "127.0.0.1:40001: opened 1, hit 1",
    "127.0.0.1:5690: answered 1",
]


def packet(moment, source, to, data):
    """A datagram at a moment, in milliseconds, as a file in the format pcap has it."""
    ports = [int(it.split(":")[1]) for it in (source, to)]
    hosts = b"".join(socket.inet_aton(it.split(":")[0]) for it in (source, to))
    udp = struct.pack(">HHHH", *ports, 8 + len(data), 0) + data
    ip = struct.pack(">BBHHHBBH", 0x45, 0, 20 + len(udp), 0, 0, 64, 17, 0) + hosts + udp
    return struct.pack("<IIII", 1_000 + moment // 1000, moment % 1000 * 1000, len(ip), len(ip)) + ip


def capture(events, proxy_for=lambda peer: PROXY):
    """A capture of what a worked run has, in raw IP; `proxy_for` says by which endpoint a peer knows the proxy."""
    packets, moment = [], 0
    for line in events.decode().splitlines():
        words = line.split(" ")
        if line.startswith("# > ") and len(words) == 4:
            packets.append(packet(moment, proxy_for(words[2]), words[2], bytes.fromhex(words[3])))
        elif words[0].isdigit():
            moment = int(words[0])
            if len(words) == 4:
                packets.append(packet(moment, words[2], proxy_for(words[2]), bytes.fromhex(words[3])))
    return struct.pack("<IHHiIII", 0xA1B2C3D4, 2, 4, 0, 0, 65_535, 101) + b"".join(packets)


def account(program, run, taken):
    """The status of tools/from-capture for this capture, and what it writes."""
    words = [word for word in run.words if word != "--replay"]
    with tempfile.TemporaryDirectory(prefix="coap-proxyd-test-") as folder:
        path = os.path.join(folder, "run.pcap")
        with open(path, "wb") as file:
            file.write(taken)
        command = [os.path.join(TOP, "tools", "from-capture"), "--program", program[0], path, *words]
        pipe = subprocess.PIPE
        done = subprocess.run(command, stdout=pipe, stderr=pipe, text=True, timeout=50, cwd=folder)
    expect("standard error", "", done.stderr)
    return done.returncode, done.stdout.splitlines()


def said_of_datagrams(lines):
    """The sources of the datagrams in lines of an account, and what is said of each."""
    found = [re.fullmatch(r"(?:# )?\d+ [0-9.]+ (\S+:\d+) (.+)", line) for line in lines]
    return [it.groups() for it in found if it]


def check(program, run):
    """Has a capture of a worked run agree with a replay, and the same be said of each datagram as by --explain."""
    status, lines = account(program, run, capture(run.events))
    expect("the status", 0, status)
    expect("how often both agree", 1, lines.count("the replay sends what the proxy sent"))
    explained = worked.play(program, run._replace(words=[*run.words, "--explain"]))[1].decode().splitlines()
    expect("what is said", said_of_datagrams(explained), said_of_datagrams(lines))


def check_two_addresses(program, run):
    """Has a capture agree of a proxy that its clients know at one address and its origin at another, and that origin at
    the proxy's port."""
    device = "10.9.0.11:5683"
    moved = run.events.replace(b"127.0.0.1:5690", device.encode())
    run = run._replace(events=moved, words=[word.replace("127.0.0.1:5690", device) for word in run.words])
    taken = capture(moved, lambda peer: "10.9.0.1:5683" if peer == device else "10.8.0.1:5683")
    status, lines = account(program, run, taken)
    expect("the proxy", "the proxy at 10.8.0.1:5683 and 10.9.0.1:5683", lines[0].partition(": ")[0])
    expect("the status", 0, status)


def check_late(program, run):
    """Has a capture that lacks the first request count only what comes after the datagrams of that, where a replay with
    the second token agrees."""
    status, said = account(program, run, capture(LATE))
    expect("the status", 1, status)
    expect("the last lines", KNOWN, said[-len(KNOWN) :])


def check_another_byte(program, run):
    """Has a capture not agree in which the last datagram of the proxy has another last byte, and both be shown."""
    before, mark, last = run.events.rpartition(b"\n# > ")
    line, _, after = last.partition(b"\n")
    changed = line[:-2] + b"%02X" % (int(line[-2:], 16) ^ 1)
    status, lines = account(program, run, capture(before + mark + changed + b"\n" + after))
    expect("the status", 1, status)
    moment = next(words[0] for words in map(bytes.split, reversed(before.split(b"\n"))) if words[0].isdigit())
    shown = [f"  not in the capture: {line.decode()}"]
    shown.append(f"  not in the replay: {changed.decode()}, after {int(moment) / 1000:.3f} s")
    expect("what is shown", shown, sorted(it for it in lines if it.startswith("  not in the ")))
