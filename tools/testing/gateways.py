"""What tools/from-capture makes of a gateway's capture: a proxy with clients on one interface and devices on another,
between three network namespaces that are made for it and removed again."""

import socket
import struct
import threading
import time

from testing import captures
from testing.coap import ACK, CON, CONTENT, EMPTY, GET, MAX_AGE, NON, message, read
from testing.namespaces import join, made_in, namespaces, socket_in
from testing.network import Broken, Skipped, Stage, expect, has_ipv6
from testing.steps import T

# The addresses of the gateway, of a client and of a device, of networks for documentation (RFC 5737), and the port of
# coap, which gateway and devices have.
OUTER, INNER, CLIENT, DEVICE, PORT = "198.51.100.1", "203.0.113.1", "198.51.100.7", "203.0.113.11", 5683
# What packet(7) calls all packets, and those of IPv4.
ETH_P_ALL, ETH_P_IP = 3, 0x0800


def lines_of(gateway, clients, devices):
    """The commands that join a gateway to its clients and to its devices."""
    yield from join(gateway, clients, ("outer", "near"), (OUTER, CLIENT))
    yield from join(gateway, devices, ("inner", "far"), (INNER, DEVICE))


class Capture:
    """Takes a capture of all interfaces of a namespace, in raw IP, for as long as it is entered."""

    def __init__(self, namespace):
        kind = socket.AF_PACKET, socket.SOCK_DGRAM, socket.htons(ETH_P_ALL)
        self.socket = made_in(namespace, lambda: socket.socket(*kind))
        self.socket.settimeout(0.2)
        self.taken, self.ending = [struct.pack("<IHHiIII", 0xA1B2C3D4, 2, 4, 0, 0, 65_535, 101)], threading.Event()
        self.thread = threading.Thread(target=self.take, daemon=True)

    def __enter__(self):
        self.thread.start()
        return self

    def __exit__(self, *_):
        self.ending.set()
        self.thread.join()
        self.socket.close()

    def take(self):
        """Takes packets."""
        while not self.ending.is_set():
            try:
                packet, source = self.socket.recvfrom(65_535)
            except socket.timeout:
                continue
            if source[1] == ETH_P_IP:
                moment = time.time()
                head = struct.pack("<IIII", int(moment), int(moment % 1 * 1_000_000), len(packet), len(packet))
                self.taken.append(head + packet)

    def so_far(self):
        """What was taken, with what was sent just now."""
        time.sleep(0.1)
        return b"".join(self.taken)


def answer(device, text):
    """Has a device answer the request that it gets, fresh for a minute."""
    data, source = device.recvfrom(2_000)
    request = read(data)
    device.sendto(message(ACK, CONTENT, request.message_id, request.token, [(MAX_AGE, b"\x3C")], text), source)


def ask(client, kind, message_id, device=None):
    """Has a client ask, a device answer if there is one, and the client get the answer."""
    client.sendto(message(kind, GET, message_id, b"tok", [T]), (OUTER, PORT))
    if device:
        answer(device, b"21.5")
    while not (came := read(client.recv(2_000))).payload:
        continue
    if came.kind == CON:
        client.sendto(message(ACK, 0, came.message_id), (OUTER, PORT))


def await_start(client, process):
    """Has the proxy reject Empty messages until it is seen to serve."""
    client.settimeout(0.1)
    for message_id in range(200):
        if process.poll() is not None:
            break
        client.sendto(message(CON, EMPTY, message_id), (OUTER, PORT))
        try:
            client.recv(2_000)
        except (socket.timeout, ConnectionError):
            continue
        client.settimeout(5)
        return
    raise Broken("the proxy doesn't serve the namespace")


def accounts_for_both_interfaces(program, address):
    """Has a capture agree of a proxy that listens at all addresses, by this one, and that its clients know at one of
    them, and its device at another."""
    if ":" in address and not has_ipv6():
        raise Skipped("there is no ::1")
    run = captures.worked.Run("gateway", ["--replay", "--map", f"/t=coap://{DEVICE}/temp"], b"", b"", b"")
    with namespaces(3, lines_of) as (gateway, clients, devices), Stage(program) as stage:
        with socket_in(clients, CLIENT) as client, socket_in(devices, DEVICE, PORT) as device:
            words = ["-A", address, *run.words[1:]]
            with socket_in(clients, CLIENT) as first:
                await_start(first, stage.start(["ip", "netns", "exec", gateway, *program, *words]))
            with Capture(gateway) as capture:
                ask(client, NON, 1, device)
                for message_id in range(2, 6):
                    ask(client, CON, message_id)
                taken = capture.so_far()
            status, lines = captures.account(program, run, taken)
    expect("the proxy", f"the proxy at {OUTER}:{PORT} and {INNER}:{PORT}", lines[0].partition(": ")[0])
    said = [line for line in lines if line.startswith(f"{CLIENT}:")]
    expect("what is said of the client", ["hit 4, opened 1"], [line.partition(": ")[2] for line in said])
    expect("the status", 0, status)
