"""Network namespaces that a case makes, joins by links, and removes again."""

import ctypes
import os
import random
import shutil
import socket
import subprocess
import threading
from contextlib import contextmanager

from testing.network import Broken, Skipped, udp

# What clone(2) calls a network namespace, and the option of socket(7) by which root has a buffer as large as it likes.
CLONE_NEWNET = 0x40000000
SO_RCVBUFFORCE = 33


def run(*words):
    """Runs a command, and returns whether it succeeded."""
    done = subprocess.run(words, stdin=subprocess.DEVNULL, stdout=subprocess.DEVNULL, stderr=subprocess.DEVNULL)
    return done.returncode == 0


def join(near, far, names, addresses):
    """The commands that join two namespaces by a link, whose ends have these names and addresses."""
    yield ("ip", "link", "add", names[0], "netns", near, "type", "veth", "peer", "name", names[1], "netns", far)
    for namespace, name, address in zip((near, far), names, addresses):
        yield ("ip", "-n", namespace, "addr", "add", address + "/24", "dev", name)
        yield ("ip", "-n", namespace, "link", "set", name, "up")
        yield ("ip", "-n", namespace, "link", "set", "lo", "up")


@contextmanager
def namespaces(count, lines_of, *tools):
    """So many namespaces, in which the commands that `lines_of` gives for their names were run."""
    if os.geteuid() != 0 or not all(map(shutil.which, ("ip", *tools))):
        raise Skipped(f"namespaces take root, {' and '.join(('ip', *tools))}")
    names = ["coap-proxyd-%08x" % random.randrange(1 << 32) for _ in range(count)]
    try:
        made = all(run("ip", "netns", "add", name) for name in names)
        if not made or not all(run(*line) for line in lines_of(*names)):
            raise Skipped("this system makes no such link")
        yield names
    finally:
        for name in names:
            run("ip", "netns", "del", name)


def enter_and_make(namespace, make, made):
    """Enters a namespace with this thread, and makes a socket there."""
    with open(os.path.join("/var/run/netns", namespace)) as file:
        if ctypes.CDLL(None, use_errno=True).setns(file.fileno(), CLONE_NEWNET) == 0:
            made.append(make())


def made_in(namespace, make):
    """A socket that is made in a namespace, which a thread of its own enters. It has room for all that comes while this
    process has no processor."""
    made = []
    thread = threading.Thread(target=enter_and_make, args=(namespace, make, made), daemon=True)
    thread.start()
    thread.join()
    if not made:
        raise Broken("a namespace can't be entered")
    made[0].setsockopt(socket.SOL_SOCKET, SO_RCVBUFFORCE, 8 << 20)
    made[0].settimeout(5)
    return made[0]


def socket_in(namespace, address, port=0):
    """A UDP socket in a namespace, at this address."""
    it = made_in(namespace, lambda: udp(address))
    it.bind((address, port))
    return it


def received(client, seconds):
    """What a socket receives in so many seconds, with where it is from, or nothing."""
    client.settimeout(seconds)
    try:
        return client.recvfrom(2_000)
    except socket.timeout:
        return None
