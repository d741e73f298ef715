"""Endpoints, in the form that replays have: 127.0.0.1:40001, or [1:2:3:4:5:6:7:8]:5683 with all eight groups."""

import functools
import ipaddress


@functools.lru_cache(65_536)
def endpoint(ip, port):
    """An endpoint of an address in bytes. The datagrams of a capture have a few of them, each a million times."""
    if len(ip) == 4:
        return f"{'.'.join(map(str, ip))}:{port}"
    return "[" + ":".join(f"{int.from_bytes(ip[n : n + 2], 'big'):x}" for n in range(0, 16, 2)) + f"]:{port}"


def six_of(text):
    """The IPv6 address of an endpoint and its port, or nothing."""
    address, _, port = text.rpartition(":")
    try:
        return ipaddress.IPv6Address(address[1:-1]), port
    except ValueError:
        return None


@functools.lru_cache(65_536)
def plain_endpoint(text):
    """An endpoint as replays write it, of one that may have other digits or fewer groups."""
    six = six_of(text) if text.startswith("[") else None
    return endpoint(six[0].packed, six[1]) if six else text


def short_endpoint(text):
    """An endpoint for a reader: an IPv6 address in its short form."""
    six = six_of(text) if text.startswith("[") else None
    return f"[{six[0]}]:{six[1]}" if six else text
