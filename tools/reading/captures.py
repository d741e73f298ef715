"""Datagrams in captures: files in the format pcap or pcapng, with UDP over IP."""

import struct
from collections import namedtuple

from reading.endpoints import endpoint

Datagram = namedtuple("Datagram", "at source to data")
# The first bytes of a file in the older format, with its byte order and whether it counts nanoseconds, and those of one
# in the newer.
OLDER = {
    b"\xd4\xc3\xb2\xa1": ("<", False), b"\xa1\xb2\xc3\xd4": (">", False),
    b"\x4d\x3c\xb2\xa1": ("<", True), b"\xa1\xb2\x3c\x4d": (">", True),
}
NEWER = b"\x0a\x0d\x0d\x0a"


class Bad(Exception):
    """A file can't be read, or doesn't hold what it should."""


def is_capture(start):
    """Whether these are the first bytes of a capture."""
    return start[:4] in OLDER or start[:4] == NEWER


def whole(stream, count):
    """So many bytes, or fewer at the end."""
    data = b""
    while len(data) < count:
        more = stream.read(count - len(data))
        if not more:
            break
        data += more
    return data


def pcap(stream, order, nanoseconds):
    """The link type, moment and bytes of each packet of a file in the older format."""
    link = struct.unpack(order + "HHiIII", whole(stream, 20))[5] & 0xFFFF
    while len(head := whole(stream, 16)) == 16:
        seconds, part, length, full = struct.unpack(order + "IIII", head)
        data = whole(stream, length)
        if length == full == len(data):
            yield link, seconds * 1000 + part // (1_000_000 if nanoseconds else 1000), data


def resolution(options, order):
    """Units of a second, from an interface's options."""
    while len(options) >= 4:
        code, length = struct.unpack(order + "HH", options[:4])
        if code == 9 and length == 1:
            power = options[4]
            return 1 << (power & 127) if power & 128 else 10**power
        options = options[4 + (length + 3) // 4 * 4 :]
    return 10**6


def pcapng(stream):
    """The same of one in the newer format, whose first four bytes were read."""
    order, links, kind = "<", [], 0x0A0D0D0A
    while True:
        length_bytes = whole(stream, 4)
        if kind == 0x0A0D0D0A:
            magic = whole(stream, 4)
            order, links = ("<" if magic == b"\x4d\x3c\x2b\x1a" else ">"), []
            rest = whole(stream, struct.unpack(order + "I", length_bytes)[0] - 12)
        else:
            rest = whole(stream, struct.unpack(order + "I", length_bytes)[0] - 8)
        if kind == 1:
            links.append((struct.unpack(order + "H", rest[:2])[0], resolution(rest[8:-4], order)))
        if kind == 6:
            face, high, low, length, full = struct.unpack(order + "IIIII", rest[:20])
            if length == full:
                link, units = links[face]
                yield link, ((high << 32) + low) * 1000 // units, rest[20 : 20 + length]
        head = whole(stream, 4)
        if len(head) < 4:
            return
        kind = struct.unpack(order + "I", head)[0]


def packets(stream):
    """The link type, moment in milliseconds, and bytes of each packet that was captured whole."""
    magic = whole(stream, 4)
    if magic == NEWER:
        return pcapng(stream)
    if magic not in OLDER:
        raise Bad("not a capture")
    return pcap(stream, *OLDER[magic])


def ip_of(link, data):
    """The IP packet in a frame, or nothing."""
    if link == 1:
        at, kind = 14, data[12:14]
        while kind in (b"\x81\x00", b"\x88\xa8"):
            at, kind = at + 4, data[at + 2 : at + 4]
        return data[at:] if kind in (b"\x08\x00", b"\x86\xdd") else b""
    heads = {0: 4, 108: 4, 12: 0, 101: 0, 228: 0, 229: 0, 113: 16, 276: 20}
    return data[heads[link] :] if link in heads else b""


def datagram(at, packet):
    """The UDP datagram in an IP packet that isn't a fragment, or nothing."""
    if packet[:1] and packet[0] >> 4 == 4 and packet[9] == 17 and not int.from_bytes(packet[6:8], "big") & 0x3FFF:
        source, to, udp = packet[12:16], packet[16:20], packet[(packet[0] & 15) * 4 :]
    elif packet[:1] and packet[0] >> 4 == 6 and packet[6] == 17:
        source, to, udp = packet[8:24], packet[24:40], packet[40:]
    else:
        return None
    one, other, length = struct.unpack(">HHH", udp[:6])
    return Datagram(at, endpoint(source, one), endpoint(to, other), udp[8:length])


def datagrams(stream):
    """The datagrams of a capture."""
    for link, at, data in packets(stream):
        found = datagram(at, ip_of(link, data))
        if found:
            yield found
