"""Reading of messages and URIs for proxies that stand in for others: strictly, unless a fault forgives something."""

import re
from collections import namedtuple

from conforming import wire
from testing.coap import Message, extended, take

# What a request is for: host and port, or None for the proxy itself, the path and the query.
Target = namedtuple("Target", "host port path query")


class UriError(ValueError):
    """Why a URI can't be asked for: the code that says so."""

    def __init__(self, code):
        super().__init__(code)
        self.code = code


def parse(data, forgiven=()):
    """The message that a datagram encodes. `forgiven` has the names of faults that are passed over."""
    if len(data) < 4 or (data[0] >> 6 != 1 and "version" not in forgiven):
        raise ValueError("no header")
    length = data[0] & 15
    if length > 8 and "token" not in forgiven:
        raise ValueError("a long token")
    if data[1] == wire.EMPTY and len(data) > 4:
        if "empty" not in forgiven:
            raise ValueError("an Empty message with more than a header")
        return Message(data[0] >> 4 & 3, 0, int.from_bytes(data[2:4], "big"), b"", [], b"")
    token, rest = cut(data[4:], length, forgiven)
    options, payload = parse_options(rest, forgiven)
    return Message(data[0] >> 4 & 3, data[1], int.from_bytes(data[2:4], "big"), token, options, payload)


def cut(data, count, forgiven):
    """The first bytes of some data, and the others."""
    return take(data, min(count, len(data)) if "cut" in forgiven else count)


def nibble(count, data, forgiven):
    """What a delta or a length stands for, and the bytes behind it."""
    if count == 15 and "nibble" in forgiven:
        return 15, data
    if count > 12 and "cut" in forgiven and len(data) < count - 12:
        return 0, b""
    return extended(count, data)


def parse_options(data, forgiven):
    """The options at the front of some data, and the payload."""
    options, number = [], 0
    while data and data[0] != 0xFF:
        head, data = data[0], data[1:]
        delta, data = nibble(head >> 4, data, forgiven)
        length, data = nibble(head & 15, data, forgiven)
        value, data = cut(data, length, forgiven)
        number += delta
        options.append((number, value))
    if data == b"\xff" and "marker" not in forgiven:
        raise ValueError("a marker without a payload")
    return options, data[1:]


# The grammar of RFC 3986, as far as a coap URI has it.
UNRESERVED, DELIMITERS, ENCODED = r"A-Za-z0-9\-._~", r"!$&'()*+,;=", r"%[0-9A-Fa-f]{2}"
PCHAR = rf"(?:[{UNRESERVED}{DELIMITERS}:@]|{ENCODED})"
URI = re.compile(
    r"(?P<scheme>[A-Za-z][A-Za-z0-9+.\-]*):"
    rf"(?://(?P<host>\[[0-9A-Fa-f:.]+\]|(?:[{UNRESERVED}{DELIMITERS}]|{ENCODED})*)(?::(?P<port>[0-9]*))?)?"
    rf"(?P<path>(?:{PCHAR}|/)*)"
    rf"(?:\?(?P<query>(?:{PCHAR}|[/?])*))?(?P<fragment>#.*)?"
)


def without_dots(path):
    """A path without its dot segments (RFC 3986, 5.2.4)."""
    out = []
    segments = path.split("/")[1:]
    for place, it in enumerate(segments):
        if it == ".." and out:
            out.pop()
        if it not in (".", ".."):
            out.append(it)
        elif place == len(segments) - 1:
            out.append("")
    return "".join("/" + it for it in out)


def decoded(text):
    """A text with its percent-encodings decoded, as bytes."""
    return re.sub(rb"%([0-9A-Fa-f]{2})", lambda it: bytes([int(it[1], 16)]), text.encode())
