"""Messages of CoAP, read without the proxy's code (RFC 7252, 3), and told in words.

What a peer chose is told by `shown`: nothing of it looks like something else, or does anything, where it is printed.
"""

import re
import unicodedata
from collections import namedtuple

CON, NON, ACK, RST = range(4)
EMPTY, GET, POST, PUT, DELETE, FETCH = range(6)
CREATED, DELETED, VALID, CHANGED, CONTENT = range(0x41, 0x46)
BAD_REQUEST, BAD_OPTION, NOT_FOUND, NOT_ALLOWED, TOO_LARGE = 0x80, 0x82, 0x84, 0x85, 0x8D
BAD_GATEWAY, UNAVAILABLE, GATEWAY_TIMEOUT, NOT_SUPPORTED = 0xA2, 0xA3, 0xA4, 0xA5
URI_HOST, ETAG, IF_NONE_MATCH, OBSERVE, URI_PORT, LOCATION_PATH, OSCORE, URI_PATH, CONTENT_FORMAT = (
    3, 4, 5, 6, 7, 8, 9, 11, 12,
)
MAX_AGE, URI_QUERY, ACCEPT, BLOCK2, BLOCK1, PROXY_URI, PROXY_SCHEME, SIZE1 = 14, 15, 17, 23, 27, 35, 39, 60

KINDS = ("CON", "NON", "ACK", "RST")
# The name of each method and each code of a response (RFC 7252, 12.1; RFC 7959, 6; RFC 8132, 3; RFC 8516, 4; RFC 8768,
# 4).
CODES = {
    EMPTY: "Empty", GET: "GET", POST: "POST", PUT: "PUT", DELETE: "DELETE", FETCH: "FETCH", 6: "PATCH", 7: "iPATCH",
    CREATED: "Created", DELETED: "Deleted", VALID: "Valid", CHANGED: "Changed", CONTENT: "Content", 0x5F: "Continue",
    BAD_REQUEST: "Bad Request", 0x81: "Unauthorized", BAD_OPTION: "Bad Option", 0x83: "Forbidden",
    NOT_FOUND: "Not Found", NOT_ALLOWED: "Method Not Allowed", 0x86: "Not Acceptable",
    0x88: "Request Entity Incomplete", 0x89: "Conflict", 0x8C: "Precondition Failed",
    TOO_LARGE: "Request Entity Too Large", 0x8F: "Unsupported Content-Format", 0x96: "Unprocessable Entity",
    0x9D: "Too Many Requests", 0xA0: "Internal Server Error", 0xA1: "Not Implemented", BAD_GATEWAY: "Bad Gateway",
    UNAVAILABLE: "Service Unavailable", GATEWAY_TIMEOUT: "Gateway Timeout", NOT_SUPPORTED: "Proxying Not Supported",
    0xA8: "Hop Limit Reached",
}
# The name and the form of each option (RFC 7252, 5.10; RFC 7641, 2; RFC 7959, 2.1; RFC 7967, 2; RFC 8613, 2; RFC 8768,
# 3; RFC 9175, 2 and 3; RFC 9177, 4).
OPTIONS = {
    1: ("If-Match", "opaque"), URI_HOST: ("Uri-Host", "text"), ETAG: ("ETag", "opaque"),
    IF_NONE_MATCH: ("If-None-Match", "empty"), OBSERVE: ("Observe", "number"), URI_PORT: ("Uri-Port", "number"),
    LOCATION_PATH: ("Location-Path", "text"), OSCORE: ("OSCORE", "opaque"), URI_PATH: ("Uri-Path", "text"),
    CONTENT_FORMAT: ("Content-Format", "format"), MAX_AGE: ("Max-Age", "number"), URI_QUERY: ("Uri-Query", "text"),
    16: ("Hop-Limit", "number"), ACCEPT: ("Accept", "format"), 19: ("Q-Block1", "block"),
    20: ("Location-Query", "text"), BLOCK2: ("Block2", "block"), BLOCK1: ("Block1", "block"), 28: ("Size2", "number"),
    31: ("Q-Block2", "block"), PROXY_URI: ("Proxy-Uri", "text"), PROXY_SCHEME: ("Proxy-Scheme", "text"),
    SIZE1: ("Size1", "number"), 252: ("Echo", "opaque"), 258: ("No-Response", "number"), 292: ("Request-Tag", "opaque"),
}
# The names of some Content-Formats (RFC 7252, 12.3; RFC 8428, 12.3).
FORMATS = {
    0: "text/plain", 40: "application/link-format", 41: "application/xml", 42: "application/octet-stream",
    47: "application/exi", 50: "application/json", 60: "application/cbor", 110: "application/senml+json",
    112: "application/senml+cbor",
}

Message = namedtuple("Message", "kind code message_id token options payload")


def take(data, count):
    """The first bytes of some data, and the others."""
    if count > len(data):
        raise ValueError("it ends within an option or the token")
    return data[:count], data[count:]


def extended(count, data):
    """What the four bits of a delta or a length stand for, and the bytes after those that extend them."""
    if count == 15:
        raise ValueError("a delta or a length of 15")
    more, data = take(data, max(0, count - 12))
    return count if count < 13 else int.from_bytes(more, "big") + (13 if count == 13 else 269), data


def options_of(data):
    """The options at the front of some data, and the payload."""
    options, number = [], 0
    while data and data[0] != 0xFF:
        delta, length, data = data[0] >> 4, data[0] & 15, data[1:]
        delta, data = extended(delta, data)
        length, data = extended(length, data)
        value, data = take(data, length)
        number += delta
        options.append((number, value))
    if data == b"\xff":
        raise ValueError("a payload marker without a payload")
    return options, data[1:]


def read(data):
    """The message that a datagram encodes; a ValueError if it encodes none."""
    if len(data) < 4 or data[0] >> 6 != 1 or data[0] & 15 > 8:
        raise ValueError("not a message")
    if data[1] == EMPTY and len(data) > 4:
        raise ValueError("an Empty message with more than a head")
    token, rest = take(data[4:], data[0] & 15)
    options, payload = options_of(rest)
    return Message(data[0] >> 4 & 3, data[1], int.from_bytes(data[2:4], "big"), token, options, payload)


def number(value):
    """The value of an option that is a number."""
    return int.from_bytes(value, "big")


def is_request(code):
    """Whether a code is a request's (RFC 7252, 3)."""
    return 0 < code < 0x20


def is_response(code):
    """Whether a code is a response's."""
    return 0x40 <= code < 0xC0


def code_text(code):
    """A code as it is usually written, such as 2.05."""
    return f"{code >> 5}.{code & 31:02}"


def code_name(code):
    """A code with its name: a method's alone, such as GET, or 2.05 Content."""
    name = CODES.get(code, "")
    return name if name and code < 0x20 else f"{code_text(code)} {name}".rstrip()


def told(data):
    """A datagram, as text for a reader."""
    try:
        it = read(data)
    except ValueError as error:
        return f"{data.hex() or 'no bytes'} ({error})"
    options = ", ".join(f"{number}: {value.hex() or 'empty'}" for number, value in it.options)
    head = f"{KINDS[it.kind]} {code_text(it.code)} {it.message_id:04x}"
    return f"{head} token {it.token.hex()} [{options}] {it.payload!r}"


# ---- what a peer chose

# What prints as itself.
PLAIN = re.compile(rb"[ -~]*")


def shown_character(character):
    """A character that prints as itself, or an escape that names it: for control characters, marks that change the
    direction of what follows, and bytes that are no UTF-8."""
    if 0xDC80 <= ord(character) <= 0xDCFF:
        return f"\\x{ord(character) - 0xDC00:02x}"
    return character if character.isprintable() else f"\\u{{{ord(character):04x}}}"


def shown_text(text):
    """A text in one line, of which nothing changes what is around it. Of marks that stand above or below a letter, two
    at most do. What is written from the right to the left stands between marks that keep it from moving the rest."""
    marks, out = 0, []
    for character in text:
        marks = marks + 1 if unicodedata.category(character) in ("Mn", "Me") else 0
        out.append(shown_character(character) if marks <= 2 else f"\\u{{{ord(character):04x}}}")
    shown_so = "".join(out)
    from_the_right = any(unicodedata.bidirectional(character) in ("R", "AL", "AN") for character in shown_so)
    return f"\u2068{shown_so}\u2069" if from_the_right else shown_so


def shown(value):
    """Bytes that a peer chose, as text that can stand between quotation marks."""
    text = value.decode("utf-8", "surrogateescape").replace("\\", "\\\\").replace('"', '\\"')
    return text if PLAIN.fullmatch(value) else shown_text(text)


def is_text(value):
    """Whether bytes are UTF-8 without control characters but tabs and ends of lines."""
    if PLAIN.fullmatch(value):
        return True
    try:
        text = value.decode("utf-8")
    except ValueError:
        return False
    return all(it in "\t\r\n" or unicodedata.category(it) != "Cc" for it in text)


def quoted(value):
    """Bytes as text in quotes where they are text, else in hexadecimal digits."""
    return f'"{shown(value)}"' if is_text(value) else f"0x{value.hex()}"


def block_text(value):
    """The value of a Block option: the block's number, whether more follow, and the size (RFC 7959, 2.2)."""
    block = number(value)
    return f"{block >> 4}/{block >> 3 & 1}/{16 << (block & 7)}"


def option_name(code):
    """The name of an option, or its number."""
    return OPTIONS.get(code, (f"Option {code}", ""))[0]


def option_value(code, value):
    """The value of an option in its form. One that is longer than its form allows is told in hexadecimal digits."""
    form = OPTIONS.get(code, ("", "opaque"))[1]
    if form == "text":
        return f'"{shown(value)}"'
    if form in ("number", "format") and len(value) <= 4:
        name = FORMATS.get(number(value), "") if form == "format" else ""
        return f"{number(value)} ({name})" if name else str(number(value))
    if form == "block" and len(value) <= 3:
        return block_text(value)
    return f"0x{value.hex()}" if value else "empty"


def path_of(message):
    """The path and the query of a request, or what its Proxy-Uri says."""
    values = lambda code: [shown(value) for number, value in message.options if number == code]
    uris = values(PROXY_URI)
    if uris:
        return uris[0]
    path = "/".join(part.replace("/", "%2F").replace("?", "%3F") for part in values(URI_PATH))
    query = "&".join(part.replace("&", "%26") for part in values(URI_QUERY))
    return f"/{path}?{query}" if query else f"/{path}"
