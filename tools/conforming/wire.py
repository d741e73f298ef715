"""Datagrams as the suite sends them, also ones that are no messages, and the numbers of RFC 7252 that it uses."""

from testing.coap import (
    ACCEPT, ACK, BLOCK2, CON, CONTENT_FORMAT, EMPTY, ETAG, GET, IF_NONE_MATCH, LOCATION_PATH, MAX_AGE, NON, OBSERVE,
    POST, PROXY_SCHEME, PROXY_URI, RST, SIZE1, URI_HOST, URI_PATH, URI_PORT, URI_QUERY, code_text, message, number,
    number_bytes, option, read, told,
)

IF_MATCH, LOCATION_QUERY, BLOCK1, SIZE2 = 1, 20, 27, 28
# Options for experiments (12.2), which nobody defines: elective and critical ones that are safe to forward, ones that
# aren't, and ones that are and stand outside the cache key (5.4.6).
SAFE, SAFE_CRITICAL, UNSAFE, UNSAFE_CRITICAL = 65000, 65001, 65002, 65003
SAFE_NO_KEY, SAFE_CRITICAL_NO_KEY = 65020, 65021
# Transmission parameters and the times derived from them, in seconds (4.8).
ACK_TIMEOUT, ACK_RANDOM_FACTOR, MAX_RETRANSMIT = 2, 1.5, 4
MAX_TRANSMIT_SPAN, MAX_TRANSMIT_WAIT, NON_LIFETIME, EXCHANGE_LIFETIME = 45, 93, 145, 247


def code(text):
    """The byte of a code that is written like 2.05."""
    before, _, after = text.partition(".")
    return int(before) << 5 | int(after)


def literal(host):
    """An address as it stands in a URI and in a Uri-Host."""
    return f"[{host}]" if ":" in host else host


def path(*segments):
    """The Uri-Path options of some segments."""
    return [(URI_PATH, it if isinstance(it, bytes) else it.encode()) for it in segments]


def max_age(seconds):
    """The option Max-Age."""
    return (MAX_AGE, number_bytes(seconds))


def values_of(message, wanted):
    """The values of an option in a message."""
    return [value for number, value in message.options if number == wanted]


def is_request(code):
    """Whether a code is that of a request."""
    return 0 < code < 32


def is_response(code):
    """Whether a code is that of a response."""
    return code >> 5 in (2, 3, 4, 5)


def is_error(code):
    """Whether a code is that of an error of the client or of the server."""
    return code >> 5 in (4, 5)


def with_version(data, version):
    """A message that has another version."""
    return bytes([data[0] & 0x3F | version << 6]) + data[1:]


def with_token_length(data, length):
    """A message that says that its token has another length."""
    return bytes([data[0] & 0xF0 | length]) + data[1:]
