"""What cases over a socket have in common: requests, and what must come of them."""

from testing.coap import CON, CONTENT, GET, MAX_AGE, URI_PATH, number_bytes
from testing.network import Life, expect_between, expect_datagram

T, TEMP = (URI_PATH, b"t"), (URI_PATH, b"temp")
# How long the first retransmission takes (RFC 7252, 4.2), in seconds, on a machine that may be loaded.
FIRST_TIMEOUT = (1.99, 3.5)


def path(*segments):
    """The options of a path."""
    return [(URI_PATH, segment.encode()) for segment in segments]


def max_age(seconds):
    """The option Max-Age."""
    return (MAX_AGE, number_bytes(seconds))


def expect_wait(first, then):
    """Has the first retransmission come in its time, and be the same bytes."""
    expect_between("seconds until it was sent again", *FIRST_TIMEOUT, then.at - first.at)
    expect_datagram("what was sent again", first.data, then.data)


def fetch(client, origin, payload=b"21", seconds=60, tags=(), kind=CON, here=(T,), there=(TEMP,), proxies=1):
    """A GET that the origin must be asked for and answers, through so many proxies. Returns the life of its answer."""
    request = client.request(GET, here, kind=kind)
    asked = origin.expect_request(GET, there)
    answer = origin.answer(asked, CONTENT, [max_age(seconds), *tags], payload)
    life = Life(seconds, answer.at, proxies=proxies)
    return life._replace(seen=client.expect_late(request, CONTENT, tags, payload, life=life).at)


def expect_hit(client, life, payload=b"21", options=(T,), tags=(), kind=CON):
    """A GET that the proxy must answer from its cache at once."""
    request = client.request(GET, options, kind=kind)
    return request, client.expect_response(request, CONTENT, tags, payload, life=life)


def change(client, origin, method, code, payload=b"", answer=(), here=(T,), there=(TEMP,)):
    """A request that is passed on, and its answer."""
    request = client.request(method, here, payload)
    origin.answer(origin.expect_request(method, there, payload), code, answer)
    client.expect_late(request, code, answer)
