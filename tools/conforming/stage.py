"""What a case has: clients, origins, and resources that a client asks the proxy for."""

import os
import random
import time

from conforming import wire
from conforming.cases import WAYS, NotKept, NotOffered, expect
from conforming.endpoints import PATIENCE, SETTLED, Client, Origin
from conforming.wire import CON, GET, PROXY_SCHEME, PROXY_URI, URI_HOST, URI_PATH, URI_PORT, URI_QUERY

CONTENT = wire.code("2.05")
UNRESERVED = b"ABCDEFGHIJKLMNOPQRSTUVWXYZabcdefghijklmnopqrstuvwxyz0123456789-._~"


def escaped(value):
    """Bytes as they stand in a URI, with all but the unreserved characters percent-encoded."""
    return "".join(chr(it) if it in UNRESERVED else f"%{it:02X}" for it in value)


def as_bytes(parts):
    """Texts and bytes as bytes."""
    return [it if isinstance(it, bytes) else it.encode() for it in parts]


class Resource:
    """A resource of an origin: the options by which a client asks the proxy for it, and those that the origin is
    asked with."""

    def __init__(self, origin, base, segments, query, way):
        self.origin, self.base, self.way = origin, base, way
        self.segments, self.query = as_bytes(segments), as_bytes(query)
        queries = [(URI_QUERY, it) for it in self.query]
        self.there = [(URI_PATH, it) for it in [*base, *self.segments]] + queries
        self.here = way(origin, [*base, *self.segments], self.segments, queries)

    def more(self, asked):
        """The options of a request at the origin beside those that name the resource."""
        return [it for it in self.origin.options(asked) if it not in self.there]

    def other(self, *segments, query=()):
        """Another resource of the same origin."""
        return Resource(self.origin, self.base, [self.segments[0], *segments], query, self.way)


def by_proxy_uri(origin, path, _, queries):
    """The options that name a resource in a Proxy-Uri."""
    uri = f"coap://{origin.host}:{origin.port}/" + "/".join(escaped(it) for it in path)
    if queries:
        uri += "?" + "&".join(escaped(it) for _, it in queries)
    return [(PROXY_URI, uri.encode())]


def by_proxy_scheme(origin, path, _, queries):
    """The options that name a resource beside a Proxy-Scheme."""
    place = [(URI_HOST, origin.host.encode()), (URI_PORT, wire.number_bytes(origin.port))]
    return [*place, *((URI_PATH, it) for it in path), *queries, (PROXY_SCHEME, b"coap")]


def by_prefix(prefix):
    """How a resource is named under a prefix of a reverse-proxy."""
    return lambda origin, path, segments, queries: [(URI_PATH, it) for it in [*prefix, *segments]] + queries


class Stage:
    """What one case has. All of it is closed when the case is done. `scale` shortens the times of the RFC, for
    stand-ins that do the same; `way` is the one in which the proxy is asked, if it isn't the first that it offers."""

    def __init__(self, proxy, scale=1.0, way=""):
        self.proxy, self.scale, self.offers = proxy, scale, proxy.offers
        # The way in which it is asked where the case leaves it open, and those in which it was.
        self.way, self.ways = way or next((it for it in WAYS if it in proxy.offers), "reverse"), set()
        # An address that hardly any other case has, where there is more than one.
        self.host = "::1" if proxy.is_v6 else "127.%d.%d.%d" % tuple(random.randrange(64, 255) for _ in range(3))
        self.mark = os.urandom(4).hex().encode()
        self.endpoints, self.leases, self.instances = [], [], []
        # Whether an origin is silent to the end, so that a proxy may leave it alone for long after (4.7).
        self.is_silent = False

    def __enter__(self):
        return self

    def __exit__(self, *_):
        for it in self.endpoints:
            it.close()
        for lease in self.leases:
            self.proxy.give_back(lease, self.is_silent)
        for it in self.instances:
            it.end()

    def seconds(self, count):
        """A time of the RFC, as long as it is on this stage."""
        return count * self.scale

    def sleep(self, count):
        """Waits for a time of the RFC."""
        time.sleep(self.seconds(count))

    def client(self, to=None):
        """A new client of the proxy."""
        client = Client(self.proxy.client_host, to or self.proxy.address, self.settle)
        self.endpoints.append(client)
        return client

    def settle(self):
        """Waits until the proxy has rejected a ping, and so has done what it was sent before that, or for a while."""
        client = Client(self.proxy.client_host, self.proxy.address)
        ping = wire.message(CON, wire.EMPTY, client.new_id())
        try:
            client.send_raw(ping)
            client.find(lambda it: it.data[2:4] == ping[2:4], SETTLED)
        except NotKept:
            pass
        finally:
            client.close()

    def origin(self, host=None, port=0):
        """A new origin, at an address that hardly any other case has."""
        origin = Origin(host or self.host, port, settle=self.settle)
        self.endpoints.append(origin)
        return origin

    def other_host(self):
        """Another address."""
        if self.proxy.is_v6:
            raise NotOffered("the loopback has one address of IPv6")
        return "127.9.9.9"

    def need(self, what):
        """Isn't offered unless the proxy has something."""
        if what not in self.offers:
            raise NotOffered(f"it has no {what}")

    def resource(self, *segments, query=(), origin=None, way=None):
        """A resource of an origin, which is a new one unless it is given, under a path that no other case has."""
        segments, way = [self.mark, *segments], way or self.way
        self.ways.add(way)
        if way == "reverse":
            return self.reverse_resource(segments, query)
        named = by_proxy_uri if way == "forward" else by_proxy_scheme
        return Resource(origin or self.origin(), [], segments, query, named)

    def root(self):
        """A resource of an origin that has no path but that of a prefix, and a query that no other case has."""
        whole = self.resource(query=[self.mark])
        return Resource(whole.origin, whole.base, [], [self.mark], whole.way)

    def reverse_resource(self, segments, query):
        """A resource under a prefix of the reverse-proxy, whose origin belongs to this case until it is done."""
        if not self.leases:
            self.leases.append(self.proxy.lease())
            lease = self.leases[0]
            lease.endpoint = Origin(lease.host, lease.port, self.mark, self.settle)
            self.endpoints.append(lease.endpoint)
        lease = self.leases[0]
        return Resource(lease.endpoint, lease.base, segments, query, by_prefix(lease.prefix))

    def start(self, words):
        """Starts a program, which is ended when the case is done."""
        self.instances.append(self.proxy.instance(words))

    # What many cases do.

    def reached(self, origin, client, request, seconds=2):
        """A request that must reach an origin, or else what the client got is told."""
        asked = origin.new(seconds)
        if asked is None:
            came = client.reply(request, 0.2)
            raise NotKept(f"the origin wasn't asked; the client got {wire.told(came.data) if came else 'nothing'}")
        return asked

    def asked_or_answered(self, origin, client, request):
        """The request that reaches an origin, and None; or None, and what a client got without that."""
        until = time.monotonic() + PATIENCE
        while time.monotonic() < until:
            asked = origin.new(0.1)
            came = None if asked else client.reply(request, 0.02)
            if asked or came:
                return asked, came
        raise NotKept(f"the origin wasn't asked, and the client got {client.told()}")

    def fetch(self, resource, options=(), payload=b"21", code=CONTENT, method=GET, client=None, asking=(), body=b""):
        """Has the origin answer a new request of a client, and returns what the client got."""
        client = client or self.client()
        request = client.request(method, [*resource.here, *asking], body)
        resource.origin.answer(resource.origin.asked(method), code, options, payload)
        return client.response(request)

    def get_stored(self, resource, asking=()):
        """A response that must come from the cache."""
        client = self.client()
        request = client.request(GET, [*resource.here, *asking])
        response = client.reply(request, PATIENCE)
        if response is None or resource.origin.new(0.05) is not None:
            raise NotOffered("it asks the origin again for what is fresh")
        if response.message.kind == wire.RST:
            raise NotKept("a Reset came in place of a response from the cache")
        return response

    def fetch_again(self, resource, payload, asking=(), method=GET, code=CONTENT, options=(), body=b""):
        """Has a request reach the origin, and the client get what that answers. Whatever comes from a cache isn't
        right."""
        client = self.client()
        request = client.request(method, [*resource.here, *asking], body)
        asked = self.reached(resource.origin, client, request)
        resource.origin.answer(asked, code, options, payload)
        response = client.response(request)
        expect("the payload", payload, response.message.payload)
        return asked, response

    def is_alive(self):
        """Whether the proxy answers a request for something that it doesn't have, or rejects an Empty message."""
        client = self.client()
        client.send_raw(wire.message(CON, wire.EMPTY, client.new_id()))
        client.request(GET, wire.path("no", "such", "path"))
        for _ in range(10):
            if client.find(lambda it: True, PATIENCE / 10) is not None:
                return True
            if not self.proxy.is_running():
                return False
        return False

    def expect_alive(self, what):
        """Has the proxy still answer after something."""
        if not self.is_alive():
            raise NotKept(f"after {what} it answers no more")
