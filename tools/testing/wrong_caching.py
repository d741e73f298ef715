"""Stand-ins that are wrong in one respect of the cache, or lose an option of requests to origins."""

from testing.coap import (
    ACK, CON, CONTENT, EMPTY, ETAG, GET, MAX_AGE, NON, PROXY_SCHEME, URI_PATH, URI_PORT, message, number, number_bytes,
    read,
)
from testing.right import Right, edited

# An option that is part of the cache key and means nothing.
MARK = 2048


class MaxAgeKept(Right):
    def to_client(self, data, client):
        it = read(data)
        ages = [number(value) for option, value in it.options if option == MAX_AGE]
        if not ages:
            return [data]
        first = self.seen.setdefault(it.payload, ages[0])
        return [edited(data, options=[(n, number_bytes(first) if n == MAX_AGE else value) for n, value in it.options])]


class AnswersFromMemory(Right):
    """Gives what it gave before for the same request, whatever has become of it."""

    def key(self, options):
        return tuple(options)

    def to_proxy(self, data, client):
        it = read(data)
        if it.code != GET:
            return [data]
        answer = self.seen.get(self.key(it.options))
        if answer is None:
            self.seen[client, it.token] = it.options
            return [data]
        kind = ACK if it.kind == CON else NON
        self.relay.reply(client, message(*answer._replace(kind=kind, message_id=it.message_id, token=it.token)))
        return []

    def to_client(self, data, client):
        it = read(data)
        if it.code == CONTENT:
            self.seen[self.key(self.seen[client, it.token])] = it
        return [data]


class KeyIsThePath(AnswersFromMemory):
    def key(self, options):
        return tuple(it for it in options if it[0] == URI_PATH)


class NeverFromTheCache(Right):
    """Makes each request another one, by an option that the origin doesn't see."""

    def to_proxy(self, data, client):
        it = read(data)
        if it.code == EMPTY:
            return [data]
        count = self.seen.setdefault((client, data), len(self.seen) + 1)
        return [edited(data, options=it.options + [(MARK, number_bytes(count))])]

    def to_origin(self, data):
        return [edited(data, options=[it for it in read(data).options if it[0] != MARK])]


class TagLost(Right):
    lost = ETAG

    def to_origin(self, data):
        return [edited(data, options=[it for it in read(data).options if it[0] != self.lost])]


class PortLost(TagLost):
    lost = URI_PORT


class SchemeLost(TagLost):
    lost = PROXY_SCHEME
