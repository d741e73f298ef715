"""What a stand-in asks of origins, and what it makes of their responses (sections 4.7, 5.2 and 5.7.1)."""

import os
import time

from conforming import wire
from conforming.model_cache import CONTENT, RESERVED_LOCATIONS, VALID, Entry
from conforming.model_options import REPEATED_IN_RESPONSES, RESPONSE_LENGTHS
from conforming.wire import (
    ACK, CON, ETAG, GET, NON, OBSERVE, POST, PROXY_SCHEME, URI_HOST, URI_PATH, URI_PORT, URI_QUERY,
)
from testing.coap import PUT, message

BAD_OPTION, BAD_GATEWAY, TIMEOUT = (wire.code(it) for it in ("4.02", "5.02", "5.04"))


class Exchange:
    """A request to an origin, and the clients that wait for its answer."""

    def __init__(self, to, token, target, waiter, key, validated):
        self.to, self.token, self.target, self.waiters = to, token, target, [waiter]
        self.key, self.validated, self.method = key, validated, waiter.request.code
        self.is_overtaken, self.has_turn, self.is_counted = False, False, False
        self.data = self.sending = self.message_id = None


class Origins:
    """Requests to origins, and the responses that come for them."""

    # Requests to origins

    def forward(self, waiter, target, key, validated):
        """Sends a request on, once it is its turn, or has a GET wait for the answer to an equal one."""
        to = self.following or (self.hosts.get(target.host, target.host), target.port)
        joined = self.joined(target, key) if key is not None and self.joins else None
        if joined is not None:
            joined.waiters.append(waiter)
            self.wait_for_answer(waiter)
            return
        if self.is_silent(to):
            self.error(waiter, TIMEOUT)
            return
        exchange = Exchange(to, self.new_token(), target, waiter, key, validated)
        self.exchanges[to, exchange.token] = exchange
        exchange.data = self.encoded(exchange, waiter.request)
        self.wait_for_answer(waiter)
        self.queues.setdefault(to, []).append(exchange)
        self.send_next(to)

    def joined(self, target, key):
        """The request under way whose answer is that of a GET, too, or None."""
        return next((it for it in self.exchanges.values() if it.key == key and not it.is_overtaken), None)

    def is_silent(self, to):
        """Whether an origin that didn't answer has to be left alone (4.7, PROBING_RATE)."""
        return self.silent_until.get(to, 0) > time.monotonic()

    def new_token(self):
        return os.urandom(self.token_length)

    def encoded(self, exchange, request):
        """The request to an origin, as bytes."""
        options = [*self.carried(request.options), *self.target_options(exchange.target)]
        options += self.chain_options(exchange.target) if self.following else []
        if self.caches and request.code == GET:
            options = [it for it in options if it[0] != ETAG]
            if exchange.validated is not None:
                options.append((ETAG, exchange.validated.tag()))
        kind = NON if self.mirrors and request.kind == NON else CON
        exchange.message_id = self.new_id(exchange.to)
        payload = self.payload_of(request)
        return self.request_bytes(kind, request.code, exchange.message_id, exchange.token, options, payload)

    def request_bytes(self, *parts):
        return message(*parts)

    def payload_of(self, request):
        return request.payload if request.code in (POST, PUT) else b""

    def target_options(self, target):
        parts = [(URI_PATH, it) for it in target.path] + [(URI_QUERY, it) for it in target.query]
        return self.name_options(target) + parts if target.host in self.hosts and not self.following else parts

    def name_options(self, target):
        """What tells an origin by which name it was asked."""
        return [(URI_HOST, target.host.encode())]

    def chain_options(self, target):
        """What is said to a next proxy beside the path and the query."""
        place = [(URI_HOST, target.host.encode()), (URI_PORT, wire.number_bytes(target.port))]
        return [*place, (PROXY_SCHEME, b"coap")]

    def most_outstanding(self):
        return 1

    def send_next(self, to):
        """Sends the next request to an origin, if no other one is outstanding."""
        while self.queues.get(to) and self.outstanding.get(to, 0) < self.most_outstanding():
            exchange = self.queues[to].pop(0)
            self.outstanding[to] = self.outstanding.get(to, 0) + 1
            exchange.has_turn = exchange.is_counted = True
            self.later(wire.MAX_TRANSMIT_WAIT, lambda it=exchange: self.give_up(it))
            if exchange.data[0] >> 4 & 3 == CON:
                ended = lambda how, it=exchange: self.on_sending_ended(it, how)
                exchange.sending = self.send_reliably(self.back, exchange.data, to, ended)
            else:
                self.send(self.back, exchange.data, to)

    def on_sending_ended(self, exchange, how):
        """What an acknowledgement, a Reset or none of them means to an exchange."""
        if how == "timeout":
            self.give_up(exchange)
        elif how == "reset":
            self.on_reset(exchange)
        elif how == "ack":
            self.release(exchange)

    def on_reset(self, exchange):
        self.fail(exchange, BAD_GATEWAY)

    def release(self, exchange):
        """Makes room for the next request to an origin."""
        if exchange.is_counted:
            exchange.is_counted = False
            self.outstanding[exchange.to] -= 1
            self.send_next(exchange.to)

    def give_up(self, exchange):
        """Ends an exchange that wasn't answered in time."""
        if self.exchanges.get((exchange.to, exchange.token)) is exchange:
            # One that acknowledged the request isn't silent.
            if exchange.is_counted:
                self.note_silence(exchange)
            self.fail(exchange, TIMEOUT)

    def note_silence(self, exchange):
        sent = len(exchange.data) * (self.retransmissions + 1)
        self.silent_until[exchange.to] = time.monotonic() + sent * self.scale
        for other in self.queues.pop(exchange.to, []):
            self.exchanges.pop((other.to, other.token), None)
            for waiter in other.waiters:
                self.error(waiter, TIMEOUT)

    def close(self, exchange):
        """Forgets an exchange."""
        self.exchanges.pop((exchange.to, exchange.token), None)
        self.sendings.pop(exchange.sending, None)
        self.release(exchange)

    def fail(self, exchange, code):
        """Answers the clients of an exchange by an error."""
        self.close(exchange)
        for waiter in exchange.waiters:
            self.error(waiter, code)

    # Responses of origins

    def found(self, it, source, sock):
        """The exchange that a response belongs to, or None."""
        exchange = self.exchanges.get((source, it.token))
        return exchange if exchange and exchange.has_turn and sock is self.back else None

    def on_response(self, sock, it, source):
        """Takes a separate response, and returns whether it is awaited."""
        exchange = self.found(it, source, sock)
        if exchange is not None:
            self.on_answer(exchange, it)
        return exchange is not None

    def on_piggybacked(self, it, source):
        """Takes a response in an acknowledgement."""
        exchange = self.found(it, source, self.back)
        if exchange is not None and self.has_id(exchange, it):
            self.on_answer(exchange, it)

    def has_id(self, exchange, it):
        return exchange.message_id == it.message_id

    def on_broken(self, sock, data, source):
        """Has what an origin sent with a format error be its answer, if its header says so."""
        for exchange in list(self.exchanges.values()):
            is_answer = len(data) > 4 and data[1] >> 5 == 2 and data[0] >> 4 & 3 == ACK
            if sock is self.back and is_answer and exchange.to == source:
                if exchange.message_id == int.from_bytes(data[2:4], "big") and data[0] & 15 <= 8:
                    self.fail(exchange, BAD_GATEWAY)

    def on_answer(self, exchange, it):
        """Gives an answer to the clients that wait for it, and stores it."""
        self.close(exchange)
        options = [one for one in it.options if one[0] != OBSERVE or not self.drops_observe()]
        code, options, payload = self.screened(exchange, it.code, options, it.payload)
        self.on_change(exchange, *self.change_of(it, code, options))
        entry = exchange.validated
        if code == VALID and exchange.method == GET and self.caches:
            code, options, payload, entry = self.on_valid(exchange, options)
        elif self.may_store(exchange.method, code, options) and exchange.key is not None:
            entry = Entry(exchange.target, code, options, payload)
            entry.is_stale = exchange.is_overtaken
            if code != BAD_GATEWAY:
                self.store[exchange.key] = entry
        for waiter in exchange.waiters:
            if self.caches and code == CONTENT and entry is not None and self.has_tag(waiter.request, entry):
                self.give(waiter, entry)
            else:
                self.respond(waiter, code, options, payload)

    def change_of(self, it, code, options):
        """The code and the options that tell what a response changed: as the origin sent them."""
        return it.code, it.options

    def drops_observe(self):
        return self.knows_observe

    def on_valid(self, exchange, options):
        """What a 2.03 comes to: the stored response that it renews, or an error."""
        tags = [value for number, value in options if number == ETAG]
        if exchange.validated is None or tags != [exchange.validated.tag()]:
            return BAD_GATEWAY, [], b"", None
        entry = exchange.validated
        self.renewed(entry, options)
        entry.is_stale = exchange.is_overtaken
        return entry.code, self.shown(entry), entry.payload, entry

    def screened(self, exchange, code, options, payload):
        """A response as it may be returned, or the error that is returned in its place."""
        unknown = self.unrecognised(options, RESPONSE_LENGTHS, REPEATED_IN_RESPONSES)
        numbers = {number for number, _ in options}
        if any(self.is_unsafe(number) for number, _ in unknown) or not self.is_storable_code(code):
            return BAD_GATEWAY, [], b""
        if numbers & {8, 20} and numbers & set(RESERVED_LOCATIONS) and self.heeds_reserved():
            return BAD_OPTION, [], b""
        return code, options, b"" if code == VALID else payload

    def is_storable_code(self, code):
        return wire.is_response(code)

    def heeds_reserved(self):
        return True
