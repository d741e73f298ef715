"""Stand-ins that are wrong in one respect of responses: their forms, tokens, and the requests that they belong to."""

import time

from conforming import wire
from conforming.model import Proxy, Separate
from conforming.wire import ACK, CON, NON
from testing.coap import message
from testing.network import udp


class SeparateIgnored(Proxy):
    def on_response(self, sock, it, source):
        return False


class NonResponsesIgnored(Proxy):
    def on_response(self, sock, it, source):
        return it.kind == CON and super().on_response(sock, it, source)


class ConResponsesIgnored(Proxy):
    def on_response(self, sock, it, source):
        return it.kind == NON and super().on_response(sock, it, source)


class PiggybackedIgnored(Proxy):
    def on_piggybacked(self, it, source):
        pass


class SeparateUnacknowledged(Proxy):
    def acknowledge_response(self, sock, it, source, record):
        pass


class AnswersNothing(Proxy):
    """Acknowledges requests, and answers none."""

    def respond(self, waiter, code, options, payload):
        self.acknowledge_soon(waiter)


class PayloadsChanged(Proxy):
    """Returns a byte more than a response has."""

    def answer_bytes(self, *parts):
        return message(*parts[:-1], parts[-1] + b"!")


class BodiesChanged(Proxy):
    """Forwards a byte more than a request has."""

    def payload_of(self, request):
        return super().payload_of(request) + b"!"


class AnswersInAcks(Separate):
    def answer_kind(self, request, kind):
        return ACK if request.kind == CON else kind


class NonAnsweredConfirmably(Proxy):
    def answer_kind(self, request, kind):
        return CON if request.kind == NON else kind


class TokensChanged(Proxy):
    def token_of(self, waiter):
        token = waiter.request.token
        return token[:-1] + bytes([token[-1] ^ 1]) if token else b"\x01"


class TokensRepeat(Proxy):
    def new_token(self):
        self.last = getattr(self, "last", 0) + 1
        return bytes([self.last % 4])


class TokensCount(Proxy):
    def new_token(self):
        self.last = getattr(self, "last", 1 << 40) + 1
        return self.last.to_bytes(8, "big")


class TokensMixed(Proxy):
    """Takes an answer for that of the request that was sent to the origin first."""

    def found(self, it, source, sock):
        some = [one for one in self.exchanges.values() if one.to == source and one.has_turn]
        return some[0] if some else None


class ImpostorsBelieved(Proxy):
    def found(self, it, source, sock):
        return next((one for one in self.exchanges.values() if one.token == it.token and one.has_turn), None)


class AnyTokenBelieved(Proxy):
    def found(self, it, source, sock):
        return next((one for one in self.exchanges.values() if one.to == source and one.has_turn), None)


class AnyIdBelieved(Proxy):
    def has_id(self, exchange, it):
        return True


class AnswersFromElsewhere(Proxy):
    def send(self, sock, data, to):
        self.asked_at.clear()
        super().send(sock, data, to)


class MixesOriginsLater(Proxy):
    """After a rest, sends what it is asked to where it was asked to send the first request."""

    def forward(self, waiter, target, key, validated):
        now = time.monotonic()
        first, last = getattr(self, "first", None), getattr(self, "last_at", now)
        self.last_at = now
        if now - last > 100 * self.scale:
            self.is_mixed = True
        self.first = first or target
        if getattr(self, "is_mixed", False):
            target = target._replace(host=self.first.host, port=self.first.port)
        super().forward(waiter, target, key, validated)


class Elsewhere(Proxy):
    """Sends some of its messages from a third port."""

    def __init__(self, host, *words):
        super().__init__(host, *words)
        self.third = udp(host)
        self.third.bind((host, 0))

    def send(self, sock, data, to):
        super().send(self.third if self.is_elsewhere(sock, data) else sock, data, to)


class AnswersFromAnotherPort(Elsewhere):
    def is_elsewhere(self, sock, data):
        return sock is self.front and wire.is_response(data[1])


class AcknowledgesElsewhere(Elsewhere):
    def is_elsewhere(self, sock, data):
        return data[0] >> 4 & 3 == ACK and data[1] == wire.EMPTY


class SendsAgainElsewhere(Elsewhere):
    def is_elsewhere(self, sock, data):
        return sock is self.back and any(it.data == data and it.tries > 1 for it in self.sendings.values())


class LaterAcksFilled(Separate):
    """Has a request that comes again after its answer be acknowledged with that."""

    def respond(self, waiter, code, options, payload):
        super().respond(waiter, code, options, payload)
        request = waiter.request
        waiter.record.reply = message(ACK, code, request.message_id, request.token, options, payload)


class NotificationsPassed(Proxy):
    """Rejects a response that nobody waits for, and gives it to whom it answered last."""

    def respond(self, waiter, code, options, payload):
        self.last = waiter
        super().respond(waiter, code, options, payload)

    def on_stray_response(self, sock, it, data, source):
        super().on_stray_response(sock, it, data, source)
        waiter = self.last
        self.send(self.front, message(NON, it.code, 1, waiter.request.token, [], it.payload), waiter.source)


class AnswersNothingLater(Proxy):
    """After a rest, answers no request."""

    def on_request(self, it, source, record):
        now = time.monotonic()
        self.is_deaf = getattr(self, "is_deaf", False) or now - getattr(self, "last_at", now) > 100 * self.scale
        self.last_at = now
        if not self.is_deaf:
            super().on_request(it, source, record)
