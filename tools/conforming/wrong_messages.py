"""Stand-ins that are wrong in one respect of messages: format, acknowledgements, duplicates, and what ends them."""

import os

from conforming import wire
from conforming.model import NOT_ALLOWED, Plain, Proxy
from conforming.model_messages import Record
from conforming.wire import ACK, CON, EMPTY, NON, RST
from testing.coap import message, option, read


# Format


class AnyVersion(Proxy):
    forgiven = ("version",)

    def is_of_version(self, data):
        return len(data) >= 4


class LongTokensTaken(Proxy):
    forgiven = ("token",)

    def request_bytes(self, kind, code, message_id, token, options, payload):
        return message(kind, code, message_id, token[:8], options, payload)

    def answer_bytes(self, kind, code, message_id, token, options, payload):
        return message(kind, code, message_id, token[:8], options, payload)

    def found(self, it, source, sock):
        return super().found(it._replace(token=it.token[:8]), source, sock)


class MarkerAloneTaken(Proxy):
    forgiven = ("marker",)


class ReservedNibblesTaken(Proxy):
    forgiven = ("nibble", "cut")

    def is_recognised(self, number, *rest):
        return number >= 15 or super().is_recognised(number, *rest)


class CutOptionsTaken(Proxy):
    forgiven = ("cut",)

    def is_unsafe(self, number):
        return False


class OptionsMisplaced(Proxy):
    """Writes the greatest option number first, and has no delta for the others."""

    def request_bytes(self, kind, code, message_id, token, options, payload):
        data, before = message(kind, code, message_id, token), 0
        for number, value in sorted(options, key=lambda it: -it[0]):
            data += option(number, value, before) if number >= before else option(number, value, 0)
            before = max(before, number)
        return data + (b"\xff" + payload if payload else b"")


class RepeatedTurned(Proxy):
    def turned(self, options):
        return sorted(reversed(options), key=lambda it: it[0])

    def request_bytes(self, kind, code, message_id, token, options, payload):
        return message(kind, code, message_id, token, self.turned(options), payload)

    def answer_bytes(self, kind, code, message_id, token, options, payload):
        return message(kind, code, message_id, token, self.turned(options), payload)


class LengthsMiscounted(Proxy):
    """Has one byte less, or one more, than an option had."""

    def request_bytes(self, kind, code, message_id, token, options, payload):
        changed = [(n, value[:-1] if value else b"\x00") if n == wire.SAFE else (n, value) for n, value in options]
        return message(kind, code, message_id, token, changed, payload)


class PayloadTrimmed(Proxy):
    def payload_of(self, request):
        return request.payload[:-1]


class LeadingZerosSent(Proxy):
    def age_bytes(self, seconds):
        return seconds.to_bytes(4, "big")


class LeadingZerosUnread(Proxy):
    def max_age_of(self, entry):
        values = [value for number, value in entry.options if number == wire.MAX_AGE]
        return 60 if values and values[0][:1] == b"\x00" else super().max_age_of(entry)


# Acknowledgements and rejections


class NotAcknowledged(Plain):
    def wait_for_answer(self, waiter):
        pass


class IdsOff(Proxy):
    def send(self, sock, data, to):
        kind = data[0] >> 4 & 3
        super().send(sock, data[:3] + bytes([data[3] ^ 1]) + data[4:] if kind == ACK else data, to)


class PingsAnswered(Proxy):
    def on_empty(self, sock, data, source):
        self.send(sock, message(ACK, EMPTY, int.from_bytes(data[2:4], "big")), source)


class AcksAnswered(Proxy):
    def on_reply(self, sock, it, source):
        super().on_reply(sock, it, source)
        if sock is self.front:
            self.send(sock, message(RST, EMPTY, it.message_id), source)


class RejectsBySilence(Proxy):
    resets = ()


class RepliesServed(Proxy):
    """Serves a request whatever message it is in."""

    def on_reply(self, sock, it, source):
        super().on_reply(sock, it, source)
        if sock is self.front and wire.is_request(it.code):
            self.on_request(it, source, Record(0))


class LongEmptyAccepted(Proxy):
    forgiven = ("empty",)

    def on_empty(self, sock, data, source):
        self.send(sock, message(ACK, EMPTY, int.from_bytes(data[2:4], "big")), source)


class ReservedClassesAnswered(Proxy):
    def on_reserved(self, sock, data, source):
        it = read(data)
        kind = ACK if it.kind == CON else NON
        self.send(sock, message(kind, NOT_ALLOWED, it.message_id, it.token), source)


class StrayResponsesAcknowledged(Proxy):
    def on_stray_response(self, sock, it, data, source):
        self.send(sock, message(ACK, EMPTY, it.message_id), source)


class EmptyNonAnswered(Proxy):
    def on_empty(self, sock, data, source):
        self.send(sock, message(ACK, EMPTY, int.from_bytes(data[2:4], "big")), source)


class NonAcknowledged(Proxy):
    def wait_for_answer(self, waiter):
        self.acknowledge_soon(waiter)


class EmptyNonSent(Proxy):
    def wait_for_answer(self, waiter):
        self.send(self.front, message(NON, EMPTY, self.new_id(waiter.source)), waiter.source)
        super().wait_for_answer(waiter)


# Duplicates


class DuplicatesAreNew(Plain):
    def on_duplicate(self, sock, it, source, record):
        self.on_request(it, source, Record(record.until))


class DuplicatesIgnored(Proxy):
    def on_duplicate(self, sock, it, source, record):
        pass


class LastRemembered(Proxy):
    """Remembers of each endpoint the last message alone."""

    def duplicate_key(self, sock, it, source):
        key = super().duplicate_key(sock, it, source)
        for other in [one for one in self.known if one[:2] == key[:2] and one != key]:
            del self.known[other]
        return key


class TokensTellDuplicates(Proxy):
    def duplicate_key(self, sock, it, source):
        return (*super().duplicate_key(sock, it, source), it.token)


class OriginsAreOne(Proxy):
    """Knows the messages of origins by their Message IDs alone."""

    def duplicate_key(self, sock, it, source):
        return (sock, it.message_id) if sock is self.back else super().duplicate_key(sock, it, source)


class SourcesAreOne(Proxy):
    def duplicate_key(self, sock, it, source):
        return sock, it.message_id


class SeparateDoneTwice(Proxy):
    """Doesn't acknowledge a separate response that comes again."""

    def on_duplicate(self, sock, it, source, record):
        if sock is self.front:
            super().on_duplicate(sock, it, source, record)


class ForgetsNever(Proxy):
    lifetimes = {CON: 1e6, NON: 1e6}


class ForgetsSoon(Proxy):
    lifetimes = {CON: 60, NON: 60}


class ForgetsAtOnce(Proxy):
    lifetimes = {CON: 5, NON: 5}


class IdsRepeat(Proxy):
    def new_id(self, to):
        return super().new_id(to) % 16


class EndpointsIgnored(Proxy):
    def sending_key(self, sock, to, message_id):
        return sock, message_id


class IdsIgnored(Proxy):
    """Takes what an endpoint acknowledges for what was sent to it last."""

    def take_sending(self, sock, it, source):
        keys = [key for key in self.sendings if key[:2] == (sock, source)]
        return self.sendings.pop(keys[-1]) if keys else None


class EndsOnIcmp(Proxy):
    def on_network_error(self):
        os._exit(1)

    def __init__(self, *words):
        super().__init__(*words)
        for sock in (self.front, self.back):
            sock.setsockopt(0, 11, 1)


# What ends them


class EndsAtGarbage(Proxy):
    def receive(self, sock, data, source):
        if sock is self.front and (len(data) < 4 or len(data) > 1400 or data[0] == 0xFF):
            os._exit(1)
        super().receive(sock, data, source)


class EndsAtUris(Proxy):
    def located(self, host, port, path, query):
        if not host.startswith("127."):
            os._exit(1)
        return super().located(host, port, path, query)

    def match_uri(self, value):
        found = super().match_uri(value)
        if found is None or not found["host"] or len(value) > 1000 or found["port"] == "0":
            os._exit(1)
        return found

    def refused(self, it):
        if any(number == wire.URI_HOST and not value for number, value in it.options):
            os._exit(1)
        return super().refused(it)


class EndsAtResponses(Proxy):
    def receive(self, sock, data, source):
        if sock is self.back and (len(data) < 4 or len(data) > 1400):
            os._exit(1)
        super().receive(sock, data, source)


class EndsAfterFaults(EndsAtUris):
    """Has other faults, which are found before it ends."""

    def answer_bytes(self, kind, code, *rest):
        return message(kind, code ^ 1 if wire.is_response(code) else code, *rest)


class EndsAmongMany(Proxy):
    """Ends when it has many requests under way, and not when there are few."""

    def forward(self, waiter, target, key, validated):
        super().forward(waiter, target, key, validated)
        if len(self.exchanges) > 7:
            os._exit(1)


class VersionsRejected(Proxy):
    def receive(self, sock, data, source):
        if not self.is_of_version(data):
            self.reject(sock, data, source)
        super().receive(sock, data, source)


class AcknowledgesNothing(Proxy):
    """Sends clients no acknowledgement, nor what would be in one."""

    def send(self, sock, data, to):
        if sock is not self.front or data[0] >> 4 & 3 != ACK:
            super().send(sock, data, to)


class DuplicatesAcknowledgedAlone(Proxy):
    """Acknowledges a request that comes again, without the response that was in the first acknowledgement, for which it
    waits long."""

    waits = 3

    def on_duplicate(self, sock, it, source, record):
        record.reply = None
        super().on_duplicate(sock, it, source, record)


class NonDuplicatesRejected(Proxy):
    def on_duplicate(self, sock, it, source, record):
        super().on_duplicate(sock, it, source, record)
        if it.kind == NON:
            self.send(sock, message(RST, EMPTY, it.message_id), source)


class SeparateAnsweredTwice(Proxy):
    """Acknowledges a response that comes again, and answers the client again."""

    def on_answer(self, exchange, it):
        self.last = exchange.waiters[0], it
        super().on_answer(exchange, it)

    def on_duplicate(self, sock, it, source, record):
        super().on_duplicate(sock, it, source, record)
        if sock is self.back:
            waiter, answer = self.last
            self.respond(waiter, answer.code, answer.options, answer.payload)
