"""Stand-ins that are wrong in one respect of options: lengths, repetition, defaults, and payloads that mean nothing."""

from conforming import wire
from conforming.model import Plain, Proxy
from conforming.model_wire import Target
from conforming.wire import MAX_AGE, URI_HOST, URI_PORT


class LengthsUnchecked(Proxy):
    def has_length(self, number, value, lengths):
        return True

    def located(self, host, port, path, query):
        return super().located(host[:15], port % 65_536, path, query)

    def serves_scheme(self, scheme):
        return True

    def target_of_uri(self, value):
        return super().target_of_uri(value) if value else Target(None, None, (), ())


class RepeatsTaken(Proxy):
    def stands_before(self, number, before):
        return False


class AgesTaken(Proxy):
    """Knows Max-Age in requests, however often it stands there, and with whatever length."""

    def request_lengths(self):
        return {**super().request_lengths(), MAX_AGE: (0, 20)}

    def stands_before(self, number, before):
        return number != MAX_AGE and super().stands_before(number, before)


class OptionsDoubled(Proxy):
    def answer_options(self, options):
        return [it for it in super().answer_options(options) for _ in range(2)]


class DefaultsSent(Proxy):
    def target_options(self, target):
        place = [(URI_HOST, target.host.encode()), (URI_PORT, wire.number_bytes(target.port))]
        return place + super().target_options(target)


class DefaultMaxAgeSent(Proxy):
    def age_option(self, seconds):
        return [(MAX_AGE, wire.number_bytes(seconds))]

    def answer_options(self, options):
        return options


class PayloadsKept(Proxy):
    def payload_of(self, request):
        return request.payload


class ValidPayloadsKept(Plain):
    def screened(self, exchange, code, options, payload):
        return code, options, payload


class NotExplained(Proxy):
    def explanation(self, code):
        return b""


class ExplainsInLatin(Proxy):
    def explanation(self, code):
        return "§ 5.9".encode("latin-1")
