"""Stand-ins that are wrong in one respect of proxying: what goes on and comes back, codes, Observe and blocks."""

from conforming import wire
from conforming.model import NOT_FOUND, Plain, Proxy
from conforming.model_options import REQUEST_LENGTHS
from conforming.wire import BLOCK1, BLOCK2, ETAG, GET, OBSERVE, SIZE2, URI_PATH, URI_QUERY


# What is forwarded and returned


class PathLost(Proxy):
    def target_options(self, target):
        return [(URI_PATH, it) for it in target.path[:1]] + [(URI_QUERY, it) for it in target.query[:1]]


class UnsafeForwarded(Proxy):
    def refused(self, it):
        return []


class SafeLost(Proxy):
    def carried(self, options):
        return [it for it in super().carried(options) if it[0] in REQUEST_LENGTHS]


class UnsafeReturned(Proxy):
    def screened(self, exchange, code, options, payload):
        return code, options, payload


class UnsafeReturnedSeparately(Proxy):
    """Looks at the options of piggybacked responses alone."""

    def on_response(self, sock, it, source):
        self.is_separate = True
        return super().on_response(sock, it, source)

    def on_piggybacked(self, it, source):
        self.is_separate = False
        super().on_piggybacked(it, source)

    def screened(self, exchange, code, options, payload):
        return (code, options, payload) if self.is_separate else super().screened(exchange, code, options, payload)


class SafeNotReturned(Proxy):
    def answer_options(self, options):
        return [it for it in options if it[0] < 100]


class KnownLost(Proxy):
    def carried(self, options):
        return [it for it in super().carried(options) if it[0] not in (1, 5, 12, 17, 60)]


class ConditionsLost(Proxy):
    def carried(self, options):
        return [it for it in super().carried(options) if it[0] not in (1, 5)]


class KnownNotReturned(Proxy):
    def answer_options(self, options):
        return [it for it in options if it[0] not in (4, 8, 12, 20, 60)]


class ResetsWaitedFor(Proxy):
    def on_reset(self, exchange):
        pass

    def give_up(self, exchange):
        pass


class BrokenGivesTimeout(Proxy):
    def on_broken(self, sock, data, source):
        pass


# Methods and codes


class UnknownMethodsForwarded(Proxy):
    def is_known_method(self, code):
        return True


class OtherMethodsAreGets(Proxy):
    def is_known_method(self, code):
        return code in (5, 6, 7) or super().is_known_method(code)

    def serve(self, waiter):
        if waiter.request.code in (5, 6, 7):
            waiter.request = waiter.request._replace(code=GET)
        super().serve(waiter)


class UnknownMethodsAreBad(Proxy):
    def refuse_method(self, waiter):
        self.error(waiter, NOT_FOUND)


class MethodsRefusedLate(Proxy):
    def refuse_method(self, waiter):
        self.acknowledge(waiter)
        super().refuse_method(waiter)


class SizesUntold(Proxy):
    def size_told(self):
        return []


class ReservedLocationsReturned(Proxy):
    def heeds_reserved(self):
        return False


class DotsForwarded(Proxy):
    def has_dots(self, target):
        return False


class TagsDoubled(Proxy):
    def answer_options(self, options):
        return options + [it for it in options if it[0] == ETAG]


# Observe and blocks


class ObserveInvented(Proxy):
    def answer_options(self, options):
        return [*options, (OBSERVE, b"\x05")]


class ObserveReturned(Proxy):
    def drops_observe(self):
        return False

    def screened(self, exchange, code, options, payload):
        return code, options, payload


class KeyHasObserve(Proxy):
    def serve_get(self, waiter, target):
        if any(number == OBSERVE for number, _ in waiter.request.options):
            self.forward(waiter, target, None, None)
        else:
            super().serve_get(waiter, target)


class BlocksLost(Proxy):
    """Doesn't send on the blocks of a request, and serves it."""

    def refused(self, it):
        return []

    def carried(self, options):
        return [it for it in super().carried(options) if it[0] not in (BLOCK1, BLOCK2)]


class BlocksNotReturned(Proxy):
    def on_answer(self, exchange, it):
        super().on_answer(exchange, it._replace(options=[one for one in it.options if one[0] != BLOCK2]))


class BlocksStripped(Proxy):
    """Forwards Block2 in requests, and takes it off responses."""

    def is_unsafe(self, number):
        return number != BLOCK2 and super().is_unsafe(number)

    def answer_options(self, options):
        return [it for it in options if it[0] != BLOCK2]


class BlocksMixed(Proxy):
    """Knows Block2, and keeps the first block for all."""

    def is_unsafe(self, number):
        return number != BLOCK2 and super().is_unsafe(number)

    def is_in_key(self, number):
        return number != BLOCK2 and super().is_in_key(number)


class SizesRefused(Proxy):
    def is_unsafe(self, number):
        return number == SIZE2 or super().is_unsafe(number)


class SizesInKey(Proxy):
    def is_in_key(self, number):
        return number == SIZE2 or super().is_in_key(number)


class BlockPartsTurned(BlocksMixed):
    """Knows Block2, and returns parts from their end to their beginning."""

    def answer_bytes(self, *parts):
        return super().answer_bytes(*parts[:-1], parts[-1][::-1])


class BlocksFirst(BlocksMixed):
    """Asks for the first block, whichever was asked for."""

    def carried(self, options):
        return [(number, b"" if number == BLOCK2 else value) for number, value in super().carried(options)]


class AsksNothing(Proxy):
    """Answers each request that it should forward by 5.04."""

    def forward(self, waiter, target, key, validated):
        self.error(waiter, wire.code("5.04"))


class ErrorsLost(Plain):
    """Returns another error of the same class."""

    def answer_bytes(self, kind, code, *rest):
        return super().answer_bytes(kind, code ^ 1 if wire.is_error(code) else code, *rest)


class OtherMethodsWithoutBody(Proxy):
    """Forwards FETCH, PATCH and iPATCH without what they have to say."""

    def is_known_method(self, code):
        return super().is_known_method(code) or code in (5, 6, 7)


class OtherMethodsLost(OtherMethodsWithoutBody):
    """Forwards them whole, and returns another code."""

    def payload_of(self, request):
        return request.payload

    def answer_bytes(self, kind, code, *rest):
        return super().answer_bytes(kind, code ^ 1, *rest)


class ResetsAreNotFound(Proxy):
    def on_reset(self, exchange):
        self.fail(exchange, NOT_FOUND)
