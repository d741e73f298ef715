"""Stand-ins that are wrong in one respect of the cache: keys, freshness, validation and changes."""

import time

from conforming import wire
from conforming.model import Bare, Proxy
from conforming.model_cache import VALID, Entry
from conforming.model_wire import UriError
from conforming.wire import ETAG, GET, MAX_AGE
from testing.coap import message


class KeyIgnoresMethod(Proxy):
    """Answers any request from the cache."""

    def serve(self, waiter):
        super().serve(self.as_get(waiter))

    def as_get(self, waiter):
        try:
            target = self.target_of(waiter.request)
        except UriError:
            return waiter
        if any(entry.target == target and self.is_fresh(entry) for entry in self.store.values()):
            waiter.request = waiter.request._replace(code=GET)
        return waiter


class KeyIgnoresPath(Proxy):
    def key_of(self, target, options):
        return super().key_of(target._replace(path=target.path[:1]), options)


class KeyIgnoresQuery(Proxy):
    def key_of(self, target, options):
        return super().key_of(target._replace(query=()), options)


class KeyIgnoresOptions(Proxy):
    def key_of(self, target, options):
        return target


class KeyJoined(Proxy):
    """Has a key of the URI's text, without what its reserved characters are encoded for, in any case and order."""

    def key_of(self, target, options):
        text = b"/".join(target.path) + b"?" * bool(target.query and any(target.query))
        text += b"&".join(sorted(b"&".join(target.query).split(b"&")))
        values = tuple((number, value) for number, value in super().key_of(target, options)[1] if value)
        return target.host, target.port, text.lower().rstrip(b"/"), values


class KeyIgnoresOrigin(Proxy):
    def key_of(self, target, options):
        return super().key_of(target._replace(host="", port=0, path=target.path[1:]), options)


class NeverStale(Proxy):
    def is_fresh(self, entry):
        return not entry.is_stale


class DefaultIsAnHour(Proxy):
    default_age = 3600


class CodesLost(Proxy):
    """Returns another code of the same class."""

    def answer_bytes(self, kind, code, *rest):
        return message(kind, code ^ 1 if wire.is_response(code) else code, *rest)


class AgeIgnored(Proxy):
    def shown_age(self, entry):
        return self.max_age_of(entry)


def with_more_age(options, seconds):
    """Options with a Max-Age of so many seconds more."""
    values = [value for number, value in options if number == MAX_AGE]
    age = (wire.number(values[0]) if values else 60) + seconds
    others = [it for it in options if it[0] != MAX_AGE]
    return sorted([*others, (MAX_AGE, wire.number_bytes(age))], key=lambda it: it[0])


class AgesLongerForwarded(Proxy):
    """Has what it forwards be fresh for a minute more."""

    more, is_forwarding = 60, False

    def on_answer(self, exchange, it):
        self.is_forwarding = True
        super().on_answer(exchange, it)
        self.is_forwarding = False

    def answer_options(self, options):
        return with_more_age(options, self.more) if self.is_forwarding else super().answer_options(options)


class AgesOneMore(AgesLongerForwarded):
    more = 1


class AgesLongerWithoutCache(Bare):
    def answer_options(self, options):
        return with_more_age(options, 1000)


class AgesOfErrorsLonger(Proxy):
    def shown_age(self, entry):
        return super().shown_age(entry) + (60 if wire.is_error(entry.code) else 0)


class AgesOfErrorsIgnored(Proxy):
    def shown_age(self, entry):
        return self.max_age_of(entry) if wire.is_error(entry.code) else super().shown_age(entry)


class ValidAgeIgnored(Proxy):
    def valid_options(self, entry):
        return [(ETAG, entry.tag()), *self.age_option(self.max_age_of(entry))]


class TagsNotSent(Proxy):
    def forward(self, waiter, target, key, validated):
        super().forward(waiter, target, key, None)


class ValidTakenWrong(Proxy):
    def on_valid(self, exchange, options):
        return VALID, options, b"", exchange.validated


class NewsIgnored(Proxy):
    """Answers from what is stored, whatever the answer to a validation is."""

    def on_answer(self, exchange, it):
        if exchange.validated is not None:
            it = it._replace(code=VALID, options=[(ETAG, exchange.validated.tag())])
        super().on_answer(exchange, it)


class RenewalIgnored(Proxy):
    def renewed(self, entry, options):
        entry.at, entry.is_stale = time.monotonic(), False


class OptionsNotRenewed(Proxy):
    def renewed(self, entry, options):
        super().renewed(entry, [it for it in options if it[0] == MAX_AGE])


class ValidWithPayload(Proxy):
    def valid_payload(self, entry):
        return entry.payload


class ValidWithoutTag(Proxy):
    def valid_options(self, entry):
        return self.age_option(self.shown_age(entry))


class TagsAreNumbers(Proxy):
    """Takes ETags for numbers, and leaves out their zeros."""

    def has_tag(self, request, entry):
        tag = entry.tag()
        some = [wire.number(value) for number, value in request.options if number == ETAG]
        return tag is not None and wire.number(tag) in some

    def answer_options(self, options):
        return [(n, value.lstrip(b"\x00") or b"\x01" if n == ETAG else value) for n, value in options]


class AnyTagIsValid(Proxy):
    def has_tag(self, request, entry):
        return entry.tag() is not None and any(number == ETAG for number, _ in request.options)


class ChangesIgnored(Proxy):
    def mark(self, target):
        pass


class LocationsIgnored(Proxy):
    def heeds_locations(self, code):
        return False


class ChangesStored(Proxy):
    """Stores what a change was answered with, and gives it for the same request and for a GET."""

    def serve(self, waiter):
        target = self.target_of(waiter.request)
        entry = self.store.get(("changed", target))
        if entry is not None:
            self.respond(waiter, entry.code, entry.options, entry.payload)
        else:
            super().serve(waiter)

    def on_change(self, exchange, code, options):
        if code in (wire.code("2.01"), wire.code("2.02"), wire.code("2.04")):
            self.store["changed", exchange.target] = Entry(exchange.target, code, options, b"")


class StoredBeforeChange(Proxy):
    def mark(self, target):
        for entry in self.store.values():
            entry.is_stale = entry.is_stale or entry.target == target


class RootKept(Proxy):
    def mark(self, target):
        if target.path:
            super().mark(target)


class VariantsKept(Proxy):
    """Has a change mark only what was got without options."""

    def mark(self, target):
        kept = [entry for (_, options), entry in self.store.items() if options and not entry.is_stale]
        super().mark(target)
        for entry in kept:
            entry.is_stale = False


class RefusedChangesIgnored(Proxy):
    """Takes what a client is told for what an origin said of a change."""

    def change_of(self, it, code, options):
        return code, options


class RefusedStored(Proxy):
    """Stores what it gave 5.02 for."""

    def on_answer(self, exchange, it):
        super().on_answer(exchange, it)
        if exchange.key is not None and exchange.key not in self.store:
            self.store[exchange.key] = Entry(exchange.target, it.code, it.options, it.payload)


class SecondTagsCount(Proxy):
    def has_tag(self, request, entry):
        return any(it[0] == ETAG and it in entry.options for it in request.options)


class JoinsByTarget(Proxy):
    """Has a GET wait for the answer to any other one of its target."""

    def joined(self, target, key):
        return next((it for it in self.exchanges.values() if it.target == target and it.method == GET), None)


class JoinsAfterChange(Proxy):
    def joined(self, target, key):
        return next((it for it in self.exchanges.values() if it.key == key), None)


class RenewalShownAlone(Proxy):
    """Gives what a 2.03 renewed with its new Max-Age, and from then on with the one before."""

    def on_valid(self, exchange, options):
        before = exchange.validated.options if exchange.validated else []
        code, shown, payload, entry = super().on_valid(exchange, options)
        if entry is not None:
            entry.options = before
        return code, shown, payload, entry
