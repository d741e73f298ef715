"""The cache of a stand-in: keys, freshness, validation and changes (sections 5.6 and 5.9.1)."""

import math
import time

from conforming import wire
from conforming.wire import ETAG, GET, MAX_AGE

VALID, CONTENT = wire.code("2.03"), wire.code("2.05")
CHANGES = [wire.code(it) for it in ("2.01", "2.02", "2.04")]
RESERVED_LOCATIONS = (128, 132, 136, 140)


class Entry:
    """A stored response."""

    def __init__(self, target, code, options, payload):
        self.target, self.code, self.options, self.payload = target, code, options, payload
        self.at, self.is_stale = time.monotonic(), False

    def tag(self):
        tags = [value for number, value in self.options if number == ETAG]
        return tags[0] if tags else None


class Cache:
    """What a proxy stores."""

    # What an absent Max-Age means, and the longest that anything is fresh.
    default_age, most_age = 60, 0xFFFFFFFF

    def key_of(self, target, options):
        """The cache key of a GET."""
        return target, tuple(sorted(it for it in options if self.is_in_key(it[0])))

    def is_in_key(self, number):
        return number & 0x1E != 0x1C and number != ETAG

    def max_age_of(self, entry):
        values = [value for number, value in entry.options if number == MAX_AGE]
        return min(self.most_age, wire.number(values[0]) if values else self.default_age)

    def age_of(self, entry):
        return time.monotonic() - entry.at

    def is_fresh(self, entry):
        return not entry.is_stale and self.age_of(entry) < self.max_age_of(entry)

    def shown_age(self, entry):
        """The Max-Age that a stored response is given with."""
        return max(0, self.max_age_of(entry) - math.ceil(self.age_of(entry)))

    def age_option(self, seconds):
        """The option for a Max-Age: none for the default."""
        return [] if seconds == 60 else [(MAX_AGE, self.age_bytes(seconds))]

    def age_bytes(self, seconds):
        return wire.number_bytes(seconds)

    def shown(self, entry):
        """The options that a stored response is given with."""
        kept = [it for it in entry.options if it[0] != MAX_AGE]
        return kept + self.age_option(self.shown_age(entry))

    def has_tag(self, request, entry):
        """Whether a request has the ETag of a stored response."""
        return entry.code == CONTENT and any(it == (ETAG, entry.tag()) for it in request.options)

    def may_store(self, method, code, options):
        """Whether a response may be stored."""
        return self.caches and method == GET and (code == CONTENT or wire.is_error(code))

    def renewed(self, entry, options):
        """A stored response that a 2.03 renewed."""
        present = {number for number, _ in options if number != ETAG}
        kept = [it for it in entry.options if it[0] not in present and it[0] != MAX_AGE]
        entry.options = sorted(kept + [it for it in options if it[0] != ETAG], key=lambda it: it[0])
        entry.at, entry.is_stale = time.monotonic(), False

    # Changes

    def on_change(self, exchange, code, options):
        """Marks what a response changes: its target, and what its Location options name."""
        if code in CHANGES:
            self.mark(exchange.target)
        path = tuple(value for number, value in options if number == wire.LOCATION_PATH)
        query = tuple(value for number, value in options if number == wire.LOCATION_QUERY)
        if (path or query) and self.heeds_locations(code):
            self.mark(exchange.target._replace(path=path, query=query))

    def heeds_locations(self, code):
        return True

    def mark(self, target):
        """Has what is stored for a target, or will come for it, be stale."""
        for entry in self.store.values():
            entry.is_stale = entry.is_stale or entry.target == target
        for exchange in self.exchanges.values():
            exchange.is_overtaken = exchange.is_overtaken or exchange.target == target
