"""Proxies that stand in for others, so that the suite is seen to pass what is right: four that differ in what RFC 7252
leaves open. The faulty ones in wrong_*.py differ from one of them in one respect."""

from conforming import wire
from conforming.model_cache import CONTENT, VALID, Cache
from conforming.model_messages import MessageLayer
from conforming.model_options import Options
from conforming.model_origins import BAD_OPTION, Origins
from conforming.model_targets import NOT_SUPPORTED, Targets
from conforming.model_wire import UriError
from conforming.wire import ACK, CON, ETAG, GET, MAX_AGE, NON, POST, SIZE1
from testing.coap import DELETE, PUT, message

BAD_REQUEST, NOT_FOUND, NOT_ALLOWED, TOO_LARGE = (wire.code(it) for it in ("4.00", "4.04", "4.05", "4.13"))
LONGEST = 1400


class Waiter:
    """A client that waits for an answer."""

    def __init__(self, request, source, record):
        self.request, self.source, self.record, self.is_acknowledged = request, source, record, False


class Proxy(Cache, Options, Targets, Origins, MessageLayer):
    """A proxy that keeps RFC 7252: it caches, and piggybacks what comes soon."""

    # What RFC 7252 leaves open: whether it caches; after how many seconds it acknowledges a request that isn't answered
    # yet; the length of its tokens; whether Non-confirmable requests are forwarded as such; whether it knows Observe;
    # whether a GET waits for the answer to an equal one; which error an invalid URI gets.
    caches, waits, token_length, mirrors, knows_observe, joins = True, 0.6, 8, False, True, True
    bad_uri, following = BAD_REQUEST, None

    def __init__(self, host, port, scale, names, maps):
        super().__init__(host, port, scale)
        # Its own names, its maps, and the addresses of other names.
        self.names, self.maps, self.hosts = names, maps, {}
        self.exchanges, self.store, self.queues, self.outstanding, self.silent_until = {}, {}, {}, {}, {}

    # Requests

    def on_request(self, it, source, record):
        """Serves a request."""
        waiter = Waiter(it, source, record)
        if not self.is_known_method(it.code):
            self.refuse_method(waiter)
        elif self.refused(it):
            self.error(waiter, BAD_OPTION)
        else:
            self.serve(waiter)

    def is_known_method(self, code):
        return code in (GET, POST, PUT, DELETE)

    def refuse_method(self, waiter):
        self.error(waiter, NOT_ALLOWED)

    def serve(self, waiter):
        """Forwards a request, or answers it."""
        try:
            target = self.target_of(waiter.request)
        except UriError as error:
            self.error(waiter, error.code)
            return
        if target is None:
            self.error(waiter, NOT_FOUND)
        elif len(waiter.request.payload) > LONGEST:
            self.error(waiter, TOO_LARGE, self.size_told())
        elif waiter.request.code == GET and self.caches:
            self.serve_get(waiter, target)
        else:
            self.forward(waiter, target, None, None)

    def size_told(self):
        return [(SIZE1, wire.number_bytes(LONGEST))]

    def serve_get(self, waiter, target):
        """Answers a GET from the cache, or forwards it."""
        key = self.key_of(target, self.carried(waiter.request.options))
        entry = self.store.get(key)
        if entry is not None and self.is_fresh(entry):
            self.give(waiter, entry)
        else:
            self.forward(waiter, target, key, entry if entry and entry.code == CONTENT and entry.tag() else None)

    def give(self, waiter, entry):
        """Answers from the cache."""
        if self.has_tag(waiter.request, entry):
            self.respond(waiter, VALID, self.valid_options(entry), self.valid_payload(entry))
        else:
            self.respond(waiter, entry.code, self.shown(entry), entry.payload)

    def valid_options(self, entry):
        return [(ETAG, entry.tag()), *self.age_option(self.shown_age(entry))]

    def valid_payload(self, entry):
        return b""

    # Answers to clients

    def wait_for_answer(self, waiter):
        """Has a Confirmable request be acknowledged if its answer takes time."""
        if waiter.request.kind == CON:
            self.acknowledge_soon(waiter)

    def acknowledge_soon(self, waiter):
        if self.waits:
            self.later(self.waits, lambda: self.acknowledge(waiter))
        else:
            self.acknowledge(waiter)

    def acknowledge(self, waiter):
        """Acknowledges a request that isn't answered yet by an Empty message."""
        if waiter.record.reply is None or waiter.record.reply[1] == 0:
            waiter.is_acknowledged = True
            waiter.record.reply = self.empty_acknowledgement(waiter.request)
            self.send(self.front, waiter.record.reply, waiter.source)

    def explanation(self, code):
        return wire.code_text(code).encode() + " – see RFC 7252".encode()

    def error(self, waiter, code, options=()):
        """Answers by an error of the proxy's own."""
        self.respond(waiter, code, list(options), self.explanation(code))

    def answer_options(self, options):
        return [it for it in options if it != (MAX_AGE, b"\x3c")]

    def token_of(self, waiter):
        return waiter.request.token

    def respond(self, waiter, code, options, payload):
        """Answers a client: in the acknowledgement of its request if there was none yet, or in a message of its own."""
        request = waiter.request
        was_acknowledged = waiter.is_acknowledged or waiter.record.reply is not None
        kind = NON if request.kind == NON else CON if was_acknowledged else ACK
        kind = self.answer_kind(request, kind)
        message_id = request.message_id if kind == ACK else self.new_id(waiter.source)
        data = self.answer_bytes(
            kind, code, message_id, self.token_of(waiter), self.answer_options(options), payload
        )
        if kind == CON:
            self.send_reliably(self.front, data, waiter.source, lambda how: None)
            return
        if kind == ACK:
            waiter.record.reply = data
        self.send(self.front, data, waiter.source)

    def answer_kind(self, request, kind):
        return kind

    def answer_bytes(self, *parts):
        return message(*parts)


class Separate(Proxy):
    """Another right one: it acknowledges at once and answers separately, rejects Non-confirmable messages by Resets as
    well, has short tokens, and gives nothing from its cache for more than a minute."""

    waits, resets, token_length, bad_uri, most_age, joins = 0, (CON, NON), 4, BAD_OPTION, 60, False


class Bare(Proxy):
    """Another right one: it has no cache, acknowledges at once, and asks in Confirmable messages alone."""

    caches, waits, token_length, bad_uri = False, 0, 3, wire.code("4.04")


class Plain(Proxy):
    """Another right one: it has no cache, forwards Non-confirmable requests as such, and knows no Observe."""

    caches, mirrors, knows_observe, bad_uri = False, True, False, NOT_SUPPORTED
    waits, token_length = 0.3, 5
