"""What belongs together in a run: a client's request, the exchange with an origin that it opened or joined, the answer,
and what was sent again."""

import urllib.parse
from collections import defaultdict, deque

from reading import messages
from reading.messages import ACK, CON, EMPTY, RST
from reading.replays import cause_of, outcome_of, target_of

# How long a message may come again, in milliseconds (RFC 7252, 4.8.2: EXCHANGE_LIFETIME).
LIFETIME = 247_000
DROPPED = ("no record room", "no id", "out of memory")
REFUSED = (*DROPPED, "refused", "overloaded", "rejected", "gave up")
IN_NAMES, IN_PARTS = "-._~!$&'()*+,;=", "-._~!$'()*+,;=:@"


class Row:
    """A datagram, or something that the proxy did without one, with what belongs to it."""

    __slots__ = (
        "number",
        "moment",
        "peer",
        "inward",
        "data",
        "message",
        "words",
        "outcome",
        "first",
        "later",
        "last",
        "replied",
        "request",
        "exchange",
    )

    def __init__(self, number, seen):
        self.number, self.moment, self.peer, self.inward, self.data, self.words = number, *seen
        self.outcome = outcome_of(self.words) if self.words else ""
        # the first of equal datagrams, the next and the last one; the number of the reply's row; what it belongs to
        self.first = self.later = self.last = self.replied = self.request = self.exchange = self.message = None
        try:
            self.message = None if self.data is None else messages.read(self.data)
        except ValueError:
            pass

    @property
    def code(self):
        """The code of its message, or that of an Empty one."""
        return self.message.code if self.message else EMPTY

    def is_silent(self):
        """Whether it should have got a reply, and none came before it was sent again."""
        it = self.message
        if it is None or it.kind in (ACK, RST) or self.outcome == "again":
            return False
        if not (it.kind == CON or self.inward and messages.is_request(it.code)):
            return False
        if self.inward:
            return self.first is None and (not self.request.answered if self.request else self.replied is None)
        replied = (self.first or self).replied
        return replied is None or self.later is not None and self.later.number < replied


class Request:
    """A client's request, with the exchange that it opened or joined, and the answer of the cache that it got."""

    __slots__ = ("number", "client", "target", "outcome", "exchange", "answered", "source", "moment")

    def __init__(self, number, row):
        self.number, self.client, self.moment, self.outcome = number, row.peer, row.moment, row.outcome
        self.target, self.exchange, self.answered, self.source = target_of(row.words), None, None, None


class Exchange:
    """What the proxy has with an origin: a request and its answer."""

    __slots__ = ("number", "opener", "code", "target", "origin", "validates", "asked", "closed", "members")

    def __init__(self, number, opener, code):
        self.number, self.opener, self.code, self.target = number, opener, code, opener.target if opener else ""
        self.origin, self.validates, self.asked, self.closed = None, False, None, None
        self.members = [opener] if opener else []


def asked_target(message, to):
    """The target of a request that the proxy sends to an endpoint, as the program says it."""
    values = lambda code: [value for number, value in message.options if number == code]
    if values(messages.PROXY_URI):
        return values(messages.PROXY_URI)[0].decode("utf-8", "replace")
    host, _, port = to.rpartition(":")
    if values(messages.URI_HOST):
        host = urllib.parse.quote(values(messages.URI_HOST)[0], safe=IN_NAMES)
    if values(messages.URI_PORT):
        port = str(messages.number(values(messages.URI_PORT)[0]))
    path = "/".join(urllib.parse.quote(part, safe=IN_PARTS) for part in values(messages.URI_PATH))
    query = "&".join(urllib.parse.quote(part, safe=IN_PARTS) for part in values(messages.URI_QUERY))
    port = "" if port == "5683" else f":{port}"
    return f"coap://{host}{port}/{path}" + (f"?{query}" if query else "")


def path_of(target):
    """The path and the query of a target."""
    return "/" + target.split("/", 3)[3] if target.count("/") > 2 else target


class Belonging:
    """Takes what was seen, in order, and makes rows of it that know what they belong to."""

    def __init__(self):
        self.count = self.requests = self.exchanges = 0
        self.came, self.sent, self.same = {}, {}, {}
        self.waiting, self.asked = defaultdict(deque), {}
        self.pending, self.open, self.stored = [], defaultdict(list), {}
        # who is an origin, a request that was just given up, and the exchange that a row ended
        self.origins, self.given_up, self.ended = set(), None, None

    def take(self, seen):
        """The row of what was seen."""
        self.count += 1
        self.ended = None
        row = Row(self.count, seen)
        if row.data is None:
            self.take_end(row)
        elif row.message is None:
            pass
        elif row.inward:
            self.take_inward(row)
        else:
            self.take_outward(row)
        return row

    def take_end(self, row):
        """A request that is given up. Where it isn't said which, the answer that follows is to one of its clients."""
        self.given_up = row if row.outcome == "gave up" else None
        opened = self.open.get(target_of(row.words)) if self.given_up else None
        if opened:
            row.exchange = opened[0]
            self.close(row)

    # What came.

    def take_inward(self, row):
        """A datagram that came."""
        it = row.message
        if it.kind in (ACK, RST):
            self.reply(self.sent.get((row.peer, it.message_id)), row)
        elif row.outcome == "again":
            self.repeat(self.came.get((row.peer, it.message_id)), row)
            return
        else:
            self.came[row.peer, it.message_id] = row
        if messages.is_request(it.code):
            self.take_request(row)
        elif messages.is_response(it.code):
            self.take_response(row)
        if row.outcome == "answered":
            self.close(row)
        self.find_same(row, not messages.is_request(it.code))

    def take_request(self, row):
        """A client's request."""
        self.requests += 1
        request = row.request = Request(self.requests, row)
        waiting = self.waiting[row.peer, row.message.token]
        waiting.append(row)
        while waiting[0].moment < row.moment - LIFETIME:
            waiting.popleft()
        if row.outcome == "opened":
            self.exchanges += 1
            exchange = request.exchange = row.exchange = Exchange(self.exchanges, request, row.code)
            self.pending.append(exchange)
            self.open[request.target].append(exchange)
        elif row.outcome == "joined":
            same = [it for it in self.open.get(request.target, ()) if it.code == row.code]
            if same:
                request.exchange = row.exchange = same[-1]
                same[-1].members.append(request)
        elif row.outcome == "hit":
            request.source = self.stored.get(request.target)

    def take_response(self, row):
        """A response of an origin, which belongs to the request with its token."""
        asked = self.asked.get((row.peer, row.message.token))
        if asked:
            row.exchange = asked.exchange
            asked.replied = asked.replied or row.number

    def close(self, row):
        """An exchange has its answer, or a Reset in place of one."""
        exchange = row.exchange
        if exchange is None or exchange.closed:
            return
        exchange.closed = row
        self.ended = exchange
        if exchange in self.pending:
            self.pending.remove(exchange)
        same = self.open.get(exchange.target, [])
        if exchange in same:
            same.remove(exchange)
            if not same:
                del self.open[exchange.target]
        if row.outcome == "answered" and cause_of(row.words).endswith("kept"):
            self.stored[exchange.target] = exchange

    # What was sent.

    def take_outward(self, row):
        """A datagram that was sent."""
        it = row.message
        if it.kind in (ACK, RST):
            self.reply(self.came.get((row.peer, it.message_id)), row)
        if messages.is_request(it.code):
            self.take_asked(row)
        if self.find_same(row, True):
            return
        if messages.is_response(it.code):
            self.take_told(row)
        if it.kind not in (ACK, RST):
            self.sent[row.peer, it.message_id] = row

    def take_asked(self, row):
        """A request to an origin, which belongs to the exchange that was opened first for its target."""
        key = row.peer, row.message.token
        if key in self.asked:
            row.exchange = self.asked[key].exchange
            return
        self.asked[key] = row
        self.origins.add(row.peer)
        row.exchange = exchange = self.opened_for(row)
        exchange.origin, exchange.asked = row.peer, row
        exchange.validates = any(number == messages.ETAG for number, _ in row.message.options)

    def opened_for(self, row):
        """The exchange that a request to an origin is of."""
        target = asked_target(row.message, row.peer)
        same = [it for it in self.pending if it.code == row.code]
        found = next((it for it in same if it.target == target), None)
        found = (
            found or next((it for it in same if path_of(it.target) == path_of(target)), None) or next(iter(same), None)
        )
        if found is None:
            self.exchanges += 1
            return Exchange(self.exchanges, None, row.code)
        self.pending.remove(found)
        return found

    def take_told(self, row):
        """An answer to a client, which belongs to the request with its token that waits for one."""
        waiting = self.waiting.get((row.peer, row.message.token))
        if not waiting:
            return
        asked = next((it for it in waiting if it.message.message_id == row.message.message_id), waiting[0])
        waiting.remove(asked)
        if not waiting:
            del self.waiting[row.peer, row.message.token]
        row.request, row.exchange = asked.request, asked.exchange
        row.request.answered = row
        asked.replied = asked.replied or row.number
        if self.given_up and self.given_up.moment == row.moment and row.exchange:
            self.given_up.exchange = row.exchange
            self.close(self.given_up)

    # What replies, and what is repeated.

    def reply(self, first, row):
        """An acknowledgement or a Reset belongs to what it replies to."""
        if first is not None:
            first.replied = first.replied or row.number
            row.request, row.exchange = first.request, first.exchange

    def repeat(self, first, row):
        """A message that came or was sent before."""
        if first is None:
            return
        row.first, row.request, row.exchange = first, first.request, first.exchange
        (first.last or first).later = first.last = row

    def find_same(self, row, may_repeat):
        """Finds the first of equal datagrams of which this is a later one. Returns whether there is one."""
        key = row.peer, row.inward, row.data
        first = self.same.get(key)
        if may_repeat and first and row.moment - first.moment <= LIFETIME:
            self.repeat(first, row)
            return True
        self.same[key] = row
        return False

    def forget(self, before):
        """Forgets what can't come again after a moment."""
        for known in (self.came, self.sent, self.same, self.asked):
            for key in [key for key, row in known.items() if row.moment < before - LIFETIME]:
                del known[key]
        for key in [key for key, rows in self.waiting.items() if not rows or rows[-1].moment < before - LIFETIME]:
            del self.waiting[key]


def sort_of(row):
    """Of which sort a row is: hit, miss, validation, error, or plain."""
    exchange, it = row.exchange, row.message
    if row.code >= 0x80 or row.outcome in REFUSED or it and it.kind == RST:
        return "error"
    if row.request and row.request.outcome == "hit":
        return "hit"
    if exchange:
        return "validation" if exchange.validates else "miss"
    return "error" if row.request and row.request.outcome in REFUSED else "plain"
