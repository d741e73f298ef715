"""Counts of a run: answers over time, by target and by client, answer times of origins, and how full the tables were.

All is counted while it is read. What is kept of datagrams is that of the last minutes, in which they may come again."""

import heapq
from collections import Counter, defaultdict

from reading import messages
from reading.belonging import Belonging, sort_of
from reading.choosing import ROUND
from reading.endpoints import short_endpoint
from reading.messages import ACK, CON, RST
from reading.replays import cause_of

# Of how many stretches of time counts are kept at most, the length of the first ones in milliseconds, and the names of
# how many targets and peers.
STRETCHES, FIRST_LENGTH, MOST_NAMES = 120, 250, 50_000
OTHERS = "others"
SORTS = ("hit", "miss", "validation", "error")
# How long records of messages are kept, in milliseconds (RFC 7252, 4.8.2: EXCHANGE_LIFETIME and NON_LIFETIME).
LIFETIMES = {"con_records": 247_000, "non_records": 145_000}
TABLES = ("exchanges", "waiters", *LIFETIMES)
# After how long at least an answer that isn't acknowledged is given up, in milliseconds (RFC 7252, 4.8.2).
PATIENCE = 62_000
# The outcomes of requests that are turned away, and those that are remembered.
TURNED = ("overloaded", "refused", "no record room", "no id", "out of memory")
REMEMBERED = ("hit", "joined", "opened", "refused", "overloaded")
# Of how many answers an origin's times are kept.
MOST_TIMES = 100_000


class Stretches:
    """Numbers over time, in stretches that get longer as the run does."""

    def __init__(self, merge):
        self.length, self.values, self.merge, self.start = FIRST_LENGTH, [], merge, None

    def at(self, moment):
        """The number of the stretch of a moment, which is there afterwards."""
        self.start = moment if self.start is None else self.start
        while (moment - self.start) // self.length >= STRETCHES:
            self.length *= 2
            pairs = zip(self.values[::2], self.values[1::2] + [None] * (len(self.values) % 2))
            self.values = [one if other is None else self.merge(one, other) for one, other in pairs]
        return (moment - self.start) // self.length


class Answers(Stretches):
    """How many answers of each sort there were over time."""

    def __init__(self):
        super().__init__(lambda one, other: [a + b for a, b in zip(one, other)])

    def add(self, moment, sort):
        """Counts an answer."""
        place = self.at(moment)
        while len(self.values) <= place:
            self.values.append([0] * len(SORTS))
        self.values[place][SORTS.index(sort)] += 1


class Fill(Stretches):
    """How full a table was at most, over time."""

    def __init__(self):
        super().__init__(max)
        self.now = self.most = 0

    def set(self, moment, count):
        """The table has so many from a moment on."""
        place = self.at(moment)
        while len(self.values) <= place:
            self.values.append(self.now)
        self.now, self.most = count, max(self.most, count)
        self.values[place] = max(self.values[place], count)


class Tables:
    """How many exchanges, waiters and records the proxy has, as the rows of a run show."""

    def __init__(self):
        self.fills = {name: Fill() for name in TABLES}
        self.ends = {name: [] for name in LIFETIMES}
        self.exchanges, self.waiters = set(), {}

    def take(self, row, ended):
        """Changes the counts by a row, and by the exchange that it ended."""
        for name, ends in self.ends.items():
            while ends and ends[0] <= row.moment:
                self.fills[name].set(heapq.heappop(ends), len(ends))
        self.remember(row)
        if row.inward and row.outcome == "opened" and row.exchange:
            self.exchanges.add(row.exchange.number)
        if ended:
            self.exchanges.discard(ended.number)
        self.wait(row)
        self.fills["exchanges"].set(row.moment, len(self.exchanges))
        self.fills["waiters"].set(row.moment, len(self.waiters))

    def remember(self, row):
        """A message that is remembered has a record."""
        it = row.message
        if it is None or not row.inward or it.kind in (ACK, RST):
            return
        is_answer = it.kind == CON and row.outcome == "answered"
        if is_answer or messages.is_request(it.code) and row.outcome in REMEMBERED:
            name = "con_records" if it.kind == CON else "non_records"
            heapq.heappush(self.ends[name], row.moment + LIFETIMES[name])
            self.fills[name].set(row.moment, len(self.ends[name]))

    def wait(self, row):
        """A client waits until it has its answer, and acknowledged that if it is Confirmable, or is given up."""
        if row.outcome == "gave up":
            late = (
                number
                for number, it in self.waiters.items()
                if it.request.answered and row.moment - it.request.answered.moment >= PATIENCE
            )
            self.waiters.pop(next(late, None), None)
        if row.request is None or row.request.outcome not in ("opened", "joined"):
            return
        it, number = row.message, row.request.number
        if row.inward and not row.first and messages.is_request(it.code):
            self.waiters[number] = row
        elif row.inward and it.kind in (ACK, RST) or not row.inward and it.kind == messages.NON:
            self.waiters.pop(number, None)


class Trouble:
    """How often something went wrong, for which clients, and when first and last."""

    def __init__(self):
        self.first = self.last = None
        self.clients = Counter()

    def add(self, moment, client):
        """Counts it once more."""
        self.first = moment if self.first is None else self.first
        self.last = moment
        self.clients[client if client in self.clients or len(self.clients) < MOST_NAMES else OTHERS] += 1

    def count(self):
        """How often it was."""
        return sum(self.clients.values())


def trouble_of(row):
    """What went wrong at a row: why a request is turned away, in the program's words, or the error that a client got,
    and of which origin. Nothing where nothing did."""
    if row.inward and row.outcome in TURNED and row.first is None:
        return f"{row.outcome} {cause_of(row.words)}".strip()
    request = row.request
    if row.inward or row.first or row.code < 0x80 or request is None or request.outcome in TURNED:
        return ""
    origin = row.exchange and row.exchange.origin
    return messages.code_name(row.code) + (f" of {short_endpoint(origin)}" if origin else "")


class Peer:
    """What one target, client or origin had."""

    def __init__(self):
        self.requests = self.datagrams = self.bytes = self.again = self.given_up = 0
        # when something came from it last
        self.heard = None
        self.sorts, self.times = dict.fromkeys(SORTS, 0), []

    def share(self):
        """Which part of its answers came from the cache."""
        answers = sum(self.sorts.values())
        return self.sorts["hit"] / answers if answers else 0


class Counts:
    """All counts of a run."""

    def __init__(self):
        self.belonging, self.tables, self.answers = Belonging(), Tables(), Answers()
        self.targets, self.clients, self.origins = (defaultdict(Peer) for _ in range(3))
        self.troubles = defaultdict(Trouble)
        self.first = self.last = None
        self.came = self.sent = self.again = self.given_up = 0
        self.total = Peer()

    def named(self, peers, name):
        """What a name had, or, if there are too many, what all others had."""
        return peers[name if name in peers or len(peers) < MOST_NAMES else OTHERS]

    def take(self, seen):
        """Counts what was seen."""
        row = self.belonging.take(seen)
        self.first = row.moment if self.first is None else self.first
        self.last = row.moment
        self.tables.take(row, self.belonging.ended)
        if row.data is not None:
            self.take_datagram(row)
        elif row.outcome == "gave up":
            self.given_up += 1
        if row.code >= 0x40 or row.outcome in ("no record room", "no id"):
            self.take_answer(row)
        trouble = trouble_of(row)
        if trouble:
            self.named(self.troubles, trouble).add(row.moment, row.peer)
        if self.belonging.ended:
            self.take_end(self.belonging.ended)
        if self.belonging.count % ROUND == 0:
            self.belonging.forget(row.moment)

    def take_datagram(self, row):
        """Counts a datagram, and a request to the proxy."""
        self.came += row.inward
        self.sent += not row.inward
        self.again += row.first is not None and not row.inward
        if row.peer in self.belonging.origins:
            origin = self.named(self.origins, row.peer)
            origin.datagrams += 1
            origin.again += row.first is not None and not row.inward
            origin.heard = row.moment if row.inward else origin.heard
            return
        client = self.named(self.clients, row.peer)
        if row.inward:
            client.datagrams += 1
            client.bytes += len(row.data)
            client.again += row.first is not None
        if row.inward and row.request and row.first is None and messages.is_request(row.code):
            for it in (client, self.named(self.targets, row.request.target or "no target"), self.total):
                it.requests += 1

    def take_answer(self, row):
        """Counts an answer to a client, or that there is none."""
        if row.request is None or row.first or row.inward and row.code >= 0x40:
            return
        sort = sort_of(row)
        self.answers.add(row.moment, sort)
        target = self.named(self.targets, row.request.target or "no target")
        for it in (self.named(self.clients, row.request.client), target, self.total):
            it.sorts[sort] += 1

    def take_end(self, exchange):
        """Counts what an exchange came to."""
        if exchange.asked is None:
            return
        row, origin = exchange.closed, self.named(self.origins, exchange.origin)
        origin.requests += 1
        if row.outcome == "gave up":
            origin.given_up += 1
            return
        if len(origin.times) < MOST_TIMES:
            origin.times.append(row.moment - exchange.asked.moment)
        origin.sorts["error" if row.code >= 0x80 else "validation" if exchange.validates else "miss"] += 1

    def end(self):
        """Has all stretches of time reach to the end of the run."""
        for fill in self.tables.fills.values():
            fill.set(self.last or 0, fill.now)


def counts_of(seen, choice):
    """The counts of what was seen within the time that is chosen."""
    counts = Counts()
    for it in seen:
        if choice.last is not None and it.moment > choice.last:
            break
        if choice.has_moment(it.moment):
            counts.take(it)
    counts.end()
    return counts
