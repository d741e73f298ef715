"""What a capture shows of a proxy: where it is, what came to it, and the replay that agrees best with what it sent."""

import itertools
from collections import Counter, defaultdict, deque, namedtuple

from reading import messages
from reading.captures import Bad
from reading.replays import replayed

# A capture that was replayed: the proxy's endpoints, its datagrams, the moment of the first, the lines of the replay,
# its first Message ID and salt, and what the program said.
Captured = namedtuple("Captured", "proxy found start lines first salt said")

# The greatest draw, in milliseconds, which is taken where no retransmission shows another.
DRAW = 1000
# After a datagram is sent at a tick, what is due at the same moment without anything sent.
TICKS = 3


def port_of(endpoint):
    """The port of an endpoint."""
    return endpoint.rpartition(":")[2]


def is_own(data):
    """Whether the sender chose the Message ID: not in an acknowledgement or a Reset."""
    return len(data) >= 4 and data[0] >> 6 == 1 and not data[0] & 0x20


def is_asked(data):
    """Whether it is a request with a token of eight bytes, as the proxy sends."""
    return is_own(data) and messages.is_request(data[1]) and data[0] & 15 == 8 and len(data) >= 12


def proxies_with(first, found):
    """An endpoint of the proxy with those that may be its others: they have its port, and exchange nothing with it or
    with one another. A proxy at several addresses has one port, and sends nothing to itself. Those that ask origins
    come first."""
    counts, asks, peers = Counter(), Counter(), defaultdict(set)
    for it in found:
        counts.update({it.source, it.to})
        asks[it.source] += is_asked(it.data)
        peers[it.source].add(it.to)
        peers[it.to].add(it.source)
    proxy = {first}
    for it in sorted(counts, key=lambda it: (asks[it] > 0, counts[it], it), reverse=True):
        if port_of(it) == port_of(first) and not peers[it] & proxy:
            proxy.add(it)
    return proxy


def proxies_of(found):
    """Which endpoints may be the proxy's, as sets to be tried: each of the three that most datagrams come from or go
    to, with its others, and alone."""
    counts = Counter()
    for it in found:
        counts.update({it.source, it.to})
    tried = []
    for first, _ in counts.most_common(3):
        tried += [proxies_with(first, found), {first}]
    return [it for place, it in enumerate(tried) if it not in tried[:place]]


def guesses(sent):
    """First Message IDs and salts that a run may have begun with: those of the first messages that it sent, of which
    the first may belong to what was in progress before."""
    ids = list(dict.fromkeys(int.from_bytes(it.data[2:4], "big") for it in sent if is_own(it.data)))[:3] or [1]
    tokens = dict.fromkeys(int.from_bytes(it.data[4:12], "big") for it in sent if is_asked(it.data))
    salts = [token - 1 for token in tokens if 0 < token <= 1 << 63][:3] or [0]
    return [(first, salt) for salt in salts for first in ids]


def guess_words(first, salt):
    """The words of a replay that begins with a Message ID and a salt."""
    return ["--id", str(first), "--salt", str(salt)]


def draws(sent):
    """For the place of each Confirmable message that is sent for the first time, the draw that its first
    retransmission shows."""
    first, seen = {}, {}
    for place, it in enumerate(sent):
        if not it.data or it.data[0] & 0x30:
            continue
        key = it.to, it.data
        if key not in first:
            first[key] = place
        elif first[key] not in seen:
            seen[first[key]] = min(max(it.at - sent[first[key]].at - 2000, 0), DRAW)
    return seen


def event_lines(found, proxy, start, shown):
    """The lines of a replay: what came to the proxy's endpoints, and ticks where something was sent. `shown` has the
    draws by the place among what is sent."""
    place, moment = 0, 0
    for it in found:
        moment = max(moment, it.at - start)
        if it.to in proxy:
            yield f"{moment} {DRAW} {it.source} {it.data.hex().upper() or '-'}\n"
        if it.source in proxy:
            yield from itertools.repeat(f"{moment} {shown.get(place, DRAW)} tick\n", TICKS)
            place += 1


def without_age(data):
    """A datagram without its Max-Age, which is rounded up to seconds: a millisecond may make one of difference."""
    try:
        it = messages.read(data)
    except ValueError:
        return data
    options = tuple((number, value) for number, value in it.options if number != messages.MAX_AGE)
    return it._replace(options=options)


class Queues:
    """Values by keys, which are taken in the order in which they were put there. Nearly all keys have one at a time,
    and there may be a million, so that only others have a queue."""

    def __init__(self):
        self.first, self.later = {}, {}

    def put(self, key, value):
        """Puts a value behind those of a key."""
        if key in self.first:
            self.later.setdefault(key, deque()).append(value)
        else:
            self.first[key] = value

    def take(self, key):
        """Takes the first value of a key away, if it has one."""
        value, others = self.first.pop(key, None), self.later.get(key)
        if others:
            self.first[key] = others.popleft()
            if not others:
                del self.later[key]
        return value

    def values(self):
        """All values that are there."""
        return itertools.chain(self.first.values(), *self.later.values())


class Agreement:
    """Finds the datagrams that a replay sends among those of a capture, each once."""

    def __init__(self, sent):
        self.awaited = Queues()
        for it in sent:
            self.expect(it)

    def expect(self, it):
        """The capture has this datagram of the proxy."""
        self.awaited.put((it.to, without_age(it.data)), it)

    def find(self, to, data):
        """The datagram of the capture that is one of the replay, or None."""
        return self.awaited.take((to, without_age(data)))

    def missing(self):
        """What the capture has and the replay hasn't sent, in order."""
        return sorted(self.awaited.values(), key=lambda it: it.at)


def missing_of(said, sent):
    """How many datagrams of a capture a replay didn't send."""
    agreement = Agreement(sent)
    for to, data in itertools.chain.from_iterable(it.sent for it in said):
        agreement.find(to, data)
    return len(agreement.missing())


def agreeing(found, proxy, program, words):
    """The replay that agrees best with a capture of these endpoints, by the first Message ID and the salt, behind the
    share that it doesn't send of what they sent; nothing if they sent nothing."""
    found = [it for it in found if it.source in proxy or it.to in proxy]
    sent = [it for it in found if it.source in proxy]
    if not sent:
        return None
    start, best = found[0].at, None
    lines = list(event_lines(found, proxy, start, draws(sent)))
    for guess in guesses(sent):
        said = replayed(program, [*words, *guess_words(*guess)], lines)
        missing = missing_of(said, sent) / len(sent)
        if best is None or missing < best[0]:
            best = missing, Captured(proxy, found, start, lines, *guess, said)
        if not missing:
            break
    return best


def captured(found, at, program, words):
    """A capture's datagrams with the replay that agrees best. `at` has the proxy's endpoints, if they are known."""
    best = None
    for proxy in [set(at)] if at else proxies_of(found):
        tried = agreeing(found, proxy, program, words)
        if tried and (best is None or tried[0] < best[0]):
            best = tried
        if best and not best[0]:
            break
    if not best:
        raise Bad(f"no datagrams of {' '.join(at) or 'a proxy'}")
    return best[1]
