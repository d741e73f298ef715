"""What is sustained: the greatest rate of requests of which at least 99 of 100 are answered in time, for a minute and
for ten, counted from outside; and what an instance's limits allow by calculation."""

import json
import re
import subprocess
from collections import namedtuple

from subjects import Broken, serve
from testing.network import STARTED, end

# What is tried: whether the cache has the answers, and the type of messages.
Kind = namedtuple("Kind", "name is_hit type")
# A rate that was offered for some seconds, and what was answered.
Offer = namedtuple("Offer", "subject kind seconds rate sent answered wrong")
# A program that is under way with its load.
Playing = namedtuple("Playing", "subject kind seconds rate process load")

KINDS = (
    Kind("hit, NON", True, "non"), Kind("hit, CON", True, "con"), Kind("miss, NON", False, "non"),
    Kind("miss, CON", False, "con"),
)
# There are so many Message IDs in each window of so many seconds, and messages of a type are remembered for so long
# (docs/coap-proxyd.8, CAPACITY). A limit that a configuration doesn't name has its default.
IDS, WINDOW, LIFETIMES, DEFAULT = 32_768, 247, {"con": 247, "non": 145}, 4096
ENOUGH = 0.99
# The rates that are offered, as shares of what the limits allow by calculation.
SHARES = (0.9, 1.0, 1.05)
# Those that are offered to a proxy without such limits, for a few seconds each, and the greatest of them for a minute.
LADDER, STEP_SECONDS = (1000, 2000, 5000, 10_000, 20_000, 50_000), 5
# What such a proxy is offered for the longer period, beside all others.
LONG_RATES = (1000, 5000)
CLIENTS, HIT_RESOURCES, MISS_RESOURCES, MAX_AGE = 64, 10, 100_000_000, 3600


def records_of(config, type_):
    """How many messages of a type a configuration has room for."""
    found = re.search(rf"^{type_}_records = (\d+)", config, re.MULTILINE)
    return int(found[1]) if found else DEFAULT


def allowed(config, kind, seconds):
    """The greatest rate of a kind that these limits allow for so long after a rest, by calculation: each request takes
    a record, each that is forwarded a Message ID, and so does each answer but a piggybacked one."""
    ids = (not kind.is_hit) + (not kind.is_hit or kind.type == "non")
    by_records = records_of(config, kind.type) / min(seconds, LIFETIMES[kind.type])
    return min(by_records, IDS / ids / min(seconds, WINDOW)) if ids else by_records


class Field:
    """Where rates are offered: a bench, and an origin for what is under way at one time."""

    def __init__(self, bench, life):
        self.bench, self.life = bench, life
        self.origin = bench.origin(life, MAX_AGE)

    def start(self, subject, kind, seconds, rate):
        """Starts a program, and a load that offers it a rate."""
        process, port = serve(self.bench, subject, self.origin, self.life)
        resources = HIT_RESOURCES if kind.is_hit else MISS_RESOURCES
        lead = subject.lead("uri", self.bench, self.origin)
        words = [self.bench.path("pace"), self.bench.host, port, rate, seconds, CLIENTS, kind.type, resources, lead]
        load = subprocess.Popen(
            [str(it) for it in words], stdin=subprocess.DEVNULL, stdout=subprocess.PIPE, start_new_session=True,
            universal_newlines=True,
        )
        STARTED.add(load)
        return Playing(subject, kind, seconds, rate, process, load)

    def finish(self, it):
        """Waits until a load has ended, and returns what came of it."""
        said, _ = it.load.communicate(timeout=it.seconds + 60)
        has_ended = it.process.poll() is not None
        end(it.process)
        STARTED.discard(it.load)
        if it.load.returncode or has_ended:
            raise Broken(f"{it.subject.name} or its load ended")
        said = json.loads(said)
        return Offer(it.subject.name, it.kind, it.seconds, it.rate, said["sent"], said["answered"], said["wrong"])

    def play(self, subject, kind, seconds, rate):
        return self.finish(self.start(subject, kind, seconds, rate))


def passes(offer):
    return offer.answered >= ENOUGH * offer.sent


def best(offers):
    """The greatest rate of these that was answered, and the least that wasn't; None where there is none."""
    answered = [it.rate for it in offers if passes(it)]
    top = max(answered, default=None)
    failed = [it.rate for it in offers if not passes(it) and (top is None or it.rate > top)]
    return top, min(failed, default=None)


def rates(config, kind, seconds):
    """The rates that are offered to a program with these limits."""
    return sorted({int(allowed(config, kind, seconds) * share) for share in SHARES})


def climb(field, subject, kind, seconds, tell):
    """Offers a proxy without limits more and more, for a few seconds each, and then what it answered for as long as is
    asked, from the greatest on until it answers that. What it can't answer for some seconds it can't for longer."""
    tried, offers = [], []
    for rate in LADDER:
        tell(f"{kind.name}: {subject.name}, {rate} a second")
        tried.append(field.play(subject, kind, min(STEP_SECONDS, seconds), rate))
        if not passes(tried[-1]):
            offers.append(tried.pop()._replace(seconds=seconds))
            break
    for rate in (it.rate for it in reversed(tried)):
        offers.append(field.play(subject, kind, seconds, rate))
        if passes(offers[-1]):
            break
    return offers


def at_once(field, plans):
    """Offers several rates at the same time."""
    return [field.finish(it) for it in [field.start(*each) for each in plans]]


def play(bench, ours, others, periods, tell):
    """Offers rates to this proxy with several limits, and to other ones, for two periods in seconds. Returns all that
    was offered. What asks for much of the machine is alone on it."""
    short, long = periods
    offers, forwarded = [], [it for it in KINDS if not it.is_hit]

    def plans(subject, seconds):
        return [(subject, kind, seconds, rate) for kind in KINDS for rate in rates(subject.config, kind, seconds)]

    for it in ours:
        tell(f"sustained rates: {it.name}, {short} s")
        offers += at_once(Field(bench, short + 60), plans(it, short))
    tell(f"sustained rates: {long} s")
    slow = [(it, kind, long, rate) for it in others for kind in forwarded for rate in LONG_RATES]
    offers += at_once(Field(bench, long + 120), [each for it in ours for each in plans(it, long)] + slow)
    for it in others:
        field = Field(bench, 20 * short + 60)
        for kind in forwarded:
            offers += climb(field, it, kind, short, tell)
    bench.end_all()
    return offers
