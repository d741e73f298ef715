"""What somebody chose who knows the salt, which an origin reads off its tokens: endpoints, targets, cache keys and Message
IDs that would meet if the salt spread them over the tables. And such as do meet, since the secret is known."""

import functools
import statistics
from collections import namedtuple
from concurrent.futures import ThreadPoolExecutor

from testing import programs
from testing.coap import ACK, CONTENT, EMPTY, GET, NON, PROXY_URI, RST, message
from testing.costs import seconds
from testing.instructions import NSTART, need_valgrind, of_replay
from testing.meeting import KEPT, ORIGIN, PATH, Seeding, endpoints, message_ids, sip_hash, targets, values
from testing.network import expect_between
from testing.scripted import Script

CASES, COUNTED = [], []
# How many are chosen, and how often the time of two replays is measured, in turn: what else the machine does mostly holds
# up both of a pair, so the middle one of the ratios of pairs says more than the least time of each.
MANY, TIMES = 4000, 16
# The networks of clients and of origins that are chosen.
CLIENTS, ORIGINS = 0x0A01_0000, 0x0A02_0000
# A request: who asks, which origin, for what, and with which options.
Asked = namedtuple("Asked", "client origin path options")
# How the salt 0 spread keys, how it would do that now, and how the secret of a program does to which the system gives no
# random bit: that is the hash of 0.
BY_THE_SALT, BY_THE_SECRET = (Seeding(0, True), Seeding(0, False)), Seeding(sip_hash([0]), False)
# How many times as many instructions those may take that are chosen by the salt: 1.2 would do, and it was 0.999 to 1.002. And
# how many times as many those take at least that are chosen by the secret: it was 1.15 to 1.8.
LEAST, MOST, LEAST_IF_KNOWN = 0.98, 1.02, 1.1
# Of how many parts of Message IDs one is chosen, and below which ID there are so many in it. Those of requests can't meet:
# what remembers them has them in their order, and had. The proxy's own count up from a first one, but peers choose which of
# them await an answer, since others are taken by requests that are refused; and which come in a message to it. It gives at
# most 32,768 in 247 seconds, of which 254 are in a part of 129. So 4,000 meet only in one of few parts: the chains of a fifth
# of an index have room for 3,280.
OF_REQUESTS, OF_THE_PROXY = (16, 0x10000), (5, 20_500)
# How often each of these comes in a message of a stranger.
LOOKED_UP = 8


def case(stand_in, cases=CASES):
    """Notes a function that tries a program, with a stand-in that it must find wrong."""
    return lambda function: cases.append((function, stand_in)) or function


# Replays


def replay(requests, at_once):
    """A replay in which so many requests come, ticks send so many of them to an origin at once, and each is answered: one
    tick sends another that waited for that, and one the client's response."""
    script = Script()
    for n, (client, origin, path, options) in enumerate(requests):
        uri = f"coap://{origin}/{path}".encode()
        script.come(0, client, message(NON, GET, n, b"", [(PROXY_URI, uri), *options]))
    for _ in requests:
        script.tick(0)
    for n, asked in enumerate(requests):
        message_id = 1 + (n if n < at_once else 2 * n - at_once)
        script.come(0, asked.origin, message(ACK, CONTENT, message_id, (1 + n).to_bytes(8, "big"), [], b"21"))
        script.tick(0)
        script.tick(0)
    return "".join(script.events).encode()


def client(n):
    """One of the clients that aren't chosen."""
    return f"10.251.{n >> 8}.{n & 255}:40001"


@functools.lru_cache(None)
def of_endpoints(seeding):
    """Clients and origins are chosen."""
    both = zip(endpoints(seeding, CLIENTS, MANY), endpoints(seeding, ORIGINS, MANY))
    return replay([Asked(*it, "0", []) for it in both], MANY)


@functools.lru_cache(None)
def of_targets(seeding):
    """What clients ask for is chosen: the host, the port and the path."""
    return replay([Asked(client(n), *it, []) for n, it in enumerate(targets(seeding, ORIGINS, MANY))], MANY)


@functools.lru_cache(None)
def of_cache_keys(seeding):
    """Clients ask for the same with another option each, which is chosen: most wait until the origin answered others."""
    return replay([Asked(client(n), ORIGIN, PATH, [(KEPT, it)]) for n, it in enumerate(values(seeding, MANY))], NSTART)


@functools.lru_cache(None)
def of_message_ids(seeding):
    """The ID of each request is chosen, and that with which the proxy sends it. A stranger rejects these, many times."""
    script, own = Script(), message_ids(seeding, *OF_THE_PROXY, MANY)

    def refuse_until(message_id):
        while script.new_id() < message_id:
            script.come(0, "10.252.0.1:40001", message(NON, GET, script.ids))

    for n, (sent_as, message_id) in enumerate(zip(own, message_ids(seeding, *OF_REQUESTS, MANY))):
        refuse_until(sent_as)
        uri = f"coap://10.2.{n >> 8}.{n & 255}/{n:07x}".encode()
        script.come(0, client(0), message(NON, GET, message_id, b"", [(PROXY_URI, uri)]))
        script.tick(0)
    refuse_until(OF_THE_PROXY[1])
    for message_id in own * LOOKED_UP:
        script.come(0, "10.253.0.1:5683", message(RST, EMPTY, message_id))
    return "".join(script.events).encode()


KINDS = {
    "endpoints": of_endpoints, "targets": of_targets, "cache keys": of_cache_keys, "Message IDs": of_message_ids,
}


# Time of the processor


def times_as_long(words, first, other):
    """How many times as long the first replay takes as the other."""
    return statistics.median(seconds(words, first) / seconds(words, other) for _ in range(TIMES))


@case("SpreadByTheSalt")
def who_knows_the_salt_chooses_no_endpoints_that_meet(program):
    # They take as long, within a thirtieth. Where the secret is known, those that it has meet take a third more.
    taken = times_as_long([*program, "--salt", "0"], of_endpoints(BY_THE_SALT[-1]), of_endpoints(None))
    expect_between(f"how many times as long {MANY} endpoints take that would meet if the salt spread them", 0.5, 1.2, taken)


# Instructions


def counted(program, events, is_known):
    """How many instructions a program takes for a replay with the salt 0, perhaps with a secret that is known."""
    before, path = program[:-1], program[-1]
    if is_known:
        settings, path = programs.shimmed(path, programs.DRAWING)
        before = ["env", *settings, "DRAWN_BIT=-1", *before]
    return of_replay(path, 65_536, events.decode().splitlines(), before, ["--salt", "0"])


def times_as_many(program, kind, seedings, is_known):
    """How many times as many instructions the chosen ones of a kind take as any others, for each seeding."""
    with ThreadPoolExecutor(2) as pool:
        others, *chosen = pool.map(lambda it: counted(program, KINDS[kind](it), is_known), (None, *seedings))
    return [it / others for it in chosen]


@case("SpreadByTheSalt", COUNTED)
def what_the_salt_would_have_meet_takes_no_more_instructions(program, kinds=tuple(KINDS)):
    """Whatever else the machine does. The salt is the seed that an index would have which got none, too."""
    need_valgrind(program)
    for kind in kinds:
        for taken in times_as_many(program, kind, BY_THE_SALT, False):
            what = f"how many times as many instructions {MANY} {kind} take that would meet if the salt spread them"
            expect_between(what, LEAST, MOST, taken)


@case("DrawsAnyway", COUNTED)
def what_meets_takes_more_instructions(program, kinds=tuple(KINDS)):
    """A program to which the system gives no random bit has a secret that is known: what is chosen by that meets. So it is
    seen here if a table spreads keys otherwise, and the cases above say nothing any more."""
    need_valgrind(program)
    for kind in kinds:
        (taken,) = times_as_many(program, kind, [BY_THE_SECRET], True)
        what = f"how many times as many instructions {MANY} {kind} take that meet, since the secret is known"
        expect_between(what, LEAST_IF_KNOWN, 9, taken)
