"""The instructions that the program takes for an event, by valgrind's callgrind, and how many it may take: in all, and next
to many as next to few."""

import functools
import os
import re
import shutil
import subprocess
import tempfile
from concurrent.futures import ThreadPoolExecutor

from testing import programs
from testing.coap import ACCEPT, ACK, CHANGED, CONTENT, GET, MAX_AGE, NON, PROXY_URI, PUT, message, number_bytes
from testing.network import Failed, Skipped, expect_between

KINDS = ("miss", "conmiss", "queued", "join", "con", "non", "again", "tick")
NSTART = 16
CONFIG = f"""version = 2
names = ["proxy.test"]
[limits]
exchanges = 4096
waiters = 16384
con_records = 65536
non_records = 65536
cache_entries = 65536
cache_bytes = 268435456
nstart = {NSTART}
client_exchanges = 4096
client_waiters = 16384
client_non_records = 65536
client_con_records = {{}}
"""
STORED = "coap://10.200.0.1/stored"
LIFETIME = 247_000
# How many requests are forwarded in one lifetime where many are: each takes two of 32,768 Message IDs. And when all of
# them are over, and a Max-Age in seconds that is longer.
IN_A_LIFETIME, AFTER_ALL, LONG = 15_000, 9 * LIFETIME, 1_000_000
# What was measured last of the program in bin/, for events of a kind next to so many open exchanges. Three are next to
# something else: `expiry` is a hit at which one of so many records expires, each of another endpoint, `stored` one
# among so many stored responses, and `storing` a miss that stores one more. Once events take less,
# `tools/instructions --bars bin/coap-proxyd-x86_64` says what to put here; where one takes more for a reason, that
# belongs into the message of the commit.
MEASURED = {
    ("miss", 1): 20_082, ("miss", 256): 20_368, ("conmiss", 1): 22_611, ("queued", 256): 23_786, ("join", 1): 6283,
    ("join", 15_900): 6785, ("con", 1): 7384, ("non", 1): 7016, ("again", 1): 2225, ("tick", 1): 707,
    ("expiry", 60_000): 8186, ("stored", 60_000): 7959, ("storing", 60_000): 20_403,
}
# How much more may be taken: what a change costs at most of which nobody has to speak. What the kit builds in a folder
# `out` has another C library, and fewer bodies in place of calls (tools/platforms/compile).
MORE = 1.04
MORE_IN_OUT = 1.26
# How many events one number is the average of: what comes before them takes more or less with each start's secrets.
FEW = 300
# Next to how few and how many open exchanges, or clients of one, an event of a kind is counted, and how many times as many
# instructions it may take next to many. If it takes less than LEAST times as many, something is refused there.
BESIDE_EXCHANGES = {"miss": (1, 4000, 1.08), "conmiss": (1, 4000, 1.08), "tick": (1, 4000, 1.1)}
BESIDE_CLIENTS = {"join": (1, 15_900, 1.17), "delivery": (1000, 16_000, 1.1)}
LEAST = 0.9


# The events of a replay


def origin(n):
    """The address of an origin that no other number has."""
    return f"10.{1 + (n >> 16)}.{n >> 8 & 255}.{n & 255}"


def get(confirmable, message_id, uri):
    """A GET with this Proxy-Uri, of 13 to 268 bytes, in hexadecimal digits."""
    head = bytes([0x40 if confirmable else 0x50, 1]) + message_id.to_bytes(2, "big")
    option = bytes([0xDD, 35 - 13, len(uri) - 13]) + uri.encode()
    return (head + option).hex().upper()


def content(message_id, token, max_age):
    """A piggybacked 2.05 for a request of the proxy with this id and token."""
    head = bytes([0x68, 0x45]) + message_id.to_bytes(2, "big") + token.to_bytes(8, "big")
    age = max_age.to_bytes((max_age.bit_length() + 7) // 8, "big")
    return (head + bytes([0xD0 + len(age), 0x01]) + age + b"\xff21").hex().upper()


def turns(at, client, request, n, answer):
    """The lines of a replay for the request n that is forwarded, if each before it took two Message IDs and an
    exchange, and for its answer: a code, options and a payload."""
    code, options, payload = answer
    token = (1 + n).to_bytes(8, "big")
    yield f"{at} 0 {client} {request.hex().upper()}"
    yield f"{at} 0 tick"
    yield f"{at} 0 10.200.0.1:5683 {message(ACK, code, 1 + 2 * n & 0xFFFF, token, options, payload).hex().upper()}"
    yield f"{at} 0 tick"


def response(max_age):
    """The lines of a replay that store a response."""
    yield f"0 0 10.250.0.1:40001 {get(False, 65000, STORED)}"
    yield "0 0 tick"
    yield f"0 0 10.200.0.1:5683 {content(1, 1, max_age)}"
    yield "0 0 tick"


def hits(records, endpoints, expires, many):
    """The lines of a replay: a stored response, and hits until there are so many records, and `many` more."""
    yield from response(LONG)
    step, later = (LIFETIME // records, LIFETIME) if expires else (0, 0)
    for n in range(records + many):
        client = f"10.252.{n % endpoints >> 8}.{n % endpoints & 255}:40001"
        yield f"{n * step if n < records else later + (n - records) * step} 0 {client} {get(True, n, STORED)}"


def forwarded(n, at, uri, accept=()):
    """The lines of a replay for the request n, a Non-confirmable GET, whose answer is stored."""
    client = f"10.251.{n >> 8 & 255}.{n & 255}:40001"
    request = message(NON, GET, n & 0xFFFF, b"", [*accept, (PROXY_URI, uri.encode())])
    yield from turns(at, client, request, n, (CONTENT, [(MAX_AGE, number_bytes(LONG))], b"!"))


def stored(entries, is_hit, many):
    """The lines of a replay: so many stored responses, and when their records have died, `many` Confirmable requests
    for one of them, or Non-confirmable ones whose answers are stored, too."""
    for n in range(entries if is_hit else entries + many):
        yield from forwarded(n, n // IN_A_LIFETIME * LIFETIME if n < entries else AFTER_ALL, f"{STORED}{n:05}")
    for n in range(many if is_hit else 0):
        yield f"{AFTER_ALL} 0 10.252.{n >> 8}.{n & 255}:40001 {get(True, n, f'{STORED}{entries - 1:05}')}"


def changes(variants, many):
    """The lines of a replay: so many stored responses of one target, a change of another one, which finds the records
    of these dead, and `many` changes of the target."""
    for n in range(variants):
        accept = [(ACCEPT, number_bytes(n))]
        yield from forwarded(n, n // IN_A_LIFETIME * LIFETIME, STORED, accept)
    for n in range(1 + many):
        request = message(NON, PUT, n, b"", [(PROXY_URI, (STORED if n else f"{STORED}/other").encode())], b"!")
        yield from turns(AFTER_ALL, f"10.252.0.{n}:40001", request, variants + n, (CHANGED, [], b""))


def queued(opened, many):
    """The lines of a replay: a stored response, `opened` requests to one origin, and for each of `many` more the answer
    of the first that it was sent: two ticks send it the next one, and its answer to the client."""
    yield from response(200)
    for n in range(opened):
        yield f"0 0 10.251.{n >> 8}.{n & 255}:40001 {get(False, n, f'coap://{origin(0)}/open{n:04}')}"
        yield "0 0 tick"
    sent = min(opened, NSTART)
    for n in range(many):
        message_id = 3 + n if n < sent else 3 + sent + 2 * (n - sent)
        yield f"1 0 10.252.{n >> 8}.{n & 255}:40001 {get(False, n, f'coap://{origin(0)}/queued{n:04}')}"
        yield f"1 0 {origin(0)}:5683 {content(message_id, 2 + n, 10)}"
        yield "1 0 tick"
        yield "1 0 tick"


def joining(count):
    """The lines of a replay: requests of so many clients for one resource, which no origin answers."""
    for n in range(count):
        yield f"0 0 10.251.{n >> 8}.{n & 255}:40001 {get(False, n, f'coap://{origin(0)}/open0000')}"


def events(kind, opened, many):
    """The lines of a replay: a stored response, `opened` requests that no origin answers, and `many` of the kind."""
    if kind in ("queued", "join"):
        yield from queued(opened, many) if kind == "queued" else joining(opened + many)
        return
    if kind in ("expiry", "stored", "storing"):
        yield from hits(opened, opened, True, many) if kind == "expiry" else stored(opened, kind == "stored", many)
        return
    yield from response(200)
    for n in range(opened):
        yield f"0 0 10.251.{n >> 8}.{n & 255}:40001 {get(False, n, f'coap://{origin(n)}/open{n:04}')}"
        yield "0 0 tick"
    message_id, number = 3 + opened, 1 + opened
    for n in range(many):
        client = f"10.252.{n >> 8}.{n & 255}:40001"
        if kind in ("miss", "conmiss"):
            at, number = origin(0x10000 + n * 40503 % 0x10000), number + 1
            yield f"1 0 {client} {get(kind == 'conmiss', n, f'coap://{at}/miss{n:04}')}"
            yield "1 0 tick"
            yield f"1 0 {at}:5683 {content(message_id, number, 10)}"
            yield "1 0 tick"
            if kind == "conmiss":
                yield f"1 0 {client} 6000{message_id + 1:04X}"
            message_id += 2
        elif kind == "tick":
            yield "1 0 tick"
        elif kind == "again":
            yield f"1 0 10.252.0.0:40001 {get(True, 1, STORED)}"
        else:
            yield f"1 0 {client} {get(kind == 'con', n, STORED)}"


def opened_and_answered(count):
    """The lines of a replay: so many requests for different origins, whose answers come in one millisecond."""
    for n in range(count):
        yield f"0 0 10.251.{n >> 8}.{n & 255}:40001 {get(False, n, f'coap://{origin(n)}/open{n:04}')}"
        yield "0 0 tick"
    for n in range(count):
        yield f"1 0 {origin(n)}:5683 {content(1 + n, 1 + n, 10)}"


def answered(kind, count, many):
    """The same, and then so many datagrams that are no messages, or ticks that deliver the answers."""
    yield from opened_and_answered(count)
    for _ in range(many):
        yield "1 0 10.252.0.0:40001 00000000" if kind == "ignored" else "1 0 tick"


def clients(count, many):
    """The lines of a replay: an answer for so many clients of one request, and ticks that deliver it to some."""
    yield from joining(count)
    yield "0 0 tick"
    yield f"1 0 {origin(0)}:5683 {content(1, 1, 10)}"
    for _ in range(many):
        yield "1 0 tick"


def dead(records, expired, many):
    """The lines of a replay: so many records, and one or two more requests once they have expired, or before."""
    yield from hits(records, min(records, 250), False, 0)
    for n in range(many):
        yield f"{LIFETIME if expired else 0} 0 10.253.0.{n}:40001 {get(True, 1, STORED)}"


# What they take


def need_valgrind(program):
    """Has a test be skipped where the instructions of a program can't be counted."""
    if not shutil.which("valgrind"):
        raise Skipped("valgrind isn't installed")
    if programs.is_emulated(program[-1]):
        raise Skipped("valgrind runs programs for this processor")


def of_replay(program, client_records, lines, before=(), more=()):
    """How many instructions a program takes for the replay of these lines in all: perhaps with more words, and started by
    the words before."""
    with tempfile.NamedTemporaryFile("w", prefix="coap-proxyd-test-", suffix=".toml") as config:
        config.write(CONFIG.format(client_records))
        config.flush()
        words = [*before, "valgrind", "--tool=callgrind", "--callgrind-out-file=/dev/null"]
        words += [program, "--replay", "--config", config.name, *more]
        text = "\n".join(lines) + "\n"
        done = subprocess.run(words, input=text, capture_output=True, text=True)
    found = re.search(r"refs:\s+([\d,]+)", done.stderr)
    if done.returncode or not found:
        raise Failed(f"{program}: status {done.returncode}: {done.stderr.strip()[-500:]}")
    return int(found[1].replace(",", ""))


def each(program, client_records, lines, many, before=()):
    """The instructions of one event more, on an average of so many, given a function from a number of events to the lines
    of a replay: perhaps started by the words before."""
    # The first is left out: it may pay for what the others find made.
    less, more = (of_replay(program, client_records, lines(count), before) for count in (1, 1 + many))
    return (more - less) // many


def in_the_middle(program, client_records, lines, many, before=()):
    """The same next to much that is let go at the end: at some number of events the instructions for that change at
    once by millions, so the middle one of three differences is taken."""
    counts = [of_replay(program, client_records, lines(1 + place * many), before) for place in range(4)]
    return sorted(more - less for less, more in zip(counts, counts[1:]))[1] // many


def most(program, kind, opened):
    """How many instructions an event of a kind may take in a program next to so many open exchanges."""
    is_in_out = os.path.basename(os.path.dirname(os.path.realpath(program))) == "out"
    return int(MEASURED[kind, opened] * (MORE_IN_OUT if is_in_out else MORE))


def measured(program):
    """What the program takes for the events for which there are limits, two of them at a time."""
    with ThreadPoolExecutor(2) as pool:

        def number(what):
            count = in_the_middle if what[0] == "expiry" else each
            return count(program, 65536, functools.partial(events, *what), FEW)

        return dict(zip(MEASURED, pool.map(number, MEASURED)))


def an_event_takes_no_more_instructions_than_it_may(program):
    """Whatever else the machine does meanwhile: a body that finds the same in more steps meets its contract."""
    need_valgrind(program)
    for (kind, opened), number in measured(program[-1]).items():
        if number > most(program[-1], kind, opened):
            wanted = f"at most {most(program[-1], kind, opened)}, got {number}"
            raise Failed(f"instructions for {kind} next to {opened} open exchanges: {wanted}")


# Next to many


def next_to(kind, count):
    """The function from a number of events of a kind, next to so many exchanges or clients, to the lines of a replay."""
    return functools.partial(clients, count) if kind == "delivery" else functools.partial(events, kind, count)


def expect_the_same(program, limits, kinds, of):
    """Has events of some kinds take about as many instructions next to many of something as next to few."""
    need_valgrind(program)
    with ThreadPoolExecutor(2) as pool:

        def numbers(kind):
            return [each(program[-1], 65536, next_to(kind, count), FEW, program[:-1]) for count in limits[kind][:2]]

        for kind, (number, beside_many) in zip(kinds, pool.map(numbers, kinds)):
            few, many, most = limits[kind]
            what = f"how many times as many instructions a {kind} takes next to {many:,} {of} as next to {few:,}"
            expect_between(what, LEAST, most, beside_many / number)


def an_event_costs_the_same_beside_many_exchanges(program, kinds=tuple(BESIDE_EXCHANGES)):
    expect_the_same(program, BESIDE_EXCHANGES, kinds, "open exchanges")


def an_event_costs_the_same_beside_many_clients(program, kinds=tuple(BESIDE_CLIENTS)):
    expect_the_same(program, BESIDE_CLIENTS, kinds, "clients of one exchange")


# Each case that compares events, a stand-in that it must find wrong, and the kind that is tried with a stand-in.
COMPARED = [
    (an_event_costs_the_same_beside_many_exchanges, "LooksAtAll", "tick"),
    (an_event_costs_the_same_beside_many_clients, "LooksAtAll", "delivery"),
]
