"""What the program takes for what it does: memory, address space and time of the processor."""

import contextlib
import os
import resource
import subprocess
import tempfile

from testing import memory, programs, worked
from testing.coap import (
    ACK, CON, CONTENT, EMPTY, ETAG, GET, NON, PROXY_URI, RST, UNAVAILABLE, URI_PATH, URI_QUERY, message,
)
from testing.network import RESULT, Skipped, expect, expect_between
from testing.scripted import CLIENT, KEPT, ORIGIN, Script, endpoint
from testing.steps import TEMP, max_age, path

CASES = []
# The greatest limits that there may be.
GREATEST = {
    "exchanges": 4096, "waiters": 16_384, "con_records": 65_536, "non_records": 65_536,
    "cache_entries": 65_536, "cache_bytes": 268_435_456, "datagram": 4096, "nstart": 16,
    "exchange_ms": 600_000,
}
# How much address space the program has for them, in bytes.
SPACE = 80 << 20
# How many events are timed, and next to how many requests.
EVENTS, REQUESTS = 50_000, 4000


def case(stand_in):
    """Notes a function that tries a program, with a stand-in that it must find wrong."""
    return lambda function: CASES.append((function, stand_in))


@contextlib.contextmanager
def configured(limits):
    """The path of a configuration with these limits."""
    lines = "".join(f"{key} = {value}\n" for key, value in limits.items())
    with tempfile.NamedTemporaryFile("w", prefix="coap-proxyd-test-", suffix=".toml") as file:
        file.write(f"version = 1\nnames = ['proxy.test']\n[limits]\n{lines}")
        file.flush()
        yield file.name


# Requests for memory


def requests_of(program, run):
    """How many requests for memory a replay makes."""
    with tempfile.TemporaryDirectory(prefix="coap-proxyd-test-") as folder:
        refusals = memory.Refusals(folder, program)
        refusals.refuse(memory.MANY)
        worked.check(run, worked.play(refusals.program, run))
        return memory.MANY - refusals.numbers[0]


def hits(kind, here, count):
    """A replay of an answer and so many hits in messages of a type."""
    script, told = Script(), ([max_age(60)], b"21")
    script.fetch(0, here, [TEMP], told)
    for n in range(1, count + 1):
        if kind == CON:
            script.hit(0, CLIENT, here, told, n)
        else:
            script.come(0, CLIENT, message(NON, GET, n, b"", here))
            script.send(0, CLIENT, message(NON, CONTENT, script.new_id(), b"", *told))
    limits = "con_records = 65536\nnon_records = 65536"
    return script.run("hits", limits, "names = ['proxy.test']\n")


def expect_requests(program, kind, here, count):
    """Has each hit in a message of this type make so many requests for memory, besides those of the map in which its
    record is found: a node of it has room for 15, and is split in two when it is full."""
    few, many = (requests_of(program, hits(kind, here, n)) for n in (100, 300))
    expect_between("how many requests for memory 200 hits make", 200 * count, 200 * count + 40, many - few)


@case("ExplainsAll")
def a_hit_takes_memory_for_the_reply_that_is_remembered_alone(program):
    expect_requests(program, NON, path("t"), 0)
    expect_requests(program, CON, path("t"), 1)


@case("ExplainsAll")
def a_uri_that_shows_its_parts_takes_memory_once(program):
    plain, other = ([(PROXY_URI, f"coap://{ORIGIN}{it}temp".encode())] for it in ("/", "/./"))
    expect_requests(program, NON, plain, 1)
    expect_requests(program, NON, other, 2)


def overloaded(more):
    """A replay of fifty requests with further options for which there is no exchange left."""
    script = Script()
    script.come(0, CLIENT, message(NON, GET, 0, b"", path("t")))
    for n in range(1, 51):
        script.come(0, CLIENT, message(NON, GET, n, b"", [*path("t", "x"), *more]))
        busy = message(NON, UNAVAILABLE, script.new_id(), b"", [max_age(5)])
        script.send(0, CLIENT, busy)
    return script.run("overloaded", "exchanges = 1\ndatagram = 4096")


@case("ExplainsAll")
def a_longer_request_takes_no_more_memory(program):
    short = requests_of(program, overloaded([]))
    for more in (
        [(URI_PATH, b"p" * 255)] * 15,
        [(URI_QUERY, b"q" * 255)] * 15,
        [(KEPT, b"z" * 4000)],
        [(ETAG, b"\x01" * 8)] * 440,
    ):
        long = requests_of(program, overloaded(more))
        expect("how many requests for memory longer requests make", short, long)


def replay(opened=0, clients=1, fetched=0, life=0, room=1000):
    """A replay of so many requests of so many clients that aren't answered, and of so many more, one after the other, that
    are. An answer may be stored for so many seconds, and there is room for so many exchanges."""
    script = Script()
    for n in range(opened):
        asked = message(NON, GET, n, b"", [(PROXY_URI, f"coap://{endpoint(n)}/{n}".encode())])
        script.come(0, endpoint(n % clients), asked)
        script.ask(0, endpoint(n), script.new_exchange(), GET, path(f"{n}"))
    for n in range(fetched):
        script.fetch(0, path("t", f"{n}"), [TEMP, *path(f"{n}")], ([max_age(life)], b"21"), n)
    return script.run("replay", f"exchanges = {room}\nwaiters = {room}", "names = ['proxy.test']\n")


@case("ExplainsAll")
def exchanges_that_come_and_go_take_no_memory_for_their_tables(program):
    made = []
    for room in (28, 1000):
        run = replay(27, clients=27, fetched=400, room=room)
        with tempfile.TemporaryDirectory(prefix="coap-proxyd-test-") as folder:
            start = memory.requests_of_start(memory.Refusals(folder, program), run)
        made.append(requests_of(program, run) - start)
    expect("how many requests for memory they make in tables that are almost full, and in others", made[1], made[0])
    # Five for each, and some for what is made once and for nodes of maps: what is shared is copied for nobody.
    expect_between("how many requests for memory they make", 0, 5 * 427 + 100, made[0])


@case("ExplainsAll")
def an_exchange_takes_no_memory_for_its_places_in_tables(program):
    """They have room for it from the start. Only the map in which records are found grows: its first node, which has room for
    15, is split into two below another by the 16th record, and one of these by the 24th."""
    made = [requests_of(program, replay(opened=count)) for count in range(1, 28)]
    wanted = [4 + {16: 2, 24: 1}.get(count, 0) for count in range(2, 28)]
    expect("how many requests for memory each of 26 more makes", wanted, [more - less for less, more in zip(made, made[1:])])


@case("ExplainsAll")
def an_answer_that_is_stored_is_copied_for_nobody(program):
    few, many = (requests_of(program, replay(fetched=count, life=60)) for count in (300, 500))
    expect_between("how many requests for memory 200 answers make that are stored", 200 * 7, 200 * 7 + 40, many - few)


# Address space


def limited():
    """Has a program be refused more address space."""
    resource.setrlimit(resource.RLIMIT_AS, (SPACE, SPACE))


@case("MapsMore")
def the_greatest_limits_take_little_address_space(program):
    if programs.is_emulated(program[-1]):
        raise Skipped("qemu takes address space of its own")
    with configured(GREATEST) as config:
        words, pipe = [*program, "--replay", "--config", config], subprocess.PIPE
        usual = {"input": b"", "stdout": pipe, "stderr": pipe, "timeout": 20}
        done = subprocess.run(words, preexec_fn=limited, **usual)
    expect("status and texts", (0, b"", b""), (done.returncode, done.stdout, done.stderr), *RESULT)


# Time of the processor


def hurried():
    """Has a program be ended once it took twenty seconds of the processor."""
    resource.setrlimit(resource.RLIMIT_CPU, (20, 20))


def seconds(program, events):
    """The time of the processor that a replay of these lines takes."""
    with configured(GREATEST) as config, tempfile.TemporaryFile() as lines:
        lines.write(events)
        lines.seek(0)
        words = [*program, "--replay", "--config", config]
        process = subprocess.Popen(
            words, stdin=lines, stdout=subprocess.DEVNULL, preexec_fn=hurried
        )
        _, process.returncode, usage = os.wait4(process.pid, 0)
    expect("how it ended", 0, process.returncode)
    return usage.ru_utime + usage.ru_stime


def seconds_of(program, before, event):
    """The time of the processor that so many of one event take after others."""
    return seconds(program, before + EVENTS * event) - seconds(program, before)


def asked(count, origins):
    """Lines that open so many exchanges with so many origins."""
    script = Script()
    for n in range(count):
        uri = f"coap://{endpoint(n % origins)}/{n}".encode()
        script.come(0, endpoint(n), message(NON, GET, n, b"", [(PROXY_URI, uri)]))
    return script.events


def expect_the_same(program, before, event):
    """Has events take about as long next to one request as next to many. If each event looked at
    all of them, there would be 200 million looks, which take seconds."""
    one, many = (
        seconds_of(program, "".join(before(count)).encode(), event.encode())
        for count in (1, REQUESTS)
    )
    expect_between(f"how many seconds longer {EVENTS} events take", -0.5, 0.5, many - one)


@case("ScansAll")
def an_event_takes_no_longer_next_to_requests_that_wait(program):
    tick = "0 0 tick\n"
    expect_the_same(program, lambda count: [*asked(count, 1), *(17 * [tick])], tick)


@case("ScansAll")
def an_event_takes_no_longer_next_to_requests_that_are_due(program):
    reset = message(RST, EMPTY, 1).hex()
    expect_the_same(program, lambda count: asked(count, count), f"0 0 {CLIENT} {reset}\n")


def shared(rounds, clients):
    """Lines in which an origin answers so many requests, each for so many clients that wait."""
    script = Script()
    for turn in range(rounds):
        for n in range(clients):
            uri = f"coap://{ORIGIN}/{turn}".encode()
            script.come(0, endpoint(n), message(NON, GET, turn, b"", [(PROXY_URI, uri)]))
        script.tick(0)
        asked = script.ids + 1
        script.ids += 1 + clients
        answer = message(ACK, CONTENT, asked % 0x10000, (1 + turn).to_bytes(8, "big"), [max_age(0)], b"21")
        script.come(0, ORIGIN, answer)
        for _ in range(clients):
            script.tick(0)
    return "".join(script.events).encode()


@case("MovesTheOthers")
def a_client_is_answered_in_the_same_time_however_many_wait(program):
    """If each that was answered moved all that are still to be, they would take three times as long."""
    events = shared(16, 1000), shared(1, 16_000)
    times = [[seconds(program, it) for it in events] for _ in range(4)]
    few, many = (min(it) for it in zip(*times))
    expect_between("how many times as long 16,000 take at once", 0.2, 2, many / few)
