"""What must hold where the program is refused memory: the nth request for it, for each n until none is refused.

The program takes memory from the C library alone (`malloc`, `realloc`). What refuses one request when it is told to
(`refusing.c`) is loaded before that or, for a static program, linked with the same object file.
"""

import functools
import mmap
import os
import tempfile
import time

from testing import programs, worked
from testing.coap import ACK, CON, CONTENT, DELETED, EMPTY, GATEWAY_TIMEOUT, GET, NON, PROXY_URI, message, read
from testing.network import (
    PATIENCE, RESULT, Came, Failed, Life, case_list, check_response, expect, expect_between, expect_datagram,
    expect_message,
)
from testing.statistics import await_metric
from testing.steps import path
from testing.telling import line_text

CASES, case = case_list()
START, ORIGIN = b"coap-proxyd: out of memory\n", b"127.0.0.1:5690"
# More requests for memory than a run makes.
MANY = 1 << 40
# How many origins are counted by themselves, besides those of maps, and the count of requests that were forwarded.
ORIGINS, OPENED = 256, 'coap_proxyd_requests_total{outcome="opened"}'
# How many segments of 255 bytes a long prefix has: its numbers take more room than there is for those of origins.
PREFIX = 800
# The worked runs that are played, and what each must write where an answer isn't stored for want of memory, which
# ends nothing: one text for each such answer that shows. They came from the program and were checked by hand.
RUNS = {
    "first_answer": (),
    "hit_aged": (
        b"""0 127.0.0.1:5690 480100010000000000000001B474656D70
0 127.0.0.1:40001 50450002D1010AFF3231
""",
    ),
    "confirmable_client": (),
    "joined": (
        b"""0 127.0.0.1:5690 480100010000000000000001B474656D70
2000 127.0.0.1:5690 480100010000000000000001B474656D70
3000 127.0.0.1:5690 480100020000000000000002B474656D704171
4000 127.0.0.1:40003 51450003CCD1010AFF3231
4000 127.0.0.1:40001 51450004AAD1010AFF3231
4900 127.0.0.1:40002 51450005BBD10109FF3231
4900 127.0.0.1:40004 50450006D10109FF3231
""",
    ),
    "overtaken_answer": (),
    "validation": (
        b"""0 127.0.0.1:5690 480100010000000000000001B474656D70
0 127.0.0.1:40001 5045000241ABA10AFF3231
10001 127.0.0.1:5690 480100030000000000000002B474656D70
10010 127.0.0.1:40001 50A20004
10010 127.0.0.1:40002 50A20005
""",
    ),
    "eviction_while_validating": (
        b"""0 127.0.0.1:5690 480100010000000000000001B474656D70
0 127.0.0.1:40001 5045000241ABA10AFF3231
10001 127.0.0.1:5690 480100030000000000000002B474656D70
10001 127.0.0.1:5690 480100040000000000000003B474656D700178
10001 127.0.0.1:40002 50450005D1013CFF32
10001 127.0.0.1:40001 50A20006
""",
        b"""0 127.0.0.1:5690 480100010000000000000001B474656D70
0 127.0.0.1:40001 5045000241ABA10AFF3231
10001 127.0.0.1:5690 48010003000000000000000241AB7474656D70
10001 127.0.0.1:5690 480100040000000000000003B474656D700178
10001 127.0.0.1:40002 50450005D1013CFF32
10001 127.0.0.1:40001 5045000641ABA13CFF3231
""",
    ),
    "full_tables": (),
}


class Refusals:
    """A program that is refused requests for memory: how many requests are left until one is, or 0 for none, and how
    many were refused."""

    def __init__(self, folder, program):
        name = os.path.join(folder, "refusals")
        with open(name, "w+b") as file:
            file.write(bytes(16))
            file.flush()
            self.map = mmap.mmap(file.fileno(), 16)
        self.numbers = memoryview(self.map).cast("Q")
        # A stand-in, which starts the program, isn't refused anything.
        settings, refused = programs.shimmed(program[-1], programs.REFUSING)
        self.program = ["env", f"REFUSALS={name}", *settings, *program[:-1], refused]

    def refuse(self, request):
        """Has this request from now on be refused."""
        self.numbers[0], self.numbers[1] = request, 0

    def refused(self):
        """Whether a request was refused since."""
        return self.numbers[1] > 0


# Replays


def cut(run, count):
    """A run of the first lines of another."""
    return run._replace(events=b"".join(run.events.splitlines(True)[:count]))


def check_line(program, run, came):
    """Has a replay that was refused memory at a line have written what the lines before it send. If the line is a
    tick, it must be about to send a client its answer in a Confirmable message."""
    number = int(came[2].split(b":")[0].split(b" ")[1])
    before, after = (worked.play(program, cut(run, count))[1] for count in (number - 1, number))
    expect("what stands", (1, before, b"line %d: out of memory\n" % number), came, *RESULT)
    if run.events.splitlines()[number - 1].endswith(b" tick"):
        _, to, data = after[len(before) :].split() or (b"", ORIGIN, b"")
        labels = "whether it is for a client", "how it begins"
        expect("what this tick sends", (True, b"4"), (to != ORIGIN, data[:1]), *labels)


def check_refused(program, run, came):
    """Has a replay that was refused memory once end as it must."""
    if came[2] == START:
        expect("what stands", (1, b"", START), came, *RESULT)
    elif came[2]:
        check_line(program, run, came)
    else:
        expect("status", 0, came[0])
        if came[1] not in (run.output, *RUNS[run.name]):
            raise Failed("\n  ".join(["a run without a stored answer wrote", *map(line_text, came[1].splitlines())]))


def requests_of_start(refusals, run):
    """How many requests for memory a run without events makes."""
    refusals.refuse(MANY)
    worked.play(refusals.program, cut(run, 0))
    return MANY - refusals.numbers[0]


def check_replay(program, run, with_start):
    """Refuses a worked run each of its requests for memory, or each but those of the start, and then none."""
    with tempfile.TemporaryDirectory(prefix="coap-proxyd-test-") as folder:
        refusals, texts = Refusals(folder, program), set()
        request = 0 if with_start else requests_of_start(refusals, run)
        while True:
            request += 1
            refusals.refuse(request)
            came = worked.play(refusals.program, run)
            if not refusals.refused():
                break
            check_refused(program, run, came)
            texts.add(came[2])
        worked.check(run, came)
        # At least a request, an answer of the origin, and what ends nothing.
        expect_between("how many texts there were", 3, 100, len(texts))


def what_is_said(program, run):
    """Plays a run that explains itself. Returns what it says was done with the origin's answer, and what it sent, if it went
    on to its end, and otherwise nothing."""
    status, output, errors = worked.play(program, run)
    if status or errors:
        return None
    comments, sent = [], []
    for line in output.splitlines(True):
        (comments if line.startswith(b"#") else sent).append(line)
    [said] = [line for line in comments if b" answered " in line]
    said = said.rstrip(b"\n").partition(b" answered ")[2]
    return said.replace(b"2.05 ", b"", 1), b"".join(sent)


def an_answer_without_memory_is_not_said_to_be_kept(program, run):
    """What is said of the answer is what the requests after it show."""
    explained = run._replace(words=[*run.words, "--explain"])
    with tempfile.TemporaryDirectory(prefix="coap-proxyd-test-") as folder:
        refusals, seen = Refusals(folder, program), set()
        for request in range(1, 1000):
            refusals.refuse(request)
            said = what_is_said(refusals.program, explained)
            if not refusals.refused():
                break
            if said is not None:
                seen.add(said)
    wanted = {(b"kept", run.output), *((b"no memory", text) for text in RUNS[run.name])}
    # what is made of an answer is found again for the account: without memory for that, the answer is kept all the same
    wanted.add((b"answer: out of memory", run.output))
    expect("what is said, and what is sent", wanted, seen)


# Over a socket


class Sequence:
    """A client and an origin of a program that is refused memory."""

    def __init__(self, stage):
        self.refusals = Refusals(stage.folder, stage.program)
        stage.program = self.refusals.program
        _, self.client, self.origin = stage.mapped()

    def effect(self, act, peer, what):
        """Does something that must bring this peer a message, which is returned. If nothing comes, and memory was
        refused, the same is done again."""
        act()
        until = time.monotonic() + PATIENCE
        came = None
        while came is None and not self.refusals.refused() and time.monotonic() < until:
            came = peer.poll(0.02)
        came = came or peer.poll(0.3)
        if came is not None:
            return Came(read(came[0]), *came)
        if self.refusals.refused():
            act()
        return peer.receive(what)

    def ask(self, name, kind):
        """A GET for what the origin must be asked for, and what that gets. Both are returned."""
        data = message(kind, GET, self.client.new_id(), b"\xaa", path("t", name))
        request = Came(read(data), data, self.client.to, time.time())
        send = functools.partial(self.client.send, data)
        if kind == CON:
            came = self.effect(send, self.client, "an acknowledgement")
            expect_datagram("the acknowledgement", message(ACK, EMPTY, request.message.message_id), came.data)
            asked = self.origin.receive("a request")
        else:
            asked = self.effect(send, self.origin, "a request")
        expect_message("the request", asked, kind=CON, code=GET, options=path("temp", name), payload=b"")
        return request, asked

    def fetch(self, name, kind):
        """A GET that is forwarded, and its answer. Returns the life of that."""
        request, asked = self.ask(name, kind)
        answer = message(ACK, CONTENT, asked.message.message_id, asked.message.token, [], b"21")
        life = Life(60, time.time())
        send = functools.partial(self.origin.send, answer, asked.source)
        came = self.effect(send, self.client, "an answer")
        check_response(came, kind, request, CONTENT, [], b"21", life)
        if kind == CON:
            self.client.acknowledge(came)
        return life._replace(seen=came.at)

    def hit(self, name, life):
        """A GET that the cache must answer."""
        data = message(CON, GET, self.client.new_id(), b"\xaa", path("t", name))
        request = Came(read(data), data, self.client.to, time.time())
        came = self.effect(functools.partial(self.client.send, data), self.client, "an answer from the cache")
        check_response(came, ACK, request, CONTENT, [], b"21", life)

    def is_kept(self, name):
        """Whether the cache has an answer, which is asked for in a Non-confirmable message. Otherwise the origin is
        asked, and its answer is Deleted, so that nothing is stored."""
        self.client.request(GET, path("t", name), kind=NON)
        until = time.monotonic() + PATIENCE
        while time.monotonic() < until:
            if self.client.poll(0.02) is not None:
                return True
            came = self.origin.poll(0.02)
            if came is not None:
                self.origin.answer(Came(read(came[0]), *came), DELETED)
                self.client.receive("the answer")
                return False
        raise Failed("expected an answer or a request, got neither")

    def refuse_all(self, play):
        """Plays something with a name again and again, and has a further request for memory be refused each time,
        until none is. Returns the names with which one was."""
        for number in range(1, 1000):
            self.refusals.refuse(number)
            play(f"{number}")
            if not self.refusals.refused():
                expect_between("how many requests for memory there were", 1, 999, number - 1)
                return [f"{number}" for number in range(1, number)]
        raise Failed("there is no end of requests for memory")

    def expect_silence(self):
        """Has nothing be sent again, or twice."""
        self.refusals.refuse(0)
        self.client.expect_silence("at the client", 3.2)
        self.origin.expect_silence("at the origin", 0.1)


@case("PayloadChanged")
def a_first_answer_comes_where_memory_is_refused(stage):
    sequence = Sequence(stage)
    names = sequence.refuse_all(lambda name: sequence.fetch(name, NON))
    sequence.refusals.refuse(0)
    kept = [name for name in names if sequence.is_kept(name)]
    # An answer isn't kept where the cache was refused memory for it, and nowhere else.
    expect_between("how many answers are kept", 1, len(names) - 1, len(kept))
    sequence.expect_silence()


@case("MaxAgeKept")
def the_cache_answers_where_memory_is_refused(stage):
    sequence = Sequence(stage)
    lives = {f"{n}": sequence.fetch(f"{n}", NON) for n in range(1, 30)}
    time.sleep(1.2)
    sequence.refuse_all(lambda name: sequence.hit(name, lives[name]))
    sequence.expect_silence()


@case("CodeChanged")
def a_confirmable_client_is_answered_where_memory_is_refused(stage):
    sequence = Sequence(stage)
    sequence.refuse_all(lambda name: sequence.fetch(name, CON))
    sequence.expect_silence()


# Counts


@case("NotCounted")
def counts_are_written_into_memory_that_is_there(stage):
    """Of as many origins as it counts by themselves, each with all of its series."""
    refusals, path = Refusals(stage.folder, stage.program), os.path.join(stage.folder, "counts.prom")
    stage.program = refusals.program
    refusals.refuse(MANY)
    config = "names = ['proxy.test']\n[limits]\nexchanges = 512\nwaiters = 512\n"
    client = stage.peer(to=stage.proxy("--stats", "4", "--stats-file", path, config=config))
    await_metric(path, OPENED, 0)
    expect("whether its requests for memory are counted", True, refusals.numbers[0] < MANY)
    # All of this is before the next report.
    for number in range(ORIGINS):
        client.request(GET, [(PROXY_URI, f"coap://127.251.1.{number}:65535/t".encode())], kind=NON)
        if number % 32 == 0:
            client.send(message(CON, EMPTY, client.new_id()))
            client.receive("a Reset")
    client.send(message(CON, EMPTY, client.new_id()))
    client.receive("a Reset")
    left = refusals.numbers[0]
    numbers = await_metric(path, OPENED, ORIGINS)
    expect("how many requests for memory that takes", 0, left - refusals.numbers[0])
    # No place is free, so that there might be others. A stand-in has clients and origins at other ports.
    sent = [count for name, count in numbers.items() if name.startswith("coap_proxyd_origin_requests_total{")]
    expect("how many origins are told of", ORIGINS + 1, len(sent))
    expect("what all others were sent", 0, numbers['coap_proxyd_origin_requests_total{origin="other"}'])


@case("NotCounted")
def a_map_with_a_long_prefix_is_counted_in_memory_that_is_there(stage):
    refusals, path = Refusals(stage.folder, stage.program), os.path.join(stage.folder, "counts.prom")
    stage.program = refusals.program
    refusals.refuse(MANY)
    prefix = PREFIX * ("/" + "%01" * 255)
    config = f"[[map]]\nprefix = '{prefix}'\norigin = 'coap://192.0.2.7'\n"
    stage.proxy("--stats", "4", "--stats-file", path, config=config)
    left = refusals.numbers[0]
    expect("whether its requests for memory are counted", True, left < MANY)
    expect("whether its counts were written by then", False, os.path.exists(path))
    numbers = await_metric(path, "coap_proxyd_lost_turns_total", 0)
    expect("how many requests for memory that takes", 0, left - refusals.numbers[0])
    ways = [name for name in numbers if name.startswith("coap_proxyd_map_requests_total{") and prefix in name]
    expect("how many numbers of the map there are", 13, len(ways))


# Lines of a log


@case("CodeChanged")
def lines_are_written_into_memory_that_is_there(stage):
    """Also of a target that is cut. What a step takes memory for it takes without a log, too."""
    taken = []
    for words in ((), ("--log",)):
        refusals, origin, said = Refusals(stage.folder, stage.program), stage.peer(), stage.file("said.txt", "")
        limits = f"[limits]\nexchange_ms = 1000\n[[map]]\nprefix = '/t'\norigin = 'coap://{origin.authority}/temp'\n"
        program, stage.program = stage.program, refusals.program
        with open(said, "wb") as output:
            client = stage.peer(to=stage.proxy(*words, config=limits, output=output))
        stage.program = program
        refusals.refuse(MANY)
        request = client.request(GET, path("t", *(4 * ["\n" * 255])), kind=NON)
        origin.receive("a request")
        client.expect_response(request, GATEWAY_TIMEOUT)
        taken.append(MANY - refusals.numbers[0])
    expect_between("how many requests for memory there are", 1, 99, taken[0])
    expect("how many there are with a log", *taken)
    # The last line is written after the response is sent.
    until, found = time.monotonic() + PATIENCE, 0
    while found < 2 and time.monotonic() < until:
        time.sleep(0.02)
        with open(said, encoding="ascii") as file:
            found = file.read().count("... cause=unacknowledged")
    expect("how many lines end a target", 2, found)
