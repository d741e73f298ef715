"""What the program does over a socket in years of its clock, which a test sets ahead from one datagram to the next: its
answers, and that a replay of its recording sends the same."""

import mmap
import os
import random
import struct
import tempfile
import time

from testing.coap import ACK, CON, CONTENT, EMPTY, GATEWAY_TIMEOUT, GET, MAX_AGE, RST, message, number
from testing.hosts import paced
from testing.network import (
    PATIENCE, Broken, Failed, Stage, case_list, expect, expect_between, expect_datagram, expect_message, left,
)
from testing.recordings import expect_sent, replayed
from testing.steps import T, TEMP, max_age

CASES, case = case_list()
SECONDS = struct.Struct("@q")
# How often it is asked, and how many days that takes at least.
ROUNDS, DAYS = 1_500, 1_000
# How far the clock is set ahead between requests, for how long answers are fresh, and how long a request is remembered, in
# seconds.
LEAPS, AGES = (0, 0, 3, 59, 61, 300, 3600, 86_400, 20 * 86_400), (1, 60, 60, 600, 86_400, 5 * 86_400)
LIFETIME = 247
# How far a moment may be off that is told in milliseconds.
SLACK = 0.003


class Clock:
    """The clock of a program, in seconds, which is ahead of that of this process, and may go faster."""

    def __init__(self, folder, speed=1):
        self.path, self.ahead, self.speed = os.path.join(folder, "ahead"), 0, speed
        with open(self.path, "wb+") as file:
            file.write(bytes(SECONDS.size))
            file.flush()
            self.map = mmap.mmap(file.fileno(), SECONDS.size)

    def leap(self, seconds):
        """Sets it ahead."""
        self.ahead += seconds
        SECONDS.pack_into(self.map, 0, self.ahead)

    def now(self):
        return time.monotonic() * self.speed + self.ahead


class Stored:
    """An answer of the origin: its payload, its Max-Age, and the moments between which the proxy got it."""

    def __init__(self, payload, seconds, earliest):
        self.payload, self.seconds, self.earliest, self.latest = payload, seconds, earliest, earliest


class Years:
    """A proxy with a clock that is set ahead, which is recorded, its clients and its origin, and what all of them got."""

    def __init__(self, stage, clock):
        self.clock, self.rand, self.seen, self.stored = clock, random.Random(7252), [], None
        self.origin, self.recording = stage.peer(), os.path.join(stage.folder, "run.events")
        words = ("--map", f"/t=coap://{self.origin.authority}/temp", "--record", self.recording)
        proxy = stage.proxy(*words)
        self.pinging, *self.clients = (stage.peer(to=proxy) for _ in range(5))
        self.counts = {"hit": 0, "asked": 0, "again": 0, "new": 0, "resent": 0, "late": 0}

    def receive(self, peer, what):
        """The next datagram, which must come."""
        came = peer.receive(what)
        self.seen.append(came.data.hex().upper())
        return came

    def receive_again(self, peer, first, what):
        """What must come again once it is due."""
        self.leap_while_it_waits(4)
        expect_datagram(what, first.data, self.receive(peer, what).data)
        self.counts["resent"] += 1

    def leap_while_it_waits(self, seconds):
        """Sets the clock ahead so that something is due, which the proxy, whose waits take as long as ever, looks for after
        a datagram."""
        self.clock.leap(seconds)
        self.settle()

    def settle(self):
        """Has all be handled that was sent before: a ping is rejected."""
        self.pinging.send(message(CON, EMPTY, self.pinging.new_id()))
        expect_message("what a ping is answered", self.pinging.receive("a Reset"), kind=RST)

    def ask(self, client, data):
        """A Confirmable GET, which is answered at once by what is fresh, or else asked anew. Returns the reply, and the
        moments before and after it."""
        before = self.clock.now()
        client.send(data)
        reply = self.receive(client, "a reply")
        after = self.clock.now()
        expect_message("the reply", reply, kind=ACK, message_id=int.from_bytes(data[2:4], "big"))
        if reply.message.code == EMPTY:
            self.fetch(client, data, after)
        else:
            self.expect_fresh(reply, before, after)
        return reply.data, before, after

    def expect_fresh(self, reply, before, after):
        """Has a reply be what is stored, which may be fresh then, with what is left of its Max-Age."""
        self.counts["hit"] += 1
        expect("whether anything is stored", True, self.stored is not None)
        expect_message("a reply from the cache", reply, code=CONTENT, payload=self.stored.payload)
        self.expect_left(reply, before, after)
        if before - SLACK - self.stored.latest > self.stored.seconds:
            raise Failed(f"an answer of {self.stored.seconds} s was used {before - self.stored.latest} s later")

    def expect_left(self, reply, before, after):
        """Has a message have the Max-Age that is left of what is stored."""
        values = [number(value) for option, value in reply.message.options if option == MAX_AGE]
        expect("how many Max-Age it has", 1, len(values))
        least = left(self.stored.seconds, after - self.stored.earliest + SLACK)
        expect_between("Max-Age", least, left(self.stored.seconds, before - self.stored.latest - SLACK), values[0])

    def fetch(self, client, data, after):
        """A request that isn't answered at once: what is stored mustn't be fresh, and the origin is asked, be it again."""
        self.counts["asked"] += 1
        if self.stored is not None and after - self.stored.earliest + SLACK < self.stored.seconds:
            raise Failed(f"an answer of {self.stored.seconds} s wasn't used {after - self.stored.earliest} s later")
        asked, way = self.receive(self.origin, "a request"), self.rand.randrange(6)
        expect_message("a request", asked, kind=CON, code=GET, options=[TEMP])
        if way == 0:
            self.leap_while_it_waits(100)
            self.counts["late"] += 1
            self.expect_told(client, data, GATEWAY_TIMEOUT, b"")
            return
        if way == 1:
            self.receive_again(self.origin, asked, "a request again")
        if way == 2:
            self.origin.acknowledge(asked)
            self.settle()
            self.clock.leap(20)
        payload, seconds = b"%d" % self.rand.randrange(1 << 30), self.rand.choice(AGES)
        self.stored = Stored(payload, seconds, self.clock.now())
        self.origin.answer(asked, CONTENT, [max_age(seconds)], payload, kind=CON if way == 2 else ACK)
        if way == 2:
            expect_message("an acknowledgement", self.receive(self.origin, "an acknowledgement"), code=EMPTY)
        told = self.expect_told(client, data, CONTENT, payload)
        self.expect_left(told, self.stored.earliest, self.stored.latest)

    def expect_told(self, client, data, code, payload):
        """Has a client be given an answer in a message of its own, perhaps twice, which it acknowledges."""
        told = self.receive(client, "an answer")
        expect_message("an answer", told, kind=CON, code=code, token=data[4 : 4 + (data[0] & 15)], payload=payload)
        if self.stored is not None:
            self.stored.latest = max(self.stored.latest, self.clock.now()) if code == CONTENT else self.stored.latest
        if self.rand.random() < 0.3:
            self.receive_again(client, told, "an answer again")
        client.acknowledge(told)
        self.settle()
        return told

    def repeat(self, client, data, reply, before, after):
        """A request comes again: while it is remembered it gets the same bytes, and then it is a new one. Returns the reply
        that is remembered, and the moments before and after it."""
        if self.clock.now() - before < LIFETIME - PATIENCE:
            client.send(data)
            expect_datagram("the reply again", reply, self.receive(client, "a reply").data)
            self.counts["again"] += 1
        elif self.clock.now() - after > LIFETIME + SLACK:
            reply, before, after = self.ask(client, data)
            self.counts["new"] += 1
        return reply, before, after

    def play(self):
        """All requests, and their repetitions."""
        for _ in range(ROUNDS):
            self.clock.leap(self.rand.choice(LEAPS))
            client = self.rand.choice(self.clients)
            data = message(CON, GET, client.new_id(), bytes([self.rand.randrange(256)]), [T])
            told = self.ask(client, data)
            for leap in self.rand.sample((0, 60, 120, 300), 2):
                self.clock.leap(leap)
                told = self.repeat(client, data, *told)


def expect_same_replay(program, path, seen, arranged=list):
    """Has a replay of a recording come to send what was seen, to the last datagram, once it is written."""
    until, wanted, sent = time.monotonic() + PATIENCE, arranged(seen), []
    while sent != wanted and time.monotonic() < until:
        try:
            sent = arranged(replayed(program, path))
        except Failed:
            # Its last line isn't whole yet.
            time.sleep(0.2)
    expect_sent(wanted, sent)


@case("MaxAgeKept", "AnswersFromMemory", "DuplicatesAreNew", "PayloadChanged")
def years_are_served_and_replayed(program):
    with tempfile.TemporaryDirectory(prefix="coap-proxyd-test-") as folder:
        clock = Clock(folder)
        with Stage(paced(program, 1, f"CLOCK_AHEAD={clock.path}")) as stage:
            years = Years(stage, clock)
            years.play()
            if clock.ahead < DAYS * 86_400 or min(years.counts.values()) < 5:
                raise Broken(f"this tries little: {clock.ahead} s, {years.counts}")
            expect_same_replay(stage.program, years.recording, years.seen)
