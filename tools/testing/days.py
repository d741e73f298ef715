"""What the program does over a socket where its clock goes a thousand times as fast and days are left out at any moment,
while several clients ask, repeat themselves, and an origin answers at once, separately, late or not at all."""

import math
import os
import random
import select
import tempfile
import time

from reading.messages import KINDS, code_name
from testing import programs
from testing.coap import ACK, CON, CONTENT, EMPTY, GATEWAY_TIMEOUT, GET, MAX_AGE, message, number, read
from testing.hosts import paced
from testing.leaps import AGES, LIFETIME, SLACK, Clock, expect_same_replay
from testing.network import (
    PATIENCE, SILENCE, Broken, Failed, Stage, case_list, expect, expect_between, expect_datagram, left,
)
from testing.steps import T, max_age

CASES, case = case_list()
# How fast the clock goes, for how many seconds there are requests, after how many the clients look whether they ask, and
# how far the clock is set ahead then, if it is.
SPEED, LASTS, PAUSE, LEAPS = 1_000, 1.0, 0.002, (1, 10, 100, 600, 86_400, 5 * 86_400)
# How far a moment may be off that a program tells which is run by an emulator: two thousandths of a second were seen, which
# are two seconds of its clock.
SLACK_EMULATED = 10
# How many days there are at least, and requests of each kind; for how many seconds it goes on for these; and the first
# byte of a Reset.
ENOUGH, LONGEST, RESET = 10, 5 * PATIENCE, 0x70


class Answer:
    """An answer of the origin, when it was sent first, and when a client first had it, if one had."""

    def __init__(self, order, seconds, sent):
        self.order, self.seconds, self.sent, self.seen = order, seconds, sent, math.inf


class Asking:
    """A client, its last request, the first reply to it, and the moments before and after that."""

    def __init__(self, peer):
        self.peer, self.data, self.reply, self.before, self.after = peer, b"", None, 0, 0
        self.asked, self.is_open, self.awaits, self.told = 0, False, None, {}

    def send(self, now):
        """Sends the request, perhaps again."""
        self.asked, self.is_open = now, True
        self.peer.send(self.data)


class Days:
    """A proxy with a fast clock, which is recorded, its clients and its origin, and what all of them got."""

    def __init__(self, stage, clock, slack):
        self.slack = slack
        self.clock, self.rand, self.seen, self.answers, self.given = clock, random.Random(7252), [], {}, {}
        self.origin, self.recording = stage.peer(), os.path.join(stage.folder, "run.events")
        words = ("--map", f"/t=coap://{self.origin.authority}/temp", "--record", self.recording)
        proxy = stage.proxy(*words)
        self.pinging, *self.clients = (Asking(stage.peer(to=proxy)) for _ in range(5))
        self.counts = {"hit": 0, "asked": 0, "again": 0, "5.04": 0}

    def play(self):
        """Requests for some time, until enough came of them, and what is left to come."""
        peers, started, then = {it.peer.socket: it for it in self.clients}, time.monotonic(), 0
        now, quiet = started, started + SILENCE
        while now < quiet:
            is_early = now < started + LASTS or self.is_little() and now < started + LONGEST
            if is_early and then <= now:
                self.go_on()
                then = now + PAUSE
            if is_early or self.is_waiting() and now < started + LONGEST:
                quiet = now + SILENCE
            self.ping()
            for ready in select.select([*peers, self.origin.socket], [], [], PAUSE)[0]:
                data, source = ready.recvfrom(2_000)
                quiet = max(quiet, time.monotonic() + SILENCE)
                self.seen += [data.hex().upper()] if data[0] != RESET else []
                if ready in peers:
                    self.hear(peers[ready], read(data), data)
                elif data[1] == GET:
                    self.serve(read(data), data, source)
            now = time.monotonic()
        expect("whether a client waits for a reply or an answer", False, self.is_waiting())

    def is_waiting(self):
        """Whether a client waits for a reply or an answer."""
        return any(it.is_open or it.awaits is not None for it in self.clients)

    def is_little(self):
        """Whether little was tried so far."""
        return self.clock.ahead < ENOUGH * 86_400 or min(self.counts[it] for it in ("hit", "asked", "again")) < ENOUGH

    def ping(self):
        """Has the proxy look at what is due, since its waits take as long as ever. A Reset comes of it."""
        if not self.pinging.is_open or self.pinging.peer.poll(0) is not None:
            self.pinging.data = message(CON, EMPTY, self.pinging.peer.new_id())
            self.pinging.send(0)

    def go_on(self):
        """Each client that waits for nothing asks, and days may pass."""
        for it in self.clients:
            if not it.is_open and it.awaits is None:
                message_id = it.peer.new_id()
                it.data, it.reply = message(CON, GET, message_id, message_id.to_bytes(2, "big"), [T]), None
                it.send(self.clock.now())
        if self.rand.random() < 0.2:
            self.clock.leap(self.rand.choice(LEAPS))

    def serve(self, request, data, source):
        """The origin is asked: one request in four is lost. The answer to one that comes again is the same."""
        if self.rand.random() < 0.25:
            return
        if data not in self.given:
            payload, seconds = b"%d" % len(self.answers), self.rand.choice(AGES)
            self.answers[payload] = Answer(len(self.answers), seconds, self.clock.now())
            kind = self.rand.choice((ACK, ACK, CON))
            message_id = self.origin.new_id() if kind == CON else request.message_id
            answer = message(kind, CONTENT, message_id, request.token, [max_age(seconds)], payload)
            self.given[data] = [answer] if kind == ACK else [message(ACK, EMPTY, request.message_id), answer]
        for answer in self.given[data]:
            self.origin.send(answer, source)

    # What clients get.

    def hear(self, client, came, data):
        """A client gets a reply, or an answer in a message of its own, which it acknowledges."""
        now = self.clock.now()
        if came.kind == CON:
            client.peer.send(message(ACK, EMPTY, came.message_id))
            expect_datagram("an answer that comes again", client.told.setdefault(came.message_id, data), data)
            self.check_told(client, came, now)
            return
        expect("a reply", (KINDS[ACK], True), (KINDS[came.kind], client.is_open), "the type", "whether it is awaited")
        client.is_open = False
        if not self.is_again(client, data, now):
            client.reply, client.before, client.after = data, client.asked, now
            self.check_reply(client, came, now)
        if self.rand.random() < 0.4:
            client.send(self.clock.now())

    def is_again(self, client, data, now):
        """Whether a reply is that of a duplicate: it must be the same while the request is remembered."""
        if client.reply is None:
            return False
        if now - client.before < LIFETIME - self.slack:
            expect_datagram("the reply again", client.reply, data)
        self.counts["again"] += client.reply == data
        return client.reply == data

    def check_reply(self, client, came, now):
        """Has a request be answered by what may be fresh and isn't replaced, or else not while that must be fresh."""
        last = max(self.answers.values(), key=lambda it: it.order, default=None)
        if came.code == EMPTY:
            self.counts["asked"] += 1
            client.awaits = client.data[4:6]
            if last and last.seen < client.asked and now - last.sent + self.slack < last.seconds:
                raise Failed(f"an answer of {last.seconds} s wasn't used {now - last.sent} s later")
            return
        self.counts["hit"] += 1
        is_last = last is not None and last.seen < client.asked
        answer = self.check_content(came, client.asked, now)
        expect("the number of the answer", last.order if is_last else answer.order, answer.order)

    def check_told(self, client, came, now):
        """Has an answer be 5.04, or what the origin has sent."""
        if client.awaits == came.token:
            client.awaits = None
        if came.code == GATEWAY_TIMEOUT:
            self.counts["5.04"] += 1
            return
        self.check_content(came, 0, now)

    def check_content(self, came, before, now):
        """Has a message be an answer of the origin, with a Max-Age that may be left of it. Returns the answer."""
        is_sent = came.payload in self.answers
        told = code_name(came.code), is_sent
        expect("a reply", (code_name(CONTENT), True), told, "the code", "whether the origin has sent it")
        answer, values = self.answers[came.payload], [number(it) for option, it in came.options if option == MAX_AGE]
        expect("how many Max-Age it has", 1, len(values))
        if before - answer.seen - self.slack > answer.seconds:
            raise Failed(f"an answer of {answer.seconds} s was used {before - answer.seen} s later")
        shortest = max(0, before - answer.seen - self.slack)
        expect_between("Max-Age", left(answer.seconds, now - answer.sent + self.slack), left(answer.seconds, shortest), values[0])
        answer.seen = min(answer.seen, now)
        return answer


@case("MaxAgeKept", "AnswersFromMemory", "DuplicatesAreNew", "PayloadChanged")
def days_go_by_in_seconds(program):
    with tempfile.TemporaryDirectory(prefix="coap-proxyd-test-") as folder:
        clock = Clock(folder, SPEED)
        with Stage(paced(program, SPEED, f"CLOCK_AHEAD={clock.path}")) as stage:
            days = Days(stage, clock, SLACK_EMULATED if programs.is_emulated(program[-1]) else SLACK)
            days.play()
            if days.is_little():
                raise Broken(f"this tries little: {clock.ahead} s, {days.counts}")
            # What comes to one socket is in order, but not what comes to several.
            expect_same_replay(stage.program, days.recording, days.seen, sorted)
