"""A building: devices that sleep, lose requests, answer late or never, and clients that ask for what they measure. What a
proxy between them does is worked out here, without its code."""

import heapq
import random
from collections import Counter

from testing.coap import (
    ACK, CON, CONTENT, EMPTY, ETAG, GATEWAY_TIMEOUT, GET, NON, OBSERVE, RST, VALID, message,
)
from testing.models import LIFETIMES, Records, Script
from testing.steps import max_age, path

# How long an exchange, or a client that doesn't acknowledge, is waited for at most, and a day, in milliseconds.
LONGEST, DAY = 93_000, 86_400_000


class Exchange:
    """What is in progress for a request to a device."""

    def __init__(self, number, opened, copy):
        self.number, self.opened, self.copy = number, opened, copy
        self.state, self.timer, self.data, self.id, self.answer, self.answered = "queued", None, b"", None, None, 0
        self.is_heard = False


class Waiter:
    """A request of a client that waits for an exchange, or whose answer isn't acknowledged."""

    def __init__(self, number, client, kind, token, tags, exchange):
        self.number, self.client, self.kind, self.token, self.tags = number, client, kind, token, tags
        self.exchange = exchange
        self.timer, self.data, self.id = None, b"", None


class Timer:
    """When a message is sent again: after two seconds and what is drawn, and then after twice as long each time."""

    def __init__(self, now, draw):
        self.started, self.wait, self.sends = now, 2000 + draw, 1
        self.due = now + self.wait

    def goes_on(self, now):
        return self.sends < 5 and now - self.started < LONGEST

    def fire(self, now):
        self.wait, self.sends = self.wait * 2, self.sends + 1
        self.due = now + self.wait


class Device:
    """A sensor, which is awake all the time or once in a while, with what the proxy has of it. All that concerns it falls
    on moments of its own, so that no moment has two devices."""

    def __init__(self, number, rand):
        self.number, self.rand, self.origin = number, rand, f"10.1.0.{number}:5683"
        self.here, self.there = path(f"d{number}"), path("value")
        self.sleep, self.seconds = ((100, 60), (30_000, 600), (600, 1800), (70_000, 3600))[number % 4]
        self.is_tagged, self.version, self.next_id = number % 4 > 1, 1, rand.randrange(0x10000)
        # What is stored: when it came, its tag, its Max-Age, and its payload.
        self.stored, self.exchanges, self.waiters, self.ticks = None, [], [], set()

    def wake(self, now):
        """When it next listens."""
        return now + self.sleep - (now - self.number) % self.sleep

    def tags(self, version):
        return [(ETAG, bytes([version % 256]))] if self.is_tagged else []

    def due(self):
        """What is due first: when, whether it is a client's answer, its number, and what it is."""
        items = [(self.due_of(it), False, it.number, it) for it in self.exchanges if it.answer is None]
        for it in self.waiters:
            if it.timer is not None or it.exchange.answer is not None:
                items.append((it.timer.due if it.timer else it.exchange.answered, True, it.number, it))
        return min(items, key=lambda item: item[:3], default=None)

    def due_of(self, exchange):
        """When an exchange is due that has no answer: only one to a device is sent at once (RFC 7252, 4.7)."""
        deadline = exchange.opened + LONGEST
        if exchange.state == "queued":
            return deadline if any(it.state == "sent" for it in self.exchanges) else exchange.opened
        return min(exchange.timer.due, deadline) if exchange.state == "sent" else deadline


class Building:
    """Devices, and clients that ask for them. Each device has moments of its own in each tenth of a second."""

    def __init__(self, devices, every):
        self.rand, self.script = random.Random(7252), Script("building")
        self.devices = [Device(number, self.rand) for number in range(devices)]
        self.every, self.heap, self.order = every, [], 0
        self.ids, self.opened, self.admitted, self.client_ids = 0, 0, 0, Counter()
        self.records = {kind: Records(lifetime) for kind, lifetime in LIFETIMES.items()}

    def later(self, moment, act, *arguments):
        """Has something happen at a moment."""
        self.order += 1
        heapq.heappush(self.heap, (moment, self.order, act, arguments))

    def play(self):
        """A hundred days, and what is in progress then. Returns the script."""
        for device in self.devices:
            self.later(device.number, self.poll, device)
            self.later(device.number + 100 * self.rand.randrange(600), self.call, device)
        while self.heap:
            now, _, act, arguments = heapq.heappop(self.heap)
            act(now, *arguments)
        self.script.close()
        return self.script

    def soon(self, least, most):
        """A time of tenths of a second."""
        return 100 * self.rand.randrange(least, most)

    def new_id(self):
        """The next Message ID of the proxy."""
        self.ids = (self.ids + 1) % 0x10000
        return self.ids

    # What clients do.

    def poll(self, now, device):
        """A dashboard asks, and does so again after its time."""
        if now + self.every < 100 * DAY:
            self.later(now + self.every, self.poll, device)
        self.ask(now, device, "10.2.0.1:40001", NON)

    def call(self, now, device):
        """A phone asks, by chance, and perhaps another one soon after it. Where what is stored is fresh, it may name its tag.
        It may wish to observe the device, and is answered once."""
        if now + 6 * self.every < 100 * DAY:
            self.later(now + self.soon(100, 6 * self.every // 100), self.call, device)
        more = [(OBSERVE, b"")] if self.rand.random() < 0.1 else []
        if device.stored is not None and self.is_fresh(now, device) and self.rand.random() < 0.5:
            more += device.stored[1]
        self.ask(now, device, "10.2.0.2:40001", CON, more)
        if self.rand.random() < 0.2:
            self.later(now + self.soon(1, 30), self.ask, device, "10.2.0.3:40001", CON)

    def ask(self, now, device, client, kind, more=()):
        """A request, which may come again, be it before it is forgotten or at that moment."""
        message_id = self.client_ids[client] = (self.client_ids[client] + 1) % 0x10000
        token = message_id.to_bytes(2, "big")
        data = message(kind, GET, message_id, token, [*device.here, *more])
        request = device, client, kind, message_id, token, data, [it for it in more if it[0] == ETAG]
        self.request(now, *request)
        if self.rand.random() < 0.04:
            wait = self.rand.choice((2300, LIFETIMES[kind] - 100, LIFETIMES[kind]))
            self.later(now + wait, self.request, *request)

    def confirm(self, now, device, client, message_id):
        """A client acknowledges an answer."""
        event = f"{client} {message(ACK, EMPTY, message_id).hex()}"
        found = [it for it in device.waiters if it.client == client and it.timer and it.id == message_id]
        device.waiters = [it for it in device.waiters if it not in found]
        self.script.note(now, 0, event, "acked" if found else "ignored")

    # What devices do.

    def hear(self, now, device, exchange):
        """A device is sent a request: it may be lost, and else is answered once, when the device next listens. For one day
        in thirty it is silent."""
        is_silent = (now // DAY + 7 * device.number) % 30 == 0
        if exchange.is_heard or is_silent or self.rand.random() < 0.1:
            return
        exchange.is_heard, at, way = True, device.wake(now), self.rand.random()
        if self.rand.random() < 0.2:
            device.version += 1
        if way < 0.5:
            self.later(at, self.answer, device, exchange, ACK, exchange.id)
            return
        self.later(at, self.acknowledge, device, exchange)
        if way > 0.98:
            # It restarts, and never answers.
            return
        device.next_id = (device.next_id + 1) % 0x10000
        at += self.soon(1, 400)
        self.later(at, self.answer, device, exchange, CON if way < 0.8 else NON, device.next_id)
        if self.rand.random() < 0.2:
            self.later(at + self.soon(20, 40), self.answer, device, exchange, CON, device.next_id)

    def acknowledge(self, now, device, exchange):
        """A device acknowledges a request by an Empty message."""
        event = f"{device.origin} {message(ACK, EMPTY, exchange.id).hex()}"
        is_awaited = exchange in device.exchanges and exchange.state == "sent"
        if is_awaited:
            exchange.state = "acked"
        self.script.note(now, 0, event, "acked" if is_awaited else "ignored")
        self.look(now, device)

    def answer(self, now, device, exchange, kind, message_id):
        """A device answers: it validates what was stored, if that has its tag, or says what it has."""
        tags, ages = device.tags(device.version), [max_age(device.seconds)]
        is_valid = exchange.copy is not None and exchange.copy[1] == tags
        payload = b"" if is_valid else b"%d" % device.version
        token = exchange.number.to_bytes(8, "big")
        data = message(kind, VALID if is_valid else CONTENT, message_id, token, [*tags, *ages], payload)
        event, records = f"{device.origin} {data.hex()}", self.records[CON]
        records.forget(now)
        reply = records.replies.get((device.origin, message_id)) if kind == CON else None
        if reply is not None:
            self.script.note(now, 0, event, "again", (device.origin, reply))
            return
        if exchange not in device.exchanges or exchange.state not in ("sent", "acked"):
            rejected = (device.origin, message(RST, EMPTY, message_id).hex().upper()) if kind == CON else None
            self.script.note(now, 0, event, "rejected" if rejected else "ignored", rejected)
            return
        sent = None
        if kind == CON:
            sent = device.origin, message(ACK, EMPTY, message_id).hex().upper()
            records.remember(now, device.origin, message_id, sent[1])
        device.stored = now, tags, device.seconds, exchange.copy[3] if is_valid else payload
        exchange.state, exchange.answer, exchange.answered = "done", device.stored, now
        self.script.note(now, 0, event, "answered", sent)
        self.look(now, device)

    # What the proxy does.

    def look(self, now, device):
        """Has a tick come when something is due."""
        due = device.due()
        moment = max(now, due[0]) if due else None
        if due and moment not in device.ticks:
            device.ticks.add(moment)
            self.later(moment, self.tick, device)

    def is_fresh(self, now, device):
        return now - device.stored[0] <= 1000 * device.stored[2]

    def shown(self, now, stored, kind, message_id, token, tags):
        """A message with what was stored, or which says that it is valid where one of these tags is its own."""
        age = -(-(now - stored[0]) // 1000)
        options = [*stored[1], max_age(max(0, stored[2] - age))]
        if stored[1] and stored[1][0] in tags:
            return message(kind, VALID, message_id, token, options)
        return message(kind, CONTENT, message_id, token, options, stored[3])

    def request(self, now, device, client, kind, message_id, token, data, tags):
        """A request comes."""
        event, records, sent = f"{client} {data.hex()}", self.records[kind], None
        records.forget(now)
        if (client, message_id) in records.replies:
            sent = records.replies[client, message_id]
            self.script.note(now, 0, event, "again", (client, sent) if sent else None)
            return
        if device.stored is not None and self.is_fresh(now, device):
            reply = (ACK, message_id) if kind == CON else (NON, self.new_id())
            sent, outcome = self.shown(now, device.stored, *reply, token, tags).hex().upper(), "hit"
        else:
            sent = message(ACK, EMPTY, message_id).hex().upper() if kind == CON else None
            outcome = self.wait(now, device, client, kind, token, tags)
        records.remember(now, client, message_id, sent if kind == CON else "")
        self.script.note(now, 0, event, outcome, (client, sent) if sent else None)
        self.look(now, device)

    def wait(self, now, device, *asked):
        """A request joins the exchange that is in progress, or opens one."""
        found = [it for it in device.exchanges if it.answer is None]
        if not found:
            self.opened += 1
            copy = device.stored if device.stored is not None and device.stored[1] else None
            device.exchanges.append(Exchange(self.opened, now, copy))
        self.admitted += 1
        device.waiters.append(Waiter(self.admitted, *asked, (found or device.exchanges[-1:])[0]))
        return "joined" if found else "opened"

    def tick(self, now, device):
        """What is due first is done, if anything is."""
        due, draw = device.due(), self.soon(0, 11)
        device.ticks.discard(now)
        outcome, sent = "idle", None
        if due is not None and due[0] <= now:
            outcome, sent = (self.serve if due[1] else self.send)(now, draw, device, due[3])
        self.script.note(now, draw, "tick", outcome, sent)
        self.look(now, device)

    def send(self, now, draw, device, exchange):
        """An exchange is due: its request is sent, be it again, or it is given up."""
        if exchange.opened + LONGEST <= now or exchange.timer and not exchange.timer.goes_on(now):
            exchange.state, exchange.answer, exchange.answered = "done", GATEWAY_TIMEOUT, now
            return "gave up", None
        if exchange.timer:
            exchange.timer.fire(now)
        else:
            exchange.state, exchange.timer, exchange.id = "sent", Timer(now, draw), self.new_id()
            tags = exchange.copy[1] if exchange.copy else []
            exchange.data = message(CON, GET, exchange.id, exchange.number.to_bytes(8, "big"), [*tags, *device.there])
        self.hear(now, device, exchange)
        sent = device.origin, exchange.data.hex().upper()
        return "sent" if exchange.timer.sends == 1 else "resent", sent

    def serve(self, now, draw, device, waiter):
        """A client's answer is due: it is sent, be it again, or the client is given up."""
        if waiter.timer and not waiter.timer.goes_on(now):
            device.waiters.remove(waiter)
            return "gave up", None
        outcome = "resent" if waiter.timer else "delivered"
        if waiter.timer:
            waiter.timer.fire(now)
        else:
            self.tell(now, draw, device, waiter)
        if waiter.kind == CON and self.rand.random() < 0.9:
            self.later(now + 100, self.confirm, device, waiter.client, waiter.id)
        return outcome, (waiter.client, waiter.data.hex().upper())

    def tell(self, now, draw, device, waiter):
        """A client is sent its answer for the first time."""
        exchange, waiter.id = waiter.exchange, self.new_id()
        if exchange.answer == GATEWAY_TIMEOUT:
            waiter.data = message(waiter.kind, GATEWAY_TIMEOUT, waiter.id, waiter.token)
        else:
            waiter.data = self.shown(now, exchange.answer, waiter.kind, waiter.id, waiter.token, waiter.tags)
        if waiter.kind == CON:
            waiter.timer = Timer(now, draw)
        else:
            device.waiters.remove(waiter)
        if not any(it.exchange is exchange and not it.timer for it in device.waiters):
            device.exchanges.remove(exchange)
