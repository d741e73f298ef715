"""Clients and origins of the suite: UDP sockets that take whatever order and form of messages the RFC allows."""

import errno
import random
import socket
import time
from collections import namedtuple

from conforming import wire
from conforming.cases import Broken, NotKept, expect
from conforming.wire import ACK, CON, EMPTY, NON, RST
from testing.network import SO_TIMESTAMPNS, TIMESPEC, udp

# How long a datagram that must come may take, and how long it is watched that none comes, in seconds. The machine may
# be loaded.
PATIENCE, SILENCE = 5.0, 0.5
# How long a proxy may take to reject a ping before a silence counts, and what it sent may be on its way after that.
SETTLED, ON_ITS_WAY = 2.0, 0.05

# A message that was sent or came: as a message and as bytes, the other address, and the moment.
Came = namedtuple("Came", "message data source at")


def bound(host, port):
    """A UDP socket at this address. One that was closed just now may be held for a moment by a program that another
    thread starts."""
    for _ in range(40):
        own = udp(host)
        try:
            own.bind((host, port))
            return own
        except OSError as error:
            own.close()
            if error.errno != errno.EADDRINUSE:
                raise
            time.sleep(0.05)
    raise Broken(f"port {port} of {host} is taken")


def arrival(more):
    """The moment at which a datagram came, on the clock of time.monotonic, which may be before it is read."""
    if not more:
        return time.monotonic()
    seconds, nanoseconds = TIMESPEC.unpack(more[0][2][: TIMESPEC.size])
    return time.monotonic() - (time.time() - seconds - nanoseconds / 1e9)


class Endpoint:
    """A UDP socket. What comes while something else is waited for stays in `came`. `settle` waits until the proxy has
    done what it was sent."""

    def __init__(self, host, port=0, settle=lambda: None):
        self.settle = settle
        self.socket = bound(host, port)
        self.socket.setsockopt(socket.SOL_SOCKET, SO_TIMESTAMPNS, 1)
        # Its address as it stands in a URI, and its port.
        self.host, self.port = wire.literal(host), self.socket.getsockname()[1]
        self.next_id = random.randrange(0x10000)
        # All that came, for a text that tells it, and what nobody asked for yet; and to which addresses messages with a
        # Message ID or a token were sent.
        self.log, self.came, self.sent = [], [], {}

    def close(self):
        self.socket.close()

    def new_id(self):
        """A Message ID that this socket hasn't used yet."""
        self.next_id = (self.next_id + 1) % 0x10000
        return self.next_id

    def send(self, data, to):
        """Sends a datagram, and returns the moment just before."""
        for key in (("ID", data[2:4]), ("token", data[4 : 4 + (data[0] & 15)])) if len(data) >= 4 else ():
            self.sent.setdefault(key, set()).add(to)
        at = time.monotonic()
        self.socket.sendto(data, to)
        return at

    def poll(self, seconds):
        """The next datagram within so many seconds, if one comes. It must be a message."""
        self.socket.settimeout(max(seconds, 0.001))
        try:
            data, more, _, source = self.socket.recvmsg(65_536, 64)
        except (socket.timeout, ConnectionError):
            return None
        self.log.append(data)
        try:
            it = Came(wire.read(data), data, source[:2], arrival(more))
        except ValueError:
            raise NotKept(f"what came is no message: {wire.told(data)}") from None
        self.expect_source(it)
        return it

    def expect_source(self, it):
        """Has what belongs to a message come from the address and port that this was sent to: an acknowledgement or a
        Reset, by its Message ID (4.2, 4.4), and a response, by its token (5.3.2)."""
        is_reply = it.message.kind in (ACK, RST)
        if is_reply or wire.is_response(it.message.code):
            asked = self.sent.get(("ID", it.data[2:4]) if is_reply else ("token", it.message.token), {it.source})
            if it.source not in asked:
                places = " or ".join("%s:%d" % place for place in sorted(asked))
                raise NotKept(f"from {places} is right, from {'%s:%d' % it.source} came {wire.told(it.data)}")

    def find(self, wanted, seconds=PATIENCE):
        """The next message for which a function holds, within so many seconds, or None. Others are kept."""
        for it in self.came:
            if wanted(it):
                self.came.remove(it)
                return it
        until = time.monotonic() + seconds
        while True:
            it = self.poll(until - time.monotonic())
            if it is not None and wanted(it):
                return it
            if it is not None:
                self.came.append(it)
            elif time.monotonic() >= until:
                return None

    def find_late(self, wanted, seconds):
        """The same, on a machine that may keep the proxy waiting: what it sends before it rejects a ping is in time."""
        it = self.find(wanted, seconds)
        if it is None:
            self.settle()
            it = self.find(wanted, ON_ITS_WAY)
        return it

    def told(self):
        """What came, for a reader."""
        shown = [wire.told(data) for data in self.log[-4:]]
        return "; ".join(shown)[:600] if shown else "nothing"

    def empty(self, kind, to_message):
        """Acknowledges or rejects a message that came by an Empty one."""
        return self.send(wire.message(kind, EMPTY, to_message.message.message_id), to_message.source)

    def acknowledge(self, came):
        return self.empty(ACK, came)

    def reset(self, came):
        return self.empty(RST, came)


class Client(Endpoint):
    """A client of the proxy."""

    def __init__(self, host, to, settle=lambda: None):
        super().__init__(host, settle=settle)
        self.to = to

    def request(self, code, options=(), payload=b"", kind=CON, token=None, message_id=None):
        """Sends a request, and returns it."""
        token = bytes(random.randrange(256) for _ in range(4)) if token is None else token
        message_id = self.new_id() if message_id is None else message_id
        data = wire.message(kind, code, message_id, token, options, payload)
        return Came(wire.read(data), data, self.to, self.send(data, self.to))

    def send_raw(self, data):
        """Sends bytes to the proxy."""
        return self.send(data, self.to)

    def reply(self, request, seconds=PATIENCE):
        """The message that answers a request, in whatever message the RFC allows, or the Reset that rejects it, or
        None. A Confirmable one is acknowledged. Empty acknowledgements are kept in `came`."""
        asked = request.message

        def answers(it):
            kind, code, message_id, token = it.message[:4]
            if kind == RST or kind == ACK:
                return message_id == asked.message_id and (kind == RST or code != EMPTY)
            return wire.is_response(code) and token == asked.token

        it = self.find(answers, seconds)
        if it is not None and it.message.kind == CON:
            self.acknowledge(it)
        return it

    def response(self, request, seconds=PATIENCE):
        """The response to a request, which must come, with its token."""
        it = self.reply(request, seconds)
        if it is None:
            raise NotKept(f"no response came within {seconds:.3g} s; the client got {self.told()}")
        if it.message.kind == RST:
            raise NotKept("a Reset came in place of a response")
        expect("the token of the response", request.message.token.hex(), it.message.token.hex())
        return it

    def expect_code(self, request, *codes, seconds=PATIENCE):
        """Has a response with one of these codes come, and returns it."""
        it = self.response(request, seconds)
        if it.message.code not in codes:
            right = " or ".join(wire.code_text(code) for code in codes)
            raise NotKept(f"{right} is right, {wire.told(it.data)} came")
        return it

    def expect_error(self, request, seconds=PATIENCE):
        """Has an error of any code come, and returns it."""
        it = self.response(request, seconds)
        if not wire.is_error(it.message.code):
            raise NotKept(f"an error is right, {wire.told(it.data)} came")
        return it

    def expect_rejection(self, data, seconds=SILENCE):
        """Has what was sent be rejected by a Reset that has its Message ID and is Empty (4.2). If it isn't Confirmable,
        that may be sent, and silence is right as well (4.3)."""
        is_confirmable = data[0] >> 4 & 3 == CON
        right = wire.message(RST, EMPTY, int.from_bytes(data[2:4], "big"))
        it = self.find(lambda it: True, PATIENCE if is_confirmable else seconds)
        if it is None and is_confirmable:
            raise NotKept("a Reset is right, nothing came")
        if it is not None and it.data != right:
            raise NotKept(f"{wire.told(right)} is right, {wire.told(it.data)} came")

    def expect_silence(self, what, seconds=SILENCE):
        """Has no datagram come for a while."""
        it = self.find_late(lambda it: True, seconds)
        if it is not None:
            raise NotKept(f"{what}: silence is right, {wire.told(it.data)} came")

    def acknowledgement(self, request, seconds=PATIENCE):
        """The Empty acknowledgement of a request, or None."""
        bare = wire.message(ACK, EMPTY, request.message.message_id)
        return self.find(lambda it: it.data == bare, seconds)


class Origin(Endpoint):
    """An origin server, which the proxy asks. Requests without `mark` in a path or a query belong to other cases, and
    are rejected. The same request that comes again is passed over, unless each is asked for. What wasn't answered is
    rejected at the end, so that the proxy sends it no more."""

    def __init__(self, host, port=0, mark=None, settle=lambda: None):
        super().__init__(host, port, settle)
        self.mark, self.seen, self.open = mark, set(), {}

    def poll(self, seconds):
        it = super().poll(seconds)
        if it is not None and wire.is_request(it.message.code):
            self.open[it.source, it.message.message_id] = it
        return it

    def empty(self, kind, to_message):
        self.open.pop((to_message.source, to_message.message.message_id), None)
        return super().empty(kind, to_message)

    def close(self):
        for it in list(self.open.values()) if self.socket.fileno() >= 0 else ():
            self.reset(it)
        super().close()

    def is_own(self, it):
        """Whether a request belongs to this case."""
        return self.mark is None or any(
            self.mark in value for number, value in it.message.options if number in (wire.URI_PATH, wire.URI_QUERY)
        )

    def is_request(self, it):
        """Whether a message is a request that belongs to this case; one that doesn't is rejected."""
        if not wire.is_request(it.message.code):
            return False
        if not self.is_own(it):
            self.reset(it)
            return False
        return True

    def options(self, asked):
        """The options of a request without a Uri-Host and a Uri-Port that say what would hold without them (5.10.1).
        They SHOULD NOT be there, but do no harm."""
        defaults = ((wire.URI_HOST, self.host.encode()), (wire.URI_PORT, wire.number_bytes(self.port)))
        return [it for it in asked.message.options if it not in defaults]

    def next(self, seconds=PATIENCE):
        """The next request, even one that comes again, or None."""
        return self.find(self.is_request, seconds)

    def new(self, seconds=PATIENCE):
        """The next request that doesn't come again, or None."""
        until = time.monotonic() + seconds
        while True:
            it = self.next(until - time.monotonic())
            if it is None or (it.source, it.message.message_id) not in self.seen:
                break
        if it is not None:
            self.seen.add((it.source, it.message.message_id))
        return it

    def asked(self, method=None, seconds=PATIENCE):
        """The next new request, which must come."""
        it = self.new(seconds)
        if it is None:
            raise NotKept(f"the origin was asked nothing within {seconds:.3g} s")
        if method is not None:
            expect("the method that the origin was asked with", wire.code_text(method), wire.code_text(it.message.code))
        return it

    def expect_no_request(self, what, seconds=SILENCE):
        """Has no new request come for a while."""
        it = self.new(seconds)
        if it is None:
            self.settle()
            it = self.new(ON_ITS_WAY)
        if it is not None:
            raise NotKept(f"{what}: the origin mustn't be asked, {wire.told(it.data)} came")

    def answer(self, asked, code=wire.code("2.05"), options=(), payload=b"21", kind=None):
        """Answers a request: piggybacked, or in a Non-confirmable message if it was one; or as it is said. Returns
        the message."""
        if kind is None:
            kind = ACK if asked.message.kind == CON else NON
        self.open.pop((asked.source, asked.message.message_id), None)
        message_id = asked.message.message_id if kind == ACK else self.new_id()
        data = wire.message(kind, code, message_id, asked.message.token, options, payload)
        return Came(wire.read(data), data, asked.source, self.send(data, asked.source))

    def acknowledge_if_confirmable(self, asked):
        """Acknowledges a request, if it is a Confirmable one."""
        if asked.message.kind == CON:
            self.acknowledge(asked)

    def answer_later(self, asked, *words, seconds=0.0, **more):
        """Acknowledges a request, and answers it by a message of its own after some time."""
        self.acknowledge_if_confirmable(asked)
        time.sleep(seconds)
        return self.answer(asked, *words, kind=NON, **more)
