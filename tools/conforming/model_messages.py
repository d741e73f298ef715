"""The message layer of a stand-in: rejection, duplicates and retransmission (section 4)."""

import heapq
import itertools
import random
import select
import socket
import struct
import time

from conforming import model_wire, wire
from conforming.wire import ACK, CON, EMPTY, NON, RST
from testing.coap import message
from testing.network import udp

# The Linux option that tells to which address a datagram came, and its form.
IP_PKTINFO, PKTINFO = 8, struct.Struct("@i4s4s")


class Record:
    """A message that came: until when it is remembered, and what answered it."""

    def __init__(self, until):
        self.until, self.reply = until, None


class Sending:
    """A Confirmable message that isn't acknowledged yet."""

    def __init__(self, data, to, wait, ended):
        self.data, self.to, self.wait, self.ended, self.tries = data, to, wait, ended, 1


class MessageLayer:
    """Two sockets, one for clients and one for origins, and what is remembered of messages."""

    # Which messages get a Reset if they are rejected, and how many times a message is sent again.
    resets, retransmissions = (CON,), wire.MAX_RETRANSMIT
    lifetimes = {CON: wire.EXCHANGE_LIFETIME, NON: wire.NON_LIFETIME}
    forgiven = ()

    def __init__(self, host, port, scale):
        self.host, self.port, self.scale = host, port, scale
        self.front, self.back = udp(host), udp(host)
        self.front.bind((host, port))
        if ":" not in host:
            self.front.setsockopt(socket.IPPROTO_IP, IP_PKTINFO, 1)
        self.back.bind((host, 0))
        self.known, self.sendings, self.timers, self.asked_at = {}, {}, [], {}
        self.counter, self.ids = itertools.count(), itertools.count(random.randrange(65_536))

    def run(self):
        """Serves both sockets until a signal ends it."""
        while True:
            while self.timers and self.timers[0][0] <= time.monotonic():
                heapq.heappop(self.timers)[2]()
            wait = min(1, max(0, self.timers[0][0] - time.monotonic())) if self.timers else 1
            for sock in select.select([self.front, self.back], [], [], wait)[0]:
                self.read(sock)

    def read(self, sock):
        """Takes one datagram from a socket."""
        try:
            data, more, _, source = sock.recvmsg(65_536, 256)
        except ConnectionError:
            return self.on_network_error()
        if more:
            self.asked_at[source] = PKTINFO.unpack(more[0][2][: PKTINFO.size])[2]
        self.receive(sock, data, source[:2])

    def on_network_error(self):
        """An ICMP error, which says nothing that matters."""

    def later(self, seconds, function):
        """Calls a function after a time of the RFC, unless what it returns is called before."""
        wanted = [True]
        at = time.monotonic() + seconds * self.scale
        heapq.heappush(self.timers, (at, next(self.counter), lambda: function() if wanted[0] else None))
        return lambda: wanted.__setitem__(0, False)

    def send(self, sock, data, to):
        """Sends a datagram: to a client from the address that it had asked."""
        more = []
        if sock is self.front and self.host == "0.0.0.0" and to in self.asked_at:
            more = [(socket.IPPROTO_IP, IP_PKTINFO, PKTINFO.pack(0, self.asked_at[to], self.asked_at[to]))]
        try:
            sock.sendmsg([data], more, 0, to)
        except OSError:
            self.on_network_error()

    def new_id(self, to):
        return next(self.ids) % 65_536

    # What comes

    def is_of_version(self, data):
        return len(data) >= 4 and data[0] >> 6 == 1

    def receive(self, sock, data, source):
        """Does what a datagram asks for."""
        if not self.is_of_version(data):
            return
        try:
            it = model_wire.parse(data, self.forgiven)
        except ValueError:
            self.on_format_error(sock, data, source)
            return
        if it.kind in (ACK, RST):
            self.on_reply(sock, it, source)
        elif it.code == EMPTY:
            self.on_empty(sock, data, source)
        elif wire.is_request(it.code) and sock is self.front or wire.is_response(it.code):
            self.on_message(sock, it, data, source)
        else:
            self.on_reserved(sock, data, source)

    def on_format_error(self, sock, data, source):
        self.on_broken(sock, data, source)
        self.reject(sock, data, source)

    def on_broken(self, sock, data, source):
        """What is no message may be the answer of an origin all the same."""

    def on_empty(self, sock, data, source):
        self.reject(sock, data, source)

    def on_reserved(self, sock, data, source):
        self.reject(sock, data, source)

    def reject(self, sock, data, source):
        """Rejects a message: by a Reset if it is Confirmable, or else by a Reset or by silence."""
        if data[0] >> 4 & 3 in self.resets:
            self.send(sock, message(RST, EMPTY, int.from_bytes(data[2:4], "big")), source)

    def duplicate_key(self, sock, it, source):
        return sock, source, it.message_id

    def on_message(self, sock, it, data, source):
        """Does what a request or a separate response asks for, unless it is a duplicate."""
        key = self.duplicate_key(sock, it, source)
        record = self.known.get(key)
        if record is not None and record.until > time.monotonic():
            self.on_duplicate(sock, it, source, record)
            return
        record = self.known[key] = Record(time.monotonic() + self.lifetimes[it.kind] * self.scale)
        if wire.is_request(it.code):
            self.on_request(it, source, record)
        elif self.on_response(sock, it, source):
            if it.kind == CON:
                self.acknowledge_response(sock, it, source, record)
        else:
            del self.known[key]
            self.on_stray_response(sock, it, data, source)

    def acknowledge_response(self, sock, it, source, record):
        record.reply = message(ACK, EMPTY, it.message_id)
        self.send(sock, record.reply, source)

    def on_stray_response(self, sock, it, data, source):
        self.reject(sock, data, source)

    def on_duplicate(self, sock, it, source, record):
        """Replies to a duplicate as before: an Empty acknowledgement if there was no reply yet."""
        if it.kind == CON:
            record.reply = record.reply or self.empty_acknowledgement(it)
            self.send(sock, record.reply, source)

    def empty_acknowledgement(self, it):
        return message(ACK, EMPTY, it.message_id)

    # What is sent until it is acknowledged

    def first_timeout(self):
        return random.uniform(wire.ACK_TIMEOUT, wire.ACK_TIMEOUT * wire.ACK_RANDOM_FACTOR)

    def send_reliably(self, sock, data, to, ended):
        """Sends a Confirmable message until it is acknowledged. Calls `ended` with how that ended."""
        key = self.sending_key(sock, to, int.from_bytes(data[2:4], "big"))
        sending = self.sendings[key] = Sending(data, to, self.first_timeout(), ended)
        self.send(sock, data, to)
        self.later(sending.wait, lambda: self.on_timeout(sock, key, sending))
        return key

    def sending_key(self, sock, to, message_id):
        return sock, to, message_id

    def next_timeout(self, wait):
        return 2 * wait

    def most_tries(self, sock):
        return self.retransmissions

    def on_timeout(self, sock, key, sending):
        """Sends a message again, or gives up."""
        if self.sendings.get(key) is not sending:
            return
        if sending.tries > self.most_tries(sock):
            del self.sendings[key]
            sending.ended("timeout")
            return
        sending.tries += 1
        sending.wait = self.next_timeout(sending.wait)
        self.send(sock, self.again(sock, sending.data), sending.to)
        self.later(sending.wait, lambda: self.on_timeout(sock, key, sending))

    def again(self, sock, data):
        """What is sent again."""
        return data

    def on_reply(self, sock, it, source):
        """Ends what an acknowledgement or a Reset belongs to, and takes the response that it may have."""
        sending = self.take_sending(sock, it, source)
        if it.kind == RST and it.code != EMPTY:
            return
        if sending is not None:
            sending.ended("reset" if it.kind == RST else "ack" if it.code == EMPTY else "answer")
        if it.kind == ACK and wire.is_response(it.code) and sock is self.back:
            self.on_piggybacked(it, source)

    def take_sending(self, sock, it, source):
        return self.sendings.pop(self.sending_key(sock, source, it.message_id), None)
