"""Replays that are written event by event, with what must be sent for each: worked out without the proxy's code."""

from testing import worked
from testing.coap import ACK, CON, CONTENT, GET, NON, message

# What the map of `Script.run` leads to, and a client.
ORIGIN, CLIENT = "127.0.0.1:5690", "127.0.0.1:40001"
# The greatest Max-Age, in seconds.
FOREVER = 4_294_967_295
# Options that aren't recognised and are safe: one that is part of the cache key, and the greatest
# numbers within the key and outside (RFC 7252, 5.4.6).
KEPT, LAST_KEPT, LAST_UNKEPT = 2052, 65_529, 65_533


class Script:
    """A run that is written event by event, with what must be sent for each."""

    def __init__(self):
        self.events, self.output, self.ids, self.exchanges = [], [], 0, 0

    def new_id(self):
        """The next Message ID of the proxy: they count up from 1, and 0 follows 65,535."""
        self.ids += 1
        return self.ids % 0x10000

    def new_exchange(self):
        """The number of the next exchange."""
        self.exchanges += 1
        return self.exchanges

    def come(self, moment, source, data):
        """A datagram comes."""
        self.events.append(f"{moment} 0 {source} {data.hex()}\n")

    def tick(self, moment):
        self.events.append(f"{moment} 0 tick\n")

    def send(self, moment, to, data):
        """The proxy must send a datagram."""
        self.output.append(f"{moment} {to} {data.hex().upper()}\n")

    def ask(self, moment, to, number, code, options, payload=b""):
        """At a tick the proxy must send the request of an exchange. Returns it."""
        token = number.to_bytes(8, "big")
        data = message(CON, code, self.new_id(), token, options, payload)
        self.tick(moment)
        self.send(moment, to, data)
        return data

    def answer(self, moment, source, asked, code, options=(), payload=b""):
        """An origin answers a request in its acknowledgement."""
        message_id = int.from_bytes(asked[2:4], "big")
        self.come(moment, source, message(ACK, code, message_id, asked[4:12], options, payload))

    def deliver(self, moment, to, kind, code, token=b"", options=(), payload=b""):
        """At a tick the proxy must send a client its answer. Returns it."""
        data = message(kind, code, self.new_id(), token, options, payload)
        self.tick(moment)
        self.send(moment, to, data)
        return data

    def fetch(self, moment, here, there, answer, message_id=0, told=None):
        """A Non-confirmable GET for which the origin must be asked: it answers with options and a
        payload, and the client must be told the same, or other options. Returns what was asked."""
        self.come(moment, CLIENT, message(NON, GET, message_id, b"", here))
        asked = self.ask(moment, ORIGIN, self.new_exchange(), GET, there)
        self.answer(moment, ORIGIN, asked, CONTENT, *answer)
        self.deliver(moment, CLIENT, NON, CONTENT, b"", told or answer[0], answer[1])
        return asked

    def hit(self, moment, client, here, answer, message_id):
        """A Confirmable GET that the cache must answer, with options and a payload."""
        self.come(moment, client, message(CON, GET, message_id, b"", here))
        self.send(moment, client, message(ACK, CONTENT, message_id, b"", *answer))

    def refuse(self, moment, client, request, code, options=()):
        """A Confirmable request without a token that must be refused."""
        self.come(moment, client, request)
        message_id = int.from_bytes(request[2:4], "big")
        self.send(moment, client, message(ACK, code, message_id, b"", options))

    def run(self, name, limits="", config="", words=("--map", f"/t=coap://{ORIGIN}/temp")):
        """The run, with these limits, and the rest of its configuration."""
        text = f"version = 1\n{config}[limits]\n{limits}\n"
        events, output = "".join(self.events).encode(), "".join(self.output).encode()
        return worked.Run(name, ["--replay", *words], text.encode(), events, output)


def endpoint(number):
    """One of many endpoints, no two of which are the same."""
    return f"10.{number >> 16 & 255}.{number >> 8 & 255}.{number & 255}:{1 + number * 61 % 65_535}"
