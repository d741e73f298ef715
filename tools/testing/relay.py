"""What is between clients, origins and a program, and passes on what they send as a stand-in has it changed."""

import heapq
import re
import select
import signal
import subprocess
import time

from testing.network import free_port, udp


class Relay:
    """Passes on what clients, origins and the program send to each other."""

    def __init__(self, wrong, program, words):
        self.wrong, self.gates, self.links, self.timers, self.count = wrong(self), {}, {}, [], 0
        self.host = words[words.index("-A") + 1]
        self.front = udp(self.host)
        self.handlers = {self.front: self.from_front}
        self.own = [program, *self.inner(words)]

    def inner(self, words):
        """The words for the program: it has another port, and gates in place of origins."""
        words = self.wrong.words(list(words))
        port = words.index("-p") + 1
        self.port, words[port] = int(words[port]), str(free_port())
        self.inner_port = int(words[port])
        if "--config" in words:
            place = words.index("--config") + 1
            with open(words[place], encoding="utf-8") as file:
                text = self.wrong.config(self.gated(file.read()))
            words[place] += ".inner"
            with open(words[place], "w", encoding="utf-8") as file:
                file.write(text)
        return [self.gated(it) for it in words]

    def gated(self, text):
        """A text with a gate's address in place of each origin's."""
        return re.sub(r"(?<=coap://)(127\.[0-9.]+|\[::1\]):(\d+)", lambda it: self.gate(it[1], int(it[2])), text)

    def gate(self, host, port):
        """A gate for an origin: a socket that the program takes for the origin, and one that the origin is asked
        from. Returns the former's authority."""
        bare = host.strip("[]")
        inside, outside = udp(bare), udp(bare)
        inside.bind((bare, 0))
        outside.bind((bare, 0))
        gate = {"origin": (bare, port), "inside": inside, "outside": outside, "proxy": None}
        self.handlers[inside] = lambda data, source: self.to_origin(gate, data, source)
        self.handlers[outside] = lambda data, source: self.from_outside(gate, data, source)
        return f"{host}:{inside.getsockname()[1]}"

    def to_origin(self, gate, data, source):
        gate["proxy"] = source
        self.pass_on(self.wrong.to_origin, (data,), lambda it: gate["outside"].sendto(it, gate["origin"]))

    def from_outside(self, gate, data, source):
        if source == gate["origin"] or self.wrong.trusts_all:
            self.pass_on(self.wrong.from_origin, (data,), lambda it: gate["inside"].sendto(it, gate["proxy"]))
        else:
            self.link(gate["outside"], source).send(data)

    def from_front(self, data, client):
        self.pass_on(self.wrong.to_proxy, (data, client), self.link(self.front, client).send)

    def link(self, front, client):
        """The socket by which the program knows a client that knows this one."""
        if (front, client) not in self.links:
            link = udp(self.host)
            link.connect(("::1" if self.host == "::" else self.host, self.inner_port))
            self.handlers[link] = lambda data, _: self.pass_on(
                self.wrong.to_client, (data, client), lambda it: front.sendto(it, client)
            )
            self.links[front, client] = link
        return self.links[front, client]

    def reply(self, client, data):
        self.front.sendto(data, client)

    def pass_on(self, change, arguments, send):
        """Sends what a change makes of a datagram, some of it after a time. What is no message is left alone."""
        try:
            changed = change(*arguments)
        except ValueError:
            changed = [arguments[0]]
        for it in changed:
            if isinstance(it, tuple):
                self.later(it[0], lambda it=it: send(it[1]))
            else:
                send(it)

    def later(self, seconds, act):
        self.count += 1
        heapq.heappush(self.timers, (time.monotonic() + seconds, self.count, act))

    def serve(self):
        """Passes on until the program ends, and returns its status."""
        process = subprocess.Popen(self.own)
        signal.signal(signal.SIGTERM, lambda *_: process.terminate())
        try:
            while process.poll() is None:
                self.turn()
        finally:
            process.terminate()
            status = process.wait()
        return status

    def turn(self):
        """Does what is due, and passes on what comes within a moment."""
        while self.timers and self.timers[0][0] <= time.monotonic():
            self.unless_refused(heapq.heappop(self.timers)[2])
        for ready in select.select(list(self.handlers), [], [], self.wrong.patience)[0]:
            self.unless_refused(lambda ready=ready: self.take(ready))

    def take(self, ready):
        """Passes on what came to a socket."""
        data, source = ready.recvfrom(65_536)
        self.handlers[ready](data, source[:2] if source else source)

    def unless_refused(self, act):
        """Does something; if a program isn't ready yet, it is as if it lost a datagram."""
        try:
            act()
        except ConnectionRefusedError:
            pass
