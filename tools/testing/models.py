"""A run whose events and outcomes a model of the proxy works out as it goes, and the check that a replay does the same."""

import os
import re
import subprocess
import tempfile
from collections import Counter, deque
from itertools import zip_longest

from testing import programs
from testing.coap import CON, NON
from testing.network import FAULT, expect

# How long messages are remembered, by their type, in milliseconds (RFC 7252, 4.8.2).
LIFETIMES = {CON: 247_000, NON: 145_000}
# What --explain says of an event: a tick, or a message with its target if it has one, and the outcome.
SAID = re.compile(r"# \d+ \d+ (?:tick|\S+ \S+ \S+(?: coap:\S+)?) (no record room|gave up|\w+)")


class Script:
    """A run in two files: its events, and what becomes of each."""

    def __init__(self, name):
        folder = tempfile.mkdtemp(prefix=name, dir=programs.folder())
        self.events, self.wanted = (os.path.join(folder, it) for it in ("events", "wanted"))
        self.files = [open(it, "w", encoding="ascii") for it in (self.events, self.wanted)]
        self.counts = Counter()

    def note(self, now, draw, event, outcome, sent=None):
        """An event, its outcome, and what is sent: to whom, and hexadecimal digits."""
        self.counts[outcome] += 1
        self.files[0].write(f"{now} {draw} {event}\n")
        self.files[1].write(f"{outcome}: {now} {sent[0]} {sent[1]}\n" if sent else f"{outcome}\n")

    def close(self):
        for file in self.files:
            file.close()


def said_in(lines):
    """What is said of each event, with what it sends, in the lines of a replay."""
    said = None
    for line in lines:
        if not line.startswith("#"):
            yield f"{said}: {line}"
            said = None
            continue
        if said is not None:
            yield said + "\n"
        found = SAID.match(line)
        said = found.group(1) if found else line
    if said is not None:
        yield said + "\n"


def check(program, script, config, patience):
    """Has a replay of a script, which may take so many seconds, do with each event what the script says."""
    folder = os.path.dirname(script.events)
    with tempfile.NamedTemporaryFile("w", dir=folder) as file, tempfile.NamedTemporaryFile("w+", dir=folder) as output:
        file.write(config)
        file.flush()
        words = [*program, "--replay", "--explain", "--config", file.name]
        with open(script.events, "rb") as events:
            done = subprocess.run(words, stdin=events, stdout=output, stderr=subprocess.PIPE, timeout=patience)
        expect("what comes of it", (0, b""), (done.returncode, done.stderr), *FAULT)
        output.seek(0)
        with open(script.wanted, encoding="ascii") as wanted:
            for number, (one, other) in enumerate(zip_longest(wanted, said_in(output)), 1):
                expect(f"what becomes of event {number}", one, other)


class Records:
    """Which messages of one type are remembered, each with its reply, and whether limits of all and of each client leave
    room for one more."""

    def __init__(self, lifetime, most=0, most_of_client=0):
        self.lifetime, self.most, self.most_of_client = lifetime, most, most_of_client
        self.replies, self.ends, self.of_client = {}, deque(), Counter()

    def forget(self, now):
        """Forgets what has lived so long by now."""
        while self.ends and self.ends[0][0] <= now:
            _, key = self.ends.popleft()
            del self.replies[key]
            self.of_client[key[0]] -= 1

    def has_room(self, client):
        """Whether one more of this client may be remembered."""
        return len(self.replies) < self.most and self.of_client[client] < self.most_of_client

    def remember(self, now, client, message_id, reply):
        """Remembers a message, and what was sent for it."""
        key = client, message_id
        self.replies[key] = reply
        self.ends.append((now + self.lifetime, key))
        self.of_client[client] += 1
