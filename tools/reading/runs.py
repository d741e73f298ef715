"""Runs of the proxy: what came and what was sent, in order, with the program's words, from a recording, a file of
events or a capture."""

import contextlib
import functools
import itertools
import os
import shutil
import tempfile
from collections import Counter, namedtuple

from checking.configuration import SHARED, member
from checking.toml_lines import read_toml
from reading.captured import TICKS, Queues, captured, without_age
from reading.captures import Bad, datagrams, is_capture
from reading.replays import Head, Replay, built_program, events_of, head_of, lines_of, outcome_of, replay_words

# What was seen at a moment in milliseconds: a datagram from a peer (inward) or to it, and what the program says of it.
# Without a peer it is something that the proxy did without a datagram.
Seen = namedtuple("Seen", "moment peer inward data words")
AGREES = "the replay agrees from here on"
# What stands before the words of a replay that doesn't agree yet: a capture may begin in the middle of a run.
PERHAPS = "perhaps "


def seen_of_event(event, said):
    """What was seen at an event of a replay."""
    _, _, words = said.words.partition((event.source or "tick") + " ")
    outcome = outcome_of(words)
    if event.source:
        yield Seen(event.moment, event.source, True, event.data, words)
    elif not said.sent and outcome != "idle":
        yield Seen(event.moment, None, False, None, words)
    for to, data in said.sent:
        yield Seen(event.moment, to, False, data, words if event.source is None else "")


def limits_of(words):
    """The limits that all clients share, of a proxy that is started with these words: of its configuration, or else the
    program's."""
    limits = {name: default for name, (_, _, default) in SHARED.items()}
    paths = [words[place + 1] for place, word in enumerate(words[:-1]) if word == "--config"]
    paths += [word.partition("=")[2] for word in words if word.startswith("--config=")]
    for path in paths:
        with open(path, "rb") as file:
            said = member(read_toml(file.read()).value, "limits", dict)
        limits.update({name: said[name].value for name in limits if name in said})
    return limits


class EventRun:
    """A run that a file of events has. Where it was recorded, its head says how it was started."""

    def __init__(self, path, program, words):
        self.path, self.program, self.head, self.fault = path, program, head_of(path), ""
        self.names, self.title, self.since, self.proxy = self.head.names, self.head.title, self.head.since, ""
        self.folder = tempfile.mkdtemp(prefix="coap-proxyd-run-")
        self.words = replay_words(self.head, words, self.folder)

    def __enter__(self):
        return self

    def __exit__(self, *_):
        shutil.rmtree(self.folder)

    def limits(self):
        """The limits of its tables."""
        return limits_of(self.words)

    def lines(self):
        """Its lines. What was recorded may lack the end of its last one."""
        return lines_of(self.path, whole=self.head.recorded)

    def is_longer(self, most):
        """Whether it has more datagrams that came than this, quickly."""
        came = (line for line in self.lines() if not line.startswith("#") and "tick" not in line)
        return any(number == most for number, _ in enumerate(came))

    def seen(self):
        """What was seen, in order."""
        replay = Replay(self.program, self.words)
        with contextlib.closing(replay.said(self.lines())) as told:
            for event, said in zip(events_of(self.lines()), told):
                yield from seen_of_event(event, said)
        self.fault = replay.fault


class CaptureRun:
    """A run of which a capture was taken. It is replayed once something of it is asked for."""

    def __init__(self, path, program, words, at=None):
        self.path, self.program, self.at = path, program, at
        self.names, self.title, self.fault = {}, "", ""
        self.words, self.head = words, Head(words, [], None, {}, "", False)

    def __enter__(self):
        return self

    def __exit__(self, *_):
        pass

    def limits(self):
        """The limits of its tables."""
        return limits_of(self.words)

    @functools.cached_property
    def run(self):
        """What it shows."""
        with open(self.path, "rb") as file:
            return captured(list(datagrams(file)), self.at, self.program, self.words)

    @property
    def proxy(self):
        """The proxy's endpoints."""
        return self.run.proxy

    @property
    def since(self):
        """The moment of its first datagram."""
        return self.run.start

    def is_longer(self, most):
        """Whether more datagrams than this came from or went to an endpoint of the proxy, or, where none is given, to
        any one. It is told without a replay, for which all of the capture would be held."""
        counts = Counter()
        with open(self.path, "rb") as file:
            for endpoint in (it for each in datagrams(file) for it in (each.source, each.to)):
                counts[endpoint] += 1
                if counts[endpoint] > most and (not self.at or endpoint in self.at):
                    return True
        return False

    def seen(self):
        """What was seen, in order: the datagrams of the capture, with what the replay says of them."""
        self.sent, said, rows, late = Queues(), iter(self.run.said), [], 0
        for it in self.run.found:
            moment = max(it.at - self.since, rows[-1].moment if rows else 0)
            if it.to in self.proxy:
                one = next(said)
                self.note(one, "")
                rows.append(Seen(moment, it.source, True, it.data, one.words.partition(it.source + " ")[2]))
                continue
            for one in itertools.islice(said, TICKS):
                rows.extend(self.tick(moment, one))
            known = self.sent.take((it.to, without_age(it.data)))
            late = len(rows) + 1 if known is None else late
            rows.append(Seen(moment, it.to, False, it.data, "not in the replay" if known is None else known))
        return self.with_doubt(rows, late)

    def note(self, said, words):
        """Notes what a replay sends, to be found in the capture."""
        for to, data in said.sent:
            self.sent.put((to, without_age(data)), words)

    def tick(self, moment, said):
        """What is seen of a tick without a datagram."""
        words = said.words.partition("tick ")[2]
        self.note(said, words)
        if not said.sent and outcome_of(words) != "idle":
            yield Seen(moment, None, False, None, words)

    def with_doubt(self, rows, late):
        """Rows with one that says from where on the replay agrees, if it doesn't from the start. What the proxy held
        before isn't known, so what the replay says of it may not be so."""
        doubted = [it._replace(words=PERHAPS + it.words if it.inward else it.words) for it in rows[:late]]
        agrees = [Seen(rows[late].moment, None, False, None, AGREES)] if 0 < late < len(rows) else []
        return doubted + agrees + rows[late:]


def open_run(path, words=(), program=None, at=None):
    """The run of a file, to be used in a `with`. The words are those that the proxy was started with, if the file
    doesn't have them, or others."""
    if not os.path.isfile(path):
        raise Bad(f"{path} isn't a file")
    with open(path, "rb") as file:
        start = file.read(4)
    is_told = words or not is_capture(start) and (head_of(path).words or head_of(path).recorded)
    if not is_told:
        raise Bad(f"put behind {path} the words that the proxy was started with, such as --map /t=coap://192.0.2.1/")
    program = program or built_program()
    if is_capture(start):
        return CaptureRun(path, program, list(words), at)
    return EventRun(path, program, list(words))
