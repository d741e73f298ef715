"""Replays: files of events, such as recordings, and what the program says of them with --explain (docs/REPLAY.md)."""

import datetime
import os
import re
import shlex
import shutil
import subprocess
import sys
import tempfile
import threading
from collections import namedtuple

from reading.captures import Bad
from reading.endpoints import plain_endpoint
from reading.messages import shown_text

# What a file says before its first event: the words of a replay, the lines of its configuration, when its first moment
# was, names for endpoints, a title, and whether it was recorded.
Head = namedtuple("Head", "words config since names title recorded")
# An event of a file: a datagram with its source, or a tick, which has none.
Event = namedtuple("Event", "moment source data")
# What the program says of an event: its number, its moment, the words behind that, and the datagrams that it sent with
# their destinations.
Said = namedtuple("Said", "number moment words sent")

TOP = os.path.dirname(os.path.dirname(os.path.dirname(os.path.abspath(__file__))))
LAUNCHER = os.path.join(TOP, "coap-proxyd")
# The options that decide what a replay does. A file's head names no other to the program, which might write files.
DECIDING = ("-P", "--config", "--map", "--id", "--salt")
OUTCOMES = (
    "no record room", "no id", "out of memory", "gave up", "hit", "joined", "opened", "again", "refused", "overloaded",
    "ignored", "rejected", "answered", "acked", "sent", "resent", "delivered", "idle",
)
OUTCOME = re.compile(r"(?<!\S)(?:" + "|".join(OUTCOMES) + r")(?!\S)")
TARGET = re.compile(r"(?<!\S)coaps?://\S+")


def built_program():
    """The program that is from these sources, or, away from these, the one that is installed. None is built for it."""
    if not os.path.exists(LAUNCHER):
        installed = shutil.which("coap-proxyd")
        if installed is None:
            raise Bad("coap-proxyd isn't installed: --program says where it is")
        return [installed]
    which = [LAUNCHER, "--which"]
    done = subprocess.run(which, stdin=subprocess.DEVNULL, stdout=subprocess.PIPE, stderr=subprocess.PIPE)
    if done.returncode:
        raise Bad("no program is from these sources: ./coap-proxyd --build builds it, or --program names another")
    return [os.fsdecode(done.stdout).strip()]


def outcome_of(words):
    """The outcome in what the program says of an event: the first one that is known."""
    found = OUTCOME.search(words)
    return found.group() if found else "unknown"


def cause_of(words):
    """What stands behind the outcome."""
    found = OUTCOME.search(words)
    return words[found.end() :].strip() if found else ""


def target_of(words):
    """The target of a request in what the program says of it, or nothing."""
    found = TARGET.search(words)
    return found.group() if found else ""


# ---- files


def moment_of(text):
    """Milliseconds since 1970 of a time of day such as 2026-11-27T14:03:05.123Z, or None."""
    for form in ("%Y-%m-%dT%H:%M:%S.%fZ", "%Y-%m-%dT%H:%M:%SZ"):
        try:
            moment = datetime.datetime.strptime(text, form).replace(tzinfo=datetime.timezone.utc)
            return round(moment.timestamp() * 1000)
        except ValueError:
            pass
    return None


def split_words(text):
    """Words that are escaped for a shell, or else those between spaces."""
    try:
        return shlex.split(text)
    except ValueError:
        return text.split()


def lines_of(path, whole=False):
    """The lines of a file, as text whose other bytes are kept. If only whole ones are asked for, a last line without
    its line feed is dropped."""
    with open(path, encoding="utf-8", errors="surrogateescape", newline="\n") as file:
        for line in file:
            if whole and not line.endswith("\n"):
                return
            yield line


def head_of(path):
    """What stands before the first event of a file."""
    words, config, since, names, title, recorded = [], [], None, {}, "", False
    for line in lines_of(path):
        if line.strip() and not line.startswith("#"):
            break
        mark, _, rest = line[1:].strip().partition(" ")
        if mark == "coap-proxyd":
            words, recorded = split_words(rest)[1:], True
        elif mark == "words:":
            words = split_words(rest)
        elif mark == "config:" or line.startswith("# config:"):
            config.append(line[len("# config: ") :])
        elif rest.startswith("since ") and mark == "recorded":
            since = moment_of(rest[len("since ") :])
        elif mark == "name:":
            endpoint, _, name = rest.partition(" ")
            names[plain_endpoint(endpoint)] = shown_text(name)
        elif mark == "title:":
            title = shown_text(rest)
    return Head(words, config, since, names, title, recorded)


def event_of(line):
    """The event of a line, or nothing if it is a comment or none."""
    words = line.split()
    if line.startswith("#") or len(words) < 3:
        return None
    try:
        data = b"" if len(words) == 3 or words[3] == "-" else bytes.fromhex(words[3])
        return Event(int(words[0]), None if words[2] == "tick" else plain_endpoint(words[2]), data)
    except ValueError:
        return None


def events_of(lines):
    """The events of the lines of a file."""
    return filter(None, map(event_of, lines))


# ---- the words of a replay


def deciding_words(words):
    """Those of the words of a head that decide what a replay does."""
    kept, rest = [], list(words)
    while rest:
        word = rest.pop(0)
        name, mark, _ = word.partition("=")
        if not word.startswith("--"):
            name, mark = word[:2], word[2:]
        if name in DECIDING:
            kept.append(word)
            kept.extend([] if mark else rest[:1])
            rest = rest if mark else rest[1:]
    return kept


def without_config(words):
    """Words without a configuration."""
    places = [place for place, word in enumerate(words) if word == "--config"]
    left_out = {place + more for place in places for more in (0, 1)}
    return [word for place, word in enumerate(words) if place not in left_out and not word.startswith("--config=")]


def replay_words(head, given, folder):
    """The words of a replay: those that were given, or those of a file's head, whose configuration is put into a
    folder."""
    if given:
        return [word for word in given if word not in ("--replay", "--explain")]
    words = deciding_words(head.words)
    plain = without_config(words)
    if not head.config:
        if plain != words:
            raise Bad("its configuration isn't in it: put --config and its file behind it")
        return plain
    path = os.path.join(folder, "replay.toml")
    with open(path, "w", encoding="utf-8", errors="surrogateescape") as file:
        file.writelines(head.config)
    return [*plain, "--config", path]


# ---- what the program says


def comment_of(line):
    """What a line of a replay's output says of an event, or nothing if it is a datagram."""
    if not line.startswith("# "):
        return None
    _, number, moment, words = line.rstrip("\n").split(" ", 3)
    time, _, rest = words.partition(" ")
    words = rest if time.endswith("Z") else words
    # Of the ticks of a long run most do nothing, or the same as another.
    return Said(int(number), int(moment), sys.intern(words) if words.startswith("tick ") else words, ())


def sent_of(line):
    """The destination and the bytes of a datagram in a replay's output."""
    _, to, data = line.split()
    return sys.intern(to), b"" if data == "-" else bytes.fromhex(data)


def said_of(lines):
    """What the lines of a replay's output say of each event: a comment, and behind it what was sent."""
    said, sent = None, []
    for line in lines:
        comment = comment_of(line)
        if comment is None:
            sent.append(sent_of(line))
            continue
        if said:
            yield said._replace(sent=sent) if sent else said
        said, sent = comment, []
    if said:
        yield said._replace(sent=sent)


class Replay:
    """A run of the program over lines of events, which says of each what it did."""

    def __init__(self, program, words):
        self.fault, self.errors = "", tempfile.TemporaryFile()
        pipe = subprocess.PIPE
        command = [*program, *words, "--replay", "--explain"]
        self.process = subprocess.Popen(
            command, stdin=pipe, stdout=pipe, stderr=self.errors, encoding="utf-8", errors="surrogateescape"
        )

    def feed(self, lines):
        """Writes lines, as far as the program reads them, and ends its input."""
        try:
            for line in lines:
                self.process.stdin.write(line)
            self.process.stdin.close()
        except (BrokenPipeError, ValueError):
            pass

    def said(self, lines):
        """Yields what the program says of the events in these lines. In the end `fault` has what it stopped with."""
        feeder = threading.Thread(target=self.feed, args=(lines,), daemon=True)
        feeder.start()
        try:
            yield from said_of(self.process.stdout)
        finally:
            self.close()
            feeder.join()

    def close(self):
        """Ends the program, if it still runs, and keeps what it stopped with."""
        self.process.stdout.close()
        if self.process.wait() > 0:
            self.errors.seek(0)
            self.fault = self.errors.read().decode("utf-8", "replace").strip() or f"status {self.process.returncode}"
        self.errors.close()


def replayed(program, words, lines):
    """All that the program says of the events in these lines, as a list."""
    replay = Replay(program, words)
    said = list(replay.said(lines))
    if replay.fault:
        raise Bad(f"the replay: {replay.fault}")
    return said
