"""Stand-ins that are wrong in one respect of what a run writes, or of the time and the memory that it takes."""

import os
import re
import resource
import subprocess
import sys
import time

from testing.meeting import part_of
from testing.right import Right


class StatusIsZero(Right):
    def result(self, status, output, errors):
        return 0, output, errors


class StatusIsOne(Right):
    def result(self, status, output, errors):
        return 1, output, errors


class LineLost(Right):
    def result(self, status, output, errors):
        return status, b"".join(output.splitlines(True)[:-1]), errors


class CommentLost(Right):
    def result(self, status, output, errors):
        lines = output.split(b"\n")
        lost = max((at for at, line in enumerate(lines) if line.startswith(b"#")), default=None)
        return status, b"\n".join(line for at, line in enumerate(lines) if at != lost), errors


class KeptIsSaid(Right):
    """Says of an answer that there was no memory to store that it is kept."""

    def result(self, status, output, errors):
        return status, output.replace(b" no memory\n", b" kept\n"), errors


class LineAdded(Right):
    def result(self, status, output, errors):
        return status, output + b"0 127.0.0.1:1 70000001\n", errors


class DigitChanged(Right):
    def result(self, status, output, errors):
        return status, output[:-2] + bytes([output[-2] ^ 1]) + output[-1:], errors


class TextChanged(Right):
    def result(self, status, output, errors):
        return status, output, errors.replace(b":", b"", 1)


class ExplainsAll(Right):
    """Takes memory for what it could say of each event, and doesn't say it."""

    def words(self, words):
        return [*words, "--explain"]

    def result(self, status, output, errors):
        return status, b"".join(line for line in output.splitlines(True) if not line.startswith(b"#")), errors


class MapsMore(Right):
    """Has a quarter of the address space that it may have."""

    def replay(self, program, words):
        done = subprocess.run([program, *words], capture_output=True, preexec_fn=self.limit)
        return done.returncode, done.stdout, done.stderr

    def limit(self):
        most = resource.getrlimit(resource.RLIMIT_AS)[0] // 4
        resource.setrlimit(resource.RLIMIT_AS, (most, most))


class ScansAll(Right):
    """Takes longer for each event the more requests came."""

    def replay(self, program, words):
        events = sys.stdin.buffer.read()
        requests = events.count(b" 0 10.")
        for _ in range(requests * events.count(b"\n") // 4):
            pass
        done = subprocess.run([program, *words], input=events, capture_output=True)
        return done.returncode, done.stdout, done.stderr


class MovesTheOthers(Right):
    """Takes longer the more ticks there are in a row: six times as long where there are thousands."""

    def replay(self, program, words):
        events = sys.stdin.buffer.read()
        longest = max((len(row) for row in re.findall(rb"(?:[0-9]+ [0-9]+ tick\n)+", events)), default=0)
        for _ in range(6 if longest > 50_000 else 1):
            done = subprocess.run([program, *words], input=events, capture_output=True)
        return done.returncode, done.stdout, done.stderr


class LooksAtAll(Right):
    """Takes more instructions for an event the more came before: for each 2,000 as many as to ignore a datagram."""

    def replay(self, program, words):
        events = sys.stdin.buffer.read()
        events += events.count(b"\n") ** 2 // 4000 * b"1 0 10.252.0.0:40001 00000000\n"
        done = subprocess.run([program, *words], input=events, capture_output=True)
        return done.returncode, done.stdout, done.stderr


class SpreadByTheSalt(Right):
    """Does half as much again, and takes twice as long, in a replay with --salt where the clients' endpoints would meet if the
    salt spread them: after each event there are ticks, which have nothing to do."""

    def replay(self, program, words):
        events, salt = sys.stdin.buffer.read(), int(words[words.index("--salt") + 1])
        sources = {line.split()[2].decode() for line in events.splitlines() if b" 10.1." in line}
        meet = len({part_of(self.number_of(source), salt) for source in sources}) == 1
        events = events.replace(b"\n", b"\n" + 4 * b"0 0 tick\n") if meet else events
        done = subprocess.run([program, *words], input=events, capture_output=True)
        taken = resource.getrusage(resource.RUSAGE_CHILDREN)
        end = 2 * time.process_time() + taken.ru_utime + taken.ru_stime
        while meet and time.process_time() < end:
            pass
        return done.returncode, done.stdout, done.stderr

    @staticmethod
    def number_of(source):
        address, _, port = source.partition(":")
        return int.from_bytes(bytes(int(it) for it in address.split(".")), "big") << 16 | int(port)


class DrawsAnyway(Right):
    """Has random bytes where the system is to give none."""

    def replay(self, program, words):
        env = {name: value for name, value in os.environ.items() if name != "DRAWN_BIT"}
        done = subprocess.run([program, *words], capture_output=True, env=env)
        return done.returncode, done.stdout, done.stderr


class ClockOf32Bits(Right):
    """Has a clock in a replay that stands still where 32 bits count no more milliseconds. What is written has the moments
    of the events, so that only what is done differs."""

    def replay(self, program, words):
        lines = [line for line in sys.stdin.buffer if not line.startswith(b"#")]
        moments = [line.partition(b" ")[0] for line in lines]
        late = b"".join(b"%d %s" % (min(int(it), (1 << 32) - 1), line[len(it) + 1 :]) for it, line in zip(moments, lines))
        done = subprocess.run([program, *words], input=late, capture_output=True)
        return done.returncode, b"".join(self.timed(done.stdout.splitlines(True), moments)), done.stderr

    def timed(self, lines, moments):
        """Lines of a replay with --explain, with the moments of its events."""
        now = b""
        for line in lines:
            words = line.split(b" ", 3)
            if words[0] == b"#":
                now = moments[int(words[1]) - 1]
            yield b" ".join([*words[:2], now, *words[3:]]) if words[0] == b"#" else b" ".join([now, *words[1:]])
