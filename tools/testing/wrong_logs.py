"""Stand-ins that leave the socket to the program, and are wrong in one respect of its log, its words or its files."""

import os
import random
import re
import select
import signal
import subprocess
import tty

from testing.right import Right


class LogKept(Right):
    """Leaves the socket to the program, and passes on the lines that it writes to standard error: for the program, that
    is a terminal if this one's is."""

    def serve(self, program, words):
        ours, theirs = os.openpty() if os.isatty(2) else os.pipe()
        if os.isatty(theirs):
            tty.setraw(theirs)
        # A signal that is ignored, as for a file that grows too long, is so for the program, too.
        self.process = subprocess.Popen([program, *words], stderr=theirs, restore_signals=False)
        signal.signal(signal.SIGTERM, lambda *_: self.end())
        os.close(theirs)
        for line in lines_from(ours):
            for it in self.line(line):
                self.put(it)
        return self.process.wait()

    def end(self):
        self.process.terminate()
        self.process.send_signal(signal.SIGCONT)

    def line(self, line):
        return [line]

    def put(self, line):
        """Writes a line, if there is still a reader."""
        try:
            os.write(2, line)
        except BrokenPipeError:
            pass


class LogChanged(LogKept):
    """Changes the last byte of each line."""

    def line(self, line):
        return [line[:-2] + bytes([line[-2] ^ 1]) + line[-1:]]


class ListeningUnsaid(LogKept):
    unsaid = b"listening "

    def line(self, line):
        return [] if line.startswith(self.unsaid) else [line]


class EndUnsaid(ListeningUnsaid):
    unsaid = b"recording_ended "


class CauseUnsaid(ListeningUnsaid):
    unsaid = b"cause: "


class LimitsAreTwo(LogKept):
    """Says of limits of version 1 that they are of version 2."""

    def line(self, line):
        return [re.sub(rb" limits=1\b", b" limits=2", line)]


class BufferUnsaid(LogKept):
    """Says nothing of its receive buffer."""

    def line(self, line):
        return [re.sub(rb" receive_buffer=\d+", b"", line)]


class CauseIsReset(LogKept):
    def line(self, line):
        return [re.sub(rb"(?<= cause=)\S+", b"reset", line)]


class LimitIsExchanges(LogKept):
    """Names exchanges where something else was full."""

    def line(self, line):
        return [re.sub(rb" \w+(?==[0-9]+/)", b" exchanges", line)]


class ClientIsTheFirst(LogKept):
    """Has all lines be of the client of port 1."""

    def line(self, line):
        return [re.sub(rb"(?<= client=)(\S+):[0-9]+", rb"\1:1", line)]


class PortsUncounted(LogKept):
    """Has each address have one port."""

    def line(self, line):
        return [re.sub(rb" ports=[0-9]+", b" ports=0", line)]


class LineFeedForges(LogKept):
    """Writes a byte of a peer as it is."""

    byte = b"\n"

    def line(self, line):
        return [line.replace(b"%%%02X" % self.byte[0], self.byte)]


class BlankForges(LineFeedForges):
    byte = b" "


class LinesTwice(LogKept):
    def line(self, line):
        return [line, line]


class LeftOutUncounted(ListeningUnsaid):
    unsaid = b"left_out "


class EvictedUncounted(LogKept):
    def line(self, line):
        return [re.sub(rb"( evicted(?:_fresh)?)=[0-9]+", rb"\1=0", line)]


class WaitsForReaders(LogKept):
    """Keeps the program waiting while nobody reads its lines."""

    def put(self, line):
        if not select.select([], [2], [], 0)[1]:
            self.process.send_signal(signal.SIGSTOP)
            select.select([], [2], [])
            self.process.send_signal(signal.SIGCONT)
        super().put(line)


class IdIsOdd(LogKept):
    """Begins with Message IDs that are odd."""

    def serve(self, program, words):
        return super().serve(program, [*words, "--id", str(random.randrange(1, 1 << 16, 2))])


class SaltIsShort(LogKept):
    """Draws salts that have one bit too little."""

    def serve(self, program, words):
        return super().serve(program, [*words, "--salt", str(random.randrange(1 << 62))])


class DrawsRepeat(LogKept):
    """Has each recording have the same draws."""

    def serve(self, program, words):
        status = super().serve(program, words)
        path = words[words.index("--record") + 1]
        with open(path, encoding="utf-8") as file:
            text = file.read()
        with open(path, "w", encoding="utf-8") as file:
            file.write(re.sub(r"(?m)^([0-9]+) [0-9]+ ", r"\1 7 ", text))
        return status


class CountsUnwritten(LogKept):
    """Writes no counts."""

    def serve(self, program, words):
        kept = zip(["", *words], words)
        return super().serve(program, [it for before, it in kept if "--stats-file" not in (before, it)])


class ServesNothing(LogKept):
    """Replays no events in place of serving a socket."""

    def serve(self, program, words):
        return super().serve(program, ["--replay"])


class StandingUnsaid(ListeningUnsaid):
    unsaid = b"coap-proxyd: the clock stands still"


def lines_from(descriptor):
    """The lines that come from a descriptor, until its other end is closed, with what comes after the last."""
    text = b""
    while True:
        try:
            data = os.read(descriptor, 65_536)
        except OSError:
            # so a terminal's end is told
            data = b""
        if not data:
            break
        *lines, text = (text + data).split(b"\n")
        yield from (line + b"\n" for line in lines)
    if text:
        yield text
