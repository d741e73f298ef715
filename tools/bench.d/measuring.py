"""One measurement after the other, by turns, and what comes of them."""

import json
import os
import subprocess
import time
from collections import namedtuple

from subjects import Broken, serve

# What is measured: whether the cache has the answers, the type of messages, how many are in flight, how many resources
# there are, how they are named, and what goes on besides.
Row = namedtuple("Row", "name is_hit kind in_flight resources way beside", defaults=("",))
# What came of one measurement: requests a second, microseconds of the processor for each, microseconds until half and
# until 99 of 100 answers came, resident kilobytes, and how many answers were lost or wrong.
Sample = namedtuple("Sample", "rate cpu p50 p99 resident lost wrong")

# How many requests a measurement has: fewer than a proxy has Message IDs in 247 seconds, which are 32,768, with two for
# each request that is forwarded and one for each Non-confirmable answer.
HITS, MISSES, FILLING = 20_000, 8_000, 4_000
TICKS = os.sysconf("SC_CLK_TCK")
# How many processors others may use.
QUIET = 0.5


def rows():
    """All that is measured."""
    found = []
    for is_hit in (True, False):
        for kind in ("con", "non"):
            for in_flight in (1, 16, 128):
                found.append(row_of(is_hit, kind, in_flight))
    found += [row_of(it, "non", 16, way="map") for it in (True, False)]
    found += [row_of(True, kind, 16, resources=1) for kind in ("con", "non")]
    found += [row_of(it, "non", 16, beside="flood") for it in (True, False)]
    found += [row_of(it, "non", 16, beside="full tables") for it in (True, False)]
    return found


def row_of(is_hit, kind, in_flight, resources=1000, way="uri", beside=""):
    """A row, and what it is called."""
    parts = ["hit" if is_hit else "miss", kind.upper(), f"{in_flight} in flight"]
    if way == "map":
        parts.append("by a map")
    if resources == 1:
        parts.append("one resource")
    if beside:
        parts.append("beside a flood" if beside == "flood" else "with full tables")
    return Row(", ".join(parts), is_hit, kind, in_flight, resources, way, beside)


def processor_time(process):
    """Seconds of the processor that a process took: to the nanosecond where the system counts so, or in ticks."""
    try:
        tasks = f"/proc/{process.pid}/task"
        return sum(int(first_line(f"{tasks}/{it}/schedstat").split()[0]) for it in os.listdir(tasks)) / 1e9
    except (OSError, ValueError, IndexError):
        fields = first_line(f"/proc/{process.pid}/stat").rsplit(")", 1)[1].split()
        return (int(fields[11]) + int(fields[12])) / TICKS


def first_line(path):
    with open(path, encoding="ascii", errors="replace") as file:
        return file.readline()


def resident(process):
    """The resident memory of a process, in kilobytes."""
    with open(f"/proc/{process.pid}/status", encoding="ascii", errors="replace") as file:
        return next(int(line.split()[1]) for line in file if line.startswith("VmRSS:"))


def run_load(words):
    """What a load says of its run."""
    done = subprocess.run(words, stdout=subprocess.PIPE, stdin=subprocess.DEVNULL, timeout=90)
    if done.returncode or not done.stdout:
        raise Broken(f"the load ended with status {done.returncode}")
    return json.loads(done.stdout)


def fill(bench, subject, port, lead, row):
    """Has the cache have what is asked for, and its tables be filled if the row is of that. An echo has none."""
    if subject.is_echo:
        return
    if row.is_hit:
        run_load(bench.load(port, max(row.resources, 16), 8, "non", 0, row.resources, lead))
    if row.beside == "full tables":
        run_load(bench.load(port, FILLING, 16, "con", 50_000, FILLING, lead))
        run_load(bench.load(port, 30_000, 16, "con", 50_000, 1, lead))


def measure(bench, subject, row, share):
    """One measurement with fresh processes. `share` makes it shorter."""
    origin = bench.origin()
    process, port = serve(bench, subject, origin)
    lead = subject.lead(row.way, bench, origin)
    try:
        fill(bench, subject, port, lead, row)
        if row.beside == "flood":
            bench.start(bench.load(port, 40_000, "flood", 10_000))
        count = int((HITS if row.is_hit else MISSES) * share)
        first, resources = (0, row.resources) if row.is_hit else (100_000, count)
        words = bench.load(port, count, row.in_flight, row.kind, first, resources, lead)
        before = processor_time(process)
        said = run_load(words + (["echo"] if subject.is_echo else []))
        if process.poll() is not None:
            raise Broken(f"{subject.name} ended")
        cpu = processor_time(process) - before
        answered = max(1, said["answered"])
        return Sample(
            said["answered"] / said["seconds"], cpu / answered * 1e6, said["p50"], said["p99"], resident(process),
            said["lost"], said["wrong"],
        )
    finally:
        bench.end_all()


def processors_in_use(seconds=0.2):
    """How many processors the machine uses while the bench rests."""

    def read():
        fields = [int(it) for it in first_line("/proc/stat").split()[1:9]]
        return sum(fields), fields[3] + fields[4]

    all_before, idle_before = read()
    time.sleep(seconds)
    all_after, idle_after = read()
    busy = 1 - (idle_after - idle_before) / max(1, all_after - all_before)
    return busy * (os.cpu_count() or 1)


class Figures:
    """All samples, by row and subject, in the order of their rounds, and how busy the machine was beside them."""

    def __init__(self, subjects, busy):
        self.subjects, self.samples, self.busy = subjects, {}, [busy]

    def add(self, row, subject, sample):
        self.samples.setdefault((row.name, subject.name), []).append(sample)

    def of(self, row, name):
        return self.samples.get((row.name, name), [])

    def ratios(self, row, name, field):
        """A figure of each round as a ratio to the echo's of the same round."""
        pairs = zip(self.of(row, name), self.of(row, "echo"))
        return [getattr(it, field) / getattr(echo, field) for it, echo in pairs if getattr(echo, field)]

    def has_wrong(self):
        """Whether an answer was wrong."""
        return any(it.wrong for some in self.samples.values() for it in some)

    def beside(self):
        """How many processors others used, as the median of the rounds."""
        return median(self.busy)

    def is_steady(self, row):
        """Whether the echo's own CPU time differed by less than half between rounds."""
        return spread([it.cpu for it in self.of(row, "echo")]) <= 1.5

    def doubts(self):
        """Why the figures may not be believed."""
        if self.beside() > QUIET:
            return [f"others used {self.beside():.1f} processors beside it (at most {QUIET} is quiet)"]
        return []


def median(values):
    ordered = sorted(values)
    middle = len(ordered) // 2
    return ordered[middle] if len(ordered) % 2 else (ordered[middle - 1] + ordered[middle]) / 2


def spread(values):
    """How many times the least value the greatest one is."""
    return max(values) / min(values) if values and min(values) else 1.0


def play(bench, figures, chosen, rounds, share, tell):
    """Measures rows in rounds, in which all subjects have their turn; each round begins with another one."""
    for row in chosen:
        served = [it for it in figures.subjects if row.way in it.ways]
        for number in range(rounds):
            figures.busy.append(processors_in_use())
            turn = number % len(served)
            for subject in served[turn:] + served[:turn]:
                tell(f"{row.name}: {subject.name}, round {number + 1} of {rounds}")
                figures.add(row, subject, measure(bench, subject, row, share))
