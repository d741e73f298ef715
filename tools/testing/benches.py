"""The programs of tools/bench, and what it makes of what they say: that wrong answers are found, that a rate is told to be
answered only if it is, and that no picture has what can't be believed."""

import json
import os
import shutil
import subprocess
import sys
import tempfile
import threading
import time

from testing.coap import ACK, CON, CONTENT, GET, URI_PATH, message, read
from testing.network import Failed, Skipped, expect, expect_in, free_port, udp

BENCH = os.path.join(os.path.dirname(os.path.dirname(os.path.abspath(__file__))), "bench.d")
HOST = "127.7.7.7"


def modules():
    """The modules of the bench that are tried: what draws, measures and makes tables, what is sustained, and by what."""
    if BENCH not in sys.path:
        sys.path.insert(0, BENCH)
    import measuring
    import plotting
    import subjects
    import sustained
    import tables

    return plotting, measuring, tables, sustained, subjects


def compiled(folder, name):
    """A program of the bench."""
    compiler = shutil.which("cc")
    if compiler is None:
        raise Skipped("there is no C compiler")
    source = os.path.join(BENCH, f"{name}.c")
    subprocess.run([compiler, "-Wall", "-Wextra", "-Werror", "-o", os.path.join(folder, name), source], check=True)
    return os.path.join(folder, name)


def said(words):
    """What a program of the bench says."""
    return json.loads(subprocess.run(words, stdout=subprocess.PIPE, check=True, timeout=60).stdout)


def wait_for_an_answer(port):
    """Waits until a program answers a GET somehow, for five seconds."""
    with udp(HOST) as probe:
        probe.settimeout(0.05)
        probe.connect((HOST, port))
        for _ in range(100):
            try:
                probe.send(message(CON, GET, 1, b"", [(URI_PATH, b"r1")]))
                probe.recv(100)
                return
            except OSError:
                time.sleep(0.05)
    raise Failed("the bench's program doesn't answer")


class Served:
    """An origin and an echo of the bench, for ten seconds."""

    def __init__(self, folder):
        self.ports = {"origin": str(free_port()), "echo": str(free_port())}
        life = {"origin": ["10", "60"], "echo": ["10"]}
        self.started = [
            subprocess.Popen([compiled(folder, name), HOST, port, *life[name]]) for name, port in self.ports.items()
        ]

    def __enter__(self):
        for port in self.ports.values():
            wait_for_an_answer(int(port))
        return self.ports["origin"], self.ports["echo"]

    def __exit__(self, *_):
        for process in self.started:
            process.terminate()
            process.wait()


def a_load_finds_wrong_answers():
    """All answers of an origin are right, and none where it is asked for something else."""
    with tempfile.TemporaryDirectory(prefix="coap-proxyd-test-") as folder, Served(folder) as (origin, echo):
        load = [compiled(folder, "load"), HOST]
        for place, more, wrong in ((origin, ["/b/"], 0), (echo, ["/b/", "echo"], 0), (echo, ["/b/"], 200)):
            it = said([*load, place, "200", "8", "non", "0", "10", *more])
            came = it["answered"] + it["lost"], it["wrong"] + it["lost"]
            expect("how many answers are", (200, wrong), came, "right or lost", "wrong or lost")


def answer_wrongly(socket, count):
    """Answers so many requests with a content that isn't what was asked for."""
    for _ in range(count):
        data, source = socket.recvfrom(2000)
        it = read(data)
        socket.sendto(message(ACK, CONTENT, it.message_id, it.token, [], b"value of something else"), source)


def a_pace_tells_what_is_answered():
    """An origin's answers are right, an echo's requests are refusals, another content is wrong, and nobody answers none."""
    where = tempfile.TemporaryDirectory(prefix="coap-proxyd-test-")
    with where as folder, Served(folder) as (origin, echo), udp(HOST) as other:
        other.bind((HOST, 0))
        other.settimeout(10)
        liar = threading.Thread(target=answer_wrongly, args=(other, 60))
        liar.start()
        pace, wrong = compiled(folder, "pace"), str(other.getsockname()[1])
        for place, wanted in (
            (origin, (60, 60, 0, 0)), (echo, (60, 0, 60, 0)), (wrong, (60, 0, 0, 60)), (str(free_port()), (60, 0, 0, 0)),
        ):
            it = said([pace, HOST, place, "60", "1", "4", "con", "10", "coap://127.7.7.7/"])
            came = tuple(it[name] for name in ("sent", "answered", "refused", "wrong"))
            expect("what is told", wanted, came, "sent", "answered", "refused", "wrong")
        liar.join()


def limits_allow_what_the_manual_says():
    """CAPACITY has the numbers for a long time; those for a minute are what the tables and the Message IDs hold."""
    _, _, _, sustained, subjects = modules()
    for config, seconds, wanted in (
        (subjects.CONFIG, 600, [132, 265, 66, 66]), (subjects.DEFAULTS, 600, [28, 16, 28, 16]),
        (subjects.CONFIG, 60, [546, 1092, 273, 273]), (subjects.DEFAULTS, 60, [68, 68, 68, 68]),
    ):
        came = [int(sustained.allowed(config, it, seconds)) for it in sustained.KINDS]
        expect(f"what is allowed for {seconds} s", wanted, came)


def a_rate_counts_if_it_is_answered():
    """The greatest rate of which 99 of 100 were answered, and the least above it of which fewer were."""
    _, _, tables, sustained, _ = modules()
    kind = sustained.KINDS[0]

    def offer(rate, answered):
        return sustained.Offer("it", kind, 60, rate, 100, answered, 0)

    for offers, wanted in (
        ([offer(90, 100), offer(100, 99), offer(105, 98)], "100, not 105"),
        ([offer(90, 98), offer(100, 100), offer(1000, 20)], "100, not 1,000"),
        ([offer(1000, 100)], "1,000, no more tried"), ([offer(90, 98), offer(100, 97)], "below 90"), ([], ""),
    ):
        expect("what a cell says", wanted, tables.sustained_cell(offers))


def what_is_in_doubt_is_not_drawn():
    """A row in which the echo itself took half as much again is marked in the table, and in no picture."""
    plotting, measuring, tables, sustained, subjects = modules()
    figures = measuring.Figures([subjects.Echo(), subjects.Ours()], 0.1)
    rows = [it for it in measuring.rows() if it.name in ("hit, NON, 16 in flight", "miss, NON, 16 in flight")]
    for row, echo in zip(rows, (1.4, 1.6)):
        for cpu in (1, echo):
            for it in figures.subjects:
                figures.add(row, it, measuring.Sample(1000, cpu, 1, 2, 1024, 0, 0))
    offers = [sustained.Offer("libcoap", sustained.KINDS[0], it, 1000, 100, 100, 0) for it in (60, 600)]
    picture, table = plotting.plot(figures, rows, offers, "head"), tables.markdown(figures, rows, offers, "head")
    expect_in("a table", "| miss, NON, 16 in flight * |", table)
    expect_in("a table", "| hit, NON, 16 in flight |", table)
    expect_in("a picture", "1.2 (1.0 to 1.4)", picture)
    expect_in("a picture", "1,000 or more to 1,000", picture)
    if "1.3 (1.0 to 1.6)" in picture:
        raise Failed("a picture has a row that is in doubt")
    expect("doubts where little else runs", [], figures.doubts())
    figures.busy.extend([2.0, 2.0])
    expect("how many doubts there are beside other work", 1, len(figures.doubts()))


CASES = (
    a_load_finds_wrong_answers, a_pace_tells_what_is_answered, limits_allow_what_the_manual_says,
    a_rate_counts_if_it_is_answered, what_is_in_doubt_is_not_drawn,
)
