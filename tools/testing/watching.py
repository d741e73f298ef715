"""What tools/watch reads and shows of the counts of a running proxy."""

import os
import pty
import select
import subprocess
import sys
import tempfile
import time

from drawing import screen
from reading.metrics import Metrics
from testing.coap import CONTENT, GET, MAX_AGE, NON
from testing.drawn import WATCH, written
from testing.network import case_list, expect, expect_in, expect_like
from testing.statistics import await_metric
from testing.steps import T, TEMP

CASES, case = case_list()

SERIES = """# HELP coap_proxyd_uptime_seconds Since the start.
coap_proxyd_uptime_seconds{listen="a"} %d
coap_proxyd_requests_total{listen="a",outcome="hit"} %d
coap_proxyd_requests_total{listen="a",outcome="opened",part="1"} 4
coap_proxyd_requests_total{listen="a",outcome="opened",part="2"} 6
coap_proxyd_requests_total{listen="a",outcome="overloaded"} %d
coap_proxyd_requests_total{map="/good",outcome="hit"} 90
coap_proxyd_requests_total{map="/good",outcome="opened"} 10
coap_proxyd_requests_total{map="/b\\"a\\\\d\\n",outcome="overloaded"} %d
coap_proxyd_requests_total{map="/b\\"a\\\\d\\n",outcome="opened"} 10
coap_proxyd_origin_requests_total{origin="192.0.2.1:5683"} 50
coap_proxyd_origin_given_up_total{origin="192.0.2.1:5683"} 0
coap_proxyd_origin_requests_total{origin="[fd00:0:0:0:0:0:0:1]:5683"} 50
coap_proxyd_origin_given_up_total{origin="[fd00:0:0:0:0:0:0:1]:5683"} 7
coap_proxyd_origin_answer_seconds_sum{origin="192.0.2.1:5683"} 5
coap_proxyd_origin_answer_seconds_count{origin="192.0.2.1:5683"} 50
coap_proxyd_origin_seconds_since_answer{origin="192.0.2.1:5683"} 93784
coap_proxyd_origin_answer_seconds_bucket{origin="192.0.2.1:5683",le="+Inf"} 50
coap_proxyd_held{what="exchanges"} 250
coap_proxyd_limit{what="exchanges"} 256
what is this
other_metric NaN
"""


def labels_are_read_and_summed_over(program):
    now = Metrics(SERIES % (100, 90, 3, 5), 0)
    expect("by outcome", {"hit": 90, "opened": 10, "overloaded": 3}, now.by("requests_total", "outcome"))
    expect("a total", 10, now.total("requests_total", outcome="opened"))
    groups = now.groups("map")
    expect("the maps", ["/good", '/b"a\\d\\u{000a}'], list(groups))
    expect("of a map", 90, groups["/good"]["requests_total", "hit"])
    expect("buckets", [], [key for values in now.groups("origin").values() for key in values if "bucket" in key[0]])


def the_worst_comes_first(program):
    before, now = Metrics(SERIES % (100, 90, 3, 5), 0), Metrics(SERIES % (110, 290, 3, 25), 10)
    lines = screen.frame(now, before, 80, at=11)
    text = [line for line, _ in lines]
    expect("lines that are too wide", [], [line for line in text if len(line) > 80])
    place = lambda part: next(n for n, line in enumerate(text) if part in line)
    expect("the order of maps", True, place('/b"a') < place("/good"))
    expect("the order of origins", True, place("[fd00::1]:5683") < place("192.0.2.1:5683"))
    expect_in("a rate", " 20.0/s", text[place("hit  ")])
    expect("the map that turns away", "2.0", text[place('/b"a')].split()[-1])
    expect_in("a mean", "100 ms", text[place("192.0.2.1:5683")])
    expect("how long it is silent", "1 d 2 h", text[place("192.0.2.1:5683")][-7:])
    expect("how long at most", 11, max(len(screen.coarse_text(it)) for it in (0, 59, 3599, 86_399, 999 * 86_400 - 1)))
    expect("a full table", ["bad"], [style for line, style in lines if line.startswith("exchanges")])
    again = [line for line, _ in screen.frame(Metrics(SERIES % (5, 10, 0, 0), 20), now, 80, at=21)]
    expect_like("a rate after a new start", r".* 2\.0/s", again)


def q_ends_the_watch(program):
    with tempfile.TemporaryDirectory(prefix="coap-proxyd-test-") as folder:
        path = written(folder, [SERIES % (100, 90, 3, 5)], "counts.prom")
        leader, follower = pty.openpty()
        environment = {**os.environ, "TERM": "xterm", "LINES": "24", "COLUMNS": "80", "LC_ALL": "C.UTF-8"}
        run = subprocess.Popen(
            [sys.executable, WATCH, path], stdin=follower, stdout=follower, stderr=follower, env=environment
        )
        os.close(follower)
        shown, until = b"", time.monotonic() + 20
        while b"fd00::1" not in shown and time.monotonic() < until:
            if select.select([leader], [], [], 0.2)[0]:
                shown += os.read(leader, 65_536)
        os.write(leader, b"q")
        try:
            expect("the status", 0, run.wait(20))
        finally:
            run.kill()
            os.close(leader)
        for part in (b"hit rate", b"fd00::1"):
            expect_in("what is shown", part, shown)


@case("NotCounted")
def the_counts_of_a_running_proxy_are_watched(stage):
    path = os.path.join(stage.folder, "counts.prom")
    origin = stage.peer()
    client = stage.peer(
        to=stage.proxy("--map", f"/t=coap://{origin.authority}/temp", "--stats", "1", "--stats-file", path)
    )
    client.request(GET, [T], kind=NON)
    origin.answer(origin.expect_request(GET, [TEMP]), CONTENT, [(MAX_AGE, b"\x3c")], b"21")
    client.receive("an answer")
    for _ in range(3):
        client.request(GET, [T], kind=NON)
        client.receive("an answer from the cache")
    await_metric(path, 'coap_proxyd_requests_total{outcome="hit"}', 3)
    done = subprocess.run([sys.executable, WATCH, "--once", "--plain", path], stdout=subprocess.PIPE, timeout=20)
    lines = done.stdout.decode("ascii").splitlines()
    expect_like("the hit rate", r"hit rate +75% +#+-+$", lines)
    expect_like("the tables", r"exchanges +-+ +0 of +256 +0%", lines)
    expect("lines that are too wide", [], [line for line in lines if len(line) > 80])
    expect_like("the map", r"/t +75% ", lines)
    # A stand-in has origins at other ports.
    expect_like("the origin", r"[0-9.:\[\]]+:[0-9]+ ", lines)


ENDS = (labels_are_read_and_summed_over, the_worst_comes_first, q_ends_the_watch)
