"""What the commands by which docs/TRYING.md answers an operator's five questions find of a service that logs and counts.
They are run as they stand there, and what they print must look like what stands behind them."""

import os
import re
import subprocess
import textwrap
import time

from testing.coap import GATEWAY_TIMEOUT, GET, NON
from testing.network import PATIENCE, Failed, Stage, case_list, expect, expect_in
from testing.script import TOP, read
from testing.statistics import await_metric
from testing.steps import expect_hit, fetch, path

CASES, case = case_list()
SECTION = "\n## An operator's five questions\n"
# Clients of the page, the file of counts that it reads, and what the journal puts before a line.
CLIENT, FLOODING = "127.0.1.2", "127.0.1.4"
COUNTS, STAMP = "/run/coap-proxyd/coap-proxyd.prom", "Nov 28 12:51:01 vm coap-proxyd[121]: "
# Stands in for the program of this name, with what the service wrote to standard error.
JOURNALCTL = 'journalctl() {{ case "$*" in *"-o cat"*) cat "{0}" ;; *) sed "s/^/{1}/" "{0}" ;; esac; }}'


def blocks(section=SECTION):
    """The blocks of commands and of output in a section."""
    text = read(TOP, "docs", "TRYING.md").partition(section)[2].partition("\n## ")[0]
    return [textwrap.dedent(it).strip("\n") for it in re.findall(r"(?:^    .*\n)+", text, re.MULTILINE)]


def commands():
    """The commands that read the journal or the counts, each with the lines that the page says it prints."""
    every = blocks()
    for command, output in zip(every, every[1:]):
        if COUNTS in command or command.startswith("journalctl "):
            yield command, output.splitlines()


def form_of(line):
    """A line with one digit for each number, one blank for each gap, and no port in a URI."""
    return re.sub("[0-9]+", "0", re.sub("(?<=coap://)([0-9.]+):[0-9]+", r"\1", " ".join(line.split())))


def printed(command, log, counts):
    """What a command of the page prints of this log and these counts."""
    script = "\n".join((JOURNALCTL.format(log, STAMP), command.replace(COUNTS, counts)))
    done = subprocess.run(
        ["bash", "-c", script], stdin=subprocess.DEVNULL, stdout=subprocess.PIPE, stderr=subprocess.STDOUT, timeout=20
    )
    return done.stdout.decode().splitlines()


def await_words(path, words):
    """Waits until a file has these words."""
    until = time.monotonic() + PATIENCE
    while words not in read(path):
        if time.monotonic() > until:
            raise Failed(f"{words} isn't in {read(path)!r}")
        time.sleep(0.05)


def serve(stage):
    """Has a proxy with room for one response, a silent device and a client that sends too much, log and count. Returns
    the paths of both, and the silent device."""
    device, silent, log, counts = stage.peer(), stage.peer(), stage.file("log", ""), os.path.join(stage.folder, "it.prom")
    config = "[limits]\ncache_entries = 1\nexchange_ms = 1000\nclient_con_records = 4\n"
    for prefix, origin in (("/d1", device), ("/d7", silent)):
        config += f'[[map]]\nprefix = "{prefix}"\norigin = "coap://{origin.authority}/"\n'
    with open(log, "wb") as output:
        words = ("--log", "--stats", "1", "--stats-file", counts)
        address = stage.proxy(*words, config=config, version=2, output=output)
    client, flooding = (stage.peer(host=host, to=address) for host in (CLIENT, FLOODING))
    life = fetch(client, device, here=path("d1"), there=())
    expect_hit(client, life, options=path("d1"))
    fetch(client, device, here=path("d1", "x"), there=path("x"))
    for _ in range(6):
        flooding.request(GET, path("d2"))
    request = client.request(GET, path("d7"), kind=NON)
    client.expect_response(request, GATEWAY_TIMEOUT)
    await_metric(counts, "coap_proxyd_given_up_total", 1)
    await_words(log, " gave_up=1 ")
    return log, counts, silent


@case("CauseIsReset", "EvictedUncounted")
def each_command_prints_what_the_page_says(program):
    with Stage(program) as stage:
        log, counts, silent = serve(stage)
        found = []
        for command, wanted in commands():
            lines = printed(command, log, counts)
            expect(f"whether {command!r} prints something", True, bool(lines))
            known = set(map(form_of, wanted))
            expect(f"what {command!r} prints, beside what the page says", [], [it for it in lines if form_of(it) not in known])
            found.append([" ".join(it.split()) for it in lines])
    why, silent_ones, hits, evicted, flooding = found
    expect("how many clients got 5.04", 1, len(why))
    expect_in("the silent device", f'origin="{silent.authority}"}} 1', silent_ones[0])
    expect("the hits", ["0 of 1 /d7", "1 of 3 /d1"], hits)
    expect("what made room", ["evicted=1 evicted_fresh=1"], [" ".join(it.split(" ")[:2]) for it in evicted])
    expect("who floods", [f"address={FLOODING} has=4 ports=1"], [it.partition("/4096 ")[2] for it in flooding])
