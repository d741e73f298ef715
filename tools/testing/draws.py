"""What the program draws: the first Message ID and the salt of its tokens as it starts, which nobody is to foretell, and a
number for each turn, of which no two programs are to have the same."""

import os
import re
import socket
import subprocess
import tempfile
import time
from concurrent.futures import ThreadPoolExecutor

from testing import programs
from testing.coap import CON, EMPTY, message
from testing.network import PATIENCE, Failed, case_list, expect, free_port

CASES, case = case_list()
# So many starts at most leave a bit that is drawn the same once in 2^63 tries.
STARTS, AT_ONCE = 64, 8
HEAD = re.compile(r"# coap-proxyd \S+ --replay (?:.* )?--id ([0-9]+) --salt ([0-9]+)(?: .*)?\n")


def recorded(program, turns, settings=()):
    """The lines of the recording of a run of so many turns, with settings of the environment."""
    with tempfile.TemporaryDirectory(prefix="coap-proxyd-test-") as folder, socket.socket(type=socket.SOCK_DGRAM) as peer:
        path, port = os.path.join(folder, "run.events"), free_port()
        words = ["-A", "127.0.0.1", "-p", str(port), "--turns", str(turns), "--record", path]
        how = {"stderr": subprocess.DEVNULL, "env": {**os.environ, **dict(it.split("=", 1) for it in settings)}}
        process, until = subprocess.Popen([*program, *words], **how), time.monotonic() + 3 * PATIENCE
        while process.poll() is None and time.monotonic() < until:
            for _ in range(1 + turns // 10):
                peer.sendto(message(CON, EMPTY, 1), ("127.0.0.1", port))
            time.sleep(0.01)
        if process.poll() is None:
            process.kill()
            raise Failed(f"it doesn't end after {turns} turns")
        with open(path) as recording:
            return recording.readlines()


def drawn(program):
    """The first Message ID and the salt of a start, which its recording says."""
    head = HEAD.fullmatch(recorded(program, 1)[0])
    expect("whether a recording begins with what was drawn", True, head is not None)
    return int(head[1]), int(head[2])


def constant_bits(numbers, width):
    """The bits below this width that are the same in all numbers."""
    return [bit for bit in range(width) if len({number >> bit & 1 for number in numbers}) < 2]


@case("IdIsOdd", "SaltIsShort")
def each_bit_is_drawn(program):
    ids, salts = [], []
    # Few starts show all bits of a right program, so that most of them are seldom needed.
    while len(ids) < STARTS and (constant_bits(ids, 16) or constant_bits(salts, 63)):
        with ThreadPoolExecutor(AT_ONCE) as pool:
            for first_id, salt in pool.map(lambda _: drawn(program), range(AT_ONCE)):
                ids.append(first_id)
                salts.append(salt)
    expect("bits of the first Message ID that are always the same", [], constant_bits(ids, 16))
    expect("bits of the salt that are always the same", [], constant_bits(salts, 63))
    expect("whether a salt has 63 bits at most", True, max(salts) < 1 << 63)


@case("DrawsRepeat")
def draws_differ_from_run_to_run(program):
    """Each is one of 1,001 numbers."""
    runs = [[line.split()[1] for line in recorded(program, 8) if not line.startswith("#")] for _ in range(2)]
    expect("how many draws there are", [8, 8], [len(draws) for draws in runs])
    expect("whether both runs have the same", False, runs[0] == runs[1])


@case("DrawsRepeat")
def draws_are_any_of_a_second(program):
    draws = [int(line.split()[1]) for line in recorded(program, 80) if not line.startswith("#")]
    # Of a right program's so many draws none is in one of three parts once in 10^13 tries.
    parts = {draw * 3 // 1001 for draw in draws}
    expect("in which parts of a second there are draws", {0, 1, 2}, parts)


@case("DrawsRepeat")
def each_bit_of_the_seed_makes_other_draws(program):
    settings, shimmed = programs.shimmed(program[-1], programs.DRAWING)

    def draws(bit, *more):
        """Those of three turns of a program to which the system gives no random bit but this one."""
        lines = recorded([*program[:-1], shimmed], 3, (*settings, f"DRAWN_BIT={bit}", *more))
        return tuple(line.split()[1] for line in lines if not line.startswith("#"))

    with tempfile.NamedTemporaryFile("r", prefix="coap-proxyd-test-") as notes:
        none = draws(-1, f"DRAWN_TO={notes.name}")
        firsts, end = [], 0
        for count in notes.read().split():
            firsts.append(end)
            end += 8 * int(count)
    with ThreadPoolExecutor(AT_ONCE) as pool:
        # Of the bytes that it asks for, those of one call are its seed.
        seeds = [first for first, these in zip(firsts, pool.map(draws, firsts)) if these != none]
        expect("of how many calls the first bit makes other draws", 1, len(seeds))
        some = list(pool.map(draws, range(seeds[0], seeds[0] + 64)))
    expect("how many seeds make draws of their own", 65, len({none, *some}))
