"""Tests the suite itself: each case passes with right stand-ins that differ, and fails with one that is wrong."""

import os
import shutil
import sys
from collections import namedtuple
from concurrent.futures import ThreadPoolExecutor

from conforming import model, suite
from conforming.cases import ENDED, KEPT, KEPT_AGAIN, NOT_KEPT, NOT_OFFERED, NOT_SEEN, name_of
from conforming.expectations import not_failed, of_cases
from conforming.playing import Play
from conforming.running import ORIGINS, Proxy, Setup

STAND_IN = os.path.join(os.path.dirname(os.path.abspath(__file__)), "stand_in")
RIGHT = ("Proxy", "Separate", "Plain", "Bare")
FAILED = (NOT_KEPT, ENDED)
# How much shorter the times of the RFC are, how many stand-ins run at once, at first and when cases are played again,
# and how many cases each of them plays.
SCALE, AT_ONCE, AGAIN_AT_ONCE, CASES_AT_ONCE = 0.1, 16, 3, 24
# How long one may take to start while the machine does much else, in seconds.
READY = 180
PREFIXES = [f"/r{n}={{literal}}:{{origin{n if n > 1 else ''}}}" for n in range(1, ORIGINS + 1)]
OFFERS = {"forward", "scheme", "reverse", "another way", "name", "host", "another port", "any address", "chain"}
OFFERS |= {"libcoap"} if shutil.which("coap-server-notls") or shutil.which("coap-server") else set()


def setup_of(name, is_v6):
    """How a stand-in is started."""
    start = [sys.executable, STAND_IN, name, str(SCALE), "{address}", "{port}", "{name}"]
    words, chained = [*start, *PREFIXES, "host=origin.test={host}"], [*start, "next={next}"]
    return Setup(words, None, None, "proxy.test", True, PREFIXES, None, chained, "origin.test={host}", is_v6)


def is_caching(name):
    """Whether a stand-in has a cache, if it is a right one. Of a wrong one that isn't asked, since its fault may hide
    it."""
    return name not in RIGHT or vars(model)[name].caches


def outcomes_of(name, cases, tries, is_v6):
    """What comes of cases with a stand-in. What it offers is known."""
    offers = (OFFERS - {"any address"} if is_v6 else OFFERS) | ({"cache"} if is_caching(name) else set())
    proxy = Proxy(setup_of(name, is_v6), SCALE, offers)
    proxy.ready = READY
    try:
        proxy.start()
        return Play(proxy, True, tries, CASES_AT_ONCE).play(cases)
    finally:
        proxy.close()


# What is wrong: of which families of cases, and a text.
Fault = namedtuple("Fault", "families text")


def faults_of_right(cases, played):
    """What is wrong with how cases went with right stand-ins."""
    for case in cases:
        came = {name: played[name][name_of(case)] for name in RIGHT}
        for name, outcome in came.items():
            if outcome.result not in (KEPT, KEPT_AGAIN, NOT_OFFERED):
                text = f"{name_of(case)}: {outcome.result} with {name}, which is right: {outcome.text}"
                yield Fault({case.family}, text)
        if sum(it.result in (KEPT, KEPT_AGAIN) for it in came.values()) < 2:
            told = ", ".join(f"{name}: {it.result} {it.text}" for name, it in came.items())
            yield Fault({case.family}, f"{name_of(case)}: kept with fewer than two right ones ({told})")


def faults_of_wrong(cases, played):
    """What is wrong with how cases went with stand-ins that are wrong."""
    found = set()
    for case in cases:
        results = {name: played[name][name_of(case)].result for name in case.faults}
        failed = [name for name, result in results.items() if result in FAILED]
        found.update(failed)
        came = ", ".join(f"{name}: {result}" for name, result in results.items())
        if case.faults and not failed:
            yield Fault({case.family}, f"{name_of(case)}: no stand-in that is wrong fails it ({came})")
        for name in set(case.always) - set(failed):
            yield Fault({case.family}, f"{name_of(case)}: {name} doesn't fail it ({came})")
    for name in sorted({it for case in cases for it in case.faults} - found):
        yield Fault({case.family for case in cases if name in case.faults}, f"no case fails with {name}")


def faults_of_expectations(cases, played):
    """The expectations at which no stand-in fails, so that it is open what they see, of those whose cases are all here;
    and the stand-ins that are named for expectations of a case and fail none of its variants."""
    chosen = {case.family for case in cases}
    families = {it: some for it, some in of_cases(suite.CASES, suite.MODULES).items() if some <= chosen}
    for it in not_failed(sorted(families), [one for some in played.values() for one in some.values()]):
        yield Fault(families[it], f"{it.file}, line {it.first}: no stand-in that is wrong fails at: {it.text}")
    also = [(case, name) for case in cases for name in case.also]
    failed = {(case.family, name) for case, name in also if played[name][name_of(case)].result in FAILED}
    for family, name in sorted({(case.family, name) for case, name in also} - failed):
        yield Fault({family}, f"{family}: {name} fails none of its variants")


def can_be_seen(case, played):
    """Whether a case was played with all of its stand-ins, and kept by a right one. Over IPv6 one that takes two
    addresses isn't, and one that takes a port that another has may not be."""
    came = [played[name][name_of(case)].result for name in (*RIGHT, *case.faults)]
    return NOT_SEEN not in came and KEPT in came[: len(RIGHT)]


def judge(cases, played, is_v6):
    """The cases that can be judged, and what is wrong with how they went."""
    judged = [it for it in cases if not is_v6 or can_be_seen(it, played)]
    faults = [*faults_of_right(judged, played), *faults_of_wrong(judged, played)]
    return judged, faults + ([] if is_v6 else list(faults_of_expectations(judged, played)))


def play_all(cases, played, is_v6, at_once):
    """Plays cases with all of their stand-ins, and notes what came of that beside what came before: a wrong one has
    failed if it did once, at each place at which it did. Returns how many plays there were."""
    wrong = sorted({name for case in cases for name in (*case.faults, *case.also)})
    plays = [(name, cases, 2) for name in RIGHT]
    plays += [(name, [case for case in cases if name in (*case.faults, *case.also)], 1) for name in wrong]
    with ThreadPoolExecutor(at_once) as pool:
        done = list(pool.map(lambda it: outcomes_of(*it, is_v6), plays))
    for (name, _, _), outcomes in zip(plays, done):
        for it in outcomes:
            before = played.setdefault(name, {}).get(name_of(it.case))
            if before is not None and before.result in FAILED and name not in RIGHT:
                it = before._replace(places=before.places + it.places)
            played[name][name_of(it.case)] = it
    return sum(len(it) for it in done)


def run(cases, is_v6=False):
    """Plays cases with all stand-ins, and those that went wrong again beside few others, since a machine in use keeps a
    stand-in waiting. Writes what is wrong, and returns a status."""
    cases = [it for it in cases if "libcoap" not in it.needs or "libcoap" in OFFERS]
    played = {}
    count = play_all(cases, played, is_v6, AT_ONCE)
    judged, faults = judge(cases, played, is_v6)
    if faults:
        again = [it for it in cases if any(it.family in fault.families for fault in faults)]
        print(f"{len(again)} cases are played again, beside few others, for {len(faults)} faults", flush=True)
        count += play_all(again, played, is_v6, AGAIN_AT_ONCE)
        judged, faults = judge(cases, played, is_v6)
    for fault in faults:
        print(fault.text)
    wrong = len(played) - len(RIGHT)
    print(f"{len(judged)} cases, {wrong} stand-ins that are wrong, {count} plays, {len(faults)} faults")
    return 1 if faults else 0
