"""Plays cases against a proxy: many at once, again where the machine may have been too slow, and each alone where the
proxy's process ended. A proxy that ends is never a pass: at least the cases that were in play have ended it."""

import os
import time
import traceback
from concurrent.futures import ThreadPoolExecutor, as_completed

from conforming.cases import (
    ENDED, ERROR, KEPT, KEPT_AGAIN, NOT_KEPT, NOT_OFFERED, NOT_SEEN, WAYS, Broken, NotKept, NotOffered, Outcome,
    name_of,
)
from conforming.expectations import places
from conforming.running import Proxy
from conforming.stage import Stage

# How many cases are played at once, how many of those that failed, and how many of those that were played when the
# process ended.
AT_ONCE, AGAIN_AT_ONCE, SUSPECTS_AT_ONCE = 40, 12, 6
# How long a run without long cases may take, in seconds, before no more cases are begun.
BOUND = 105
GONE = "the proxy answered no more"


def missing(case, offers):
    """What a case needs and the proxy doesn't offer, or None."""
    lacking = [it for it in case.needs if it not in offers]
    names = {
        "forward": "isn't asked by Proxy-Uri", "scheme": "isn't asked by Proxy-Scheme",
        "reverse": "isn't asked under a prefix", "another way": "is asked in one way", "cache": "has no cache",
        "name": "has no name", "host": "knows no other name (--host)", "another port": "has port 5683",
        "any address": "has no command that is told an address",
        "chain": "has no command that is told a next proxy", "libcoap": "has no server of libcoap behind it",
    }
    return f"it {names[lacking[0]]}" if lacking else None


def try_case(proxy, case, scale):
    """What comes of a case, and the ways in which the proxy was asked."""
    stage = Stage(proxy, scale, case.way)
    result, text, where = play_on(stage, case)
    return Outcome(case, result, text, tuple(it for it in WAYS if it in (stage.ways or case.needs)), where)


def play_on(stage, case):
    """What comes of a case on a stage: the result, a text, and the lines at which it isn't kept."""
    try:
        with stage:
            case.function(stage, *case.values)
    except NotKept as error:
        return NOT_KEPT, str(error), places(error)
    except NotOffered as text:
        return NOT_OFFERED, str(text), ()
    except Broken as text:
        return NOT_SEEN, str(text), ()
    except OSError as error:
        return ERROR, f"the system refused it: {error}", ()
    except Exception as error:
        line = traceback.extract_tb(error.__traceback__)[-1]
        where = f"{os.path.basename(line.filename)}, line {line.lineno}"
        return ERROR, f"a fault of the suite: {type(error).__name__}: {error} ({where})", ()
    return KEPT, "", ()


class Play:
    """A run of cases against a proxy."""

    def __init__(self, proxy, is_long=False, tries=2, at_once=AT_ONCE, tell=lambda count: None):
        self.proxy, self.is_long, self.tries, self.at_once, self.tell = proxy, is_long, tries, at_once, tell
        # What came of the cases; those in play when a process ended, and the last of them; whether a proxy that wasn't
        # started here answers no more.
        self.outcomes, self.suspects, self.last_suspects, self.is_gone = {}, [], [], False
        self.until = time.monotonic() + BOUND

    def note(self, outcome):
        """Notes what came of a case. What wasn't kept at first and isn't seen now stays so; what is kept now is told of
        with what came at first."""
        before = self.outcomes.get(name_of(outcome.case))
        if before is not None and before.result == NOT_KEPT:
            told = {KEPT: before.text, NOT_OFFERED: f"{outcome.text}; at first {before.text}"}
            result = {KEPT: KEPT_AGAIN, NOT_SEEN: NOT_KEPT}.get(outcome.result, outcome.result)
            text = before.text if outcome.result == NOT_SEEN else told.get(outcome.result, outcome.text)
            outcome = outcome._replace(result=result, text=text, ways=outcome.ways or before.ways)
        self.outcomes[name_of(outcome.case)] = outcome
        self.tell(len(self.outcomes))

    def has_time(self):
        return self.is_long or time.monotonic() < self.until

    def play_one(self, case):
        """What comes of a case, and whether the process ended meanwhile."""
        if not self.has_time():
            return Outcome(case, NOT_SEEN, "no time was left for it"), False
        if self.is_gone:
            return Outcome(case, NOT_SEEN, GONE), False
        count = self.proxy.start()
        outcome = try_case(self.proxy, case, self.proxy.scale)
        if not self.proxy.setup.command and not self.proxy.answers():
            self.is_gone = True
            text = f"{GONE}; {outcome.text}" if outcome.text else GONE
            return outcome._replace(result=ENDED, text=text), False
        time.sleep(0.02 if case.is_alone else 0)
        has_ended = not self.proxy.is_running() or self.proxy.count != count
        return outcome, has_ended

    def play_many(self, cases, at_once):
        """Plays cases at once. Those that met the end of the process are suspects."""
        with ThreadPoolExecutor(max(1, at_once)) as pool:
            futures = [pool.submit(self.play_one, case) for case in cases]
            try:
                for future in as_completed(futures):
                    self.note_or_suspect(*future.result())
            except BaseException:
                self.until, self.is_long = 0, False
                raise

    def note_or_suspect(self, outcome, has_ended):
        """Notes what came of a case, unless the process ended meanwhile."""
        if has_ended:
            self.suspects.append(outcome.case)
            self.last_suspects = self.suspects
        else:
            self.note(outcome)

    def play_alone(self, case):
        """Plays a case while no other is, and notes whether the process ended at it."""
        outcome, has_ended = self.play_one(case)
        ended = outcome._replace(result=ENDED, text="the process of the proxy ended")
        self.note(ended if has_ended else outcome)

    def play(self, cases):
        """Plays all cases, and returns their outcomes in the same order."""
        played = []
        for case in cases:
            why = missing(case, self.proxy.offers)
            if why:
                self.note(Outcome(case, NOT_OFFERED, why))
            elif case.is_long and not self.is_long:
                self.note(Outcome(case, NOT_SEEN, "it needs --long"))
            else:
                played.append(case)
        self.play_long([it for it in played if it.is_long], [it for it in played if not it.is_long])
        return [self.outcomes[name_of(it)] for it in cases]

    def play_long(self, long, short):
        """Plays the long cases beside the others, against a process of their own if a command starts it."""
        with ThreadPoolExecutor(1) as pool:
            future = pool.submit(self.play_in_own_process, long) if long else None
            self.play_short(short)
            for outcome in future.result() if future else ():
                self.note(outcome)

    def play_in_own_process(self, cases):
        """What comes of long cases, all at once."""
        own = Proxy(self.proxy.setup, self.proxy.scale, self.proxy.offers) if self.proxy.setup.command else self.proxy
        other = Play(own, True, 1)
        try:
            other.play_many(cases, len(cases))
        finally:
            if own is not self.proxy:
                own.close()
        self.is_gone = self.is_gone or other.is_gone
        ended = [Outcome(it, ENDED, "the process of the proxy ended beside other long cases") for it in other.suspects]
        return [*other.outcomes.values(), *ended]

    def play_short(self, cases):
        # Those that wait for a prefix come last, so that they keep no others waiting.
        together = sorted((it for it in cases if not it.is_alone), key=lambda it: "reverse" in it.needs)
        self.play_many(together, self.at_once)
        for case in [it for it in cases if it.is_alone]:
            self.play_alone(case)
        for _ in range(self.tries - 1):
            failed = [it.case for it in self.outcomes.values() if it.result == NOT_KEPT and not it.case.is_long]
            if self.has_time():
                self.play_many(failed, AGAIN_AT_ONCE)
        self.play_suspects()
        if not self.is_gone:
            self.proxy.start()

    def play_suspects(self):
        """Plays what was in play when the process ended, beside few others and then alone. If it ends at none of them,
        those that were in play at the last end count as what ended it."""
        suspects, self.suspects = self.suspects, []
        self.play_many(suspects, SUSPECTS_AT_ONCE)
        for case in self.suspects:
            self.play_alone(case)
        if not any(it.result == ENDED for it in self.outcomes.values()):
            count = len(self.last_suspects)
            for case in self.last_suspects:
                self.note(Outcome(case, ENDED, f"the process of the proxy ended while {count} cases were in play"))
