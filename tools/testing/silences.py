"""What the program logs of much that happens at one moment, and after long silences: its clock is set ahead."""

import contextlib
import tempfile
import time

from testing.coap import ACK, CON, CONTENT, EMPTY, GATEWAY_TIMEOUT, GET, NON, NOT_FOUND, PROXY_URI, RST, URI_PATH, message
from testing.hosts import paced
from testing.leaps import Clock
from testing.logs import Log, authority
from testing.network import PATIENCE, Stage, case_list, expect, expect_between, expect_message
from testing.steps import T, TEMP, max_age, path

CASES, case = case_list()
NAMES = "names = ['proxy.test']\n"
# How many silent origins are known, and how many Message IDs are given within 247 seconds.
KNOWN, IDS = 256, 32_768


class Leaping(Log):
    """A log of a proxy whose clock is set ahead."""

    def __init__(self, stage, clock, *how):
        super().__init__(stage, *how)
        self.clock, self.pinging = clock, stage.peer(to=self.address)

    def settle(self):
        """Has all be handled that was sent before: a ping is rejected."""
        self.pinging.send(message(CON, EMPTY, self.pinging.new_id()))
        expect_message("what a ping is answered", self.pinging.receive("a Reset"), kind=RST)

    def leap(self, seconds, ends=()):
        """Sets the clock ahead, until some clients were sent that no answer came, each so many times."""
        self.settle()
        self.clock.leap(seconds)
        self.settle()
        for client, count in ends:
            for _ in range(count):
                expect_message("what a client is sent", client.receive("an answer"), code=GATEWAY_TIMEOUT)

    def ask(self, uri):
        """Asks for what an origin has under a URI."""
        self.client.request(GET, [(PROXY_URI, uri.encode())], kind=NON)

    def serve(self, origin, name):
        """Has an origin be asked for something else than before, and answer."""
        self.ask(f"coap://{origin.authority}/{name}")
        wanted = [(URI_PATH, name.encode())]
        while (asked := origin.receive("a request")).message.options != wanted:
            pass
        origin.answer(asked, CONTENT, [max_age(0)], b"21")
        expect_message("what the client is sent", self.client.receive("an answer"), code=CONTENT)


@contextlib.contextmanager
def leaping(program, *how, speed=1):
    """A log of a proxy whose clock is set ahead, and otherwise goes at this speed."""
    with tempfile.TemporaryDirectory(prefix="coap-proxyd-test-") as folder:
        clock = Clock(folder)
        with Stage(paced(program, speed, f"CLOCK_AHEAD={clock.path}")) as stage:
            yield Leaping(stage, clock, *how)


@case("CauseIsReset", "ClientIsTheFirst")
def each_exchange_that_is_given_up_at_one_moment_has_its_own_cause(program):
    with leaping(program, "nstart = 2\nexchange_ms = 60000", NAMES) as log:
        first, second, origin, another = log.client, log.stage.peer(to=log.address), log.origin, log.stage.peer()
        first.request(GET, [T, *path("a")], kind=NON)
        origin.acknowledge(origin.expect_request(GET, [TEMP, *path("a")]))
        second.request(GET, [T, *path("a")], kind=NON)
        first.request(GET, [T, *path("b")], kind=NON)
        asked = origin.expect_request(GET, [TEMP, *path("b")])
        log.leap(4)
        origin.expect_bytes("the request again", asked.data)
        # Two requests that it hasn't acknowledged may be outstanding, so that the last one has to wait.
        for name in ("c", "d"):
            first.request(GET, [T, *path(name)], kind=NON)
        origin.expect_request(GET, [TEMP, *path("c")])
        log.ask(f"coap://{authority(another)}/e")
        another.receive("a request")
        log.leap(61, [(first, 5), (second, 1)])
        # Of each target the cause, the origin, and how often its request was sent.
        ends = (("a", "unanswered", "1"), ("b", "unacknowledged", "2"), ("c", "unacknowledged", "1"), ("d", "unsent", "0"))
        wanted = {f"{log.target}/{name}": (cause, authority(origin), sent) for name, cause, sent in ends}
        wanted[f"coap://{authority(another)}/e"] = ("unacknowledged", authority(another), "1")
        gave_up, failed = log.await_lines("gave_up", 5), log.await_lines("failed", 6)
        told = {it["target"]: (it["cause"], it["origin"], it["sent"]) for it in gave_up}
        expect("what was given up", wanted, told)
        clients = {it: "2" if it == f"{log.target}/a" else "1" for it in wanted}
        expect("how many clients waited", clients, {it["target"]: it["clients"] for it in gave_up})
        told = sorted((it["client"], it["target"], it["cause"], it["origin"], it["sent"]) for it in failed)
        clients = [(authority(first), it) for it in wanted] + [(authority(second), f"{log.target}/a")]
        expect("what clients were sent", sorted((it, target, *wanted[target]) for it, target in clients), told)
        for line in gave_up + failed:
            expect_between("how long it took, in milliseconds", 60_000, 65_000 + 1000 * PATIENCE, int(line["ms"]))


@case("LinesTwice", "CauseIsReset")
def each_origin_that_was_silent_answers_again_once(program):
    with leaping(program, "exchange_ms = 60000", NAMES) as log:
        first, second = log.stage.peer(), log.stage.peer()
        for name in ("a", "b"):
            for origin in (first, second):
                log.ask(f"coap://{authority(origin)}/{name}")
            log.leap(61, [(log.client, 2)])
        log.await_lines("gave_up", 4)
        for origin in (first, first, second):
            log.serve(origin, f"{origin.port}-{len(log.lines())}")
        told = [(it["origin"], int(it["silent_ms"])) for it in log.await_lines("answers_again", 2)]
        expect("which answer again", [authority(first), authority(second)], [origin for origin, _ in told])
        for _, silent in told:
            # Since the first request that they didn't answer.
            expect_between("how long it was silent, in milliseconds", 122_000, 122_000 + 1000 * PATIENCE, silent)
        expect("the causes", {"unacknowledged"}, {it["cause"] for it in log.await_lines("gave_up", 4)})


@case("LinesTwice")
def the_silent_origins_that_are_known_are_the_last_ones(program):
    limits = "".join(f"{key} = 512\nclient_{key} = 512\n" for key in ("exchanges", "waiters", "non_records"))
    with leaping(program, f"exchange_ms = 60000\n{limits}", NAMES) as log:
        first, second, last = (log.stage.peer() for _ in range(3))
        others = [f"127.250.{number // 250}.{number % 250}:9" for number in range(KNOWN - 2)]
        for some in ([authority(first)], [authority(second)], others, [authority(last)]):
            for at in some:
                log.ask(f"coap://{at}/a")
                log.settle()
            log.leap(61, [(log.client, len(some))])
        for origin in (first, second, last):
            log.serve(origin, "b")
        told = [it["origin"] for it in log.await_lines("answers_again", 2)]
        expect("which answer again", [authority(second), authority(last)], told)


@case("LinesTwice")
def what_nothing_awaits_is_no_answer_of_a_silent_origin(program):
    with leaping(program, "exchange_ms = 60000", NAMES) as log:
        origin = log.stage.peer()
        log.ask(f"coap://{authority(origin)}/a")
        asked = origin.receive("a request")
        log.leap(61, [(log.client, 1)])
        # A late response, alone and in the acknowledgement; a ping; and a request of its own, which is refused.
        for kind in (NON, ACK):
            origin.answer(asked, CONTENT, kind=kind)
        for code in (EMPTY, GET):
            origin.send(message(CON, code, origin.new_id()), log.address)
        log.settle()
        expect("what is said", [], [word for word, _ in log.lines() if word == "answers_again"])
        log.serve(origin, "b")
        expect("which answers again", [authority(origin)], [it["origin"] for it in log.await_lines("answers_again")])


@case("LinesTwice", "PortsUncounted")
def a_full_table_is_told_again_after_a_minute(program):
    with leaping(program, "non_records = 1\nclient_non_records = 1") as log:
        about = {"table": "non_records", "count": "1/1", "address": log.client.host, "has": 1, "ports": 1}
        for number, (seconds, count) in enumerate(((0, 0), (0, 1), (58, 1), (3, 2))):
            log.leap(seconds)
            log.client.request(GET, [], kind=NON)
            log.settle()
            if count:
                log.await_lines("dropped", number)
                log.expect_line("full", count, **about)


@case("LimitIsExchanges", "PortsUncounted")
def the_table_that_is_told_is_the_first_that_is_full(program):
    for limits, table in (
        ("exchanges = 1\nclient_exchanges = 1\nwaiters = 1\nclient_waiters = 1", "exchanges"),
        ("exchanges = 2\nwaiters = 1\nclient_waiters = 1", "waiters"),
    ):
        with Stage(program) as stage:
            log = Log(stage, limits)
            for name in (b"a", b"b"):
                log.client.request(GET, [T, (URI_PATH, name)], kind=NON)
            [told] = log.await_lines("failed")
            wanted = sorted(it.split(" ")[0] for it in limits.split("\n") if it.endswith(" = 1"))
            expect("what was lacking", wanted, sorted(it for it in told if told[it] == "1/1"))
            log.expect_line("full", 1, table=table, count="1/1", address=log.client.host, has=1, ports=1)


@case("LeftOutUncounted", "LinesTwice")
def no_line_is_written_before_it_may_be(program):
    with leaping(program, "non_records = 1\nclient_non_records = 1", speed=0) as log:
        # While its clock stands still twenty may be written, of which one says who has most of the table.
        for _ in range(31):
            log.client.request(GET, [], kind=NON)
        log.settle()
        # Once nothing came for a second, it would say how many it left out.
        time.sleep(1.3)
        lines = [word for word, _ in log.lines() if word != "listening"]
        expect("which lines are written", ["dropped"] * 19 + ["full"], sorted(lines))
        log.leap(1)
        expect("how many were left out", "11", log.await_lines("left_out")[0]["lines"])


def give_ids(log, count):
    """Has the proxy give so many Message IDs: each request of these is refused in a message of its own."""
    sent, came = 0, 0
    while came < count:
        while sent < min(count, came + 32):
            log.client.request(GET, [], kind=NON)
            sent += 1
        expect_message("what it is answered", log.client.receive("a refusal"), code=NOT_FOUND)
        came += 1


@case("ClientIsTheFirst", "LimitIsExchanges")
def a_message_is_dropped_for_which_no_id_is_left(program):
    with Stage(program) as stage:
        log = Log(stage, "non_records = 65536\nclient_non_records = 65536")
        give_ids(log, IDS)
        log.client.request(GET, [], kind=NON)
        log.expect_line("dropped", 1, client=authority(log.client), ids=f"{IDS}/{IDS}")


@case("CauseIsReset")
def an_exchange_has_its_own_cause_though_another_had_its_id(program):
    limits = "non_records = 65536\nclient_non_records = 65536\nexchange_ms = 60000"
    with leaping(program, limits, speed=0) as log:
        log.client.request(GET, [T], kind=NON)
        asked = log.origin.expect_request(GET, [TEMP])
        log.leap(61, [(log.client, 1)])
        log.expect_line("failed", 1, client=authority(log.client), code="5.04", target=log.target, cause="unacknowledged",
                        origin=authority(log.origin), sent=1)
        # Half of all are given within 247 seconds. The message that the client was sent took one, too.
        give_ids(log, IDS - 2)
        log.leap(300)
        give_ids(log, IDS)
        log.leap(300)
        log.client.request(GET, [T], kind=NON)
        again = log.origin.expect_request(GET, [TEMP])
        expect_message("the next request", again, message_id=asked.message.message_id)
        log.origin.acknowledge(again, kind=RST)
        log.client.receive("an answer")
        log.expect_line("failed", 2, client=authority(log.client), code="5.02", target=log.target, cause="reset",
                        origin=authority(log.origin), sent=1)


@case("LimitsAreTwo")
def each_limit_of_a_client_makes_version_2(program):
    keys = ("con_records", "non_records", "exchanges", "waiters")
    for own in (*keys, None):
        limits = "\n".join(f"{key} = 8\nclient_{key} = {4 if key == own else 8}" for key in keys)
        with Stage(program) as stage:
            [told] = Log(stage, limits).await_lines("listening")
            expect(f"the version with a limit of {own} for a client", "2" if own else "1", told["limits"])
