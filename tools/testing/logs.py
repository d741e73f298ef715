"""What the program logs with --log while it serves a socket: what clients don't get, and who has most of a table."""

import os
import random
import re
import subprocess
import time
from urllib.parse import unquote_to_bytes

from testing.buffers import given
from testing.coap import (
    BLOCK2, CON, CONTENT, EMPTY, ETAG, GATEWAY_TIMEOUT, GET, NON, RST, URI_PATH, VALID, message,
)
from testing.network import PATIENCE, Failed, Stage, case_list, expect, expect_between
from testing.steps import T, TEMP, max_age, path

# Functions that try a program, and the stand-ins that they must find wrong.
CASES, case = case_list()
# Some codes of responses that a client is sent in place of an answer.
SERVER_ERROR, BAD_GATEWAY, UNAVAILABLE = 0xA0, 0xA2, 0xA3
# A line: a word, and keys with values. No value has a blank, a quotation mark or an equals sign.
LINE = re.compile(r'[a-z_]+( [a-z_]+=[!#-<>-~]+)+')


def expect_form(what, form, text):
    """Fails where a text isn't of a form."""
    if re.fullmatch(form, text) is None:
        raise Failed(f"{what}: expected {form!r}, got {text!r}")


class Log:
    """A proxy that logs to a file: its address, a client of it, and an origin that it maps /t to."""

    def __init__(self, stage, limits="", routes=""):
        self.path = os.path.join(stage.folder, "log")
        self.origin = stage.peer()
        self.target = f"coap://{self.origin.authority}/temp"
        config = f"{routes}[limits]\n{limits}\n"
        with open(self.path, "wb") as output:
            words = ("--map", f"/t={self.target}", "--log")
            self.address = stage.proxy(*words, config=config, version=2, output=output)
        self.stage, self.client = stage, stage.peer(to=self.address)

    def lines(self):
        """The whole lines that were written, each as its word and its values by their keys."""
        with open(self.path, encoding="ascii") as file:
            text = file.read()
        lines = text.split("\n")[:-1]
        for line in lines:
            expect(f"whether {line!r} is a line of a log", True, LINE.fullmatch(line) is not None)
        return [(line.split(" ")[0], dict(it.split("=") for it in line.split(" ")[1:])) for line in lines]

    def await_lines(self, word, count=1):
        """The values of the lines with this word, once there are so many."""
        until, found = time.monotonic() + PATIENCE, []
        while time.monotonic() < until:
            found = [values for first, values in self.lines() if first == word]
            if len(found) >= count:
                expect(f"how many lines {word}", count, len(found))
                return found
            time.sleep(0.05)
        lines = (" ".join([first, *map("=".join, values.items())]) for first, values in self.lines())
        raise Failed("\n  ".join([f"expected {count} lines {word}, got", *lines]))

    def await_dropped(self, count):
        """How many lines of dropped messages, and of who has most of their table, were written, and how many each other
        line says were left out, once these are so many."""
        until, dropped, left_out = time.monotonic() + PATIENCE, 0, []
        while dropped + sum(left_out) < count and time.monotonic() < until:
            time.sleep(0.05)
            lines = self.lines()
            dropped = sum(word in ("dropped", "full") for word, _ in lines)
            left_out = [int(values["lines"]) for word, values in lines if word == "left_out"]
        return dropped, left_out

    def expect_line(self, word, number, **wanted):
        """Has the line of this word and number, from 1, have these values. Those of `ms` are left out."""
        values = self.await_lines(word, number)[-1]
        values.pop("ms", None)
        expect(f"the line {word}", {key: str(value) for key, value in wanted.items()}, values)


def authority(peer):
    """The address of a peer, as a line has it."""
    return f"{peer.host}:{peer.port}"


@case("ListeningUnsaid", "LogChanged")
def it_says_that_it_listens(program):
    with Stage(program) as stage:
        names, hosts = "names = ['a.test', 'b.test', 'c.test']\n", "'h.test' = '192.0.2.7'\n'i.test' = '192.0.2.8'\n"
        # One limit alone that a client has with all others makes no version 1.
        log = Log(stage, "waiters = 8\nclient_waiters = 8", f"{names}[hosts]\n{hosts}")
        done = subprocess.run([*program, "--version"], stdout=subprocess.PIPE, text=True, timeout=20)
        version, listen = done.stdout.split()[1], "%s:%d" % log.address
        log.expect_line("listening", 1, version=version, listen=listen, maps=1, names=3, hosts=2, limits=2, receive_buffer=given())


@case("CauseIsReset", "ClientIsTheFirst")
def an_origin_that_is_silent_and_answers_again(program):
    with Stage(program) as stage:
        log = Log(stage, "exchange_ms = 1000")
        client, origin = log.client, log.origin
        request = client.request(GET, [T], kind=NON)
        origin.expect_request(GET, [TEMP])
        client.expect_response(request, GATEWAY_TIMEOUT)
        about = {"target": log.target, "cause": "unacknowledged", "origin": authority(origin), "sent": 1}
        log.expect_line("gave_up", 1, clients=1, **about)
        log.expect_line("failed", 1, client=authority(client), code="5.04", **about)
        took = int(log.await_lines("gave_up")[0]["ms"])
        expect_between("how long it took, in milliseconds", 1000, 1900, took)
        # acknowledged, and not answered
        request = client.request(GET, [T], kind=NON)
        origin.acknowledge(origin.expect_request(GET, [TEMP]))
        [again] = log.await_lines("answers_again")
        expect("the origin", authority(origin), again["origin"])
        # since it was asked, and not since it was given up
        expect_between("how long it was silent, in milliseconds", 1000, 1000 * PATIENCE, int(again["silent_ms"]))
        client.expect_response(request, GATEWAY_TIMEOUT)
        about["cause"] = "unanswered"
        log.expect_line("gave_up", 2, clients=1, **about)
        log.expect_line("failed", 2, client=authority(client), code="5.04", **about)
        # answered at once
        client.request(GET, [T], kind=NON)
        origin.answer(origin.expect_request(GET, [TEMP]), CONTENT, [max_age(7)], b"21")
        client.receive("an answer")
        log.await_lines("answers_again", 2)
        # silent twice, it answers again once
        for number in range(3, 7):
            segment = (URI_PATH, b"%d" % number)
            request = client.request(GET, [T, segment], kind=NON)
            asked = origin.expect_request(GET, [TEMP, segment])
            if number < 5:
                client.expect_response(request, GATEWAY_TIMEOUT)
                log.await_lines("gave_up", number)
            else:
                origin.answer(asked, CONTENT)
                client.receive("an answer")
        log.await_lines("answers_again", 3)


@case("CauseIsReset")
def answers_that_a_client_does_not_get(program):
    with Stage(program) as stage:
        log = Log(stage)
        client, origin = log.client, log.origin
        about = {"client": authority(client), "target": log.target, "origin": authority(origin), "sent": 1}
        request = client.request(GET, [T], kind=NON)
        asked = origin.expect_request(GET, [TEMP])
        origin.send(message(RST, EMPTY, asked.message.message_id), asked.source)
        client.expect_response(request, BAD_GATEWAY)
        log.expect_line("failed", 1, code="5.02", cause="reset", **about)
        request = client.request(GET, [T], kind=NON)
        origin.answer(origin.expect_request(GET, [TEMP]), CONTENT, [(BLOCK2, b"\x06")])
        client.expect_response(request, BAD_GATEWAY)
        log.expect_line("failed", 2, code="5.02", cause="option", option=23, **about)
        request = client.request(GET, [T], kind=NON)
        origin.answer(origin.expect_request(GET, [TEMP]), CONTENT, [], bytes(1484))
        client.expect_response(request, BAD_GATEWAY)
        log.expect_line("failed", 3, code="5.02", cause="length", **about)
        request = client.request(GET, [T], kind=NON)
        origin.answer(origin.expect_request(GET, [TEMP]), UNAVAILABLE, [max_age(7)])
        client.receive("5.03")
        log.expect_line("failed", 4, code="5.03", cause="origin", **about)
        # another error of its origin, of which no line speaks
        request = client.request(GET, [T, (URI_PATH, b"y")], kind=NON)
        origin.answer(origin.expect_request(GET, [TEMP, (URI_PATH, b"y")]), SERVER_ERROR, [max_age(0)])
        client.expect_response(request, SERVER_ERROR, [max_age(0)])
        # valid, though no tag was sent
        request = client.request(GET, [T, (URI_PATH, b"x")], kind=NON)
        origin.answer(origin.expect_request(GET, [TEMP, (URI_PATH, b"x")]), VALID, [(ETAG, b"\x01")])
        client.expect_response(request, BAD_GATEWAY)
        about["target"] += "/x"
        log.expect_line("failed", 5, code="5.02", cause="tag", **about)


@case("LimitIsExchanges", "ClientIsTheFirst")
def a_client_that_is_turned_away(program):
    with Stage(program) as stage:
        log = Log(stage, "exchanges = 1\nwaiters = 1\nclient_exchanges = 1\nclient_waiters = 1")
        client, other = log.client, log.stage.peer(to=log.address)
        client.request(GET, [T])
        log.origin.expect_request(GET, [TEMP])
        # This one would have shared the answer, so that it needs no exchange.
        other.request(GET, [T], kind=NON)
        about = {"client": authority(other), "code": "5.03", "cause": "room"}
        log.expect_line("failed", 1, target=log.target, waiters="1/1", **about)
        other.request(GET, [T, (URI_PATH, b"x")], kind=NON)
        log.expect_line("failed", 2, target=log.target + "/x", exchanges="1/1", waiters="1/1", **about)
        client.request(GET, [T, (URI_PATH, b"x")], kind=NON)
        about["client"] = authority(client)
        own = {"client_exchanges": "1/1", "client_waiters": "1/1"}
        log.expect_line("failed", 3, target=log.target + "/x", exchanges="1/1", waiters="1/1", **own, **about)


@case("ClientIsTheFirst")
def messages_that_are_dropped(program):
    with Stage(program) as stage:
        log = Log(stage, "non_records = 2\nclient_non_records = 1\ncon_records = 1\nclient_con_records = 1")
        client, other = log.client, log.stage.peer(to=log.address)
        client.request(GET, [], kind=NON)
        client.request(GET, [], kind=NON)
        log.expect_line("dropped", 1, client=authority(client), client_non="1/1")
        other.request(GET, [], kind=CON)
        other.request(GET, [], kind=CON)
        log.expect_line("dropped", 2, client=authority(other), con="1/1", client_con="1/1")


@case("PortsUncounted", "LinesTwice")
def who_has_most_of_a_full_table(program):
    with Stage(program) as stage:
        log = Log(stage, "con_records = 16\nclient_con_records = 3\nexchanges = 2\nclient_exchanges = 1")
        host, nowhere = "127.1.%d.%d" % tuple(random.randrange(1, 255) for _ in range(2)), path("nowhere")
        first, second = (stage.peer(host=host, to=log.address) for _ in range(2))
        for client, count in ((log.client, 2), (first, 2), (second, 3), (log.client, 1)):
            for _ in range(count):
                client.request(GET, nowhere)
        second.request(GET, nowhere)
        about = {"count": "8/16", "address": host, "has": 5, "ports": 2}
        log.expect_line("full", 1, table="con_records", **about)
        # In the next minute it isn't said again, of whatever table.
        first.request(GET, nowhere)
        first.request(GET, nowhere)
        log.await_lines("dropped", 2)
        first.request(GET, [T], kind=NON)
        first.request(GET, [T, (URI_PATH, b"x")], kind=NON)
        log.await_lines("failed", 1)
        expect("how often it is said", 1, len(log.await_lines("full")))


@case("PortsUncounted", "LinesTwice")
def who_has_most_of_the_greatest_table(program):
    with Stage(program) as stage:
        log = Log(stage, "con_records = 65536\nclient_con_records = 1")
        for _ in range(2):
            log.client.request(GET, path("nowhere"))
        about = {"count": "1/65536", "address": log.client.host, "has": 1, "ports": 1}
        log.expect_line("full", 1, table="con_records", **about)


@case("PortsUncounted", "LinesTwice")
def of_two_that_have_as_much_the_lower_address_is_told(program):
    with Stage(program) as stage:
        log = Log(stage, "con_records = 4\nclient_con_records = 4")
        low, high = (f"127.{it}.{random.randrange(1, 255)}.{random.randrange(1, 255)}" for it in (1, 2))
        clients = [stage.peer(host=host, to=log.address) for host in (high, low, low)]
        for client in (clients[0], *clients):
            client.request(GET, path("nowhere"))
            client.receive("a refusal")
        log.client.request(GET, path("nowhere"))
        about = {"count": "4/4", "address": low, "has": 2, "ports": 2}
        log.expect_line("full", 1, table="con_records", **about)


@case("PortsUncounted", "ClientIsTheFirst")
def who_has_most_of_the_exchanges(program):
    with Stage(program) as stage:
        log = Log(stage, "exchanges = 3\nclient_exchanges = 2\nexchange_ms = 20000")
        for name in (b"a", b"b", b"c"):
            log.client.request(GET, [T, (URI_PATH, name)], kind=NON)
        about = {"count": "2/3", "address": log.client.host, "has": 2, "ports": 1}
        log.expect_line("full", 1, table="exchanges", **about)
        log.expect_line("failed", 1, client=authority(log.client), code="5.03", target=log.target + "/c", cause="room",
                        client_exchanges="2/2")


@case("LineFeedForges", "BlankForges")
def no_byte_of_a_peer_forges_anything(program):
    with Stage(program) as stage:
        log = Log(stage, "exchanges = 1\nclient_exchanges = 1")
        log.client.request(GET, [T])
        log.origin.expect_request(GET, [TEMP])
        for at in range(8):
            segment = bytes(range(32 * at, 32 * at + 32))
            log.client.request(GET, [T, (URI_PATH, segment)], kind=NON)
            values = log.await_lines("failed", at + 1)[-1]
            expect("the keys", ["client", "code", "target", "cause", "exchanges", "client_exchanges"], list(values))
            expect("the target", log.target.encode() + b"/" + segment, unquote_to_bytes(values["target"]))
        # A path that is too long for a line is cut.
        log.client.request(GET, [T, (URI_PATH, b"\n" * 255)], kind=NON)
        target = log.await_lines("failed", 9)[-1]["target"]
        expect_form("a long target", re.escape(log.target) + "/(%0A)+(%0?)?[.]{3}", target)
