"""What must hold with many clients, with full tables, and of datagrams that are no messages."""

import random

from testing.coap import (
    ACK, BAD_GATEWAY, CHANGED, CON, CONTENT, EMPTY, GET, NON, NOT_FOUND, PUT, RST, TOO_LARGE, UNAVAILABLE, message,
    read, told,
)
from testing.network import Failed, Life, case_list, expect_between
from testing.steps import T, TEMP, expect_hit, fetch, max_age, path

CASES, case = case_list()


@case("NeverFromTheCache")
def ten_clients_share_one_request(stage):
    _, client, origin = stage.mapped()
    clients = [client] + [stage.peer(to=client.to) for _ in range(9)]
    requests = [it.request(GET, [T], kind=(CON, NON)[n % 2]) for n, it in enumerate(clients)]
    asked = origin.expect_request(GET, [TEMP])
    origin.expect_silence("at the origin while it is asked")
    answer = origin.answer(asked, CONTENT, payload=b"21")
    for it, request in zip(clients, requests):
        it.expect_late(request, CONTENT, [], b"21", life=Life(60, answer.at))
    origin.expect_silence("at the origin")


@case("AnswersLate")
def a_hundred_answers_that_are_due_go_at_once(stage):
    _, client, origin = stage.mapped()
    for _ in range(100):
        client.request(GET, [T], kind=NON)
    origin.answer(origin.expect_request(GET, [TEMP]), CONTENT, payload=b"21")
    came = [client.receive("a response").at for _ in range(100)]
    # Each would wait for four milliseconds if a read waited though something is due.
    expect_between("seconds from the first to the last", 0, 0.25, max(came) - min(came))


def second_waits(stage, nstart):
    """Two requests to one origin: how many of them it gets before it answers one."""
    _, client, origin = stage.mapped(f"nstart = {nstart}")
    requests = [client.request(GET, path("t", name), kind=NON) for name in "ab"]
    first = origin.expect_request(GET, path("temp", "a"))
    if nstart == 1:
        origin.expect_silence("at the origin while it is asked")
    else:
        second = origin.expect_request(GET, path("temp", "b"))
    life = Life(60, origin.answer(first, CONTENT, payload=b"a").at)
    client.expect_response(requests[0], CONTENT, [], b"a", life=life)
    if nstart == 1:
        second = origin.expect_request(GET, path("temp", "b"))
    life = Life(60, origin.answer(second, CONTENT, payload=b"b").at)
    client.expect_response(requests[1], CONTENT, [], b"b", life=life)


@case("OtherLimits")
def a_request_waits_for_its_turn(stage):
    second_waits(stage, 1)


@case("NstartIsOne")
def nstart_requests_go_to_an_origin_at_once(stage):
    second_waits(stage, 2)


@case("OtherLimits", "CodeChanged")
def full_exchanges_are_unavailable(stage):
    _, client, origin = stage.mapped("exchanges = 1\nretry_s = 7")
    first = client.request(GET, path("t", "a"), kind=NON)
    asked = origin.expect_request(GET, path("temp", "a"))
    for kind in (CON, NON):
        client.expect_response(client.request(GET, path("t", "b"), kind=kind), UNAVAILABLE, [max_age(7)])
    life = Life(60, origin.answer(asked, CONTENT, payload=b"a").at)
    client.expect_response(first, CONTENT, [], b"a", life=life)
    fetch(client, origin, here=path("t", "b"), there=path("temp", "b"))


@case("OtherLimits")
def full_waiters_are_unavailable(stage):
    _, client, origin = stage.mapped("waiters = 1\nretry_s = 300")
    first = client.request(GET, [T], kind=NON)
    asked = origin.expect_request(GET, [TEMP])
    other = stage.peer(to=client.to)
    other.expect_response(other.request(GET, [T]), UNAVAILABLE, [max_age(300)])
    life = Life(60, origin.answer(asked, CONTENT, payload=b"21").at)
    life = life._replace(seen=client.expect_response(first, CONTENT, [], b"21", life=life).at)
    expect_hit(other, life)


@case("OtherLimits", "NeverSilent")
def full_records_give_no_reply(stage):
    client = stage.peer(to=stage.proxy(config="[limits]\ncon_records = 1\n"))
    first = client.request(GET, [T])
    reply = client.expect_response(first, NOT_FOUND)
    client.request(GET, [T])
    client.expect_silence("beyond the limit")
    client.send(first.data)
    client.expect_bytes("the reply to a duplicate", reply.data)
    client.expect_response(client.request(GET, [T], kind=NON), NOT_FOUND)


@case("OtherLimits")
def what_is_too_long_to_send_on_is_refused(stage):
    _, client, origin = stage.mapped("datagram = 128")
    request = client.request(PUT, [T], b"x" * 112)
    client.expect_response(request, TOO_LARGE)
    request = client.request(GET, [T], kind=NON)
    origin.answer(origin.expect_request(GET, [TEMP]), CONTENT, payload=b"x" * 114)
    client.expect_response(request, BAD_GATEWAY)


@case("PayloadChanged")
def datagrams_of_4096_bytes_pass(stage):
    _, client, origin = stage.mapped("datagram = 4096")
    # Beside a head and a token there are an option and the marker of the payload.
    request = client.request(PUT, [T], b"x" * (4096 - 12 - 5 - 1))
    asked = origin.expect_request(PUT, [TEMP], b"x" * (4096 - 12 - 5 - 1))
    # A response must have room for a Max-Age of four bytes.
    origin.answer(asked, CHANGED, payload=b"y" * (4096 - 12 - 6 - 1))
    client.expect_late(request, CHANGED, payload=b"y" * (4096 - 12 - 6 - 1))


def odd(rand, client):
    """A datagram of random bytes, or a request with some bytes changed."""
    if rand.random() < 0.5:
        return bytes(rand.randrange(256) for _ in range(rand.randrange(60)))
    more = [(rand.randrange(70), bytes(rand.randrange(14))) for _ in range(rand.randrange(4))]
    data = bytearray(message(rand.choice((CON, NON)), rand.randrange(1, 5), client.new_id(), b"\x01", [T, *more], b"x"))
    for _ in range(rand.randrange(1, 4)):
        data[rand.randrange(len(data))] = rand.randrange(256)
    return bytes(data[: rand.randrange(3, 60)])


def check_replies(stranger, sent):
    """Has each reply be a message that acknowledges or rejects what was sent, or one of the proxy's own."""
    while True:
        came = stranger.poll(0.001)
        if came is None:
            return
        try:
            it = read(came[0])
        except ValueError:
            raise Failed(f"the proxy sent {told(came[0])}") from None
        if it.kind in (ACK, RST) and it.message_id not in sent:
            raise Failed(f"the proxy replied to what wasn't sent: {told(came[0])}")


@case("StopsAtBadMessages")
def odd_datagrams_harm_nobody(stage):
    _, client, origin = stage.mapped("con_records = 65536\nnon_records = 65536")
    life, rand = fetch(client, origin), random.Random(7252)
    for length in (1_501, 4_000, 60_000):
        long = stage.peer(to=client.to)
        long.send(message(CON, GET, 7, b"", [T], b"x" * length))
        long.expect_bytes("the reply to a long datagram", message(RST, EMPTY, 7))
        long.send(message(NON, GET, 8, b"", [T], b"x" * length))
        long.expect_silence("for a long Non-confirmable datagram", 0.1)
    strangers = [(stage.peer(to=client.to), set()) for _ in range(4)]
    for _ in range(40):
        stranger, sent = rand.choice(strangers)
        for _ in range(50):
            data = odd(rand, stranger)
            sent.add(int.from_bytes(data[2:4], "big"))
            stranger.send(data)
        expect_hit(client, life)
        check_replies(stranger, sent)
