"""What must hold of messages that are lost, late, repeated or forged."""

import time

from testing.coap import ACK, CHANGED, CON, CONTENT, EMPTY, GATEWAY_TIMEOUT, GET, NON, POST, RST, message
from testing.network import Life, case_list, expect_between
from testing.steps import FIRST_TIMEOUT, T, TEMP, expect_hit, expect_wait, fetch, path

CASES, case = case_list()


@case("SendsOnce", "SendsAgainSoon", "SendsAgainAsNew")
def a_request_that_was_lost_is_sent_again(stage):
    _, client, origin = stage.mapped()
    request = client.request(GET, [T], kind=NON)
    lost = origin.expect_request(GET, [TEMP])
    asked = origin.expect_request(GET, [TEMP])
    expect_wait(lost, asked)
    answer = origin.answer(asked, CONTENT, payload=b"21")
    client.expect_response(request, CONTENT, [], b"21", life=Life(60, answer.at))
    origin.expect_silence("at the origin after its answer")


@case("SendsOnce", "SendsAgainSoon")
def a_response_is_sent_again_until_it_is_acknowledged(stage):
    _, client, origin = stage.mapped()
    request = client.request(POST, [T])
    origin.answer(origin.expect_request(POST, [TEMP]), CHANGED)
    client.expect_acknowledgement(request)
    first = client.receive("the response")
    expect_wait(first, client.expect_separate(request, CHANGED))
    client.expect_silence("after its acknowledgement", 4.6)


@case("SendsAgainAtTwo")
def first_timeouts_differ(stage):
    _, client, origin = stage.mapped("nstart = 8")
    for n in range(8):
        client.request(GET, path("t", f"{n}"), kind=NON)
    first = [origin.receive("a request") for _ in range(8)]
    sent, waits = {it.message.message_id: it.at for it in first}, []
    for _ in range(8):
        again = origin.receive("a request that is sent again")
        waits.append(again.at - sent.pop(again.message.message_id))
    expect_between("seconds until the first one was sent again", *FIRST_TIMEOUT, min(waits))
    expect_between("how far apart they are", 0.05, 1.5, max(waits) - min(waits))


@case("SendsAgainSoon")
def a_reset_ends_a_response(stage):
    _, client, origin = stage.mapped()
    request = client.request(POST, [T])
    origin.answer(origin.expect_request(POST, [TEMP]), CHANGED)
    client.expect_acknowledgement(request)
    client.acknowledge(client.receive("the response"), RST)
    client.expect_silence("after a Reset", 3.3)


def expect_timeout(request, came):
    """Has a 5.04 come when an exchange of a second is over."""
    expect_between("seconds until 5.04", 0.99, 3.0, came.at - request.at)


@case("CodeChanged", "OtherLimits")
def a_silent_origin_is_given_up(stage):
    _, client, origin = stage.mapped("exchange_ms = 1000")
    request = client.request(GET, [T], kind=NON)
    origin.expect_request(GET, [TEMP])
    expect_timeout(request, client.expect_response(request, GATEWAY_TIMEOUT))
    fetch(client, origin)


@case("OtherLimits")
def an_origin_that_only_acknowledges_is_given_up(stage):
    _, client, origin = stage.mapped("exchange_ms = 1000")
    request = client.request(GET, [T])
    origin.acknowledge(origin.expect_request(GET, [TEMP]))
    expect_timeout(request, client.expect_late(request, GATEWAY_TIMEOUT))


@case("SeparateIgnored")
def a_separate_response_is_acknowledged_each_time(stage):
    _, client, origin = stage.mapped()
    request = client.request(GET, [T])
    asked = origin.expect_request(GET, [TEMP])
    origin.acknowledge(asked)
    answer = origin.answer(asked, CONTENT, payload=b"21", kind=CON)
    origin.expect_acknowledgement(answer)
    life = Life(60, answer.at)
    client.expect_late(request, CONTENT, [], b"21", life=life)
    origin.send(answer.data, answer.source)
    origin.expect_acknowledgement(answer)
    client.expect_silence("for a response that came again")


@case("NonConfirmableIgnored")
def a_separate_response_may_be_non_confirmable(stage):
    _, client, origin = stage.mapped()
    request = client.request(GET, [T])
    asked = origin.expect_request(GET, [TEMP])
    origin.acknowledge(asked)
    answer = origin.answer(asked, CONTENT, payload=b"21", kind=NON)
    client.expect_late(request, CONTENT, [], b"21", life=Life(60, answer.at))
    origin.expect_silence("at the origin")


@case("DuplicatesAreNew")
def a_duplicate_gets_the_same_bytes_again(stage):
    _, client, origin = stage.mapped()
    request, reply = expect_hit(client, fetch(client, origin))
    time.sleep(1.2)
    client.send(request.data)
    client.expect_bytes("the reply to a duplicate", reply.data)


@case("DuplicatesAreNew")
def a_non_confirmable_duplicate_gets_nothing(stage):
    _, client, origin = stage.mapped()
    life = fetch(client, origin)
    request, _ = expect_hit(client, life, kind=NON)
    client.send(request.data)
    client.expect_silence("for a duplicate")


@case("DuplicatesAreNew")
def a_post_that_comes_again_is_done_once(stage):
    _, client, origin = stage.mapped()
    request = client.request(POST, [T], b"more")
    asked = origin.expect_request(POST, [TEMP], b"more")
    client.expect_acknowledgement(request)
    client.send(request.data)
    client.expect_acknowledgement(request)
    origin.answer(asked, CHANGED)
    client.expect_separate(request, CHANGED)
    client.send(request.data)
    client.expect_acknowledgement(request)
    origin.expect_silence("at the origin")


@case("SourcesAreOne")
def the_same_bytes_of_another_client_are_new(stage):
    _, client, origin = stage.mapped()
    life = fetch(client, origin)
    request, _ = expect_hit(client, life, kind=NON)
    other = stage.peer(to=client.to)
    other.send(request.data)
    other.expect_response(request, CONTENT, [], b"21", life=life._replace(seen=None))


@case("ImpostorsBelieved")
def only_the_origin_is_believed(stage):
    _, client, origin = stage.mapped()
    request = client.request(GET, [T], kind=NON)
    asked = origin.expect_request(GET, [TEMP])
    impostor = stage.peer()
    impostor.send(message(ACK, CONTENT, asked.message.message_id, asked.message.token, [], b"99"), asked.source)
    impostor.expect_silence("for a forged acknowledgement", 0.1)
    forged = message(CON, CONTENT, 1, asked.message.token, [], b"99")
    impostor.send(forged, asked.source)
    impostor.expect_bytes("the reply to a forged response", message(RST, EMPTY, 1))
    wrong = asked.message.token[:-1] + bytes([asked.message.token[-1] ^ 1])
    origin.send(message(ACK, CONTENT, asked.message.message_id, wrong, [], b"99"), asked.source)
    client.expect_silence("for what isn't the answer")
    life = Life(60, origin.answer(asked, CONTENT, payload=b"21").at)
    client.expect_response(request, CONTENT, [], b"21", life=life)
