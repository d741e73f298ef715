"""Sections 4.2, 4.7 and 4.8: retransmission, and how much is sent to an endpoint that doesn't answer."""

from conforming import wire
from conforming.cases import MUST, SHOULD, NotKept, NotOffered, case_list, expect, expect_between
from conforming.messages import confirmable, separate_answer
from conforming.wire import ACK, CON, GET, NON, POST, RST

CASES, case = case_list("4.2")
CONTENT, TIMEOUT = wire.code("2.05"), wire.code("5.04")
# How late a timer may fire on a machine that is loaded, and how early one may seem to, in seconds.
LATE, EARLY = 0.6, 0.02


def again(stage, endpoint, first, longest):
    """A message that comes again within so many seconds of the RFC, or None."""
    return endpoint.find_late(lambda it: it.data[2:4] == first.data[2:4], stage.seconds(longest) + LATE)


def ask(stage, kind=CON):
    """A request that reaches a silent origin in a Confirmable message: resource, client, request, what came."""
    resource, client = stage.resource(), stage.client()
    request = client.request(GET, resource.here, kind=kind)
    asked = resource.origin.next()
    confirmable(asked)
    return resource, client, request, asked


@case(MUST, "SendsOnce", "SendsAgainSoon", also=["CodesLost"])
def a_request_that_is_not_acknowledged_is_sent_again(stage):
    """For a new Confirmable message, the initial timeout is set to a random duration between ACK_TIMEOUT and
    ACK_TIMEOUT * ACK_RANDOM_FACTOR."""
    resource, client, request, asked = ask(stage)
    second = again(stage, resource.origin, asked, 3)
    if second is None:
        raise NotKept("it should be sent again within 3 s, and wasn't")
    expect_between("seconds until then", stage.seconds(2) - EARLY, stage.seconds(3) + LATE, second.at - asked.at)
    resource.origin.answer(second)
    client.expect_code(request, CONTENT)


@case(MUST, "SendsAgainAsNew", "SendsAgainElsewhere", each={
    "in its bytes": "bytes", "in where it comes from": "source",
})
def a_retransmission_is_the_same_message(stage, what):
    """The sender retransmits the Confirmable message: the same Message ID, token, options and payload; and from the
    same address and port, without which its Message ID says nothing (4.4)."""
    resource, client, _, asked = ask(stage)
    second = resource.origin.find(lambda it: wire.is_request(it.message.code), stage.seconds(3) + LATE)
    if second is None:
        raise NotOffered("it didn't send it again")
    if what == "bytes":
        expect("what was sent again", asked.data.hex(), second.data.hex())
    else:
        expect("where it came from", asked.source, second.source)


@case(MUST, "TimeoutsConstant", also=["SendsTwice", "TimeoutsLong"])
def a_timeout_is_doubled(stage):
    """When the timeout is triggered and the counter is less than MAX_RETRANSMIT, the timeout is doubled."""
    resource, _, _, asked = ask(stage)
    second = again(stage, resource.origin, asked, 3)
    third = second and again(stage, resource.origin, asked, 6)
    if third is None:
        raise NotKept("it should be sent a third time within 9 s, and wasn't")
    first_wait, wait = second.at - asked.at, third.at - second.at
    expect_between("the second timeout", 2 * first_wait - LATE / 2, 2 * first_wait + LATE, wait)
    expect_between("the second timeout", stage.seconds(4) - EARLY, stage.seconds(6) + LATE, wait)


@case(MUST, "SendsAgainAlways", each={"an Empty acknowledgement": "ack", "its response": "answer", "a Reset": "reset"})
def a_request_is_not_sent_again_after(stage, what):
    """Retransmission goes on until an Acknowledgement or a Reset comes, or attempts run out."""
    resource, client, _, asked = ask(stage)
    if what == "answer":
        resource.origin.answer(asked)
    else:
        resource.origin.empty(ACK if what == "ack" else RST, asked)
    more = again(stage, resource.origin, asked, 3)
    expect("whether it was sent again", False, more is not None)


@case(SHOULD, "SendsAtTwo", at="4.8.1", needs=("forward",))
def first_timeouts_are_random(stage):
    """ACK_RANDOM_FACTOR is there so that requests of several senders don't stay in step."""
    origins = [stage.origin() for _ in range(8)]
    client, waits, firsts = stage.client(), [], []
    for it in origins:
        client.request(GET, stage.resource(origin=it).here, kind=NON)
        firsts.append(it.next())
        confirmable(firsts[-1])
    for it, first in zip(origins, firsts):
        second = again(stage, it, first, 3)
        if second is None:
            raise NotOffered("it didn't send it again")
        waits.append(second.at - first.at)
    # Of eight random ones between 2 and 3 s, all lie within 0.15 s once in 70,000 times.
    spread = max(waits) - min(waits)
    if spread < stage.seconds(0.15):
        raise NotKept(f"eight of them lie within {spread:.3f} s")


@case(MUST, "SendsFourTimes", "SendsSixTimes", also=["TimeoutsConstant"], is_long=True)
def a_request_is_sent_five_times(stage):
    """MAX_RETRANSMIT is 4: the message is sent once, and then up to four times again."""
    stage.is_silent = True
    resource, _, _, asked = ask(stage)
    moments = [asked.at]
    while len(moments) < 7:
        it = again(stage, resource.origin, asked, 50)
        if it is None:
            break
        moments.append(it.at)
    expect("how often it was sent", 5, len(moments))
    expect_between("seconds in all", stage.seconds(30) - EARLY, stage.seconds(45) + 4 * LATE, moments[-1] - moments[0])


@case(MUST, "NoGatewayTimeout", at="5.7.1", each={"confirmable": CON, "non-confirmable": NON}, is_long=True)
def a_request_that_times_out_gives_5_04(stage, kind):
    """If the request to the destination times out, then a 5.04 (Gateway Timeout) response MUST be returned."""
    stage.is_silent = True
    resource, client, request, _ = ask(stage, kind)
    client.expect_code(request, TIMEOUT, seconds=stage.seconds(110) + LATE)


@case(MUST, "NoGatewayTimeout", at="5.7.1", is_long=True)
def a_request_that_is_only_acknowledged_gives_5_04(stage):
    resource, client, request, asked = ask(stage)
    resource.origin.acknowledge(asked)
    client.expect_code(request, TIMEOUT, seconds=stage.seconds(300) + LATE)


# Answers in messages of their own


@case(MUST, "AnswersOnce", "AnswersAgainSoon", also=["AnswersAgainChanged"])
def an_answer_that_is_not_acknowledged_is_sent_again(stage):
    resource, client = stage.resource(), stage.client()
    answer = separate_answer(stage, resource, client)
    second = again(stage, client, answer, 3)
    if second is None:
        raise NotKept("it should be sent again within 3 s, and wasn't")
    expect("what was sent again", answer.data[:4].hex(), second.data[:4].hex())
    expect_between("seconds until then", stage.seconds(2) - EARLY, stage.seconds(3) + LATE, second.at - answer.at)
    client.acknowledge(second)


ENDINGS = {"an Empty acknowledgement": ACK, "a Reset": RST}


@case(MUST, "AnswersAlways", at="5.2.2", each=ENDINGS)
def an_answer_is_not_sent_again_after(stage, kind):
    """The server MUST cease retransmission of its response on any matching Acknowledgement or Reset."""
    resource, client = stage.resource(), stage.client()
    answer = separate_answer(stage, resource, client)
    client.empty(kind, answer)
    expect("whether it was sent again", False, again(stage, client, answer, 3) is not None)


FILLED = {"a code": (CONTENT, b"", b""), "a code and a payload": (CONTENT, b"\x01", b"x"), "a request": (GET, b"", b"")}


@case(MUST, "FilledAcksIgnored", also=["AnswersNothing"], at="5.2.2", each=FILLED)
def an_answer_is_ended_by_an_acknowledgement_with(stage, code, token, payload):
    """.. on any matching Acknowledgement (silently ignoring any Response Code or payload) or Reset. Of one with a
    request that is arguable: the sentence names response codes and payloads, and 4.2 has such an Acknowledgement be
    rejected by ignoring it."""
    resource, client = stage.resource(), stage.client()
    answer = separate_answer(stage, resource, client)
    client.send_raw(wire.message(ACK, code, answer.message.message_id, token, [], payload))
    expect("whether it was sent again", False, again(stage, client, answer, 3) is not None)


# Congestion


@case(MUST, "NstartIgnored", at="4.7", each={"by Confirmable requests": CON, "by Non-confirmable ones": NON})
def one_interaction_with_an_origin_is_outstanding(stage, kind):
    """Clients (including proxies) MUST strictly limit it to NSTART, which is 1."""
    resource = stage.resource()
    origin, others = resource.origin, [resource.other(name) for name in "abcd"]
    for it in others:
        stage.client().request(GET, it.here, kind=kind)
    first = origin.asked(GET)
    origin.expect_no_request("while one is neither acknowledged nor answered", stage.seconds(1.5))
    origin.answer(first)
    origin.asked(GET, stage.seconds(3) + 1)


@case(MUST, "NstartIgnored", at="4.8.1", needs=("forward",))
def nstart_is_one_without_other_control_of_congestion(stage):
    """NSTART can only be raised with a congestion control that RFC 7252 doesn't have. By default it isn't."""
    resource = stage.resource()
    others = [resource.other(name) for name in "abcdefgh"]
    client = stage.client()
    for it in others:
        client.request(POST, it.here, b"x", NON)
    resource.origin.asked(POST)
    resource.origin.expect_no_request("while one is neither acknowledged nor answered", stage.seconds(1.5))


@case(MUST, "NstartForever", at="4.7")
def an_acknowledged_request_makes_room_for_the_next(stage):
    """An interaction is outstanding as long as neither an Acknowledgement nor a response came."""
    resource = stage.resource()
    origin, others, client = resource.origin, [resource.other(name) for name in "abc"], stage.client()
    for it in others:
        client.request(GET, it.here, kind=NON)
    for _ in others:
        asked = origin.asked(GET, stage.seconds(5) + 1)
        confirmable(asked)
        origin.acknowledge(asked)


@case(MUST, "ProbesFast", at="4.7", is_long=True)
def a_silent_origin_is_sent_a_byte_a_second(stage):
    """An endpoint MUST NOT exceed an average data rate of PROBING_RATE in sending to another endpoint that doesn't
    respond. After a request of 300 bytes, which was sent five times, another has to wait for 1,500 seconds."""
    stage.is_silent = True
    resource, client = stage.resource(), stage.client()
    for name in "ab":
        client.request(POST, resource.other(name).here, 300 * b"x", NON)
    first = resource.origin.asked(POST)
    second = resource.origin.find(
        lambda it: wire.is_request(it.message.code) and it.data[2:4] != first.data[2:4], stage.seconds(130)
    )
    expect("whether the second one was sent within 130 s", False, second is not None)
