"""Section 4: acknowledgements, Resets, Message IDs and duplicates."""

import time

from conforming import wire
from conforming.cases import MUST, SHOULD, NotKept, NotOffered, case_list, expect
from conforming.endpoints import SILENCE
from conforming.wire import ACK, CON, EMPTY, GET, NON, POST, RST

CASES, case = case_list("4.2")
CONTENT, CHANGED = wire.code("2.05"), wire.code("2.04")
METHODS = {"GET": GET, "POST": POST, "PUT": 3, "DELETE": 4}
ANSWERS = {GET: CONTENT, POST: CHANGED, 3: CHANGED, 4: wire.code("2.02")}
CHANGES = {name: method for name, method in METHODS.items() if method != GET}
IDS = (0, 1, 255, 256, 65535)


def body_of(method):
    """A payload for a method that has one."""
    return b"x" if method in (POST, 3) else b""


@case(MUST, "NotAcknowledged", also=["CodesLost"], each=METHODS)
def a_confirmable_request_is_acknowledged_while_its_origin_is_silent(stage, method):
    """The recipient MUST acknowledge it or reject it. PROCESSING_DELAY (4.8.2) has it do so within ACK_TIMEOUT."""
    resource, client = stage.resource(), stage.client()
    request = client.request(method, resource.here, body_of(method))
    asked = resource.origin.asked(method)
    resource.origin.acknowledge_if_confirmable(asked)
    came = client.find(lambda it: it.data[2:4] == request.data[2:4], stage.seconds(2) + 1)
    if came is None or came.message.kind not in (ACK, RST):
        raise NotKept(f"an acknowledgement or a Reset is right, the client got {client.told()}")
    resource.origin.answer(asked, ANSWERS[method], [], b"", NON)
    client.expect_code(request, ANSWERS[method])


@case(MUST, "IdsOff", also=["AcknowledgesNothing"], each=IDS)
def an_acknowledgement_has_the_id_of_its_message(stage, message_id):
    resource, client = stage.resource(), stage.client()
    client.request(GET, resource.here, message_id=message_id)
    resource.origin.answer(resource.origin.asked(GET))
    came = client.find(lambda it: it.message.kind in (ACK, RST))
    if came is None:
        raise NotKept(f"no acknowledgement came; the client got {client.told()}")
    expect("its Message ID", message_id, came.message.message_id)


@case(MUST, "AcknowledgesElsewhere", also=["NotAcknowledged"], each=("request", "response"))
def an_acknowledgement_comes_from_where_its_message_was_sent(stage, which):
    """It is matched by its Message ID along with the address of the corresponding endpoint, which is an address and a
    port (4.4): the one that the message was sent to. An endpoint of the suite takes no other."""
    resource, client = stage.resource(), stage.client()
    request = client.request(POST, resource.here, b"x")
    asked = resource.origin.asked(POST)
    resource.origin.acknowledge_if_confirmable(asked)
    if which == "request":
        came = client.find(lambda it: it.message.kind == ACK, stage.seconds(2) + 1)
    resource.origin.answer(asked, CHANGED, [], b"", CON)
    if which == "response":
        came = resource.origin.find(lambda it: it.message.kind == ACK)
    if came is None:
        raise NotKept("no acknowledgement came")


@case(MUST, "PingsAnswered", always=["RejectsBySilence"], both=False, each=IDS)
def an_empty_confirmable_message_is_rejected(stage, message_id):
    """The recipient MUST reject it; rejecting a Confirmable message is effected by sending a matching Reset message and
    otherwise ignoring it. The Reset echoes the Message ID and is Empty."""
    client = stage.client()
    data = wire.message(CON, EMPTY, message_id)
    client.send_raw(data)
    client.expect_rejection(data)


UNASKED = {
    "an Empty acknowledgement": (ACK, EMPTY, b""),
    "a Reset": (RST, EMPTY, b""),
    "an acknowledgement with a response": (ACK, CONTENT, b"\x01"),
    "an acknowledgement with a request": (ACK, GET, b"\x01"),
    "a Reset with a request": (RST, GET, b"\x01"),
    "a Reset with a response": (RST, CONTENT, b"\x01"),
}


@case(MUST, "AcksAnswered", both=False, each=UNASKED)
def an_acknowledgement_or_a_reset_is_not_answered(stage, kind, code, token):
    """Recipients of Acknowledgement and Reset messages MUST NOT respond with either."""
    client = stage.client()
    client.send_raw(wire.message(kind, code, client.new_id(), token))
    client.expect_silence("for it")


@case(MUST, always=["RepliesServed"], also=["AcksAnswered"], each={"an acknowledgement": ACK, "a Reset": RST})
def a_request_in_an_acknowledgement_or_a_reset_is_not_served(stage, kind):
    """An Acknowledgement carries a response or is Empty, a Reset is Empty: another one is rejected by ignoring it. So
    nothing is asked, and nothing comes back."""
    resource, client = stage.resource(), stage.client()
    client.send_raw(wire.message(kind, POST, client.new_id(), b"\x01", resource.here, b"x"))
    resource.origin.expect_no_request("for a request in such a message")
    client.expect_silence("for it", 0.05)


LONG = {"a token": b"\x41\x00\x12\x34a", "an option": b"\x40\x00\x12\x34\x11a", "a payload": b"\x40\x00\x12\x34\xffa"}


@case(MUST, "LongEmptyAccepted", always=["RejectsBySilence"], at="4.1", both=False, each=LONG)
def an_empty_message_longer_than_its_header_is_rejected(stage, data):
    """If there are any bytes, they MUST be processed as a message format error: so rejected by a Reset (4.2)."""
    client = stage.client()
    client.send_raw(data)
    client.expect_rejection(data)


@case(MUST, "LongEmptyAccepted", at="4.1", each={"an option": b"\x11a", "a payload": b"\xffa"})
def an_acknowledgement_with_more_than_its_header_does_not_count(stage, raw):
    """A format error in an Acknowledgement has it be ignored (4.2), so the request is sent again."""
    resource, client = stage.resource(), stage.client()
    client.request(GET, resource.here)
    asked = resource.origin.next()
    confirmable(asked)
    resource.origin.send(wire.message(ACK, EMPTY, asked.message.message_id) + raw, asked.source)
    expect_again(stage, resource.origin, asked)


def confirmable(asked):
    """Isn't offered unless the origin was asked in a Confirmable message."""
    if asked is None:
        raise NotKept("the origin wasn't asked")
    if asked.message.kind != CON:
        raise NotOffered("it asks the origin in Non-confirmable messages")


def expect_again(stage, endpoint, first):
    """Has a message come again within its first timeout."""
    again = endpoint.find(lambda it: (it.data, it.source) == (first.data, first.source), stage.seconds(3) + 1.5)
    if again is None:
        raise NotKept("it should be sent again within 3 s, and wasn't")
    return again


RESERVED = {"1.00": 32, "1.31": 63, "6.00": 192, "6.31": 223, "7.00": 224, "7.31": 255}


@case(MUST, "ReservedClassesAnswered", always=["RejectsBySilence"], both=False, each=RESERVED)
def a_confirmable_message_of_a_reserved_class_is_rejected(stage, code):
    """The recipient MUST reject it if it uses a code with a reserved class (1, 6, or 7): by a Reset."""
    client = stage.client()
    data = wire.message(CON, code, client.new_id(), b"\x01", wire.path("x"))
    client.send_raw(data)
    client.expect_rejection(data)


@case(MUST, "ReservedClassesAnswered", at="4.3", both=False, each={
    key: RESERVED[key] for key in ("1.00", "6.00", "7.00")
})
def a_non_confirmable_message_of_a_reserved_class_is_rejected(stage, code):
    """Rejecting it MAY be by a matching Reset, and apart from that it MUST be silently ignored."""
    client = stage.client()
    data = wire.message(NON, code, client.new_id(), b"\x01", wire.path("x"))
    client.send_raw(data)
    client.expect_rejection(data)


STRAY = {"2.05": CONTENT, "4.04": wire.code("4.04"), "5.04": wire.code("5.04")}


@case(MUST, "StrayResponsesAcknowledged", always=["RejectsBySilence"], at="4.2", both=False, each=STRAY)
def a_confirmable_response_that_nobody_awaits_is_rejected(stage, code):
    """It's a message that the recipient lacks context to process (5.3.2), so it is rejected by a Reset."""
    client = stage.client()
    data = wire.message(CON, code, client.new_id(), b"\x01\x02", [], b"x")
    client.send_raw(data)
    client.expect_rejection(data)


@case(MUST, "EmptyNonAnswered", at="4.3", both=False)
def an_empty_non_confirmable_message_is_ignored_or_rejected(stage):
    client = stage.client()
    data = wire.message(NON, EMPTY, client.new_id())
    client.send_raw(data)
    client.expect_rejection(data)


@case(MUST, "NonAcknowledged", also=["AnswersNothing"], at="4.3", each=METHODS)
def a_non_confirmable_request_is_not_acknowledged(stage, method):
    """A Non-confirmable message MUST NOT be acknowledged by the recipient."""
    resource, client = stage.resource(), stage.client()
    request = client.request(method, resource.here, body_of(method), NON)
    asked = resource.origin.asked(method)
    client.expect_silence("while the origin is asked", stage.seconds(1) + 0.2)
    resource.origin.answer(asked, ANSWERS[method], [], b"")
    expect("whether it is in an acknowledgement", False, client.response(request).message.kind == ACK)


@case(MUST, "EmptyNonSent", at="4.3")
def a_non_confirmable_message_that_it_sends_is_not_empty(stage):
    """A Non-confirmable message always carries either a request or response and MUST NOT be Empty."""
    resource, client = stage.resource(), stage.client()
    request = client.request(GET, resource.here, kind=NON)
    resource.origin.answer_later(resource.origin.asked(GET), seconds=stage.seconds(1))
    client.response(request)
    client.find(lambda it: False, 0.2)
    for it in client.came:
        is_empty = it.message.kind == NON and it.message.code == EMPTY
        expect("whether an Empty Non-confirmable message came", False, is_empty)


# Duplicates


def repeat(stage, method, kind, answered):
    """Sends a request twice, the second time before or after its answer, and returns what it met."""
    resource, client = stage.resource(), stage.client()
    request = client.request(method, resource.here, body_of(method), kind)
    asked = resource.origin.asked(method)
    first = None
    if answered:
        resource.origin.answer(asked, ANSWERS[method], [wire.max_age(0)], b"")
        first = client.expect_code(request, ANSWERS[method])
    else:
        resource.origin.acknowledge_if_confirmable(asked)
    time.sleep(0.1)
    client.came.clear()
    client.send_raw(request.data)
    return resource, client, request, asked, first


@case(SHOULD, "DuplicatesAreNew", at="4.5", each=CHANGES)
def a_confirmable_request_that_comes_again_is_done_once(stage, method):
    """The recipient SHOULD process any request or response in the message only once."""
    resource, client, _, _, _ = repeat(stage, method, CON, True)
    resource.origin.expect_no_request("for a duplicate")


@case(SHOULD, "DuplicatesAreNew", also=["CodesLost"], at="4.5", each=METHODS)
def a_confirmable_request_that_comes_again_before_its_answer_is_done_once(stage, method):
    resource, client, request, asked, _ = repeat(stage, method, CON, False)
    resource.origin.expect_no_request("for a duplicate")
    resource.origin.answer(asked, ANSWERS[method], [], b"", NON)
    client.expect_code(request, ANSWERS[method])


@case(SHOULD, "DuplicatesIgnored", also=["CodesLost", "DuplicatesAcknowledgedAlone"], at="4.5", each=METHODS)
def a_confirmable_request_that_comes_again_is_acknowledged_again(stage, method):
    """It SHOULD acknowledge each duplicate using the same Acknowledgement or Reset, within PROCESSING_DELAY (4.8.2). An
    idempotent one may be done again (4.5), and then has an acknowledgement of its own."""
    resource, client, request, _, first = repeat(stage, method, CON, True)
    wait = stage.seconds(2) + SILENCE
    came = client.find(lambda it: it.message.kind in (ACK, RST) and it.data[2:4] == request.data[2:4], wait)
    if came is None and method != POST:
        asked = resource.origin.new(SILENCE)
        if asked is not None:
            resource.origin.answer(asked, ANSWERS[method], [], b"")
            came = client.reply(request)
    if came is None:
        raise NotKept(f"an acknowledgement is right, the client got {client.told()}")
    if first.message.kind == ACK and method == POST:
        expect("the acknowledgement", first.data.hex(), came.data.hex())


KINDS = {"confirmable": CON, "non-confirmable": NON}


def done(resource, client, body, kind, **more):
    """Has a POST be done and answered, and returns it."""
    request = client.request(POST, resource.here, body, kind, **more)
    resource.origin.answer(resource.origin.asked(POST), CHANGED, [], b"")
    client.expect_code(request, CHANGED)
    client.came.clear()
    return request


@case(SHOULD, always=["LastRemembered"], at="4.5", each=KINDS)
def an_earlier_request_that_comes_again_is_done_once(stage, kind):
    """Each message is remembered for its lifetime, not only the last one: of A, B and again A, the third is a
    duplicate."""
    resource, client = stage.resource(), stage.client()
    first, _ = (done(resource, client, body, kind) for body in (b"a", b"b"))
    client.send_raw(first.data)
    resource.origin.expect_no_request("for a duplicate")


@case(SHOULD, always=["TokensTellDuplicates"], at="4.5", each=KINDS)
def a_request_with_the_id_of_another_is_its_duplicate(stage, kind):
    """A duplicate has the same Message ID and source endpoint (4.4). That its token is another one, as no client may
    send it, makes no difference."""
    resource, client = stage.resource(), stage.client()
    first = done(resource, client, b"x", kind, token=b"one")
    client.request(POST, resource.here, b"x", kind, b"other", first.message.message_id)
    resource.origin.expect_no_request("for a duplicate")


@case(SHOULD, always=["ForgetsAtOnce"], also=["CodesLost"], at="4.5", each=KINDS)
def a_request_that_comes_again_after_eight_seconds_is_done_once(stage, kind):
    """A message may come again for MAX_TRANSMIT_SPAN and MAX_LATENCY, and is remembered for longer (4.8.2)."""
    resource, client = stage.resource(), stage.client()
    request = done(resource, client, b"x", kind)
    stage.sleep(8)
    client.send_raw(request.data)
    resource.origin.expect_no_request("for a duplicate")


@case(MUST, always=["OriginsAreOne"], at="4.4", needs=("forward",))
def a_message_id_of_another_origin_is_no_duplicate(stage):
    """A Message ID is that of its endpoint: two origins may use the same one."""
    clients, requests = [], []
    for body in (b"one", b"two"):
        resource, client = stage.resource(), stage.client()
        requests.append(client.request(POST, resource.here, body))
        asked = resource.origin.asked(POST)
        resource.origin.acknowledge_if_confirmable(asked)
        resource.origin.next_id = 7
        resource.origin.answer(asked, CHANGED, [], body, CON)
        clients.append(client)
    for client, request in zip(clients, requests):
        expect("the payload", request.message.payload, client.expect_code(request, CHANGED).message.payload)


@case(SHOULD, "DuplicatesIgnored", also=["DuplicatesAcknowledgedAlone"], at="4.5", needs=("cache",))
def a_duplicate_of_what_the_cache_answered_gets_the_same_again(stage):
    resource = stage.resource()
    stage.fetch(resource)
    client = stage.client()
    request = client.request(GET, resource.here)
    first = client.response(request)
    time.sleep(1.1)
    client.send_raw(request.data)
    came = client.find(lambda it: it.message.kind == ACK)
    expect("whether it is acknowledged again", True, came is not None)
    wanted = first.message.payload if first.message.kind == ACK else b""
    expect("the payload of the acknowledgement", wanted, came.message.payload)


@case(SHOULD, "DuplicatesAreNew", also=["NonDuplicatesRejected"], at="4.5", each=METHODS)
def a_non_confirmable_request_that_comes_again_is_done_once(stage, method):
    """The recipient SHOULD silently ignore any duplicated Non-confirmable message and SHOULD process any request or
    response in the message only once."""
    resource, client, _, _, _ = repeat(stage, method, NON, True)
    resource.origin.expect_no_request("for a duplicate")
    client.expect_silence("for a duplicate", 0.05)


@case(MUST, "SourcesAreOne", also=["CodesLost"], at="4.5", each={"confirmable": CON, "non-confirmable": NON})
def the_same_bytes_of_another_client_are_no_duplicate(stage, kind):
    """A duplicate has the same Message ID and source endpoint."""
    resource, client, other = stage.resource(), stage.client(), stage.client()
    data = wire.message(kind, POST, 77, b"ab", resource.here, b"x")
    for it in (client, other):
        it.send_raw(data)
        resource.origin.answer(resource.origin.asked(POST), CHANGED, [], b"")
        came = it.find(lambda it: it.message.code == CHANGED)
        expect("whether each client is answered", True, came is not None)


@case(SHOULD, "SeparateDoneTwice", also=["CodesLost", "SeparateAnsweredTwice"], at="4.5")
def a_confirmable_response_that_comes_again_is_acknowledged_again(stage):
    """It SHOULD acknowledge each duplicate copy, and process it only once."""
    resource, client = stage.resource(), stage.client()
    request = client.request(POST, resource.here, b"x")
    asked = resource.origin.asked(POST)
    resource.origin.acknowledge_if_confirmable(asked)
    answer = resource.origin.answer(asked, CHANGED, [], b"", CON)
    wanted = wire.message(ACK, EMPTY, answer.message.message_id)
    for count in range(2):
        came = resource.origin.find(lambda it: it.data == wanted)
        expect(f"whether it is acknowledged, of {count + 1}", True, came is not None)
        if count == 0:
            client.expect_code(request, CHANGED)
            client.came.clear()
            resource.origin.send(answer.data, answer.source)
    client.expect_silence("for a response that came again", 0.2)


@case(
    MUST, "ForgetsNever", also=["CodesLost", "BodiesChanged"], at="4.5",
    each={"confirmable": (CON, 247), "non-confirmable": (NON, 145)}, is_long=True,
)
def an_id_is_new_after_its_lifetime(stage, kind, seconds):
    """A Message ID may be used again after EXCHANGE_LIFETIME or NON_LIFETIME (4.4), so what has it then is new."""
    resource, client = stage.resource(), stage.client()
    request = client.request(POST, resource.here, b"x", kind)
    resource.origin.answer(resource.origin.asked(POST), CHANGED, [], b"")
    client.expect_code(request, CHANGED)
    client.came.clear()
    stage.sleep(seconds + 3)
    again = wire.message(kind, POST, request.message.message_id, b"new", resource.here, b"y")
    client.send_raw(again)
    asked = resource.origin.asked(POST)
    expect("the payload at the origin", b"y", asked.message.payload)
    resource.origin.answer(asked, CHANGED, [], b"")


@case(
    SHOULD, "ForgetsSoon", also=["CodesLost"], at="4.5",
    each={"confirmable": (CON, 240), "non-confirmable": (NON, 140)}, is_long=True,
)
def an_id_is_remembered_for_its_lifetime(stage, kind, seconds):
    """Within it the same Message ID of the same endpoint is a duplicate."""
    resource, client = stage.resource(), stage.client()
    request = client.request(POST, resource.here, b"x", kind)
    resource.origin.answer(resource.origin.asked(POST), CHANGED, [], b"")
    client.expect_code(request, CHANGED)
    stage.sleep(seconds)
    client.send_raw(request.data)
    resource.origin.expect_no_request("for a duplicate")


# Message IDs


def asked_with(origin, payload):
    """The request with a payload that an origin is asked with, even if it has the Message ID of another."""
    asked = origin.find(lambda it: wire.is_request(it.message.code) and it.message.payload == payload)
    if asked is None:
        raise NotKept("the origin wasn't asked")
    return asked


@case(MUST, "IdsRepeat", also=["AsksNothing"], at="4.4")
def message_ids_towards_an_origin_differ(stage):
    """The same Message ID MUST NOT be reused (in communicating with the same endpoint) within EXCHANGE_LIFETIME."""
    resource = stage.resource()
    ids = []
    for n in range(40):
        client = stage.client()
        client.request(POST, resource.here, b"%d" % n, NON)
        asked = asked_with(resource.origin, b"%d" % n)
        ids.append(asked.message.message_id)
        resource.origin.answer(asked, CHANGED, [], b"")
        client.close()
    expect("how many Message IDs differ", 40, len(set(ids)))


@case(MUST, "IdsRepeat", at="4.4")
def message_ids_towards_a_client_differ(stage):
    resource, client = stage.resource(), stage.client()
    ids = []
    for n in range(40):
        request = client.request(POST, resource.here, b"%d" % n, NON)
        resource.origin.answer(asked_with(resource.origin, b"%d" % n), CHANGED, [], b"")
        ids.append(client.response(request).message.message_id)
    expect("how many Message IDs differ", 40, len(set(ids)))


@case(MUST, "EndpointsIgnored", also=["CodesLost"], at="4.4", each={"an acknowledgement": ACK, "a Reset": RST})
def what_another_endpoint_sends_does_not_count(stage, kind):
    """An Acknowledgement or Reset relates to a message by the Message ID along with the other endpoint."""
    resource, client, stranger = stage.resource(), stage.client(), stage.origin()
    request = client.request(GET, resource.here)
    asked = resource.origin.next()
    confirmable(asked)
    stranger.send(wire.message(kind, EMPTY, asked.message.message_id), asked.source)
    again = expect_again(stage, resource.origin, asked)
    resource.origin.answer(again)
    client.expect_code(request, CONTENT)


@case(MUST, "IdsIgnored", also=["CodesLost", "AsksNothing"], at="4.4", each={"an acknowledgement": ACK, "a Reset": RST})
def what_has_another_id_does_not_count(stage, kind):
    resource, client = stage.resource(), stage.client()
    request = client.request(GET, resource.here)
    asked = resource.origin.next()
    confirmable(asked)
    resource.origin.send(wire.message(kind, EMPTY, asked.message.message_id ^ 0x5555), asked.source)
    again = expect_again(stage, resource.origin, asked)
    resource.origin.answer(again)
    client.expect_code(request, CONTENT)


@case(MUST, "EndpointsIgnored", at="4.4")
def an_answer_that_another_client_acknowledges_is_sent_again(stage):
    resource, client, stranger = stage.resource(), stage.client(), stage.client()
    answer = separate_answer(stage, resource, client)
    stranger.send_raw(wire.message(ACK, EMPTY, answer.message.message_id))
    client.acknowledge(expect_again(stage, client, answer))


def separate_answer(stage, resource, client):
    """The Confirmable message in which a client gets an answer that took its time, not acknowledged yet."""
    request = client.request(GET, resource.here)
    resource.origin.answer_later(resource.origin.asked(GET), seconds=stage.seconds(2.5))
    came = client.find(lambda it: it.message.token == request.message.token and wire.is_response(it.message.code))
    if came is None:
        raise NotKept("no response came")
    if came.message.kind != CON:
        raise NotOffered("it answers in acknowledgements or Non-confirmable messages")
    return came


# Errors of the network


@case(MUST, "EndsOnIcmp")
def a_client_that_is_gone_ends_nothing(stage):
    """An ICMP error may have been caused by an attacker, and matters at most to the message that it is about."""
    resource, gone = stage.resource(), stage.client()
    gone.request(GET, resource.here)
    asked = resource.origin.asked(GET)
    gone.socket.close()
    resource.origin.answer(asked)
    time.sleep(0.2)
    stage.settle()
    stage.expect_alive("an answer to a client that was gone")
    stage.fetch(resource.other("other"))


@case(MUST, "EndsOnIcmp", needs=("forward",))
def an_origin_that_is_gone_ends_nothing(stage):
    gone = stage.origin()
    missing, there = stage.resource(origin=gone), stage.resource()
    gone.socket.close()
    stage.client().request(GET, missing.here)
    time.sleep(0.2)
    stage.settle()
    stage.expect_alive("a request to a port where nobody listens")
    stage.fetch(there)
