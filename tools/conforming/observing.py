"""RFC 7641 (Observe): what it asks of a proxy that doesn't offer it, and what one that does mustn't do."""

from conforming import wire
from conforming.cases import MUST, NotKept, NotOffered, case_list, expect, expect_response
from conforming.endpoints import SILENCE
from conforming.wire import ACK, CON, GET, OBSERVE, RST

CASES, case = case_list("RFC 7641, 2")
CONTENT, BAD_OPTION, BAD_GATEWAY = wire.code("2.05"), wire.code("4.02"), wire.code("5.02")
OBSERVES = {"0": b"", "1": b"\x01"}


@case(MUST, "ObserveInvented", also=["CodesLost", "PayloadsChanged", "ErrorsLost"], each=OBSERVES)
def an_observe_is_served_or_refused(stage, value):
    """If the server is unwilling or unable to add an observer, the request falls back to a normal GET, and the response
    doesn't include the option. To who doesn't know it, it is unsafe to forward: 4.02 (RFC 7252, 5.7.1)."""
    resource, client = stage.resource(), stage.client()
    request = client.request(GET, [*resource.here, (OBSERVE, value)])
    asked = resource.origin.new(1)
    if asked is None:
        client.expect_code(request, BAD_OPTION)
        return
    registers = wire.values_of(asked.message, OBSERVE) == [b""]
    resource.origin.answer(asked, CONTENT, [(OBSERVE, b"\x07")] if registers else [])
    came = client.expect_code(request, CONTENT).message
    expect("the payload", b"21", came.payload)
    if not registers:
        expect("how many Observe the response has", 0, len(wire.values_of(came, OBSERVE)))


@case(MUST, "ObserveReturned", also=["CodesLost"])
def an_observe_of_a_response_is_not_returned_unasked(stage):
    """The option in a response says that it is a notification, which a client that didn't register doesn't get. A proxy
    that doesn't know it gives 5.02 (RFC 7252, 5.7.1)."""
    came = stage.fetch(stage.resource(), [(OBSERVE, b"\x07")]).message
    if came.code != BAD_GATEWAY:
        expect_response(came, code=CONTENT, payload=b"21")
        expect("how many Observe the response has", 0, len(wire.values_of(came, OBSERVE)))


@case(MUST, "ObserveReturned", also=["PayloadsChanged"], needs=("cache",))
def an_observe_is_not_returned_from_the_cache(stage):
    resource = stage.resource()
    client = stage.client()
    request = client.request(GET, [*resource.here, (OBSERVE, b"")])
    asked = resource.origin.new(1)
    if asked is None:
        raise NotOffered("it refuses Observe")
    resource.origin.answer(asked, CONTENT, [(OBSERVE, b"\x07"), wire.max_age(60)])
    client.response(request)
    came = stage.get_stored(resource).message
    expect("the payload", b"21", came.payload)
    expect("how many Observe the response has", 0, len(wire.values_of(came, OBSERVE)))


@case(MUST, "KeyHasObserve", also=["PayloadsChanged"], needs=("cache",))
def an_observe_gets_the_representation_of_the_resource(stage):
    """The option isn't part of the cache key. So what a GET with it gets is what a GET without it gets."""
    resource = stage.resource()
    stage.fetch(resource, [wire.max_age(60)])
    client = stage.client()
    request = client.request(GET, [*resource.here, (OBSERVE, b"")])
    asked = resource.origin.new(SILENCE)
    if asked is not None:
        resource.origin.answer(asked, CONTENT, [], b"21")
        if not wire.values_of(asked.message, OBSERVE):
            raise NotKept("the origin was asked for what the cache has, without an Observe")
    came = client.response(request).message
    if came.code != BAD_OPTION:
        expect("the payload", b"21", came.payload)


@case(
    MUST, "StrayResponsesAcknowledged", always=["RejectsBySilence"],
    also=["NotificationsPassed"], at="RFC 7641, 3.6", each={
        "of the same token": 0, "of another token": 1,
    },
)
def an_unexpected_notification_is_rejected(stage, change):
    """A client that isn't interested rejects a notification by a Reset, and doesn't acknowledge it. So does 4.2 of RFC
    7252 with any Confirmable message that the recipient lacks context to process."""
    resource = stage.resource()
    client = stage.client()
    request = client.request(GET, resource.here)
    asked = resource.origin.asked(GET)
    resource.origin.answer(asked)
    client.response(request)
    client.came.clear()
    token = asked.message.token[:-1] + bytes([asked.message.token[-1] ^ change]) if asked.message.token else b"\x01"
    data = wire.message(CON, CONTENT, resource.origin.new_id(), token, [(OBSERVE, b"\x08")], b"22")
    resource.origin.send(data, asked.source)
    came = resource.origin.find(lambda it: it.message.kind in (ACK, RST))
    if came is None:
        raise NotKept("a Reset is right, nothing came")
    expect("whether it is acknowledged", False, came.message.kind == ACK)
    client.expect_silence("for a notification that wasn't asked for", 0.1)
