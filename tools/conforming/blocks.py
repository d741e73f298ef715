"""RFC 7959 (block-wise transfer): what it asks of a proxy that doesn't offer it, and what one that does mustn't do."""

from conforming import wire
from conforming.cases import MUST, NotKept, case_list, expect
from conforming.endpoints import SILENCE
from conforming.wire import BLOCK1, BLOCK2, CON, GET, NON, SIZE2

CASES, case = case_list("RFC 7959, 2.1")
CONTENT, CHANGED, CONTINUE = wire.code("2.05"), wire.code("2.04"), wire.code("2.31")
BAD_OPTION, BAD_GATEWAY, TOO_LARGE = wire.code("4.02"), wire.code("5.02"), wire.code("4.13")
# A body of 64 bytes in blocks of 16: the value of the option is NUM, M and SZX.
BODY = bytes(range(64))


def block(number, more=False, exponent=0):
    """The value of a block option."""
    return wire.number_bytes(number << 4 | more << 3 | exponent)


@case(
    MUST, "BlocksLost", "BlocksStripped", also=["CodesLost", "BlockPartsTurned", "BlocksFirst"],
    each={"block 0": 0, "block 1": 1, "block 3": 3},
)
def a_block2_of_a_request_is_served_or_refused(stage, number):
    """It is critical and unsafe to forward: a proxy that doesn't know it gives 4.02; one that does serves the block."""
    resource, client = stage.resource(), stage.client()
    request = client.request(GET, [*resource.here, (BLOCK2, block(number))])
    asked = resource.origin.new(1)
    if asked is None:
        client.expect_code(request, BAD_OPTION)
        return
    values = wire.values_of(asked.message, BLOCK2)
    there = wire.number(values[0]) >> 4 if values else None
    part = BODY if there is None else BODY[16 * there : 16 * there + 16]
    options = [] if there is None else [(BLOCK2, block(there, there < 3))]
    resource.origin.answer(asked, CONTENT, options, part)
    came = client.response(request).message
    if wire.is_error(came.code):
        return
    shown = wire.values_of(came, BLOCK2)
    if not shown:
        expect("the payload of a response without Block2", BODY, came.payload)
        expect("the block that was asked for, if it is answered by the whole body", 0, number)
    else:
        start = (wire.number(shown[0]) >> 4) * (16 << (wire.number(shown[0]) & 7))
        expect("the payload of the block", BODY[start : start + 16], came.payload[:16])
        expect("the block", number * 16, start)


@case(MUST, "BlocksLost", also=["CodesLost"], each={"the first of two": (0, True), "the last of two": (1, False)})
def a_block1_of_a_request_is_served_or_refused(stage, number, more):
    """A part of a body never becomes the body: the origin sees the option, or nothing."""
    resource, client = stage.resource(), stage.client()
    request = client.request(3, [*resource.here, (BLOCK1, block(number, more))], BODY[:16])
    asked = resource.origin.new(1)
    if asked is not None:
        seen = wire.values_of(asked.message, BLOCK1)
        code = CONTINUE if more else CHANGED
        resource.origin.answer(asked, code, [(BLOCK1, it) for it in seen], b"")
        expect("the Block1 at the origin", [block(number, more)], seen)
        client.response(request)
        return
    came = client.response(request).message
    right = (BAD_OPTION, CONTINUE, wire.code("4.08"), TOO_LARGE)
    expect("whether the code is one of 4.02, 2.31, 4.08 and 4.13", True, came.code in right)


@case(MUST, "BlocksNotReturned")
def a_block2_of_a_response_is_returned_or_gives_5_02(stage):
    """An origin may answer in blocks unasked. A proxy that doesn't know the option gives 5.02 (RFC 7252, 5.7.1);
    another passes it on, or fetches the rest."""
    resource, client = stage.resource(), stage.client()
    request = client.request(GET, resource.here)
    asked = resource.origin.asked(GET)
    resource.origin.answer(asked, CONTENT, [(BLOCK2, block(0, True))], BODY[:16])
    while True:
        asked = resource.origin.new(SILENCE)
        if asked is None or not wire.values_of(asked.message, BLOCK2):
            break
        there = wire.number(wire.values_of(asked.message, BLOCK2)[0]) >> 4
        part = BODY[16 * there : 16 * there + 16]
        resource.origin.answer(asked, CONTENT, [(BLOCK2, block(there, there < 3))], part)
    came = client.response(request).message
    if came.code == BAD_GATEWAY or wire.values_of(came, BLOCK2):
        return
    expect("the payload of a response without Block2", BODY, came.payload)


@case(MUST, "BlocksMixed", also=["BlockPartsTurned"], each={"confirmable": CON, "non-confirmable": NON})
def a_block_is_not_given_for_another(stage, kind):
    resource, client = stage.resource(), stage.client()
    for number in (0, 1):
        request = client.request(GET, [*resource.here, (BLOCK2, block(number))], kind=kind)
        asked = resource.origin.new(0.7)
        if asked is not None:
            there = wire.number((wire.values_of(asked.message, BLOCK2) or [b""])[0]) >> 4
            part = BODY[16 * there : 16 * there + 16]
            resource.origin.answer(asked, CONTENT, [(BLOCK2, block(there, True)), wire.max_age(60)], part)
        came = client.reply(request, 1)
        if came is None or came.message.kind == wire.RST or wire.is_error(came.message.code):
            continue
        start = (wire.number((wire.values_of(came.message, BLOCK2) or [b""])[0]) >> 4) * 16
        expect("where the block begins", 16 * number, start)
        expect("the payload of the block", BODY[start : start + 16], came.message.payload[:16])


@case(MUST, "SizesRefused", also=["CodesLost"], at="RFC 7959, 4", each={"0": b"", "1,000": b"\x03\xe8"})
def a_size2_is_forwarded_or_known(stage, value):
    """It is elective and Safe-to-Forward: no reason for an error."""
    resource, client = stage.resource(), stage.client()
    request = client.request(GET, [*resource.here, (SIZE2, value)])
    resource.origin.answer(resource.origin.asked(GET))
    client.expect_code(request, CONTENT)


@case(MUST, "SizesInKey", also=["CodesLost"], at="RFC 7959, 4", needs=("cache",))
def a_size2_gets_the_representation_of_the_resource(stage):
    """It isn't part of the cache key, as its number says, so what is stored answers with it and without it."""
    resource = stage.resource()
    stage.fetch(resource, [wire.max_age(60)])
    client = stage.client()
    request = client.request(GET, [*resource.here, (SIZE2, b"")])
    if resource.origin.new(SILENCE) is not None:
        raise NotKept("the origin was asked for what the cache has")
    expect("the payload", b"21", client.expect_code(request, CONTENT).message.payload)
