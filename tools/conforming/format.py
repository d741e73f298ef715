"""Section 3: the format of messages. Bytes that are no message are rejected, and never believed."""

from conforming import wire
from conforming.cases import MUST, SHOULD, NotOffered, case_list, expect
from conforming.wire import ACK, CON, EMPTY, GET, NON, POST

CASES, case = case_list("3")
CONTENT = wire.code("2.05")
KINDS = {"confirmable": CON, "non-confirmable": NON}
# What stands behind the options of a message, and makes it no message.
RESERVED = {
    "a delta of 15": b"\xf0",
    "a delta of 15 and a value": b"\xf1a",
    "a length of 15": b"\x1f" + 15 * b"a",
}
CUT = {
    "a value cut": b"\x15ab",
    "a value lost": b"\x11",
    "a delta's byte lost": b"\xd0",
    "a delta's second byte lost": b"\xe0\x01",
    "a length's byte lost": b"\x0d",
    "a length's second byte lost": b"\x0e\x01",
    "a value of 65,000 bytes": b"\x0e\xfc\xdb" + b"a",
}


def plain_get(client, resource, kind=CON, options=(), token=b"\x01\x02\x03\x04"):
    """A GET as bytes."""
    return wire.message(kind, GET, client.new_id(), token, [*resource.here, *options])


def is_not_served(stage, spoil, kind=CON):
    """Has a GET that was spoilt be rejected, by a Reset if it is Confirmable, and never be forwarded; and a right one
    be served."""
    resource, client = stage.resource(), stage.client()
    data = spoil(plain_get(client, resource, kind))
    client.send_raw(data)
    resource.origin.expect_no_request("for what is no message")
    client.expect_rejection(data, 0.05)
    expect("the payload of a right one", b"21", stage.fetch(resource).message.payload)


def is_not_believed(stage, spoil):
    """Has a response of the origin that was spoilt not be the client's answer, where a right one follows in time, in a
    message of its own."""
    resource, client = stage.resource(), stage.client()
    request = client.request(GET, resource.here)
    asked = resource.origin.asked(GET)
    it = asked.message
    kind = ACK if it.kind == CON else NON
    resource.origin.send(spoil(wire.message(kind, CONTENT, it.message_id, it.token)), asked.source)
    resource.origin.answer(asked, kind=NON)
    response = client.response(request).message
    if response.code == CONTENT:
        expect("the payload", b"21", response.payload)
    else:
        expect("the code, if the response is an error", wire.code("5.02"), response.code)


@case(MUST, "AnyVersion", also=["VersionsRejected"], each=(0, 2, 3))
def a_request_of_another_version_is_ignored(stage, version):
    """Messages with unknown version numbers MUST be silently ignored."""
    resource, client = stage.resource(), stage.client()
    client.send_raw(wire.with_version(plain_get(client, resource), version))
    client.send_raw(wire.with_version(plain_get(client, resource, NON), version))
    resource.origin.expect_no_request("for another version")
    client.expect_silence("for another version", 0.05)


@case(MUST, "AnyVersion", each=(0, 2, 3))
def a_response_of_another_version_is_ignored(stage, version):
    """Messages with unknown version numbers MUST be silently ignored."""
    resource, client = stage.resource(), stage.client()
    request = client.request(GET, resource.here)
    asked = resource.origin.asked(GET)
    it, kind = asked.message, ACK if asked.message.kind == CON else NON
    wrong = wire.message(kind, CONTENT, it.message_id, it.token, [], b"wrong")
    resource.origin.send(wire.with_version(wrong, version), asked.source)
    resource.origin.answer(asked)
    expect("the payload", b"21", client.response(request).message.payload)


@case(MUST, "AnyVersion", both=False, each=(0, 2, 3))
def a_ping_of_another_version_is_ignored(stage, version):
    client = stage.client()
    client.send_raw(wire.with_version(wire.message(CON, EMPTY, client.new_id()), version))
    client.expect_silence("for another version")


@case(MUST, "LongTokensTaken", always=["RejectsBySilence"], each=range(9, 16))
def a_request_with_a_long_token_is_rejected(stage, length):
    """Lengths 9-15 are reserved, MUST NOT be sent, and MUST be processed as a message format error."""

    def spoil(data):
        return wire.with_token_length(data[:4] + (b"12345678abcdefg"[:length]) + data[8:], length)

    is_not_served(stage, spoil)


@case(MUST, "LongTokensTaken", also=["PayloadsChanged"], each=(9, 15))
def a_non_confirmable_request_with_a_long_token_is_rejected(stage, length):
    def spoil(data):
        return wire.with_token_length(data[:4] + (b"12345678abcdefg"[:length]) + data[8:], length)

    is_not_served(stage, spoil, NON)


@case(MUST, "LongTokensTaken", each=(9, 15))
def a_response_with_a_long_token_is_not_believed(stage, length):
    def spoil(data):
        token = data[4 : 4 + (data[0] & 15)]
        rest = data[4 + len(token) :]
        return wire.with_token_length(data[:4] + (token + bytes(16))[:length] + rest, length) + b"\xffwrong"

    is_not_believed(stage, spoil)


@case(MUST, "MarkerAloneTaken", "RejectsBySilence", each=KINDS)
def a_request_with_a_marker_and_no_payload_is_rejected(stage, kind):
    """The presence of a marker followed by a zero-length payload MUST be processed as a message format error."""
    is_not_served(stage, lambda data: data + b"\xff", kind)


@case(MUST, "MarkerAloneTaken")
def a_response_with_a_marker_and_no_payload_is_not_believed(stage):
    is_not_believed(stage, lambda data: data + b"\xff")


@case(MUST, "ReservedNibblesTaken", always=["RejectsBySilence"], at="3.1", each=RESERVED)
def a_request_with_a_reserved_nibble_is_rejected(stage, raw):
    """If the field is set to 15 and the byte isn't the payload marker, it MUST be processed as a format error."""
    is_not_served(stage, lambda data: data + raw)


@case(MUST, "ReservedNibblesTaken", at="3.1", each=RESERVED)
def a_response_with_a_reserved_nibble_is_not_believed(stage, raw):
    is_not_believed(stage, lambda data: data + raw)


@case(MUST, "CutOptionsTaken", always=["RejectsBySilence"], at="3.1", each=CUT)
def a_request_that_ends_within_an_option_is_rejected(stage, raw):
    """No sentence names this error; but the bytes that the length announces aren't there, so the value isn't known."""
    is_not_served(stage, lambda data: data + raw)


@case(
    MUST, "CutOptionsTaken", also=["CodesLost"], at="3.1",
    each={key: CUT[key] for key in ("a value cut", "a delta's byte lost")},
)
def a_response_that_ends_within_an_option_is_not_believed(stage, raw):
    is_not_believed(stage, lambda data: data + raw)


@case(MUST, "CutOptionsTaken", always=["RejectsBySilence"], both=False)
def a_request_that_ends_within_its_token_is_rejected(stage):
    client = stage.client()
    data = b"\x48\x01" + client.new_id().to_bytes(2, "big") + b"abcd"
    client.send_raw(data)
    client.expect_rejection(data)


# Options of which each stands between others that a proxy adds or takes away.
AMONG = {
    "before all": [(wire.IF_MATCH, b"ab")],
    "after all": [(wire.SAFE, b"ab")],
    "on both sides": [
        (wire.IF_MATCH, b"ab"), (wire.CONTENT_FORMAT, b""), (wire.SIZE1, b"\x02"), (wire.SAFE_CRITICAL, b"xy"),
    ],
    "with a delta of 13": [(wire.ACCEPT, b"\x2a"), (30 + 14, b"x")],
    "with a delta of 269": [(wire.SAFE, b""), (wire.SAFE + 269 + 3, b"x")],
}


@case(MUST, "OptionsMisplaced", also=["CodesLost"], at="3.1", each=AMONG)
def options_are_forwarded_in_their_order(stage, options):
    """The option numbers are what a reader adds the deltas to: one that is out of order is read as another one."""
    resource, client = stage.resource("a", query=["q"]), stage.client()
    request = client.request(POST, [*resource.here, *options], b"x")
    asked = resource.origin.asked(POST)
    wanted = sorted([*options, *resource.there], key=lambda it: it[0])
    expect("the options at the origin", wanted, resource.origin.options(asked))
    resource.origin.answer(asked, wire.code("2.04"), [], b"")
    client.expect_code(request, wire.code("2.04"))


@case(MUST, "RepeatedTurned", also=["CodesLost"], at="3.1", each=("request", "response"))
def options_of_one_number_keep_their_order(stage, which):
    resource, client = stage.resource("c", "a", "b", query=["z", "y"]), stage.client()
    request = client.request(POST, resource.here, b"x")
    asked = resource.origin.asked(POST)
    if which == "request":
        expect("the options at the origin", resource.there, resource.origin.options(asked))
    location = [(wire.LOCATION_PATH, it) for it in (b"n", b"m", b"l")]
    resource.origin.answer(asked, wire.code("2.01"), location, b"")
    came = client.expect_code(request, wire.code("2.01"))
    if which == "response":
        expect("the options of the response", location, came.message.options)


LENGTHS = (0, 1, 12, 13, 14, 268, 269, 270)


@case(MUST, "LengthsMiscounted", also=["CodesLost", "SafeNotReturned"], at="3.1", each=LENGTHS)
def values_of_each_length_are_forwarded(stage, length):
    """The lengths 12, 13, 268 and 269 are those at which the encoding changes."""
    resource, client = stage.resource(), stage.client()
    options = [(wire.SAFE, length * b"v"), (wire.SAFE + 16, b"after")]
    request = client.request(POST, [*resource.here, *options], b"x")
    asked = resource.origin.asked(POST)
    came = [it for it in resource.origin.options(asked) if it[0] >= wire.SAFE]
    expect("the options at the origin", options, came)
    resource.origin.answer(asked, wire.code("2.04"), options, b"")
    response = client.expect_code(request, wire.code("2.04")).message
    expect("the options of the response", options, [it for it in response.options if it[0] >= wire.SAFE])


PAYLOADS = {"one byte": b"x", "a marker": b"\xff", "a zero": b"\x00", "1,024 bytes": bytes(range(256)) * 4}


@case(MUST, "PayloadTrimmed", also=["CodesLost"], each=PAYLOADS)
def payloads_are_forwarded_byte_for_byte(stage, payload):
    resource, client = stage.resource(), stage.client()
    request = client.request(POST, resource.here, payload)
    asked = resource.origin.asked(POST)
    expect("the payload at the origin", payload, asked.message.payload)
    resource.origin.answer(asked, wire.code("2.04"), [], payload)
    expect("the payload of the response", payload, client.expect_code(request, wire.code("2.04")).message.payload)


@case(SHOULD, "LeadingZerosSent", at="3.2", each=(256, 65536), needs=("cache",))
def numbers_are_sent_without_leading_zeros(stage, seconds):
    """A sender SHOULD represent the integer with as few bytes as possible."""
    resource = stage.resource()
    stage.fetch(resource, [wire.max_age(seconds)])
    value = wire.values_of(stage.get_stored(resource).message, wire.MAX_AGE)
    if not value:
        raise NotOffered("it sends no Max-Age there")
    expect("the bytes of Max-Age", wire.number_bytes(wire.number(value[0])), value[0])


@case(MUST, "LeadingZerosUnread", at="3.2", each={"0": b"\x00", "0 in four bytes": bytes(4)})
def a_max_age_of_zero_with_leading_zeros_is_read(stage, value):
    """A recipient MUST be prepared to process values with leading zero bytes. So this isn't the default of 60."""
    resource = stage.resource()
    stage.fetch(resource, [(wire.MAX_AGE, value)])
    stage.fetch_again(resource, b"22")


@case(MUST, "LeadingZerosUnread", at="3.2", needs=("cache",))
def a_max_age_with_leading_zeros_is_read(stage):
    resource = stage.resource()
    stage.fetch(resource, [(wire.MAX_AGE, b"\x00\x00\x00\x0a")])
    value = wire.values_of(stage.get_stored(resource).message, wire.MAX_AGE)
    expect("whether the Max-Age is that or less", True, bool(value) and wire.number(value[0]) <= 10)
