"""Sections 5.8 to 5.10: methods, codes and options that a proxy answers or makes itself."""

from conforming import wire
from conforming.cases import MUST, SHOULD, NotOffered, case_list, expect
from conforming.endpoints import SILENCE
from conforming.wire import ACK, CON, GET, NON, POST

CASES, case = case_list("5.8")
NOT_ALLOWED = wire.code("4.05")
# Method codes that nobody has defined: 0.05 to 0.07 are RFC 8132's.
UNKNOWN = {"0.08": 8, "0.15": 15, "0.30": 30, "0.31": 31}


@case(MUST, "UnknownMethodsForwarded", "UnknownMethodsAreBad", each=UNKNOWN)
def an_unknown_method_gives_4_05(stage, method):
    """A request with an unrecognized or unsupported Method Code MUST generate a 4.05 (Method Not Allowed) response."""
    resource, client = stage.resource(), stage.client()
    request = client.request(method, resource.here)
    resource.origin.expect_no_request("with a method that isn't known", SILENCE / 2)
    client.expect_code(request, NOT_ALLOWED)


@case(MUST, "UnknownMethodsAreBad", both=False, each=UNKNOWN)
def an_unknown_method_without_a_target_gives_4_05(stage, method):
    client = stage.client()
    request = client.request(method, wire.path(stage.mark, "nothing"))
    client.expect_code(request, NOT_ALLOWED)


@case(MUST, "MethodsRefusedLate", each=UNKNOWN)
def the_4_05_is_piggybacked(stage, method):
    """.. a 4.05 (Method Not Allowed) piggybacked response."""
    client = stage.client()
    came = client.response(client.request(method, stage.resource().here))
    expect("whether it is in the acknowledgement", True, came.message.kind == ACK)


@case(MUST, "UnknownMethodsForwarded", also=["CodesLost"], each={"0.08": 8, "0.31": 31})
def an_unknown_method_is_refused_in_a_non_confirmable_request(stage, method):
    resource, client = stage.resource(), stage.client()
    request = client.request(method, resource.here, kind=NON)
    resource.origin.expect_no_request("with a method that isn't known", SILENCE / 2)
    came = client.reply(request, SILENCE)
    if came is not None and came.message.kind != wire.RST:
        expect("the code", "4.05", wire.code_text(came.message.code))


OTHERS = {"FETCH": 5, "PATCH": 6, "iPATCH": 7}


@case(
    MUST, always=["OtherMethodsAreGets"], also=["CodesLost", "OtherMethodsWithoutBody", "OtherMethodsLost"],
    each=OTHERS,
)
def a_method_of_rfc_8132_is_forwarded_as_it_is_or_gives_4_05(stage, method):
    """To who doesn't know them they are unrecognised methods. Who does forwards them as what they are."""
    resource, client = stage.resource(), stage.client()
    request = client.request(method, [*resource.here, (wire.CONTENT_FORMAT, b"\x32")], b"{}")
    asked, came = stage.asked_or_answered(resource.origin, client, request)
    if came is not None:
        expect("the code", "4.05", wire.code_text(came.message.code))
        return
    code = wire.code("2.05" if method == 5 else "2.04")
    resource.origin.answer(asked, code)
    expect("the method at the origin", wire.code_text(method), wire.code_text(asked.message.code))
    expect("the payload at the origin", b"{}", asked.message.payload)
    client.expect_code(request, code)


SIZES = (1200, 1400, *range(1470, 1504), 2048, 4096, 16_000, 60_000)


@case(SHOULD, "SizesUntold", at="5.9.2.9", both=False)
def a_4_13_tells_the_size_that_is_taken(stage):
    """The response SHOULD include a Size1 Option to indicate the maximum size of request entity the server is able and
    willing to handle."""
    resource, client, seen = stage.resource(way="reverse" if "reverse" in stage.offers else None), stage.client(), 0
    for size in SIZES:
        body = (size - len(wire.message(CON, 3, 1, b"", resource.here)) - 1) * b"x"
        request = client.request(3, resource.here, body, token=b"")
        asked = resource.origin.new(0.06)
        if asked is not None:
            resource.origin.answer(asked, wire.code("2.04"), [], b"")
        came = client.reply(request, 0.3)
        if came is not None and came.message.code == wire.code("4.13"):
            seen += 1
            expect(f"how many Size1 the 4.13 for {size} bytes has", 1, len(wire.values_of(came.message, wire.SIZE1)))
    if not seen:
        raise NotOffered("it gives no 4.13")


RESERVED = (128, 132, 136, 140)


@case(MUST, "ReservedLocationsReturned", at="5.10.7", each=RESERVED)
def a_reserved_location_option_is_refused(stage, number):
    """If any of these reserved option numbers occurs in addition to Location-Path and/or Location-Query and are not
    supported, then a 4.02 (Bad Option) error MUST be returned. That they are Safe-to-Forward says otherwise (5.7.1);
    the sentence that names them decides. To a client that may be told as 5.02, too."""
    options = [(wire.LOCATION_PATH, b"a"), (number, b"x")]
    came = stage.fetch(stage.resource(), options, b"", wire.code("2.01"), method=POST, body=b"x")
    expect("whether it is refused", True, came.message.code in (wire.code("4.02"), wire.code("5.02")))


DOTS = {
    "one dot": (b".",), "two dots": (b"..",), "one dot before another": (b".", b"a"),
    "two dots within": (b"a", b"..", b"b"),
}


@case(MUST, "DotsForwarded", at="5.10.1", both=False, each=DOTS)
def no_uri_path_that_it_sends_is_a_dot(stage, *segments):
    """The value of a Uri-Path Option MUST NOT be "." or "..". A client that sends one may get an error."""
    way = "reverse" if "reverse" in stage.offers else "scheme"
    stage.need(way)
    resource, client = stage.resource(*segments, way=way), stage.client()
    client.request(GET, resource.here, kind=NON)
    asked = resource.origin.new(SILENCE)
    if asked is not None:
        resource.origin.answer(asked)
        paths = wire.values_of(asked.message, wire.URI_PATH)
        expect("how many segments at the origin are dots", 0, sum(it in (b".", b"..") for it in paths))


@case(MUST, "TagsDoubled", at="5.10.6.1", needs=("cache",))
def a_response_of_the_cache_has_one_etag(stage):
    """The ETag Option MUST NOT occur more than once in a response."""
    resource = stage.resource()
    stage.fetch(resource, [(wire.ETAG, b"\x01\x02"), wire.max_age(60)])
    for asking in ([], [(wire.ETAG, b"\x01\x02")], [(wire.ETAG, b"\x05"), (wire.ETAG, b"\x01\x02")]):
        came = stage.get_stored(resource, asking).message
        expect("its ETags", [b"\x01\x02"], wire.values_of(came, wire.ETAG))


ALL = {"a 2.04": wire.code("2.04"), "a 4.12": wire.code("4.12")}


@case(MUST, "ConditionsLost", also=["CodesLost"], at="5.10.8", each=ALL)
def a_conditional_request_is_decided_by_its_origin(stage, code):
    """If the condition isn't fulfilled the server MUST respond with 4.12: so the proxy passes on condition and code."""
    resource, client = stage.resource(), stage.client()
    request = client.request(3, [*resource.here, (wire.IF_MATCH, b"\x07"), (wire.IF_NONE_MATCH, b"")], b"x")
    asked = resource.origin.asked(3)
    resource.origin.answer(asked, code, [], b"")
    came = [it for it in resource.origin.options(asked) if it[0] in (wire.IF_MATCH, wire.IF_NONE_MATCH)]
    expect("the conditions at the origin", [(wire.IF_MATCH, b"\x07"), (wire.IF_NONE_MATCH, b"")], came)
    client.expect_code(request, code)
