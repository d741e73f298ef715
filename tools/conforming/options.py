"""Sections 5.4 and 5.5: lengths, defaults and repetition of options, and payloads."""

import time

from conforming import wire
from conforming.cases import MUST, SHOULD, NotKept, NotOffered, case_list, expect
from conforming.endpoints import SILENCE
from conforming.wire import CON, GET, NON, POST

CASES, case = case_list("5.4.3")
CONTENT, BAD_OPTION, BAD_GATEWAY = wire.code("2.05"), wire.code("4.02"), wire.code("5.02")


def is_refused(stage, options, kind=CON, method=GET, resource=None):
    """Has a request get 4.02 (or, if it is Non-confirmable, be rejected), and the origin see nothing of it."""
    resource, client = resource or stage.resource(), stage.client()
    request = client.request(method, options, kind=kind)
    resource.origin.expect_no_request("for what must be refused", SILENCE / 2)
    came = client.reply(request, SILENCE if kind == NON else 3)
    if came is None and kind == NON:
        return
    if came is None:
        raise NotKept("4.02 is right, nothing came")
    if came.message.kind == wire.RST and kind == NON:
        return
    if came.message.code != BAD_OPTION:
        raise NotKept(f"4.02 is right, {wire.told(came.data)} came")


def gives_bad_gateway(stage, options):
    """Has a response with these options give 5.02."""
    response = stage.fetch(stage.resource(), options)
    if response.message.code != BAD_GATEWAY:
        raise NotKept(f"5.02 is right, {wire.told(response.data)} came")


# Options that are unsafe to forward, with a length that they can't have (5.10, table 4).
LENGTHS = {
    "Uri-Host empty": (wire.URI_HOST, b""),
    "Uri-Host of 256 bytes": (wire.URI_HOST, 256 * b"h"),
    "Uri-Port of 3 bytes": (wire.URI_PORT, b"\x00\x16\x33"),
    "Uri-Path of 256 bytes": (wire.URI_PATH, 256 * b"p"),
    "Uri-Query of 256 bytes": (wire.URI_QUERY, 256 * b"q"),
    "Max-Age of 5 bytes": (wire.MAX_AGE, bytes(5)),
}


@case(MUST, "LengthsUnchecked", "AgesTaken", needs=("scheme",), each=LENGTHS)
def an_unsafe_option_with_a_wrong_length_gives_4_02(stage, number, value):
    """An option with a length outside the defined range MUST be treated like an unrecognized option (5.4.1), which is
    refused if it is unsafe (5.7.1)."""
    resource = stage.resource(way="scheme")
    keep = [it for it in resource.here if it[0] != number or number in (wire.URI_PATH, wire.URI_QUERY)]
    is_refused(stage, [*keep, (number, value)], resource=resource)


@case(MUST, "LengthsUnchecked", needs=("forward",), each={"empty": b"", "of 1,035 bytes": 1})
def a_proxy_uri_with_a_wrong_length_gives_4_02(stage, value):
    resource = stage.resource()
    uri = resource.here[0][1]
    value = value if value == b"" else uri + b"?" + (1034 - len(uri)) * b"q"
    is_refused(stage, [(wire.PROXY_URI, value)], resource=resource)


@case(MUST, "LengthsUnchecked", needs=("scheme",), each={"empty": b"", "of 256 bytes": 256 * b"s"})
def a_proxy_scheme_with_a_wrong_length_gives_4_02(stage, value):
    resource = stage.resource(way="scheme")
    kept = [it for it in resource.here if it[0] != wire.PROXY_SCHEME]
    is_refused(stage, [*kept, (wire.PROXY_SCHEME, value)], resource=resource)


@case(MUST, "LengthsUnchecked", each={"of 5 bytes": 5, "of 20 bytes": 20})
def a_max_age_with_a_wrong_length_in_a_response_gives_5_02(stage, length):
    gives_bad_gateway(stage, [(wire.MAX_AGE, bytes(length))])


# Options that may stand once, twice.
TWICE = {
    "Uri-Host": wire.URI_HOST, "Uri-Port": wire.URI_PORT, "Proxy-Scheme": wire.PROXY_SCHEME,
}


@case(MUST, "RepeatsTaken", at="5.4.5", needs=("scheme",), each=TWICE)
def an_unsafe_option_that_stands_twice_gives_4_02(stage, number):
    """Each supernumerary option occurrence MUST be treated like an unrecognized option."""
    resource = stage.resource(way="scheme")
    value = wire.values_of(wire.read(wire.message(CON, GET, 0, b"", resource.here)), number)[0]
    is_refused(stage, [*resource.here, (number, value)], resource=resource)


@case(MUST, "RepeatsTaken", at="5.4.5", needs=("forward",))
def a_proxy_uri_that_stands_twice_gives_4_02(stage):
    resource = stage.resource()
    is_refused(stage, 2 * resource.here, resource=resource)


@case(MUST, "AgesTaken", at="5.4", each={"GET": GET, "PUT": 3, "DELETE": 4})
def a_max_age_in_a_request_gives_4_02(stage, method):
    """Options that are not defined for a Method MUST be treated like an unrecognized option by a recipient. Max-Age is
    defined for responses (5.10.5), and unsafe to forward: so the request is refused (5.7.1)."""
    resource = stage.resource()
    is_refused(stage, [*resource.here, wire.max_age(7)], method=method, resource=resource)


@case(MUST, "AgesTaken", at="5.4.5")
def a_max_age_that_stands_twice_in_a_request_gives_4_02(stage):
    """Even where one is read, the second one is unrecognised."""
    resource = stage.resource()
    is_refused(stage, [*resource.here, wire.max_age(7), wire.max_age(8)], resource=resource)


@case(MUST, "RepeatsTaken", at="5.4.5")
def a_max_age_that_stands_twice_in_a_response_gives_5_02(stage):
    gives_bad_gateway(stage, [wire.max_age(7), wire.max_age(8)])


SENT_ONCE = {"Max-Age": wire.MAX_AGE, "ETag": wire.ETAG, "Content-Format": wire.CONTENT_FORMAT}


@case(MUST, "OptionsDoubled", also=["CodesLost"], at="5.4.5", each=SENT_ONCE)
def an_option_is_sent_as_often_as_it_may_occur(stage, number):
    """An option that is not repeatable MUST NOT be included more than once."""
    resource = stage.resource()
    options = [wire.max_age(50), (wire.ETAG, b"\x01\x02"), (wire.CONTENT_FORMAT, b"\x28")]
    for _ in range(2):
        client = stage.client()
        request = client.request(GET, resource.here)
        asked, came = stage.asked_or_answered(resource.origin, client, request)
        if asked is not None:
            resource.origin.answer(asked, CONTENT, options)
            came = client.response(request)
        expect("the code", "2.05", wire.code_text(came.message.code))
        expect("whether the option comes once at most", True, len(wire.values_of(came.message, number)) <= 1)


PLACE = {"Uri-Host": wire.URI_HOST, "Uri-Port": wire.URI_PORT}


@case(SHOULD, "DefaultsSent", at="5.4.4", needs=("forward",), each=PLACE)
def a_default_of_the_uri_is_not_sent(stage, number):
    """If the value is intended to be the default, the option SHOULD NOT be included: for these two that is the address
    and the port to which the request is sent (5.10.1)."""
    resource, client = stage.resource(), stage.client()
    client.request(GET, resource.here)
    asked = resource.origin.asked(GET)
    resource.origin.answer(asked)
    expect("the option at the origin", [], wire.values_of(asked.message, number))


@case(SHOULD, "DefaultMaxAgeSent", at="5.4.4", needs=("cache",))
def a_max_age_of_60_is_not_sent(stage):
    """If the value is intended to be the default, the option SHOULD NOT be included."""
    resource = stage.resource()
    stage.fetch(resource, [wire.max_age(62)])
    ages, until = [62], time.monotonic() + 4
    while ages[-1] >= 60 and time.monotonic() < until:
        value = wire.values_of(stage.get_stored(resource).message, wire.MAX_AGE)
        ages += [wire.number(it) for it in value]
        time.sleep(0.05)
    expect("whether a Max-Age of 60 was sent", False, 60 in ages)


GETS = {"GET": (GET, CONTENT), "DELETE": (4, wire.code("2.02"))}


@case(MUST, "PayloadsKept", also=["CodesLost"], at="5.5", each=GETS)
def a_payload_without_a_meaning_is_not_forwarded(stage, method, code):
    """If the Method or Response Code isn't defined to have a payload, then a sender MUST NOT include one, and the
    recipient MUST ignore it."""
    resource, client = stage.resource(), stage.client()
    request = client.request(method, resource.here, b"junk")
    asked = resource.origin.asked(method)
    resource.origin.answer(asked, code, [], b"")
    expect("the payload at the origin", b"", asked.message.payload)
    client.expect_code(request, code)


@case(MUST, "ValidPayloadsKept", at="5.5")
def the_payload_of_a_2_03_is_not_returned(stage):
    """The response (a 2.03) MUST NOT include a payload (5.9.1.3)."""
    resource, client, tag = stage.resource(), stage.client(), (wire.ETAG, b"\x01\x02")
    request = client.request(GET, [*resource.here, tag])
    asked = resource.origin.asked(GET)
    if not wire.values_of(asked.message, wire.ETAG):
        raise NotOffered("it doesn't pass on the ETags of clients")
    resource.origin.answer(asked, wire.code("2.03"), [tag], b"junk")
    came = client.response(request).message
    expect("whether the payload is returned", False, came.payload == b"junk")


@case(MUST, "ValidPayloadsKept", at="5.5")
def the_payload_of_a_2_03_to_a_post_is_not_returned(stage):
    resource, client = stage.resource(), stage.client()
    request = client.request(POST, resource.here, b"x")
    resource.origin.answer(resource.origin.asked(POST), wire.code("2.03"), [(wire.ETAG, b"\x01")], b"junk")
    expect("whether the payload is returned", False, client.response(request).message.payload == b"junk")


@case(SHOULD, "NotExplained", at="5.4.1", both=False, each={
    "4.02": (GET, (wire.UNSAFE_CRITICAL, b"")), "5.05": (GET, (wire.PROXY_SCHEME, b"nosuchscheme")),
})
def an_error_of_its_own_is_explained(stage, method, option):
    """Such a response SHOULD include a diagnostic payload (5.4.1, 5.9.2, 5.9.3)."""
    client = stage.client()
    request = client.request(method, [(wire.URI_HOST, b"a.invalid"), *wire.path("x"), option])
    came = client.reply(request, 3)
    if came is None or not wire.is_error(came.message.code):
        raise NotOffered("it gives no error there")
    expect("whether it has a payload", True, len(came.message.payload) > 0)


@case(MUST, "ExplainsInLatin", at="5.5.2", both=False, each={
    "4.02": (wire.UNSAFE_CRITICAL, b""), "5.05": (wire.PROXY_SCHEME, b"nosuchscheme"),
})
def an_explanation_is_utf_8(stage, number, value):
    """The diagnostic payload MUST be encoded in UTF-8."""
    client = stage.client()
    request = client.request(GET, [(wire.URI_HOST, b"a.invalid"), *wire.path("x"), (number, value)])
    came = client.reply(request, 3)
    if came is None or not came.message.payload:
        raise NotOffered("it explains nothing")
    try:
        came.message.payload.decode("utf-8")
    except UnicodeDecodeError:
        raise NotKept(f"UTF-8 is right, {came.message.payload!r} came") from None
