"""Section 5.7: what a proxy does with requests, options and responses."""

from conforming import wire
from conforming.cases import MUST, NotKept, case_list, expect, expect_response
from conforming.endpoints import SILENCE
from conforming.messages import ANSWERS, METHODS, body_of
from conforming.options import gives_bad_gateway, is_refused
from conforming.wire import ACK, CON, GET, NON, POST

CASES, case = case_list("5.7.1")
CONTENT, CHANGED, BAD_GATEWAY = wire.code("2.05"), wire.code("2.04"), wire.code("5.02")
KINDS = {"confirmable": CON, "non-confirmable": NON}


def forwarded(stage, resource, method, kind):
    """Has a request reach the origin with its path, query and payload, and the answer reach the client."""
    client, body = stage.client(), body_of(method)
    request = client.request(method, resource.here, body, kind)
    asked = resource.origin.asked(method)
    expect("the options at the origin", resource.there, resource.origin.options(asked))
    expect("the payload at the origin", body, asked.message.payload)
    resource.origin.answer(asked, ANSWERS[method], [(wire.CONTENT_FORMAT, b"\x28")], b"done")
    came = client.response(request).message
    expect_response(came, code=ANSWERS[method], options=[(wire.CONTENT_FORMAT, b"\x28")], payload=b"done")


BOTH = {f"{name}, {kind}": (METHODS[name], KINDS[kind]) for name in METHODS for kind in KINDS}


@case(MUST, "PathLost", "CodesLost", at="5.7.2", needs=("forward",), each=BOTH)
def a_request_is_forwarded_by_its_proxy_uri(stage, method, kind):
    """The request is constructed with the endpoint and the Uri options that the Proxy-Uri is decomposed into."""
    forwarded(stage, stage.resource("a", "b", query=["c", "d=e"]), method, kind)


@case(MUST, "PathLost", "CodesLost", also=["BodiesChanged"], at="5.7.2", needs=("scheme",), each=BOTH)
def a_request_is_forwarded_by_its_proxy_scheme(stage, method, kind):
    """A Proxy-Scheme beside Uri options stands for the URI that they compose (5.10.2), and isn't sent to an origin."""
    forwarded(stage, stage.resource("a", "b", query=["c", "d=e"], way="scheme"), method, kind)


@case(MUST, "PathLost", "CodesLost", at="5.7.3", needs=("reverse",), each=BOTH)
def a_request_is_forwarded_under_a_prefix(stage, method, kind):
    """A reverse-proxy determines the destination by its own means, and forwards as 5.7.2 says."""
    forwarded(stage, stage.resource("a", "b", query=["c", "d=e"], way="reverse"), method, kind)


# Unrecognised options

NUMBERS = {
    "elective": wire.UNSAFE, "critical": wire.UNSAFE_CRITICAL, "elective, 2050": 2050, "critical, 2051": 2051,
    "elective, 64998": 64998, "critical, 64999": 64999,
}
REFUSED = {f"{name}, {kind}": (NUMBERS[name], KINDS[kind]) for name in NUMBERS for kind in KINDS}


@case(MUST, "UnsafeForwarded", each=REFUSED)
def an_unrecognised_unsafe_option_of_a_request_gives_4_02(stage, number, kind):
    """Unrecognized options that are Unsafe to Forward MUST lead to a 4.02 (Bad Option) response being returned by the
    proxy, whether they are critical or elective. A Non-confirmable request may be rejected (5.4.1)."""
    resource = stage.resource()
    is_refused(stage, [*resource.here, (number, b"x")], kind, resource=resource)


@case(MUST, "UnsafeForwarded", each=METHODS)
def an_unsafe_option_is_refused_with_each_method(stage, method):
    resource = stage.resource()
    is_refused(stage, [*resource.here, (wire.UNSAFE_CRITICAL, b"")], method=method, resource=resource)


@case(MUST, "UnsafeForwarded", needs=("reverse",), each=("elective", "critical"))
def a_reverse_proxy_refuses_unsafe_options(stage, which):
    resource = stage.resource(way="reverse")
    is_refused(stage, [*resource.here, (NUMBERS[which], b"x")], resource=resource)


SAFE = {
    "elective": [(wire.SAFE, b"x")],
    "critical": [(wire.SAFE_CRITICAL, b"x")],
    "elective, not in the key": [(wire.SAFE_NO_KEY, b"x")],
    "critical, not in the key": [(wire.SAFE_CRITICAL_NO_KEY, b"x")],
    "of number 2048": [(2048, b"x")],
    "empty": [(wire.SAFE, b"")],
    "twice": [(wire.SAFE, b"1"), (wire.SAFE, b"2")],
    "of 300 bytes": [(wire.SAFE, 300 * b"s")],
    "of the greatest number": [(65_533, b"x")],
}


@case(MUST, "SafeLost", also=["CodesLost"], each={name: tuple(options) for name, options in SAFE.items()})
def an_unrecognised_safe_option_of_a_request_is_forwarded(stage, *options):
    """Unrecognized options of class Safe-to-Forward MUST be forwarded."""
    resource, client = stage.resource(), stage.client()
    options = list(options)
    request = client.request(POST, [*resource.here, *options], b"x")
    asked = stage.reached(resource.origin, client, request)
    expect("the options at the origin", options, resource.more(asked))
    resource.origin.answer(asked, CHANGED, [], b"")
    client.expect_code(request, CHANGED)


@case(MUST, "SafeLost", needs=("reverse",), each=("elective", "critical"))
def a_reverse_proxy_forwards_safe_options(stage, which):
    resource, client = stage.resource(way="reverse"), stage.client()
    client.request(POST, [*resource.here, *SAFE[which]], b"x")
    asked = resource.origin.asked(POST)
    resource.origin.answer(asked, CHANGED, [], b"")
    expect("the options at the origin", SAFE[which], resource.more(asked))


RETURNED_NUMBERS = {name: number for name, number in NUMBERS.items() if number < 64998 or number > 64999}


@case(MUST, "UnsafeReturned", each=RETURNED_NUMBERS)
def an_unrecognised_unsafe_option_of_a_response_gives_5_02(stage, number):
    """Unrecognized options in a response that are Unsafe to Forward MUST lead to a 5.02 (Bad Gateway) response."""
    gives_bad_gateway(stage, [(number, b"x")])


@case(MUST, "UnsafeReturned", each={"POST": (POST, CHANGED), "PUT": (3, CHANGED), "DELETE": (4, wire.code("2.02"))})
def an_unsafe_option_of_a_response_gives_5_02_with_each_method(stage, method, code):
    options = [(wire.UNSAFE_CRITICAL, b"")]
    response = stage.fetch(stage.resource(), options, b"", code, method=method, body=body_of(method))
    expect("the code", "5.02", wire.code_text(response.message.code))


@case(MUST, always=["UnsafeReturnedSeparately"], each=KINDS)
def an_unsafe_option_of_a_separate_response_gives_5_02(stage, kind):
    """It makes no difference in which message a response comes."""
    resource, client = stage.resource(), stage.client()
    request = client.request(GET, resource.here)
    asked = resource.origin.asked(GET)
    resource.origin.acknowledge_if_confirmable(asked)
    resource.origin.answer(asked, CONTENT, [(wire.UNSAFE_CRITICAL, b"x")], kind=kind)
    client.expect_code(request, BAD_GATEWAY)


@case(MUST, "SafeNotReturned", also=["CodesLost"], each={name: tuple(options) for name, options in SAFE.items()})
def an_unrecognised_safe_option_of_a_response_is_forwarded(stage, *options):
    """Unrecognized options of class Safe-to-Forward in a response MUST be forwarded."""
    came = stage.fetch(stage.resource(), list(options)).message
    expect_response(came, code=CONTENT, payload=b"21")
    expect("the options of the response", list(options), [it for it in came.options if it[0] != wire.MAX_AGE])


# Options that RFC 7252 defines and that an origin must see, or a client.
TO_ORIGIN = {
    "If-Match": [(wire.IF_MATCH, b"\x01\x02")],
    "If-Match empty": [(wire.IF_MATCH, b"")],
    "two If-Match": [(wire.IF_MATCH, b"\x01"), (wire.IF_MATCH, b"\x02")],
    "If-None-Match": [(wire.IF_NONE_MATCH, b"")],
    "Content-Format": [(wire.CONTENT_FORMAT, b"\x32")],
    "Content-Format 0": [(wire.CONTENT_FORMAT, b"")],
    "Accept": [(wire.ACCEPT, b"\x28")],
    "Size1": [(wire.SIZE1, b"\x04")],
}


@case(
    MUST, "KnownLost", also=["CodesLost"], at="5.7.1",
    each={name: tuple(options) for name, options in TO_ORIGIN.items()},
)
def a_safe_option_reaches_the_origin(stage, *options):
    """These are Safe-to-Forward (table 4), so that a proxy need not know them."""
    resource, client = stage.resource(), stage.client()
    request = client.request(3, [*resource.here, *options], b"x")
    asked = resource.origin.asked(3)
    expect("the options at the origin", list(options), resource.more(asked))
    resource.origin.answer(asked, CHANGED, [], b"")
    client.expect_code(request, CHANGED)


TO_CLIENT = {
    "ETag": (CONTENT, (wire.ETAG, b"\x01\x02")),
    "ETag of a zero": (CONTENT, (wire.ETAG, b"\x00")),
    "ETag of eight bytes": (CONTENT, (wire.ETAG, bytes(8))),
    "Content-Format": (CONTENT, (wire.CONTENT_FORMAT, b"\x32")),
    "Content-Format 0": (CONTENT, (wire.CONTENT_FORMAT, b"")),
    "Location-Path": (wire.code("2.01"), (wire.LOCATION_PATH, b"a b/c")),
    "Location-Query": (wire.code("2.01"), (wire.LOCATION_QUERY, b"a&b")),
    "Size1": (wire.code("4.13"), (wire.SIZE1, b"\x04\x00")),
}


@case(MUST, "KnownNotReturned", "TagsAreNumbers", also=["CodesLost"], at="5.7.1", each=TO_CLIENT)
def a_safe_option_reaches_the_client(stage, code, option):
    """These are Safe-to-Forward, and an ETag is an opaque sequence of bytes (5.10.6)."""
    method = GET if code == CONTENT else POST
    came = stage.fetch(stage.resource(), [option], b"", code, method=method, body=body_of(method)).message
    expect("the code", wire.code_text(code), wire.code_text(came.code))
    expect("the options of the response", [option], [it for it in came.options if it[0] != wire.MAX_AGE])


RETURNED = ("2.01", "2.02", "2.04", "4.00", "4.01", "4.04", "4.12", "4.15", "5.00", "5.01", "5.03")


@case(MUST, "CodesLost", each=RETURNED)
def a_response_code_reaches_the_client(stage, code):
    """The response is returned to the client: the proxy isn't the server whose answer it is."""
    came = stage.fetch(stage.resource(), [], b"why", wire.code(code), method=POST, body=b"x").message
    expect_response(came, code=wire.code(code), payload=b"why")


@case(MUST, "ResetsWaitedFor", also=["ResetsAreNotFound"])
def a_request_that_is_rejected_gives_an_error(stage):
    """A Reset says that the request wasn't processed (4.2): there will be no response, and what the proxy was asked
    for failed. Which error of the server tells so is left open."""
    resource, client = stage.resource(), stage.client()
    request = client.request(GET, resource.here)
    asked = resource.origin.asked(GET)
    resource.origin.reset(asked)
    came = client.expect_error(request, stage.seconds(93) + 5 if stage.scale < 1 else 12)
    expect("whether it is an error of the server", 5, came.message.code >> 5)


BROKEN = {"a reserved delta": b"\xf1a", "a marker without a payload": b"\xff", "an option that is cut": b"\x15a"}


@case(MUST, "BrokenGivesTimeout", each=BROKEN, is_long=True)
def a_response_with_a_format_error_gives_5_02(stage, raw):
    """If the endpoint returns a response that cannot be processed by the proxy (e.g. due to message format errors),
    then a 5.02 (Bad Gateway) response MUST be returned. That is arguable of an Acknowledgement: 4.2 has one with a
    format error be silently ignored, so that no response came."""
    resource, client = stage.resource(), stage.client()
    request = client.request(GET, resource.here)
    for _ in range(5):
        asked = resource.origin.next(stage.seconds(50) + 1)
        if asked is None:
            break
        kind = ACK if asked.message.kind == CON else NON
        data = wire.message(kind, CONTENT, asked.message.message_id, asked.message.token)
        resource.origin.send(data + raw, asked.source)
        if client.find(lambda it: False, 0.2) or client.came:
            break
    client.expect_code(request, BAD_GATEWAY, seconds=stage.seconds(110) + 1)


@case(
    MUST, "PiggybackedIgnored", also=["CodesLost"], at="5.7.1",
    each={"4.04": wire.code("4.04"), "5.03": wire.code("5.03")},
)
def an_error_of_the_origin_is_returned_with_its_options(stage, code):
    options = [(wire.SAFE, b"x")]
    came = stage.fetch(stage.resource(), [*options, wire.max_age(30)], b"why", code).message
    expect_response(came, code=code, options=options, payload=b"why")


# What isn't served, and what is the proxy's own

SCHEMES = ("nosuchscheme", "x-none", "mailto")


@case(MUST, "SchemesIgnored", also=["CodesLost"], at="5.10.2", needs=("forward",), each=SCHEMES)
def a_proxy_uri_of_a_scheme_that_is_not_served_gives_5_05(stage, scheme):
    """An endpoint receiving a request with a Proxy-Uri Option that is unable or unwilling to act as a forward-proxy for
    the request MUST cause the return of a 5.05 (Proxying Not Supported) response."""
    resource, client = stage.resource(), stage.client()
    uri = resource.here[0][1].replace(b"coap:", scheme.encode() + b":")
    request = client.request(GET, [(wire.PROXY_URI, uri)])
    resource.origin.expect_no_request("for another scheme", SILENCE / 2)
    client.expect_code(request, wire.code("5.05"))


@case(MUST, "SchemesIgnored", also=["CodesLost"], at="5.10.2", needs=("scheme",), each=SCHEMES)
def a_proxy_scheme_that_is_not_served_gives_5_05(stage, scheme):
    resource, client = stage.resource(way="scheme"), stage.client()
    options = [it for it in resource.here if it[0] != wire.PROXY_SCHEME]
    request = client.request(GET, [*options, (wire.PROXY_SCHEME, scheme.encode())])
    resource.origin.expect_no_request("for another scheme", SILENCE / 2)
    client.expect_code(request, wire.code("5.05"))


@case(MUST, "OwnNamesForwarded", at="5.7.2", needs=("forward", "name"), each={"Proxy-Uri": True, "Proxy-Scheme": False})
def a_uri_of_the_proxy_itself_is_a_request_to_it(stage, is_uri):
    """If the authority (host and port) is recognized as identifying the proxy endpoint, then the request MUST be
    treated as a local (non-proxied) request: it gets what the same request without a proxy option gets."""
    name, port, client = stage.proxy.name.encode(), stage.proxy.address[1], stage.client()
    nothing = wire.path(stage.mark, "nothing")
    direct = client.response(client.request(GET, nothing)).message
    if is_uri:
        options = [(wire.PROXY_URI, b"coap://%s:%d/%s/nothing" % (name, port, stage.mark))]
    else:
        place = [(wire.URI_HOST, name), (wire.URI_PORT, wire.number_bytes(port))]
        options = [*place, *nothing, (wire.PROXY_SCHEME, b"coap")]
    came = client.response(client.request(GET, options)).message
    expect("the code", wire.code_text(direct.code), wire.code_text(came.code))


@case(MUST, "OwnNamesForwarded", at="5.10.1", needs=("scheme",))
def a_proxy_scheme_without_a_host_is_a_request_to_the_proxy(stage):
    """The default of Uri-Host is the IP literal that is the destination address of the request message: the proxy's."""
    client = stage.client()
    nothing = wire.path(stage.mark, "nothing")
    direct = client.response(client.request(GET, nothing)).message
    port = [(wire.URI_PORT, wire.number_bytes(stage.proxy.address[1]))]
    came = client.response(client.request(GET, [*port, *nothing, (wire.PROXY_SCHEME, b"coap")])).message
    expect("the code", wire.code_text(direct.code), wire.code_text(came.code))


@case(MUST, "PortsIgnored", at="5.7.2", needs=("forward", "reverse", "name"))
def a_uri_with_another_port_is_not_the_proxys(stage):
    """The authority is host and port. What another server of this name has, the proxy's own resources aren't."""
    resource, client = stage.resource(way="reverse"), stage.client()
    place = b"coap://%s:%d/" % (stage.proxy.name.encode(), stage.proxy.address[1] ^ 1)
    uri = place + b"/".join(value for number, value in resource.here if number == wire.URI_PATH)
    client.request(GET, [(wire.PROXY_URI, uri)])
    resource.origin.expect_no_request("for another port of the proxy's name")


@case(MUST, "OwnPortIgnored", at="5.10.1", needs=("scheme", "another port"))
def without_a_uri_port_the_port_is_that_of_the_request(stage):
    """The default value of the Uri-Port Option is the destination UDP port of the request message."""
    port = stage.proxy.address[1]
    here, usual = stage.origin(port=port), stage.origin(port=5683)
    options = [(wire.URI_HOST, wire.literal(stage.host).encode()), *wire.path(stage.mark), (wire.PROXY_SCHEME, b"coap")]
    stage.client().request(GET, options, kind=NON)
    asked = here.new(SILENCE * 2)
    if asked is None:
        raise NotKept(f"port {port} is right, {'port 5683 was asked' if usual.new(0.1) else 'it was not asked'}")
    here.answer(asked)


# A Proxy-Uri beside Uri options

BESIDE = {
    "Uri-Host": (wire.URI_HOST, b"127.0.0.9"), "Uri-Port": (wire.URI_PORT, b"\x00\x09"),
    "Uri-Path": (wire.URI_PATH, b"wrong"), "Uri-Query": (wire.URI_QUERY, b"wrong"),
}


@case(MUST, "UriOptionsMerged", at="5.10.2", needs=("forward",), each=BESIDE)
def a_proxy_uri_comes_before_uri_options(stage, number, value):
    """The Proxy-Uri Option MUST take precedence over any of the Uri-Host, Uri-Port, Uri-Path or Uri-Query options (each
    of which MUST NOT be included in a request containing it)."""
    resource, client = stage.resource("right"), stage.client()
    if number == wire.URI_PORT:
        value = b"\x16\x34"
    request = client.request(POST, [*resource.here, (number, value)], b"x")
    asked = stage.reached(resource.origin, client, request)
    expect("the options at the origin", resource.there, resource.origin.options(asked))
    resource.origin.answer(asked, CHANGED, [], b"")
