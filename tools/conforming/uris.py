"""Section 6: how a URI is decomposed into options and composed of them."""

from conforming import wire
from conforming.cases import MUST, NotKept, case_list, expect
from conforming.endpoints import SILENCE
from conforming.wire import GET, PROXY_URI, URI_PATH, URI_QUERY

CASES, case = case_list("6.4")

# What stands behind `coap://HOST:PORT/MARK` in a URI, and the segments and queries that it is decomposed into.
PARTS = {
    "nothing": ("", [], []),
    "a slash": ("/", [b""], []),
    "one segment": ("/a", [b"a"], []),
    "three segments": ("/a/b/c", [b"a", b"b", b"c"], []),
    "a slash at the end": ("/a/", [b"a", b""], []),
    "an empty segment": ("/a//b", [b"a", b"", b"b"], []),
    "two slashes at the end": ("/a//", [b"a", b"", b""], []),
    "a tilde that is encoded": ("/%7Esensors/temp", [b"~sensors", b"temp"], []),
    "a tilde": ("/~sensors", [b"~sensors"], []),
    "lower-case digits": ("/%7esensors", [b"~sensors"], []),
    "a slash that is encoded": ("/a%2Fb", [b"a/b"], []),
    "a question mark that is encoded": ("/a%3Fb", [b"a?b"], []),
    "a hash that is encoded": ("/a%23b", [b"a#b"], []),
    "a percent sign that is encoded": ("/a%25b", [b"a%b"], []),
    "what is encoded twice": ("/a%252Fb", [b"a%2Fb"], []),
    "a space": ("/a%20b", [b"a b"], []),
    "UTF-8": ("/%E2%82%AC", ["€".encode()], []),
    "a zero byte": ("/a%00b", [b"a\x00b"], []),
    "sub-delimiters": ("/a;b=1,c!d$e'(f)*g+h", [b"a;b=1,c!d$e'(f)*g+h"], []),
    "a colon and an at sign": ("/a:b@c", [b"a:b@c"], []),
    "an ampersand in a path": ("/a&b", [b"a&b"], []),
    "well-known": ("/.well-known/core", [b".well-known", b"core"], []),
    "three dots": ("/...", [b"..."], []),
    "a query": ("?q", [], [b"q"]),
    "two queries": ("/a?b=c&d=e", [b"a"], [b"b=c", b"d=e"]),
    "an empty query between": ("/a?b&&c", [b"a"], [b"b", b"", b"c"]),
    "an ampersand that is encoded": ("/a?b%26c", [b"a"], [b"b&c"]),
    "a slash in a query": ("/a?b/c", [b"a"], [b"b/c"]),
    "a question mark in a query": ("/a?b?c", [b"a"], [b"b?c"]),
    "a plus in a query": ("/a?b+c", [b"a"], [b"b+c"]),
    "the example of 6.4": ("//%E3%81%93?%2F%2F&?%26", [b"", "こ".encode()], [b"//", b"?&"]),
    "a segment of 255 bytes": ("/" + 255 * "s", [255 * b"s"], []),
    "a query of 255 bytes": ("/a?" + 255 * "q", [b"a"], [255 * b"q"]),
    "a segment of 60 bytes": ("/" + 60 * "s" + "/" + 60 * "t", [60 * b"s", 60 * b"t"], []),
    "a segment encoded whole": ("/" + 80 * "%41", [80 * b"A"], []),
    "40 segments": ("/a" * 40, 40 * [b"a"], []),
    "40 queries": ("?" + "&".join(40 * ["q"]), [], 40 * [b"q"]),
    "200 segments": ("/a" * 200, 200 * [b"a"], []),
    "200 queries": ("?" + "&".join(200 * ["q"]), [], 200 * [b"q"]),
    "260 bytes of segments": ("/" + "/".join(5 * [51 * "s"]), 5 * [51 * b"s"], []),
    "900 bytes of segments": ("/" + "/".join(9 * [99 * "s"]), 9 * [99 * b"s"], []),
    "900 bytes of queries": ("/a?" + "&".join(9 * [99 * "q"]), [b"a"], 9 * [99 * b"q"]),
    "dot segments": ("/a/./b/../c", [b"a", b"c"], []),
}
URI_FAULTS = (
    "UrisNotDecoded", "UrisDecodedTwice", "EmptySegmentsLost", "SplitAfterDecoding", "QueriesNotSplit", "UrisCut",
    "DotsKept", "PlusIsSpace", "PathLost", "DelimitersSplit", "LowerCaseUndecoded", "UriLost", "UriPartsCut",
    "UriPartsCounted",
)


def decomposed(stage, uri, segments, queries, origin):
    """Has a request for a URI reach an origin with these segments and queries, and nothing else of a URI."""
    client = stage.client()
    request = client.request(GET, [(PROXY_URI, uri)])
    asked = stage.reached(origin, client, request)
    origin.answer(asked)
    expect("the Uri-Paths at the origin", [stage.mark, *segments], wire.values_of(asked.message, URI_PATH))
    expect("the Uri-Queries at the origin", queries, wire.values_of(asked.message, URI_QUERY))
    client.expect_code(request, wire.code("2.05"))


@case(MUST, *URI_FAULTS, needs=("forward",), each=PARTS)
def a_uri_is_decomposed_into_options(stage, text, segments, queries):
    """Each segment is a Uri-Path and each argument a Uri-Query, with percent-encodings decoded; reference resolution by
    RFC 3986 comes first."""
    origin = stage.origin()
    uri = f"coap://{origin.host}:{origin.port}/{stage.mark.decode()}{text}".encode()
    decomposed(stage, uri, list(segments), list(queries), origin)


@case(MUST, "CaseSensitive", also=["CodesLost"], needs=("forward",), each=("COAP", "Coap"))
def a_scheme_is_read_in_any_case(stage, scheme):
    """Schemes are case-insensitive (RFC 3986, 3.1)."""
    origin = stage.origin()
    uri = f"{scheme}://{origin.host}:{origin.port}/{stage.mark.decode()}".encode()
    decomposed(stage, uri, [], [], origin)


@case(MUST, "PortsRequired", at="6.1", needs=("forward",), each={"no port": "", "an empty port": ":", "5683": ":5683"})
def a_uri_without_a_port_means_5683(stage, port):
    """If the port subcomponent is empty or not given, then the default port 5683 is assumed."""
    origin = stage.origin(port=5683)
    uri = f"coap://{origin.host}{port}/{stage.mark.decode()}".encode()
    decomposed(stage, uri, [], [], origin)


@case(MUST, "PathLost", "UriLost", also=["QueriesLost"], needs=("forward",), each={"nothing": "", "a slash": "/"})
def a_uri_without_a_path_has_no_uri_path(stage, text):
    """If the value of the path component is empty or consists of a single slash, no Uri-Path is included."""
    origin, client = stage.origin(), stage.client()
    uri = f"coap://{origin.host}:{origin.port}{text}?{stage.mark.decode()}".encode()
    client.request(GET, [(PROXY_URI, uri)])
    asked = origin.asked(GET)
    origin.answer(asked)
    expect("the Uri-Paths at the origin", [], wire.values_of(asked.message, URI_PATH))
    expect("the Uri-Queries at the origin", [stage.mark], wire.values_of(asked.message, URI_QUERY))


WRONG = {
    "no host": "coap:///{mark}",
    "no authority": "coap:/{mark}",
    "a port that is no number": "coap://{host}:{port}x/{mark}",
    "a port that is too great": "coap://{host}:1{port}0/{mark}",
    "a fragment": "coap://{host}:{port}/{mark}#f",
    "an empty fragment": "coap://{host}:{port}/{mark}#",
    "a relative reference": "/{mark}",
    "a reference without a scheme": "//{host}:{port}/{mark}",
    "a bracket that isn't closed": "coap://[::1:{port}/{mark}",
    "text": "no uri",
    "a user": "coap://user@{host}:{port}/{mark}",
    "a user and a password": "coap://user:word@{host}:{port}/{mark}",
}


@case(MUST, "SloppyUris", "UsersTaken", needs=("forward",), each=WRONG)
def a_uri_that_is_no_request_gives_an_error(stage, form):
    """If the string isn't an absolute URI, or has a fragment, then the algorithm fails; a coap URI without a host is
    invalid, and has no user (6.1)."""
    origin, client = stage.origin(), stage.client()
    uri = form.format(host=origin.host, port=origin.port, mark=stage.mark.decode()).encode()
    request = client.request(GET, [(PROXY_URI, uri)])
    origin.expect_no_request("for what is no URI", SILENCE / 2)
    client.expect_error(request)


TOO_LONG = {
    "a segment of 256 bytes": "/" + 256 * "s", "a query of 256 bytes": "?" + 256 * "q",
    "a segment of 256 bytes among others": "/a/" + 256 * "s" + "/b", "a segment that is encoded": "/" + 256 * "%20",
}


@case(MUST, always=["LongPartsSent"], also=["AnswersNothing"], needs=("forward",), each=TOO_LONG)
def a_uri_that_no_options_can_have_gives_an_error(stage, text):
    """A Uri-Path and a Uri-Query have at most 255 bytes (5.10, table 4); one that is longer is unrecognised by whoever
    gets it (5.4.3). So such a URI can't be asked for, and least of all a part of it."""
    origin, client = stage.origin(), stage.client()
    uri = f"coap://{origin.host}:{origin.port}/{stage.mark.decode()}{text}".encode()
    request = client.request(GET, [(PROXY_URI, uri)])
    origin.expect_no_request("for what no options can have", SILENCE / 2)
    client.expect_error(request)


# How a host may be named in a URI, or in a Uri-Host beside a Proxy-Scheme: what is done to the name.
NAMES = {
    "as it is": (str, True), "in upper case": (str.upper, True),
    "with an encoding": (lambda it: f"%{ord(it[0]):x}{it[1:]}", True),
    "beside a Proxy-Scheme": (str, False),
}


def named(stage, origin, form=str, is_uri=True):
    """The options that ask for what an origin has, by the name of its host."""
    host, path = form(stage.proxy.known[0]), wire.path(stage.mark)
    stage.need("forward" if is_uri else "scheme")
    stage.ways.add("forward" if is_uri else "scheme")
    if is_uri:
        return [(PROXY_URI, f"coap://{host}:{origin.port}/{stage.mark.decode()}".encode())]
    place = [(wire.URI_HOST, host.encode()), (wire.URI_PORT, wire.number_bytes(origin.port))]
    return [*place, *path, (wire.PROXY_SCHEME, b"coap")]


@case(MUST, "NamesLost", "NamesAsTheyStand", also=["CodesLost"], needs=("forward", "host"), each=NAMES)
def the_name_of_a_host_reaches_its_origin(stage, form, is_uri):
    """If the host isn't the address that the request is sent to, a Uri-Host is included: the host in lower case, and
    then with its percent-encodings decoded."""
    name, address = stage.proxy.known
    origin, client = stage.origin(address), stage.client()
    request = client.request(GET, named(stage, origin, form, is_uri))
    asked = stage.reached(origin, client, request)
    origin.answer(asked)
    expect("the Uri-Host at the origin", [name.encode()], wire.values_of(asked.message, wire.URI_HOST))
    client.expect_code(request, wire.code("2.05"))


@case(MUST, always=["NamesAreAddresses"], also=["PayloadsChanged"], at="5.6", needs=("forward", "host", "cache"))
def a_name_and_its_address_are_two_resources(stage):
    """The Uri-Host is in the cache key: an origin may have something else under each of its names."""
    name, address = stage.proxy.known
    resource = stage.resource(origin=stage.origin(address))
    stage.fetch(resource, [wire.max_age(60)], b"by address")
    client = stage.client()
    request = client.request(GET, named(stage, resource.origin))
    resource.origin.answer(stage.reached(resource.origin, client, request), payload=b"by name")
    expect("the payload", b"by name", client.response(request).message.payload)


NOT_BY_3986 = {
    "a blank before": b" coap://%s/%s",
    "a blank behind": b"coap://%s/%s ",
    "a tab": b"coap://%s/\t%s",
    "a line's end": b"coap://%s/%s\n",
    "bytes above 127": b"coap://%s/%s\xc3\xa9",
    "a blank within": b"coap://%s/%s/a b",
    "a quotation mark": b'coap://%s/%s/a"b',
    "angle brackets": b"coap://%s/%s/<a>",
    "a percent sign alone": b"coap://%s/%s/100%%",
    "a percent sign and no digits": b"coap://%s/%s/%%zz",
    "curly brackets": b"coap://%s/%s/{a}",
    "a vertical bar": b"coap://%s/%s/a|b",
    "a caret": b"coap://%s/%s/a^b",
    "a backslash": b"coap://%s/%s/a\\b",
}


@case(MUST, "SloppyUris", also=["AnswersNothing"], needs=("forward",), each=NOT_BY_3986)
def a_uri_is_read_by_rfc_3986(stage, form):
    """The string is resolved by the process of RFC 3986, whose grammar has none of these characters."""
    origin, client = stage.origin(), stage.client()
    uri = form % (b"%s:%d" % (origin.host.encode(), origin.port), stage.mark)
    request = client.request(GET, [(PROXY_URI, uri)])
    asked = origin.new(SILENCE / 2)
    if asked is not None:
        origin.answer(asked)
        raise NotKept(f"an error is right, the origin was asked {wire.told(asked.data)}")
    client.expect_error(request)


# Values that a URI can have only in another form.
ODD = {
    "a slash": (b"a/b",), "a question mark": (b"a?b",), "a hash": (b"a#b",), "a percent sign": (b"a%b",),
    "an encoding": (b"a%2Fb",), "a space": (b"a b",), "UTF-8": ("€".encode(),), "an empty segment": (b"a", b"", b"b"),
    "an empty last segment": (b"a", b""), "an ampersand": (b"a&b",), "255 bytes": (255 * b"s",), "a plus": (b"a+b",),
    "200 segments": 200 * (b"a",),
}
COMPOSE_FAULTS = (
    "ComposedUnescaped", "EmptySegmentsLost", "UriPartsCut", "SplitAfterDecoding", "PlusIsSpace", "UrisDecodedTwice",
    "EncodedAgain", "UriPartsCounted",
)


@case(MUST, *COMPOSE_FAULTS, at="6.5", needs=("scheme",), each=ODD)
def a_uri_of_options_has_the_same_options_at_the_origin(stage, *segments):
    """The URI that options compose has reserved characters encoded, so it is decomposed into the same options."""
    is_same(stage, stage.resource(*segments, way="scheme"))


@case(MUST, *COMPOSE_FAULTS, also=["CodesLost"], at="6.5", needs=("reverse",), each=ODD)
def a_path_under_a_prefix_has_the_same_options_at_the_origin(stage, *segments):
    is_same(stage, stage.resource(*segments, way="reverse"))


QUERIES = {
    "an ampersand": (b"a&b",), "an empty one": (b"a", b""), "a percent sign": (b"50%",), "255 bytes": (255 * b"q",),
    "200 of them": 200 * (b"q",),
}


@case(MUST, *COMPOSE_FAULTS, "QueriesNotSplit", at="6.5", needs=("scheme",), each=QUERIES)
def queries_of_options_are_the_same_at_the_origin(stage, *queries):
    is_same(stage, stage.resource("a", query=queries, way="scheme"))


def is_same(stage, resource):
    """Has a request reach the origin with the options of a resource."""
    client = stage.client()
    request = client.request(GET, resource.here)
    asked = stage.reached(resource.origin, client, request)
    resource.origin.answer(asked)
    expect("the options at the origin", resource.there, resource.origin.options(asked))
    client.expect_code(request, wire.code("2.05"))
