"""Section 5.7.2: what is sent to a next proxy, where a command can start the proxy with one."""

from conforming import wire
from conforming.cases import MUST, NotKept, case_list, expect
from conforming.stage import escaped
from conforming.wire import POST, PROXY_SCHEME, PROXY_URI, URI_HOST, URI_PATH, URI_PORT, URI_QUERY

CASES, case = case_list("5.7.2")

URIS = {
    "a host and a port": ("coap://127.3.2.1:6000/a", ("127.3.2.1", 6000, ["a"], [])),
    "a host alone": ("coap://127.3.2.1/a/b", ("127.3.2.1", 5683, ["a", "b"], [])),
    "a query": ("coap://127.3.2.1:6000/a?b=c&d", ("127.3.2.1", 6000, ["a"], ["b=c", "d"])),
    "an encoded path": ("coap://127.3.2.1:6000/a%2Fb/", ("127.3.2.1", 6000, ["a/b", ""], [])),
}


def uri_of(message):
    """The URI that a request to a proxy names: its scheme, host and port, path and query, as texts."""
    values = dict(message.options)
    if PROXY_URI in values:
        return values[PROXY_URI].decode()
    if PROXY_SCHEME not in values or URI_HOST not in values:
        raise NotKept("neither a Proxy-Uri nor a Proxy-Scheme with a Uri-Host came")
    port = f":{wire.number(values[URI_PORT])}" if URI_PORT in values else ""
    path = "/".join(escaped(value) for number, value in message.options if number == URI_PATH)
    query = "&".join(escaped(value) for number, value in message.options if number == URI_QUERY)
    query = f"?{query}" if query else ""
    return f"{values[PROXY_SCHEME].decode()}://{values[URI_HOST].decode()}{port}/{path}{query}"


WAYS = {f"{way}: {name}": (way, *it) for name, it in URIS.items() for way in ("Proxy-Uri", "Proxy-Scheme")}


@case(MUST, "NextIsOrigin", also=["BodiesChanged", "CodesLost"], needs=("chain",), each=WAYS)
def a_next_proxy_is_sent_the_uri(stage, way, uri, parts):
    """To another proxy the request names the URI, by a Proxy-Uri or by a Proxy-Scheme beside Uri options."""
    host, port, path, query = parts
    address, following = stage.proxy.start_chained(stage)
    client = stage.client(address)
    options = [(PROXY_URI, uri.encode())]
    if way == "Proxy-Scheme":
        place = [(URI_HOST, host.encode()), (URI_PORT, wire.number_bytes(port)), (PROXY_SCHEME, b"coap")]
        options = place + wire.path(*path) + [(URI_QUERY, it.encode()) for it in query]
    request = client.request(POST, options, b"x")
    asked = following.asked(POST)
    following.answer(asked, wire.code("2.04"), [], b"done")
    expect("the payload", b"x", asked.message.payload)
    expect("the URI", plain(uri), plain(uri_of(asked.message)))
    expect("the payload of the response", b"done", client.expect_code(request, wire.code("2.04")).message.payload)


def plain(uri):
    """A URI without what makes no difference (6.3): a port that is the default, and the case of what is encoded."""
    return uri.replace(":5683/", "/").replace("%3d", "=").replace("%3D", "=")
