"""What must hold of a next proxy: an edge asks its parent for hosts that aren't its own names (RFC 7252, 5.7.2)."""

import time

from testing.coap import (
    ACCEPT, BAD_OPTION, BAD_REQUEST, BLOCK2, CHANGED, CON, CONTENT, CONTENT_FORMAT, ETAG, GATEWAY_TIMEOUT, GET,
    IF_NONE_MATCH, NON, NOT_ALLOWED, NOT_FOUND, NOT_SUPPORTED, POST, PROXY_SCHEME, PROXY_URI, PUT, SIZE1, UNAVAILABLE,
    URI_HOST, URI_PORT, URI_QUERY, VALID, message, number_bytes,
)
from testing.network import (
    Broken, Life, Skipped, case_list, expect, expect_between, expect_message, free_port, has_ipv6,
)
from testing.steps import T, TEMP, change, expect_hit, fetch, max_age, path

CASES, case = case_list()
SCHEME = (PROXY_SCHEME, b"coap")
# A name that an edge doesn't know, as it is asked for there, and what its parent is sent for that.
SENSOR = (URI_HOST, b"sensor.test")
URI = [(PROXY_URI, b"coap://sensor.test/temp")]
SENT = [SENSOR, (URI_PORT, b"\x16\x33"), TEMP, SCHEME]


def bare(host):
    """An address as URIs have it."""
    return f"[{host}]" if ":" in host else host


def beyond(parent):
    """The value of -P of an edge with this parent, which is an address and a port."""
    return f"coap://{bare(parent[0])}:{parent[1]},edge.test"


def edge(stage, parent, *words, **more):
    """A client of a proxy that asks this parent for hosts that aren't its own names."""
    return stage.peer(more.get("host"), stage.proxy("-P", beyond(parent), *words, **more))


def beside(stage, *words, **more):
    """A client of an edge, and a socket that plays the parent."""
    parent = stage.peer()
    return edge(stage, (stage.host, parent.port), *words, **more), parent


def tree(stage, edges):
    """Clients of so many edges with one parent, which alone knows where sensor.test is; and that origin. The URI and
    what the origin is sent for it come last."""
    origin = stage.peer()
    parent = stage.proxy(config=f'names = ["parent.test"]\n[hosts]\n"sensor.test" = "{stage.host}"\n')
    clients = [edge(stage, parent) for _ in range(edges)]
    here = [(PROXY_URI, f"coap://sensor.test:{origin.port}/temp".encode())]
    return clients, origin, {"here": here, "there": [SENSOR, TEMP]}


# What a parent is sent.

# What an edge is asked, and what it sends its parent for that.
FORMS = (
    (
        [(PROXY_URI, b"coap://Sensor.Test/a%20b/c?x&y=1"), (ACCEPT, b"\x32"), (SIZE1, b"\x05")],
        [SENSOR, (URI_PORT, b"\x16\x33"), *path("a b", "c"), (URI_QUERY, b"x"), (URI_QUERY, b"y=1"), (ACCEPT, b"\x32"),
         SCHEME, (SIZE1, b"\x05")],
    ),
    (
        [SENSOR, (URI_PORT, b"\x00\x50"), TEMP, SCHEME, (IF_NONE_MATCH, b""), (CONTENT_FORMAT, b"\x32")],
        [SENSOR, (IF_NONE_MATCH, b""), (URI_PORT, b"\x50"), TEMP, (CONTENT_FORMAT, b"\x32"), SCHEME],
    ),
    ([(PROXY_URI, b"coap://192.0.2.7:61616")], [(URI_HOST, b"192.0.2.7"), (URI_PORT, b"\xf0\xb0"), SCHEME]),
    (
        [(PROXY_URI, b"coap://[2001:DB8::7]:65535/temp")],
        [(URI_HOST, b"[2001:db8:0:0:0:0:0:7]"), (URI_PORT, b"\xff\xff"), TEMP, SCHEME],
    ),
)


@case("PortLost", "SchemeLost", "OtherFirstId")
def a_parent_is_sent_host_port_and_scheme(stage):
    client, parent = beside(stage, "--id", "257", "--salt", "0")
    for number, (asked, sent) in enumerate(FORMS):
        # Each request and each answer takes a Message ID, each request the next token.
        request = client.request(GET, asked, kind=NON)
        form = message(CON, GET, 257 + 2 * number, (number + 1).to_bytes(8, "big"), sent)
        came = parent.expect_bytes("the request", form)
        life = Life(60, parent.answer(came, CONTENT, payload=b"21").at)
        client.expect_response(request, CONTENT, [], b"21", life=life)


@case("PortLost", "SchemeLost")
def a_change_is_sent_to_a_parent_with_its_payload(stage):
    client, parent = beside(stage)
    change(client, parent, PUT, CHANGED, b"22", here=URI, there=SENT)


@case("TagLost", "PortLost")
def a_stale_response_is_validated_at_a_parent(stage):
    client, parent = beside(stage)
    tag = (ETAG, b"\xab\xcd")
    life = fetch(client, parent, seconds=1, tags=[tag], here=URI, there=SENT)
    time.sleep(max(0, life.seen + 1.1 - time.time()))
    request = client.request(GET, URI)
    asked = parent.expect_request(GET, [tag, *SENT])
    life = Life(30, parent.answer(asked, VALID, [tag, max_age(30)]).at)
    client.expect_late(request, CONTENT, [tag], b"21", life=life)


@case("NeverFromTheCache")
def an_edge_answers_from_its_cache(stage):
    client, parent = beside(stage)
    life = fetch(client, parent, here=URI, there=SENT)
    for kind in (CON, NON):
        expect_hit(client, life, options=URI, kind=kind)
        expect_hit(client, life, options=[SENSOR, TEMP, SCHEME], kind=kind)
    expect_hit(stage.peer(to=client.to), life, options=[SENSOR, (URI_PORT, b"\x16\x33"), TEMP, SCHEME])
    other = (URI_PORT, b"\x16\x34")
    fetch(client, parent, here=[SENSOR, other, TEMP, SCHEME], there=[SENSOR, other, TEMP, SCHEME])


def second_waits(stage, nstart):
    """Requests for two hosts: how many of them a parent gets before it answers one."""
    client, parent = beside(stage, config=f"[limits]\nnstart = {nstart}\n")
    requests, sent = [], [[(URI_HOST, host), *SENT[1:]] for host in (b"a.test", b"b.test")]
    for form in sent:
        requests.append(client.request(GET, form, kind=NON))
    came = [parent.expect_request(GET, form) for form in sent[:nstart]]
    parent.expect_silence("at the parent before it answers")
    for number, request in enumerate(requests):
        asked = came[number] if number < nstart else parent.expect_request(GET, sent[number])
        life = Life(60, parent.answer(asked, CONTENT, payload=b"21").at)
        client.expect_response(request, CONTENT, [], b"21", life=life)


@case("OtherLimits")
def requests_for_other_hosts_wait_for_a_parent(stage):
    second_waits(stage, 1)


@case("NstartIsOne")
def nstart_requests_go_to_a_parent_at_once(stage):
    second_waits(stage, 2)


# What it isn't asked.


@case("PayloadChanged")
def own_names_and_maps_are_not_for_a_parent(stage):
    origin = stage.peer()
    client, parent = beside(stage, "--map", f"/t=coap://{origin.authority}/temp")
    life = fetch(client, origin)
    for host in (b"edge.test", b"EDGE.test:9"):
        expect_hit(client, life, options=[(PROXY_URI, b"coap://" + host + b"/t")])
    expect_hit(client, life, options=[(URI_HOST, b"edge.test"), T, SCHEME])
    expect_hit(client, life, options=[SENSOR, T])
    client.expect_response(client.request(GET, [TEMP]), NOT_FOUND)
    parent.expect_silence("at the parent")


@case("PayloadChanged")
def hosts_are_for_maps_alone_beside_a_parent(stage):
    origin = stage.peer()
    config = f'[hosts]\n"sensor.test" = "{stage.host}"\n'
    client, parent = beside(stage, "--map", f"/t=coap://sensor.test:{origin.port}/temp", config=config)
    fetch(client, origin, there=[SENSOR, TEMP])
    port = (URI_PORT, number_bytes(origin.port))
    here = [(PROXY_URI, f"coap://sensor.test:{origin.port}/temp".encode())]
    fetch(client, parent, here=here, there=[SENSOR, port, TEMP, SCHEME])
    origin.expect_silence("at the origin")


@case("CodeChanged")
def what_an_edge_refuses_reaches_no_parent(stage):
    client, parent = beside(stage)
    refused = (
        (GET, [(PROXY_URI, b"coap://sensor.test/#f")], BAD_REQUEST),
        (GET, [(PROXY_URI, b"coap://sensor.test:0/")], BAD_REQUEST),
        (GET, [SENSOR, (URI_PORT, b"\x00"), SCHEME], BAD_REQUEST),
        (GET, [(PROXY_URI, b"coaps://sensor.test/")], NOT_SUPPORTED),
        (GET, [SENSOR, (PROXY_SCHEME, b"http")], NOT_SUPPORTED),
        (GET, [*URI, (BLOCK2, b"\x06")], BAD_OPTION),
        (5, URI, NOT_ALLOWED),
        (GET, [(PROXY_URI, b"coap://edge.test/temp")], NOT_FOUND),
    )
    for code, options, answer in refused:
        for kind in (CON, NON):
            client.expect_response(client.request(code, options, kind=kind), answer)
    parent.expect_silence("at the parent")


# Chains of two proxies.


def through_two(stage, kind):
    """A name that the parent alone knows: the first edge asks it, and it the origin; then each has it."""
    (client, other), origin, target = tree(stage, 2)
    life = fetch(client, origin, kind=kind, proxies=2, **target)
    expect_hit(client, life, options=target["here"], kind=kind)
    time.sleep(2.2)
    request = other.request(GET, target["here"], kind=kind)
    other.expect_late(request, CONTENT, [], b"21", life=life)
    expect_hit(other, life, options=target["here"], kind=kind)
    origin.expect_silence("at the origin")


@case("MaxAgeKept", "NeverFromTheCache", "SchemeLost")
def a_name_that_only_the_parent_knows_is_served(stage):
    through_two(stage, CON)


@case("TokenChanged", "PortLost")
def the_same_by_non_confirmable_requests(stage):
    through_two(stage, NON)


def address_through_two(stage, host):
    """An origin that is named by its address."""
    origin = stage.peer(host)
    client = edge(stage, stage.proxy("-P", ",parent.test", host=host), host=host)
    target = {"here": [(PROXY_URI, f"coap://{origin.authority}/temp".encode())], "there": [TEMP]}
    life = fetch(client, origin, proxies=2, **target)
    expect_hit(client, life, options=target["here"])


@case("TokenChanged", "SchemeLost")
def an_address_is_asked_for_through_a_parent(stage):
    address_through_two(stage, stage.host)


@case("TokenChanged", "SchemeLost")
def an_ipv6_address_is_asked_for_through_a_parent(stage):
    if not has_ipv6():
        raise Skipped("there is no ::1 here")
    address_through_two(stage, "::1")


@case("TokenChanged", "NeverFromTheCache")
def a_refusal_of_the_parent_is_kept(stage):
    parent = stage.proxy("-P", ",parent.test")
    client = edge(stage, parent)
    request = client.request(GET, URI)
    came = client.expect_late(request, NOT_SUPPORTED, life=Life(60, request.at))
    life = Life(60, request.at, came.at)
    client.expect_response(client.request(GET, URI), NOT_SUPPORTED, life=life)


@case("AnswersFromMemory")
def a_change_is_known_where_it_passed(stage):
    (client, other), origin, target = tree(stage, 2)
    old = fetch(client, origin, seconds=4, proxies=2, **target)
    other.expect_late(other.request(GET, target["here"]), CONTENT, [], b"21", life=old)
    change(client, origin, PUT, CHANGED, b"22", **target)
    new = fetch(client, origin, b"22", proxies=2, **target)
    expect_hit(other, old, options=target["here"])
    time.sleep(max(0, old.seen + 4.1 - time.time()))
    request = other.request(GET, target["here"])
    other.expect_late(request, CONTENT, [], b"22", life=new)
    origin.expect_silence("at the origin")


# Two proxies that are each other's next one.


def circle(stage, limits):
    """A client of one of two proxies, each of which asks the other."""
    for _ in range(5):
        other = stage.host, free_port()
        client = edge(stage, other, config=f"[limits]\n{limits}\n")
        words = ["-A", other[0], "-p", str(other[1]), "-P", beyond(client.to)]
        words += ["--config", stage.file("other.toml", f"version = 1\n[limits]\n{limits}\n")]
        if stage.is_ready(stage.start([*stage.program, *words]), other):
            return client
    raise Broken("no second proxy served any of five ports")


@case("OtherLimits")
def a_get_that_goes_in_a_circle_is_given_up(stage):
    client = circle(stage, "exchange_ms = 1000")
    request = client.request(GET, URI, kind=NON)
    # Either of the two may be the first to give up; the other then passes its 5.04 on.
    came = client.receive("a response")
    expect_message("the response", came, code=GATEWAY_TIMEOUT, token=request.message.token)
    expect_between("seconds until 5.04", 0.99, 4.0, came.at - request.at)


@case("CodeChanged", "OtherLimits")
def another_method_that_goes_in_a_circle_fills_the_exchanges(stage):
    client = circle(stage, "exchanges = 8\nretry_s = 7")
    client.expect_late(client.request(POST, URI), UNAVAILABLE, [max_age(7)])
