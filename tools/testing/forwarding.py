"""What must hold of requests that are forwarded or refused, and of the program as it begins and ends."""

import os
import subprocess
import time

from testing.coap import (
    ACCEPT, ACK, BAD_GATEWAY, BAD_OPTION, BAD_REQUEST, BLOCK2, CHANGED, CON, CONTENT, CONTENT_FORMAT, EMPTY, ETAG, FETCH,
    GET, NON, NOT_ALLOWED, NOT_FOUND, NOT_SUPPORTED, OBSERVE, OSCORE, POST, PROXY_SCHEME, PROXY_URI, RST, URI_HOST, URI_PATH,
    URI_PORT, URI_QUERY, message, number_bytes,
)
from testing.network import RESULT, Life, Skipped, case_list, expect, expect_between, has_ipv6
from testing.steps import T, TEMP, expect_hit, fetch, max_age, path

CASES, case = case_list()


@case("PayloadChanged", "TokenChanged")
def a_confirmable_get_goes_by_a_map(stage):
    _, client, origin = stage.mapped()
    more = [(URI_PATH, b"room"), (URI_QUERY, b"unit=c"), (ACCEPT, b"\x32")]
    request = client.request(GET, [T, *more])
    asked = origin.expect_request(GET, [TEMP, *more])
    form = (CONTENT_FORMAT, b"\x32")
    answer = origin.answer(asked, CONTENT, [form, max_age(10)], b"21")
    client.expect_late(request, CONTENT, [form], b"21", life=Life(10, answer.at))
    client.expect_silence("after the answer")


@case("TokenChanged", "OptionLost")
def a_non_confirmable_get_goes_by_a_map(stage):
    _, client, origin = stage.mapped()
    request = client.request(GET, [T], kind=NON)
    asked = origin.expect_request(GET, [TEMP])
    answer = origin.answer(asked, CONTENT, [(ETAG, b"\x01"), (CONTENT_FORMAT, b"")])
    client.expect_response(request, CONTENT, [(ETAG, b"\x01"), (CONTENT_FORMAT, b"")], life=Life(60, answer.at))
    client.expect_silence("after the answer")


@case("OptionLost", "PayloadChanged")
def an_oscore_message_goes_by_a_map(stage):
    """A request protected by OSCORE (RFC 8613) is a POST with option 9, which is safe to forward; what it protects is
    its payload. A FETCH, which may be protected too, is no method of this proxy."""
    _, client, origin = stage.mapped()
    request = client.request(POST, [(OSCORE, b"\x09\x14\x25"), T], b"\x61\x2f\x10\xf1")
    asked = origin.expect_request(POST, [(OSCORE, b"\x09\x14\x25"), TEMP], b"\x61\x2f\x10\xf1")
    origin.answer(asked, CHANGED, [(OSCORE, b"")], b"\xdb\xaa\xd1\xe9")
    client.expect_late(request, CHANGED, [(OSCORE, b"")], b"\xdb\xaa\xd1\xe9")
    refused = client.request(FETCH, [(OSCORE, b"\x09\x14\x25"), T], b"\x61\x2f\x10\xf1")
    client.expect_response(refused, NOT_ALLOWED)


def get_by_proxy_uri(stage, kind):
    """A GET that names the origin in a Proxy-Uri, and one that the cache answers."""
    origin = stage.peer()
    client = stage.peer(to=stage.proxy("-P", ",proxy.test"))
    here = [(PROXY_URI, f"coap://{origin.authority}/temp/a%20b?x&y=1".encode())]
    there = path("temp", "a b") + [(URI_QUERY, b"x"), (URI_QUERY, b"y=1")]
    life = fetch(client, origin, kind=kind, here=here, there=there)
    expect_hit(client, life, options=here, kind=kind)


@case("CodeChanged")
def a_confirmable_get_goes_by_its_proxy_uri(stage):
    get_by_proxy_uri(stage, CON)


@case("PayloadChanged")
def a_non_confirmable_get_goes_by_its_proxy_uri(stage):
    get_by_proxy_uri(stage, NON)


@case("TokenChanged")
def a_get_goes_by_its_proxy_scheme(stage):
    origin = stage.peer()
    client = stage.peer(to=stage.proxy("-P", ",proxy.test"))
    target = [(URI_HOST, stage.host.encode()), (URI_PORT, number_bytes(origin.port)), TEMP]
    fetch(client, origin, here=[(PROXY_SCHEME, b"coap"), *target])


@case("PayloadChanged")
def a_name_among_the_hosts_is_sent_on(stage):
    origin = stage.peer()
    config = f'names = ["proxy.test"]\n[hosts]\n"sensor.test" = "{stage.host}"\n'
    client = stage.peer(to=stage.proxy(config=config))
    here = [(PROXY_URI, f"coap://Sensor.test:{origin.port}/temp".encode())]
    fetch(client, origin, here=here, there=[(URI_HOST, b"sensor.test"), TEMP])


@case("ShortPrefixesOnly")
def the_longest_prefix_wins(stage):
    short, long = stage.peer(), stage.peer()
    maps = "".join(
        f'[[map]]\nprefix = "{prefix}"\norigin = "coap://{it.authority}{there}"\n'
        for prefix, it, there in (("/", short, "/all"), ("/a/b", long, ""))
    )
    client = stage.peer(to=stage.proxy(config=maps))
    fetch(client, short, here=path("a", "c"), there=path("all", "a", "c"))
    fetch(client, long, here=path("a", "b", "c"), there=path("c"))


@case("ObserveAdded")
def observe_is_taken_off_both_ways(stage):
    _, client, origin = stage.mapped()
    request = client.request(GET, [(OBSERVE, b""), T])
    asked = origin.expect_request(GET, [TEMP])
    answer = origin.answer(asked, CONTENT, [(OBSERVE, b"\x07")], b"21")
    client.expect_late(request, CONTENT, [], b"21", life=Life(60, answer.at))


@case("IdsRepeat")
def no_message_id_and_no_token_comes_twice(stage):
    _, client, origin = stage.mapped()
    ids, tokens = [], []
    for n in range(40):
        request = client.request(POST, [T], b"%d" % n, kind=NON)
        asked = origin.expect_request(POST, [TEMP], b"%d" % n)
        origin.answer(asked, CHANGED)
        ids += [asked.message.message_id, client.expect_response(request, CHANGED).message.message_id]
        tokens.append(asked.message.token)
    expect("how many Message IDs differ", 80, len(set(ids)))
    expect("how many tokens differ", 40, len(set(tokens)))


@case("OtherFirstId")
def the_first_id_and_the_salt_can_be_given(stage):
    origin = stage.peer()
    proxy = stage.proxy("--map", f"/t=coap://{origin.authority}/temp", "--id", "65535", "--salt", "258")
    client = stage.peer(to=proxy)
    request = client.request(GET, [T], kind=NON)
    origin.expect_bytes("the request", message(CON, GET, 0xFFFF, (259).to_bytes(8, "big"), [TEMP]))
    client.send(request.data)
    client.expect_silence("for a duplicate")


@case("NothingDrawn")
def the_first_id_and_the_salt_are_drawn(stage):
    ids, salts = [], []
    for _ in range(3):
        _, client, origin = stage.mapped()
        client.request(GET, [T], kind=NON)
        asked = origin.expect_request(GET, [TEMP]).message
        ids.append(asked.message_id)
        salts.append(int.from_bytes(asked.token, "big") - 1)
    expect("whether first Message IDs differ", True, len(set(ids)) > 1)
    expect("how many salts differ", 3, len(set(salts)))
    expect("whether a salt has 33 bits or more", True, min(salts) >= 1 << 32)
    expect("whether --salt takes each", True, max(salts) < 1 << 63)


@case("PayloadChanged")
def ipv6_is_served(stage):
    if not has_ipv6():
        raise Skipped("there is no ::1 here")
    _, client, origin = stage.mapped(host="::1")
    expect_hit(client, fetch(client, origin))


@case("TokenChanged")
def one_socket_serves_both_families(stage):
    if not has_ipv6():
        raise Skipped("there is no ::1 here")
    origin = stage.peer("::1")
    proxy = stage.proxy("--map", f"/t=coap://{origin.authority}/temp", host="::")
    client, other = stage.peer(to=(stage.host, proxy[1])), stage.peer("::1", to=("::1", proxy[1]))
    request = client.request(GET, [T])
    if client.poll(0.5) is None:
        raise Skipped("sockets at :: don't serve IPv4 here")
    client.send(request.data)
    life = Life(60, origin.answer(origin.expect_request(GET, [TEMP]), CONTENT, payload=b"21").at)
    client.expect_late(request, CONTENT, [], b"21", life=life)
    expect_hit(other, life)


@case("ServesAllAddresses")
def another_address_of_the_host_is_not_served(stage):
    client = stage.peer(to=stage.proxy())
    host, port = client.to
    front, last = host.rsplit(".", 1)
    client.send(message(CON, EMPTY, 1), (f"{front}.{int(last) ^ 1}", port))
    client.expect_silence("from another address")
    client.send(message(CON, EMPTY, 2))
    client.expect_bytes("the reply", message(RST, EMPTY, 2))


# What the proxy answers itself.


@case("ResetOfAnotherId")
def an_empty_confirmable_message_is_rejected(stage):
    client = stage.peer(to=stage.proxy())
    client.send(message(CON, EMPTY, 0xABCD))
    client.expect_bytes("the reply", message(RST, EMPTY, 0xABCD))
    client.send(message(NON, EMPTY, 0xABCE))
    client.send(message(ACK, EMPTY, 0xABCF))
    client.expect_silence("for other Empty messages")


@case("CodeChanged")
def what_cannot_be_served_is_refused(stage):
    client = stage.peer(to=stage.proxy("--map", "/t=coap://127.0.0.1:9/"))
    refused = (
        (GET, path("u"), NOT_FOUND),
        (5, [T], NOT_ALLOWED),
        (GET, [T, (BLOCK2, b"\x06")], BAD_OPTION),
        (GET, [(PROXY_URI, b"coap://127.0.0.1/")], NOT_SUPPORTED),
    )
    for code, options, answer in refused:
        for kind in (CON, NON):
            client.expect_response(client.request(code, options, kind=kind), answer)


@case("CodeChanged")
def uris_that_cannot_be_served_are_refused(stage):
    client = stage.peer(to=stage.proxy("-P", ",proxy.test,192.0.2.1"))
    refused = (
        (b"coap://127.0.0.1/#f", BAD_REQUEST),
        (b"coap://127.0.0.1:0/", BAD_REQUEST),
        (b"coaps://127.0.0.1/", NOT_SUPPORTED),
        (b"coap://nowhere.test/", NOT_SUPPORTED),
        (b"coap://proxy.test/t", NOT_FOUND),
        (b"coap://192.0.2.1:9/t", NOT_FOUND),
    )
    for uri, answer in refused:
        client.expect_response(client.request(GET, [(PROXY_URI, uri)]), answer)


@case("CodeChanged")
def a_reset_and_a_block_of_the_origin_are_a_bad_gateway(stage):
    _, client, origin = stage.mapped()
    request = client.request(GET, [T], kind=NON)
    origin.acknowledge(origin.expect_request(GET, [TEMP]), RST)
    client.expect_response(request, BAD_GATEWAY)
    request = client.request(GET, [T])
    origin.answer(origin.expect_request(GET, [TEMP]), CONTENT, [(BLOCK2, b"\x0e")], b"x" * 64)
    client.expect_late(request, BAD_GATEWAY)


# How the program begins and ends.


@case("StatusIsZero")
def a_port_that_is_taken_ends_it(stage):
    taken = stage.peer()
    words = [*stage.program, "-A", stage.host, "-p", str(taken.port)]
    process = stage.start(words, subprocess.PIPE)
    output, errors = process.communicate(timeout=20)
    expect("status and texts", (1, b"", b"coap-proxyd: socket\n"), (process.returncode, output, errors), *RESULT)


@case("StatusIsZero")
def a_signal_ends_it(stage):
    stage.proxy()
    process = stage.programs[-1]
    process.terminate()
    expect("status", -15, process.wait(5))


def work_of(process):
    """How many seconds of the processor a process has taken, and how often it began to wait."""
    with open(f"/proc/{process.pid}/stat", encoding="ascii", errors="replace") as file:
        fields = file.read().rsplit(")", 1)[1].split()
    with open(f"/proc/{process.pid}/status", encoding="ascii", errors="replace") as file:
        waits = next(line for line in file if line.startswith("voluntary_ctxt_switches:"))
    return (int(fields[11]) + int(fields[12])) / os.sysconf("SC_CLK_TCK"), int(waits.split()[1])


@case("Spins", "WakesOften")
def it_rests_while_nothing_comes(stage):
    stage.proxy()
    seconds, waits = work_of(stage.programs[-1])
    time.sleep(1)
    more_seconds, more_waits = work_of(stage.programs[-1])
    expect_between("seconds of the processor", 0, 0.1, more_seconds - seconds)
    expect_between("how often it began to wait", 0, 60, more_waits - waits)


@case("StatusIsOne")
def it_ends_after_its_turns(stage):
    client = stage.peer(to=stage.proxy("--turns", "30"))
    process, until = stage.programs[-1], time.time() + 10
    while process.poll() is None and time.time() < until:
        client.request(GET, [T], kind=NON)
        time.sleep(0.05)
    expect("status", 0, process.poll())
