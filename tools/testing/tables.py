"""Replays where tables, and the Message IDs of an endpoint, are as full as they can be."""

from testing.coap import (
    ACK, CON, CONTENT, EMPTY, ETAG, GET, NON, NOT_FOUND, PROXY_URI, UNAVAILABLE, VALID, message, number_bytes,
)
from testing.scripted import CLIENT, FOREVER, ORIGIN, Script, endpoint
from testing.steps import TEMP, max_age, path

CASES = []
# How long Confirmable messages are remembered, and Message IDs are counted together, in
# milliseconds.
WINDOW = 247_000


def case(function):
    """Notes a function that makes a run."""
    CASES.append(function)
    return function


def below(name):
    """The options of a path under that of the map, and those of what it leads to."""
    return path("t", name), path("temp", name)


@case
def the_cache_holds_65536_entries():
    script, count = Script(), 65_536
    for n in range(count):
        # Two Message IDs each: all of four windows.
        moment = n // 16_384 * WINDOW
        script.fetch(moment, *below(f"{n}"), ([max_age(FOREVER)], b"%d" % n), n)
        if n % 16_384 == 16_383:
            script.come(moment, "127.0.0.1:40002", message(NON, GET, n, b"", path("t", "0")))
            busy = message(CON, GET, n, b"", path("t", "other"))
            script.refuse(moment, "127.0.0.1:40002", busy, UNAVAILABLE, [max_age(5)])
    now = 5 * WINDOW
    for n in range(count):
        age = (now - n // 16_384 * WINDOW) // 1000
        script.hit(now, CLIENT, path("t", f"{n}"), ([max_age(FOREVER - age)], b"%d" % n), n)
    # As many Confirmable messages are remembered as can be, and an endpoint has no more IDs.
    script.come(now, "127.0.0.1:40002", message(CON, GET, 1, b"", path("t", "7")))
    script.hit(now, CLIENT, path("t", "7"), ([max_age(FOREVER - 1235)], b"7"), 7)
    # One more takes the place of the one that was used first.
    script.fetch(now, *below("new"), ([max_age(FOREVER)], b"new"), 1)
    script.fetch(now, *below("0"), ([max_age(FOREVER)], b"0"), 2)
    script.come(now, CLIENT, message(NON, GET, 3, b"", path("t", "2")))
    told = [max_age(FOREVER - 1235)], b"2"
    script.send(now, CLIENT, message(NON, CONTENT, script.new_id(), b"", *told))
    limits = "cache_entries = 65536\ncache_bytes = 268435456\ncon_records = 65536\n"
    return script.run("the_cache_holds_65536_entries", f"{limits}non_records = 65536")


@case
def message_ids_run_out_and_come_again():
    script, told = Script(), ([max_age(FOREVER)], b"21")
    script.fetch(0, *below("temp"), told)
    for n in range(32_766):
        script.come(0, "127.0.0.1:40002", message(NON, GET, n, b"", path("t", "temp")))
        script.send(0, "127.0.0.1:40002", message(NON, CONTENT, script.new_id(), b"", *told))
    # Half of all are given, and may not be given again in the lifetime of an exchange (RFC 7252, 4.4).
    script.come(0, "127.0.0.1:40002", message(NON, GET, 32_766, b"", path("t", "temp")))
    script.hit(0, "127.0.0.1:40002", path("t", "temp"), told, 1)
    script.come(WINDOW - 1, "127.0.0.1:40003", message(NON, GET, 6, b"", path("u")))
    script.come(WINDOW, "127.0.0.1:40003", message(NON, GET, 7, b"", path("u")))
    script.send(WINDOW, "127.0.0.1:40003", message(NON, NOT_FOUND, script.new_id()))
    return script.run("message_ids_run_out_and_come_again", "non_records = 65536")


@case
def of_65536_endpoints_a_confirmable_message_is_remembered():
    script, count = Script(), 65_536
    request = message(CON, GET, 0x0102, b"\xaa", path("u"))
    reply = message(ACK, NOT_FOUND, 0x0102, b"\xaa")
    for n in range(count):
        script.come(0, endpoint(n), request)
        script.send(0, endpoint(n), reply)
    for moment in (0, WINDOW - 1):
        script.come(moment, endpoint(count), request)
        for n in (0, 40_000, count - 1):
            script.come(moment, endpoint(n), request)
            script.send(moment, endpoint(n), reply)
    for n in (count, 0):
        script.come(WINDOW, endpoint(n), request)
        script.send(WINDOW, endpoint(n), reply)
    name = "of_65536_endpoints_a_confirmable_message_is_remembered"
    return script.run(name, "con_records = 65536")


@case
def of_65536_endpoints_a_non_confirmable_message_is_remembered():
    script, count = Script(), 65_536
    request = message(NON, GET, 0x0102, b"\xaa", path("u"))
    for n in range(count):
        # The Message IDs of the last moment of a window, and of the first moment of the next one.
        moment = WINDOW - 1 if n < count // 2 else WINDOW
        script.come(moment, endpoint(n), request)
        script.send(moment, endpoint(n), message(NON, NOT_FOUND, script.new_id(), b"\xaa"))
    for n in (count, 0, count - 1):
        script.come(WINDOW, endpoint(n), request)
    # A Message ID is free again, and nothing is remembered any more.
    for n in (count, 0):
        script.come(2 * WINDOW, endpoint(n), request)
        reply = message(NON, NOT_FOUND, script.new_id(), b"\xaa")
        script.send(2 * WINDOW, endpoint(n), reply)
    name = "of_65536_endpoints_a_non_confirmable_message_is_remembered"
    return script.run(name, "non_records = 65536")


def to_origin(number, origins):
    """A Proxy-Uri of one of so many origins, this origin, and the options that it is asked with."""
    origin = f"10.0.{number % origins >> 8}.{number % origins & 255}:{7000 + number % origins}"
    return (PROXY_URI, f"coap://{origin}/{number}".encode()), origin, path(f"{number}")


@case
def of_4096_exchanges_with_300_origins_one_each_is_outstanding():
    script, count, origins = Script(), 4096, 300
    for n in range(count):
        script.come(0, endpoint(n), message(NON, GET, n, b"\xaa", [to_origin(n, origins)[0]]))
    more = [to_origin(count, origins)[0]]
    script.refuse(0, CLIENT, message(CON, GET, 1, b"", more), UNAVAILABLE, [max_age(5)])
    asked = [script.ask(0, *to_sent(n, origins)) for n in range(origins)]
    script.tick(0)
    for n in range(count):
        script.answer(1, to_origin(n, origins)[1], asked[n], CONTENT, [max_age(9)], b"%d" % n)
        # The next request to this origin was due before the answer came.
        if n + origins < count:
            asked.append(script.ask(1, *to_sent(n + origins, origins)))
        script.deliver(1, endpoint(n), NON, CONTENT, b"\xaa", [max_age(9)], b"%d" % n)
    script.tick(1)
    script.come(1, CLIENT, message(NON, GET, 2, b"", more))
    script.ask(1, *to_sent(count, origins))
    name = "of_4096_exchanges_with_300_origins_one_each_is_outstanding"
    limits = "exchanges = 4096\nnon_records = 4097"
    return script.run(name, f"{limits}\nwaiters = 4096", "names = ['proxy.test']\n", ())


def to_sent(number, origins):
    """What `Script.ask` takes for an exchange: where its request goes, its number, the request."""
    _, origin, there = to_origin(number, origins)
    return origin, number + 1, GET, there


@case
def of_300_origins_two_come_at_a_time_while_others_have_requests_that_wait():
    script, origins, exchanges, asked = Script(), 300, {}, {}

    def ask(moment, n):
        _, origin, there = to_origin(n, origins)
        asked[n] = script.ask(moment, origin, exchanges[n], GET, there)

    for first in range(0, origins, 2):
        # Two requests for each of two origins: the first ones are sent, and the others wait.
        for n in (first, first + 1, first + origins, first + origins + 1):
            uri = to_origin(n, origins)[0]
            script.come(0, endpoint(n), message(NON, GET, n, b"\xaa", [uri]))
            exchanges[n] = script.new_exchange()
        ask(0, first)
        ask(0, first + 1)
    script.tick(0)
    for n in range(2 * origins):
        script.answer(1, to_origin(n, origins)[1], asked[n], CONTENT, [max_age(9)], b"%d" % n)
        # The other request to this origin was due before the answer came.
        if n < origins:
            ask(1, n + origins)
        script.deliver(1, endpoint(n), NON, CONTENT, b"\xaa", [max_age(9)], b"%d" % n)
    script.tick(1)
    name = "of_300_origins_two_come_at_a_time_while_others_have_requests_that_wait"
    limits = "exchanges = 600\nwaiters = 600\nnon_records = 600"
    return script.run(name, limits, "names = ['proxy.test']\n", ())


@case
def of_16384_clients_each_is_served_and_sent_its_answer_until_it_acknowledges_it():
    script, count = Script(), 16_384
    for n in range(count):
        script.come(0, endpoint(n), message(CON, GET, n, number_bytes(n), path("t")))
        script.send(0, endpoint(n), message(ACK, EMPTY, n))
    one_more = message(CON, GET, count, b"", path("t"))
    script.refuse(0, endpoint(count), one_more, UNAVAILABLE, [max_age(5)])
    asked = script.ask(0, ORIGIN, 1, GET, [TEMP])
    script.answer(1, ORIGIN, asked, CONTENT, [max_age(0)], b"21")
    told = [max_age(0)], b"21"
    answers = [
        script.deliver(1, endpoint(n), CON, CONTENT, number_bytes(n), *told) for n in range(count)
    ]
    script.tick(2000)
    # All are sent again, and all but the last acknowledge it.
    for n, answer in enumerate(answers):
        script.tick(2001)
        script.send(2001, endpoint(n), answer)
    for n, answer in enumerate(answers[:-1]):
        acknowledgement = message(ACK, EMPTY, int.from_bytes(answer[2:4], "big"))
        script.come(2002, endpoint(n), acknowledgement)
    script.tick(6000)
    script.tick(6001)
    script.send(6001, endpoint(count - 1), answers[-1])
    name = "of_16384_clients_each_is_served_and_sent_its_answer_until_it_acknowledges_it"
    return script.run(name, "waiters = 16384\ncon_records = 65536")


@case
def of_16384_clients_each_gives_up_its_own_place():
    script, count = Script(), 16_384
    for n in range(count):
        script.come(0, endpoint(n), message(NON, GET, n, number_bytes(n), path("t")))
    script.come(0, endpoint(count), message(NON, GET, 0, b"", path("t")))
    busy = message(NON, UNAVAILABLE, script.new_id(), b"", [max_age(5)])
    script.send(0, endpoint(count), busy)
    asked = script.ask(0, ORIGIN, 1, GET, [TEMP])
    script.answer(1, ORIGIN, asked, CONTENT, [], b"21")
    for n in range(count):
        script.deliver(1, endpoint(n), NON, CONTENT, number_bytes(n), [max_age(60)], b"21")
    script.tick(1)
    name = "of_16384_clients_each_gives_up_its_own_place"
    return script.run(name, "waiters = 16384\nnon_records = 65536")


@case
def a_response_is_validated_while_1000_clients_wait_and_a_request_is_queued():
    script, count, tag = Script(), 1000, (ETAG, b"\x01")
    script.fetch(0, *below("old"), ([tag, max_age(1)], b"20"))
    for n in range(count):
        script.come(1001, endpoint(n), message(NON, GET, n, number_bytes(n), path("t")))
    asked = script.ask(1001, ORIGIN, script.new_exchange(), GET, [TEMP])
    script.come(1001, CLIENT, message(NON, GET, 1, b"", path("t", "new")))
    new = script.new_exchange()
    script.come(1001, CLIENT, message(NON, GET, 2, b"", path("t", "old")))
    validation = script.new_exchange()
    script.tick(1001)
    script.answer(1002, ORIGIN, asked, CONTENT, [], b"21")
    # The next request was due before the answer came.
    asked = script.ask(1002, ORIGIN, new, GET, path("temp", "new"))
    for n in range(count):
        script.deliver(1002, endpoint(n), NON, CONTENT, number_bytes(n), [max_age(60)], b"21")
    script.answer(1003, ORIGIN, asked, CONTENT, [max_age(9)], b"22")
    asked = script.ask(1003, ORIGIN, validation, GET, [tag, *path("temp", "old")])
    script.deliver(1003, CLIENT, NON, CONTENT, b"", [max_age(9)], b"22")
    script.answer(1004, ORIGIN, asked, VALID, [tag, max_age(30)])
    script.deliver(1004, CLIENT, NON, CONTENT, b"", [tag, max_age(30)], b"20")
    script.tick(1004)
    name = "a_response_is_validated_while_1000_clients_wait_and_a_request_is_queued"
    return script.run(name, "waiters = 1002\nnon_records = 2000")
