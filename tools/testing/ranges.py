"""Replays at the ends of all ranges, of which those of tables are in tables.py, and what plays them all."""

import os
import socket
import subprocess
import sys
import threading

from testing import tables, worked
from testing.coap import (
    ACCEPT, ACK, BAD_GATEWAY, BAD_OPTION, CHANGED, CON, CONTENT, CONTENT_FORMAT, EMPTY, ETAG, GET,
    NON, POST, PROXY_URI, PUT, RST, TOO_LARGE, URI_HOST, URI_PATH, URI_QUERY, VALID, message, number_bytes,
)
from testing.network import Broken, Failed, left
from testing.scripted import CLIENT, FOREVER, KEPT, LAST_KEPT, LAST_UNKEPT, ORIGIN, Script
from testing.steps import TEMP, max_age, path

CASES = [*tables.CASES]


def case(function):
    """Notes a function that makes a run."""
    CASES.append(function)
    return function


# Routes


def answered(script, moment, origin, code, there, client):
    """A request is sent to an origin and answered at once, and the client gets the answer."""
    asked = script.ask(moment, origin, script.new_exchange(), code, there)
    script.answer(moment, origin, asked, CHANGED)
    script.deliver(moment, client, NON, CHANGED)


@case
def all_of_64_maps_256_hosts_and_64_names_are_known():
    script = Script()
    maps = [(f"m{n}", f"10.1.0.{n}:{6000 + n}", f"o{n}") for n in range(64)]
    hosts = [(f"h{n}.test", f"10.2.0.{n}") for n in range(256)]
    names = [f"n{n}.test" for n in range(64)]
    requests = [(path(it[0], "x"), it[1], path(it[2], "x")) for it in maps]
    for host, address in hosts:
        there = [(URI_HOST, host.encode()), *path("x")]
        requests.append(([(PROXY_URI, f"coap://{host}/x".encode())], f"{address}:5683", there))
    for n, name in enumerate(names):
        uri = f"coap://{name}:{n + 1}/m{n}".encode()
        requests.append(([(PROXY_URI, uri)], maps[n][1], path(maps[n][2])))
    for message_id, (here, origin, there) in enumerate(requests):
        script.come(0, CLIENT, message(NON, POST, message_id, b"", here))
        answered(script, 0, origin, POST, there, CLIENT)
    config = f"names = {names}\n[hosts]\n" + "".join(f"'{it[0]}' = '{it[1]}'\n" for it in hosts)
    for prefix, origin, base in maps:
        config += f"[[map]]\nprefix = '/{prefix}'\norigin = 'coap://{origin}/{base}'\n"
    return script.run("all_of_64_maps_256_hosts_and_64_names_are_known", "", config, ())


@case
def uris_of_1034_bytes_are_read():
    script, host = Script(), "h" * 255
    first, second, third, query = b"a" * 255, b"b" * 255, b"c", b"q" * 255
    uri = b"/".join((b"coap:/", host.encode(), first, second, 3 * third)) + b"?" + query
    there = [(URI_HOST, host.encode()), (URI_PATH, first), (URI_PATH, second), (URI_PATH, b"ccc")]
    script.come(0, CLIENT, message(NON, POST, 1, b"", [(PROXY_URI, uri)]))
    answered(script, 0, "192.0.2.7:5683", POST, [*there, (URI_QUERY, query)], CLIENT)
    # One with as many escapes as can be, and one byte more.
    uri = b"coap://10.0.0.1/" + b"%61" * 255 + b"/" + b"%62" * 84
    script.come(0, CLIENT, message(NON, POST, 2, b"", [(PROXY_URI, uri)]))
    there = [(URI_PATH, b"a" * 255), (URI_PATH, b"b" * 84)]
    answered(script, 0, "10.0.0.1:5683", POST, there, CLIENT)
    longer = message(CON, POST, 3, b"", [(PROXY_URI, uri + b"/")])
    script.refuse(0, CLIENT, longer, BAD_OPTION)
    config = f"names = ['proxy.test']\n[hosts]\n{host} = '192.0.2.7'\n"
    return script.run("uris_of_1034_bytes_are_read", "", config, ())


# Datagrams


@case
def datagrams_of_4096_bytes_are_read_and_sent():
    script, token = Script(), b"\x01\x02\x03\x04\x05\x06\x07\x08"
    # Head and token, a Max-Age of four bytes, the marker, and the payload.
    payload = b"x" * (4096 - 12 - 6 - 1)
    script.come(0, CLIENT, message(CON, GET, 1, token, path("t")))
    script.send(0, CLIENT, message(ACK, EMPTY, 1))
    asked = script.ask(0, ORIGIN, 1, GET, [TEMP])
    script.answer(0, ORIGIN, asked, CONTENT, [max_age(FOREVER)], payload)
    answer = script.deliver(0, CLIENT, CON, CONTENT, token, [max_age(FOREVER)], payload)
    script.tick(2000)
    script.send(2000, CLIENT, answer)
    script.come(2001, CLIENT, message(RST, EMPTY, int.from_bytes(answer[2:4], "big")))
    script.come(3000, CLIENT, message(CON, GET, 2, token, path("t")))
    script.send(3000, CLIENT, message(ACK, CONTENT, 2, token, [max_age(FOREVER - 3)], payload))
    # A byte more is too long for the client, though it came.
    script.come(3000, CLIENT, message(NON, GET, 3, b"", path("t", "x")))
    asked = script.ask(3000, ORIGIN, 2, GET, path("temp", "x"))
    script.answer(3000, ORIGIN, asked, CONTENT, [], payload + b"x")
    script.deliver(3000, CLIENT, NON, BAD_GATEWAY)
    # A request that is as long as can be once it is forwarded, and one byte more; one that is read,
    # and one byte more.
    payload = b"y" * (4096 - 12 - 5 - 1)
    script.come(3000, CLIENT, message(NON, PUT, 4, b"", path("t"), payload))
    asked = script.ask(3000, ORIGIN, 3, PUT, [TEMP], payload)
    script.answer(3000, ORIGIN, asked, CHANGED)
    script.deliver(3000, CLIENT, NON, CHANGED)
    script.refuse(3000, CLIENT, message(CON, PUT, 5, b"", path("t"), payload + b"y"), TOO_LARGE)
    longest = message(CON, PUT, 6, b"", path("t"), b"y" * (4096 - 4 - 2 - 1))
    script.refuse(3000, CLIENT, longest, TOO_LARGE)
    script.come(3000, CLIENT, longest + b"y")
    script.send(3000, CLIENT, message(RST, EMPTY, 6))
    return script.run("datagrams_of_4096_bytes_are_read_and_sent", "datagram = 4096")


@case
def options_of_the_greatest_lengths_and_numbers_go_on():
    script = Script()
    for n, more in enumerate((
        [(KEPT, b"z" * 4000)],
        [(URI_PATH, b"")] * 4000,
        [(URI_PATH, b"p" * 255)] * 15,
        [(URI_QUERY, b"q" * 255)] * 15,
        [(KEPT, b"")] * 4000,
        [(LAST_KEPT, b"z" * 1500)],
        [(LAST_KEPT, b"z"), (LAST_UNKEPT, b"z" * 1500)],
    )):
        here, answer = [(URI_PATH, b"t"), *more], ([max_age(9), (KEPT, b"w" * 3000)], b"%d" % n)
        script.fetch(0, here, [TEMP, *more], answer, n)
        # What isn't part of the key may be anything.
        here = [it for it in here if it[0] != LAST_UNKEPT]
        script.hit(0, CLIENT, here, answer, n)
    unsafe = message(CON, GET, 7, b"", [*path("t"), (65_535, b"")])
    script.refuse(0, CLIENT, unsafe, BAD_OPTION)
    return script.run("options_of_the_greatest_lengths_and_numbers_go_on", "datagram = 4096")


# The cache


@case
def a_thousand_variants_of_a_target_are_kept_changed_and_validated():
    script, message_id = Script(), 0
    variants = [([(ACCEPT, number_bytes(n))], (ETAG, b"%d" % n), b"%d" % n) for n in range(1000)]
    for more, tag, payload in variants:
        message_id += 1
        here, there = [*path("t"), *more], [TEMP, *more]
        script.fetch(0, here, there, ([tag, max_age(99)], payload), message_id)
    for more, tag, payload in variants:
        message_id += 1
        script.hit(999, CLIENT, [*path("t"), *more], ([tag, max_age(98)], payload), message_id)
    script.come(1000, CLIENT, message(NON, PUT, 0, b"", path("t")))
    answered(script, 1000, ORIGIN, PUT, [TEMP], CLIENT)
    for more, tag, payload in variants:
        message_id += 1
        script.come(1000, CLIENT, message(NON, GET, message_id, b"", [*path("t"), *more]))
        asked = script.ask(1000, ORIGIN, script.new_exchange(), GET, [tag, TEMP, *more])
        script.answer(1000, ORIGIN, asked, VALID, [tag, max_age(50)])
        script.deliver(1000, CLIENT, NON, CONTENT, b"", [tag, max_age(50)], payload)
    for more, tag, payload in variants:
        message_id += 1
        script.hit(1000, CLIENT, [*path("t"), *more], ([tag, max_age(50)], payload), message_id)
    limits = "cache_entries = 1000\ncon_records = 2000\nnon_records = 2001"
    return script.run("a_thousand_variants_of_a_target_are_kept_changed_and_validated", limits)


@case
def a_long_response_with_many_options_is_validated():
    script, tag, payload = Script(), (ETAG, b"\x01" * 8), b"x" * 3500
    more = [(KEPT, b"%02d" % n * 10) for n in range(12)]
    script.fetch(0, path("t"), [TEMP], ([tag, max_age(1), *more], payload))
    script.come(1001, CLIENT, message(NON, GET, 1, b"", path("t")))
    asked = script.ask(1001, ORIGIN, script.new_exchange(), GET, [tag, TEMP])
    script.answer(1001, ORIGIN, asked, VALID, [tag, (CONTENT_FORMAT, b"\x32"), max_age(30)])
    renewed = [tag, (CONTENT_FORMAT, b"\x32"), max_age(30), *more]
    script.deliver(1001, CLIENT, NON, CONTENT, b"", renewed, payload)
    renewed = [tag, (CONTENT_FORMAT, b"\x32"), max_age(left(30, 9.999)), *more]
    script.hit(11_000, CLIENT, path("t"), (renewed, payload), 2)
    return script.run("a_long_response_with_many_options_is_validated", "datagram = 4096")


# Lines


@case
def a_hundred_thousand_lines_are_read():
    script, moment = Script(), 2 ** 62
    script.fetch(0, path("t"), [TEMP], ([max_age(FOREVER)], b"21"))
    for n in range(100_000):
        script.events.append(("\n", "# nothing\n", f"{n} 1000 tick\n")[n % 3])
    # The greatest moment: even the greatest Max-Age has long passed.
    script.come(moment, CLIENT, message(NON, GET, 1, b"", path("t")))
    script.ask(moment, ORIGIN, script.new_exchange(), GET, [TEMP])
    return script.run("a_hundred_thousand_lines_are_read")


def play_by_bytes(program, run):
    """Runs the program with an input that comes in single bytes: each is a packet of its own, and a
    read gets one packet."""
    near, far = socket.socketpair(socket.AF_UNIX, socket.SOCK_SEQPACKET)
    pipe = subprocess.PIPE
    with far:
        process = subprocess.Popen([*program, *run.words], stdin=far, stdout=pipe, stderr=pipe)
    feeder = threading.Thread(target=feed, args=(near, run.events), daemon=True)
    feeder.start()
    output, errors = process.communicate(timeout=50)
    feeder.join()
    return process.returncode, output, errors


def feed(near, data):
    """Sends bytes one by one, for as long as they are read."""
    with near:
        try:
            for n in range(len(data)):
                near.send(data[n : n + 1])
        except OSError:
            pass


def check(program, function):
    """Plays the run that a function makes, in a process of its own, since some are long."""
    play = [sys.executable, "-B", "-c", "from testing import ranges; ranges.main()"]
    words, pipe = [*play, function.__name__, *program], subprocess.PIPE
    top = os.path.dirname(os.path.dirname(os.path.abspath(__file__)))
    done = subprocess.run(words, stdout=pipe, stderr=subprocess.STDOUT, cwd=top, timeout=100)
    text = done.stdout.decode(errors="replace").strip()
    if done.returncode == os.EX_DATAERR:
        raise Failed(text)
    if done.returncode:
        raise Broken(text)


def main():
    """Plays the run with a name through a program, and says how that isn't as it must be."""
    name, *program = sys.argv[1:]
    run = next(function for function in CASES if function.__name__ == name)()
    try:
        worked.check(run, worked.play(program, run))
    except Failed as failure:
        print(failure)
        sys.exit(os.EX_DATAERR)


def check_by_bytes(program, folder):
    """Plays worked runs whose input comes in single bytes: with short lines and with long ones."""
    names = "first_answer", "long_datagrams", "no_last_line_feed", "bad_last_line"
    for run in (it for it in worked.runs(folder) if it.name in names):
        worked.check(run, play_by_bytes(program, run))
