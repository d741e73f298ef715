"""What a replay with --explain says of each event: one line for each outcome, and for each cause of a refusal. What is
expected is worked out by hand."""

import os
import subprocess
import tempfile

from testing.coap import (
    ACK, BLOCK2, CON, CONTENT, DELETE, EMPTY, ETAG, GET, MAX_AGE, NON, NOT_FOUND, POST, PROXY_SCHEME, PROXY_URI, PUT, RST,
    URI_HOST, URI_PATH, URI_QUERY, VALID, message, number_bytes,
)
from testing.network import FAULT, RESULT, expect

T, MAP = (URI_PATH, b"t"), ("--map", "/t=coap://127.0.0.1:5690/temp")
HERE, THERE = "coap://127.0.0.1:5690/temp", "127.0.0.1:5690"
TAG, AGE = (ETAG, b"\xab"), (MAX_AGE, number_bytes(60))


def client(number):
    """The address of a client."""
    return f"127.0.0.1:{40_000 + number}"


def token(number):
    """The token of the request of an exchange, by its number, with the salt 0."""
    return number.to_bytes(8, "big")


def served(number, took=0, sends=1, target=HERE):
    """To whom an answer was delivered, and what its exchange was."""
    return f"to {client(number)} of {target} at {THERE} sent {sends} in {took} ms"


def explained(program, events, config, words):
    """The comments that a program writes for events: moments, and datagrams with their sources or None for ticks."""
    lines = []
    for now, event in events:
        lines.append(f"{now} 0 tick" if event is None else f"{now} 0 {event[0]} {event[1].hex().upper()}")
    with tempfile.NamedTemporaryFile("w", prefix="coap-proxyd-test-", suffix=".toml") as file:
        file.write(config)
        file.flush()
        done = subprocess.run(
            [*program, "--replay", "--explain", *words, "--config", file.name],
            input="\n".join(lines).encode() + b"\n", stdout=subprocess.PIPE, stderr=subprocess.PIPE, timeout=50,
        )
    expect("the status and standard error", (0, b""), (done.returncode, done.stderr), *FAULT)
    return [line for line in done.stdout.decode().splitlines() if line.startswith("#")]


def check(program, script, config="version = 1\n", words=MAP):
    """Has a program say this of these events."""
    comments = explained(program, [(now, event) for now, event, _ in script], config, words)
    for at, (now, event, text) in enumerate(script):
        source = "tick" if event is None else event[0]
        wanted = f"# {at + 1} {now} {source} {text}"
        expect(f"what is said of event {at + 1}", wanted, comments[at] if at < len(comments) else None)
    expect("how many comments", len(script), len(comments))


def an_exchange_and_hits(program):
    get = message(NON, GET, 1, b"a", [T])
    answer = message(ACK, CONTENT, 1, token(1), [TAG, AGE], b"21")
    check(program, [
        (0, (client(1), get), f"NON GET {HERE} opened"),
        (0, (client(2), message(CON, GET, 1, b"b", [T])), f"CON GET {HERE} joined 0.00"),
        (0, None, f"sent GET to {THERE}"),
        (5, (THERE, answer), "ACK 2.05 answered 2.05 kept"),
        (5, None, f"delivered 2.05 ETag ab Max-Age 60 {served(1, 5)}"),
        (5, None, f"delivered 2.05 ETag ab Max-Age 60 {served(2, 5)}"),
        (9, (client(2), message(ACK, EMPTY, 3)), "ACK 0.00 acked"),
        (9, (client(1), get), f"NON GET {HERE} again"),
        (9, None, "idle"),
        (9001, (client(3), message(NON, GET, 7, b"c", [T])), f"NON GET {HERE} hit 2.05 ETag ab Max-Age 51"),
        (9001, (client(3), message(CON, GET, 8, b"c", [TAG, T])), f"CON GET {HERE} hit 2.03 ETag ab Max-Age 51"),
        (9001, (client(3), message(CON, GET, 8, b"c", [TAG, T])), f"CON GET {HERE} again 2.03 ETag ab Max-Age 51"),
    ])


def the_first_answer(program):
    folder = os.path.join(os.path.dirname(os.path.abspath(__file__)), "..", "..", "examples")
    with open(os.path.join(folder, "first-run.events"), "rb") as events:
        done = subprocess.run([*program, "--replay", "--explain", *MAP], stdin=events, capture_output=True, timeout=50)
    with open(os.path.join(folder, "first-run.explained"), "rb") as stored:
        expect("what is written", (0, stored.read(), b""), (done.returncode, done.stdout, done.stderr), *RESULT)


def a_configuration_that_is_read_once(program):
    """From a pipe, whose other end is closed once all was written."""
    get = f"0 0 {client(1)} {message(NON, GET, 1, b'a', [T]).hex().upper()}\n".encode()
    with tempfile.TemporaryDirectory(prefix="coap-proxyd-test-") as folder:
        path = os.path.join(folder, "config")
        os.mkfifo(path)
        words = [*program, "--replay", "--explain", "--config", path]
        pipe = subprocess.PIPE
        with subprocess.Popen(words, stdin=pipe, stdout=pipe, stderr=pipe) as process:
            with open(path, "w") as file:
                file.write(f'version = 1\n[[map]]\nprefix = "/t"\norigin = "{HERE}"\n')
            try:
                output, errors = process.communicate(get, timeout=20)
            except subprocess.TimeoutExpired:
                process.kill()
                output, errors = process.communicate()
        said = f"# 1 0 {client(1)} NON GET {HERE} opened\n".encode()
        expect("what is written", (0, said, b""), (process.returncode, output, errors), *RESULT)


def an_answer_that_is_delivered_later(program):
    """What is said to have taken time is the origin, and not the proxy."""
    check(program, [
        (0, (client(1), message(NON, GET, 1, b"a", [T])), f"NON GET {HERE} opened"),
        (0, None, f"sent GET to {THERE}"),
        (5, (THERE, message(ACK, CONTENT, 1, token(1), [AGE], b"21")), "ACK 2.05 answered 2.05 kept"),
        (2005, None, f"delivered 2.05 Max-Age 58 {served(1, 5)}"),
    ])


def refusals(program):
    check(program, [
        (0, (client(1), message(NON, GET, 1, b"", [T, (BLOCK2, b"")])), "NON GET refused 4.02 option 23"),
        (0, (client(1), message(NON, GET, 2, b"", [(URI_PATH, b"u")])), "NON GET refused 4.04 no map"),
        (0, (client(1), message(NON, 5, 3, b"", [T])), f"NON 0.05 {HERE} refused 4.05 method"),
        (0, (client(1), message(NON, GET, 4, b"", [(PROXY_URI, b"coap://a/")])), "NON GET refused 5.05 not proxied"),
        (0, (client(1), b"\x40\x01"), "ignored format"),
        (0, (client(1), message(CON, EMPTY, 5)), "CON 0.00 rejected ping"),
        (0, (client(1), message(ACK, EMPTY, 5)), "ACK 0.00 ignored nothing awaits it"),
        (0, (client(1), message(CON, CONTENT, 6, b"x")), "CON 2.05 rejected no exchange awaits it"),
        (0, (client(1), message(NON, CONTENT, 6, b"x")), "NON 2.05 ignored no exchange awaits it"),
        (0, (client(1), message(CON, 0x21, 7)), "CON 1.01 rejected code"),
        (0, (client(1), message(NON, GET, 8, b"", [T], bytes(1500))), "NON GET " + HERE + " ignored length"),
    ])


def other_refusals(program):
    part = (URI_QUERY, b"a" * 255)
    refused = [T, (BLOCK2 + 4, b""), (BLOCK2, b""), (URI_QUERY, bytes(256))]
    check(program, [
        (0, (client(1), message(NON, GET, 1, b"", [(PROXY_URI, b"coap://a/#f")])), "NON GET refused 4.00 uri"),
        (0, (client(1), message(NON, GET, 9, b"", refused)), "NON GET refused 4.02 option 15"),
        (0, (client(1), message(NON, GET, 10, b"", refused[:3])), "NON GET refused 4.02 option 23"),
        (0, (client(1), message(NON, PUT, 2, b"", [T, part], bytes(1230))),
         f"NON PUT {HERE}?{'a' * 255} refused 4.13 length"),
        (0, (client(1), message(NON, EMPTY, 3)), "NON 0.00 ignored code"),
        (0, (client(1), message(RST, EMPTY, 4)), "RST 0.00 ignored nothing awaits it"),
        (0, (client(1), message(ACK, GET, 5, b"", [T])), f"ACK GET {HERE} ignored code"),
        (0, (client(1), message(CON, 0xE0, 6)), "CON 7.00 rejected code"),
        (0, (client(1), message(NON, CONTENT, 7, b"", [], bytes(1495))), "NON 2.05 ignored no exchange awaits it"),
        (0, (client(1), message(NON, CONTENT, 8, b"", [], bytes(1496))), "NON 2.05 ignored length"),
    ], "version = 1\nnames = ['proxy.test']\n")


def targets(program):
    six, plain, odd = "[1:2:3:4:5:6:7:8a]", "-._~!$'()*+,;=:@09AZaz", b" \"#%&/<>?[\\]^`{|}\x7f\xc3"
    escaped = "".join(f"%{byte:02X}" for byte in odd)
    parts = [(number, value) for number in (URI_PATH, URI_QUERY) for value in (plain.encode(), odd)]
    script = [
        (0, (f"{six}:40001", message(NON, GET, 1, b"", [(PROXY_URI, f"coap://{six}:5684".encode())])),
         f"NON GET coap://{six}:5684/ opened"),
        (0, None, f"sent GET to {six}:5684"),
        (0, (client(1), message(NON, GET, 1, b"", [T, *parts])),
         f"NON GET {HERE}/{plain}/{escaped}?{plain}&{escaped} opened"),
        (0, (client(1), message(NON, PUT, 2, b"", [T, (URI_PATH, b""), (URI_PATH, b"a")])),
         f"NON PUT {HERE}//a opened"),
        (0, (client(1), message(NON, DELETE, 3, b"", [T])), f"NON DELETE {HERE} opened"),
    ]
    for number, (uri, shown) in enumerate((
        ("coap://192.0.2.7:5683/a", "coap://192.0.2.7/a"),
        ("coap://192.0.2.7:5682/a", "coap://192.0.2.7:5682/a"),
        ("coap://sensor.test:7/x?a&b&", "coap://sensor.test:7/x?a&b&"),
        ("coap://sensor.test", "coap://sensor.test/"),
    )):
        request = message(NON, GET, number, b"", [(PROXY_URI, uri.encode())])
        script.append((0, (client(2), request), f"NON GET {shown} opened"))
    check(program, script, "version = 1\nnames = ['proxy.test']\n[hosts]\n'sensor.test' = '192.0.2.7'\n")


def targets_behind_a_next_proxy(program):
    check(program, [
        (0, (client(1), message(NON, GET, 1, b"", [(PROXY_URI, b"coap://nowhere:81/x")])),
         "NON GET coap://nowhere:81/x opened"),
        (0, None, "sent GET to 127.0.0.1:5700"),
        (0, (client(1), message(NON, GET, 2, b"", [(PROXY_URI, b"coap://[::1]/x")])),
         "NON GET coap://[0:0:0:0:0:0:0:1]/x opened"),
        # a name that would begin a line, or look like a port or a user's name
        (0, (client(1), message(NON, GET, 3, b"", [(URI_HOST, b"a\n# b:1@c&d"), (PROXY_SCHEME, b"coap")])),
         "NON GET coap://a%0A%23%20b%3A1%40c&d/ opened"),
        (0, (client(1), message(NON, GET, 4, b"", [(URI_HOST, b"[::1]:2\xff]"), (PROXY_SCHEME, b"coap")])),
         "NON GET coap://[::1%5D:2%FF]/ opened"),
    ], words=("-P", "coap://127.0.0.1:5700,proxy.test"))


def answers_that_are_validated(program):
    tag, again = (ETAG, b"\x0a\x01"), (MAX_AGE, number_bytes(20))
    check(program, [
        (0, (client(1), message(NON, GET, 1, b"a", [T])), f"NON GET {HERE} opened"),
        (0, None, f"sent GET to {THERE}"),
        (0, (THERE, message(ACK, CONTENT, 1, token(1), [tag, AGE], b"21")), "ACK 2.05 answered 2.05 kept"),
        (0, None, f"delivered 2.05 ETag 0a01 Max-Age 60 {served(1)}"),
        (60_001, (client(1), message(NON, GET, 2, b"b", [T])), f"NON GET {HERE} opened"),
        (60_001, None, f"sent GET ETag 0a01 to {THERE}"),
        (60_001, (THERE, message(ACK, VALID, 3, token(2), [tag, again])), "ACK 2.03 answered 2.03 kept"),
        (60_001, None, f"delivered 2.05 ETag 0a01 Max-Age 20 {served(1)}"),
        # what is valid without a tag of the proxy's is no answer
        (60_001, (client(1), message(NON, GET, 3, b"c", [T, (URI_PATH, b"x")])), f"NON GET {HERE}/x opened"),
        (60_001, None, f"sent GET to {THERE}"),
        (60_001, (THERE, message(ACK, VALID, 5, token(3), [tag])), "ACK 2.03 answered 5.02 tag"),
        (60_001, None, f"delivered 5.02 {served(1, target=HERE + '/x')}"),
    ])


def validations_at_the_limit(program):
    """What a 2.03 renews may be too long for a datagram, and what is left of the 2.03 may fit one."""
    ten, limits = (MAX_AGE, number_bytes(10)), "version = 1\nlimits = { datagram = 128 }\n"
    for valid, text, delivered in (
        # safe to forward, and not recognised
        (message(ACK, VALID, 3, token(2), [TAG, ten, (260, b"a" * 40)]), "5.02 doesn't fit", "5.02"),
        # with a Max-Age of four bytes it would be longer than 128, but its payload isn't passed on
        (message(ACK, VALID, 3, token(2), [TAG, ten], bytes(111)), "2.03 kept", "2.05 ETag ab Max-Age 10"),
    ):
        check(program, [
            (0, (client(1), message(NON, GET, 1, b"a", [T])), f"NON GET {HERE} opened"),
            (0, None, f"sent GET to {THERE}"),
            (0, (THERE, message(ACK, CONTENT, 1, token(1), [TAG, ten], bytes(67))), "ACK 2.05 answered 2.05 kept"),
            (0, None, f"delivered 2.05 ETag ab Max-Age 10 {served(1)}"),
            (10_001, (client(1), message(NON, GET, 2, b"b", [T])), f"NON GET {HERE} opened"),
            (10_001, None, f"sent GET ETag ab to {THERE}"),
            (10_001, (THERE, valid), f"ACK 2.03 answered {text}"),
            (10_001, None, f"delivered {delivered} {served(1)}"),
        ], limits)


def great_numbers(program):
    """Those of options and of a Max-Age that two bytes, or four, have."""
    age, odd = (MAX_AGE, number_bytes(0x12345678)), (0xFF02, b"")
    check(program, [
        (0, (client(1), message(NON, GET, 1, b"a", [T])), f"NON GET {HERE} opened"),
        (0, None, f"sent GET to {THERE}"),
        (0, (THERE, message(ACK, CONTENT, 1, token(1), [age], b"21")), "ACK 2.05 answered 2.05 kept"),
        (0, None, f"delivered 2.05 Max-Age 305419896 {served(1)}"),
        (1, (client(2), message(NON, GET, 2, b"b", [T])), f"NON GET {HERE} hit 2.05 Max-Age 305419895"),
        (1, (client(2), message(NON, GET, 3, b"", [T, odd])), "NON GET refused 4.02 option 65282"),
        (1, (client(3), message(NON, GET, 4, b"c", [T, (URI_PATH, b"x")])), f"NON GET {HERE}/x opened"),
        (1, None, f"sent GET to {THERE}"),
        (1, (THERE, message(ACK, CONTENT, 5, token(2), [odd])), "ACK 2.05 answered 5.02 option 65282"),
    ])


def a_confirmable_client(program):
    tags = [(ETAG, b"\x00"), (ETAG, b"\xff\x10")]
    check(program, [
        (0, (client(1), message(CON, POST, 1, b"a", [T, *tags])), f"CON POST {HERE} opened 0.00"),
        (0, None, f"sent POST ETag 00 ETag ff10 to {THERE}"),
        (5, (THERE, message(CON, CONTENT, 1, token(1), [TAG], b"21")), "CON 2.05 answered 2.05 not stored"),
        (5, None, f"delivered 2.05 ETag ab {served(1, 5)}"),
        (2005, None, f"resent 2.05 ETag ab to {client(1)}"),
        (2006, (THERE, message(CON, CONTENT, 1, token(1), [TAG], b"21")), "CON 2.05 again 0.00"),
        (2007, (client(1), message(RST, EMPTY, 2)), "RST 0.00 acked"),
        (9000, None, "idle"),
    ])


def answers_that_are_not_kept(program):
    script, at = [], 0
    for number, (answer, text) in enumerate((
        (message(ACK, NOT_FOUND, 1, token(1), [(MAX_AGE, b"")]), "ACK 4.04 answered 4.04 not stored"),
        (message(RST, EMPTY, 3), "RST 0.00 answered 5.02 reset"),
        (message(ACK, CONTENT, 5, token(3), [(BLOCK2, b"")]), "ACK 2.05 answered 5.02 option 23"),
        (message(ACK, CONTENT, 7, token(4), [], bytes(1484)), "ACK 2.05 answered 5.02 doesn't fit"),
    ), 1):
        script += [
            (at, (client(number), message(NON, GET, 1, b"a", [T])), f"NON GET {HERE} opened"),
            (at, None, f"sent GET to {THERE}"),
            (at, (THERE, answer), text),
        ]
        code = "4.04" if number == 1 else "5.02"
        age = " Max-Age 0" if number == 1 else ""
        script.append((at, None, f"delivered {code}{age} {served(number)}"))
    check(program, script)


def a_silent_origin(program):
    put = message(NON, POST, 1, b"a", [T, (URI_QUERY, b"a=/&")], b"1")
    check(program, [
        (0, (client(1), put), f"NON POST {HERE}?a=%2F%26 opened"),
        (0, None, f"sent POST to {THERE}"),
        (2000, None, f"resent POST to {THERE}"),
        (93000, None, f"gave up {HERE}?a=%2F%26 at {THERE} sent 2 in 93000 ms"),
        (93000, None, f"delivered 5.04 {served(1, 93_000, 2, HERE + '?a=%2F%26')}"),
    ])


def a_client_that_acknowledges_nothing(program):
    check(program, [
        (0, (client(1), message(CON, POST, 1, b"a", [T])), f"CON POST {HERE} opened 0.00"),
        (0, None, f"sent POST to {THERE}"),
        (5, (THERE, message(ACK, CONTENT, 1, token(1), [], b"21")), "ACK 2.05 answered 2.05 not stored"),
        (5, None, f"delivered 2.05 {served(1, 5)}"),
        *((at, None, f"resent 2.05 to {client(1)}") for at in (2005, 6005, 14_005, 30_005)),
        (62_005, None, f"gave up on {client(1)} sent 5 in 62000 ms"),
    ])


def full_tables(program):
    limits = "exchanges = 1\nclient_exchanges = 1\nnon_records = 3\nclient_non_records = 2\ncon_records = 1\n"
    wanted = [(T, (URI_PATH, name)) for name in (b"a", b"b", b"c", b"d")]
    texts = [f"{HERE}/{name}" for name in "abcd"]
    check(program, [
        (0, (client(1), message(NON, GET, 1, b"", wanted[0])), f"NON GET {texts[0]} opened"),
        (0, (client(2), message(NON, GET, 1, b"", wanted[1])), f"NON GET {texts[1]} overloaded 5.03 exchanges 1/1"),
        (0, (client(1), message(NON, GET, 2, b"", wanted[2])),
         f"NON GET {texts[2]} overloaded 5.03 exchanges 1/1 client exchanges 1/1"),
        (0, (client(1), message(NON, GET, 3, b"", wanted[3])),
         f"NON GET {texts[3]} no record room non 3/3 client non 2/2"),
        (0, (client(3), message(CON, GET, 1, b"", wanted[0])), f"CON GET {texts[0]} joined 0.00"),
        (0, (client(4), message(CON, GET, 1, b"", wanted[0])), f"CON GET {texts[0]} no record room con 1/1"),
    ], f"version = 2\n[limits]\n{limits}")


def full_tables_of_waiters_and_records(program):
    a, b = ([T, (URI_PATH, name)] for name in (b"a", b"b"))
    limits = "exchanges = 4\nclient_exchanges = 4\nwaiters = 2\nclient_waiters = 1\n"
    check(program, [
        (0, (client(1), message(NON, GET, 1, b"", a)), f"NON GET {HERE}/a opened"),
        (0, (client(1), message(NON, GET, 2, b"", b)), f"NON GET {HERE}/b overloaded 5.03 client waiters 1/1"),
        (0, (client(2), message(NON, GET, 1, b"", a)), f"NON GET {HERE}/a joined"),
        (0, (client(3), message(CON, GET, 1, b"", b)), f"CON GET {HERE}/b overloaded 5.03 waiters 2/2"),
        (0, (client(3), message(CON, GET, 2, b"", b)), f"CON GET {HERE}/b no record room client con 1/1"),
        (0, (client(2), message(CON, GET, 2, b"", b)),
         f"CON GET {HERE}/b overloaded 5.03 waiters 2/2 client waiters 1/1"),
        (0, (client(2), message(CON, GET, 3, b"", b)), f"CON GET {HERE}/b no record room con 2/2 client con 1/1"),
    ], f"version = 2\n[limits]\n{limits}con_records = 2\nclient_con_records = 1\n")


def a_join_that_has_no_room(program):
    """Needs no exchange, so that this isn't what is full; what can't join does."""
    limits = "exchanges = 1\nwaiters = 1\nclient_exchanges = 1\nclient_waiters = 1\n"
    check(program, [
        (0, (client(1), message(NON, GET, 1, b"", [T])), f"NON GET {HERE} opened"),
        (0, (client(2), message(NON, GET, 1, b"", [T])), f"NON GET {HERE} overloaded 5.03 waiters 1/1"),
        (0, (client(2), message(NON, POST, 2, b"", [T])), f"NON POST {HERE} overloaded 5.03 exchanges 1/1 waiters 1/1"),
    ], f"version = 2\n[limits]\n{limits}")


def an_answer_that_is_too_large(program):
    check(program, [
        (0, (client(1), message(NON, GET, 1, b"a", [T])), f"NON GET {HERE} opened"),
        (0, None, f"sent GET to {THERE}"),
        (0, (THERE, message(ACK, CONTENT, 1, token(1), [AGE], bytes(64))), "ACK 2.05 answered 2.05 too large"),
        (0, None, f"delivered 2.05 Max-Age 60 {served(1)}"),
    ], "version = 1\nlimits = { cache_bytes = 64 }\n")


def ids_that_run_out(program):
    script = [
        (0, (client(1), message(NON, GET, 1, b"a", [T])), f"NON GET {HERE} opened"),
        (0, None, f"sent GET to {THERE}"),
        (0, (THERE, message(ACK, CONTENT, 1, token(1), [AGE], b"21")), "ACK 2.05 answered 2.05 kept"),
        (0, None, f"delivered 2.05 Max-Age 60 {served(1)}"),
    ]
    # Half of all Message IDs are of one window. Two are used, and one is to be left.
    for number in range(32_765):
        hit = message(NON, GET, number, b"", [T])
        script.append((0, (client(2), hit), f"NON GET {HERE} hit 2.05 Max-Age 60"))
    other, text = [T, (URI_PATH, b"x")], f"{HERE}/x"
    script += [
        (0, (client(3), message(NON, GET, 1, b"", other)), f"NON GET {text} overloaded 5.03 ids 32767/32768"),
        (0, (client(3), message(NON, GET, 2, b"", [T])), f"NON GET {HERE} no id"),
        (0, (client(3), message(CON, GET, 3, b"", other)), f"CON GET {text} overloaded 5.03 ids 32768/32768"),
        (0, (client(3), message(CON, GET, 4, b"", [T])), f"CON GET {HERE} hit 2.05 Max-Age 60"),
    ]
    check(program, script, "version = 1\n[limits]\nnon_records = 65536\n")


def ids_that_are_reserved(program):
    script = [
        (0, (client(1), message(NON, GET, 1, b"a", [T])), f"NON GET {HERE} opened"),
        (0, None, f"sent GET to {THERE}"),
        (0, (THERE, message(ACK, CONTENT, 1, token(1), [AGE], b"21")), "ACK 2.05 answered 2.05 kept"),
        (0, None, f"delivered 2.05 Max-Age 60 {served(1)}"),
    ]
    # With these three Message IDs are left.
    for number in range(32_763):
        hit = message(NON, GET, number, b"", [T])
        script.append((0, (client(2), hit), f"NON GET {HERE} hit 2.05 Max-Age 60"))
    first, other = ([T, (URI_PATH, name)] for name in (b"x", b"y"))
    script += [
        # It is to be sent with one of them, and its client answered with another.
        (0, (client(3), message(NON, GET, 1, b"", first)), f"NON GET {HERE}/x opened"),
        (0, (client(4), message(NON, GET, 1, b"", other)), f"NON GET {HERE}/y overloaded 5.03 ids 32767/32768"),
        (0, (client(4), message(NON, GET, 2, b"", [T])), f"NON GET {HERE} no id"),
        (0, (client(4), message(CON, GET, 3, b"", other)), f"CON GET {HERE}/y overloaded 5.03 ids 32768/32768"),
    ]
    check(program, script, "version = 1\n[limits]\nnon_records = 65536\n")


CASES = (
    an_exchange_and_hits, the_first_answer, a_configuration_that_is_read_once, an_answer_that_is_delivered_later,
    refusals, other_refusals, targets, targets_behind_a_next_proxy, answers_that_are_validated, validations_at_the_limit,
    great_numbers, a_confirmable_client, answers_that_are_not_kept, a_silent_origin, a_client_that_acknowledges_nothing,
    full_tables, full_tables_of_waiters_and_records, a_join_that_has_no_room, an_answer_that_is_too_large,
    ids_that_run_out, ids_that_are_reserved,
)
