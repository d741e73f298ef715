"""What a long uptime does: replays of many events, and of a building over a hundred days, beyond the milliseconds that 32
bits count. With the environment's UPTIME=100 there are so many times as many events: five million of messages that are
remembered, and a building whose devices are asked each minute."""

import os
import random
import threading
from collections import deque

from testing.buildings import Building
from testing.coap import ACK, CON, CONTENT, GET, NON, NOT_FOUND, message
from testing.models import LIFETIMES, Records, Script, check
from testing.network import Broken, case_list
from testing.steps import TEMP, max_age, path

CASES, case = case_list()
# How many times as many events there are, and each script that was made, by the function that makes it.
TIMES, SCRIPTS, LOCK = int(os.environ.get("UPTIME", "1")), {}, threading.Lock()
# The first moment that 32 bits don't count, and the greatest Max-Age, in seconds.
WRAP, FOREVER = 1 << 32, (1 << 32) - 1


def made(make):
    """The script that a function makes, which is made once."""
    with LOCK:
        if make not in SCRIPTS:
            SCRIPTS[make] = make()
        return SCRIPTS[make]


def expect_many(script, least, *outcomes):
    """Has a script have so many events of each of these outcomes, or else it tries nothing."""
    for outcome in outcomes:
        if script.counts[outcome] < least:
            raise Broken(f"a script has {script.counts[outcome]} events of the outcome {outcome}")


# Messages that are remembered


# How many may be remembered, of all clients and of one; how many clients there are, and how many requests.
MOST, MOST_OF_CLIENT, CLIENTS, REQUESTS = 512, 24, 40, 50_000 * TIMES
RECORDS = f"""version = 2
[limits]
con_records = {MOST}
client_con_records = {MOST_OF_CLIENT}
[[map]]
prefix = "/t"
origin = "coap://127.0.0.1:5690/temp"
"""


def endpoint(number):
    """A client."""
    return f"10.0.0.{number}:5683"


def digits(kind, code, options=()):
    """What stands before and behind the Message ID of a message, in hexadecimal digits."""
    text = message(kind, code, 0, b"", options).hex().upper()
    return text[:4], text[8:]


def requests():
    """Confirmable requests: the moment, the client, the Message ID, and whether it is for what is stored. There are
    5,000 that there is room for, then as many that there isn't, and so on; some clients send more than others. A tenth
    come again, some of them after they were forgotten. Before half of them have come, moments have 33 bits."""
    rand, now, ids, sent = random.Random(7252), WRAP - 400 * REQUESTS, [0] * CLIENTS, deque(maxlen=1500)
    for number in range(REQUESTS):
        # There are 165 in 247 seconds, or 988.
        now += rand.randrange(500 if number // 5_000 % 2 else 3000)
        if number % 10 == 9:
            request = sent[rand.randrange(len(sent))]
        else:
            client = min(rand.randrange(CLIENTS), rand.randrange(CLIENTS))
            ids[client] = (ids[client] + 1) % 0x10000
            request = client, ids[client], rand.random() < 0.5
        sent.append(request)
        yield (now, *request)


def store(script, now):
    """Has an answer be stored that is always fresh."""
    script.note(now, 0, f"{endpoint(0)} {message(NON, GET, 0, b'', path('t')).hex()}", "opened")
    asked = message(CON, GET, 1, (1).to_bytes(8, "big"), [TEMP])
    script.note(now, 0, "tick", "sent", ("127.0.0.1:5690", asked.hex().upper()))
    answer = message(ACK, CONTENT, 1, asked[4:12], [max_age(FOREVER)], b"21")
    script.note(now, 0, f"127.0.0.1:5690 {answer.hex()}", "answered")
    told = message(NON, CONTENT, 2, b"", [max_age(FOREVER)], b"21")
    script.note(now, 0, "tick", "delivered", (endpoint(0), told.hex().upper()))


def script_of_records():
    """Requests, of which each is answered at once, or meets silence where it can't be remembered."""
    script, records, got = Script("records"), Records(LIFETIMES[CON], MOST, MOST_OF_CLIENT), WRAP - 400 * REQUESTS
    (head, there), (_, nowhere) = digits(CON, GET, path("t")), digits(CON, GET, path("u"))
    absent, _ = digits(ACK, NOT_FOUND)
    store(script, got)
    for now, client, message_id, is_stored in requests():
        event = f"{endpoint(client)} {head}{message_id:04X}{there if is_stored else nowhere}"
        records.forget(now)
        outcome, reply = "again", records.replies.get((client, message_id))
        if reply is None and records.has_room(client):
            outcome, reply = "refused", f"{absent}{message_id:04X}"
            if is_stored:
                # An age is rounded up.
                outcome, seconds = "hit", FOREVER - (now - got + 999) // 1000
                reply = f"6045{message_id:04X}D401{seconds:08X}FF3231"
            records.remember(now, client, message_id, reply)
        script.note(now, 0, event, outcome if reply else "no record room", (endpoint(client), reply) if reply else None)
    script.close()
    return script


@case("DigitChanged", "ClockOf32Bits")
def records_come_and_are_forgotten(program):
    script = made(script_of_records)
    expect_many(script, REQUESTS // 50, "hit", "refused", "again", "no record room")
    check(program, script, RECORDS, 120 * TIMES)


# A building


# How many devices it has, and how often each is asked by one of its clients, in milliseconds.
DEVICES, EVERY = 4, max(60_000, 6_000_000 // TIMES)


def script_of_a_building():
    """A hundred days."""
    return Building(DEVICES, EVERY).play()


@case("DigitChanged", "ClockOf32Bits")
def a_building_is_served_for_a_hundred_days(program):
    script = made(script_of_a_building)
    often = "hit", "joined", "opened", "again", "sent", "resent", "gave up", "answered", "acked", "delivered", "rejected"
    expect_many(script, 20, *often)
    maps = "".join(f'[[map]]\nprefix = "/d{n}"\norigin = "coap://10.1.0.{n}/value"\n' for n in range(DEVICES))
    check(program, script, f"version = 2\n{maps}", 120 * TIMES)
