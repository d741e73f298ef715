"""What must hold where one client sends too much: beyond its own limits it is turned away, and others are served."""

from testing.coap import CON, CONTENT, GET, NON, UNAVAILABLE
from testing.network import Life, case_list
from testing.steps import T, TEMP, expect_hit, fetch, max_age, path

CASES, case = case_list()
# What each case must find: a limit that is one more, none for a client, and all clients within that of one.
WRONG = ("OtherLimits", "ClientsUnlimited", "ClientsCountTogether")


def flooded(stage, limits):
    """A proxy with these limits; a client that will send too much, one that won't, and an origin."""
    _, good, origin = stage.mapped(limits, version=2)
    return stage.peer(to=good.to), good, origin


def flood_of_messages(stage, key, kind, other_kind):
    """A client sends 140 new messages of one type and is answered eight times, as often as the other client."""
    flooding, good, origin = flooded(stage, f"{key} = 16\nclient_{key} = 8")
    life, sent = fetch(good, origin, kind=kind), []
    for _ in range(7):
        sent += [flooding.request(GET, [T], kind=kind) for _ in range(20)]
        expect_hit(good, life, kind=kind)
    for request in sent[:8]:
        reply = flooding.expect_response(request, CONTENT, [], b"21", life=life)
    flooding.expect_silence("beyond the limit of a client")
    expect_hit(flooding, life, kind=other_kind)
    return flooding, request, reply


@case(*WRONG, "NeverSilent")
def a_flood_of_confirmable_messages_harms_no_other_client(stage):
    flooding, request, reply = flood_of_messages(stage, "con_records", CON, NON)
    flooding.send(request.data)
    flooding.expect_bytes("the reply to a duplicate", reply.data)


@case(*WRONG)
def a_flood_of_non_confirmable_messages_harms_no_other_client(stage):
    flooding, request, _ = flood_of_messages(stage, "non_records", NON, CON)
    flooding.send(request.data)
    flooding.expect_silence("for a duplicate")


def refuse_beside(flooding, good, origin, paths, seconds):
    """Has each further request of one client be refused, while another gets what only the origin has."""
    for number in range(5):
        for some in paths(number):
            flooding.expect_response(flooding.request(GET, some, kind=NON), UNAVAILABLE, [max_age(seconds)])
        fetch(good, origin, here=path("t", f"good-{number}"), there=path("temp", f"good-{number}"))


@case(*WRONG)
def a_client_with_all_its_exchanges_harms_no_other_client(stage):
    flooding, good, origin = flooded(stage, "exchanges = 4\nclient_exchanges = 3\nretry_s = 7")
    opened = []
    for name in "abc":
        request = flooding.request(GET, path("t", name), kind=NON)
        opened.append((request, origin.expect_request(GET, path("temp", name))))
        origin.acknowledge(opened[-1][1])
    refuse_beside(flooding, good, origin, lambda number: [path("t", f"{number}-{n}") for n in range(6)], 7)
    for request, asked in opened:
        life = Life(60, origin.answer(asked, CONTENT, payload=b"21", kind=NON).at)
        flooding.expect_response(request, CONTENT, [], b"21", life=life)
    fetch(flooding, origin, here=path("t", "d"), there=path("temp", "d"))


@case(*WRONG)
def a_client_with_all_its_waiting_requests_harms_no_other_client(stage):
    flooding, good, origin = flooded(stage, "waiters = 6\nclient_waiters = 3\nretry_s = 300")
    waiting = [(flooding, flooding.request(GET, [T], kind=NON)) for _ in range(3)]
    asked = origin.expect_request(GET, [TEMP])
    origin.acknowledge(asked)
    refuse_beside(flooding, good, origin, lambda _: 6 * [[T]], 300)
    waiting += [(good, good.request(GET, [T], kind=NON)) for _ in range(3)]
    good.expect_silence("while the origin is asked")
    life = Life(60, origin.answer(asked, CONTENT, payload=b"21", kind=NON).at)
    for client, request in waiting:
        client.expect_response(request, CONTENT, [], b"21", life=life)
