"""What must hold of answers from the cache, and of changes."""

import time

from reading.messages import option_name
from testing.coap import (
    ACCEPT, CHANGED, CONTENT, CREATED, DELETE, DELETED, ETAG, GET, LOCATION_PATH, MAX_AGE, NON, NOT_FOUND, POST, PUT,
    SIZE1, URI_QUERY, VALID,
)
from testing.network import Life, case_list, expect, expect_between, expect_message
from testing.steps import T, TEMP, change, expect_hit, fetch, max_age, path

CASES, case = case_list()


@case("MaxAgeKept", "NeverFromTheCache")
def a_hit_has_the_max_age_that_is_left(stage):
    _, client, origin = stage.mapped()
    life = fetch(client, origin)
    expect_hit(client, life)
    time.sleep(1.2)
    expect_hit(client, life)
    expect_hit(client, life, kind=NON)
    expect_hit(stage.peer(to=client.to), life)
    origin.expect_silence("at the origin")


@case("AnswersFromMemory")
def a_stale_response_is_not_given(stage):
    _, client, origin = stage.mapped()
    life = fetch(client, origin, seconds=1)
    time.sleep(max(0, life.seen + 1.1 - time.time()))
    fetch(client, origin, payload=b"22")


@case("AnswersFromMemory")
def what_has_no_lifetime_is_not_kept(stage):
    _, client, origin = stage.mapped()
    fetch(client, origin, seconds=0)
    fetch(client, origin, payload=b"22", seconds=0)


@case("NeverFromTheCache")
def an_error_of_the_origin_is_kept(stage):
    _, client, origin = stage.mapped()
    request = client.request(GET, [T])
    asked = origin.expect_request(GET, [TEMP])
    life = Life(60, origin.answer(asked, NOT_FOUND, payload=b"gone").at)
    life = life._replace(seen=client.expect_late(request, NOT_FOUND, [], b"gone", life=life).at)
    request = client.request(GET, [T], kind=NON)
    client.expect_response(request, NOT_FOUND, [], b"gone", life=life)


@case("KeyIsThePath")
def accept_and_query_are_part_of_the_key(stage):
    _, client, origin = stage.mapped()
    lives = []
    for payload, more in ((b"1", []), (b"2", [(ACCEPT, b"")]), (b"3", [(URI_QUERY, b"a")]), (b"4", [(URI_QUERY, b"")])):
        lives.append((fetch(client, origin, payload, here=[T, *more], there=[TEMP, *more]), payload, more))
    for life, payload, more in lives:
        expect_hit(client, life, payload, [T, *more])


@case("NeverFromTheCache")
def size1_is_no_part_of_the_key(stage):
    _, client, origin = stage.mapped()
    life = fetch(client, origin)
    expect_hit(client, life, options=[T, (SIZE1, b"\x10")])


@case("TagLost")
def a_stale_response_is_validated_by_its_tag(stage):
    _, client, origin = stage.mapped()
    tag = (ETAG, b"\xab\xcd")
    life = fetch(client, origin, seconds=1, tags=[tag])
    time.sleep(max(0, life.seen + 1.1 - time.time()))
    request = client.request(GET, [T])
    asked = origin.expect_request(GET, [tag, TEMP])
    life = Life(30, origin.answer(asked, VALID, [tag, max_age(30)]).at)
    seen = client.expect_late(request, CONTENT, [tag], b"21", life=life).at
    expect_hit(client, life._replace(seen=seen), tags=[tag])


@case("CodeChanged", "NeverFromTheCache")
def a_client_that_has_the_tag_gets_valid(stage):
    _, client, origin = stage.mapped()
    tag = (ETAG, b"\xab")
    life = fetch(client, origin, tags=[tag])
    request = client.request(GET, [(ETAG, b"\x01"), tag, T])
    client.expect_response(request, VALID, [tag], life=life)
    expect_hit(client, life, options=[(ETAG, b"\x01"), T], tags=[tag])


@case("OtherLimits")
def the_least_recently_used_entry_goes_first(stage):
    _, client, origin = stage.mapped("cache_entries = 2")
    one, two, three = (
        (lambda name=name: fetch(client, origin, name.encode(), here=path("t", name), there=path("temp", name)))
        for name in ("1", "2", "3")
    )
    first, second = one(), two()
    expect_hit(client, first, b"1", path("t", "1"))
    three()
    expect_hit(client, first, b"1", path("t", "1"))
    expect("whether the answer is asked for again", True, two().sent != second.sent)


@case("MaxAgeKept")
def a_second_proxy_behind_a_map_keeps_the_age(stage):
    inner, client, origin = stage.mapped()
    outer = [stage.proxy("--map", f"/o=coap://{inner[0]}:{inner[1]}/t") for _ in range(2)]
    client, other = (stage.peer(to=it) for it in outer)
    request = client.request(GET, path("o", "x"))
    answer = origin.answer(origin.expect_request(GET, path("temp", "x")), CONTENT, payload=b"21")
    came = client.receive("the acknowledgement"), client.receive("the response")
    expect("the payload", b"21", came[1].message.payload)
    client.acknowledge(came[1])
    time.sleep(2.2)
    request = other.request(GET, path("o", "x"), kind=NON)
    reply = other.receive("the response")
    expect_message("the response", reply, code=CONTENT, token=request.message.token, payload=b"21")
    expect("its options", [option_name(MAX_AGE)], [option_name(number) for number, _ in reply.message.options])
    # The inner one has 57 left, and the outer one rounds up once more.
    aged = reply.at - answer.at
    expect_between("Max-Age", 60 - aged - 2.1, 57, int.from_bytes(reply.message.options[0][1], "big"))
    origin.expect_silence("at the origin")


# Changes.


def change_is_seen(stage, method, code, payload=b""):
    """A change of what is in the cache: it is asked for again."""
    _, client, origin = stage.mapped()
    expect_hit(client, fetch(client, origin))
    change(client, origin, method, code, payload)
    life = fetch(client, origin, b"22")
    expect_hit(client, life, b"22")


@case("AnswersFromMemory")
def a_put_changes_its_target(stage):
    change_is_seen(stage, PUT, CHANGED, b"22")


@case("AnswersFromMemory")
def a_post_changes_its_target(stage):
    change_is_seen(stage, POST, CHANGED, b"more")


@case("AnswersFromMemory")
def a_delete_changes_its_target(stage):
    change_is_seen(stage, DELETE, DELETED)


@case("NeverFromTheCache")
def a_change_that_failed_changes_nothing(stage):
    _, client, origin = stage.mapped()
    life = fetch(client, origin)
    change(client, origin, PUT, NOT_FOUND, b"22")
    expect_hit(client, life)


@case("AnswersFromMemory", "NeverFromTheCache")
def what_is_created_changes_its_location_alone(stage):
    _, client, origin = stage.mapped()
    seven = {"here": path("t", "7"), "there": path("temp", "7")}
    fetch(client, origin, b"7", **seven)
    other = fetch(client, origin, b"8", here=path("t", "8"), there=path("temp", "8"))
    location = [(LOCATION_PATH, b"temp"), (LOCATION_PATH, b"7")]
    change(client, origin, POST, CREATED, b"new", location, path("t", "list"), path("temp", "list"))
    expect_hit(client, other, b"8", path("t", "8"))
    fetch(client, origin, b"new", **seven)
