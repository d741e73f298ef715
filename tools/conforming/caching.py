"""Sections 5.6 and 5.9.1: what is answered from a cache, for how long, and what a change does to it."""

import time

from conforming import wire
from conforming.cases import MUST, SHOULD, NotKept, NotOffered, case_list, expect, expect_response
from conforming.endpoints import SILENCE
from conforming.wire import GET, NON, POST

CASES, case = case_list("5.6")
CONTENT, VALID, CHANGED = wire.code("2.05"), wire.code("2.03"), wire.code("2.04")
CREATED, DELETED = wire.code("2.01"), wire.code("2.02")
PUT, DELETE = 3, 4
TAG, OTHER_TAG = (wire.ETAG, b"\x01\x02"), (wire.ETAG, b"\x09")


@case(MUST, "KeyIgnoresMethod", each={"POST": (POST, CHANGED), "PUT": (PUT, CHANGED), "DELETE": (DELETE, DELETED)})
def a_stored_response_answers_no_other_method(stage, method, code):
    """The request method and that used to obtain the stored response MUST match."""
    resource = stage.resource()
    stage.fetch(resource)
    stage.fetch_again(resource, b"new", method=method, code=code, body=b"x" if method != DELETE else b"")


# Two requests that differ in one option of the cache key: the path, query and options of either.
DIFFERENT = {
    "another path": ((["a"], [], []), (["b"], [], [])),
    "a longer path": ((["a"], [], []), (["a", "a"], [], [])),
    "a shorter path": ((["a", "b"], [], []), (["a"], [], [])),
    "an empty segment at the end": ((["a"], [], []), (["a", ""], [], [])),
    "a slash in a segment": ((["a", "b"], [], []), (["a/b"], [], [])),
    "the case of the path": ((["a"], [], []), (["A"], [], [])),
    "a query": ((["a"], [], []), (["a"], ["q"], [])),
    "an empty query": ((["a"], [], []), (["a"], [b""], [])),
    "another query": ((["a"], ["q=1"], []), (["a"], ["q=2"], [])),
    "the order of queries": ((["a"], ["b", "c"], []), (["a"], ["c", "b"], [])),
    "an ampersand in a query": ((["a"], ["b", "c"], []), (["a"], ["b&c"], [])),
    "a query in the path": ((["a"], ["q"], []), (["a?q"], [], [])),
    "an Accept": ((["a"], [], []), (["a"], [], [(wire.ACCEPT, b"\x28")])),
    "an Accept of zero": ((["a"], [], []), (["a"], [], [(wire.ACCEPT, b"")])),
    "another Accept": ((["a"], [], [(wire.ACCEPT, b"\x28")]), (["a"], [], [(wire.ACCEPT, b"\x29")])),
}
KEY_FAULTS = ("KeyIgnoresPath", "KeyIgnoresQuery", "KeyIgnoresOptions", "KeyJoined")


def differ(stage, one, other):
    """Has the second of two requests reach the origin, although the first one's response is fresh."""
    resource = stage.resource()
    first, second = (resource.other(*path, query=query) for path, query, _ in (one, other))
    stage.fetch(first, [wire.max_age(60)], b"first", asking=one[2])
    stage.fetch_again(second, b"second", asking=other[2])


@case(MUST, *KEY_FAULTS, each=DIFFERENT)
def a_stored_response_answers_no_other_request(stage, one, other):
    """The options match between those of the presented request and of the stored one, which include the URI."""
    differ(stage, one, other)


UNKNOWN = {"an elective option": wire.SAFE, "a critical option": wire.SAFE_CRITICAL, "option 2048": 2048}


@case(MUST, "KeyIgnoresOptions", at="5.4.2", each=UNKNOWN)
def an_unrecognised_safe_option_is_in_the_key(stage, number):
    """An option that is not marked as NoCacheKey is part of the cache key (5.4.6), also an unrecognised one."""
    differ(stage, (["a"], [], [(number, b"1")]), (["a"], [], [(number, b"2")]))


@case(MUST, "KeyIgnoresOptions", at="5.4.2", each=UNKNOWN)
def a_request_without_an_unrecognised_safe_option_is_another(stage, number):
    differ(stage, (["a"], [], [(number, b"1")]), (["a"], [], []))


@case(MUST, "KeyIgnoresOrigin", needs=("forward",), each={"port": "port", "host": "host"})
def a_stored_response_answers_for_no_other_origin(stage, what):
    first = stage.resource("a")
    origin = stage.origin(stage.host if what == "port" else stage.other_host())
    second = stage.resource("a", origin=origin)
    stage.fetch(first, [wire.max_age(60)], b"first")
    stage.fetch_again(second, b"second")


@case(MUST, "KeyIgnoresOptions", also=["PayloadsChanged"], at="5.6", needs=("cache",))
def a_response_is_given_for_an_equal_request(stage):
    """What is stored for one Accept doesn't become what is given for another one, whichever came last."""
    resource, lives = stage.resource(), {}
    for value in (b"\x28", b"\x29", b""):
        lives[value] = b"as" + value
        stage.fetch(resource, [wire.max_age(60)], lives[value], asking=[(wire.ACCEPT, value)])
    for value, payload in lives.items():
        came = stage.get_stored(resource, [(wire.ACCEPT, value)])
        expect("the payload", payload, came.message.payload)


# Freshness


@case(MUST, "NeverStale", each={"0": 0, "1": 1, "2": 2})
def a_stale_response_is_not_given(stage, seconds):
    """Its age is greater than its freshness lifetime, so it isn't used without a validation (5.6.1)."""
    resource = stage.resource()
    stage.fetch(resource, [wire.max_age(seconds)])
    time.sleep(seconds + 0.2 if seconds else 0)
    stage.fetch_again(resource, b"22")


@case(MUST, "NeverStale", each={"4.04": wire.code("4.04"), "5.00": wire.code("5.00")})
def a_stale_error_is_not_given(stage, code):
    resource = stage.resource()
    stage.fetch(resource, [wire.max_age(1)], code=code)
    time.sleep(1.2)
    stage.fetch_again(resource, b"22")


@case(MUST, "DefaultIsAnHour", "NeverStale", at="5.10.5", is_long=True)
def a_response_without_max_age_is_stale_after_a_minute(stage):
    """If the option is not present, the Max-Age is 60 seconds."""
    resource = stage.resource()
    stage.fetch(resource)
    time.sleep(60.5)
    stage.fetch_again(resource, b"22")


@case(MUST, "CodesLost", at="5.6", needs=("cache",), each={"2.05": CONTENT, "4.04": wire.code("4.04")})
def a_response_from_the_cache_is_as_it_was_stored(stage, code):
    """It is used to satisfy the request: with its code, its options but for the Max-Age, and its payload."""
    resource = stage.resource()
    options = [TAG, (wire.CONTENT_FORMAT, b"\x28"), (wire.SAFE, b"x"), (wire.SAFE_CRITICAL, b"y")]
    stage.fetch(resource, [*options, wire.max_age(60)], b"whole", code)
    came = stage.get_stored(resource).message
    expect_response(came, code=code, options=options, payload=b"whole")


def aged(seconds):
    """The options for a Max-Age, or for none."""
    return [] if seconds is None else [wire.max_age(seconds)]


def expect_age(came, seconds, held=0.0):
    """Has a response have no more Max-Age than an origin gave, or 60 if it gave none, less the time that the response
    was in a cache at least. A part of a second may be rounded in either way, and less is right: a proxy may shorten."""
    most = (60 if seconds is None else seconds) - int(held)
    values = wire.values_of(came, wire.MAX_AGE)
    told = wire.number(values[0]) if values else 60
    if told > most:
        raise NotKept(f"a Max-Age of {most} at most is right, {told} came")


def held_response(stage, code, options, asking=(), seconds=1.3):
    """A response from the cache after some time, and how long it was there at least."""
    resource = stage.resource()
    stage.fetch(resource, options, code=code)
    seen = time.monotonic()
    time.sleep(seconds)
    held = time.monotonic() - seen
    return stage.get_stored(resource, asking).message, held


MISSING, FAILED = wire.code("4.04"), wire.code("5.00")
FORWARDED = {
    "2.05, 10": (GET, CONTENT, 10), "2.05, 0": (GET, CONTENT, 0), "2.05, none": (GET, CONTENT, None),
    "2.05, 65,536": (GET, CONTENT, 65_536), "4.04, 10": (GET, MISSING, 10), "4.04, none": (GET, MISSING, None),
    "5.03, 30": (GET, wire.code("5.03"), 30), "2.04, 10": (POST, CHANGED, 10), "4.04 to a POST, 5": (POST, MISSING, 5),
}


@case(
    MUST, always=["AgesLongerForwarded", "AgesLongerWithoutCache", "AgesOneMore"], also=["CodesLost"], at="5.7.1",
    each=FORWARDED,
)
def a_forwarded_response_has_no_more_max_age_than_its_origin_gave(stage, method, code, seconds):
    """The Max-Age MUST NOT extend the max-age originally set by the server. No time in a cache has to be taken off
    here; nothing may be put on by a proxy without a cache either."""
    body = b"x" if method == POST else b""
    came = stage.fetch(stage.resource(), aged(seconds), code=code, method=method, body=body).message
    expect_response(came, code=code, payload=b"21")
    expect_age(came, seconds)


AGES = {
    "60": (CONTENT, 60), "10": (CONTENT, 10), "256": (CONTENT, 256), "65,536": (CONTENT, 65_536),
    "4,294,967,295": (CONTENT, 0xFFFFFFFF), "none": (CONTENT, None), "4.04, 30": (MISSING, 30),
    "4.04, none": (MISSING, None), "5.00, 30": (FAILED, 30),
}


@case(
    MUST, "AgesOfErrorsLonger", "AgesOfErrorsIgnored", always=["AgeIgnored"], also=["CodesLost"], at="5.7.1",
    needs=("cache",), each=AGES,
)
def a_response_from_the_cache_has_no_more_max_age_than_is_left(stage, code, seconds):
    """The generated (or implied) Max-Age MUST NOT extend the max-age originally set by the server, considering the
    time the representation spent in the cache. An absent one implies 60."""
    came, held = held_response(stage, code, aged(seconds))
    expect("the code", wire.code_text(code), wire.code_text(came.code))
    expect_age(came, seconds, held)


@case(MUST, always=["ValidAgeIgnored"], at="5.7.1", needs=("cache",), each={"60": 60, "10": 10, "none": None})
def a_2_03_of_the_cache_has_no_more_max_age_than_is_left(stage, seconds):
    """It has the cache's client take what that has for fresh (5.9.1.3), so its Max-Age is that of the stored response,
    less the time that it spent in the cache."""
    came, held = held_response(stage, CONTENT, [TAG, *aged(seconds)], [TAG])
    if came.code != VALID:
        raise NotOffered("it answers with the content")
    expect_age(came, seconds, held)


# Validation


def stale(stage, options=(TAG,), payload=b"21"):
    """A resource whose response has an ETag and was stored, and is stale."""
    resource = stage.resource()
    stage.fetch(resource, [*options, wire.max_age(1)], payload)
    time.sleep(1.25)
    return resource


def validate(stage, resource, code, options=(), payload=b""):
    """Has a request for what is stale be a validation, which is answered so. Returns what the client got."""
    client = stage.client()
    request = client.request(GET, resource.here)
    asked = resource.origin.asked(GET)
    if wire.values_of(asked.message, wire.ETAG) != [TAG[1]]:
        resource.origin.answer(asked)
        raise NotOffered("it doesn't validate")
    resource.origin.answer(asked, code, options, payload)
    return client.response(request).message


@case(SHOULD, "TagsNotSent", also=["CodesLost"], at="5.6.2", needs=("cache",), each={
    "two bytes": b"\x01\x02", "one zero": b"\x00", "eight bytes": b"abcdefgh",
})
def a_request_for_what_is_stale_has_its_etag(stage, tag):
    """An endpoint that has stored responses for a GET, but can't use any of them, SHOULD use the ETag option, to give
    the origin server an opportunity to select one and to update its freshness."""
    resource = stale(stage, [(wire.ETAG, tag)])
    client = stage.client()
    request = client.request(GET, resource.here)
    asked = resource.origin.asked(GET)
    resource.origin.answer(asked)
    client.expect_code(request, CONTENT)
    expect("the ETags at the origin", [tag], wire.values_of(asked.message, wire.ETAG))


@case(MUST, "ValidTakenWrong", also=["KnownNotReturned", "AgesLongerForwarded"], at="5.6.2", needs=("cache",))
def a_2_03_selects_what_is_stored(stage):
    resource = stale(stage)
    came = validate(stage, resource, VALID, [TAG, wire.max_age(30)])
    expect_response(came, code=CONTENT, payload=b"21")
    expect("its ETags", [TAG[1]], wire.values_of(came, wire.ETAG))
    expect_age(came, 30)


NEWS = {"2.05": CONTENT, "4.04": wire.code("4.04"), "5.00": wire.code("5.00")}


@case(SHOULD, "NewsIgnored", at="5.6.2", needs=("cache",), each=NEWS)
def anything_but_a_2_03_answers_the_request(stage, code):
    """Any other response code indicates that none of the stored responses is suitable. Instead, the response SHOULD be
    used to satisfy the request."""
    resource = stale(stage)
    came = validate(stage, resource, code, [OTHER_TAG] if code == CONTENT else [], b"new")
    expect_response(came, code=code, payload=b"new")


@case(
    MUST, always=["RenewalIgnored"], also=["PayloadsChanged", "RenewalShownAlone"], at="5.9.1.3", needs=("cache",),
    each={"30": 30, "1,000": 1000, "none": None},
)
def a_2_03_renews_the_max_age(stage, seconds):
    """The cache MUST update the stored response with the value of the Max-Age option included in it, explicitly or
    implicitly as a default value. Here that is less than the one before, and a change made the response stale."""
    resource = stage.resource()
    stage.fetch(resource, [TAG, wire.max_age(5000)])
    stage.fetch(resource, [], b"", CHANGED, method=PUT, body=b"x")
    expect_age(validate(stage, resource, VALID, [TAG, *aged(seconds)]), seconds)
    came = stage.get_stored(resource).message
    expect("the payload", b"21", came.payload)
    expect_age(came, seconds)


@case(MUST, always=["RenewalIgnored"], also=["CodesLost"], at="5.9.1.3", needs=("cache",))
def what_a_2_03_renewed_for_long_stays_fresh(stage):
    """.. also where the new value is more than the one before, so that the response is used when that has passed."""
    resource = stale(stage)
    validate(stage, resource, VALID, [TAG, wire.max_age(1000)])
    stage.get_stored(resource)
    time.sleep(1.3)
    client = stage.client()
    request = client.request(GET, resource.here)
    resource.origin.expect_no_request("for what a 2.03 renewed for 1,000 s")
    expect_response(client.expect_code(request, CONTENT).message, payload=b"21")


@case(MUST, "RenewalIgnored", at="5.9.1.3", needs=("cache",))
def a_2_03_with_a_max_age_of_0_renews_nothing(stage):
    resource = stale(stage)
    validate(stage, resource, VALID, [TAG, wire.max_age(0)])
    client = stage.client()
    client.request(GET, resource.here)
    resource.origin.answer(resource.origin.asked(GET))


RENEWED = {
    "Content-Format": wire.CONTENT_FORMAT, "an elective option": wire.SAFE, "a critical option": wire.SAFE_CRITICAL,
}


@case(MUST, "OptionsNotRenewed", also=["PayloadsChanged"], at="5.9.1.3", needs=("cache",), each=RENEWED)
def a_2_03_renews_the_safe_options(stage, number):
    """For each type of Safe-to-Forward option present in the response, the set of options of this type in the stored
    response MUST be replaced with the one that was received."""
    resource = stale(stage, [TAG, (number, b"\x28")])
    validate(stage, resource, VALID, [TAG, wire.max_age(50), (number, b"\x32")])
    came = stage.get_stored(resource).message
    expect("the option", [b"\x32"], wire.values_of(came, number))
    expect("the payload", b"21", came.payload)


@case(MUST, "OptionsNotRenewed", at="5.9.1.3", needs=("cache",))
def a_2_03_leaves_the_options_that_it_does_not_have(stage):
    resource = stale(stage, [TAG, (wire.CONTENT_FORMAT, b"\x28"), (wire.SAFE, b"a")])
    validate(stage, resource, VALID, [TAG, wire.max_age(50), (wire.SAFE, b"b")])
    came = stage.get_stored(resource).message
    expect("the options", [[b"\x28"], [b"b"]], [wire.values_of(came, it) for it in (wire.CONTENT_FORMAT, wire.SAFE)])


@case(MUST, "ValidWithPayload", "ValidWithoutTag", also=["CodesLost"], at="5.9.1.3", needs=("cache",), each={
    "without a tag": "tag", "with a payload": "payload",
})
def a_2_03_of_the_cache_is_not(stage, what):
    """The response MUST include an ETag Option and MUST NOT include a payload. A 2.05 is right as well."""
    resource = stage.resource()
    stage.fetch(resource, [TAG, wire.max_age(60)])
    came = stage.get_stored(resource, [OTHER_TAG, TAG]).message
    if came.code != VALID:
        expect_response(came, code=CONTENT, payload=b"21")
        raise NotOffered("it answers with the content")
    if what == "tag":
        expect("its ETags", [TAG[1]], wire.values_of(came, wire.ETAG))
    else:
        expect("its payload", b"", came.payload)


OTHER_TAGS = {
    "another": b"\x09", "a longer one": b"\x01\x02\x00", "a shorter one": b"\x01",
    "with a zero before": b"\x00\x01\x02",
}


@case(MUST, "TagsAreNumbers", "AnyTagIsValid", at="5.10.6", needs=("cache",), each=OTHER_TAGS)
def a_client_with_another_etag_gets_the_content(stage, tag):
    """The ETag is opaque: only the same bytes are the same tag."""
    resource = stage.resource()
    stage.fetch(resource, [TAG, wire.max_age(60)])
    client = stage.client()
    request = client.request(GET, [*resource.here, (wire.ETAG, tag)])
    asked = resource.origin.new(SILENCE)
    if asked is not None:
        raise NotOffered("it asks the origin")
    came = client.response(request).message
    expect_response(came, code=CONTENT, payload=b"21")


# Changes

CHANGES = {
    "PUT 2.04": (PUT, CHANGED), "POST 2.04": (POST, CHANGED), "DELETE 2.02": (DELETE, DELETED),
    "POST 2.01": (POST, CREATED), "PUT 2.01": (PUT, CREATED), "POST 2.02": (POST, DELETED),
}


@case(MUST, "ChangesIgnored", at="5.9.1.4", each=CHANGES)
def a_change_makes_its_target_stale(stage, method, code):
    """A cache MUST mark any stored response for the created, deleted or changed resource as not fresh (5.9.1.1,
    5.9.1.2, 5.9.1.4). A 2.01 without a location is about the request's URI."""
    resource = stage.resource()
    stage.fetch(resource, [wire.max_age(60)])
    stage.fetch(resource, [], b"", code, method=method, body=b"x" if method != DELETE else b"")
    stage.fetch_again(resource, b"22")


def location(resource, query=()):
    """The Location options of a resource at its origin."""
    parts = [(wire.LOCATION_PATH, value) for number, value in resource.there if number == wire.URI_PATH]
    return parts + [(wire.LOCATION_QUERY, it) for it in query]


@case(MUST, "LocationsIgnored", at="5.9.1.1", each={"a path": ((),), "a path and a query": ((b"q",),)})
def what_was_created_is_stale(stage, query):
    """A cache MUST mark any stored response for the created resource as not fresh; its URI is that of the Location
    options (5.10.7)."""
    resource = stage.resource("list")
    made = resource.other("made", query=list(query))
    stage.fetch(made, [wire.max_age(60)])
    stage.fetch(resource, location(made, query), b"", CREATED, method=POST, body=b"x")
    stage.fetch_again(made, b"22")


LOCATED = {"2.04": (POST, CHANGED), "2.05": (GET, CONTENT), "4.04": (POST, wire.code("4.04"))}


@case(MUST, "LocationsIgnored", at="5.10.7", each=LOCATED)
def what_a_location_names_is_stale(stage, method, code):
    """If a response with Location options passes through a cache that interprets these options and the implied URI
    identifies stored responses, those entries MUST be marked as not fresh."""
    resource = stage.resource("list")
    named = resource.other("named")
    stage.fetch(named, [wire.max_age(60)])
    stage.fetch(resource, location(named), b"", code, method=method, body=b"x" if method == POST else b"")
    stage.fetch_again(named, b"22")


@case(MUST, "ChangesStored", at="5.9.1", each={
    "2.01": (POST, CREATED), "2.02": (DELETE, DELETED), "2.04": (PUT, CHANGED), "2.04 to a POST": (POST, CHANGED),
})
def the_response_to_a_change_is_not_stored(stage, method, code):
    """This response is not cacheable. So the same request asks the origin again, and a GET does, too."""
    resource = stage.resource()
    body = b"x" if method != DELETE else b""
    stage.fetch(resource, [wire.max_age(60)], b"", code, method=method, body=body)
    stage.fetch_again(resource, b"", method=method, code=code, body=body)
    stage.fetch_again(resource, b"22")


@case(MUST, "ChangesIgnored", at="5.9.1.4")
def a_change_of_another_client_makes_stale_too(stage):
    resource = stage.resource()
    stage.fetch(resource, [wire.max_age(60)], client=stage.client())
    stage.fetch(resource, [], b"", CHANGED, client=stage.client(), method=PUT, body=b"22")
    stage.fetch_again(resource, b"22")


@case(MUST, "StoredBeforeChange", at="5.9.1.4")
def what_was_requested_before_a_change_is_not_given_after_it(stage):
    """A response that an origin sent before the change, and that comes after it, is a stored response for the changed
    resource: it is not fresh."""
    resource, early, late = stage.resource(), stage.client(), stage.client()
    first = early.request(GET, resource.here)
    asked = resource.origin.asked(GET)
    resource.origin.acknowledge_if_confirmable(asked)
    stage.fetch(resource, [], b"", CHANGED, client=late, method=PUT, body=b"22")
    resource.origin.answer(asked, CONTENT, [wire.max_age(60)], b"old", NON)
    early.response(first)
    stage.fetch_again(resource, b"22")
