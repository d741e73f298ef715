"""Sections 5.6 and 5.9.1: requests that are under way together, what gave an error, and what a change makes stale."""

from conforming import wire
from conforming.cases import MUST, NotOffered, case_list, expect, expect_response
from conforming.wire import GET, NON, POST

CASES, case = case_list("5.9.1.4")
CONTENT, CHANGED = wire.code("2.05"), wire.code("2.04")
CREATED, DELETED, BAD_GATEWAY = wire.code("2.01"), wire.code("2.02"), wire.code("5.02")
PUT, DELETE = 3, 4
CHANGES = {"2.04": (PUT, CHANGED), "2.02": (DELETE, DELETED), "2.01": (POST, CREATED)}


def change(stage, resource, method=PUT, code=CHANGED, options=()):
    """Has a resource be changed, and returns what the client got."""
    return stage.fetch(resource, options, b"", code, method=method, body=b"" if method == DELETE else b"x").message


@case(MUST, always=["RootKept"], each=CHANGES)
def a_change_makes_the_root_stale(stage, method, code):
    """A resource without a path is one like any other."""
    resource = stage.root()
    stage.fetch(resource, [wire.max_age(60)])
    change(stage, resource, method, code)
    stage.fetch_again(resource, b"22")


VARIANTS = {
    "an Accept": ((wire.ACCEPT, b"\x28"),), "an elective option": ((wire.SAFE, b"x"),),
    "a critical option": ((wire.SAFE_CRITICAL, b"x"),),
}


@case(MUST, always=["VariantsKept"], each=VARIANTS)
def a_change_makes_what_was_got_with_options_stale(stage, *options):
    """It is any stored response for the changed resource that is marked, whatever options its request had beside those
    that name the resource."""
    resource = stage.resource()
    for asking in ([], options):
        stage.fetch(resource, [wire.max_age(60)], asking=asking)
    change(stage, resource)
    stage.fetch_again(resource, b"22", asking=options)


@case(MUST, always=["RefusedChangesIgnored"], each=CHANGES)
def a_change_whose_response_gives_5_02_makes_stale_too(stage, method, code):
    """The origin has changed the resource, even if its response can't be passed on for an unsafe option (5.7.1). What
    the client gets is another matter."""
    resource, client = stage.resource(), stage.client()
    stage.fetch(resource, [wire.max_age(60)])
    request = client.request(method, resource.here, b"" if method == DELETE else b"x")
    resource.origin.answer(resource.origin.asked(method), code, [(wire.UNSAFE_CRITICAL, b"x")], b"")
    client.reply(request, 2)
    stage.fetch_again(resource, b"22")


@case(MUST, always=["JoinsAfterChange"], also=["CodesLost"])
def a_get_after_a_change_gets_nothing_from_before_it(stage):
    """The response to a GET that was sent before the change is one for the changed resource, and not fresh: who asks
    after the change doesn't get it, even if it comes only then."""
    resource, early, late = stage.resource(), stage.client(), stage.client()
    early.request(GET, resource.here)
    first = resource.origin.asked(GET)
    resource.origin.acknowledge_if_confirmable(first)
    change(stage, resource)
    request = late.request(GET, resource.here)
    second = resource.origin.new(1)
    resource.origin.answer(first, CONTENT, [wire.max_age(60)], b"old", NON)
    second = second or stage.reached(resource.origin, late, request)
    resource.origin.answer(second, CONTENT, [], b"new")
    expect_response(late.response(request).message, code=CONTENT, payload=b"new")


PAIRS = {
    "another Accept": ([(wire.ACCEPT, b"\x28")], [(wire.ACCEPT, b"\x29")]), "an Accept": ([], [(wire.ACCEPT, b"\x28")]),
    "no Accept": ([(wire.ACCEPT, b"\x28")], []), "a safe option": ([], [(wire.SAFE_CRITICAL, b"x")]),
}


@case(MUST, always=["JoinsByTarget"], also=["CodesLost"], at="5.6", each=PAIRS)
def a_request_gets_no_answer_to_another_under_way(stage, one, other):
    """What two requests may share is a response that could be stored for both: their methods and the options of the
    cache key match."""
    resource, early, late = stage.resource(), stage.client(), stage.client()
    early.request(GET, [*resource.here, *one])
    first = resource.origin.asked(GET)
    resource.origin.acknowledge_if_confirmable(first)
    request = late.request(GET, [*resource.here, *other])
    second = resource.origin.new(1)
    resource.origin.answer(first, CONTENT, [], b"first", NON)
    second = second or stage.reached(resource.origin, late, request)
    resource.origin.answer(second, CONTENT, [], b"second")
    expect_response(late.response(request).message, code=CONTENT, payload=b"second")


@case(MUST, always=["RefusedStored"], also=["PayloadsChanged"], at="5.7.1")
def what_gave_5_02_is_not_given_later(stage):
    """A response that can't be passed on isn't fit for the next client either, who gets 5.02 again, or what the origin
    answers then."""
    resource, client, unsafe = stage.resource(), stage.client(), (wire.UNSAFE_CRITICAL, b"x")
    request = client.request(GET, resource.here)
    resource.origin.answer(resource.origin.asked(GET), CONTENT, [unsafe, wire.max_age(60)])
    came = client.reply(request, 2)
    if came is None or came.message.code != BAD_GATEWAY:
        raise NotOffered("it doesn't give 5.02")
    client = stage.client()
    request = client.request(GET, resource.here)
    asked, came = stage.asked_or_answered(resource.origin, client, request)
    if came is not None:
        expect("the code", "5.02", wire.code_text(came.message.code))
        return
    resource.origin.answer(asked, CONTENT, [], b"22")
    expect_response(client.response(request).message, code=CONTENT, payload=b"22")


@case(MUST, always=["SecondTagsCount"], at="5.10.6.1", needs=("cache",))
def a_second_etag_of_a_response_selects_nothing(stage):
    """A response has one ETag at most; a further one is unrecognised (5.4.5). So no 2.03 says that a client with that
    one has what is stored."""
    resource = stage.resource()
    stage.fetch(resource, [(wire.ETAG, b"\x01"), (wire.ETAG, b"\x02"), wire.max_age(60)])
    came = stage.get_stored(resource, [(wire.ETAG, b"\x02")]).message
    expect_response(came, code=CONTENT, payload=b"21")
