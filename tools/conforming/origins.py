"""Sections 5.2 and 5.7 with an origin that isn't the suite's: libcoap's server, where it is installed."""

import shutil
import time
from urllib.parse import quote

from conforming import wire
from conforming.cases import MUST, NotKept, NotOffered, case_list, expect
from conforming.wire import CON, GET, NON, PROXY_URI, URI_QUERY
from testing.network import free_port

CASES, case = case_list("5.7.2")
CONTENT, CREATED, CHANGED, DELETED = (wire.code(it) for it in ("2.05", "2.01", "2.04", "2.02"))
NEEDS = ("forward", "libcoap")


class Served:
    """A server of libcoap, and a client that asks it through the proxy and directly."""

    def __init__(self, stage):
        self.stage, self.host, self.port = stage, stage.host, free_port()
        program = shutil.which("coap-server-notls") or shutil.which("coap-server")
        words = [program, "-A", self.host, "-p", str(self.port), "-d", "10"]
        stage.start(words)
        until = time.monotonic() + 10
        while time.monotonic() < until:
            probe = self.client(True)
            if probe.find(lambda it: True, 0.2) is not None or self.ask(GET, [], directly=True, seconds=0.2):
                return
        raise NotOffered("libcoap's server didn't start")

    def client(self, directly):
        return self.stage.client((self.host, self.port) if directly else None)

    def ask(self, method, segments, query=(), body=b"", kind=CON, directly=False, seconds=6):
        """The response to a request, through the proxy or directly, or None."""
        if directly:
            options = wire.path(*segments) + [(URI_QUERY, it.encode()) for it in query]
        else:
            uri = f"coap://{wire.literal(self.host)}:{self.port}/" + "/".join(quote(it) for it in segments)
            uri += "?" + "&".join(query) if query else ""
            options = [(PROXY_URI, uri.encode())]
        client = self.client(directly)
        came = client.reply(client.request(method, options, body, kind), seconds)
        return came.message if came else None


def told(message):
    """Code, options but for the Max-Age, and payload of a response."""
    if message is None:
        raise NotKept("no response came")
    kept = [it for it in message.options if it[0] != wire.MAX_AGE]
    return wire.code_text(message.code), kept, message.payload


PATHS = {
    "the first page": (), "the resources": (".well-known", "core"), "what isn't there": ("no", "such", "thing"),
}


@case(MUST, "CodesLost", "KnownNotReturned", "UriLost", needs=NEEDS, each=PATHS)
def what_libcoaps_server_has_is_returned_as_it_is(stage, *segments):
    """The response through the proxy has the code, the options and the payload of the response without it."""
    served = Served(stage)
    direct = told(served.ask(GET, segments, directly=True))
    for kind in (CON, NON):
        expect("the response", direct, told(served.ask(GET, segments, kind=kind)))


@case(MUST, "ChangesIgnored", "PayloadTrimmed", also=["CodesLost"], at="5.9.1.4", needs=NEEDS)
def what_libcoaps_server_was_put_is_got(stage):
    served = Served(stage)
    for value in (b"one", b"two"):
        expect("the code of the PUT", True, told(served.ask(3, ["example_data"], body=value))[0] in ("2.01", "2.04"))
        for _ in range(2):
            expect("the payload", value, told(served.ask(GET, ["example_data"]))[2])


@case(MUST, "ChangesIgnored", "CodesLost", also=["PayloadsChanged"], at="5.9.1.2", needs=NEEDS)
def what_libcoaps_server_deleted_is_gone(stage):
    served = Served(stage)
    served.ask(3, ["made"], body=b"x")
    expect("the payload", b"x", told(served.ask(GET, ["made"]))[2])
    expect("the code of the DELETE", "2.02", told(served.ask(4, ["made"]))[0])
    expect("the code of the GET", "4.04", told(served.ask(GET, ["made"]))[0])


@case(MUST, "SeparateIgnored", at="5.2.1", needs=NEEDS, each={"confirmable": CON, "non-confirmable": NON})
def what_libcoaps_server_answers_late_is_returned(stage, kind):
    """Its resource /async answers separately, after as many seconds as the query says."""
    served = Served(stage)
    start = time.monotonic()
    expect("the payload", b"done", told(served.ask(GET, ["async"], ["1"], kind=kind))[2])
    if time.monotonic() - start < 0.9:
        raise NotOffered("the server didn't take its second")
