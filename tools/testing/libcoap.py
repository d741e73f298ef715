"""What must hold with the client and the server of libcoap, where they are installed."""

import math
import shutil
import subprocess
import time

from testing.network import Broken, Skipped, case_list, end, expect, expect_between, expect_in, free_port

CASES, case = case_list()
# What the first resource of libcoap's server says.
WELCOME = b"This is a test server made with libcoap"


def tool(name):
    """The path of a program of libcoap."""
    found = shutil.which(f"coap-{name}-notls") or shutil.which(f"coap-{name}")
    if found is None:
        raise Skipped(f"libcoap's {name} isn't installed")
    return found


def serve(stage):
    """Starts libcoap's server, and returns its address once it is ready."""
    program = tool("server")
    for _ in range(5):
        address = (stage.host, free_port())
        process = stage.start([program, "-A", address[0], "-p", str(address[1])])
        if stage.is_ready(process, address):
            return address
    raise Broken("libcoap's server served none of five ports")


def client(stage, server, path, *words):
    """What libcoap's client prints of a response."""
    command = [tool("client"), "-B", "5", *words, f"coap://{server[0]}:{server[1]}/{path}"]
    done = subprocess.run(command, stdout=subprocess.PIPE, stderr=subprocess.STDOUT, cwd=stage.folder, timeout=30)
    return done.stdout.rstrip(b"\n")


def expect_welcome(stage, server, came):
    """Has what the client printed be what the server itself answers."""
    expect("what the client printed", client(stage, server, ""), came)
    expect("how it begins", WELCOME, came[: len(WELCOME)])


def mapped(stage):
    """A proxy in front of libcoap's server, and that server's address."""
    server = serve(stage)
    return stage.proxy("--map", f"/=coap://{server[0]}:{server[1]}/"), server


@case("PayloadChanged")
def its_client_gets_what_its_server_has(stage):
    proxy, server = mapped(stage)
    expect_welcome(stage, server, client(stage, proxy, ""))
    core = client(stage, proxy, ".well-known/core", "-N")
    expect("what the client printed of the resources", client(stage, server, ".well-known/core"), core)
    expect_in("the resources", b"</example_data>", core)


@case("AnswersFromMemory")
def its_client_puts_and_gets_again(stage):
    proxy, _ = mapped(stage)
    for value in ("Hello", "Good bye"):
        client(stage, proxy, "example_data", "-m", "put", "-e", value)
        for _ in range(2):
            expect("what the client printed", value.encode(), client(stage, proxy, "example_data"))


@case("PayloadChanged")
def its_asynchronous_resource_answers_separately(stage):
    proxy, _ = mapped(stage)
    started = time.monotonic()
    expect("what the client printed", b"done", client(stage, proxy, "async?1"))
    expect_between("seconds that it took", 0.9, math.inf, time.monotonic() - started)


@case("NeverFromTheCache")
def a_server_that_was_stopped_is_answered_for(stage):
    proxy, _ = mapped(stage)
    first = client(stage, proxy, "")
    expect("what the client printed", WELCOME, first[: len(WELCOME)])
    end(stage.programs[0])
    expect("what it printed without the server", first, client(stage, proxy, ""))


@case("PayloadChanged")
def its_client_names_the_proxy(stage):
    server, proxy = serve(stage), stage.proxy("-P", ",proxy.test")
    expect_welcome(stage, server, client(stage, server, "", "-P", f"coap://{proxy[0]}:{proxy[1]}"))


@case("TokenChanged")
def its_client_asks_through_two_proxies(stage):
    server = serve(stage)
    parent = stage.proxy(config=f'names = ["parent.test"]\n[hosts]\n"server.test" = "{server[0]}"\n')
    edge = stage.proxy("-P", f"coap://{parent[0]}:{parent[1]},edge.test")
    for host in ("server.test", server[0]):
        came = client(stage, (host, server[1]), "", "-P", f"coap://{edge[0]}:{edge[1]}")
        expect_welcome(stage, server, came)
