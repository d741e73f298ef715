"""What must hold over a slow link, between two network namespaces that are made for it and removed again."""

import socket
import time

from reading.messages import code_name
from testing.coap import ACK, CON, CONTENT, EMPTY, GET, MAX_AGE, NON, message, number_bytes, read
from testing.namespaces import join, namespaces, socket_in
from testing.network import Stage, expect
from testing.steps import T

# The addresses at the two ends, of a network for documentation (RFC 5737).
HERE, THERE, PORT = "192.0.2.1", "192.0.2.2", 5683
# How many clients wait for one answer, and how long it is: together 1.4 MB, which take a link of 10 Mbit/s 1.2 s.
CLIENTS, LENGTH = 1_000, 1_380


def slow_link(rate):
    """Two namespaces that are joined by a link of this rate from the first to the second."""
    limits = ("rate", rate, "burst", "3000", "limit", "1000000")

    def lines_of(near, far):
        yield from join(near, far, ("near", "far"), (HERE, THERE))
        yield ("tc", "-n", near, "qdisc", "add", "dev", "near", "root", "tbf", *limits)

    return namespaces(2, lines_of, "tc")


def wait_until_ready(client):
    """Has the program reject an Empty Confirmable message."""
    client.settimeout(0.1)
    for message_id in range(100):
        client.sendto(message(CON, EMPTY, message_id), (HERE, PORT))
        try:
            client.recv(100)
            break
        except socket.timeout:
            continue
    client.settimeout(5)


def ask_all(client, origin):
    """Has many Non-confirmable requests wait for one answer. Returns what the origin was asked, and where from."""
    for number in range(CLIENTS):
        data = message(NON, GET, number, number.to_bytes(4, "big"), [T])
        client.sendto(data, (HERE, PORT))
        if number == 0:
            request, source = origin.recvfrom(2_000)
        if number % 32 == 31:
            time.sleep(0.01)
    return read(request), source


def tokens_of_answers(client):
    """The tokens of the answers that come, until none comes for two seconds."""
    tokens = set()
    client.settimeout(2)
    while len(tokens) < CLIENTS:
        try:
            answer = read(client.recv(2_000))
        except socket.timeout:
            break
        expect("the code of an answer", code_name(CONTENT), code_name(answer.code))
        tokens.add(answer.token)
    return tokens


def loses_no_answer(program):
    """Has a thousand answers go over a link of 10 Mbit/s, none of which may be lost."""
    with slow_link("10mbit") as (near, far), Stage(program) as stage:
        with socket_in(far, THERE) as client, socket_in(near, HERE) as origin:
            target = f"/t=coap://{HERE}:{origin.getsockname()[1]}/temp"
            limits = stage.file("limits.toml", "version = 1\n[limits]\nnon_records = 4096\nwaiters = 4096\n")
            words = ["-A", HERE, "-p", str(PORT), "--map", target, "--config", limits]
            stage.start(["ip", "netns", "exec", near, *program, *words])
            wait_until_ready(client)
            request, source = ask_all(client, origin)
            answer = message(
                ACK, CONTENT, request.message_id, request.token, [(MAX_AGE, number_bytes(600))], b"x" * LENGTH
            )
            origin.sendto(answer, source)
            expect("how many answers came", CLIENTS, len(tokens_of_answers(client)))
