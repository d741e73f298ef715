"""What the program says of its work while it serves a socket: a line of counts, and a file of them."""

import os
import re
import subprocess
import tempfile
import time

from testing.coap import (
    ACK, BLOCK2, CHANGED, CON, CONTENT, EMPTY, GATEWAY_TIMEOUT, GET, NON, PROXY_URI, PUT, URI_PATH, message,
)
from testing.network import (
    PATIENCE, Failed, case_list, expect, expect_between, expect_in, expect_like, expect_message, free_port, has_ipv6,
)
from testing.steps import T, TEMP, change, expect_hit, fetch

CASES, case = case_list()
# The metric that is a histogram.
TIMES = "coap_proxyd_origin_answer_seconds"
# An address of a test and a port.
LISTEN = re.compile(r"(127(\.[0-9]{1,3}){3}|192\.0\.2\.1|\[::1\]):[1-9][0-9]*")

KEYS = (
    "seconds received sent send_faults lost resent gave_up hit joined opened overloaded no_record_room no_id again "
    "refused_4.00 refused_4.02 refused_4.04 refused_4.05 refused_4.13 refused_5.05 kept too_large no_memory not_stored "
    "absent stale marked not_get evicted evicted_fresh cached_bytes entries con_records non_records exchanges waiters"
).split()
LINE = re.compile(" ".join(re.escape(key) + "=[0-9]+" + ("/[0-9]+" if key in KEYS[30:] else "") for key in KEYS))


def metrics(path):
    """The numbers of a file of counts, by the names of their metrics and their labels but the first, which must say of
    all where the proxy listens. Each metric must have a help and a type above it: that of a counter if its name is
    one's, and a histogram has three metrics under its name."""
    numbers, said, listens = {}, set(), set()
    with open(path, encoding="ascii") as file:
        for line in file:
            words = line.split()
            if line.startswith("# "):
                said.add((words[1], words[2]))
                kind = "counter" if words[2].endswith("_total") else "histogram" if words[2] == TIMES else "gauge"
                expect(f"the type of {words[2]}", kind, words[3] if words[1] == "TYPE" else kind)
                continue
            name = re.sub(f"^{TIMES}_(bucket|sum|count)$", TIMES, words[0].split("{")[0])
            expect(f"what {name} lacks", set(), {("HELP", name), ("TYPE", name)} - said)
            listen, labels = re.fullmatch(r'[a-z_]+\{listen="([^"]*)"(?:,(.*))?\}', words[0]).groups()
            listens.add(listen)
            name = words[0].split("{")[0]
            name = f"{name}{{{labels}}}" if labels else name
            expect(f"whether {name} is there already", False, name in numbers)
            numbers[name] = float(words[1]) if "." in words[1] else int(words[1])
    expect("where it listens", True, len(listens) == 1 and LISTEN.fullmatch(listens.pop()) is not None)
    return numbers


def await_metric(path, name, wanted):
    """The numbers of a file of counts, once one of them is as wanted."""
    until, numbers = time.monotonic() + PATIENCE, {}
    while time.monotonic() < until:
        if os.path.exists(path):
            numbers = metrics(path)
            if numbers.get(name) == wanted:
                return numbers
        time.sleep(0.05)
    raise Failed(f"{name}: expected {wanted}, got {numbers.get(name)}")


@case("NeverFromTheCache")
def the_file_has_what_was_sent(stage):
    origin, path = stage.peer(), os.path.join(stage.folder, "counts.prom")
    words = ("--map", f"/t=coap://{origin.authority}/temp", "--stats", "1", "--stats-file", path)
    client = stage.peer(to=stage.proxy(*words))
    life = fetch(client, origin)
    expect_hit(client, life)
    expect_hit(client, life, kind=NON)
    client.request(GET, [T, (BLOCK2, b"")], kind=NON)
    client.receive("a refusal")
    numbers = await_metric(path, 'coap_proxyd_requests_total{outcome="refused_4.02"}', 1)
    wanted = {"hit": 2, "joined": 0, "opened": 1, "again": 0, "overloaded": 0, "no_id": 0, "refused_4.04": 0}
    for outcome, count in wanted.items():
        expect(outcome, count, numbers[f'coap_proxyd_requests_total{{outcome="{outcome}"}}'])
    expect("stored answers", 1, numbers['coap_proxyd_answers_total{storing="kept"}'])
    expect("hits of the map", 2, numbers['coap_proxyd_map_requests_total{map="/t",outcome="hit"}'])
    expect("refused of no map", 0, numbers['coap_proxyd_map_requests_total{map="none",outcome="refused_4.02"}'])
    # A stand-in has origins at other ports.
    origins = set(re.findall(r'origin="([^"]+:[0-9]+)"', " ".join(numbers)))
    expect("how many origins", 1, len(origins))
    at = f'origin="{origins.pop()}"'
    expect("requests to the origin", 1, numbers[f"coap_proxyd_origin_requests_total{{{at}}}"])
    expect("its answers", 1, numbers[f'coap_proxyd_origin_answers_total{{{at},class="2"}}'])
    expect("within a minute", 1, numbers[f'coap_proxyd_origin_answer_seconds_bucket{{{at},le="60"}}'])
    expect("opened as nothing was stored", 1, numbers['coap_proxyd_opened_total{stored="absent"}'])
    expect("entries", 1, numbers['coap_proxyd_held{what="entries"}'])
    expect("the limit of entries", 1024, numbers['coap_proxyd_limit{what="entries"}'])
    expect("faults", 0, numbers["coap_proxyd_send_faults_total"])
    expect("files beside it", ["counts.prom"], [name for name in os.listdir(stage.folder) if "counts" in name])


@case("NotCounted")
def who_has_most_of_a_full_table(stage):
    path = os.path.join(stage.folder, "counts.prom")
    limits = "[limits]\ncon_records = 65536\nclient_con_records = 2\n"
    client = stage.peer(to=stage.proxy("--stats", "1", "--stats-file", path, config=limits, version=2))
    for _ in range(3):
        client.request(GET, [T])
    numbers = await_metric(path, 'coap_proxyd_requests_total{outcome="no_record_room"}', 1)
    # A stand-in has clients at another address.
    [name] = [it for it in numbers if it.startswith("coap_proxyd_table_holder_entries{")]
    labels = name.partition("{")[2]
    expect_in("the labels", 'table="con_records",address="127.', labels)
    expect("what the client has", 2, numbers[name])
    expect("its ports", 1, numbers[f"coap_proxyd_table_holder_ports{{{labels}"])
    expect_between("since when", 0, 20, numbers[f"coap_proxyd_table_holder_seconds_since{{{labels}"])


# Limits of which no two are the same, by their keys in a configuration and in the counts.
LIMITS = {
    "cache_bytes": ("cached_bytes", 20_000), "cache_entries": ("entries", 30), "con_records": ("con_records", 31),
    "non_records": ("non_records", 32), "exchanges": ("exchanges", 33), "waiters": ("waiters", 34),
}
# What came and what was sent when one origin was silent and three clients asked, by the keys of a line: the names of
# metrics, and how often.
TRAFFIC = {
    "received": ("datagrams_received", 8), "sent": ("datagrams_sent", 11), "send_faults": ("send_faults", 0),
    "lost": ("lost_turns", 0), "resent": ("retransmissions", 2), "gave_up": ("given_up", 1),
}


def await_line(path, key, wanted):
    """The numbers of the last line of counts in a file, by their keys, once one of them is as wanted."""
    until, numbers = time.monotonic() + PATIENCE, {}
    while time.monotonic() < until:
        with open(path, encoding="ascii") as file:
            lines = [line for line in file if line.endswith("\n")]
        numbers = dict(word.split("=") for word in lines[-1].split()) if lines else {}
        if numbers.get(key) == str(wanted):
            return numbers
        time.sleep(0.05)
    raise Failed(f"{key}: expected {wanted}, got {numbers.get(key)}")


@case("SendsOnce", "NotCounted")
def each_number_stands_behind_its_name(stage):
    started = time.monotonic()
    origin, path, said = stage.peer(), os.path.join(stage.folder, "counts.prom"), stage.file("said.txt", "")
    words = ("--map", f"/t=coap://{origin.authority}/temp", "--stats", "1", "--stats-file", path)
    limits = "".join(f"{key} = {limit}\n" for key, (_, limit) in LIMITS.items())
    with open(said, "wb") as output:
        proxy = stage.proxy(*words, config=f"[limits]\n{limits}exchange_ms = 5500\n", output=output)
    # It was asked whether it is ready, nobody knows how often.
    before = await_metric(path, "coap_proxyd_lost_turns_total", 0)
    first, second, third = (stage.peer(to=proxy) for _ in range(3))
    requests = [first.request(GET, [T], kind=NON), second.request(GET, [T]), third.request(GET, [T])]
    second.expect_acknowledgement(requests[1])
    third.expect_acknowledgement(requests[2])
    for _ in range(3):
        first.request(GET, [T, (BLOCK2, b"")], kind=NON)
        first.receive("a refusal")
    asked = origin.receive("a request")
    numbers = await_metric(path, 'coap_proxyd_requests_total{outcome="refused_4.02"}', 3)
    held = {"cached_bytes": 0, "entries": 0, "con_records": 2, "non_records": 4, "exchanges": 1, "waiters": 3}
    for key, limit in LIMITS.values():
        expect(f"what is held of {key}", held[key], numbers[f'coap_proxyd_held{{what="{key}"}}'])
        expect(f"the limit of {key}", limit, numbers[f'coap_proxyd_limit{{what="{key}"}}'])
    origin.expect_bytes("the request again", asked.data)
    # All are told that no answer came, and the last one acknowledges it when it comes again.
    first.expect_response(requests[0], GATEWAY_TIMEOUT)
    second.expect_separate(requests[1], GATEWAY_TIMEOUT)
    told = third.receive("an answer")
    expect_message("the answer", told, kind=CON, code=GATEWAY_TIMEOUT)
    third.expect_bytes("the answer again", told.data)
    third.send(message(ACK, EMPTY, told.message.message_id))
    names = {key: f"coap_proxyd_{name}_total" for key, (name, _) in TRAFFIC.items()}
    numbers = await_metric(path, names["received"], before[names["received"]] + 8)
    line = await_line(said, "received", numbers[names["received"]])
    for key, (_, more) in TRAFFIC.items():
        expect(key, before[names[key]] + more, numbers[names[key]])
        expect(f"{key} of the line", str(numbers[names[key]]), line[key])
    # A stand-in has origins at other ports.
    for name in ("requests", "retransmissions", "given_up"):
        of_origins = [count for it, count in numbers.items() if it.startswith(f"coap_proxyd_origin_{name}_total{{")]
        expect(f"{name} of the origin", 1, sum(of_origins))
    held = {**held, "exchanges": 0, "waiters": 0}
    for key, limit in LIMITS.values():
        expect(f"{key} of the line", f"{held[key]}/{limit}", line[key])
    for seconds in (numbers["coap_proxyd_uptime_seconds"], int(line["seconds"])):
        expect_between("seconds since the start", 5, time.monotonic() - started + 1, seconds)


@case("NotCounted")
def why_exchanges_were_opened_and_by_which_way(stage):
    origin, path = stage.peer(), os.path.join(stage.folder, "counts.prom")
    words = ("--map", f"/t=coap://{origin.authority}/temp", "--stats", "1", "--stats-file", path)
    client = stage.peer(to=stage.proxy(*words, config="names = ['proxy.test']\n"))
    whole, part, short = (((T, *more), (TEMP, *more)) for more in ((), [(URI_PATH, b"a")], [(URI_PATH, b"b")]))
    for (here, there), seconds in ((whole, 60), (part, 60), (short, 1)):
        fetch(client, origin, here=here, there=there, seconds=seconds)
    for here, there in (whole, part, whole, part, whole):
        change(client, origin, PUT, CHANGED, b"22", here=here, there=there)
    time.sleep(2.1)
    for here, there in (whole, part, short):
        fetch(client, origin, here=here, there=there)
    client.request(GET, [(PROXY_URI, f"coap://{origin.authority}/x".encode())], kind=NON)
    origin.answer(origin.receive("a request"), CONTENT)
    client.receive("an answer")
    numbers = await_metric(path, 'coap_proxyd_map_requests_total{map="forward",outcome="opened"}', 1)
    for why, count in {"absent": 4, "not_get": 5, "marked": 2, "stale": 1}.items():
        expect(why, count, numbers[f'coap_proxyd_opened_total{{stored="{why}"}}'])
    for way, count in {"/t": 11, "next": 0, "none": 0}.items():
        expect(way, count, numbers[f'coap_proxyd_map_requests_total{{map="{way}",outcome="opened"}}'])
    # A stand-in has two origins.
    silences = [count for name, count in numbers.items() if name.startswith("coap_proxyd_origin_seconds_since_answer{")]
    expect_between("full seconds since the last answer", 0, 1, max(silences))


@case("NotCounted")
def an_answer_takes_since_its_request_was_sent(stage):
    origin, path = stage.peer(), os.path.join(stage.folder, "counts.prom")
    words = ("--map", f"/t=coap://{origin.authority}/temp", "--stats", "1", "--stats-file", path)
    client = stage.peer(to=stage.proxy(*words))
    for name in (b"a", b"b"):
        client.request(GET, [T, (URI_PATH, name)], kind=NON)
    first = origin.receive("a request")
    time.sleep(0.6)
    origin.answer(first, CONTENT)
    # It waited for its turn, and takes no time itself.
    origin.answer(origin.receive("the other request"), CONTENT)
    for _ in range(2):
        client.receive("an answer")
    numbers = await_metric(path, 'coap_proxyd_answers_total{storing="kept"}', 2)
    times = {re.search('le="([^"]*)"', name).group(1): count for name, count in numbers.items() if "_bucket{" in name}
    expect("how many answers came", (1, 2), (times["0.25"], times["+Inf"]), "at once", "in all")


@case("NotCounted")
def an_entry_that_makes_room_was_fresh_or_not(stage):
    origin, path = stage.peer(), os.path.join(stage.folder, "counts.prom")
    words = ("--map", f"/t=coap://{origin.authority}/temp", "--stats", "1", "--stats-file", path)
    client = stage.peer(to=stage.proxy(*words, config="[limits]\ncache_entries = 1\n"))
    for name, seconds in ((b"a", 1), (b"b", 60), (b"c", 60)):
        more = [(URI_PATH, name)]
        fetch(client, origin, here=(T, *more), there=(TEMP, *more), seconds=seconds)
        time.sleep(2.1 if seconds == 1 else 0)
    numbers = await_metric(path, 'coap_proxyd_answers_total{storing="kept"}', 3)
    counted = [numbers[f"coap_proxyd_evicted_{which}entries_total"] for which in ("", "fresh_")]
    expect("what made room", [2, 1], counted, "entries", "fresh ones")


@case("NotCounted")
def an_origin_that_never_answered_is_silent_since_no_answer(stage):
    origin, path = stage.peer(), os.path.join(stage.folder, "counts.prom")
    words = ("--map", f"/t=coap://{origin.authority}/temp", "--stats", "1", "--stats-file", path)
    client = stage.peer(to=stage.proxy(*words))
    since, sent = ("coap_proxyd_origin_seconds_since_answer{", "coap_proxyd_origin_requests_total{")
    client.request(GET, [T], kind=NON)
    asked = origin.receive("a request")
    numbers = await_metric(path, 'coap_proxyd_requests_total{outcome="opened"}', 1)
    expect("how often it was asked", 1, sum(count for name, count in numbers.items() if name.startswith(sent)))
    expect("since when it is silent", [], [name for name in numbers if name.startswith(since)])
    origin.answer(asked, CONTENT)
    client.receive("an answer")
    numbers = await_metric(path, 'coap_proxyd_answers_total{storing="kept"}', 1)
    silent = [count for name, count in numbers.items() if name.startswith(since)]
    expect("of how many it is known by then", 1, len(silent))
    expect_between("full seconds since its answer", 0, 1, silent[0])


@case("NotCounted")
def an_answer_that_is_too_large_counts_as_that(stage):
    origin, path = stage.peer(), os.path.join(stage.folder, "counts.prom")
    words = ("--map", f"/t=coap://{origin.authority}/temp", "--stats", "1", "--stats-file", path)
    fetch(stage.peer(to=stage.proxy(*words, config="[limits]\ncache_bytes = 64\n")), origin)
    numbers = await_metric(path, 'coap_proxyd_answers_total{storing="too_large"}', 1)
    for storing in ("kept", "no_memory", "not_stored"):
        expect(storing, 0, numbers[f'coap_proxyd_answers_total{{storing="{storing}"}}'])


def run_a_turn(program, *words, at=None):
    """What a program with these words writes to standard error for a few turns of a socket, at this address and port if one
    is given."""
    host, port = at or ("127.0.0.1", free_port())
    usual = [*program, "-A", host, "-p", str(port), "--turns", "2", *words]
    done = subprocess.run(usual, stdin=subprocess.DEVNULL, stdout=subprocess.PIPE, stderr=subprocess.PIPE, timeout=20)
    lines = done.stderr.decode().splitlines()
    if done.returncode != 0:
        raise Failed(f"the status is {done.returncode}, and standard error {lines}")
    expect("standard output", b"", done.stdout)
    return lines


def a_line_is_written_at_the_end_of_the_turns(program):
    lines = run_a_turn(program, "--stats", "86400")
    expect("how many lines", 1, len(lines))
    expect_like("the line", f"{LINE.pattern}$", lines)
    expect_in("what came", " received=0 sent=0 ", lines[0])


def what_cannot_be_written_is_said_once(program):
    lines = run_a_turn(program, "--stats", "1", "--stats-file", "/nowhere/counts.prom")
    expect("the line of the fault", 1, lines.count("coap-proxyd: the counts can't be written to their file"))
    expect("the lines of counts", True, len([line for line in lines if LINE.fullmatch(line)]) >= 2)


def a_file_alone_brings_no_lines(program):
    with tempfile.TemporaryDirectory(prefix="coap-proxyd-test-") as folder:
        path = os.path.join(folder, "counts.prom")
        expect("the lines", [], run_a_turn(program, "--stats-file", path))
        expect("the files", ["counts.prom"], os.listdir(folder))
        expect("what came", 0, metrics(path)["coap_proxyd_datagrams_received_total"])


def a_map_of_all_paths_has_a_label(program):
    with tempfile.TemporaryDirectory(prefix="coap-proxyd-test-") as folder:
        path = os.path.join(folder, "counts.prom")
        run_a_turn(program, "--stats-file", path, "--map", "/=coap://192.0.2.7/")
        expect("the files", ["counts.prom"], os.listdir(folder))
        ways = {it for name in metrics(path) for it in re.findall('map="([^"]*)"', name)}
        expect("where requests go", {"/", "forward", "next", "none"}, ways)


def a_map_has_its_path_as_a_label(program):
    """What stands for itself in a path (RFC 3986, 2.3) does so, and of all else each byte is written as %XX."""
    with tempfile.TemporaryDirectory(prefix="coap-proxyd-test-") as folder:
        path, prefix = os.path.join(folder, "counts.prom"), "/aZ09-._~/%20%22%2F%5C%7F%C3%A9"
        run_a_turn(program, "--stats-file", path, "--map", f"{prefix}=coap://192.0.2.7/")
        expect("the files", ["counts.prom"], os.listdir(folder))
        ways = {it for name in metrics(path) for it in re.findall('map="([^"]*)"', name)}
        expect("where requests go", {prefix, "forward", "next", "none"}, ways)


def two_maps_with_one_prefix_are_counted_together(program):
    with tempfile.TemporaryDirectory(prefix="coap-proxyd-test-") as folder, tempfile.TemporaryDirectory() as another:
        path, config = os.path.join(folder, "counts.prom"), os.path.join(another, "proxy.toml")
        with open(config, "w", encoding="ascii") as file:
            file.write("version = 1\n" + "[[map]]\nprefix = '/t'\norigin = 'coap://192.0.2.7'\n" * 2)
        run_a_turn(program, "--stats-file", path, "--map", "/t=coap://192.0.2.8", "--config", config)
        expect("the files", ["counts.prom"], os.listdir(folder))
        ways = [it for name in metrics(path) for it in re.findall('map="([^"]*)",outcome="hit"', name)]
        expect("where requests go", ["/t", "forward", "next", "none"], ways)


def numbers_say_where_it_listens(program):
    for host, shown in (("127.0.0.1", "127.0.0.1"), *([("::1", "[::1]")] if has_ipv6() else [])):
        with tempfile.TemporaryDirectory(prefix="coap-proxyd-test-") as folder:
            path, port = os.path.join(folder, "counts.prom"), free_port()
            run_a_turn(program, "--stats-file", path, at=(host, port))
            expect("the files", ["counts.prom"], os.listdir(folder))
            with open(path, encoding="ascii") as file:
                listens = set(re.findall('listen="([^"]*)"', file.read()))
            expect("where it listens", {f"{shown}:{port}"}, listens)


ENDS = (
    a_line_is_written_at_the_end_of_the_turns, what_cannot_be_written_is_said_once, a_file_alone_brings_no_lines,
    a_map_of_all_paths_has_a_label, a_map_has_its_path_as_a_label, numbers_say_where_it_listens,
    two_maps_with_one_prefix_are_counted_together,
)
