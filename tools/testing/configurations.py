"""Configurations, and what tools/check-config says of them beside what the program says."""

import os
import re
import subprocess
import sys
import tempfile
from argparse import Namespace
from collections import namedtuple

from checking.configuration import LIMITS
from checking.findings import judge
from testing.network import expect

TOOLS = os.path.dirname(os.path.dirname(os.path.abspath(__file__)))
SCRIPT = os.path.join(TOOLS, "check-config")
TOP = os.path.dirname(TOOLS)
PAGE = os.path.join(TOP, "docs", "coap-proxyd.toml.5")

# A name, the words, the configuration, and the lines without the file's name.
Said = namedtuple("Said", "name words text lines")

FLEET = "; tools/fleet (coap-proxyd-fleet) writes configurations of several instances for more"
MAP = '[[map]]\nprefix = "{}"\norigin = "{}"\n'
SAID = (
    Said("nothing", [], "version = 1\n", ["accepted"]),
    Said(
        "a_line_that_is_no_toml",
        [],
        'version = 1\nnames = ["a",\n  "b" "c"]\n',
        ["3: error: a comma or ] is expected", "refused: syntax"],
    ),
    Said(
        "the_value_and_its_range",
        [],
        "version = 1\n\n[limits]\n# many\nexchanges = 5000\n",
        ["5: error: exchanges is 5000: it must be a number from 1 to 4096", "refused: value limits.exchanges"],
    ),
    Said(
        "several_faults_and_the_one_that_the_program_tells",
        [],
        'version = 1\ncolour = "red"\n[hosts]\na = "192.0.2.7:5683"\n',
        [
            "2: error: colour isn't a key: there are version, names, limits, hosts, map",
            '4: error: the address of a is "192.0.2.7:5683": it must be IPv4, or IPv6 in brackets, without a port',
            "refused: key colour",
        ],
    ),
    Said(
        "the_65th_map",
        [],
        "version = 1\n" + "".join(MAP.format(f"/{n}", "coap://192.0.2.7/") for n in range(66)),
        [f"194: error: map 65: there may be 64{FLEET}", "refused: routes"],
    ),
    Said(
        "the_65th_map_in_the_words",
        ["--map", "/t=coap://192.0.2.7/"],
        "version = 1\n" + "".join(MAP.format(f"/{n}", "coap://192.0.2.7/") for n in range(64)),
        [f"error: --map is map 65: there may be 64{FLEET}", "refused: map option"],
    ),
    Said(
        "a_dotted_name_without_quotes",
        [],
        'version = 2\n[hosts]\nsensor.test = "192.0.2.7"\n',
        [
            "3: error: the address of sensor is a table, which isn't a text in quotes: a name with dots stands in "
            'quotes, "sensor.test" = "192.0.2.7"',
            "refused: value hosts.sensor",
        ],
    ),
    Said(
        "origins_that_are_no_single_host",
        ["-A", "::"],
        "version = 2\n" + "".join(MAP.format(f"/{n}", f"coap://{it}/") for n, it in enumerate((
            "[fe80::1]", "[::ffff:192.0.2.7]", "[ff02::fd]", "224.0.1.187", "255.255.255.255", "0.0.0.0", "[::]",
        ))),
        [
            "4: warning: map 1: fe80::1 is link-local, and there is no way to say on which interface",
            "7: warning: map 2: ::ffff:c000:207 is IPv4 in IPv6: write 192.0.2.7",
            "10: warning: map 3: ff02::fd is of many hosts, and the answer of none is accepted",
            "13: warning: map 4: 224.0.1.187 is of many hosts, and the answer of none is accepted",
            "16: warning: map 5: 255.255.255.255 is of many hosts, and the answer of none is accepted",
            "19: warning: map 6: 0.0.0.0 is of no host",
            "22: warning: map 7: :: is of no host",
            "accepted",
        ],
    ),
    Said(
        "where_it_listens_by_default",
        [],
        "version = 2\n" + MAP.format("/a", "coap://[2001:db8::1]/") + MAP.format("/b", "coap://127.0.0.1/"),
        [
            "4: warning: map 1: from 0.0.0.0 no IPv6 address is reached; -A :: reaches both kinds",
            "7: warning: map 2 leads to the proxy itself",
            "accepted",
        ],
    ),
    Said(
        "a_client_that_polls_all_maps",
        [],
        "version = 2\nlimits = { client_con_records = 1580, waiters = 63 }\n"
        + "".join(MAP.format(f"/{n}", "coap://192.0.2.7/") for n in range(64)),
        [
            "2: warning: client_waiters is 64 by default, but waiters is 63: it has no effect, and one client can use up "
            "all",
            "2: warning: client_con_records is 1580: a client that polls all 64 maps every ten seconds from one port "
            "takes 1581",
            "2: warning: client_exchanges is 16 by default: a client that polls all 64 maps every ten seconds from one "
            "port takes 64",
            "2: warning: waiters is 63: a client that polls all 64 maps every ten seconds from one port takes 64",
            "accepted",
        ],
    ),
    Said(
        "slashes_at_the_end",
        [],
        "version = 1\n" + MAP.format("/t/", "coap://192.0.2.7/base/") + MAP.format("/", "coap://192.0.2.7/"),
        [
            '3: warning: map 1: prefix "/t/" has an empty segment, so it isn\'t the prefix of /t/x',
            '4: warning: map 1: origin "coap://192.0.2.7/base/" has an empty segment, so it is asked for '
            "coap://192.0.2.7/base//x",
            "accepted",
        ],
    ),
    Said(
        "a_map_to_the_proxy_itself",
        ["-p", "5684"],
        "version = 1\n" + MAP.format("/a", "coap://127.0.0.1:5684/") + MAP.format("/a", "coap://127.0.0.1:5685/"),
        [
            "6: warning: map 2 is never used, since map 1 has the same prefix",
            "4: warning: map 1 leads to the proxy itself",
            "accepted",
        ],
    ),
    Said(
        "a_next_proxy_that_is_the_proxy_itself",
        ["-A", "192.0.2.1", "-P", "coap://192.0.2.1,proxy.test"],
        "version = 1\n",
        ["warning: -P leads to the proxy itself", "accepted"],
    ),
    Said(
        "a_next_proxy_that_the_socket_does_not_reach",
        ["-A", "192.0.2.1", "-P", "coap://[2001:db8::2]:5700,proxy.test"],
        "version = 1\n",
        ["warning: -P: from 192.0.2.1 no IPv6 address is reached; -A :: reaches both kinds", "accepted"],
    ),
    Said(
        "names_without_a_comma",
        ["-P", "coap://192.0.2.2"],
        "version = 1\n",
        ["error: -P coap://192.0.2.2 has no comma before the names", "refused: proxy option"],
    ),
    Said(
        "a_port_with_a_leading_zero",
        ["-P", "coap://192.0.2.2:05683,proxy.test"],
        "version = 1\n",
        [
            "error: -P coap://192.0.2.2:05683,proxy.test: coap://192.0.2.2:05683 isn't a next proxy, such as "
            "coap://192.0.2.2:5683",
            "refused: proxy option",
        ],
    ),
    Said(
        "origins_that_the_socket_does_not_reach",
        ["-A", "127.0.0.1"],
        'version = 1\n[hosts]\na = "192.0.2.7"\n' + MAP.format("/a", "coap://a/") + MAP.format("/b", "coap://[::1]/"),
        [
            "6: warning: map 1: from 127.0.0.1 no other host is reached",
            "9: warning: map 2: from 127.0.0.1 no IPv6 address is reached; -A :: reaches both kinds",
            "accepted",
        ],
    ),
    Said(
        "limits_beyond_the_memory",
        ["--memory-max", "16M"],
        "version = 1\n",
        ["1: warning: the limits allow 18,662,400 bytes, and the unit's MemoryMax 16,777,216", "accepted"],
    ),
    Said(
        "a_limit_of_a_client_in_version_1",
        [],
        "version = 1\n[limits]\nclient_waiters = 0\n",
        ["3: error: limits.client_waiters is a key of version 2 only", "refused: key limits.client_waiters"],
    ),
    Said(
        "a_limit_of_a_client_out_of_its_range",
        [],
        "version = 2\n[limits]\nclient_waiters = 0\n",
        ["3: error: client_waiters is 0: it must be a number from 1 to 16384", "refused: value limits.client_waiters"],
    ),
    Said(
        "limits_of_a_client_without_effect",
        [],
        "version = 2\n[limits]\nexchanges = 8\nclient_con_records = 4097\nclient_waiters = 1024\n",
        [
            "4: warning: client_con_records is 4097, but con_records is 4096: it has no effect, and one client can use "
            "up all",
            "3: warning: client_exchanges is 16 by default, but exchanges is 8: it has no effect, and one client can "
            "use up all",
            "accepted",
        ],
    ),
    Said(
        "a_version_that_there_is_not",
        [],
        "version = 3\n",
        ["1: error: version is 3, not 1 or 2", "refused: value version"],
    ),
    Said("what_is_not_read", [], "version = 1979-05-27\n", ["not judged: line 1 has a date or a time"]),
)


# A rule by its name, the smallest configuration that raises its warning, with words, and the nearest that doesn't; in both
# @ is what differs, of which the first raises it.
Warned = namedtuple("Warned", "name text raising quiet words", defaults=([],))
ORIGIN, HERE = "coap://192.0.2.7/", ["-A", "192.0.2.1"]
WARNINGS = (
    Warned("a_name_with_a_port", 'version = 1\nnames = ["@"]\n', "a:5683", "a"),
    Warned("a_name_with_a_colon_that_is_an_address", 'version = 1\nnames = ["@"]\n', "[::1]:5683", "[::1]"),
    Warned("a_prefix_that_ends_with_a_slash", "version = 1\n" + MAP.format("@", ORIGIN), "/t/", "/t"),
    Warned("a_prefix_of_two_slashes", "version = 1\n" + MAP.format("@", ORIGIN), "//", "/"),
    Warned("a_prefix_with_an_empty_segment", "version = 1\n" + MAP.format("@", ORIGIN), "/a//b", "/a/b"),
    Warned("an_origin_that_ends_with_a_slash", "version = 1\n" + MAP.format("/t", "@"), f"{ORIGIN}a/", f"{ORIGIN}a"),
    Warned("an_origin_with_an_empty_segment", "version = 1\n" + MAP.format("/t", "@"), f"{ORIGIN}a//b", f"{ORIGIN}a/b"),
    Warned("a_map_that_is_never_used", "version = 1\n" + MAP.format("/t", ORIGIN) + MAP.format("@", ORIGIN), "/t", "/T"),
    Warned("a_map_to_the_proxy", "version = 1\n" + MAP.format("/t", "coap://192.0.2.1:@/"), "5683", "5684", HERE),
    Warned("a_map_to_the_proxy_on_any_address", "version = 1\n" + MAP.format("/t", "coap://@/"), "127.0.0.1", "127.0.0.1:1"),
    Warned("a_map_to_the_other_family", "version = 1\n" + MAP.format("/t", "coap://@/"), "[2001:db8::1]", "192.0.2.7"),
    Warned("a_map_beyond_the_loopback", "version = 1\n" + MAP.format("/t", "coap://@:1/"), "192.0.2.7", "127.0.0.2",
           ["-A", "127.0.0.1"]),
    Warned("a_link_local_map", "version = 1\n" + MAP.format("/t", "coap://[@::1]/"), "fe80", "fd80", ["-A", "::"]),
    Warned("a_map_to_many_hosts", "version = 1\n" + MAP.format("/t", "coap://@.0.0.1/"), "224", "223"),
    Warned("a_map_to_all_hosts", "version = 1\n" + MAP.format("/t", "coap://255.255.255.@/"), "255", "254"),
    Warned("a_map_to_no_host", "version = 1\n" + MAP.format("/t", "coap://0.0.0.@/"), "0", "1"),
    Warned("an_exchange_longer_than_a_request", "version = 1\n[limits]\nexchange_ms = @\n", "93001", "93000"),
    Warned("more_memory_than_there_is", "version = 1\n[limits]\ncache_bytes = @\n", "262145", "262144",
           ["--memory-max", "18662400"]),
    Warned("a_limit_of_a_client_without_effect", "version = 2\n[limits]\nclient_waiters = @\n", "1025", "1024"),
    Warned("a_client_that_polls_all_maps", "version = 1\nlimits = { waiters = @ }\n" + MAP.format("/a", ORIGIN)
           + MAP.format("/b", ORIGIN), "1", "2"),
    Warned("records_of_a_client_that_polls_all_maps", "version = 1\nlimits = { con_records = @ }\n"
           + MAP.format("/a", ORIGIN) + MAP.format("/b", ORIGIN), "49", "50"),
)


def check_warning(it):
    """Has a configuration raise one warning, and none if one thing in it is as it should be."""
    with tempfile.TemporaryDirectory(prefix="coap-proxyd-test-") as folder:
        path, came = os.path.join(folder, "warned.toml"), []
        for what in (it.raising, it.quiet):
            with open(path, "w", encoding="utf-8") as file:
                file.write(it.text.replace("@", what))
            words = [sys.executable, SCRIPT, path, *it.words]
            done = subprocess.run(words, stdout=subprocess.PIPE, timeout=50)
            lines = done.stdout.decode().replace(f"{path}:", "").splitlines()
            came.append((sum("warning: " in line for line in lines), len(lines), lines[-1]))
    expect("warnings, lines, and the verdict", [(1, 2, "accepted"), (0, 1, "accepted")], came)


def check_run(program, run):
    """Has the configuration of a worked run be accepted or refused as by the program, and for the same fault."""
    with tempfile.TemporaryDirectory(prefix="coap-proxyd-test-") as folder:
        path = os.path.join(folder, "run.toml")
        with open(path, "wb") as file:
            file.write(run.config)
        pipe, words = subprocess.PIPE, [*program, "--replay", "--config", path]
        told = subprocess.run(words, stdin=subprocess.DEVNULL, stdout=pipe, stderr=pipe, timeout=50)
        words = Namespace(file=path, address=None, port=None, names=None, map=None)
        _, verdict = judge(words, memory_max=0)
    refused = "refused: " + told.stderr.decode().strip().replace("coap-proxyd: config: ", "")
    expect("the verdict", refused if told.returncode else "accepted", verdict)


def check_said(said):
    """Has tools/check-config say these lines of a configuration, with the status that goes with the last."""
    with tempfile.TemporaryDirectory(prefix="coap-proxyd-test-") as folder:
        path = os.path.join(folder, "said.toml")
        with open(path, "w", encoding="utf-8") as file:
            file.write(said.text)
        done = subprocess.run([sys.executable, SCRIPT, path, *said.words], stdout=subprocess.PIPE, timeout=50)
    expect("what it says", said.lines, done.stdout.decode().replace(f"{path}:", "").splitlines())
    status = {"accepted": 0, "refused": 1, "not judged": 3}[said.lines[-1].partition(":")[0]]
    expect("status", status, done.returncode)


def check_page(_):
    """Has the manual page of configurations tell each limit with its range and its default."""
    with open(PAGE, encoding="utf-8") as file:
        lines = set(file.read().splitlines())
    for key, (least, most, usual) in LIMITS.items():
        expect(f"whether the page has {key}", True, f".It {key} ({least} to {most}; {usual})" in lines)


def said_in(folder, *words):
    """What tools/check-config says, with its status, where /etc is in a folder."""
    settings = {**os.environ, "DESTDIR": folder}
    done = subprocess.run([sys.executable, SCRIPT, *words], env=settings, stdout=subprocess.PIPE, timeout=50)
    return done.returncode, done.stdout.decode().replace(f"{folder}/", "").splitlines()


def check_environment(_):
    """Has the files that the units read say where a proxy listens, unless the words do."""
    text = "version = 2\n" + MAP.format("/a", "coap://[2001:db8::1]/") + MAP.format("/b", "coap://127.0.0.1:5690/")
    unreached = "warning: map 1: from 0.0.0.0 no IPv6 address is reached; -A :: reaches both kinds"
    itself = "7: warning: map 2 leads to the proxy itself"
    with tempfile.TemporaryDirectory(prefix="coap-proxyd-test-") as folder:
        etc = os.path.join(folder, "etc")
        for name, default in (("coap-proxyd", "coap-proxyd"), ("coap-proxyd/g1", "coap-proxyd-g1")):
            path, place = os.path.join(etc, f"{name}.toml"), os.path.join(etc, "default", default)
            os.makedirs(os.path.dirname(path), exist_ok=True)
            os.makedirs(os.path.dirname(place), exist_ok=True)
            with open(path, "w") as file:
                file.write(text)
            at = path[len(folder) + 1 :]
            expect("without it", (0, [f"{at}:4: {unreached}", "accepted"]), said_in(folder, path))
            with open(place, "w") as file:
                file.write('# where\nADDRESS="[::]"\nPORT=5690\nOPTIONS="--log"\n')
            expect("with it", (0, [f"{at}:{itself}", "accepted"]), said_in(folder, path))
            came = said_in(folder, path, "-A", "0.0.0.0", "-p", "5683")
            expect("with words", (0, [f"{at}:4: {unreached}", "accepted"]), came)
        instance = (0, [f"etc/coap-proxyd/g1.toml:{itself}", "accepted"])
        expect("of an instance", instance, said_in(folder, "--instance", "g1"))
        os.rename(os.path.join(etc, "default", "coap-proxyd-g1"), os.path.join(etc, "coap-proxyd", "coap-proxyd-g1"))
        expect("with it beside", instance, said_in(folder, os.path.join(etc, "coap-proxyd", "g1.toml")))


def check_rules(_):
    """Has the rules of the example keep all whom they list from filling the records of the configuration that is
    installed, and others be warned of."""
    rules, installed = (os.path.join(TOP, "examples", f"coap-proxyd.{it}") for it in ("nft", "toml"))
    with tempfile.TemporaryDirectory(prefix="coap-proxyd-test-") as folder:
        path, other = os.path.join(folder, "p.toml"), os.path.join(folder, "other.nft")
        with open(path, "w") as file:
            file.write("version = 2\n[limits]\nnon_records = 11650\n")
        with open(rules) as file, open(other, "w") as changed:
            changed.write(re.sub("(?m)^ *limit rate .*$", "", file.read()))
        status, lines = said_in(folder, installed, "--rules", rules)
        kinds = [line.partition(":")[0] for line in lines]
        expect("what is said of the examples", (0, ["note", "note", "accepted"]), (status, kinds))
        expect("what is said of others", (0, [
            f"warning: 17 messages a second from 16 ports or addresses fill con_records (4096) in 247 seconds; {rules} "
            "lets 18790 through in that time, which fills it within 37 seconds",
            f"note: 81 messages a second from 46 ports or addresses fill non_records (11650) in 145 seconds; {rules} "
            "lets 11650 through in that time",
            "accepted",
        ]), said_in(folder, path, "--rules", rules))
        said = [line.rpartition(";")[2] for line in said_in(folder, installed, "--rules", other)[1][:-1]]
        expect("what is said of rules without a sum", [" other.nft limits no sum over all addresses"] * 2, said)
