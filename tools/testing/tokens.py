"""That tools/check-config judges as the program does: each value and each key of a configuration, and each word beside it,
is replaced by each of some tokens. Copies of its rules that are each wrong in one respect must be found wrong by the same configurations."""

import json
import os
import shutil
import subprocess
import sys
import tempfile
from argparse import Namespace
from concurrent.futures import ThreadPoolExecutor

from testing.network import expect

TOOLS = os.path.dirname(os.path.dirname(os.path.abspath(__file__)))

# A configuration, in which @ stands before each value and % before each key that is replaced.
BASE = """\
%version = @2
%names = [@"proxy.test", "[2001:db8::1]"]
[%limits]
%exchanges = @9
%client_waiters = @5
%cache_bytes = @0
[%hosts]
%"a.test" = @"192.0.2.7"
[[%map]]
%prefix = @"/t"
%origin = @"coap://a.test/x"
[[map]]
prefix = "/u"
origin = @"coap://192.0.2.9:5684/"
"""
LONG, DEEP = "a" * 255, 80
NUMBERS = """0 1 2 3 -1 +1 -0 +0 01 1_0 1__0 _1 1_ 0x1F 0X1F 0x_1 0xg 0o17 0o8 0b11 0b2 1.0 1. .5 1e3 1E3 1e 1.5e-2 inf +inf
nan 1_6 16 17 4096 4097 16384 16385 65536 268435456 268435457 9223372036854775807 9223372036854775808
-9223372036854775808 99999999999999999999""".split()
OTHERS = ["true", "false", "True", "yes", "null", "", "x", "[]", "{}", "[1]", "[true]", "[[]]", '[["a"]]', '["a",]', '["a" "b"]',
    "[,]", "[1,,2]", '["a", 1]', "[\n# a comment\n]", "{ a = 1 }", '{ a = "b" }', "{ a = 1, }", "{ a.b = 1 }", "{ a = 1 b = 2 }",
    "{\na = 1\n}", "{ a = 1, a = 2 }", '{ prefix = "/p" }', "[{}]", '[{ prefix = "/p", origin = "coap://192.0.2.1/" }]', "[", "{",
    "1 2", "1 # a comment", "1 \x07", "= 1", "[" * DEEP + "]" * DEEP, "[" * (DEEP + 1) + "]" * (DEEP + 1)]
STRINGS = ['""', "''", '"a"', "'a'", '"a', "'a", '"""a"""', "'''a'''", '"""a""""', '"""a"""""', '"""a""""""', "'''a'''''",
    '"""\na"""', '"""a\\\n  b"""', '"a\nb"', '"\\u0061"', '"\\U00000061"', '"\\x61"', '"\\e"', '"\\q"', '"\\ud800"', '"\\u61"',
    '"a\\tb"', "'a\\tb'", '"a\tb"', '"a\x01b"', '"a,b"', '"a b"', '"é"', '"A.Test"', '"b.test"', f'"{LONG}"', f'"{LONG}a"']
HOSTS = ["192.0.2.7", "192.0.2.07", "192.0.2.256", "192.0.2", "192.0.2.7.", " 192.0.2.7", "0.0.0.0", "::1", "[::1]", "[::1",
    "::1]", "[::1]:1", "[::g]", "[::ffff:192.0.2.7]", "[::192.0.2]", "[1:2:3:4:5:6:7:8]", "[1:2:3:4:5:6:7:8:9]", "[1::2::3]",
    "[fe80::1%eth0]", "[v1.a]", "[]", "0x7f.1"]
PREFIXES = ["/", "//", "t", "/t/", "/t//u", "/t?x", "/t#x", "/%41", "/%", "/%zz", "/é", "/t ", f"/{LONG}", f"/{LONG}a", "/.", "/.."]
ORIGINS = ["coap://a.test", "coap://a.test/", "COAP://a.test/", "Coap://A.TEST/x", "coaps://a.test/", "http://a.test/", "coap:a",
    "coap:/a.test/", "coap:///x", "//a.test/", "coap//a.test/", "coap://nowhere/", "coap://a.test:0/", "coap://a.test:1/",
    "coap://a.test:65535/", "coap://a.test:65536/", "coap://a.test:99999/", "coap://a.test:05683/", "coap://a.test:/",
    "coap://a.test:x/", "coap://a.test:+1/", "coap://user@a.test/", "coap://a.test/?q", "coap://a.test/?", "coap://a.test/#f",
    "coap://a%2Etest/", "coap://a.test/%7A", "coap://a.test/%", "coap://a.test/%zz", "coap://a.test/a//b", "coap://a.test/x/..",
    " coap://a.test/ ", "coap://a. test/", "coap://a\\ttest/", "coap://a.te\\tst/", "coap://[::1]/", "coap://[::1]:5683/x",
    "coap://[::1/", "coap://::1/", "coap://[::1]x/", "coap://192.0.2.07/", "coap://192.0.2/", "coap://1/", "coap://a_test/",
    "coap://a.test\\\\x/", "coap://a.test^/", f"coap://a.test/{LONG}", f"coap://a.test/{LONG}a", f"coap://a.test/{'%61' * 255}"]
VALUES = NUMBERS + OTHERS + STRINGS + [f'"{it}"' for it in HOSTS + PREFIXES + ORIGINS]
KEYS = """version names limits hosts map prefix origin exchanges client_waiters cache_bytes Version NAMES x "" '' "names"
'limits' "a b" "é" é limits.x hosts.x map.x x.y .x x. a..b "a"."b" 1 -1 a-b a_b a+b "a \\u0061 "\\q" """.split()

NAMES = ["a", "A", "a,b", "", ",", "a,", "a b", "a:1", "é", LONG, f"{LONG}a", ",".join(["a"] * 64), ",".join(["a"] * 65)]
# The options of words beside the configuration, each with values; the last two lines are of next proxies.
WORDS = [("address", it) for it in ["", "::", "x", *HOSTS]]
WORDS += [("map", it) for it in ["", "=", "/p", "/p=", "=coap://a.test/", "/p=coap://a.test/=b"]]
WORDS += [("map", f"{it}=coap://a.test/") for it in PREFIXES] + [("map", f"/p={it}") for it in ORIGINS]
WORDS += [("names", it) for it in NAMES] + [("names", f",{it}") for it in NAMES]
WORDS += [("names", f"coap://{it},a") for it in HOSTS] + [("names", f"{it},a") for it in ORIGINS]
WORDS += [("names", f"coap://192.0.2.2:{it},a") for it in ("", "0", "1", "05683", "65535", "65536", "99998", "99999", "x")]
LETTERS = {"address": "-A", "names": "-P", "map": "--map"}

# Rules that are wrong in one respect: a file of tools/checking, a text that stands there once, and what it becomes.
WRONG = (
    ("configuration.py", 'type(table["version"].value) is not int or', ""),
    ("configuration.py", "type(value) is not int or not least", "not isinstance(value, int) or not least"),
    ("configuration.py", '"client_waiters": (1, 16_384,', '"client_waiters": (1, 16_383,'),
    ("configuration.py", "sorted(set(table) - set(known))", "set()"),
    ("toml_lines.py", "DEEPEST = 80", "DEEPEST = 79"),
    ("toml_lines.py", "if run > 5:", "if run > 4:"),
    ("toml_lines.py", "[+-]?(?:0|[1-9]\\d*)", "[+-]?(?:[0-9]\\d*)"),
    ("routes.py", 'scheme.lower() != "coap"', 'scheme != "coap"'),
    ("routes.py", "0 < port < 65_536 else \"has a port", "0 <= port < 65_536 else \"has a port"),
    ("routes.py", "LONGEST = 255", "LONGEST = 256"),
    ("routes.py", 'return "has a ? or a #" if', 'return None if'),
    ("routes.py", "is not None and port < 65_536", "is not None and port < 99_999"),
    ("findings.py", 'if words.map is not None and "=" not in', "if False and words.map not in"),
    ("findings.py", "if words.address is not None and", "if False and"),
)


def configurations():
    """Pairs of words and of a configuration: with nothing replaced, with one word, and with one value or one key."""
    texts = [it.lstrip("%") for it in BASE.replace("%", "@%").split("@")]
    kinds = [it.startswith("%") for it in BASE.replace("%", "@%").split("@")]
    yield {}, "".join(texts)
    for option, value in WORDS:
        yield {option: value}, "".join(texts)
    for place in range(1, len(texts)):
        rest = rest_after(texts[place])
        for token in KEYS if kinds[place] else VALUES:
            yield {}, "".join([*texts[:place], token, rest, *texts[place + 1 :]])


def rest_after(text):
    """What follows the key or the value that a text begins with."""
    if text.startswith('"'):
        return text[text.index('"', 1) + 1 :]
    return text[next(at for at, it in enumerate(text) if not (it.isalnum() or it == "_")) :]


def verdict_of_program(program, path, said):
    """What the program says of a configuration and words, as tools/check-config would say it."""
    words, pipe = [f"{LETTERS[option]}={value}" for option, value in said.items()], subprocess.PIPE
    told = subprocess.run(
        [*program, "--replay", "--config", path, *words], stdin=subprocess.DEVNULL, stdout=pipe, stderr=pipe, timeout=50
    )
    text = told.stderr.decode(errors="replace").rstrip("\n").replace("coap-proxyd: config: ", "").replace("coap-proxyd: ", "")
    return f"refused: {text}" if told.returncode else "accepted"


def judged(folder):
    """What the rules in tools/checking, or those that stand first in the path of modules, say of the configurations that
    stand in a folder."""
    from checking.findings import judge

    nothing = {"address": None, "port": None, "names": None, "map": None}
    found = enumerate(configurations())
    return [judge(Namespace(**{**nothing, **said, "file": path_of(folder, number)}), 1 << 40)[1] for number, (said, _) in found]


def path_of(folder, number):
    """The path of a configuration."""
    return os.path.join(folder, f"{number}.toml")


def judged_by(rules, folder):
    """The same by the rules below a folder, in a process of its own."""
    code = "import json, sys; from testing import tokens; print(json.dumps(tokens.judged(sys.argv[1])))"
    settings = {**os.environ, "PYTHONPATH": os.pathsep.join([rules, TOOLS])}
    words = [sys.executable, "-B", "-c", code, folder]
    return json.loads(subprocess.run(words, env=settings, stdout=subprocess.PIPE, timeout=100, check=True).stdout)


def differences(ours, program):
    """The numbers of the configurations that are judged, and otherwise than by the program."""
    pairs = enumerate(zip(ours, program))
    return [number for number, (mine, its) in pairs if not mine.startswith("not judged") and mine != its]


def wrong_rules(folder, file, old, new):
    """A folder with a copy of the rules that is wrong in one respect."""
    shutil.copytree(os.path.join(TOOLS, "checking"), os.path.join(folder, "checking"))
    path = os.path.join(folder, "checking", file)
    with open(path, encoding="utf-8") as text:
        right = text.read()
    expect(f"how often {old!r} stands in {file}", 1, right.count(old))
    with open(path, "w", encoding="utf-8") as text:
        text.write(right.replace(old, new))
    return folder


def verdicts(program, folder):
    """What the program says of each configuration, which is written into a folder."""
    tried = list(enumerate(configurations()))
    for number, (_, text) in tried:
        with open(path_of(folder, number), "wb") as file:
            file.write(text.encode())
    with ThreadPoolExecutor(4) as pool:
        return list(pool.map(lambda it: verdict_of_program(program, path_of(folder, it[0]), it[1][0]), tried))


def each_token_is_judged_as_by_the_program(program):
    """Has both verdicts be the same for each configuration that is judged, and differ once a rule is wrong."""
    tried = list(configurations())
    with tempfile.TemporaryDirectory(prefix="coap-proxyd-test-") as folder:
        its, ours = verdicts(program, folder), judged(folder)
        for number in differences(ours, its)[:1]:
            expect(f"the verdict of {tried[number]}", its[number], ours[number])
        unjudged = sum(it.startswith("not judged") for it in ours)
        expect("whether most are judged", True, unjudged * 20 < len(tried))
        for number, wrong in enumerate(WRONG):
            rules = wrong_rules(os.path.join(folder, f"rules-{number}"), *wrong)
            found = differences(judged_by(rules, folder), its)
            expect(f"whether it is seen that {wrong[1]!r} is {wrong[2]!r}", True, bool(found))
