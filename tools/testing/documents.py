"""What stands in documents: each command is run, or it is said why it isn't; the options in them exist; configurations
are accepted; what is printed looks like what stands there; and an invariant is proved."""

import os
import re
import shlex
import shutil
import subprocess
import tempfile
import textwrap

from testing.libcoap import tool
from testing.network import Skipped, expect, expect_in
from testing.questions import form_of
from testing.script import TOP, read

PAGES = "README CONTRIBUTING docs/TRYING docs/REPLAY docs/SCALING docs/DEPLOYING docs/BUILDING docs/SECURITY".split()
PAGES += ["docs/EMBEDDING"]
# An indented line, or what stands between backquotes.
CODE = re.compile(r"^ {4,}(.*)$|`([^`\n]+)`", re.MULTILINE)
# A command that calls the program or a tool, and its words; or words for the program in a file of the unit.
BEGIN = r"""(?:^|[;|&({"]|\bdo\b|\bsudo\b|\bor\b)\s*"""
NAME = r"(\./coap-proxyd|coap-proxyd(?:-[\w-]+)?|tools/[\w/-]+)(?=\s|$)"
CALL = re.compile(BEGIN + f'(?:OPTIONS="|{NAME})' + r"((?:\|(?= *-)|[^;&|<>#])*)")
GIVEN = re.compile(r'(?:^|[\s\["])(-\w|--[\w-]+)')
# A page with faults, and what is found of them.
FAULTS = '    sudo coap-proxyd-ladder --sgv x; ./coap-proxyd --colour < x\n`tools/ping --prot 1`\n    OPTIONS="--lgo"\n'
FOUND = [("coap-proxyd-ladder", "--sgv"), ("./coap-proxyd", "--colour"), ("tools/ping", "--prot"), ("", "--lgo")]

# The worked run that stands in a page.
FIRST_RUN = "crates/worked_runs/data/first_answer.events"
# The headings of docs/TRYING whose commands take libcoap, in their order.
TRIED = """Trying it, and seeing what it does
An answer from the cache
A duplicate gets its reply again
Clients that request the same resource
A change
A silent origin
A forward-proxy, and a next proxy""".splitlines()
# What commands of these print where no block says it: words of the command, and a pattern of what is printed.
TOLD = (
    ("coap-server-notls", ""),
    ("exec 3<>", "This is a test server made with libcoap.*"),
    ("async?2", r"(done\s*){5}"),
    ("-e Hello", r"(v:1 .*\n)*v:1 .* :: 'Hello'\n(v:1 .*\n?)*"),
    ("-p 5685", r"\w{3} \d\d \d\d:\d\d:\d\d\n?"),
    ("-P coap://127.0.0.1 ", r"5\.05\n?"),
    ("-p 5686", "</>;.*"),
)

# What stands in indented blocks: the page, the heading, and which tests of tools/test run it, or why none does.
BLOCKS = """
README / coap-proxyd: run: document the_first_answer_is_printed; tools/test itself
README / In front of a server: run: document the_readme_s_server_is_answered_for
README / Run it: run: script, in a folder; systemd isn't started
README / Side by side: run: suite; apt-get and whole runs, which take minutes, aren't
CONTRIBUTING / The tests: run: tools/test itself
CONTRIBUTING / Slips: run: slip, with a build of the test's own
CONTRIBUTING / The gate: not run: it takes the kit, and runs these tests
CONTRIBUTING / Wrong bodies, tests and worked runs: run: refusal, with a crate of the test's own
CONTRIBUTING / The form of a commit: no command
docs/TRYING / Trying it, and seeing what it does: run: document what_is_tried_with_libcoap_is_printed
docs/TRYING / An answer from the cache: run: document what_is_tried_with_libcoap_is_printed
docs/TRYING / A duplicate gets its reply again: run: document what_is_tried_with_libcoap_is_printed
docs/TRYING / Clients that request the same resource: run: document what_is_tried_with_libcoap_is_printed
docs/TRYING / A change: run: document what_is_tried_with_libcoap_is_printed
docs/TRYING / A silent origin: run: document what_is_tried_with_libcoap_is_printed
docs/TRYING / A forward-proxy, and a next proxy: run: document what_is_tried_with_libcoap_is_printed
docs/TRYING / A night's incident: run: document replays_print_what_stands_there
docs/TRYING / A recording, drawn: run: picture, with other recordings
docs/TRYING / An operator's five questions: run: question
docs/TRYING / The same questions, of a recording: run: document replays_print_what_stands_there
docs/REPLAY / Replays: the lines that the program reads and writes: no command
docs/REPLAY / Worked runs: run: document the_first_answer_is_printed, as a worked run
docs/REPLAY / Recordings: run: recording
docs/REPLAY / From a capture: run: capture
docs/SCALING / Clients over equal instances: run: spread; systemd isn't started
docs/SCALING / Both families, and devices in other networks: run: spread; systemd isn't started
docs/SCALING / Other balancers: not run: neither balancer was tried
docs/SCALING / A front before them: run: document configurations_are_accepted; the addresses aren't this host's
docs/SCALING / A tree of proxies: run: document configurations_are_accepted; the addresses aren't this host's
docs/SCALING / How large it may be, calculated: no command
docs/SCALING / More devices than maps: run: fleet; systemd isn't started
docs/SCALING / Without a front: run: fleet, with another name
docs/DEPLOYING / A host: run: script, in a folder; systemd isn't started
docs/DEPLOYING / Counts for Prometheus: not run: they change the host; monitoring reads the files
docs/DEPLOYING / Recordings: run: picture, with other recordings
docs/DEPLOYING / Packages: run: package; nothing is installed
docs/DEPLOYING / A Raspberry Pi: not run: they change the host
docs/DEPLOYING / OpenWrt: run: router, by the grammar of uci; nothing is changed
docs/DEPLOYING / Alpine and others with OpenRC: not run: they change the host
docs/DEPLOYING / A container: run: image; no container is run
docs/DEPLOYING / A pod in Kubernetes: run: manifest; it isn't applied to a cluster
docs/DEPLOYING / Is it there?: run: ping
docs/BUILDING / The kit: no command
docs/BUILDING / The first build: not run: it takes the kit
docs/BUILDING / The programs that come with the sources: not run: it takes the kit
docs/SECURITY / Proxying and caching (11.2): run: document rules_are_read
docs/SECURITY / Multicast and broadcast: run: document rules_are_read
docs/SECURITY / Floods, measured: run: check-config knows_what_rules_let_through, with other files
docs/EMBEDDING / With a socket: no command
"""
# What this list says of what no test runs, which a page with such commands says, too.
LEFT = re.compile(r"not run: |; .*(aren't|isn't|nothing|no container)")


def text_of(page):
    """The text of a page."""
    return read(TOP, f"{page}.md")


def blocks_of(page, heading):
    """The blocks of commands and of output under a heading of a page."""
    behind = re.split(rf"^#+ {re.escape(heading)}\n", text_of(page), maxsplit=1, flags=re.MULTILINE)[1]
    text = re.split("^#", behind, maxsplit=1, flags=re.MULTILINE)[0]
    return [textwrap.dedent(it).strip("\n") for it in re.findall(r"(?:^    .*\n)+", text, re.MULTILINE)]


def headings(page):
    """The headings of a page under which a block is indented."""
    found, heading = [], ""
    for line in re.sub(r"^```.*?^```$", "", text_of(page), flags=re.DOTALL | re.MULTILINE).splitlines():
        if line.startswith("#"):
            heading = line.lstrip("# ")
        elif line.startswith("    ") and not line.lstrip().startswith("- ") and heading not in found:
            found.append(heading)
    return [f"{page} / {it}" for it in found]


def each_block_is_run_or_not(_):
    lines = BLOCKS.strip().splitlines()
    told = [re.match(r"(.*?): (run: .|not run: .|no command$)", line) for line in lines]
    expect("which lines of the list don't say what becomes of a block", [], [one for one, it in zip(lines, told) if not it])
    there = [it for page in PAGES for it in headings(page)]
    expect("under which headings a block stands", [it[1] for it in told], there)


def a_page_says_what_no_test_runs(_):
    pages = {line.partition(" / ")[0] for line in BLOCKS.strip().splitlines() if LEFT.search(line)}
    silent = [page for page in sorted(pages) if "no test runs" not in text_of(page).lower()]
    expect("which pages don't say what no test runs", [], silent)


def calls(text):
    """The calls of the program and of tools in a page: the name, if there is one, and the options of each."""
    found = [call for parts in CODE.findall(text) for call in CALL.findall("".join(parts))]
    return [(name, GIVEN.findall(words)) for name, words in found]


def options_of(program, name):
    """The options of the program, of the script that runs it (its head), or of a tool, which may take both."""
    tool_file = os.path.join(TOP, "tools", re.sub("^(tools/|coap-proxyd-)", "", name))
    words = program if name in ("", "coap-proxyd", "./coap-proxyd") else [tool_file]
    done = subprocess.run([*words, "--help"], stdin=subprocess.DEVNULL, capture_output=True, text=True, timeout=20)
    text = done.stdout + done.stderr + (read(TOP, "coap-proxyd").partition("\ntop=")[0] if name[:1] == "." else "")
    return set(GIVEN.findall(text)).union(options_of(program, "") if "[WORD ..]" in text else ())


def unknown(program, given):
    """The options of calls that there aren't, each with the name that it is given to."""
    known = {it: options_of(program, it) for it in {name for name, options in given if options}}
    return [(name, option) for name, options in given for option in options if option not in known[name]]


def options_exist(program):
    given = [call for page in PAGES for call in calls(text_of(page))]
    expect("whether there are calls", True, len(given) > 40)
    expect("which options don't exist", [], unknown(program, given))
    expect("what is found of faults", FOUND, unknown(program, calls(FAULTS)))


def replayed(program):
    """What stands for words of commands that the pages give: the program, the tool that draws, and the examples."""
    top, words = shlex.quote(TOP), " ".join(map(shlex.quote, program))
    ladder = f"{top}/tools/ladder --program {program[-1]}"
    return {"./coap-proxyd": words, "tools/ladder": ladder, " examples/": f" {top}/examples/"}


def printed(program, commands, *before):
    """What commands of a page print, line by line, with a line `end` after each."""
    stands = replayed(program)
    script = "exec 2>&1 < /dev/null\n" + "".join(f"{command}\necho end\n" for command in commands)
    script = re.sub("|".join(map(re.escape, stands)), lambda it: stands[it[0]], script)
    with tempfile.TemporaryDirectory(prefix="coap-proxyd-test-") as folder:
        words = [*before, "bash", "-c", script]
        done = subprocess.run(words, stdout=subprocess.PIPE, text=True, cwd=folder, timeout=60)
    return done.stdout.splitlines()


def replays_print_what_stands_there(program):
    for section in ("A night's incident", "The same questions, of a recording"):
        # what a command prints begins with a digit or a number sign
        every = blocks_of("docs/TRYING", section)
        pairs = [(it, after) for it, after in zip(every, [*every[1:], "end"]) if it[0].isalpha()]
        wanted = [line for _, after in pairs for line in [*([] if after[0].isalpha() else after.splitlines()), "end"]]
        came = printed(program, [command for command, _ in pairs])
        expect(f"what {section} prints", [it.split() for it in wanted], [it.split() for it in came])


def the_first_answer_is_printed(program):
    command = blocks_of("README", "coap-proxyd")[0].splitlines()[0]
    run = blocks_of("docs/REPLAY", "Worked runs")[0].splitlines()
    expect("whether the worked run is that of the example", True, "\n".join(run) + "\n" in read(TOP, FIRST_RUN))
    wanted = [f"0 {line[4:]}" for line in run if line.startswith("# > ")]
    expect("what the README's first command prints", [*wanted, "end"], printed(program, [command]))


def tries():
    """The commands of docs/TRYING that take libcoap, each with the lines that the page says it prints, or none. A
    second block behind a command is what it prints later."""
    for block in (it for heading in TRIED for it in blocks_of("docs/TRYING", heading)):
        if not block.startswith(("v:1 ", "listening ")):
            command, later = block, ""
            yield [command, None]
        else:
            yield [later + command, block.splitlines()]
            later = "sleep 1.1\n"


def pairs_of(tried):
    """Commands, each once for each time that it is to be played, with what it is to print."""
    pairs = []
    for command, lines in tried:
        if pairs and lines and pairs[-1] == [command, None]:
            pairs.pop()
        pairs.append([command, lines])
    return pairs


def form_tried(line):
    """A line of libcoap's client or of a log with one digit for each number, and without Message ID and payload."""
    return form_of(re.sub(" :: .*", " ::", re.sub("i:[0-9a-f]{4}", "i:0", line)))


def alone(commands):
    """Commands as they are played in a network of their own, where what is started in the background is waited for."""
    return ["ip link set lo up", *(re.sub("&$", "& sleep 0.5", it, flags=re.MULTILINE) for it in commands)]


def until_logged(command):
    """A command and, where it starts a log, a wait: the log's last line is written behind the reply that ends a client."""
    return command + "\nsleep 0.5" * ("--log" in command)


def printed_alone(program, commands):
    """What commands print in a network of their own, each its lines."""
    for name in ("client", "server"):
        tool(name)
    if os.geteuid() != 0 or not all(map(shutil.which, ("ip", "unshare"))):
        raise Skipped("a network of its own takes root, ip and unshare")
    # what is left behind ends with the process that began it
    commands = [until_logged(it) for it in commands]
    lines = printed(program, alone(commands), "unshare", "--net", "--pid", "--fork", "--kill-child")
    return [it.splitlines() for it in "\n".join(lines).split("end\n")][1 : len(commands) + 1]


def what_is_tried_with_libcoap_is_printed(program):
    pairs = pairs_of(tries())
    came = printed_alone(program, [command for command, _ in pairs])
    for (command, wanted), lines in zip(pairs, came):
        if wanted is None:
            pattern = next(pattern for words, pattern in TOLD if words in command)
            expect(f"what {command!r} prints: {lines}", True, bool(re.fullmatch(pattern, "\n".join(lines), re.DOTALL)))
        else:
            wanted = wanted + ["5.04"] * ("short.toml" in command)
            expect(f"what {command!r} prints", sorted(map(form_tried, wanted)), sorted(map(form_tried, lines)))


def the_readme_s_server_is_answered_for(program):
    before, after = printed_alone(program, blocks_of("README", "In front of a server"))
    expect_in("what the client prints of the server", "</example_data>", "\n".join(before))
    ages = [int(age) for line in after for age in re.findall(r"t:ACK c:2\.05 .*Max-Age:(\d+)", line)]
    expect(f"whether the cache answers once the server is stopped: {after}", True, len(ages) == 1 and ages[0] < 60)


def configurations_are_accepted(program):
    tried = 0
    for page in ("docs/SCALING", "docs/TRYING"):
        for block in re.findall(r"(?:^    .*\n)+", text_of(page), re.MULTILINE):
            if block.startswith("    version = "):
                tried += 1
                check_configuration(program, "\n".join(line[4:] for line in block.splitlines()))
    expect("how many configurations there are", 4, tried)


def check_configuration(program, text):
    """Has a configuration of a page be one that the program starts with, and in which tools/check-config finds no fault."""
    with tempfile.TemporaryDirectory(prefix="coap-proxyd-test-") as folder:
        path = os.path.join(folder, "page.toml")
        with open(path, "w") as file:
            file.write(text + "\n")
        for words in ([*program, "--replay", "--config", path], [os.path.join(TOP, "tools", "check-config"), path]):
            done = subprocess.run(words, stdin=subprocess.DEVNULL, capture_output=True, text=True, timeout=20)
            expect(f"the status and the text for {text!r}", (0, ""), (done.returncode, done.stderr), "status", "text")


def rules_are_read(_):
    if os.geteuid() != 0 or shutil.which("nft") is None:
        raise Skipped("nft reads a rule only as root")
    rules = [it for heading in ("Proxying and caching (11.2)", "Multicast and broadcast")
             for it in blocks_of("docs/SECURITY", heading)]
    for rule in rules:
        chain = f"type filter hook prerouting priority 0\n{rule}\n"
        table = f"table inet page {{\nchain c {{\n{chain}}}\n}}\n"
        words = ["unshare", "--net", "nft", "--check", "--file", "-"]
        done = subprocess.run(words, input=table, capture_output=True, text=True, timeout=20)
        expect(f"the status and the text for {rule}", (0, ""), (done.returncode, done.stderr), "status", "text")


def an_invariant_is_that_of_a_test(_):
    paths = ("src/failing.rt", "proofs/failing/FailingPort/new/Invariants.antt")
    texts = [re.sub("^ {8}", "", read(TOP, "crates", "test_ports", it), flags=re.MULTILINE) for it in paths]
    parts = re.findall(r"^```(\w*)\n(.*?)^```$", read(TOP, "docs", "EMBEDDING.md"), re.DOTALL | re.MULTILINE)
    found = [[code in text for text in texts] for language, code in parts if not language]
    expect("which parts are compiled", [[True, False], [False, True]], found)


CASES = (
    each_block_is_run_or_not,
    a_page_says_what_no_test_runs,
    options_exist,
    replays_print_what_stands_there,
    the_first_answer_is_printed,
    what_is_tried_with_libcoap_is_printed,
    the_readme_s_server_is_answered_for,
    configurations_are_accepted,
    rules_are_read,
    an_invariant_is_that_of_a_test,
)
# The stand-ins for which cases must fail.
WRONG = (
    ("CommentLost", replays_print_what_stands_there),
    ("DigitChanged", the_first_answer_is_printed),
)
