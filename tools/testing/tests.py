"""All tests: what they are called, and what each of them plays."""

import os
from collections import namedtuple

from testing import accounts, benches, buffers, caching, captures, chosen, clients, configurations, costs, days
from testing import deployments, documents, draws, endings, faults, firewalls, fleets, forwarding, gateways, hosts
from testing import instructions, kernels, leaps, libcoap, limits, links, logs, manifests, memory, messages, monitoring
from testing import pages, parents, periods, pictures, programs, questions, ranges, readings, recordings, refusals
from testing import roles, routers, script, sends, services, silences, slips, spreads, statistics, suites, tokens
from testing import uptimes, watching, worked, writes
from testing.network import Stage
from testing.stand_ins import PLAYER, SAID, differences_are_told, must_fail, must_say

WORKED = os.path.join(script.TOP, "crates", "worked_runs")
SOCKET = forwarding.CASES + caching.CASES + messages.CASES + limits.CASES + clients.CASES + parents.CASES
SOCKET += statistics.CASES + periods.CASES + recordings.CASES + pictures.CASES + watching.CASES
CASES = (
    ("socket", SOCKET),
    ("libcoap", libcoap.CASES),
    ("fleet", fleets.CASES),
    ("ping", deployments.CASES),
    ("memory", memory.CASES),
)
# The stand-ins that each find a worked run to be wrong, and one of the runs for each.
WRONG_RUNS = (
    ("DigitChanged", "first_answer"),
    ("LineLost", "overload"),
    ("LineAdded", "no_events"),
    ("TextChanged", "words_bad_key"),
    ("StatusIsZero", "bad_bytes"),
    ("StatusIsOne", "words_help"),
    ("CommentLost", "first_answer"),
)
WRONG_RANGES = (("DigitChanged", ranges.datagrams_of_4096_bytes_are_read_and_sent),)
WRONG_REFUSED_RUNS = (("StatusIsZero", "first_answer"), ("LineLost", "hit_aged"))
WRONG_CONFIGURATIONS = (("TextChanged", "words_bad_key"), ("StatusIsZero", "words_bad_value"))

Test = namedtuple("Test", "name function arguments")


def play_case(program, case):
    """Plays a case with a program."""
    with Stage(program) as stage:
        case.function(stage)


def play_end(program, function):
    """Tries how a program ends."""
    function(program)


def play_run(program, run):
    """Plays a worked run with a program, twice: the second time it says of each event what it did."""
    worked.check(run, worked.play(program, run))
    worked.check_places(program, run)


def play_refused(program, run):
    """Plays a worked run with a program that is refused memory, and one of all runs also at its start."""
    memory.check_replay(program, run, run.name == "first_answer")


def must_find(program, runs, change):
    """Has a worked run fail in whose file something is changed."""
    must_fail("Right", program, play_run, worked.changed(runs, change))


def socket_tests(program):
    """The tests over a socket, with libcoap and of a fleet, and those of stand-ins for them."""
    for kind, some in CASES:
        for case in some:
            yield Test(f"{kind} {case.name}", play_case, (program, case))
        for case in some:
            right = [*PLAYER, "Right", *program]
            yield Test(f"stand-in Right and {kind} {case.name}", play_case, (right, case))
            for wrong in case.stand_ins:
                yield Test(f"stand-in {wrong} and {kind} {case.name}", must_fail, (wrong, program, play_case, case))


def range_tests(program):
    """The tests at the ends of ranges, and those of stand-ins for them."""
    for function in ranges.CASES:
        yield Test(f"range {function.__name__}", ranges.check, (program, function))
    for wrong, function in WRONG_RANGES:
        name = f"stand-in {wrong} and range {function.__name__}"
        yield Test(name, must_fail, (wrong, program, ranges.check, function))
    name = "range an_input_in_single_bytes_is_read"
    yield Test(name, ranges.check_by_bytes, (program, WORKED))
    yield Test(f"stand-in LineLost and {name}", must_fail, ("LineLost", program, ranges.check_by_bytes, WORKED))


def end_tests(program):
    """The tests of how the program ends, and those of stand-ins for them."""
    for function in endings.CASES:
        yield Test(f"end {function.__name__}", play_end, (program, function))
        what = ("StatusIsZero", program, play_end, function)
        yield Test(f"stand-in StatusIsZero and end {function.__name__}", must_fail, what)


def cost_tests(program):
    """The tests of what the program takes, of what a long uptime does, and of sends that fail, and those of stand-ins for
    them."""
    right = [*PLAYER, "Right", *program]
    several = (("uptime", uptimes.CASES + leaps.CASES + days.CASES), ("send", sends.CASES))
    cases = [("cost", function, (wrong,)) for function, wrong in costs.CASES + chosen.CASES]
    cases += [(kind, case.function, case.stand_ins) for kind, some in several for case in some]
    for kind, function, stand_ins in cases:
        yield Test(f"{kind} {function.__name__}", play_end, (program, function))
        yield Test(f"stand-in Right and {kind} {function.__name__}", play_end, (right, function))
        for wrong in stand_ins:
            what = (wrong, program, play_end, function)
            yield Test(f"stand-in {wrong} and {kind} {function.__name__}", must_fail, what)
    yield from instruction_tests(program)


def instruction_tests(program):
    """The tests of how many instructions it takes, and those of stand-ins for them, whose own aren't counted."""
    function = instructions.an_event_takes_no_more_instructions_than_it_may
    yield Test(f"cost {function.__name__}", function, (program,))
    for function, wrong, kind in [(*it, "endpoints") for it in chosen.COUNTED] + instructions.COMPARED:
        name = f"cost {function.__name__}"
        yield Test(name, function, (program,))
        yield Test(f"stand-in Right and {name}", function, ([*PLAYER, "Right", *program], [kind]))
        yield Test(f"stand-in {wrong} and {name}", must_fail, (wrong, program, function, [kind]))


def observing_tests(program):
    """The tests of what is seen of its work: what a replay says of its events, and lines of counts. And those of
    stand-ins for them."""
    accounts_and_counts = (("account", "CommentLost", accounts.CASES), ("counts", "NotCounted", statistics.ENDS))
    yield from log_tests(program)
    for kind, wrong, functions in (*accounts_and_counts, ("recording", "StatusIsZero", recordings.ENDS)):
        for function in functions:
            yield Test(f"{kind} {function.__name__}", play_end, (program, function))
            what = (wrong, program, play_end, function)
            yield Test(f"stand-in {wrong} and {kind} {function.__name__}", must_fail, what)


def log_tests(program):
    """The tests of what it logs, of what is found in that, of what it draws, and of what it does where a clock is odd, and
    those of stand-ins for them."""
    kept = [*PLAYER, "LogKept", *program]
    several = [("log", it) for it in (logs, writes, faults, silences, buffers)]
    several += [("question", questions), ("draw", draws), ("host", hosts)]
    cases = [(kind, *case) for kind, it in several for case in it.CASES]
    for kind, name, function, stand_ins in cases:
        yield Test(f"{kind} {name}", play_end, (program, function))
        if function not in writes.BY_THEMSELVES:
            yield Test(f"stand-in LogKept and {kind} {name}", play_end, (kept, function))
        for wrong in stand_ins:
            yield Test(f"stand-in {wrong} and {kind} {name}", must_fail, (wrong, program, play_end, function))


def document_tests(program):
    """The tests of the commands in documents, and those of stand-ins for them."""
    for function in documents.CASES:
        yield Test(f"document {function.__name__}", play_end, (program, function))
    for wrong, function in documents.WRONG:
        what = (wrong, program, play_end, function)
        yield Test(f"stand-in {wrong} and document {function.__name__}", must_fail, what)


def worked_tests(program, runs):
    """The tests of worked runs, and those of stand-ins, and of files that say something wrong, for them."""
    yield Test("worked run files_are_all_there", worked.check_count, (WORKED,))
    for name, run in runs.items():
        yield Test(f"worked run {name}", play_run, (program, run))
    for wrong, name in WRONG_RUNS:
        yield Test(f"stand-in {wrong} and worked run {name}", must_fail, (wrong, program, play_run, runs[name]))
    for change in worked.CHANGES:
        name = f"stand-in Right and worked run {change[1]} with {change[0]}"
        yield Test(name, must_find, (program, runs, change))


def picture_tests(program):
    """The tests of what is drawn of recordings, and those of stand-ins for them."""
    for function in readings.CASES + pictures.ENDS + watching.ENDS:
        yield Test(f"picture {function.__name__}", play_end, (program, function))
    for wrong, function in pictures.WRONG:
        what = (wrong, program, play_end, function)
        yield Test(f"stand-in {wrong} and picture {function.__name__}", must_fail, what)


def tool_tests(program):
    """The tests of what tools make, which take long and say little of the program: pages in a browser, and packages of
    the programs in bin/."""
    for function in pages.CASES:
        yield Test(f"page {function.__name__}", play_end, (program, function))
    yield Test("package holds_the_programs", deployments.check_packages, ())


def account_tests(program, run):
    """The test of what is said of an answer that isn't stored for want of memory, and that of a stand-in for it."""
    function = memory.an_answer_without_memory_is_not_said_to_be_kept
    yield Test(f"memory {function.__name__}", function, (program, run))
    what = ("KeptIsSaid", program, function, run)
    yield Test(f"stand-in KeptIsSaid and memory {function.__name__}", must_fail, what)


def configuration_tests(program, runs):
    """The tests of tools/check-config, and those of stand-ins for them."""
    for name, run in runs.items():
        if run.config:
            yield Test(f"check-config {name}", configurations.check_run, (program, run))
    for wrong, name in WRONG_CONFIGURATIONS:
        what = (wrong, program, configurations.check_run, runs[name])
        yield Test(f"stand-in {wrong} and check-config {name}", must_fail, what)
    for said in configurations.SAID:
        yield Test(f"check-config says {said.name}", configurations.check_said, (said,))
    function = tokens.each_token_is_judged_as_by_the_program
    yield Test(f"check-config {function.__name__}", function, (program,))
    for it in configurations.WARNINGS:
        yield Test(f"check-config warns_of_{it.name}", configurations.check_warning, (it,))
    yield Test("check-config knows_what_the_page_tells", configurations.check_page, (program,))
    yield Test("check-config knows_where_it_listens", configurations.check_environment, (program,))
    yield Test("check-config knows_what_rules_let_through", configurations.check_rules, (program,))


def capture_tests(program, runs):
    """The tests of tools/from-capture."""
    for name in captures.RUNS:
        yield Test(f"capture {name}", captures.check, (program, runs[name]))
        yield Test(f"capture {name} at two addresses", captures.check_two_addresses, (program, runs[name]))
    for name in captures.PROMPT:
        yield Test(f"capture {name} with another byte", captures.check_another_byte, (program, runs[name]))
    yield Test("capture that began late", captures.check_late, (program, runs["first_answer"]))


def repository_tests(program):
    """The tests of the script that starts the program, and of the tools by which it is tested."""
    yield Test("script knows_the_options", script.check_options, (program,))
    yield Test("script sums_what_the_program_is_built_from", script.check_sum, (program,))
    yield Test("script chooses_what_runs_here", script.check_choice, (program,))
    yield Test("script helps_where_it_is_stale", script.check_stale, (program,))
    yield Test("script lists_what_others_wrote", script.check_third_parties, (program,))
    yield Test("script installs_what_was_built_here", script.check_install, (program,))
    yield Test("suite builds_are_compared", suites.builds_are_compared, (program,))
    for function in suites.CASES:
        yield Test(f"suite {function.__name__}", function, ())
    for function in benches.CASES:
        yield Test(f"bench {function.__name__}", function, ())
    for function in slips.CASES:
        yield Test(f"slip {function.__name__}", function, ())
    for function in roles.CASES:
        yield Test(f"role {function.__name__}", function, ())
    if not programs.is_emulated(program[-1]):
        for function in refusals.CASES:
            yield Test(f"refusal {function.__name__}", function, ())


def network_tests(program):
    """The tests in network namespaces, and of what tools/fleet says."""
    yield Test("slow link loses_no_answer", links.loses_no_answer, (program,))
    for address in ("0.0.0.0", "::"):
        name = f"gateway accounts_for_both_interfaces at {address}"
        yield Test(name, gateways.accounts_for_both_interfaces, (program, address))
    for function in fleets.ENDS:
        yield Test(f"fleet {function.__name__}", play_end, (program, function))
    for function, family in firewalls.KINDS:
        name = f"firewall holds_for_{function.__name__} at {family.here}"
        yield Test(name, firewalls.holds, (program, function, family))
    yield Test("firewall holds_for_a_published_port", firewalls.holds_for_a_published_port, (program,))
    together = firewalls.bounds_an_address_and_all_together
    if not programs.is_emulated(program[-1]):
        # it counts what so many a second get, of whom an emulated program answers fewer
        for family, network in firewalls.FAMILIES:
            name = f"firewall bounds_an_address_and_all_together at {family.here}"
            yield Test(name, together, (program, family, network))
    yield Test("firewall the_tools_know_the_ports", play_end, (program, firewalls.the_tools_know_the_ports))
    yield Test("spread gives_each_client_one_instance", spreads.gives_each_client_one_instance, (program,))
    yield Test("spread serves_both_families", spreads.serves_both_families, (program,))
    for bound, devices in spreads.BOUND.items():
        reaches = spreads.reaches_other_networks
        yield Test(f"spread reaches_other_networks from {bound}", reaches, (program, bound, devices))


def tests(program):
    """All tests."""
    yield from socket_tests(program)
    yield from range_tests(program)
    yield from end_tests(program)
    yield from cost_tests(program)
    yield from observing_tests(program)
    yield from picture_tests(program)
    yield from document_tests(program)
    runs = {run.name: run for run in worked.runs(WORKED)}
    yield from worked_tests(program, runs)
    for name in memory.RUNS:
        yield Test(f"memory worked run {name}", play_refused, (program, runs[name]))
    for wrong, name in WRONG_REFUSED_RUNS:
        what = (wrong, program, play_refused, runs[name])
        yield Test(f"stand-in {wrong} and memory worked run {name}", must_fail, what)
    yield from account_tests(program, runs["hit_aged"])
    yield from configuration_tests(program, runs)
    yield from capture_tests(program, runs)
    for function in services.CASES:
        yield Test(f"service {function.__name__}", play_end, (program, function))
    for function in monitoring.CASES:
        yield Test(f"monitoring {function.__name__}", play_end, (program, function))
    for function in hosts.SOCKET_CASES:
        yield Test(f"host {function.__name__}", function, (program,))
    yield Test("kernel without_random_bytes", kernels.runs_without_random_bytes, (program,))
    yield Test("image holds_the_program", deployments.check_images, (program,))
    yield Test("manifest runs_what_there_is", deployments.check_manifests, (program,))
    for function in manifests.CASES:
        yield Test(f"manifest {function.__name__}", play_end, (program, function))
    for function in routers.CASES:
        yield Test(f"router {function.__name__}", play_end, (program, function))
    answer = manifests.containers_answer_where_they_are_asked
    yield Test(f"manifest {answer.__name__}", answer, (program,))
    if not programs.is_emulated(program[-1]):
        yield from tool_tests(program)
    yield from repository_tests(program)
    yield from network_tests(program)
    yield Test("stand-in differences_are_told", differences_are_told, ())
    for wrong, name, pattern in SAID:
        yield Test(f"stand-in {wrong} is told of by {name}", must_say, (program, wrong, name, pattern))
