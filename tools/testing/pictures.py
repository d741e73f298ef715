"""What tools/ladder draws and counts: what belongs together, what is missing, what is chosen, what the tables hold, and
that what peers choose is text in it."""

import html.parser
import itertools
import json
import os
import re
import tempfile
import time
import xml.etree.ElementTree
from collections import Counter

from drawing import charts, colours, page, words
from drawing.picture import picture
from drawing.summary import clients_text, summary
from reading import captures, messages, replays
from reading.belonging import sort_of
from reading.choosing import Choice, moment_since
from reading.counting import TABLES
from testing.captures import capture
from testing.coap import BLOCK2, CON, CONTENT, GET, MAX_AGE, NON, PUT, URI_PATH, number_bytes
from testing.drawn import ODD, PICTURES, SLEEPING, WORKED, counts_of_file, limits, odd_names, odd_run, rows_of
from testing.network import PATIENCE, Failed, case_list, expect, expect_between, expect_in
from testing.statistics import await_metric, metrics
from testing.steps import T

CASES, case = case_list()

def worked_rows(program, name):
    """The rows of a worked run."""
    return rows_of(program, os.path.join(WORKED, f"{name}.events"))[0]


def a_valve_that_sleeps_has_each_sort(program):
    rows, ladder = rows_of(program, SLEEPING)
    expect("the clients", ["display", "phone"], [ladder.name_of(it) for it in ladder.clients])
    expect("the origins", ["192.0.2.50:5683"], ladder.origins)
    wanted = ["miss"] * 5 + ["hit"] * 4 + ["validation"] * 4 + ["miss"] * 4 + ["validation"] * 4
    expect("the sorts", wanted, [sort_of(row) for row in rows])
    expect(
        "what is said at the proxy",
        [
            "opened",
            "",
            "resent",
            "answered 2.05 kept",
            "",
            "hit, 42 s left",
            "",
            "hit, 14 s left",
            "",
            "opened",
            "sent, ETag ab",
            "answered 2.03 kept",
            "",
            "opened",
            "",
            "answered 2.04 not stored",
            "",
            "opened",
            "sent, ETag ab",
            "answered 2.05 kept",
            "",
        ],
        [words.note_text(row) for row in rows],
    )
    expect("what is sent again", [(2, 1)], [(n, rows.index(row.first)) for n, row in enumerate(rows) if row.first])
    expect("what got no reply", [1], [n for n, row in enumerate(rows) if row.is_silent()])
    exchanges = [row.exchange.number if row.exchange else 0 for row in rows]
    expect("the exchanges", [1] * 5 + [0] * 4 + [2] * 4 + [3] * 4 + [4] * 4, exchanges)
    expect("whose answers hits are", [1, 1], [row.request.source.number for row in rows if row.outcome == "hit"])


def a_joined_request_belongs_to_the_exchange(program):
    rows = worked_rows(program, "joined")
    first = [row for row in rows if row.exchange and row.exchange.number == 1]
    expect("who takes part", ["40003", "40001", "40002", "40004"], [it.client[-5:] for it in first[0].exchange.members])
    expect("how many rows", 13, len(first))
    answers = [(row.request.client, row.request.answered.peer) for row in rows if row.request and row.request.answered]
    expect("who gets whose answer", [], [pair for pair in answers if pair[0] != pair[1]])
    silent = [(row.request.target, words.trouble_text(row)) for row in rows if words.trouble_text(row) and row.inward]
    expect("what isn't answered", [("coap://127.0.0.1:5690/temp?q", "no answer")], silent)


def a_silent_origin_is_named(program):
    rows = worked_rows(program, "silent_origin")
    told = [(words.trouble_text(row), row.exchange.origin) for row in rows if words.trouble_text(row)]
    expect("what went wrong", [("gave up", "127.0.0.1:5690"), ("5.04 Gateway Timeout", "127.0.0.1:5690")], told)
    expect("what got no reply", 5, sum(row.is_silent() for row in rows))
    expect("what repeats the first", [2] * 4, [row.first.number for row in rows if row.first])


def duplicates_repeat_the_first(program):
    rows = worked_rows(program, "confirmable_client_repeats")
    again = [row for row in rows if row.first]
    expect("which are repeated", {1, 2}, {row.first.number for row in again})
    came = tuple(sum(row.first.number == number for row in again) for number in (1, 2))
    expect("how many are", (5, 5), came, "the first", "the second")
    expect("what went wrong", [], [words.trouble_text(row) for row in rows if words.trouble_text(row)])


def who_is_turned_away_is_told_why(program):
    rows, _ = rows_of(program, os.path.join(PICTURES, "trying-incident.events"))
    turned = [row for row in rows if row.outcome == "overloaded"]
    expect("who", ["127.0.0.1:40001"], [row.peer for row in turned])
    expect("why", ["overloaded 5.03 exchanges 2/2"], [words.note_text(row) for row in turned])
    told = [words.trouble_text(row) for row in rows if words.trouble_text(row)]
    expect("what went wrong", ["no answer"] * 3 + ["5.03 Service Unavailable"], sorted(told, reverse=True))


def a_capture_is_drawn_as_its_replay(program):
    for name in ("validation", "change", "first_answer"):
        with open(os.path.join(WORKED, f"{name}.events"), "rb") as file:
            events = file.read()
        with tempfile.TemporaryDirectory(prefix="coap-proxyd-test-") as folder:
            path = os.path.join(folder, "run.pcap")
            with open(path, "wb") as file:
                file.write(capture(events))
            head = replays.head_of(os.path.join(WORKED, f"{name}.events"))
            seen = rows_of(program, path, replays.deciding_words(head.words))
        told = lambda rows: [
            (row.moment - rows[0].moment, row.peer, row.inward, row.data, row.words, sort_of(row)) for row in rows
        ]
        expect(name, told(worked_rows(program, name)), told(seen[0]))
        expect("when it was", 1_000_000, seen[1].since)


# A Confirmable request for a path without a map, and its answer.
LATER = b"\n10000 0 127.0.0.1:40002 410100090AB175\n# > 127.0.0.1:40002 618400090A\n"


def a_capture_that_begins_late_is_doubted(program):
    with open(os.path.join(WORKED, "hit_aged.events"), "rb") as file:
        events = file.read()
    start = events.index(b"\n9001 ") + 1
    head = replays.head_of(os.path.join(WORKED, "hit_aged.events"))
    with tempfile.TemporaryDirectory(prefix="coap-proxyd-test-") as folder:
        path = os.path.join(folder, "run.pcap")
        with open(path, "wb") as file:
            file.write(capture(events[start:] + LATER))
        rows, _ = rows_of(program, path, replays.deciding_words(head.words))
    notes = [words.note_text(row) for row in rows]
    wanted = ["perhaps opened", "not in the replay", "the replay agrees from here on", "refused 4.04 no map", ""]
    expect("what is said at the proxy", wanted, notes)


def what_belongs_to_the_chosen_is_there(program):
    count = lambda **more: len(rows_of(program, SLEEPING, choice=Choice(**more))[0])
    expect("of the display", 5 + 2 + 4, count(clients=["192.0.2.10:40001"]))
    expect("of the valve", 17, count(origins=["192.0.2.50:5683"]))
    expect("of a target", 21, count(targets=["/goal"]))
    expect("of no target", 0, count(targets=["/other"]))
    expect("of a time", 8, count(first=75_000, last=90_000 - 1) + count(first=20_000, last=48_000))
    expect("of the phone and a time", 2, count(clients=["192.0.2.11:40002"], last=60_000))
    since = 1_795_788_185_123
    expect("a time of day", 9_877, moment_since("14:03:15", since))
    expect("the next day", 86_400_000 - 5_123, moment_since("14:03:00", since))
    expect("seconds", 1_500, moment_since("1.5", since))
    for text, known in (("noon", since), ("14:03", None)):
        try:
            moment_since(text, known)
            raise Failed(f"{text} is a moment")
        except captures.Bad:
            pass


class Elements(html.parser.HTMLParser):
    """The elements of a page with their attributes, and the texts of its scripts."""

    def __init__(self):
        super().__init__()
        self.all, self.scripts, self.is_script = [], [], False

    def handle_starttag(self, tag, attributes):
        self.all.append((tag, tuple(sorted(name for name, _ in attributes))))
        self.is_script = tag == "script"
        self.scripts.extend([""] if self.is_script else [])

    def handle_endtag(self, tag):
        self.is_script = False

    def handle_data(self, data):
        if self.is_script:
            self.scripts[-1] += data


def elements_of(text):
    """The elements of a page."""
    parser = Elements()
    parser.feed(text)
    parser.close()
    return parser


def a_picture_holds_odd_bytes_as_text(program):
    with tempfile.TemporaryDirectory(prefix="coap-proxyd-test-") as folder:
        rows, ladder = rows_of(program, odd_run(folder))
        ladder.names = odd_names(ladder)
        ladder.title = messages.shown_text(ODD[0][0].decode())
        text = picture(ladder)
    tree = xml.etree.ElementTree.fromstring(text)
    kinds = {it.tag.split("}")[1] for it in tree.iter()}
    expect("the elements", {"svg", "title", "desc", "style", "rect", "text", "tspan", "path", "g"}, kinds)
    known = {
        "x",
        "y",
        "d",
        "class",
        "id",
        "width",
        "height",
        "viewBox",
        "role",
        "aria-labelledby",
        "aria-describedby",
        "text-anchor",
        "transform",
        "direction",
    }
    expect("other attributes", set(), {name for it in tree.iter() for name in it.attrib} - known)
    titles = "\n".join(it.text or "" for it in tree.iter() if it.tag.endswith("title"))
    for value, wanted in ODD:
        expect(
            f"whether {value!r} is told",
            True,
            wanted.replace("/", "%2F").replace("?", "%3F") in titles or wanted in titles,
        )
    expect(
        "characters that do something",
        [],
        re.findall("[\x00-\x08\x0b-\x1f\x7f-\x9f\u200e\u200f\u202a-\u202e\u2066\u2067\ufeff]", text),
    )


def a_page_holds_odd_bytes_as_data(program):
    with tempfile.TemporaryDirectory(prefix="coap-proxyd-test-") as folder:
        rows, ladder = rows_of(program, odd_run(folder))
        plain = rows_of(program, SLEEPING)[1]
        ladder.title = messages.shown_text(ODD[0][0].decode() + '" onload="odd()')
        text = page.page(ladder)
        counted = summary(counts_of_file(program, odd_run(folder)), limits(), None, {}, ladder.title)
    found, wanted = elements_of(text), elements_of(page.page(plain))
    expect("the elements", wanted.all, found.all)
    expect("the scripts", 2, len(found.scripts))
    data = json.loads(found.scripts[0])
    expect("the data", page.data_of(ladder), data)
    for _, shown in ODD:
        expect(f"whether {shown!r} is in it", True, any(shown in it for it in data["strings"]))
    expect("the policy", True, "default-src 'none'" in text and "unsafe-inline" not in text)
    expect("scripts in a summary", 0, sum(tag == "script" for tag, _ in elements_of(counted).all))
    expect("what a summary must not have", [], [it for it in elements_of(counted).all if it[0] == "b" and it[1]])


def a_summary_counts_each_answer_once(program):
    counts = counts_of_file(program, SLEEPING)
    expect("requests", 6, counts.total.requests)
    expect("answers", {"hit": 2, "miss": 2, "validation": 2, "error": 0}, counts.total.sorts)
    expect("datagrams", (10, 11, 1), (counts.came, counts.sent, counts.again), "that came", "that were sent", "again")
    expect("answer times", [2290, 40, 40, 40], counts.origins["192.0.2.50:5683"].times)
    expect("over time", 6, sum(map(sum, counts.answers.values)))
    silent = counts_of_file(program, os.path.join(WORKED, "silent_origin.events"))
    expect("given up", (1, 1), (silent.given_up, silent.origins["127.0.0.1:5690"].given_up), "in all", "of the origin")
    expect("errors", 1, silent.total.sorts["error"])
    tree = xml.etree.ElementTree.fromstring(charts.answers_over_time(counts, None))
    expect("bars", 6, sum(it.attrib.get("class", "").endswith(" bar") for it in tree.iter()))


def a_summary_says_what_went_wrong_and_for_whom(program):
    incident = counts_of_file(program, os.path.join(PICTURES, "trying-incident.events"))
    told = lambda counts: {name: (dict(it.clients), it.first, it.last) for name, it in counts.troubles.items()}
    wanted = {"overloaded 5.03 exchanges 2/2": ({"127.0.0.1:40001": 1}, 9001, 9001)}
    expect("what went wrong", wanted, told(incident))
    silent = counts_of_file(program, os.path.join(WORKED, "silent_origin.events"))
    wanted = {"5.04 Gateway Timeout of 127.0.0.1:5690": {"127.0.0.1:40001": 1}}
    expect("who isn't answered", wanted, {name: dict(it.clients) for name, it in silent.troubles.items()})
    expect("when it was heard", None, silent.origins["127.0.0.1:5690"].heard)
    expect("when the valve was", 95_040, counts_of_file(program, SLEEPING).origins["192.0.2.50:5683"].heard)
    text = summary(incident, limits(), None, {"127.0.0.1:40001": "display"}, "")
    for part in (">overloaded 5.03 exchanges 2/2<", ">display (1)<"):
        expect_in("what the page says", part, text)
    some = Counter({f"c{number}": number for number in range(1, 6)})
    expect("of many clients", "c5 (5), c4 (4), c3 (3) and 2 more", clients_text(some, str))


@case("NotCounted")
def the_tables_of_a_summary_are_those_that_are_held(stage):
    origin, path = stage.peer(), os.path.join(stage.folder, "run.events")
    counts = os.path.join(stage.folder, "counts.prom")
    words_given = (
        "--map",
        f"/t=coap://{origin.authority}/temp",
        "--record",
        path,
        "--stats",
        "1",
        "--stats-file",
        counts,
    )
    client = stage.peer(to=stage.proxy(*words_given))
    kinds = [(NON, GET, []), (CON, GET, []), (NON, PUT, []), (CON, GET, [(BLOCK2, b"")])] * 3
    for number, (kind, code, more) in enumerate(kinds):
        request = client.request(code, [T, (URI_PATH, b"%d" % (number % 5)), *more], kind=kind)
        client.send(request.data)
    for _ in range(3):
        asked = origin.receive("a request")
        origin.answer(asked, CONTENT, [(MAX_AGE, number_bytes(60))], b"21", kind=CON)
        origin.receive("an acknowledgement")
    # Six Confirmable requests and as many others, and three Confirmable answers.
    held = await_metric(counts, 'coap_proxyd_held{what="con_records"}', 6 + 3)
    wanted, shown, until = None, {}, time.monotonic() + PATIENCE
    while wanted != shown and time.monotonic() < until:
        time.sleep(0.3)
        held = metrics(counts)
        wanted = {name: held[f'coap_proxyd_held{{what="{name}"}}'] for name in TABLES}
        found = counts_of_file(stage.program, path).tables.fills
        shown = {name: found[name].now for name in TABLES}
    expect("the tables", wanted, shown)


# How each kind of colour blindness mixes red, green and blue light, at its strongest (Machado and others, 2009).
SIGHTS = {
    "normal": ((1, 0, 0), (0, 1, 0), (0, 0, 1)),
    "protan": ((0.152, 1.053, -0.205), (0.115, 0.786, 0.099), (-0.004, -0.048, 1.052)),
    "deutan": ((0.367, 0.861, -0.228), (0.280, 0.673, 0.047), (-0.012, 0.043, 0.969)),
    "tritan": ((1.256, -0.077, -0.179), (-0.078, 0.931, 0.148), (0.005, 0.691, 0.304)),
}
XYZ = ((0.4124, 0.3576, 0.1805), (0.2126, 0.7152, 0.0722), (0.0193, 0.1192, 0.9505))


def mixed(matrix, values):
    """Values that a matrix mixes, none below 0 or above 1."""
    return [min(1, max(0, sum(a * b for a, b in zip(row, values)))) for row in matrix]


def light_of(colour):
    """The red, green and blue light of a colour such as #0e3f99."""
    parts = (int(colour[place : place + 2], 16) / 255 for place in (1, 3, 5))
    return [it / 12.92 if it <= 0.04045 else ((it + 0.055) / 1.055) ** 2.4 for it in parts]


def lab_of(light):
    """Light in the space CIELAB, in which distances are about as great as they look."""
    root = lambda it: it ** (1 / 3) if it > 0.008856 else 7.787 * it + 16 / 116
    x, y, z = (root(it / white) for it, white in zip(mixed(XYZ, light), (0.9505, 1, 1.0888)))
    return 116 * y - 16, 500 * (x - y), 200 * (y - z)


def the_colours_are_told_apart(program):
    brightness = lambda colour: mixed(XYZ, light_of(colour))[1] + 0.05
    for place, least in ((0, 25), (1, 20)):
        chosen = {sort: colours.COLOURS[sort][place] for sort, _ in colours.SORTS}
        for sight, matrix in SIGHTS.items():
            seen = {sort: lab_of(mixed(matrix, light_of(colour))) for sort, colour in chosen.items()}
            for one, other in itertools.combinations(seen, 2):
                apart = sum((a - b) ** 2 for a, b in zip(seen[one], seen[other])) ** 0.5
                expect_between(f"{one} and {other} for {sight} sight", least, 200, apart)
        paper = colours.COLOURS["paper"][place]
        texts = (("ink", 7), ("soft", 4.5), ("plain", 4.5), ("error", 4.5))
        for name, contrast in (*((sort, 3) for sort in chosen), *texts):
            bright = sorted(map(brightness, (paper, colours.COLOURS[name][place])))
            expect_between(f"the contrast of {name} (WCAG 2.2, 1.4.3 and 1.4.11)", contrast, 21, bright[1] / bright[0])


def the_pictures_are_up_to_date(program):
    events = [os.path.join(PICTURES, it) for it in sorted(os.listdir(PICTURES)) if it.endswith(".events")]
    for run in (SLEEPING, *events):
        name = os.path.basename(run)[: -len(".events")]
        with open(os.path.join(PICTURES, f"{name}.svg"), encoding="utf-8", newline="") as file:
            drawn = picture(rows_of(program, run)[1])
            expect(f"whether {name}.svg is as it is drawn", True, file.read() == drawn)


# What runs the program, and the stand-ins that some of it must find wrong.
ENDS = (
    a_valve_that_sleeps_has_each_sort, a_joined_request_belongs_to_the_exchange, a_silent_origin_is_named,
    duplicates_repeat_the_first, who_is_turned_away_is_told_why, a_capture_is_drawn_as_its_replay,
    a_capture_that_begins_late_is_doubted, what_belongs_to_the_chosen_is_there, a_picture_holds_odd_bytes_as_text,
    a_page_holds_odd_bytes_as_data, a_summary_counts_each_answer_once, a_summary_says_what_went_wrong_and_for_whom,
    the_colours_are_told_apart, the_pictures_are_up_to_date,
)
WRONG = (
    ("DigitChanged", the_pictures_are_up_to_date), ("CommentLost", who_is_turned_away_is_told_why),
    ("CommentLost", a_summary_says_what_went_wrong_and_for_whom),
    ("DigitChanged", a_capture_is_drawn_as_its_replay),
)
