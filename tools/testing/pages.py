"""The pages of tools/ladder in a browser, where chromium is installed: what is seen, pointed at, clicked and typed."""

import os
import subprocess
import sys
import tempfile

from drawing import page
from drawing.picture import picture
from drawing.summary import summary
from testing.browser import Browser
from testing.coap import ACK, CON, CONTENT, GET, MAX_AGE, NON, message
from testing.drawn import LADDER, ODD, PICTURES, SLEEPING, counts_of_file, limits, odd_names, odd_run, rows_of, written
from testing.network import expect, expect_between, expect_in
from testing.steps import T

# In how many seconds a page of so many datagrams opens.
SECONDS, MANY = 2, 50_000
# The places of the rows that are lit, and how many are shown.
LIT, SHOWN = "[...state.lit].sort((one, other) => one - other)", "view.shown.length"


class Opened:
    """A page in a browser, to be used in a `with`."""

    def __init__(self, text, name="page.html", width=1280, height=900):
        self.text, self.name, self.browser = text, name, Browser(width, height)
        self.folder = tempfile.TemporaryDirectory(prefix="coap-proxyd-test-")

    def __enter__(self):
        path = os.path.join(self.folder.name, self.name)
        with open(path, "w", encoding="utf-8") as file:
            file.write(self.text)
        self.browser.__enter__()
        self.browser.seconds = self.browser.open(path)
        return self.browser

    def __exit__(self, *why):
        faults, requests = self.browser.faults(), self.browser.requests()
        self.browser.__exit__(*why)
        self.folder.cleanup()
        if why[0] is None:
            expect("what the page threw or its policy refused", [], faults)
            expect("what it asked the network for", [], requests)


def sleeping_page(program):
    """The page of the valve that sleeps."""
    return page.page(rows_of(program, SLEEPING)[1])


def row_at(browser, place):
    """Where a row is seen."""
    return browser.middle(f"#row-{place}")


def panel(browser, name="datagram"):
    """The text of a panel."""
    return browser.evaluate(f"document.getElementById('{name}').innerText")


def a_pointer_shows_and_lights(program):
    with Opened(sleeping_page(program)) as browser:
        browser.point(*row_at(browser, 3))
        shown = panel(browser)
        for part in (
            "valve, 192.0.2.50:5683 → proxy",
            "2.290 s",
            "2.05 Content",
            "0x0001 (1)",
            "Max-Age\n60",
            '"21 C"',
            "21 bytes",
            "answered 2.05 kept",
            "coap://192.0.2.50/goal",
            "0000  68 45 00 01 00 00 00 00",
        ):
            expect_in("what is shown", part, shown)
        browser.click("#row-2")
        expect("what belongs to what is sent again", [0, 1, 2, 3, 4], browser.evaluate(LIT))
        browser.click("#row-5")
        expect("what belongs to a hit", [3, 5, 6], browser.evaluate(LIT))
        expect_in("where it is from", "at 2.290", panel(browser))
        browser.click("#row-9")
        expect("what belongs to a validation", [9, 10, 11, 12], browser.evaluate(LIT))
        expect("what is lit", 4, browser.evaluate("document.querySelectorAll('.shade').length"))
        told = browser.evaluate("document.getElementById('said').textContent")
        expect_in("what a screen reader is told", "phone to the proxy", told)


def keys_do_all_that_a_pointer_does(program):
    with Opened(sleeping_page(program)) as browser:
        browser.evaluate("ladder.focus()")
        seen = []
        for name in ("Home", "ArrowDown", "ArrowDown", "ArrowUp", "End", "PageUp", "k", "j"):
            browser.key(name, name if len(name) == 1 else None)
            seen.append(browser.evaluate("state.on"))
        expect("the chosen rows", [0, 1, 2, 1, 20, 10, 9, 10], seen)
        expect("whose it is", "row-10", browser.evaluate("ladder.getAttribute('aria-activedescendant')"))
        browser.key("Enter")
        expect("what is lit", [9, 10, 11, 12], browser.evaluate(LIT))
        browser.key("]", "]")
        expect("the next of what is lit", 11, browser.evaluate("state.on"))
        before = browser.evaluate("view.height")
        browser.key("s", "s")
        expect(
            "whether time is to scale",
            True,
            browser.evaluate("view.scaled && view.cuts.length === 0") and before != browser.evaluate("view.height"),
        )
        browser.key("s", "s")
        browser.key("/", "/")
        for character in "2.04":
            browser.key(character, character)
        expect("what is found", "2 found", browser.evaluate("document.getElementById('found').textContent"))
        browser.key("Enter", "\r")
        expect("the first that is found", 15, browser.evaluate("state.on"))
        browser.key("Escape")
        browser.key("Escape")
        expect("what is lit at last", [], browser.evaluate(LIT))
        browser.key("?", "?")
        expect("whether keys are told", True, browser.evaluate("document.getElementById('keys').open"))


def a_search_shows_only_what_belongs(program):
    with Opened(sleeping_page(program)) as browser:
        for text, found, belonging in (
            ("phone hit", 1, 3),
            ("display", 6, 11),
            ("put /goal", 2, 4),
            ("0xcd", 2, 4),
            ("nothing", 0, 0),
        ):
            browser.evaluate(
                f"document.getElementById('words').value = '{text}';"
                "document.getElementById('only').checked = true; look()"
            )
            expect(f"what is found of {text}", found, browser.evaluate("search.places.length"))
            expect(f"what is shown of {text}", belonging, browser.evaluate(SHOWN))
        browser.click("#only")
        expect("what is shown of all", 21, browser.evaluate(SHOWN))
        browser.click("#sorts button")
        expect("what is shown without hits", 17, browser.evaluate(SHOWN))


def what_went_wrong_is_found_by_a_click(program):
    _, ladder = rows_of(program, os.path.join(PICTURES, "trying-incident.events"))
    with Opened(page.page(ladder)) as browser:
        told = panel(browser, "troubles")
        for part in ("5.03 Service Unavailable 127.0.0.1:40001", "overloaded 5.03 exchanges 2/2"):
            expect_in("what is told", part, told)
        expect(
            "the worst kind",
            "5.03 Service Unavailable 1",
            browser.evaluate("document.querySelector('.kinds button').textContent"),
        )
        browser.click(".kinds button")
        expect("how many of a kind", 1, browser.evaluate("document.querySelectorAll('#troubles li').length"))
        browser.click("#troubles li button")
        lit = browser.evaluate(f"{LIT}.map(place => laneOf(place)[0])")
        expect("whose rows are lit", ["127.0.0.1:40001"] * 2, lit)
        browser.click("#datagram button.only")
        expect("what is shown of all", 2, browser.evaluate(SHOWN))
        browser.click("#datagram button.only")
        browser.evaluate("document.getElementById('words').value = '40007', look()")
        browser.click(".kinds button")
        expect("what went wrong for another client", 1, browser.evaluate("troubles.groups.length"))
        told = panel(browser, "troubles")
        for part in ("no answer 127.0.0.1:40007 × 2", "2 targets · opened"):
            expect_in("how often", part, told)


def a_long_run(folder):
    """A run of 50,000 datagrams: one answer, and hits of it by many clients."""
    limits_given = ("con_records = 65536", "client_con_records = 65536", "waiters = 16384")
    lines = ["# words: --replay --map /t=coap://127.0.0.1:5690/temp", "# config: version = 2", "# config: [limits]"]
    lines += [f"# config: {limit}" for limit in limits_given]
    lines += [f"0 0 127.0.0.1:40000 {message(NON, GET, 0, b'', [T]).hex().upper()}", "0 0 tick"]
    answer = message(ACK, CONTENT, 1, (1).to_bytes(8, "big"), [(MAX_AGE, b"\xff\xff")], b"21.5")
    lines += [f"1 0 127.0.0.1:5690 {answer.hex().upper()}", "1 0 tick"]
    for number in range(MANY // 2 - 2):
        request = message(CON, GET, number // 400 + 1, b"\x01\x02", [T])
        lines.append(f"{number * 4 + 2} 0 127.0.0.1:{40_001 + number % 400} {request.hex().upper()}")
    return written(folder, lines)


def a_long_page_opens_at_once(program):
    with tempfile.TemporaryDirectory(prefix="coap-proxyd-test-") as folder:
        path, out = a_long_run(folder), os.path.join(folder, "long.html")
        words = [sys.executable, LADDER, "--program", program[0], path]
        with open(out, "wb") as file:
            expect("the status", 0, subprocess.run(words, stdout=file, timeout=60).returncode)
        with Browser() as browser:
            expect_between("seconds until it is drawn", 0, SECONDS, browser.open(out))
            expect("how many datagrams there are", MANY, browser.evaluate("rows.length"))
            expect_between(
                "how many elements are drawn",
                100,
                2_000,
                browser.evaluate("document.querySelectorAll('#sheet *').length"),
            )
            browser.evaluate("choose(40000, true)")
            expect(
                "whether a late row is drawn", True, browser.evaluate("document.getElementById('row-40000') !== null")
            )
            expect("faults", [], browser.faults())


def odd_bytes_stay_text_in_a_browser(program):
    with tempfile.TemporaryDirectory(prefix="coap-proxyd-test-") as folder:
        _, ladder = rows_of(program, odd_run(folder))
        counts = counts_of_file(program, odd_run(folder))
    ladder.names = odd_names(ladder)
    ladder.title = ODD[0][1]
    with Opened(page.page(ladder)) as browser:
        known = browser.evaluate(
            "[...new Set([...document.querySelectorAll('body *')].map(it => it.localName))].sort().join(' ')"
        )
        for place, (value, wanted) in enumerate(ODD):
            browser.evaluate(f"lightUp(rows.findIndex(row => row[REQUEST] === {place + 1}))")
            expect(f"whether {value!r} is told", True, f'Uri-Path\n"{wanted}"' in panel(browser))
        later = browser.evaluate(
            "[...new Set([...document.querySelectorAll('body *')].map(it => it.localName))].sort().join(' ')"
        )
        expect("elements that came", {"br", "h3", "pre"}, set(later.split()) - set(known.split()))
        expect(
            "elements in what is drawn",
            0,
            browser.evaluate("document.querySelectorAll('#sheet script, #sheet b, aside script, h1 *').length"),
        )
        expect("the title", ODD[0][1], browser.evaluate("document.title"))
    with Opened(summary(counts, limits(), None, ladder.names, ladder.title)) as browser:
        expect("scripts", 0, browser.evaluate("document.scripts.length"))
        expect_in("a target, as text", "%3C%2Fscript%3E", browser.evaluate("document.body.innerText"))


def pages_fit_a_phone_and_follow_light_and_dark(program):
    counts = counts_of_file(program, SLEEPING)
    for text in (sleeping_page(program), summary(counts, limits(), None, {}, "A run")):
        with Opened(text) as browser:
            grounds = []
            for scheme in ("light", "dark"):
                browser.media(scheme)
                grounds.append(browser.evaluate("getComputedStyle(document.documentElement).backgroundColor"))
            expect("the grounds", ["rgb(255, 255, 255)", "rgb(17, 22, 29)"], grounds)
            for width in (1920, 1024, 768, 390, 320):
                browser.resize(width, 844, width < 700)
                browser.evaluate("new Promise(done => requestAnimationFrame(() => setTimeout(done)))")
                wide = browser.evaluate("document.documentElement.scrollWidth")
                expect(f"how wide it is at {width}", width, max(wide, width))


def a_picture_has_text_and_names(program):
    with Opened(picture(rows_of(program, SLEEPING)[1]), "ladder.svg") as browser:
        expect(
            "the title",
            "A valve that sleeps: what reaches it, and what the proxy answers",
            browser.evaluate("document.querySelector('title').textContent"),
        )
        expect(
            "the description",
            "A ladder of 2 clients, the proxy and 1 origin; 6 requests: 2 from the cache, 2 asked of an origin, "
            "2 validated.",
            browser.evaluate("document.querySelector('desc').textContent"),
        )
        browser.evaluate("getSelection().selectAllChildren(document.documentElement)")
        expect_in("the text that can be selected", "ACK [0x7d34] 2.05 Content", browser.evaluate("getSelection().toString()"))
        expect(
            "a row",
            "20.000 s: phone to the proxy: CON [0x7d34] GET /goal; Token 0x71; hit, 42 s left",
            browser.evaluate("document.querySelector('g.hit title').textContent"),
        )
        wide = (
            "[...document.querySelectorAll('text')].map(it => it.getBBox())"
            ".filter(box => box.x < 0 || box.x + box.width > innerWidth).length"
        )
        browser.resize(1100, 1400)
        expect("texts that stand out", 0, browser.evaluate(wide))


CASES = (
    a_pointer_shows_and_lights,
    keys_do_all_that_a_pointer_does,
    a_search_shows_only_what_belongs,
    what_went_wrong_is_found_by_a_click,
    a_long_page_opens_at_once,
    odd_bytes_stay_text_in_a_browser,
    pages_fit_a_phone_and_follow_light_and_dark,
    a_picture_has_text_and_names,
)
