"""What the tests of tools/ladder share: runs, their rows and ladders, and what peers may choose."""

import os

from drawing.ladder import Ladder
from reading import runs
from reading.choosing import Choice, chosen_rows
from reading.counting import counts_of
from reading.messages import shown_text
from testing.coap import GET, NON, URI_PATH, URI_QUERY, message
from testing.network import expect
from testing.steps import T

TOP = os.path.dirname(os.path.dirname(os.path.dirname(os.path.abspath(__file__))))
LADDER, WATCH = (os.path.join(TOP, "tools", name) for name in ("ladder", "watch"))
SLEEPING = os.path.join(TOP, "examples", "sleeping.events")
PICTURES, WORKED = os.path.join(TOP, "docs", "pictures"), os.path.join(TOP, "crates", "worked_runs", "data")
MAP = ("--map", "/t=coap://127.0.0.1:5690/temp")
# What a peer may choose, and what stands in a page and a picture in its place.
ODD = (
    (b"</script><script>odd()</script>", "</script><script>odd()</script>"),
    (b"<b onclick=x>", "<b onclick=x>"),
    (b"a&amp;b&lt;", "a&amp;b&lt;"),
    (b"\"'`", "\\\"'`"),
    (b"\\", "\\\\"),
    (b"]]>-->", "]]>-->"),
    (b"\x00\x07\x1b[31m\x7f", "\\u{0000}\\u{0007}\\u{001b}[31m\\u{007f}"),
    (b"a\nb\r\tc", "a\\u{000a}b\\u{000d}\\u{0009}c"),
    (b"\xff\xc3(\xed\xa0\x80", "\\xff\\xc3(\\xed\\xa0\\x80"),
    ("\u202eabc\u2066\u200f".encode(), "\\u{202e}abc\\u{2066}\\u{200f}"),
    ("\u05e9\u05dc".encode(), "\u2068\u05e9\u05dc\u2069"),
    (("e" + "\u0301" * 4).encode(), "e\u0301\u0301\\u{0301}\\u{0301}"),
    ("\ufeff\u2028\ue000".encode(), "\\u{feff}\\u{2028}\\u{e000}"),
    ("gr\u00fcn \u6e29\u5ea6".encode(), "gr\u00fcn \u6e29\u5ea6"),
)


def rows_of(program, path, given=(), choice=None):
    """The rows of a run, and its ladder."""
    with runs.open_run(path, given, program) as run:
        rows, origins = chosen_rows(run.seen(), choice or Choice(), 10_000)
        expect("how the replay ended", "", run.fault)
        return rows, Ladder(rows, origins, run.names, run.title, run.since)


def written(folder, lines, name="run.events"):
    """A file with lines of events."""
    path = os.path.join(folder, name)
    with open(path, "w", encoding="utf-8", errors="surrogateescape") as file:
        file.writelines(f"{line}\n" for line in lines)
    return path


def odd_run(folder):
    """A run whose requests have what a peer may choose: in a path, a query, a payload, an unknown option, a token."""
    lines = [f"# words: --replay {' '.join(MAP)}"]
    for place, (value, _) in enumerate(ODD):
        client = f"127.0.0.1:{40_001 + place}"
        request = message(NON, GET, place, value[:8], [T, (URI_PATH, value), (URI_QUERY, value), (300, value)], value)
        lines.append(f"{place} 0 {client} {request.hex().upper()}")
        lines.append(f"{place} 0 tick")
    return written(folder, lines)


def odd_names(ladder):
    """Names for the clients of that run, which are as odd."""
    values = (value.decode("utf-8", "surrogateescape") for value, _ in ODD)
    return {peer: shown_text(value) for peer, value in zip(ladder.clients, values)}


def counts_of_file(program, path):
    """The counts of a run."""
    with runs.open_run(path, (), program) as run:
        return counts_of(run.seen(), Choice())


def limits():
    """The limits of a proxy without a configuration."""
    return runs.limits_of([])
