"""A page of a run's counts."""

from drawing import charts, colours, words
from drawing.lines import element, escaped
from drawing.parts import filled, part
from reading.counting import TABLES
from reading.endpoints import short_endpoint

# How many rows a table has, and how many clients one of its cells names.
ROWS, SOME = 15, 3


def figure(value, name):
    """A number that stands out."""
    return element("div", element("b", escaped(value)) + element("span", escaped(name)), class_="figure")


def figures(counts):
    """The numbers at the front."""
    total = counts.total
    turned = total.sorts["error"]
    return element(
        "div",
        "".join(
            (
                figure(f"{total.requests:,}", "requests"),
                figure(f"{total.share():.0%}", "answered from the cache"),
                figure(f"{total.sorts['validation']:,}", "validated"),
                figure(f"{turned:,}", "errors and refusals"),
                figure(f"{counts.given_up:,}", "given up"),
                figure(f"{counts.again:,}", "sent again"),
                figure(f"{counts.came:,}", "datagrams came"),
                figure(f"{counts.sent:,}", "were sent"),
            )
        ),
        class_="figures",
    )


def table(caption, heads, rows):
    """A table. The cells of a row are HTML; those behind the first one stand at the right, but for a last one."""
    top = element("thead", element("tr", "".join(element("th", escaped(head), scope="col") for head in heads)))
    body = "".join(
        element("tr", element("th", row[0], scope="row") + "".join(f"<td>{cell}</td>" for cell in row[1:]))
        for row in rows
    )
    inside = element("caption", escaped(caption)) + top + element("tbody", body)
    return element("div", element("table", inside), class_="wide")


def most_of(peers, key):
    """The first of what had most."""
    return sorted(peers.items(), key=lambda it: (-key(it[1]), it[0]))[:ROWS]


def answered_rows(peers, name_of):
    """Rows of requests and answers."""
    chosen = most_of(peers, lambda it: it.requests)
    most = max((sum(it.sorts.values()) for _, it in chosen), default=0)
    for name, it in chosen:
        bar = charts.share_bar(it.sorts, most)
        yield escaped(name_of(name)), f"{it.requests:,}", f"{it.share():.0%}", f"{it.sorts['error']:,}", bar


def talker_rows(clients, name_of):
    """Rows of who sends most."""
    for name, it in most_of(clients, lambda it: it.datagrams):
        yield escaped(name_of(name)), f"{it.datagrams:,}", f"{it.bytes:,}", f"{it.again:,}", f"{it.requests:,}"


def clients_text(clients, name_of):
    """Who it happened to: the first few by name, with how often, and how many more."""
    first = sorted(clients.items(), key=lambda it: (-it[1], it[0]))[:SOME]
    more = f" and {len(clients) - SOME:,} more" if len(clients) > SOME else ""
    return ", ".join(f"{name_of(name)} ({count:,})" for name, count in first) + more


def trouble_rows(troubles, since, name_of):
    """Rows of what went wrong, what did most often first."""
    for name, it in most_of(troubles, lambda it: it.count()):
        times = (words.time_text(moment, since) for moment in (it.first, it.last))
        yield escaped(name), f"{it.count():,}", *times, escaped(clients_text(it.clients, name_of))


def origin_rows(origins, since, name_of):
    """Rows of what was asked of origins."""
    for name, it in origins:
        times = sorted(it.times)
        middle, most = (words.seconds_text(charts.quantile(times, share)) if times else "" for share in (0.5, 0.9))
        yield (
            escaped(name_of(name)),
            f"{it.requests:,}",
            f"{it.again:,}",
            f"{it.given_up:,}",
            f"{it.sorts['error']:,}",
            middle,
            most,
            "never" if it.heard is None else words.time_text(it.heard, since),
        )


def section(name, *content):
    """A part of the page."""
    return element("section", element("h2", escaped(name)) + "".join(content))


def troubles_section(counts, since, name_of):
    """What went wrong, if something did: why, how often, when, and to whom."""
    if not counts.troubles:
        return ""
    heads = ("what, and why", "times", "first", "last", "clients")
    return section("What went wrong", table("What did most often", heads, trouble_rows(counts.troubles, since, name_of)))


def card(name, chart):
    """A chart beside others."""
    return element("div", element("h3", escaped(name.replace("_", " "))) + chart, class_="card")


def body(counts, limits, since, name_of):
    """The page between its head and its end. The worst origins come first."""
    worst = lambda it: (-it[1].given_up, -charts.quantile(sorted(it[1].times) or [0], 0.9), it[0])
    origins = sorted(counts.origins.items(), key=worst)[:ROWS]
    named = [(name_of(name), it) for name, it in origins]
    heads = ("requests", "from the cache", "errors", "answers")
    fill = "".join(card(name, charts.table_over_time(counts, since, name, limits[name])) for name in TABLES)
    return "".join(
        (
            figures(counts),
            section("Hit rate over time", charts.hit_rate(counts, since)),
            section("Answers a second", charts.legend(colours.SORTS), charts.answers_over_time(counts, since)),
            troubles_section(counts, since, name_of),
            section(
                "By target", table("What is asked for most", ("target", *heads), answered_rows(counts.targets, str))
            ),
            section("By client", table("Who asks most", ("client", *heads), answered_rows(counts.clients, name_of))),
            section(
                "Answer times of origins",
                charts.answer_times(named),
                table(
                    "The worst first",
                    ("origin", "ended", "sent again", "given up", "errors", "half within", "nine in ten", "last heard"),
                    origin_rows(origins, since, name_of),
                ),
            ),
            section("Tables against their limits", element("div", fill, class_="cards")),
            section(
                "Top talkers",
                table(
                    "Who sends most",
                    ("client", "datagrams", "bytes", "again", "requests"),
                    talker_rows(counts.clients, name_of),
                ),
            ),
        )
    )


def subtitle(counts, since, remark):
    """When the run was, and how long."""
    length = words.seconds_text((counts.last or 0) - (counts.first or 0))
    day = words.date_text(since)
    parts = [
        f"{day}, times in UTC" if day else "times in seconds",
        f"{counts.came + counts.sent:,} datagrams in {length}",
        remark,
    ]
    return "; ".join(it for it in parts if it)


def summary(counts, limits, since, names, title, remark=""):
    """A run's counts as HTML."""
    style = colours.style() + part("marks.css") + part("summary.css")
    texts = {"TITLE": title or "What a run of the proxy came to", "SUBTITLE": subtitle(counts, since, remark)}
    inside = body(counts, limits, since, lambda name: names.get(name) or short_endpoint(name))
    return filled("summary.html", style, "", texts, {"BODY": inside})
