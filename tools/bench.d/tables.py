"""What comes of a run, as tables in Markdown."""

from measuring import median
from sustained import KINDS, best


def names(figures, with_echo=False):
    return [it.name for it in figures.subjects if with_echo or it.name != "echo"]


def middle(figures, row, name, field):
    return median([getattr(it, field) for it in figures.of(row, name)])


def range_of(values, form):
    """The median of some values, with the least and the greatest."""
    return f"{median(values):{form}} ({min(values):{form}} to {max(values):{form}})" if values else ""


def of_periods(offers):
    """The subjects and periods of what was offered, in the order of the tables: a subject's shorter period first."""
    found = sorted({(it.subject, it.seconds) for it in offers}, key=lambda it: it[1])
    order = list(dict.fromkeys(it.subject for it in offers))
    return sorted(found, key=lambda it: order.index(it[0]))


def period(seconds):
    """A period in words."""
    return {60: "a minute", 600: "ten minutes"}.get(seconds, f"{seconds} s")


def sustained_cell(offers):
    """The greatest rate that was answered, and the least that wasn't."""
    if not offers:
        return ""
    top, failed = best(offers)
    if top is None:
        return f"below {failed:,}"
    return f"{top:,}, not {failed:,}" if failed else f"{top:,}, no more tried"


def sustained(offers):
    """A table of the rates that are answered."""
    lines = ["| Requests a second that are answered | " + " | ".join(it.name for it in KINDS) + " |"]
    lines.append("|---|" + "---:|" * len(KINDS))
    for subject, seconds in of_periods(offers):
        some = [it for it in offers if (it.subject, it.seconds) == (subject, seconds)]
        cells = [sustained_cell([it for it in some if it.kind == kind]) for kind in KINDS]
        lines.append(f"| {subject}, for {period(seconds)} | " + " | ".join(cells) + " |")
    return lines


def costs(figures, rows):
    """A table of the CPU time of a request."""
    shown = names(figures, True)
    lines = ["| CPU time of a request, µs | " + " | ".join(shown) + " |", "|---|" + "---:|" * len(shown)]
    for row in rows:
        cells = [range_of([it.cpu for it in figures.of(row, name)], ".1f") for name in shown]
        lines.append(f"| {row.name}{'' if figures.is_steady(row) else ' *'} | " + " | ".join(cells) + " |")
    if not all(figures.is_steady(it) for it in rows):
        lines += ["", "In rows with a * the echo's own differed by more than half: none is in the picture."]
    return lines


def rates(figures, rows):
    """A table of requests a second in a burst: the echo's, and the others' as ratios to it."""
    lines = ["| Requests a second, in a burst | echo | " + " | ".join(names(figures)) + " |"]
    lines.append("|---|---:|" + "---:|" * len(names(figures)))
    for row in rows:
        cells = [range_of(figures.ratios(row, it, "rate"), ".2f") for it in names(figures)]
        echo = range_of([it.rate for it in figures.of(row, "echo")], ",.0f")
        lines.append(f"| {row.name} | {echo} | " + " | ".join(cells) + " |")
    return lines


def details(figures, rows):
    """A table of times, memory and lost answers."""
    shown = names(figures, True)
    lines = ["| p50 / p99 in µs; resident MB; lost | " + " | ".join(shown) + " |", "|---|" + "---:|" * len(shown)]
    for row in rows:
        cells = []
        for name in shown:
            some = figures.of(row, name)
            if not some:
                cells.append("")
                continue
            lost, wrong = sum(it.lost for it in some), sum(it.wrong for it in some)
            cell = f"{middle(figures, row, name, 'p50'):,.0f} / {middle(figures, row, name, 'p99'):,.0f}"
            cell += f"; {middle(figures, row, name, 'resident') / 1024:.1f}; {lost}"
            cells.append(cell + (f", **{wrong} wrong**" if wrong else ""))
        lines.append(f"| {row.name} | " + " | ".join(cells) + " |")
    return lines


def markdown(figures, rows, offers, head):
    """A run as Markdown: what is sustained first, since that is what one can have."""
    found = [[head + "."]] + ([sustained(offers)] if offers else [])
    found += [it(figures, rows) for it in (costs, rates, details)] if rows else []
    return "\n\n".join("\n".join(it) for it in found)
