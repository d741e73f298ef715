"""What comes of a run, as a picture: the CPU time of a request, and the rates that are answered for long."""

import math

from measuring import median
from sustained import KINDS, best
from tables import of_periods, period, range_of

COLORS = {"echo": "#d5dae0", "relay": "#9aa5b1", "coap-proxyd": "#1f6feb", "libcoap": "#d2872c"}
# What the several limits of this proxy look like.
OF_LIMITS = ("#1f6feb", "#5a9bf4", "#a5c8fa")
# How many requests are in flight in the rows that are drawn.
IN_FLIGHT = 16
WIDTH, LABEL, BAR, GAP, TOP, GROUP = 900, 150, 12, 3, 66, 12
# The ends of the axis of rates, as powers of ten.
LEAST, MOST = 1, 5


def text(x, y, words, size=12, anchor="start", more=""):
    words = words.replace("&", "&amp;").replace("<", "&lt;")
    return f'<text x="{x:.0f}" y="{y:.0f}" font-size="{size}" text-anchor="{anchor}"{more}>{words}</text>'


def rectangle(x, y, width, height, color):
    return f'<rect x="{x:.1f}" y="{y:.1f}" width="{max(1, width):.1f}" height="{height}" fill="{color}"/>'


def legend(colors, y):
    """What each color stands for, from left to right."""
    out, x = [], LABEL
    for name, color in colors.items():
        out += [rectangle(x, y - 10, 12, 12, color), text(x + 17, y, name)]
        x += 40 + 6.5 * len(name)
    return out


def cost_bars(figures, row, y, scale):
    """The CPU times of a row, each with its least and greatest as a line."""
    middle = y + len(figures.subjects) * (BAR + GAP) / 2
    out = [text(LABEL - 8, middle + 3, row.name.rsplit(",", 1)[0], 12, "end")]
    for subject in figures.subjects:
        values = [it.cpu for it in figures.of(row, subject.name)]
        width, ends = median(values) * scale, (LABEL + min(values) * scale, LABEL + max(values) * scale)
        middle = y + BAR / 2
        out.append(rectangle(LABEL, y, width, BAR, COLORS[subject.name]))
        out.append(f'<path d="M{ends[0]:.1f} {middle:.1f}H{ends[1]:.1f}" stroke="#222" stroke-width="1"/>')
        out.append(text(max(LABEL + width, ends[1]) + 5, y + BAR - 2, range_of(values, ".1f"), 10))
        y += BAR + GAP
    return out


def costs(figures, rows, y):
    """The panel of CPU times, of the rows whose echo was steady, and where it ends."""
    drawn = [it for it in rows if it.name.endswith(f" {IN_FLIGHT} in flight") and figures.is_steady(it)]
    if not drawn:
        return [], y
    most = max(it.cpu for row in drawn for one in figures.subjects for it in figures.of(row, one.name))
    colors = {it.name: COLORS[it.name] for it in figures.subjects}
    title = f"CPU time of a request in µs, {IN_FLIGHT} in flight; the lines reach from the least round to the greatest"
    out = [text(16, y + 20, title, 14, more=' font-weight="bold"'), *legend(colors, y + 46)]
    y += TOP
    for row in drawn:
        out += cost_bars(figures, row, y, (WIDTH - LABEL - 140) / most)
        y += len(figures.subjects) * (BAR + GAP) + GROUP
    return out, y


def place_of(rate):
    """Where a rate stands on its axis, which is logarithmic."""
    share = (math.log10(max(rate, 10**LEAST)) - LEAST) / (MOST - LEAST)
    return LABEL + min(1, share) * (WIDTH - LABEL - 110)


def rate_bar(offers, y, color):
    """A bar from what is answered for the longer period to what is answered for the shorter one."""
    longest = max(it.seconds for it in offers)
    long, more = best([it for it in offers if it.seconds == longest])
    short, _ = best([it for it in offers if it.seconds != longest])
    if long is None or short is None:
        return []
    left, right = place_of(long), place_of(short)
    words = f"{long:,}{'' if more else ' or more'} to {short:,}"
    return [rectangle(left, y, right - left, BAR, color), text(right + 5, y + BAR - 2, words, 10)]


def axis(top, bottom):
    """The lines of the rates."""
    out = []
    for power in range(LEAST, MOST + 1):
        x = place_of(10**power)
        out.append(f'<path d="M{x:.1f} {top}V{bottom}" stroke="#bbb" stroke-dasharray="2 3"/>')
        out.append(text(x, bottom + 12, f"{10**power:,}", 10, "middle"))
    return out


def rates(offers, y):
    """The panel of rates that are answered, and where it ends."""
    if not offers:
        return [], y
    subjects = list(dict.fromkeys(it[0] for it in of_periods(offers)))
    colors = {it: COLORS.get(it, OF_LIMITS[min(place, 2)]) for place, it in enumerate(subjects)}
    short, long = (period(f(it.seconds for it in offers)) for f in (min, max))
    title = f"Requests a second that are answered: for {long} (left end of a bar) and for {short} (right end)"
    out = [text(16, y + 20, title, 14, more=' font-weight="bold"'), *legend(colors, y + 46)]
    y += TOP
    top, bars = y - 6, []
    for kind in KINDS:
        of_kind = [(it, [each for each in offers if (each.subject, each.kind) == (it, kind)]) for it in subjects]
        of_kind = [it for it in of_kind if it[1]]
        bars.append(text(LABEL - 8, y + len(of_kind) * (BAR + GAP) / 2 + 3, kind.name, 12, "end"))
        for subject, some in of_kind:
            bars += rate_bar(some, y, colors[subject])
            y += BAR + GAP
        y += GROUP
    return out + axis(top, y) + bars, y + 16


def plot(figures, rows, offers, head):
    """The panels one above the other, as SVG: what is sustained first."""
    rate_panel, y = rates(offers, 0)
    cost_panel, y = costs(figures, rows, y + 8 if rate_panel else 0)
    height = y + 24
    return "\n".join([
        f'<svg xmlns="http://www.w3.org/2000/svg" viewBox="0 0 {WIDTH} {height:.0f}" font-family="sans-serif">',
        f'<rect width="{WIDTH}" height="{height:.0f}" fill="#fff"/>', *rate_panel, *cost_panel,
        text(WIDTH - 8, height - 7, head, 9, "end"), "</svg>", "",
    ])
