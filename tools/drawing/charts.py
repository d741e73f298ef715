"""Charts of a run's counts, as SVG in a page."""

import math

from drawing.lines import element, escaped, fit, line, number, sign, text, text_width, title
from drawing.words import seconds_text, time_text
from reading.counting import SORTS

# The width of a chart, and the room at its left and its right for what stands at its axes.
WIDTH, LEFT, RIGHT, TOP, BOTTOM = 1000, 56, 16, 14, 26
# The room for the names of origins, and the height of one.
LABEL, ROW = 190, 26
STEPS = (1, 2, 5, 10)
# Lengths between marks on an axis of time, in milliseconds.
TIMES = (
    100,
    200,
    500,
    1000,
    2000,
    5000,
    10_000,
    30_000,
    60_000,
    120_000,
    300_000,
    600_000,
    1_800_000,
    3_600_000,
    10_800_000,
    21_600_000,
    43_200_000,
    86_400_000,
    604_800_000,
)


def nice_step(most, count):
    """A round distance between marks, so that there are about so many up to a number."""
    power = 10 ** math.floor(math.log10(max(most, 1e-9) / count)) if most > 0 else 1
    return next((step * power for step in STEPS if step * power * count >= most), 10 * power)


def frame(name, words, content, height, width=WIDTH):
    """A chart with its name and what a reader hears of it."""
    inside = title(name) + element("desc", escaped(words)) + content
    return element(
        "svg", inside, viewBox=f"0 0 {width} {height}", class_="chart", role="img", aria_label=f"{name}. {words}"
    )


class TimeAxis:
    """The time from left to right."""

    def __init__(self, counts, since, width):
        self.start, self.since, self.width = counts.first or 0, since, width
        self.length = max(1, (counts.last or 0) - self.start)

    def x(self, moment):
        """Where a moment is."""
        return LEFT + (moment - self.start) / self.length * (self.width - LEFT - RIGHT)

    def draw(self, bottom):
        """The marks and their times."""
        most = max(2, int(self.width / 130))
        step = next((it for it in TIMES if self.length / it <= most), TIMES[-1])
        zero = self.since or 0
        first = -(-(zero + self.start) // step) * step - zero
        out = []
        for moment in range(first, self.start + self.length + 1, step):
            shown = time_text(moment, self.since) if self.since else seconds_text(moment)
            shown = shown[:-4] if self.since and step >= 1000 else shown
            out.append(line(self.x(moment), bottom, self.x(moment), bottom + 4, class_="axis"))
            out.append(text(self.x(moment), bottom + 17, shown, class_="small", text_anchor="middle"))
        return "".join(out)


def grid(most, bottom, shown, width, count=4):
    """Lines across at round values up to a greatest one, with what stands at them. Returns them and the scale."""
    step = nice_step(most, count)
    top = max(step, math.ceil(most / step - 1e-9) * step)
    scale, out, value = (bottom - TOP) / top, [], 0
    while value <= top + step / 1000:
        y = bottom - value * scale
        out.append(line(LEFT, y, width - RIGHT, y, class_="grid" if value else "axis"))
        out.append(text(LEFT - 8, y + 4, shown(value), class_="small", text_anchor="end"))
        value += step
    return "".join(out), scale


def rate_text(value):
    """A number at an axis."""
    return f"{value:,.0f}" if value >= 10 or value == int(value) else f"{value:.2g}"


def hit_rate(counts, since):
    """Which part of all answers came from the cache, over time."""
    height, axis, answers = 150, TimeAxis(counts, since, WIDTH), counts.answers
    bottom, points, before = height - BOTTOM, [], False
    lines, scale = grid(1, bottom, lambda value: f"{value:.0%}", WIDTH)
    for place, values in enumerate(answers.values):
        if not sum(values):
            before = False
            continue
        x, y = axis.x(answers.start + (place + 0.5) * answers.length), bottom - values[0] / sum(values) * scale
        points.append(f"{'L' if before else 'M'}{number(min(x, WIDTH - RIGHT))} {number(y)}")
        before = True
    dots = [f"M{point[1:]}h0" for point in points]
    content = lines + axis.draw(bottom) + element("path", d="".join(points), class_="hit curve")
    content += element("path", d="".join(dots), class_="hit dots")
    words = f"{counts.total.share():.0%} of all answers came from the cache."
    return frame("Hit rate over time", words, content, height)


def answers_over_time(counts, since):
    """How many answers of each sort there were a second."""
    height, axis, answers = 220, TimeAxis(counts, since, WIDTH), counts.answers
    bottom, seconds = height - BOTTOM, answers.length / 1000
    most = max((sum(values) for values in answers.values), default=0) / seconds
    lines, scale = grid(most, bottom, rate_text, WIDTH)
    out = []
    for place, values in enumerate(answers.values):
        start = answers.start + place * answers.length
        left, right = axis.x(start), min(axis.x(start + answers.length), WIDTH - RIGHT)
        y = bottom
        told = [f"{count} {sort}" for sort, count in zip(SORTS, values) if count]
        bars = ""
        for sort, count in zip(SORTS, values):
            high = count / seconds * scale
            y -= high
            if count:
                bars += element(
                    "rect", x=left + 0.5, y=y, width=max(0.5, right - left - 1), height=high, class_=sort + " bar"
                )
        if told:
            out.append(element("g", title(f"{time_text(start, since)}: {', '.join(told)}") + bars))
    words = f"At most {rate_text(most)} answers a second."
    return frame("Answers a second", words, lines + "".join(out) + axis.draw(bottom), height)


def table_over_time(counts, since, name, limit, width=490):
    """How full a table was, beside its limit."""
    height, axis, fill = 150, TimeAxis(counts, since, width), counts.tables.fills[name]
    bottom, near = height - BOTTOM, limit and fill.most >= limit / 4
    lines, scale = grid(max(1, limit if near else fill.most * 1.1), bottom, rate_text, width, 3)
    points = [f"M{LEFT} {number(bottom)}"]
    for place, value in enumerate(fill.values):
        y = bottom - value * scale
        start, end = (axis.x(fill.start + (place + more) * fill.length) for more in (0, 1))
        points.append(f"L{number(start)} {number(y)}H{number(min(end, width - RIGHT))}")
    shape = "".join(points) + f"V{number(bottom)}z"
    content = lines + element("path", d=shape, class_="miss area") + axis.draw(bottom)
    if near:
        y = bottom - limit * scale
        content += line(LEFT, y, width - RIGHT, y, class_="limit")
        content += text(width - RIGHT, y + 14, f"limit {limit:,}", class_="small lost", text_anchor="end")
    return frame(name.replace("_", " "), f"At most {fill.most:,} of {limit:,}.", content, height, width)


def quantile(values, share):
    """The value below which a share of sorted values is."""
    return values[min(len(values) - 1, int(len(values) * share))]


def origin_times(name, times, x, y):
    """The answer times of an origin in a row: from a tenth to nine tenths of them, their middle, and the longest."""
    p10, p50, p90 = (quantile(times, share) for share in (0.1, 0.5, 0.9))
    longest = seconds_text(times[-1])
    told = f"{name}: half within {seconds_text(p50)}, nine in ten within {seconds_text(p90)}, the longest {longest}"
    shape = element("rect", x=x(p10), y=y - 5, width=max(2, x(p90) - x(p10)), height=10, rx=5, class_="miss range")
    shape += line(x(p90), y, x(times[-1]), y, class_="miss whisker") + sign(x(p50), y, "hit")
    out = text(LABEL - 12, y + 4, fit(name, LABEL - 20, 13), text_anchor="end")
    out += element("g", title(told) + shape, class_="miss")
    return out + text(x(times[-1]) + 9, y + 4, longest, class_="small")


def answer_times(origins):
    """The answer times of origins, on a scale on which each mark is ten times the one before."""
    named = [(name, sorted(it.times)) for name, it in origins if it.times]
    height = TOP + ROW * len(named) + BOTTOM
    bottom, high = height - BOTTOM, math.log10(max([10] + [times[-1] for _, times in named]) * 1.3)
    x = lambda value: LABEL + math.log10(max(1, value)) / high * (WIDTH - LABEL - 90)
    out = []
    for power in range(0, int(high) + 1):
        out.append(line(x(10**power), TOP, x(10**power), bottom, class_="grid"))
        out.append(text(x(10**power), bottom + 17, seconds_text(10**power), class_="small", text_anchor="middle"))
    for place, (name, times) in enumerate(named):
        out.append(origin_times(name, times, x, TOP + ROW * (place + 0.5)))
    words = "For each origin the time from a request to its answer: the middle, and from a tenth to nine tenths."
    return frame("Answer times of origins", words, "".join(out), height)


def share_bar(sorts, most, width=150):
    """A bar of answers by sort, as long as their number."""
    total, x, out = sum(sorts.values()), 0, ""
    for sort in SORTS:
        part = sorts[sort] / max(1, most) * width
        if sorts[sort]:
            out += element("rect", x=x, y=2, width=max(1, part), height=10, class_=sort + " bar")
        x += part
    words = ", ".join(f"{count} {sort}" for sort, count in sorts.items() if count) or "no answers"
    inside = title(words) + out
    return element(
        "svg", inside, viewBox=f"0 0 {width} 14", width=width, height=14, role="img", aria_label=f"{total}: {words}"
    )


def legend(sorts):
    """What the shapes and colours of sorts mean."""
    x, out = 8, ""
    for sort, meaning in sorts:
        out += element("g", sign(x, 10, sort) + text(x + 12, 14, meaning, class_="small"), class_=sort)
        x += text_width(meaning, 11.5) + 40
    return element("svg", out, viewBox=f"0 0 {number(x)} 20", width=x, height=20, class_="legend")
