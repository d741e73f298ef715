"""What a terminal shows of a running proxy's counts: lines of text, each with a style, at most so many columns wide."""

import time

from drawing.words import seconds_text
from drawing.worst import ANSWERED, is_turned, worst_maps, worst_origins
from reading.endpoints import short_endpoint

# The styles of lines, which a terminal shows as it can.
PLAIN, STRONG, GOOD, BAD, SOFT = "plain", "strong", "good", "bad", "soft"
FULL, EMPTY, PARTS = "█", "░", " ▏▎▍▌▋▊▉"
# From which part of its limit on a table is near to it.
NEAR = 0.8


def bar(share, width, plain=False):
    """A bar that is full to some part of its width."""
    share = min(1, max(0, share))
    if plain:
        return "#" * round(share * width) + "-" * (width - round(share * width))
    eighths = round(share * width * 8)
    out = FULL * (eighths // 8) + (PARTS[eighths % 8] if eighths % 8 else "")
    return out + EMPTY * (width - len(out))


def rate(value):
    """A number a second."""
    if value >= 1000:
        return f"{value:,.0f}"
    return f"{value:.1f}" if value >= 0.1 else f"{value:.2f}" if value >= 0.005 else "0"


def share_text(part, whole):
    """A part in per cent."""
    return f"{part / whole:4.0%}" if whole else "   -"


class Frame:
    """The lines for the counts of two moments. Rates are of the time between them, totals of the later one."""

    def __init__(self, now, before=None, width=80, plain=False):
        self.now, self.before, self.width, self.plain, self.lines = now, before, width, plain, []
        later, earlier = now.greatest("uptime_seconds"), before.greatest("uptime_seconds") if before else 0
        self.seconds = max(1, later - earlier) if later >= earlier else max(1, later)
        self.restarted = before is not None and later < earlier

    def put(self, text, style=PLAIN):
        """Adds a line."""
        self.lines.append((text[: self.width], style))

    def since(self, value, earlier):
        """A rate from a number now and at the moment before."""
        return max(0, value - (0 if self.restarted else earlier)) / self.seconds

    def rates(self, name, label):
        """The rates of a metric by a label."""
        before = self.before.by(name, label) if self.before else {}
        return {key: self.since(value, before.get(key, 0)) for key, value in self.now.by(name, label).items()}

    def rate_of(self, name):
        """The rate of a metric."""
        return self.since(self.now.total(name), self.before.total(name) if self.before else 0)

    def head(self, age):
        """How long the proxy has run, and how old the file is."""
        up = seconds_text(int(self.now.greatest("uptime_seconds")) * 1000)
        instances = {it.labels["listen"] for it in self.now.samples if "listen" in it.labels}
        several = f", {len(instances)} instances" if len(instances) > 1 else ""
        old = age > 3 * self.seconds + 5
        left = f"coap-proxyd, up {up}{several}"
        right = f"file {seconds_text(int(age) * 1000)} old{': is it running?' if old else ''}"
        self.put(left + " " * max(1, self.width - len(left) - len(right)) + right, BAD if old else STRONG)
        rates = "of all its time" if not self.before else f"of the last {seconds_text(int(self.seconds) * 1000)}"
        self.put(f"rates a second, {rates}; q ends, up and down scroll", SOFT)

    def requests(self):
        """Requests by outcome, and how many come from the cache."""
        totals, rates = self.now.by("requests_total", "outcome"), self.rates("requests_total", "outcome")
        used = rates if any(rates.get(name) for name in ANSWERED) else totals
        hits, whole = used.get("hit", 0), sum(used.get(name, 0) for name in ANSWERED)
        share = bar(hits / whole if whole else 0, self.width - 20, self.plain)
        self.put("")
        self.put(f"hit rate  {share_text(hits, whole)}  {share}", STRONG)
        self.put("")
        names = [name for name, total in totals.items() if total or name in ANSWERED]
        half = (len(names) + 1) // 2
        for place in range(half):
            pair = names[place::half]
            cells = (f"{name.replace('_', ' '):<15}{rate(rates[name]):>8}/s{totals[name]:>13,.0f}" for name in pair)
            self.put("  ".join(cells), BAD if any(is_turned(name) and rates[name] for name in pair) else PLAIN)

    def traffic(self):
        """Datagrams, and what goes wrong with them."""
        names = (
            ("datagrams_received_total", "came"),
            ("datagrams_sent_total", "sent"),
            ("retransmissions_total", "resent"),
            ("given_up_total", "gave up"),
            ("send_faults_total", "not sent"),
            ("lost_turns_total", "lost"),
        )
        self.put("")
        cells = [f"{word} {rate(self.rate_of(name))}" for name, word in names]
        faults = any(self.rate_of(name) for name, _ in names[3:])
        self.put("a second: " + ", ".join(cells), BAD if faults else PLAIN)

    def tables(self):
        """How much the tables hold of what they may."""
        held, limits = self.now.by("held", "what"), self.now.by("limit", "what")
        if held:
            self.put("")
        for name, count in held.items():
            limit = limits.get(name, 0)
            part = count / limit if limit else 0
            numbers = f"{count:>11,.0f} of {limit:>11,.0f}  {part:4.0%}"
            near = part >= NEAR and name not in ("cached_bytes", "entries")
            mark = "!" if near else " "
            shown = bar(part, self.width - 17 - len(numbers), self.plain)
            self.put(f"{name.replace('_', ' '):<13}{mark}{shown} {numbers}", BAD if near else PLAIN)

    def group_rates(self, label):
        """For each value of a label the rates and the sums of its metrics."""
        before = self.before.groups(label) if self.before else {}
        for name, sums in self.now.groups(label).items():
            earlier = before.get(name, {})
            yield name, sums, {key: self.since(value, earlier.get(key, 0)) for key, value in sums.items()}

    def maps(self):
        """The maps, the worst first."""
        found = worst_maps(self.group_rates("map"))
        if not found:
            return
        room = self.width - 45
        self.put("")
        heads = f"{'from cache':>12}{'asked/s':>11}{'to origin/s':>12}{'turned':>10}"
        self.put(f"{'map, the worst first':<{room}}{heads}", SOFT)
        for it in found:
            numbers = f"{share_text(it.hits, it.whole):>12}{rate(it.asked):>11}{rate(it.opened):>12}"
            numbers += f"{rate(it.turned):>10}"
            self.put(f"{short(it.name, room - 1):<{room}}{numbers}", BAD if it.turned else PLAIN)

    def origins(self):
        """The origins, the worst first."""
        found = worst_origins(self.group_rates("origin"))
        if not found:
            return
        room = self.width - 58
        self.put("")
        heads = f"{'asked/s':>9}{'again/s':>9}{'errors/s':>10}{'gave up':>9}{'mean':>9}{'silent for':>12}"
        self.put(f"{'origin, worst first':<{room}}{heads}", SOFT)
        for it in found:
            silent = "-" if it.silent is None else coarse_text(int(it.silent))
            mean = "-" if it.mean is None else seconds_text(round(it.mean * 1000))
            numbers = f"{rate(it.asked):>9}{rate(it.again):>9}{rate(it.errors):>10}{it.given_up_in_all:>9,.0f}"
            line = f"{short(short_endpoint(it.name), room - 1):<{room}}{numbers}{mean:>9}{silent:>12}"
            self.put(line, BAD if it.given_up else PLAIN)


def coarse_text(seconds):
    """A stretch of time in its two greatest units, in at most eleven columns below 1,000 days."""
    return " ".join(seconds_text(seconds * 1000).split(" ")[:4]) if seconds else "0 s"


def short(text, room):
    """A text that is cut so that it fits into so many columns."""
    return text if len(text) <= room else text[: max(0, room - 2)] + ".."


def frame(now, before, width, plain=False, at=None):
    """The lines for two moments, each with its style."""
    it = Frame(now, before, width, plain)
    it.head(max(0, (time.time() if at is None else at) - now.at))
    for part in (it.requests, it.traffic, it.tables, it.maps, it.origins):
        part()
    return it.lines
