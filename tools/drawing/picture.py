"""A ladder as a picture: SVG whose text can be selected and read out, the same bytes each time."""

from drawing import colours, words
from drawing.ladder import IDLE
from drawing.lines import attributes, element, escaped, fit, head, line, sign, text, text_width, title
from drawing.parts import part
from reading.belonging import sort_of
from reading.endpoints import short_endpoint

# Where things are: the column of times, the room between lanes, that for what stands at an arrow, and heights.
TIMES, LANE, ROOM, EDGE = 92, 118, 328, 66
TOP, STEP, PAUSE, BREAK, BOTTOM = 122, 42, 8, 36, 44
STYLE = "svg{background:var(--paper)}.title{font-size:17px;font-weight:650}.sheet{fill:var(--paper)}"


class Places:
    """Where the lanes of a ladder and its rows are."""

    def __init__(self, ladder, scale):
        longest = max((text_width(ladder.name_of(peer), 13.5) for peer in ladder.clients), default=0)
        far = max((text_width(ladder.name_of(peer), 13.5) for peer in ladder.origins), default=0)
        near, far = (round(min(190, max(LANE, it + 14))) for it in (longest, far))
        # many clients stand closer, with slanted names if these are longer than what is between lanes
        many = len(ladder.clients) > 4
        self.lane = round(max(20, min(longest + 12, 4 * LANE / len(ladder.clients)))) if many else near
        self.slanted = many and longest + 10 > self.lane
        self.x = {peer: TIMES + EDGE + place * self.lane for place, peer in enumerate(ladder.clients)}
        self.left = max(self.x.values(), default=TIMES)
        self.proxy = self.left + ROOM
        self.right = self.proxy + ROOM
        self.x.update({peer: self.right + place * far for place, peer in enumerate(ladder.origins)})
        self.width = self.right + max(0, len(ladder.origins) - 1) * far + EDGE + 8
        self.y, self.breaks, self.height = {}, [], TOP
        before = None
        for row in ladder.rows:
            self.put(row, before, ladder.rows[0].moment, scale)
            before = row
        self.end = self.height
        self.height += BOTTOM

    def put(self, row, before, start, scale):
        """Places a row below the one before it."""
        idle = row.moment - before.moment if before else 0
        if scale and before:
            self.height = max(self.height, TOP + (row.moment - start) / 1000 * scale)
        elif idle >= IDLE:
            self.breaks.append((self.height, idle))
            self.height += BREAK
        elif idle > 20:
            self.height += PAUSE
        self.height += STEP
        self.y[row.number] = self.height - STEP / 2

    def ends(self, row):
        """Where the arrow of a row begins and ends."""
        peer = self.x[row.peer]
        return (peer, self.proxy) if row.inward else (self.proxy, peer)

    def middle(self, row):
        """The middle of what stands at an arrow."""
        side = self.left if self.x[row.peer] < self.proxy else self.right
        return (side + self.proxy) / 2


def way(ladder, places, row):
    """The arrow of a row, with what stands at it."""
    y, (start, end) = places.y[row.number], places.ends(row)
    to = 1 if end > start else -1
    thin = " thin" if row.message and not row.message.code else ""
    tip = end - to * (9 if row.inward and words.note_text(row) else 2)
    out = line(start + to * 3, y, tip - to * 4, y, class_="way" + thin) + head(tip, y, to)
    middle, detail, lost = places.middle(row), words.detail_text(row), words.reply_text(row)
    out += text(middle, y - 7, fit(words.head_text(row), ROOM - 24, 13), text_anchor="middle")
    room = ROOM - 18 - (text_width(" · " + lost, 11.5) if lost else 0)
    below = escaped(fit(detail, room, 11.5)) if detail else ""
    if lost:
        below += (" · " if below else "") + element("tspan", lost, class_="lost")
        out += "" if row.inward else element("g", sign(end + to * 10, y, "error"), class_="error")
    return out + (element("text", below, x=middle, y=y + 15, class_="small", text_anchor="middle") if below else "")


def tie(places, row):
    """A thin line beside the sender's lifeline, from what is sent again to the first."""
    start, end = places.ends(row)
    x, top, y = start, places.y[row.first.number], places.y[row.number]
    out = 9 if end < start else -9
    curve = f"M{x:g} {top:g}q{out} 0 {out} 9V{y - 9:g}q0 9 {-out} 9"
    return element("path", class_="tie", d=curve)


def note(places, row):
    """What is said at the proxy of a row, on the side that its arrow leaves free."""
    words_here = words.note_text(row)
    if not words_here:
        return ""
    y, free = places.y[row.number], 1 if row.peer is None or places.x[row.peer] < places.proxy else -1
    sort = sort_of(row) if row.outcome != "again" else "plain"
    room = places.width - places.proxy - 24 if free > 0 else places.proxy - TIMES - 24
    at = text(
        places.proxy + free * 14,
        y + 4.5,
        fit(words_here, room, 13),
        class_="note",
        text_anchor="start" if free > 0 else "end",
    )
    return sign(places.proxy, y, sort) + at


def drawn_row(ladder, places, row):
    """A row: its arrow, what is said at the proxy, and the line to what it repeats."""
    out = title(ladder.sentence(row))
    if row.data is not None:
        out += way(ladder, places, row)
    if row.first and row.first.number in places.y:
        out += tie(places, row)
    again = " again" if row.first else ""
    return element("g", out + note(places, row), class_=sort_of(row) + again)


def lifelines(ladder, places):
    """The lines of all lanes, dotted where time is cut out."""
    cuts = [places.breaks[n][0] for n in range(len(places.breaks))]
    starts, ends = [TOP - 10] + [at + BREAK for at in cuts], cuts + [places.end + 6]
    out = []
    for x in [*(places.x[peer] for peer in ladder.clients + ladder.origins), places.proxy]:
        kind = "life proxy" if x == places.proxy else "life"
        whole = "".join(f"M{x:g} {start:g}V{end:g}" for start, end in zip(starts, ends))
        out.append(element("path", class_=kind, d=whole))
        dots = "".join(f"M{x:g} {at:g}V{at + BREAK:g}" for at in cuts)
        out.append(element("path", class_=kind + " cut", d=dots) if dots else "")
    return "".join(out)


def lane_head(ladder, places, x, peer, role):
    """What stands above a lane. Where lanes are close, it is slanted."""
    name = ladder.name_of(peer) if peer else "coap-proxyd"
    below = short_endpoint(peer) if peer in ladder.names else ""
    if peer in ladder.clients and places.slanted:
        return text(
            0, 0, fit(name, 104, 11.5), class_="small", transform=f"translate({x + 3:g} {TOP - 14}) rotate(-50)"
        )
    role = below if below and text_width(below, 11.5) < places.lane + 4 else role
    out = text(x, TOP - 32, fit(name, 186, 13), class_="name", text_anchor="middle")
    return out + text(x, TOP - 17, fit(role, 186, 11.5), class_="small", text_anchor="middle")


def lane_heads(ladder, places):
    """What stands above the lanes."""
    out = [lane_head(ladder, places, places.x[peer], peer, "client") for peer in ladder.clients]
    out.append(lane_head(ladder, places, places.proxy, None, "proxy"))
    return out + [lane_head(ladder, places, places.x[peer], peer, "origin") for peer in ladder.origins]


def legend(places):
    """What the shapes and colours mean."""
    x, out = 22, []
    for sort, meaning in colours.SORTS:
        label = text(x + 12, places.height - 14, meaning, class_="small")
        out.append(element("g", sign(x, places.height - 18, sort) + label, class_=sort))
        x += text_width(meaning, 11.5) + 40
    return "".join(out)


def times(ladder, places):
    """The column of times: each where it differs from the one above."""
    out, before = [], None
    for row in ladder.rows:
        shown = words.time_text(row.moment, ladder.since)
        if shown != before:
            out.append(text(TIMES - 8, places.y[row.number] + 4, shown, class_="time", text_anchor="end"))
        before = shown
    for at, idle in places.breaks:
        out.append(element("rect", x=0, y=at + 6, width=places.width, height=BREAK - 12, class_="band"))
        out.append(text(18, at + BREAK / 2 + 4, f"{words.seconds_text(idle)} later", class_="small"))
    return "".join(out)


def picture(ladder, scale=None):
    """A ladder as SVG. With a scale, in pixels a second, no idle time is cut out, and rows stand at their times as far
    as they have room."""
    places = Places(ladder, scale)
    size = {"viewBox": f"0 0 {places.width:g} {places.height:g}", "width": places.width, "height": places.height}
    start = {
        "xmlns": "http://www.w3.org/2000/svg",
        **size,
        "role": "graphics-document document",
        "aria_labelledby": "name",
        "aria_describedby": "about",
        "direction": "ltr",
    }
    name = ladder.title or "What happened on the wire"
    parts = [
        f"<svg{attributes(start)}>",
        title(name, id="name"),
        element("desc", escaped(ladder.description()), id="about"),
        f"<style>{colours.style()}{part('marks.css')}{STYLE}</style>",
        element("rect", class_="sheet", width="100%", height="100%"),
        text(18, 34, fit(name, places.width - 36, 17), class_="title"),
        text(18, 54, fit(ladder.subtitle(), places.width - 36, 11.5), class_="small"),
        times(ladder, places),
        lifelines(ladder, places),
        *lane_heads(ladder, places),
        *(drawn_row(ladder, places, row) for row in ladder.rows),
        legend(places),
        "</svg>",
    ]
    return "\n".join(part for part in parts if part) + "\n"
