"""A ladder as a page: one HTML file with its data and its script, which asks the network for nothing. The script draws
only what is seen. All that peers chose is data: the page's policy runs no other script than its own."""

from drawing import colours, words
from drawing.parts import filled, json_text, part
from reading.belonging import sort_of
from reading.endpoints import short_endpoint

SCRIPTS = ("places.js", "marks.js", "panel.js", "main.js")
SORTS = ("plain", "hit", "miss", "validation", "error")


class Strings:
    """The texts of a page, each once."""

    def __init__(self):
        self.all, self.places = [""], {"": 0}

    def place(self, text):
        """The place of a text."""
        if text not in self.places:
            self.places[text] = len(self.all)
            self.all.append(text)
        return self.places[text]


def target_of(row):
    """The target of what a row belongs to."""
    return row.exchange.target if row.exchange else row.request.target if row.request else ""


def row_data(row, lanes, places, strings):
    """A row, as the page's script reads it (page/places.js names the parts)."""
    arrow = row.data is not None
    source = row.request.source if row.request and row.inward and not row.first else None
    return [
        row.moment,
        lanes.get(row.peer, -1),
        int(row.inward),
        SORTS.index(sort_of(row)),
        strings.place(words.head_text(row) if arrow else ""),
        strings.place(words.detail_text(row) if arrow else ""),
        strings.place(words.note_text(row)),
        int(row.is_silent()),
        places.get(row.first.number, -1) if row.first else -1,
        row.request.number if row.request else 0,
        row.exchange.number if row.exchange else 0,
        strings.place(words.trouble_text(row)),
        strings.place(target_of(row)),
        strings.place(row.data.hex() if arrow else ""),
        [strings.place(f"{name}\t{value}") for name, value in words.fields_of(row)] if arrow else [],
        source.number if source else 0,
        int(bool(row.message) and not row.message.code),
        strings.place(row.words),
    ]


def data_of(ladder):
    """What the page's script draws."""
    strings, peers = Strings(), ladder.clients + ladder.origins
    lanes = {peer: place for place, peer in enumerate(peers)}
    places = {row.number: place for place, row in enumerate(ladder.rows)}
    rows = [row_data(row, lanes, places, strings) for row in ladder.rows]
    return {
        "since": ladder.since,
        "lanes": [[ladder.name_of(peer), short_endpoint(peer), int(peer in ladder.origins)] for peer in peers],
        "strings": strings.all,
        "rows": rows,
    }


def page(ladder):
    """A ladder as HTML."""
    name = ladder.title or "What happened on the wire"
    texts = {"TITLE": name, "SUBTITLE": ladder.subtitle(), "DESCRIPTION": ladder.description()}
    style = colours.style() + part("marks.css") + part("page.css")
    script = "\n".join(map(part, SCRIPTS))
    return filled("page.html", style, script, texts, {"DATA": json_text(data_of(ladder))})
