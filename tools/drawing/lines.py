"""Text and shapes of SVG."""

import unicodedata
from xml.sax.saxutils import escape as escaped
from xml.sax.saxutils import quoteattr

# The width of a character, in parts of the size of its font, rather too great than too small.
NARROW, WIDE = " .,:;|!'ijltfrI()[]{}/\\", "mwMW@%&—"


def width_of(character):
    """About how wide a character is."""
    if character in NARROW:
        return 0.36
    if character in WIDE or unicodedata.east_asian_width(character) in "WF":
        return 1.0
    return 0.68 if character.isupper() else 0.64 if character.isdigit() else 0.59


def text_width(text, size):
    """About how wide a text is."""
    return sum(map(width_of, text)) * size


def fit(text, room, size):
    """A text that is cut so that it fits."""
    if text_width(text, size) <= room:
        return text
    while text and text_width(text + "…", size) > room:
        text = text[:-1]
    # a mark of direction whose end was cut off is ended
    return text + ("\u2069" if text.count("\u2068") > text.count("\u2069") else "") + "…"


def number(value):
    """A coordinate, as short as it can be written."""
    return f"{value:.1f}".rstrip("0").rstrip(".")


def attributes(pairs):
    """Attributes of an element. A name may have an underscore in place of a hyphen, or at its end."""
    out = ""
    for name, value in pairs.items():
        if value is not None:
            text = number(value) if isinstance(value, (int, float)) else value
            out += f" {name.rstrip('_').replace('_', '-')}={quoteattr(text)}"
    return out


def element(name, content="", **pairs):
    """An element with content that is SVG."""
    return f"<{name}{attributes(pairs)}>{content}</{name}>" if content else f"<{name}{attributes(pairs)}/>"


def text(x, y, words, **pairs):
    """A text."""
    return f"<text{attributes({'x': x, 'y': y, **pairs})}>{escaped(words)}</text>"


def title(words, **pairs):
    """The title of what it stands in, which a pointer shows and a screen reader reads."""
    return element("title", escaped(words), **pairs)


def line(x1, y1, x2, y2, **pairs):
    """A line."""
    return element("path", d=f"M{number(x1)} {number(y1)}L{number(x2)} {number(y2)}", **pairs)


def head(x, y, way, size=7):
    """The head of an arrow that points to the right (1) or to the left (-1)."""
    back, half = number(x - way * size * 1.25), size * 0.55
    return element("path", class_="head", d=f"M{number(x)} {number(y)}L{back} {number(y - half)}V{number(y + half)}z")


def sign(x, y, sort):
    """The shape of a sort: a full circle, a ring, a ring that is half full, a cross; or a dot."""
    here = f"M{number(x)} {number(y)}"
    ring = here + "m-5 0a5 5 0 1 0 10 0a5 5 0 1 0 -10 0z"
    if sort == "hit":
        return element("path", class_="full", d=ring)
    if sort == "error":
        return element("path", class_="cross", d=here + "m-4.5 -4.5l9 9m-9 0l9 -9")
    half = element("path", class_="full", d=here + "m0 -5a5 5 0 0 1 0 10z") if sort == "validation" else ""
    if sort in ("miss", "validation"):
        return element("path", class_="ring", d=ring) + half
    return element("path", class_="full", d=here + "m-3 0a3 3 0 1 0 6 0a3 3 0 1 0 -6 0z")
