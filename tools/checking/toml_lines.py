"""Reads TOML 1.1 with the number of the line of each value, as coap-proxyd reads it.

A date and time is not read; there is no place for one in a configuration.
"""

import re
from collections import namedtuple

# A value: a text, a number, a truth value, a list of values, or a dictionary of values; and its line.
Value = namedtuple("Value", "value line")

DEEPEST = 80
BLANK = re.compile(r"(?:[ \t]|\r?\n|#[^\x00-\x08\x0a-\x1f\x7f]*)*")
BLANK_WITHOUT_COMMENTS = re.compile(r"(?:[ \t]|\r?\n)*")
SPACE = re.compile(r"[ \t]*")
BARE = re.compile(r"[A-Za-z0-9_-]+")
WORD = re.compile(r"[A-Za-z0-9_+.:-]*(?: (?=\d)[A-Za-z0-9_+.:-]*)?", re.ASCII)
DATE = re.compile(r"\d+[-:]", re.ASCII)
DECIMAL = re.compile(r"[+-]?(?:0|[1-9]\d*)(\.\d+)?([eE][+-]?\d+)?", re.ASCII)
PREFIXED = re.compile(r"0(?:x[0-9A-Fa-f]+|o[0-7]+|b[01]+)")
ESCAPES = {"b": "\b", "e": "\x1b", "f": "\f", "n": "\n", "r": "\r", "t": "\t", '"': '"', "\\": "\\"}
HEX_ESCAPES = {"x": 2, "u": 4, "U": 8}


class Fault(Exception):
    """Why a text isn't TOML, and in which line."""

    def __init__(self, text, line):
        super().__init__(text)
        self.text, self.line = text, line


class NotRead(Exception):
    """What isn't read here, although the program may read it."""


class Table:
    """A table that isn't closed yet: what made it ("header", "dotted", or "path" where a header only went through
    it), its members and its line."""

    def __init__(self, made_by, line):
        self.made_by, self.members, self.line = made_by, {}, line

    def closed(self):
        """The table as a value."""
        return Value({key: it if isinstance(it, Value) else it.closed() for key, it in self.members.items()}, self.line)


class Tables:
    """An array of tables, of which the last one may get more members."""

    def __init__(self, line):
        self.tables, self.line = [Table("header", line)], line

    @property
    def members(self):
        return self.tables[-1].members

    def closed(self):
        """The array as a value."""
        return Value([it.closed() for it in self.tables], self.line)


class Reader:
    """A text, and how far it was read."""

    def __init__(self, text):
        self.text, self.at = text, 0

    def line(self):
        """The number of the line that is read."""
        return self.text.count("\n", 0, self.at) + 1

    def fault(self, text):
        return Fault(text, self.line())

    def next_is(self, mark):
        return self.text.startswith(mark, self.at)

    def skip(self, pattern):
        """Goes past what a pattern matches, and returns it."""
        found = pattern.match(self.text, self.at)
        self.at = found.end() if found else self.at
        return found[0] if found else ""

    def take(self, mark, text):
        """Goes past a mark, which must be there."""
        if not self.next_is(mark):
            raise self.fault(text)
        self.at += len(mark)

    # Keys.

    def key(self):
        """The parts of a key."""
        parts = [self.key_part()]
        self.skip(SPACE)
        while self.next_is("."):
            if len(parts) == DEEPEST:
                raise self.fault("a key has too many parts")
            self.at += 1
            self.skip(SPACE)
            parts.append(self.key_part())
            self.skip(SPACE)
        return parts

    def key_part(self):
        if self.next_is('"') or self.next_is("'"):
            return self.string_on_one_line()
        part = self.skip(BARE)
        if not part:
            raise self.fault("a key is expected")
        return part

    def key_equals(self):
        """A key with the equals sign behind it."""
        parts = self.key()
        self.take("=", "an equals sign is expected")
        self.skip(SPACE)
        return parts

    # Values.

    def read_value(self, depth=DEEPEST):
        """A value with its line."""
        line = self.line()
        if self.next_is('"') or self.next_is("'"):
            return Value(self.string(), line)
        if not self.next_is("[") and not self.next_is("{"):
            return Value(self.scalar(), line)
        if depth == 0:
            raise self.fault("values are too deep in each other")
        self.at += 1
        within = self.array if self.text[self.at - 1] == "[" else self.inline_table
        return Value(within(depth - 1), line)

    def array(self, depth):
        items = []
        self.skip(BLANK)
        while not self.next_is("]"):
            items.append(self.read_value(depth))
            self.after_element("]")
        self.at += 1
        return items

    def inline_table(self, depth):
        table = Table("dotted", self.line())
        self.skip(BLANK)
        while not self.next_is("}"):
            parts = self.key_equals()
            self.define(table.members, [], parts, self.read_value(depth))
            self.after_element("}")
        self.at += 1
        return table.closed().value

    def after_element(self, closing):
        """Goes past a comma with what is blank about it, or up to the closing bracket."""
        self.skip(BLANK)
        if not self.next_is(closing):
            self.take(",", f"a comma or {closing} is expected")
            self.skip(BLANK)

    def scalar(self):
        word = self.skip(WORD)
        if word in ("true", "false"):
            return word == "true"
        if DATE.match(word):
            raise NotRead(f"line {self.line()} has a date or a time")
        digits = "[0-9A-Fa-f]" if word.startswith("0x") else "[0-9]"
        plain = re.sub(f"(?<={digits})_(?={digits})", "", word)
        if PREFIXED.fullmatch(plain):
            return self.in_range(int(plain, 0))
        if plain in ("inf", "+inf", "-inf", "nan", "+nan", "-nan"):
            return float(plain)
        decimal = DECIMAL.fullmatch(plain)
        if not decimal:
            raise self.fault(f"{word or self.text[self.at : self.at + 1]!r} isn't a value")
        if decimal[1] is None and decimal[2] is None:
            return self.in_range(int(plain))
        if abs(float(plain)) == float("inf"):
            raise self.fault("a number is too great")
        return float(plain)

    def in_range(self, number):
        if not -(2**63) <= number < 2**63:
            raise self.fault("a number is too great")
        return number

    # Strings.

    def string(self):
        delimiter = self.text[self.at]
        if not self.next_is(delimiter * 3):
            return self.string_on_one_line()
        self.at += 3
        self.skip(re.compile(r"\r?\n"))
        return self.string_body(delimiter, r"(?:[^\x00-\x08\x0b-\x1f\x7f%s]|\r\n)+", True)

    def string_on_one_line(self):
        delimiter = self.text[self.at]
        self.at += 1
        return self.string_body(delimiter, r"[^\x00-\x08\x0a-\x1f\x7f%s]+", False)

    def string_body(self, delimiter, plain, several_lines):
        plain, out = re.compile(plain % (r"\"\\" if delimiter == '"' else "'")), []
        while True:
            out.append(self.skip(plain))
            if not several_lines and self.next_is(delimiter):
                self.at += 1
                return "".join(out)
            if self.next_is(delimiter):
                run = len(self.text) - self.at - len(self.text[self.at :].lstrip(delimiter))
                if run > 5:
                    raise self.fault("too many quotes")
                self.at += 3 if run == 3 else 1
                if run == 3:
                    return "".join(out)
                out.append(delimiter)
            elif self.next_is("\\"):
                self.at += 1
                out.append(self.escape(several_lines))
            else:
                raise self.fault("a string doesn't end, or has a control character")

    def escape(self, several_lines):
        """What stands after a backslash."""
        if several_lines and re.match(r"[ \t]*\r?\n", self.text[self.at :]):
            self.skip(BLANK_WITHOUT_COMMENTS)
            return ""
        letter = self.text[self.at : self.at + 1]
        self.at += 1
        if letter in HEX_ESCAPES:
            digits = self.text[self.at : self.at + HEX_ESCAPES[letter]]
            self.at += len(digits)
            number = int(digits, 16) if re.fullmatch("[0-9A-Fa-f]{%d}" % HEX_ESCAPES[letter], digits) else 0x110000
            if number < 0xD800 or 0xE000 <= number < 0x110000:
                return chr(number)
        elif letter and letter in ESCAPES:
            return ESCAPES[letter]
        raise self.fault("there is no such escape")

    # Tables.

    def define(self, members, section, parts, what):
        """Puts what a line says under a key: a value, or a table or an array of tables for a header. The section is
        followed as a header does, the parts before the last as a dotted key does."""
        for part in section:
            node = members.setdefault(part, Table("path", self.line()))
            if isinstance(node, Value):
                raise self.fault(f"{part} is a value already")
            members = node.members
        for part in parts[:-1]:
            node = members.setdefault(part, Table("dotted", self.line()))
            if not isinstance(node, Table) or node.made_by == "header":
                raise self.fault(f"{part} stands already")
            node.made_by, members = "dotted", node.members
        self.define_last(members, parts[-1], what)

    def define_last(self, members, key, what):
        node = members.setdefault(key, what)
        if node is what:
            return
        if isinstance(what, Table) and isinstance(node, Table) and node.made_by == "path":
            node.made_by, node.line = "header", what.line
        elif isinstance(what, Tables) and isinstance(node, Tables):
            node.tables += what.tables
        else:
            raise self.fault(f"{key} stands twice")

    def header(self):
        """The key of a header, and what it makes."""
        line, double = self.line(), self.next_is("[[")
        self.at += 2 if double else 1
        self.skip(SPACE)
        parts = self.key()
        self.take("]]" if double else "]", "a closing bracket is expected")
        return parts, Tables(line) if double else Table("header", line)

    def document(self):
        """All of a text, as a value."""
        root, section = Table("header", 1), []
        self.skip(BLANK)
        while self.at < len(self.text):
            if self.next_is("["):
                parts, what = self.header()
                self.define(root.members, parts[:-1], parts[-1:], what)
                section = parts
            else:
                parts = self.key_equals()
                self.define(root.members, section, parts, self.read_value())
            self.skip(SPACE)
            if self.at < len(self.text) and self.text[self.at] not in "#\r\n":
                raise self.fault("more stands in the line than one key and its value")
            self.skip(BLANK)
        return root.closed()


def read_toml(data):
    """The value of a file's bytes."""
    try:
        text = data.decode("utf-8")
    except UnicodeDecodeError as error:
        raise Fault("it isn't UTF-8", data.count(b"\n", 0, error.start) + 1) from None
    return Reader(text[1:] if text.startswith("\ufeff") else text).document()
