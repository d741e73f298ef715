"""Wrong bodies as files, the function that each of them changes, and those that can be tried together."""

import os
import re

# What has no braces and names of its own: comments, texts and characters.
TEXTS = re.compile(
    r'//[^\n]*|/\*.*?\*/|\bb?r(#*)".*?"\1|b?"(?:\\.|[^"\\])*"|b?\'(?:\\[^\'\n]+|[^\\\'\n])\'', re.S
)
PARTS = re.compile(
    r"[{}()\[\];]|\b(requires|ensures|ghost \w+:)|\b(fn|mod|trait|macro_rules(?=!))!?\s+(\w+)|\b(impl)\b"
)


def text_of(path):
    """The text of a file."""
    with open(path, encoding="utf-8") as file:
        return file.read()


def last_word(text):
    """The last name in a text, or none."""
    return ([""] + re.findall(r"\w+", text))[-1]


def type_of(head):
    """What a check calls an `impl` with this behind it: RingTrait for `<T> Trait for Ring<T> where ..`."""
    special = re.match(r"\s*(\w+)<(\w+)>\s*\Z", head) or re.match(r"\s*<[^<>]*>\s*(\w+)<(\w+<.*>)>\s*\Z", head)
    if special:
        return "+".join([special[1], *re.findall(r"(?<!['\w])\w+", special[2])])
    head = head.replace("->", "")
    while re.search(r"<[^<>]*>", head):
        head = re.sub(r"<[^<>]*>", " ", head)
    trait, _, kind = re.split(r"\bwhere\b", head)[0].rpartition(" for ")
    return last_word(kind) + ("" if last_word(trait) == "Drop" else last_word(trait))


class Reader:
    """Reads a source up to a place. Keeps what is open there: its kind, and the item that it is the body of, if any."""

    def __init__(self):
        self.open, self.head, self.is_clause = [], None, False

    def is_inside_function(self):
        """Whether a function's body is open."""
        return any(kind == "block" and item and item[0] == "fn" for kind, item in self.open)

    def begin(self, sign):
        """Takes an opening sign."""
        if sign in "([":
            self.open.append(("list", None))
            return
        self.open.append(("clause" if self.is_clause else "block", self.head))
        self.head, self.is_clause = None, False

    def end(self):
        """Takes a closing sign. Behind a clause or a list the item that they belong to goes on."""
        kind, item = self.open.pop() if self.open else ("", None)
        if kind != "list":
            self.head = item if kind == "clause" else None

    def take(self, part, text):
        """Takes the next part of a source."""
        if part[1]:
            self.is_clause = True
        elif part[2]:
            self.head, self.is_clause = (part[2], part[3]), False
        elif part[4]:
            if not self.head and not self.is_inside_function():
                self.head = ("impl", type_of(text[part.end() : text.find("{", part.end())]))
        elif part[0] in "([{":
            self.begin(part[0])
        elif part[0] in ")]}":
            self.end()
        elif not self.open or self.open[-1][0] != "list":
            self.head = None


def function_at(text, place):
    """The path, below its file, of the function in whose body a place is, such as ["Table", "put"], or None. Of a function in
    a macro it is its name, behind none, since it is made elsewhere."""
    text = TEXTS.sub(lambda it: re.sub(r"[^\n]", " ", it[0]), text)
    reader = Reader()
    for part in PARTS.finditer(text, 0, place):
        reader.take(part, text)
    items = [item for _, item in reader.open if item]
    kinds = [kind for kind, _ in items]
    if "fn" not in kinds or any(kind == "clause" for kind, _ in reader.open):
        return None
    names = [name for _, name in items][: kinds.index("fn") + 1]
    return ["", names[-1]] if "macro_rules" in kinds else names


def path_at(file, text, place):
    """The path by which a check names the function at a place of a file, or None: of a method only its type and its name,
    since the type may stand in another file."""
    inside = function_at(text, place) if file.endswith(".rt") else None
    if inside is None:
        return None
    above = [it for it in re.sub(r"((\A|/)(mod|lib|main))?\.rt\Z", "", file[len("src/") :]).split("/") if it]
    is_method = len(inside) > 1 and inside[-2][:1].isupper()
    return tuple(inside[-2:] if is_method or not inside[0] else above + inside)


class Edit:
    """A wrong body: the texts that it exchanges, and `owner`, the function whose body it changes, by its path, or of one in a
    macro by its name. `fault` says why it can't be tried."""

    def __init__(self, file, crate):
        self.name, self.text, self.pairs = os.path.basename(file)[: -len(".edit")], text_of(file), []
        self.fault, self.owner = None, None
        try:
            owners = self.read(crate)
        except (OSError, ValueError) as error:
            self.fault = str(error)
            return
        self.owner = owners.pop() if len(owners) == 1 else None
        if not self.owner:
            self.fault = "it doesn't change the body of one function"

    def read(self, crate):
        """Reads the pairs, and returns the functions that they change. Raises ValueError if a text doesn't stand there once."""
        owners, texts, file, old = set(), {}, None, None
        for line in self.text.split("\n"):
            key, _, value = line.partition(": ")
            if key == "file":
                file = value.strip()
                texts.setdefault(file, text_of(os.path.join(crate, file)))
            elif key == "old":
                old = value
            elif line.startswith("new:"):
                new = re.sub(r"\A ", "", line[len("new:") :])
                if file is None or not old or texts[file].count(old) != 1:
                    raise ValueError(f"a text of it doesn't stand once in {file}: {old}")
                place = texts[file].find(old) + len(os.path.commonprefix([old, new]))
                owners.add(path_at(file, texts[file], place))
                texts[file] = texts[file].replace(old, new)
                self.pairs.append((file, old, new))
        if not self.pairs:
            raise ValueError("it has no texts")
        return owners

    def is_in_macro(self):
        """Whether it changes what a macro makes."""
        return not self.owner[0]

    def has(self, path):
        """Whether the path of a function, below its crate, is that of the owner or of a closure in it."""
        if self.is_in_macro():
            return self.owner[-1] in path
        places = range(len(path)) if self.owner[0][0].isupper() else (0,)
        return any(path[at:][: len(self.owner)] == self.owner for at in places)


def applied(edits, crate):
    """The texts of the files that edits change, or None if a text of one doesn't stand there once beside the others."""
    texts = {}
    for file, old, new in [pair for edit in edits for pair in edit.pairs]:
        if file not in texts:
            texts[file] = text_of(os.path.join(crate, file))
        if texts[file].count(old) != 1:
            return None
        texts[file] = texts[file].replace(old, new)
    return texts


def fits(edit, batch, crate):
    """Whether an edit can be tried beside those of a list: it changes another function, and its texts stand there still."""
    if any(other.is_in_macro() or other.owner == edit.owner for other in batch) or edit.is_in_macro():
        return False
    return applied([*batch, edit], crate) is not None


def in_batches(edits, crate):
    """The edits in lists of those that can be tried together."""
    batches = []
    for edit in edits:
        batch = next((it for it in batches if fits(edit, it, crate)), None)
        if batch is None:
            batches.append([edit])
        else:
            batch.append(edit)
    return batches
