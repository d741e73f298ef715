"""What was refused before, by a sum over all that a refusal rests on."""

import hashlib
import os


def added(made, text):
    """Adds a text to a sum, with its length, so that no two lists of texts are the same to it."""
    made.update(str(len(text)).encode() + b" " + text)


def bytes_of(path):
    """What a file has."""
    with open(path, "rb") as file:
        return file.read()


def sources_of(crate, top):
    """The files that a check of a crate reads, by their paths from the top."""
    found = []
    for part in ("src", "specs", "proofs"):
        for at, _, files in os.walk(os.path.join(top, "crates", crate, part)):
            found += [os.path.relpath(os.path.join(at, it), top) for it in files]
    return sorted(found)


class Kept:
    """The edits of a crate that were refused before, each a file of a folder whose name is a sum: over the kit, this tool, the
    crate and those below it, and the edit. Whoever can write there is trusted."""

    def __init__(self, folder, kit, top, crate, checker):
        self.folder, made = folder, hashlib.sha256()
        tool = os.path.dirname(os.path.abspath(__file__))
        for path in [os.path.join(kit, "KIT-ID"), *sorted(os.path.join(tool, it) for it in os.listdir(tool))]:
            if os.path.isfile(path):
                added(made, bytes_of(path))
        for name in [crate, *sorted(checker.below)]:
            added(made, " ".join([name, *checker.uses[name]]).encode())
            for path in sources_of(name, top):
                added(made, path.encode())
                added(made, bytes_of(os.path.join(top, path)))
        self.made = made

    def place(self, edit):
        """Where the refusal of an edit is noted."""
        made = self.made.copy()
        added(made, edit.text.encode())
        return os.path.join(self.folder, made.hexdigest())

    def has(self, edit):
        """Whether an edit was refused before."""
        return os.path.isfile(self.place(edit))

    def note(self, edit):
        """Notes that an edit was refused."""
        os.makedirs(self.folder, exist_ok=True)
        with open(self.place(edit), "w", encoding="utf-8") as file:
            file.write(edit.name + "\n")
