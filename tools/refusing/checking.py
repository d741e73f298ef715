"""What the prover says of a crate with wrong bodies in it, and which of these it refused."""

import os
import re
import shutil
import subprocess
import tempfile
from collections import namedtuple

from refusing.edits import applied

# What an error says where a proof names what an edit took away, and where it rests on what was refused.
SAYS_LITTLE = re.compile(r"has no field|is not in scope|has no `")
RESTS_ON = re.compile(r"was not admitted|(was|were) not checked")
ERROR = re.compile(r"(?:\./)?(\S+?):\d+:\d+: error: (?:`([^`]*)`: )?(.*)")
STATUS = re.compile(r"^fn (\S+): no proof: (?:.*?; )?`search` did not prove `([^`]*)`", re.M)
# How a check ends that tried all that it was asked for.
ENDS = re.compile(r"^(only=\d+ proved=|logic=not-proved|logic=proved).*\n?\Z", re.M)

# A refusal: the path of its function, the goal, what was said, and whether that says little of the contract.
Refusal = namedtuple("Refusal", "path goal said is_little")
# What became of an edit: whether it was refused, and what is told of it.
Outcome = namedtuple("Outcome", "edit is_refused told")


def refusals(said):
    """The refusals that a check tells."""
    for it in ERROR.finditer(said):
        if re.match(r"proofs/.*/(Answers|Proof)\.antt\Z", it[1]) and not RESTS_ON.search(it[3]):
            path = tuple(name for name in it[1].split("/")[1:-1] if name != "fn")
            yield Refusal(path, it[2], it[3][:90], bool(SAYS_LITTLE.search(it[3])))
    for it in STATUS.finditer(said):
        yield Refusal(tuple(name for name in it[1].split("::")[1:] if name != "fn"), it[2], "no proof was found", False)


def judged(edits, said):
    """What became of edits that were tried together, by what the check said. That a function calls another one that isn't
    proved is no refusal; and if one is refused that none of them changes, nothing of the check counts."""
    of = {edit: [] for edit in edits}
    for refusal in refusals(said):
        owner = next((edit for edit in edits if edit.has(refusal.path)), None)
        if owner is None:
            strange = "::".join(refusal.path)
            return [Outcome(it, False, f"DOESN'T COUNT: {strange} is refused, which it doesn't change") for it in edits]
        of[owner].append(refusal)
    return [outcome_of(edit, of[edit]) for edit in edits]


def outcome_of(edit, own):
    """What became of an edit with these refusals of its own function."""
    if not own:
        return Outcome(edit, False, "NOT REFUSED in its function")
    first = min(own, key=lambda it: it.is_little)
    where = f"{'::'.join(first.path)}, `{first.goal}`: {first.said}"
    if first.is_little:
        return Outcome(edit, False, f"SAYS LITTLE, since a proof names what it took away: {where}")
    return Outcome(edit, True, f"refused: {where}")


class Checker:
    """Checks copies of a crate."""

    def __init__(self, name, top, uses, kit, seconds):
        self.folder, self.uses, self.seconds = os.path.join(top, "crates", name), uses, seconds
        root = "main.rt" if os.path.isfile(os.path.join(self.folder, "src", "main.rt")) else "lib.rt"
        self.below = below(name, uses)
        built = [os.path.join(top, "crates", it, "out", "rlib") for it in self.below]
        libraries = os.path.join(kit, "rlibs")
        self.words = [os.path.join(kit, "bin", "rattle"), "check", "--crate-name", name, f"src/{root}"]
        for it in ["std", *uses[name]]:
            where = os.path.join(top, "crates", it, "out", "rlib") if it in uses else libraries
            self.words += ["--extern", f"{it}={os.path.join(where, it)}.rlib"]
        for it in [libraries, *built]:
            self.words += ["-L", f"dependency={it}"]
        logic = os.path.join(kit, "rattle", "logic", "antt-project.json")
        self.words += ["--antt-project", logic, "--logic-built", os.path.join(kit, "logic_built")]

    def check(self, edits, kept, only):
        """Checks a copy with these edits, and returns the status and what was said. A check that takes too long has no
        status."""
        with tempfile.TemporaryDirectory(prefix="refuse-") as room:
            for part in ("src", "specs", "proofs"):
                if os.path.isdir(os.path.join(self.folder, part)):
                    shutil.copytree(os.path.join(self.folder, part), os.path.join(room, part))
            for path, text in applied(edits, self.folder).items():
                with open(os.path.join(room, path), "w", encoding="utf-8") as file:
                    file.write(text)
            words = [*self.words, "--incremental", kept, *[it for name in only for it in ("--only", name)]]
            pipes = {"stdin": subprocess.DEVNULL, "stdout": subprocess.PIPE, "stderr": subprocess.STDOUT}
            try:
                ran = subprocess.run(words, cwd=room, errors="replace", timeout=self.seconds, **pipes)
            except subprocess.TimeoutExpired:
                return None, f"the check had not ended after {self.seconds} seconds"
        return ran.returncode, ran.stdout

    def together(self, edits, kept):
        """Tries edits of different functions in one check."""
        status, said = self.check(edits, kept, sorted({"::".join(filter(None, it.owner)) for it in edits}))
        if status == 2 and re.search(r"^rattle: error: .*(has no function|fits)", said, re.M):
            # a function that the check doesn't know by this name is among all of them
            status, said = self.check(edits, kept, ())
        if status in (0, 1) and ENDS.search(said):
            return judged(edits, said)
        if len(edits) == 1:
            return [Outcome(edits[0], False, f"BAD EDIT: it didn't reach the prover: {said.strip()[-300:]}")]
        # one that can't be read spoils a check, and so does want of memory: it is found by halves
        half = len(edits) // 2
        return self.together(edits[:half], kept) + self.together(edits[half:], kept)

    def tried(self, edits, kept):
        """Tries edits of different functions: together, and each by itself that isn't refused so."""
        outcomes = self.together(edits, kept)
        if len(edits) == 1:
            return outcomes
        return [it if it.is_refused else self.together([it.edit], kept)[0] for it in outcomes]


def below(name, uses):
    """The crates of the repository that a crate stands on."""
    found, left = [], [name]
    while left:
        more = [it for it in uses[left.pop()] if it in uses and it not in found]
        found += more
        left += more
    return found


def is_newer(crate, built):
    """Whether a source of a crate has changed since a file was written."""
    for part in ("src", "specs", "proofs"):
        for at, _, files in os.walk(os.path.join(crate, part)):
            if any(os.path.getmtime(os.path.join(at, it)) > os.path.getmtime(built) for it in files):
                return True
    return False


def built(name, top):
    """Has a library be there as its sources are: one that isn't, or is older than these, is built. Returns why it can't be."""
    crate = os.path.join(top, "crates", name)
    there = os.path.join(crate, "out", "rlib", f"{name}.rlib", "format")
    if os.path.isfile(there) and not is_newer(crate, there):
        return None
    pipes = {"stdin": subprocess.DEVNULL, "stdout": subprocess.PIPE, "stderr": subprocess.STDOUT}
    done = subprocess.run(["rt", "lib"], cwd=crate, errors="replace", **pipes)
    said = done.stdout.strip().split("\n")[-1]
    return None if done.returncode == 0 and os.path.isfile(there) else f"{name} can't be built: {said[-200:]}"
