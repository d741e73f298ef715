"""That tools/refuse tells which wrong bodies are refused: by a prover of the test's own, and by the kit's where it is there."""

import contextlib
import os
import re
import shutil
import subprocess
import tempfile

from testing.network import Skipped, expect, expect_in

TOOLS = os.path.dirname(os.path.dirname(os.path.abspath(__file__)))
# In place of the prover. A function of the sources has the line `says PATH WORD`, and the WORD is what the prover finds there:
# nothing of `right` and `harmless`. It also notes what it was asked to check that isn't right.
PROVER = r"""#!/usr/bin/env python3
import glob, os, re, signal, sys, time
found = []
for path in sorted(glob.glob("src/*.rt")):
    with open(path) as file:
        found += re.findall(r"says (\S+) (\w+)", file.read())
with open(os.environ["CHECKS"], "a") as file:
    file.write(" ".join(sorted(path for path, word in found if word != "right")) + "\n")
words = [word for _, word in found]
if "unreadable" in words:
    sys.exit("error: expected an expression")
if "hungry" in words:
    os.kill(os.getpid(), signal.SIGKILL)
if "slow" in words:
    time.sleep(60)
for path, word in found:
    if word in ("wrong", "spreading"):
        print(f"proofs/{path}/Answers.antt:3:5: error: `returns`: no proof was found")
    if word == "unproved":
        print(f"fn kinds::{path.replace('/', '::')}: no proof: `search` did not prove `returns-then`")
    if word == "renamed":
        print(f"proofs/{path}/Answers.antt:3:5: error: `returns`: record `After` has no field `in-Some`")
    if word == "calling":
        print(f"fn kinds::{path.replace('/', '::')}: no proof: it calls first, which is not proved")
        print(f"proofs/{path}/Proof.antt:1:1: error: `met`: `first` was not admitted")
    if word == "spreading":
        print("proofs/other/Answers.antt:3:5: error: `returns`: no proof was found")
is_proved = all(word in ("right", "harmless") for word in words)
print("logic=proved functions=9" if is_proved else "logic=not-proved")
sys.exit(0 if is_proved else 1)
"""
# In place of the kit's command: it names the kit's first page, and builds a library that has a source.
KIT = """#!/bin/sh
[ "$1" != doc ] || { echo TOP/kit/START-HERE.md; exit; }
[ -f src/lib.rt ] || { echo 'no source'; exit 1; }
name=$(basename "$PWD")
mkdir -p out/rlib/$name.rlib && echo built >> out/rlib/$name.rlib/format
"""
LIBRARY = """mod table;
pub fn first(a: u64) -> u64
    ensures { same { result } }
{
    let more = 1;
    says first right
}
fn second(a: (u64, [u8; 2])) -> u64 {
    // a brace in a comment, {
    says second right
}
fn other() { says other right }
"""
TABLE = """impl<T: Copy> Table<T> {
    fn put(&mut self) -> u64
        requires few { self.old }
    {
        says table/Table/put right
    }
}
impl<T> Count for Table<T> where T: Copy {
    fn count(&self) { says table/TableCount/count right }
}
impl Drop for Table<u64> {
    fn drop(self) { let by = |b: u64| { says table/Table/drop/by right }; }
}
macro_rules! made {
    ($name:ident) => { impl $name { fn half(&self) { says table/Other/half right } } };
}
"""


def edit(file, path, word):
    """An edit that has a function say another word."""
    return f"file: src/{file}.rt\nold: says {path} right\nnew: says {path} {word}\n"


def put(path, text):
    """Puts a text into a file that can be run, and makes its folder."""
    os.makedirs(os.path.dirname(path), exist_ok=True)
    with open(path, "w", encoding="utf-8") as file:
        file.write(text)
    os.chmod(path, 0o755)


@contextlib.contextmanager
def repository(edits, sources=None):
    """A folder with the tool, a crate `kinds`, its edits, and what stands for the kit."""
    with tempfile.TemporaryDirectory(prefix="coap-proxyd-test-") as folder:
        shutil.copytree(os.path.join(TOOLS, "refusing"), os.path.join(folder, "tools", "refusing"))
        shutil.copy(os.path.join(TOOLS, "refuse"), os.path.join(folder, "tools"))
        kit = {"rt": KIT.replace("TOP", folder), "rattle": PROVER, "../KIT-ID": "a kit\n"}
        files = {f"kit/bin/{name}": text for name, text in kit.items()}
        files["crates.txt"] = "# The crates.\nkinds:\n"
        for name, text in (sources or {"lib": LIBRARY, "table": TABLE}).items():
            files[f"crates/kinds/src/{name}.rt"] = text
        for name, text in edits.items():
            files[f"crates/kinds/refused/{name}.edit"] = text
        for path, text in files.items():
            put(os.path.join(folder, path), text)
        yield folder


def refuse(folder, *words, path=None):
    """The status of tools/refuse with these words, its lines, and of each check which functions weren't right."""
    checks = os.path.join(folder, "checks")
    put(checks, "")
    path = path or os.path.join(folder, "kit", "bin") + os.pathsep + os.environ["PATH"]
    pipes = {"stdin": subprocess.DEVNULL, "stdout": subprocess.PIPE, "stderr": subprocess.STDOUT}
    words = [os.path.join(folder, "tools", "refuse"), "--kept", os.path.join(folder, "kept"), *words]
    done = subprocess.run(words, env={**os.environ, "PATH": path, "CHECKS": checks}, timeout=300, text=True, **pipes)
    with open(checks, encoding="utf-8") as file:
        return done.returncode, done.stdout.splitlines(), [line.split() for line in file]


def told(lines):
    """What is told of each edit."""
    return dict(re.findall(r"^kinds/(\w+): (.*?)(?:, `|: | in its |, since |\Z)", line)[0] for line in lines[:-1])


def a_right_body_among_wrong_ones_is_told():
    """It is tried by itself before."""
    edits = {"one": edit("lib", "first", "wrong"), "two": edit("lib", "second", "harmless")}
    with repository(edits) as folder:
        status, lines, checks = refuse(folder)
    expect("the status and the last line", (1, "1 passed, 1 failed"), (status, lines[-1]), "the status", "the line")
    expect("what is told", {"one": "refused", "two": "NOT REFUSED"}, told(lines))
    expect("what was checked together", [["first", "second"], ["second"]], checks)


def what_rests_on_another_is_not_refused():
    """That a function calls one that isn't proved says nothing of its own body."""
    edits = {"one": edit("lib", "first", "wrong"), "two": edit("lib", "second", "calling")}
    with repository(edits) as folder:
        status, lines, _ = refuse(folder)
    expect("the status and the last line", (1, "1 passed, 1 failed"), (status, lines[-1]), "the status", "the line")
    expect("what is told", {"one": "refused", "two": "NOT REFUSED"}, told(lines))


def nothing_counts_where_another_function_is_refused():
    """Then each edit of the check is tried by itself."""
    edits = {"one": edit("lib", "first", "unproved"), "two": edit("lib", "second", "spreading")}
    with repository(edits) as folder:
        status, lines, checks = refuse(folder)
    expect("the status and the last line", (1, "1 passed, 1 failed"), (status, lines[-1]), "the status", "the line")
    expect("what is told", {"one": "refused", "two": "DOESN'T COUNT"}, told(lines))
    expect("what was checked", [["first", "second"], ["first"], ["second"]], checks)


def edits_of_one_function_are_tried_apart():
    """Also if they change other texts of it."""
    other = "file: src/lib.rt\nold: let more = 1;\nnew: let more = 2; says first wrong\n"
    edits = {"one": edit("lib", "first", "wrong"), "two": other, "three": edit("lib", "second", "wrong")}
    with repository(edits) as folder:
        status, lines, checks = refuse(folder)
    expect("the status and the last line", (0, "3 passed, 0 failed"), (status, lines[-1]), "the status", "the line")
    expect("what was checked together", [["first", "second"], ["first"]], checks)


def functions_of_each_kind_are_found():
    """Generic ones, a trait's method, a `Drop`, a closure, and what a macro makes, which is tried by itself."""
    paths = ("table/Table/put", "table/TableCount/count", "table/Table/drop/by", "table/Other/half")
    edits = {path.rpartition("/")[2]: edit("table", path, "wrong") for path in paths}
    with repository(edits) as folder:
        listed = refuse(folder, "--list")[1]
        status, lines, checks = refuse(folder)
    wanted = [
        "kinds/by: Table::drop", "kinds/count: TableCount::count", "kinds/half: half", "kinds/put: Table::put",
        "4 edits in 2 checks",
    ]
    expect("what is listed", wanted, listed)
    expect("the status and the last line", (0, "4 passed, 0 failed"), (status, lines[-1]), "the status", "the line")
    expect("what was checked together", [sorted([*paths[:3]]), ["table/Other/half"]], checks)


def what_does_not_reach_the_prover_fails():
    """For want of memory or time, or since it can't be read; the others of its check are found by halves."""
    edits = {name: edit("lib", name, "wrong") for name in ("first", "second")}
    for word in ("hungry", "slow", "unreadable"):
        with repository({**edits, "third": edit("table", "table/Table/put", word)}) as folder:
            status, lines, _ = refuse(folder, "--seconds", "2")
        expect("the status and the last line", (1, "2 passed, 1 failed"), (status, lines[-1]), "the status", "the line")
        expect("what is told", {"first": "refused", "second": "refused", "third": "BAD EDIT"}, told(lines))


def bad_edits_fail():
    """One that stands nowhere, or twice, that changes no function's body, or whose refusal says little."""
    edits = {
        "nowhere": edit("lib", "third", "wrong"), "twice": "file: src/lib.rt\nold: right\nnew: wrong\n",
        "clause": "file: src/lib.rt\nold: { result }\nnew: { a }\n", "no_file": "file: src/no.rt\nold: a\nnew: b\n",
        "type": "file: src/lib.rt\nold: pub fn first(a: u64)\nnew: pub fn first(a: u32)\n",
        "names": edit("lib", "first", "renamed"), "no_texts": "file: src/lib.rt\n",
    }
    with repository(edits) as folder:
        status, lines, _ = refuse(folder)
    wanted = {name: "BAD EDIT" for name in edits}
    expect("what is told", {**wanted, "names": "SAYS LITTLE"}, told(lines))
    expect("the status and the last line", (1, "0 passed, 7 failed"), (status, lines[-1]), "the status", "the line")


def what_was_refused_is_kept():
    """Until the crate or the edit changes, or all is to be tried anew."""
    edits = {"one": edit("lib", "first", "wrong"), "two": edit("lib", "second", "harmless")}
    with repository(edits) as folder:
        counts = [len(refuse(folder)[2]) for _ in range(2)]
        counts.append(len(refuse(folder, "--anew")[2]))
        put(os.path.join(folder, "crates", "kinds", "src", "table.rt"), TABLE + "// changed\n")
        counts.append(len(refuse(folder)[2]))
        put(os.path.join(folder, "crates", "kinds", "refused", "one.edit"), edit("lib", "first", "unproved"))
        counts.append(len(refuse(folder)[2]))
        _, lines, _ = refuse(folder)
    expect("how many checks there were", [2, 1, 2, 2, 2], counts)
    expect_in("what is told of what was refused", "kinds/one: refused before", lines)


def libraries_are_built_before():
    """One below that isn't there, or has changed since; and where one can't be built, nothing above it is tried."""
    with repository({"one": edit("lib", "first", "wrong")}) as folder:
        put(os.path.join(folder, "crates.txt"), "low:\nkinds: low\n")
        low = os.path.join(folder, "crates", "low")
        os.makedirs(low)
        missing = refuse(folder)
        put(os.path.join(low, "src", "lib.rt"), "")
        lines = [refuse(folder, "--anew")[1][-1] for _ in range(2)]
        os.utime(os.path.join(low, "src", "lib.rt"), (2**32, 2**32))
        lines.append(refuse(folder, "--anew")[1][-1])
        with open(os.path.join(low, "out", "rlib", "low.rlib", "format"), encoding="utf-8") as file:
            times = len(file.readlines())
        unknown = refuse(folder, "kind")
    wanted = ["kinds/one: NOT TRIED: low can't be built: no source", "0 passed, 1 failed"]
    expect("one that can't be built", wanted, missing[1])
    expect("one that can", 3 * ["1 passed, 0 failed"], lines)
    expect("how often it was built", 2, times)
    expect("a crate that isn't there", (1, ["refuse: kind: crates.txt has no such crate"]), unknown[:2], "the status", "lines")


# What the kit's own prover is tried with: functions of each kind, and of each a wrong body.
KINDS = """//! Functions of each kind.
#![tactic(auto)]
ghost use Rattle.std.specs.Prelude.{◌≡◌, ◌+◌, ◌≤◌, ◌<◌};

mod pairs;

/// One more.
pub fn one_more(count: u64) -> u64
    requires few { count < 100 }
    ensures { result ≡ count + 1 }
{
    count + 1
}

/// Two more.
pub fn two_more(count: u64) -> u64
    requires few { count < 90 }
    ensures { result ≡ count + 2 }
{
    one_more(one_more(count))
}

/// What is given first.
pub fn first_of<T: Copy>(first: T, _second: T) -> T
    ensures { result ≡ first }
{
    first
}

/// At most two hundred.
pub fn by_closure(count: u64) -> u64
    requires few { count < 100 }
    ensures { result ≤ 200 }
{
    let more = |it: u64| requires few { it < 100 } ensures { result ≡ it + 1 } { it + 1 };
    more(count)
}
"""
PAIRS = """//! Methods of each kind.
ghost use Rattle.std.specs.Prelude.{◌≡◌};

/// What has a count.
pub trait Count {
    /// How many there are.
    fn count(&self) -> u64;
}

/// Two numbers.
pub struct Pair {
    pub first: u64,
    pub second: u64,
}

impl Drop for Pair {
    fn drop(self) {
        let Pair { first: _, second: _ } = self;
    }
}

impl Count for Pair {
    fn count(&self) -> u64
        ensures { result ≡ self.now.second }
    {
        self.second
    }
}

macro_rules! halved {
    ($name:ident) => {
        impl $name {
            /// Half of the first.
            pub fn half(&self) -> u64 {
                self.first / 2
            }
        }
    };
}
halved!(Pair);
"""
CHANGES = {
    "closure_adds_two": ("lib", "{ it + 1 };", "{ it + 2 };"), "one_is_two": ("lib", "    count + 1", "    count + 2"),
    "two_otherwise": ("lib", "    one_more(one_more(count))", "    one_more(1 + count)"),
    "second_of_two": ("lib", "    first", "    _second"), "count_is_the_first": ("pairs", "self.second", "self.first"),
    "drop_adds": ("pairs", "let Pair { first: _, second: _ } = self;", "let Pair { first: a, second: b } = self; let _sum = a + b;"),
    "half_by_zero": ("pairs", "self.first / 2", "self.first / (self.second - self.second)"),
}


def the_kit_refuses_what_it_is_to():
    """Six wrong bodies, in a generic function, a closure, a trait's method, a `Drop` and a macro; and a right one."""
    if not shutil.which("rt"):
        raise Skipped("there is no Rattle kit")
    edits = {name: f"file: src/{file}.rt\nold: {old}\nnew: {new}\n" for name, (file, old, new) in CHANGES.items()}
    with repository(edits, {"lib": KINDS, "pairs": PAIRS}) as folder:
        status, lines, _ = refuse(folder, path=os.environ["PATH"])
    wanted = {name: "NOT REFUSED" if name == "two_otherwise" else "refused" for name in CHANGES}
    expect("what is told", wanted, told(lines))
    expect("the status and the last line", (1, "6 passed, 1 failed"), (status, lines[-1]), "the status", "the line")


CASES = (
    a_right_body_among_wrong_ones_is_told, what_rests_on_another_is_not_refused,
    nothing_counts_where_another_function_is_refused, edits_of_one_function_are_tried_apart,
    functions_of_each_kind_are_found, what_does_not_reach_the_prover_fails, bad_edits_fail, what_was_refused_is_kept,
    libraries_are_built_before, the_kit_refuses_what_it_is_to,
)
