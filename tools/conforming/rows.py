"""The rows of docs/RFC7252.md, which have the requirements' words and name the cases."""

import os
import re

from conforming.cases import KEPT, KEPT_AGAIN, NOT_OFFERED, NOT_SEEN, name_of

TOP = os.path.dirname(os.path.dirname(os.path.dirname(os.path.abspath(__file__))))
PAGE = os.path.join(TOP, "docs", "RFC7252.md")
# A case that a row names: a link to the module that plays it.
NAMED = re.compile(r"\[`(\w+)`\]\(\.\./tools/conforming/(\w+)\.py\)(?: \((\d+) of (\d+)\))?")

# What doesn't concern a proxy has a case only where something is seen of it all the same.
WITHOUT = ("Not concerned",)


class Row:
    """A requirement: its words, the heading that it stands under, the families of its cases, and whether the row says
    why there are none."""

    def __init__(self, words, heading, families, is_unseen):
        self.words, self.heading, self.families, self.is_unseen = words, heading, families, is_unseen


def rows():
    """All rows of the page, or none if it isn't there."""
    if not os.path.exists(PAGE):
        return []
    found, heading = [], ""
    with open(PAGE, encoding="utf-8") as file:
        lines = file.read().splitlines()
    for line in lines:
        if line.startswith("## "):
            heading = line[3:].strip()
        elif line.startswith(("| ", "- ")):
            found.append(row_of(line, heading))
    return found


def row_of(line, heading):
    """The row that a line of a table or of a list is."""
    words = line[2:].split(" | ")[0] if line.startswith("|") else line[2:].split(". ")[0]
    families = {it[0]: (it[1], int(it[2] or 0), int(it[3] or 0)) for it in NAMED.findall(line)}
    return Row(words.strip(), heading, families, "ot seen: " in line)


def words_of(family):
    """The requirement that a family of cases shows."""
    return next((row.words for row in rows() if family in row.families), "")


def check_names(cases):
    """What is wrong between the page and the cases: families that no row names, names of none, links to another module,
    and rows that name none and don't say why."""
    modules = {it.family: it.function.__module__.rpartition(".")[2] for it in cases}
    named = {}
    for row in rows():
        for family, (module, _, _) in row.families.items():
            named.setdefault(family, []).append(module)
    faults = [f"no row names {it}" for it in modules if it not in named]
    faults += [
        f"no case, and no word why: {row.words}" for row in rows()
        if not row.families and not row.is_unseen and row.heading not in WITHOUT and not row.words.startswith("Section")
    ]
    for family, found in named.items():
        if modules.get(family) != found[0]:
            faults.append(f"{family} is no case of {found[0]}")
    return faults


def check_outcomes(outcomes):
    """What is wrong between the rows that aren't kept and a run of this program: a case that isn't kept and whose row
    doesn't say so, and a row that says so of more or fewer cases than there were."""
    told = {
        family: counts for row in rows() if row.heading == "Not kept" for family, counts in row.families.items()
    }
    faults, failed, seen = [], {}, {}
    for outcome in outcomes:
        family = outcome.case.family
        is_seen = outcome.result not in (NOT_SEEN, NOT_OFFERED)
        seen[family] = seen.get(family, 0) + is_seen
        if is_seen and outcome.result not in (KEPT, KEPT_AGAIN):
            failed[family] = failed.get(family, 0) + 1
            if family not in told:
                faults.append(f"{name_of(outcome.case)} is {outcome.result}: {outcome.text}")
    for family, (_, few, _) in told.items():
        wanted = few or seen.get(family, 0)
        if seen.get(family) and failed.get(family, 0) != wanted:
            count = failed.get(family, 0)
            faults.append(f"{family}: the page says that {wanted} of its cases aren't kept, and {count} weren't")
    return faults
