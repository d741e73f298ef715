"""What a run writes: TAP (version 14), a summary by section, and tables."""

import json
import re

from conforming import rows
from conforming.cases import (
    ENDED, ERROR, KEPT, KEPT_AGAIN, MUST, NOT_KEPT, NOT_OFFERED, NOT_SEEN, SHOULD, WAYS, name_of,
)

RESULTS = (KEPT, KEPT_AGAIN, NOT_KEPT, ENDED, NOT_OFFERED, NOT_SEEN, ERROR)
BEGIN, END = "<!-- made by tools/conformance: begin -->", "<!-- made by tools/conformance: end -->"


def quoted(text):
    """A text as a string of YAML, in one line."""
    return json.dumps(" ".join(str(text).split()), ensure_ascii=False)


def sentence_of(case):
    """The sentence of the RFC that decides a case, if its function has one."""
    return " ".join((case.function.__doc__ or "").split())


def tap_lines(number, outcome):
    """The lines of a test point."""
    case = outcome.case
    by = f" ({', '.join(WAYS[it] for it in outcome.ways)})" if outcome.ways and not case.way else ""
    text = f"{case.section} {case.level} {name_of(case)}{by}".replace("\\", "\\\\").replace("#", "\\#")
    if outcome.result == KEPT:
        return [f"ok {number} - {text}"]
    if outcome.result in (NOT_OFFERED, NOT_SEEN):
        return [f"ok {number} - {text} # SKIP {outcome.result}: {outcome.text}"]
    # A SHOULD that isn't kept is no failure to a harness: there may be reasons for it. For an end there are none.
    is_todo = case.level == SHOULD and outcome.result == NOT_KEPT
    begin = "ok" if outcome.result == KEPT_AGAIN else "not ok"
    lines = [f"{begin} {number} - {text}" + (" # TODO a SHOULD" if is_todo else "")]
    fields = {
        "result": outcome.result, "level": case.level, "section": case.section,
        "requirement": rows.words_of(case.family), "rfc": sentence_of(case), "came": outcome.text,
    }
    return lines + ["  ---", *(f"  {key}: {quoted(value)}" for key, value in fields.items() if value), "  ..."]


def tap(outcomes):
    """A run as TAP."""
    lines = ["TAP version 14", f"1..{len(outcomes)}"]
    for number, outcome in enumerate(outcomes, 1):
        lines += tap_lines(number, outcome)
    return "\n".join([*lines, *("# " + it for it in summary(outcomes))])


def status(outcomes):
    """The status of a run: 2 if the suite itself stumbled, 1 if a MUST wasn't kept or the proxy ended, or else 0."""
    if any(it.result == ERROR for it in outcomes):
        return 2
    return int(any(it.result == ENDED or it.result == NOT_KEPT and it.case.level == MUST for it in outcomes))


def listed(case):
    """A case, what it needs, and whether it takes long, in one line."""
    notes = [*case.needs, *(["--long"] if case.is_long else [])]
    return f"{case.section} {case.level} {name_of(case)}" + (f" [{', '.join(notes)}]" if notes else "")


def section_key(section):
    """What sections are ordered by."""
    return [int(it) if it.isdigit() else 99 for it in re.split(r"[. ,]+", section)]


def counted(outcomes):
    """How many outcomes there are of each result."""
    return {result: sum(it.result == result for it in outcomes) for result in RESULTS}


def told(counts):
    return ", ".join(f"{count} {result}" for result, count in counts.items() if count)


def summary(outcomes):
    """A line for each section, and one for all MUST and SHOULD."""
    lines = []
    for section in sorted({it.case.section for it in outcomes}, key=section_key):
        lines.append(f"{section}: {told(counted([it for it in outcomes if it.case.section == section]))}")
    for level in sorted({it.case.level for it in outcomes}):
        lines.append(f"{level}: {told(counted([it for it in outcomes if it.case.level == level]))}")
    return lines + [f"all: {told(counted(outcomes))}"]


# Tables


def saved(outcomes, date, what):
    """A run as data."""
    results = {
        name_of(it.case): [it.case.family, it.case.section, it.case.level, it.result, it.text, list(it.ways)]
        for it in outcomes
    }
    return {"what": what, "date": date, "results": results}


def cell(results):
    """What the cases of one family came to."""
    counts = {result: sum(it[3] == result for it in results) for result in RESULTS}
    present = [result for result in RESULTS if counts[result]]
    if len(present) == 1:
        return present[0] if len(results) == 1 else f"{present[0]} ({len(results)})"
    return ", ".join(f"{result} {counts[result]}" for result in present)


def table(runs):
    """A table with a row for each family of cases and a column for each run."""
    heads = [f"{it['what']}, {it['date']}" for it in runs]
    lines = ["| Section | | Case | " + " | ".join(heads) + " |", "|---|---|---|" + "---|" * len(runs)]
    families = {}
    for run in runs:
        for family, section, level, *_ in run["results"].values():
            families.setdefault((section, family), level)
    for (section, family), level in sorted(families.items(), key=lambda it: section_key(it[0][0])):
        cells = []
        for run in runs:
            some = [it for it in run["results"].values() if it[0] == family and it[1] == section]
            cells.append(cell(some) if some else "")
        lines.append(f"| {section} | {level} | `{family}` | " + " | ".join(cells) + " |")
    return lines


def totals(runs):
    """A table of how many cases of each level came to what. Errors of the suite are a column only if there were any."""
    came = {it[3] for run in runs for it in run["results"].values()}
    results = [it for it in RESULTS if it != ERROR or it in came]
    lines = ["| | " + " | ".join(results) + " |", "|---|" + "---:|" * len(results)]
    for run in runs:
        for level in ("MUST", "SHOULD"):
            some = [it for it in run["results"].values() if it[2] == level]
            counts = [str(sum(it[3] == result for it in some)) for result in results]
            lines.append(f"| {run['what']}, {level} | " + " | ".join(counts) + " |")
    return lines


def failures(run):
    """A list of the families of cases that a run didn't keep, with what came in the first one."""
    failed, counts = {}, {}
    for name, (family, section, level, result, text, *_) in run["results"].items():
        key = section, level, family
        counts[key] = counts.get(key, 0) + 1
        if result in (NOT_KEPT, ENDED):
            failed.setdefault(key, []).append((name[len(family) + 1 :], result, text))
    return [failure_line(key, failed[key], counts[key]) for key in sorted(failed, key=lambda it: section_key(it[0]))]


def failure_line(key, failed, count):
    """The line of a family: how many of its cases weren't kept, how many ended the process, and the first one."""
    section, level, family = key
    label, _, text = failed[0]
    ended = sum(result == ENDED for _, result, _ in failed)
    how_many = f", {len(failed)} of {count}" if count > 1 else ""
    how_many += f" ({ended} ended)" if ended else ""
    return f"- {section} {level} `{family}`{how_many}: {label + ': ' if label else ''}{shortened(text)}"


def shortened(text, most=200):
    """A text for a list, in one line and without what Markdown takes for a tag."""
    text = " ".join(text.split()).replace("<", "&lt;").replace("|", "\\|")
    return text if len(text) <= most else text[:most] + " .."


def markdown(runs):
    """Runs as Markdown: totals, the table by families, and what wasn't kept."""
    lines = [*totals(runs), "", *table(runs)]
    for run in runs:
        lines += ["", f"What {run['what']} didn't keep on {run['date']}:", "", *(failures(run) or ["- nothing"])]
    return "\n".join(lines)


def put_between(path, text, begin=BEGIN, end=END):
    """Replaces what stands between two lines of a file."""
    with open(path, encoding="utf-8") as file:
        before, _, rest = file.read().partition(begin)
    _, mark, after = rest.partition(end)
    if not mark:
        raise ValueError(f"{path} has no lines {begin} and {end}")
    with open(path, "w", encoding="utf-8") as file:
        file.write(f"{before}{begin}\n\n{text}\n\n{end}{after}")
