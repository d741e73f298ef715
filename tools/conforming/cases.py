"""Cases of the suite: what a case is, how one is noted, and what may come of it."""

from collections import namedtuple

from testing.coap import MAX_AGE
from testing.telling import parts_text

MUST, SHOULD = "MUST", "SHOULD"
KEPT, NOT_KEPT, ENDED, NOT_OFFERED, NOT_SEEN = "kept", "not kept", "ended", "not offered", "not seen"
# What wasn't kept, and was when it was played again; and what the suite itself stumbled over.
KEPT_AGAIN, ERROR = "kept at the second time", "error"

# A case: its family's name and the label of its variant, the section, whether it is a MUST or a SHOULD, the function
# that plays it with its values, the faults of which at least one must be found, those that must all be found, what the
# proxy must offer, whether it takes longer than a minute, whether it is played while no other is, the way in which the
# proxy is asked, if it isn't the first one that it offers, and faults that other expectations of it find.
Case = namedtuple(
    "Case", "family label section level function values faults always needs is_long is_alone way also",
    defaults=("", ()),
)
# What came of a case, a text that says more: what came, or why it wasn't tried; the ways in which the proxy was asked;
# and the lines of the suite at which it wasn't kept.
Outcome = namedtuple("Outcome", "case result text ways places", defaults=("", (), ()))
# The ways to ask a proxy for what an origin has, and what is said of them; and what is played in one way alone.
WAYS = {"forward": "by Proxy-Uri", "scheme": "by Proxy-Scheme", "reverse": "under a prefix"}
IN_ONE_WAY = {*WAYS, "chain", "libcoap", "any address"}


class NotKept(Exception):
    """What the RFC has come, and what came."""


class NotOffered(Exception):
    """What a proxy doesn't have, so that a requirement can't be seen to be kept."""


class Broken(Exception):
    """Why the suite can't go on."""


def name_of(case):
    """The name of a case: that of its family, the label of its variant if there is one, and its way if it has one."""
    return " ".join(it for it in (case.family, case.label, WAYS.get(case.way)) if it)


def in_other_way(case):
    """A case as it is played under a prefix of a proxy that is asked by URIs, too. The stand-ins that it finds wrong
    are looked for without."""
    return case._replace(faults=(), always=(), also=(), needs=(*case.needs, "reverse", "another way"), way="reverse")


def case_list(section):
    """The cases of a section, and what a function is marked with to be among them.

    `each` has a variant for each of its values, or of its labels if it is a dictionary. A tuple is taken apart into
    arguments of the function. `faults` are the stand-ins that it must find wrong: each variant one of them at least,
    and all that stand in `always`. `also` are stand-ins that fail at what a case expects beside its requirement. The
    function's doc comment is the sentence of the RFC that decides, where the requirement alone doesn't. What doesn't
    need a certain way is played under a prefix as well, if the proxy can be asked in either way, unless `both` is
    false."""
    cases = []

    def case(
        level, *faults, always=(), also=(), each=None, at=section, needs=(), is_long=False, is_alone=False, both=True
    ):
        def note(function):
            labelled = each if isinstance(each, dict) else {str(value): value for value in each or ()}
            for label, value in labelled.items() if each else [("", ())]:
                values = value if isinstance(value, tuple) else (value,)
                cases.append(Case(
                    function.__name__, label, at, level, function, values, (*faults, *always), tuple(always),
                    tuple(needs), is_long, is_alone, "", tuple(also),
                ))
                if both and not is_alone and not IN_ONE_WAY & set(needs):
                    cases.append(in_other_way(cases[-1]))
            return function

        return note

    return cases, case


def shown(value):
    """A value for a reader."""
    return {True: "yes", False: "no"}[value] if isinstance(value, bool) else repr(value)


def expect(what, wanted, came):
    """Isn't kept where something isn't as wanted."""
    if wanted != came:
        raise NotKept(f"{what}: {shown(wanted)} is right, {shown(came)} came")


def expect_response(came, what="the response", **parts):
    """Isn't kept where a response has other parts than these, which have the names of its fields. Its Max-Age isn't
    compared."""
    others = came._replace(options=[it for it in came.options if it[0] != MAX_AGE])
    theirs = {name: getattr(others, name) for name in parts}
    if theirs != parts:
        raise NotKept(f"{what}: {parts_text(parts)} is right, {parts_text(theirs)} came")


def expect_between(what, least, most, came):
    """Isn't kept where a number isn't within bounds."""
    if not least <= came <= most:
        raise NotKept(f"{what}: {least:.6g} to {most:.6g} is right, {came:.6g} came")
