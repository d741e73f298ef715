"""The maps and the origins of a running proxy, the worst first, from series that have such labels. Metrics are known by
parts of their names, so that another word in one of them does no harm."""

from collections import namedtuple

# The outcomes of requests that are answered, and those that a client is turned away with.
ANSWERED = ("hit", "joined", "opened")
TURNED = ("overloaded", "no_record_room", "no_id")

# A map: the rates of requests that are turned away, opened and answered, and of what share is how much from the cache.
Map = namedtuple("Map", "name turned opened asked hits whole")
# An origin: the rate and the number of requests that were given up, the rates of what is sent again, asked and answered
# with errors, the mean answer time in seconds, and for how many seconds it hasn't answered, if these are known.
Origin = namedtuple("Origin", "name given_up given_up_in_all again asked errors mean silent")


def is_turned(outcome):
    """Whether an outcome is that of a request that is turned away."""
    return outcome in TURNED or outcome.startswith("refused")


def of_outcomes(values, is_wanted):
    """The sum of those values whose labels have an outcome that is wanted."""
    return sum(value for key, value in values.items() if any(map(is_wanted, key[1:])))


def map_of(name, sums, rates):
    """A map. Where nothing is asked for now, its hits are those of all its time."""
    is_answered, is_hit, is_opened = ANSWERED.__contains__, "hit".__eq__, "opened".__eq__
    asked = of_outcomes(rates, is_answered)
    used = rates if asked else sums
    return Map(
        name, of_outcomes(rates, is_turned), of_outcomes(rates, is_opened), asked, of_outcomes(used, is_hit),
        of_outcomes(used, is_answered),
    )


def of_names(values, *parts, end=""):
    """The sum of those values whose metric has one of these parts in its name, and an end."""
    return sum(value for key, value in values.items() if key[0].endswith(end) and any(part in key[0] for part in parts))


def origin_of(name, sums, rates):
    """An origin."""
    answers = of_names(sums, "", end="_count")
    silent = [value for key, value in sums.items() if "since" in key[0]]
    return Origin(
        name, of_names(rates, "given_up", "gave_up"), of_names(sums, "given_up", "gave_up"),
        of_names(rates, "retrans", "resent"), of_names(rates, "requests", "_sent"),
        sum(value for key, value in rates.items() if "answers" in key[0] and key[-1][:1] in "45"),
        of_names(sums, "", end="_sum") / answers if answers else None, max(silent, default=None),
    )


def worst_maps(groups):
    """The maps: first those that turn most away, then those that ask their origins most."""
    return sorted((map_of(*group) for group in groups), key=lambda it: (-it.turned, -it.opened, it.name))


def worst_origins(groups):
    """The origins: first those that are given up most, then those that are asked again most, then the slowest."""
    found = (origin_of(*group) for group in groups)
    return sorted(found, key=lambda it: (-it.given_up, -it.given_up_in_all, -it.again, -(it.mean or 0), it.name))
