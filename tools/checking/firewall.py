"""What the rules of examples/coap-proxyd.nft hold for, and how much such rules let through."""

import re
from collections import namedtuple

# The ports at which the proxies of a host listen by default: one, or those of tools/fleet, or of tools/spread.
PORTS = range(5_683, 5_755)
# The tables that messages of clients fill, and for how many seconds each keeps a message.
LIFETIMES = {"con_records": 247, "non_records": 145}

# How many messages a second some rules let through, and how many at once.
Allowed = namedtuple("Allowed", "rate burst")


def advice(first, last):
    """What is to be changed in the rules where proxies listen at ports from the first to the last, if something is."""
    if first in PORTS and last in PORTS:
        return None
    return f"In coap-proxyd.nft the set `ports` must have {first}-{last}, or these rules let everybody in."


def allowed(text):
    """How much rules let through of all addresses together, by the limits that aren't of single ones; none if there is
    no such limit."""
    found = re.findall(r"^\s*limit rate over (\d+)/second burst (\d+) packets drop$", text, re.MULTILINE)
    return Allowed(*(sum(int(it[place]) for it in found) for place in (0, 1))) if found else None


def told(rules, text, limits):
    """What is to be said of limits and of rules beside them: pairs of a text and whether it is a warning."""
    let = allowed(text)
    for key, lifetime in LIFETIMES.items():
        limit, own = limits[key], limits.get(f"client_{key}", limits[key])
        ports, rate = -(-limit // own), -(-limit // lifetime)
        senders = "one port" if ports == 1 else f"{ports} ports or addresses"
        said = f"{rate} messages a second from {senders} fill {key} ({limit}) in {lifetime} seconds; "
        if let is None:
            yield f"{said}{rules} limits no sum over all addresses", True
            continue
        most = let.rate * lifetime + let.burst
        said += f"{rules} lets {most} through in that time"
        seconds = max(0, limit - let.burst) // let.rate
        yield (f"{said}, which fills it within {seconds} seconds", True) if most > limit else (said, False)
