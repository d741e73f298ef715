"""What coap-proxyd would say of a configuration, with the line and the value, and what looks like a slip in one."""

from collections import namedtuple

from checking.routes import Route, host_of, is_name, name_of, origin_of, prefix_fault
from checking.toml_lines import Value

# A line, what is wrong there, the program's name for the fault, or none for what it accepts, and whether it is a note.
Finding = namedtuple("Finding", "line text fault is_note", defaults=(None, False))

# The limits that all clients share, in the program's order, with their least and greatest values and their defaults.
SHARED = {
    "cache_bytes": (0, 268_435_456, 262_144),
    "cache_entries": (1, 65_536, 1_024),
    "con_records": (1, 65_536, 4_096),
    "non_records": (1, 65_536, 4_096),
    "exchanges": (1, 4_096, 256),
    "waiters": (1, 16_384, 1_024),
    "nstart": (1, 16, 1),
    "datagram": (128, 4_096, 1_500),
    "exchange_ms": (1_000, 600_000, 93_000),
    "retry_s": (0, 3_600, 5),
}
# Those of each client, which only version 2 knows; each begins with this and ends with the name of the shared one.
CLIENT = "client_"
OF_CLIENT = {
    "client_con_records": (1, 65_536, 256),
    "client_non_records": (1, 65_536, 256),
    "client_exchanges": (1, 4_096, 16),
    "client_waiters": (1, 16_384, 64),
}
LIMITS = {**SHARED, **OF_CLIENT}
TOP = ("version", "names", "limits", "hosts", "map")
MOST = {"names": 64, "hosts": 256, "map": 64}
MORE_MAPS = "; tools/fleet (coap-proxyd-fleet) writes configurations of several instances for more"


def shown(value):
    """A value as a reader would write it."""
    if isinstance(value, str):
        return '"' + value + '"'
    return {list: "a list", dict: "a table"}.get(type(value)) or str(value).lower()


def unknown_keys(table, known, where="", known_later=()):
    """The keys of a table that aren't known, in the program's order, some of which a later version knows."""
    for key in sorted(set(table) - set(known)):
        text = "is a key of version 2 only" if key in known_later else "isn't a key: there are " + ", ".join(known)
        yield Finding(table[key].line, f"{where}{key} {text}", f"key {where}{key}")


def check_version(table):
    if "version" not in table:
        yield Finding(1, "version = 2 is missing", "key version")
    elif type(table["version"].value) is not int or table["version"].value not in (1, 2):
        yield Finding(table["version"].line, f"version is {shown(table['version'].value)}, not 1 or 2", "value version")


def known_limits(table):
    """The limits that the version of a configuration knows."""
    return SHARED if "version" in table and table["version"].value == 1 else LIMITS


def check_kinds(table, key, kind, what):
    """Whether a key at the top has a value of a kind, and if not, a finding."""
    if key in table and not isinstance(table[key].value, kind):
        yield Finding(table[key].line, f"{key} is {shown(table[key].value)}, not {what}", f"value {key}")


def check_names(table):
    """What isn't a text among the own names."""
    yield from check_kinds(table, "names", list, "a list of names")
    for item in own_names(table, every=True):
        if not isinstance(item.value, str):
            yield Finding(item.line, f"names has {shown(item.value)}, which isn't a text in quotes", "value names")


def check_limits(table):
    """Limits that aren't known or are out of their ranges."""
    yield from check_kinds(table, "limits", dict, "a table")
    limits, known = member(table, "limits", dict), known_limits(table)
    yield from unknown_keys(limits, known, "limits.", OF_CLIENT)
    for key, (least, most, _) in known.items():
        if key in limits:
            value = limits[key].value
            if type(value) is not int or not least <= value <= most:
                text = f"{key} is {shown(value)}: it must be a number from {least} to {most}"
                yield Finding(limits[key].line, text, f"value limits.{key}")


def check_hosts(table):
    """Hosts whose addresses aren't texts."""
    yield from check_kinds(table, "hosts", dict, "a table")
    for name, item in sorted(member(table, "hosts", dict).items()):
        if not isinstance(item.value, str):
            text = f"the address of {name} is {shown(item.value)}, which isn't a text in quotes"
            yield Finding(item.line, text + dotted_hint(name, item), f"value hosts.{name}")


def dotted_hint(name, item):
    """How to write a name with dots, if a host's address is a table: TOML reads such a name as a path."""
    path = name
    while isinstance(item.value, dict) and len(item.value) == 1:
        key, item = next(iter(item.value.items()))
        path += "." + key
    return f': a name with dots stands in quotes, "{path}" = "{item.value}"' if isinstance(item.value, str) else ""


def check_maps(table):
    """Maps that aren't tables of two texts."""
    yield from check_kinds(table, "map", list, "[[map]], in double brackets")
    for number, item in enumerate(member(table, "map", list), 1):
        if not isinstance(item.value, dict):
            yield Finding(item.line, f"map {number} is {shown(item.value)}, not a table", "value map")
            continue
        yield from unknown_keys(item.value, ("prefix", "origin"), "map.")
        for key in ("prefix", "origin"):
            if key not in item.value:
                yield Finding(item.line, f"map {number} has no {key}", f"value map.{key}")
            elif not isinstance(item.value[key].value, str):
                text = f"map {number}: {key} is {shown(item.value[key].value)}, which isn't a text in quotes"
                yield Finding(item.value[key].line, text, f"value map.{key}")


def member(table, key, kind):
    """What stands under a key, or nothing where it is missing or of another kind."""
    value = table[key].value if key in table else None
    return value if isinstance(value, kind) else kind()


def own_names(table, every=False):
    """The own names that are texts, or every item among them."""
    return [it for it in member(table, "names", list) if every or isinstance(it.value, str)]


def hosts(table):
    """The hosts with their addresses: pairs of a name and a value."""
    return [(name, it) for name, it in sorted(member(table, "hosts", dict).items()) if isinstance(it.value, str)]


def maps(table):
    """The maps that have both texts: a number, the prefix and the origin of each."""
    for number, item in enumerate(member(table, "map", list), 1):
        pair = [item.value.get(key) for key in ("prefix", "origin")] if isinstance(item.value, dict) else [None]
        if all(isinstance(it, Value) and isinstance(it.value, str) for it in pair):
            yield Route(number, *pair)


def check_routes(table):
    """Names, hosts and maps that make up no routes."""
    for item in own_names(table):
        if not is_name(item.value):
            text = f"the own name {shown(item.value)} isn't 1 to 255 visible characters without a comma"
            yield Finding(item.line, text, "routes")
    known = {}
    for name, item in hosts(table):
        yield from check_host(name, item, known)
    for route in maps(table):
        yield from check_map(route, known)
    for key, most in MOST.items():
        items = list(member(table, key, dict if key == "hosts" else list))
        items = [table[key].value[it] for it in items] if key == "hosts" else items
        if len(items) > most:
            many = {"names": "own name", "hosts": "host", "map": "map"}[key]
            text = f"{many} {most + 1}: there may be {most}" + (MORE_MAPS if key == "map" else "")
            yield Finding(sorted(it.line for it in items)[most], text, "routes")


def check_host(name, item, known):
    """What is wrong with a host. If nothing is, it is known from then on."""
    address = host_of(item.value)
    if not is_name(name):
        yield Finding(item.line, f"the host {shown(name)} isn't 1 to 255 visible characters without a comma", "routes")
    elif host_of(name) is not None:
        yield Finding(item.line, f"the host {shown(name)} is an address itself", "routes")
    elif address is None:
        text = f"the address of {name} is {shown(item.value)}: it must be IPv4, or IPv6 in brackets, without a port"
        yield Finding(item.line, text, "routes")
    if name_of(name) in known:
        yield Finding(item.line, f"the host {name} stands twice, since names are compared in lower case", "routes")
    known[name_of(name)] = address


def check_map(route, known, fault="routes"):
    """What is wrong with a map."""
    where = f"map {route.number}: " if route.number else ""
    text = prefix_fault(route.prefix.value)
    if text:
        yield Finding(route.prefix.line, f"{where}prefix {shown(route.prefix.value)} {text}", fault)
    origin = origin_of(route.origin.value, known)
    if isinstance(origin, str):
        yield Finding(route.origin.line, f"{where}origin {shown(route.origin.value)} {origin}", fault)


def faults(table):
    """What the program refuses in a configuration, in the order in which it looks."""
    yield from check_version(table)
    yield from unknown_keys(table, TOP)
    for check in (check_names, check_limits, check_hosts, check_maps, check_routes):
        yield from check(table)


def slips(table, memory_max):
    """What the program accepts and its author may not have meant."""
    for item in own_names(table):
        if host_of(item.value) is None and ":" in item.value:
            yield Finding(item.line, f"the own name {shown(item.value)} has a colon: an own name has no port")
    seen = {}
    for route in maps(table):
        yield from slips_of_map(route)
        first = seen.setdefault(route.prefix.value, route.number)
        if first != route.number:
            text = f"map {route.number} is never used, since map {first} has the same prefix"
            yield Finding(route.prefix.line, text)
    yield from slips_of_limits(table, memory_max)


def slips_of_map(route):
    """What may not be meant in a map."""
    where = f"map {route.number}: " if route.number else ""
    prefix, origin = route.prefix.value, route.origin.value
    if prefix != "/" and prefix.endswith("/"):
        text = f"prefix {shown(prefix)} has an empty segment, so it isn't the prefix of {prefix.rstrip('/') or '/'}/x"
        yield Finding(route.prefix.line, where + text)
    elif "//" in prefix:
        text = f"prefix {shown(prefix)} has an empty segment, so it is the prefix only of paths that have one there"
        yield Finding(route.prefix.line, where + text)
    path = origin.partition("://")[2].partition("/")[2]
    if path.endswith("/") or "//" in path:
        text = f"origin {shown(origin)} has an empty segment, so it is asked for {origin}/x"
        yield Finding(route.origin.line, where + text)


def most_bytes(limits):
    """How many bytes the proxy may come to hold with these limits (the manual, CAPACITY): what it counts, and about
    500 for each exchange and each waiter and 1,000 for each response."""
    counted = limits["cache_bytes"] + (limits["con_records"] + limits["non_records"]) * (limits["datagram"] + 128)
    counted += limits["waiters"] * (limits["datagram"] + 256) + limits["exchanges"] * (4 * limits["datagram"] + 256)
    return counted + 500 * (limits["exchanges"] + limits["waiters"]) + 1_000 * limits["cache_entries"]


def limits_of(table):
    """The limits of a configuration with those that it has by default, or nothing if one isn't a number."""
    said = member(table, "limits", dict)
    limits = {key: said[key].value if key in said else default for key, (_, _, default) in known_limits(table).items()}
    return limits if all(type(value) is int for value in limits.values()) else None


def slips_of_limits(table, memory_max):
    """Limits that the unit has no memory for, or that don't do what they seem to."""
    said, known, limits = member(table, "limits", dict), known_limits(table), limits_of(table)
    if limits is None:
        return
    line = table["limits"].line if "limits" in table else 1
    if most_bytes(limits) > memory_max:
        text = f"the limits allow {most_bytes(limits):,} bytes, and the unit's MemoryMax {memory_max:,}"
        yield Finding(line, text)
    if limits["exchange_ms"] > 93_000:
        text = "exchange_ms is over 93000: an origin that doesn't acknowledge is given up after 62 to 93 s all the same"
        yield Finding(said["exchange_ms"].line, text)
    for key in OF_CLIENT:
        if key in known:
            yield from slips_of_client(said, limits, key)
    yield from slips_of_polling(table, said, limits)


def slips_of_polling(table, said, limits):
    """Limits that a client reaches which asks for what is behind each map, all at once every ten seconds, in
    Confirmable requests from one port. A record of such a request lives for 247 seconds."""
    number = len(list(maps(table)))
    records = -(-247 * number // 10)
    for name, need in (("con_records", records), ("exchanges", number), ("waiters", number)):
        for key in (name, CLIENT + name):
            if key in limits and limits[key] < need:
                text = f"{key} is {limits[key]}" + ("" if key in said else " by default")
                text += f": a client that polls all {number} maps every ten seconds from one port takes {need}"
                yield Finding((said[key] if key in said else table.get("limits", table["version"])).line, text)


def slips_of_client(said, limits, key):
    """A limit of a client that is greater than the one that all share, so that it never has an effect."""
    shared = key[len(CLIENT) :]
    if 0 < limits[shared] < limits[key]:
        ours = f"{key} is {limits[key]}" + ("" if key in said else " by default")
        text = f"{ours}, but {shared} is {limits[shared]}: it has no effect, and one client can use up all"
        yield Finding(said[key if key in said else shared].line, text)
