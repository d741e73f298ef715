"""All that is to be said of a configuration and the words that the program is started with."""

import ipaddress

from checking import configuration, firewall, toml_lines
from checking.configuration import Finding, check_map, faults, maps, slips
from checking.routes import Origin, Route, host_of, ipv4_of, ipv6_of, is_name, name_of, next_proxy_of, origin_of
from checking.toml_lines import NotRead, Value

BROADCAST = ipaddress.IPv4Address("255.255.255.255")


def check_address(words):
    """What is wrong with the address to listen at."""
    if words.address is not None and local_address(words) is None:
        yield Finding(None, f"-A {words.address} isn't an address", "address")


def local_address(words):
    """The address to listen at."""
    text = "0.0.0.0" if words.address is None else words.address
    return host_of(text) if text.startswith("[") else ipv4_of(text) or ipv6_of(text)


def check_names(words):
    """What is wrong with the next proxy and the own names of the words."""
    if words.names is None:
        return
    before, comma, names = words.names.partition(",")
    names = names.split(",")
    if not comma:
        yield Finding(None, f"-P {words.names} has no comma before the names", "proxy option")
    elif before and next_proxy_of(before) is None:
        text = f"-P {words.names}: {before} isn't a next proxy, such as coap://192.0.2.2:5683"
        yield Finding(None, text, "proxy option")
    elif len(names) > configuration.MOST["names"] or not all(map(is_name, names)):
        yield Finding(None, f"-P {words.names} isn't 1 to 64 names between commas", "proxy option")


def map_of_words(words):
    """The map of the words, in a list, if there is one and it has an equals sign."""
    prefix, equals, origin = (words.map or "").partition("=")
    return [Route(0, Value(prefix, None), Value(origin, None))] if equals else []


def check_word_map(words, table, known):
    """What is wrong with the map of the words, and what may not be meant in it."""
    if words.map is not None and "=" not in words.map:
        yield Finding(None, f"--map {words.map} has no equals sign", "map option")
    for route in map_of_words(words):
        yield from check_map(route, known, "map option")
        yield from configuration.slips_of_map(route)
        if len(configuration.member(table, "map", list)) >= configuration.MOST["map"]:
            yield Finding(None, f"--map is map 65: there may be 64{configuration.MORE_MAPS}", "map option")


def places(words, table, known):
    """Where requests are sent: a line, what leads there, and the place."""
    for route in [*maps(table), *map_of_words(words)]:
        origin = origin_of(route.origin.value, known)
        if isinstance(origin, Origin):
            yield route.origin.line, f"map {route.number}" if route.number else "--map", origin
    next_proxy = next_proxy_of((words.names or "").partition(",")[0])
    if next_proxy is not None:
        yield None, "-P", next_proxy


def kind_of(address):
    """What kind of address this is, if it is none of a single host that a socket can send to as it stands."""
    mapped = address.ipv4_mapped if address.version == 6 else None
    if mapped is not None:
        return f"is IPv4 in IPv6: write {mapped}"
    if address.is_multicast or address == BROADCAST:
        return "is of many hosts, and the answer of none is accepted"
    if address.is_unspecified:
        return "is of no host"
    if address.version == 6 and address.is_link_local:
        return "is link-local, and there is no way to say on which interface"
    return None


def slips_of_places(words, table, known):
    """What leads to the proxy itself, to no host, or to where its socket can't send."""
    here = local_address(words)
    if here is None:
        return
    for line, what, place in places(words, table, known):
        there = place.address
        kind = kind_of(there)
        if kind:
            yield Finding(line, f"{what}: {there} {kind}")
            continue
        if there == here or (here.is_unspecified and (there.is_loopback or there.is_unspecified)):
            if place.port == (words.port or 5683):
                yield Finding(line, f"{what} leads to the proxy itself")
        elif there.version != here.version and not (here.version == 6 and here.is_unspecified):
            text = f"{what}: from {here} no IPv{there.version} address is reached; -A :: reaches both kinds"
            yield Finding(line, text)
        elif here.is_loopback and not there.is_loopback:
            yield Finding(line, f"{what}: from {here} no other host is reached")


def notes_of_rules(words, table):
    """Whether those whom the rules of a firewall admit can fill the tables."""
    path, limits = getattr(words, "rules", None), configuration.limits_of(table)
    if path is None or limits is None:
        return
    try:
        with open(path, encoding="utf-8") as file:
            text = file.read()
    except (OSError, UnicodeDecodeError) as error:
        yield Finding(None, f"{path} can't be read: {error}")
        return
    for said, is_warning in firewall.told(path, text, limits):
        yield Finding(None, said, is_note=not is_warning)


def hosts_of(table):
    """The addresses of the hosts by name."""
    return {name_of(name): host_of(item.value) for name, item in configuration.hosts(table)}


def findings(words, memory_max):
    """All that is to be said of the words and the file, in the order in which the program looks."""
    yield from check_address(words)
    yield from check_names(words)
    try:
        with open(words.file, "rb") as file:
            data = file.read()
    except OSError as error:
        yield Finding(None, f"it can't be read: {error.strerror}", "file")
        return
    try:
        table = toml_lines.read_toml(data).value
    except toml_lines.Fault as fault:
        yield Finding(fault.line, fault.text, "syntax")
        return
    known = hosts_of(table)
    yield from faults(table)
    yield from check_word_map(words, table, known)
    yield from slips(table, memory_max)
    yield from slips_of_places(words, table, known)
    yield from notes_of_rules(words, table)


def judge(words, memory_max):
    """The findings, and the program's verdict: accepted, refused or not judged, with the reason."""
    found = []
    try:
        found.extend(findings(words, memory_max))
    except NotRead as why:
        return found, f"not judged: {why}"
    faults_found = [it.fault for it in found if it.fault]
    return found, f"refused: {faults_found[0]}" if faults_found else "accepted"
