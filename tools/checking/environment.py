"""Where the units of systemd have a proxy listen: the file of ADDRESS and PORT that belongs to a configuration."""

import os
import re


def candidates(config):
    """Where the file that belongs to a configuration may be: beside it, as tools/fleet writes it, or as a unit reads
    it: coap-proxyd.service for coap-proxyd.toml, and coap-proxyd@NAME.service for coap-proxyd/NAME.toml."""
    folder, name = os.path.split(os.path.abspath(config))
    name = name[: -len(".toml")] if name.endswith(".toml") else name
    yield os.path.join(folder, f"coap-proxyd-{name}")
    above, inside = os.path.split(folder)
    if inside == "coap-proxyd":
        yield os.path.join(above, "default", f"coap-proxyd-{name}")
    if name == "coap-proxyd":
        yield os.path.join(folder, "default", name)


def file_of(config):
    """The file that belongs to a configuration, if there is one."""
    return next(filter(os.path.isfile, candidates(config)), None)


def variables(path):
    """What a file says of each variable, as systemd reads it."""
    with open(path, encoding="utf-8") as file:
        found = re.findall(r"^[ \t]*([A-Z]+)=(.*?)[ \t]*$", file.read(), re.MULTILINE)
    return {name: value[1:-1] if re.fullmatch("([\"']).*\\1", value) else value for name, value in found}
