"""What must hold of the lines for OpenWrt in docs/DEPLOYING: that `uci` takes them as they stand, by its grammar, and
that together they make a rule of its firewall for the port at which the proxy listens."""

import re
import shlex

from testing.documents import blocks_of
from testing.network import expect
from testing.script import TOP, read

# What uci takes as the words of `set`: a section with its type, or an option of a section with its value.
SECTION = re.compile(r"([A-Za-z0-9_-]+)\.([A-Za-z0-9_]+)=([!-~]+)")
OPTION = re.compile(r"([A-Za-z0-9_-]+)\.([A-Za-z0-9_]+)\.([A-Za-z0-9_]+)=([^\0-\x1f]+)")
# What a rule of the firewall may have.
OF_RULE = """enabled name family src dest device direction ipset helper set_helper proto src_ip src_mac src_port
dest_ip dest_port icmp_type limit limit_burst utc_time start_date stop_date start_time stop_time weekdays monthdays
mark set_mark set_xmark dscp set_dscp counter log log_limit target""".split()
# Lines with a fault, and what is said of them.
FAULTS = (
    ("uci set firewall.coap.proto='udp'", "firewall.coap isn't a section yet"),
    ("uci set firewall.coap-1=rule", "uci doesn't take firewall.coap-1=rule"),
    ("uci set firewall.coap=rule x", "uci doesn't take firewall.coap=rule x"),
    ("uci add firewall rule", "this isn't looked at: uci add firewall rule"),
    ("uci set firewall.coap=rule", "not committed: firewall"),
)


def made_by(lines):
    """The sections that lines make, by their names, each with its type (as the option without a name) and its options;
    or what is wrong with a line."""
    sections, changed = {}, set()
    for line in lines:
        for command in line.split(" && "):
            words = shlex.split(command)
            fault = None
            if words[:2] == ["uci", "set"]:
                fault = set_by(" ".join(words[2:]), sections, changed)
            elif words[:2] == ["uci", "commit"] and len(words) == 3:
                changed.discard(words[2])
            elif not re.fullmatch(r"/etc/init\.d/\w+ (re)?start", command):
                fault = f"this isn't looked at: {command}"
            if fault:
                return fault
    return f"not committed: {' '.join(sorted(changed))}" if changed else sections


def set_by(word, sections, changed):
    """What is wrong with what `uci set` is to set, if something is; otherwise sets it."""
    section, option = SECTION.fullmatch(word), OPTION.fullmatch(word)
    if section:
        sections[section[1], section[2]] = {"": section[3]}
    elif option and (option[1], option[2]) not in sections:
        return f"{option[1]}.{option[2]} isn't a section yet"
    elif option:
        sections[option[1], option[2]][option[3]] = option[4]
    else:
        return f"uci doesn't take {word}"
    changed.add((section or option)[1])
    return None


def uci_takes_the_lines(_):
    for line, fault in FAULTS:
        expect(f"what is said of {line}", fault, made_by([line]))
    block = next(it for it in blocks_of("docs/DEPLOYING", "OpenWrt") if it.startswith("uci "))
    sections = made_by(block.splitlines())
    expect("which sections they make", [("firewall", "coap")], list(sections))
    (rule,) = sections.values()
    expect("of which type it is", "rule", rule.pop(""))
    expect("which options a rule doesn't have", [], [it for it in rule if it not in OF_RULE])
    port = re.search(r"(?m)^PORT=(\d+)$", read(TOP, "examples/coap-proxyd.default"))[1]
    wanted = {"proto": "udp", "dest_port": port, "target": "ACCEPT"}
    expect("what the rule lets in", wanted, {it: rule.get(it) for it in wanted})


CASES = (uci_takes_the_lines,)
