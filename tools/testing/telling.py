"""What a failing test says: of values, where they differ; of messages, the parts that were expected, and a datagram as
a whole, in words."""

import re

from reading.messages import KINDS, code_name, option_name, option_value, quoted, read

# Up to how many characters two values are told as a whole.
SHORT = 160
# A line that ends with an endpoint and a datagram, perhaps an empty one.
DATAGRAM = re.compile(rb"(?:\d+ )?\S+:\d+ (?:((?:[0-9A-Fa-f]{2})+)|-)")


def options_text(options):
    """The options of a message."""
    return ", ".join(f"{option_name(code)} {option_value(code, value)}" for code, value in options) or "no options"


# How the value of each part of a message is told.
PARTS = {
    "kind": lambda value: KINDS[value],
    "code": code_name,
    "message_id": lambda value: f"Message ID 0x{value:04x}",
    "token": lambda value: f"token 0x{value.hex()}" if value else "no token",
    "options": options_text,
    "payload": lambda value: f"payload {quoted(value)}" if value else "no payload",
}


def parts_text(parts):
    """Parts of a message by their names."""
    return ", ".join(PARTS[name](value) for name, value in parts.items())


def datagram_text(data):
    """A datagram with all its parts."""
    try:
        return parts_text(read(data)._asdict())
    except ValueError as fault:
        return f"{data.hex() or 'no bytes'}, which is no message: {fault}"


def line_text(line):
    """A line of a replay's output or of a worked run, and in a second line the datagram at its end, if there is one."""
    text = line[:300].decode("utf-8", "backslashreplace")
    found = DATAGRAM.fullmatch(line)
    return f"{text}\n    {datagram_text(bytes.fromhex((found[1] or b'').decode()))}" if found else text


def entries_text(wanted, came):
    """How two dictionaries differ: each key with both values, or that it isn't there."""
    told = {key: [repr(it[key]) if key in it else "nothing" for it in (wanted, came)] for key in {**wanted, **came}}
    return "; ".join(f"of {key!r}: expected {one}, got {other}" for key, (one, other) in told.items() if one != other)


def difference_text(wanted, came):
    """How what came differs from what was expected: of dictionaries and sets all that does, and of long lists or texts of
    several lines the first entry or line."""
    if isinstance(wanted, dict) and isinstance(came, dict):
        return entries_text(wanted, came)
    if isinstance(wanted, (set, frozenset)) and isinstance(came, (set, frozenset)):
        return f"lacking {sorted(map(repr, wanted - came))}, beyond it {sorted(map(repr, came - wanted))}"
    whole = f"expected {wanted!r}, got {came!r}"
    if len(whole) <= SHORT or type(wanted) is not type(came):
        return whole
    if isinstance(wanted, (str, bytes)):
        (one, other), what = (it.splitlines(True) for it in (wanted, came)), "line"
    elif isinstance(wanted, list):
        one, other, what = wanted, came, "entry"
    else:
        return whole
    at = next((n for n, (a, b) in enumerate(zip(one, other)) if a != b), min(len(one), len(other)))
    told = [repr(it[at]) if at < len(it) else "the end" for it in (one, other)]
    return f"{what} {at + 1} of {len(one)}: expected {told[0]}, got {told[1]}" + f" of {len(other)}" * (len(one) != len(other))
