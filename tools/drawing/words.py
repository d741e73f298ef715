"""What stands at the arrows of a ladder, in the form of the figures of RFC 7252, and what is said of each datagram."""

import datetime
import re

from reading import messages
from reading.messages import ACK, CON, EMPTY, KINDS
from reading.replays import cause_of
from reading.runs import PERHAPS

# Options that a line has beside the path, in this order, and how many bytes of a payload.
TELLING = (messages.ETAG, messages.MAX_AGE, messages.OBSERVE, messages.BLOCK2, messages.BLOCK1)
SOME = 24
# What needs no words at the proxy, since an arrow shows it.
PLAIN = ("", "acked", "sent", "delivered", "idle", "unknown")
# What the outcomes are called that a peer is not to blame for, in a list of what went wrong.
DROPPED = {
    "no record room": "dropped: no record room",
    "no id": "dropped: no id",
    "out of memory": "dropped: out of memory",
    "gave up": "gave up",
    "rejected": "rejected",
    "ignored": "ignored",
}
LEFT = re.compile(r"Max-Age (\d+)")


def seconds_text(milliseconds):
    """A stretch of time, in words."""
    if milliseconds < 1000:
        return f"{milliseconds} ms"
    if milliseconds < 60_000:
        return f"{milliseconds / 1000:.3f}".rstrip("0").rstrip(".") + " s"
    minutes, seconds = divmod(milliseconds // 1000, 60)
    hours, minutes = divmod(minutes, 60)
    days, hours = divmod(hours, 24)
    parts = ((days, "d"), (hours, "h"), (minutes, "min"), (seconds, "s"))
    return " ".join(f"{count} {unit}" for count, unit in parts if count)


def time_text(moment, since):
    """A moment: the time of day in UTC where it is known, else seconds since the beginning."""
    if since is None:
        return f"{moment / 1000:.3f}"
    day = datetime.datetime.fromtimestamp((since + moment) / 1000, datetime.timezone.utc)
    return day.strftime("%H:%M:%S.") + f"{(since + moment) % 1000:03}"


def date_text(since):
    """The day on which a run began, or nothing."""
    if since is None:
        return ""
    return datetime.datetime.fromtimestamp(since / 1000, datetime.timezone.utc).strftime("%Y-%m-%d")


def head_text(row):
    """What stands above an arrow: type, Message ID, and the method with its path, or the code."""
    it = row.message
    if it is None:
        return f"{len(row.data)} bytes, no message of CoAP"
    head = f"{KINDS[it.kind]} [0x{it.message_id:04x}]"
    if it.code == EMPTY:
        return head
    path = f" {messages.path_of(it)}" if messages.is_request(it.code) else ""
    return f"{head} {messages.code_name(it.code)}{path}"


def detail_text(row):
    """What stands below an arrow: the token, the options that matter, and the payload."""
    it = row.message
    if it is None:
        return ""
    parts = [token_text(it.token)] if it.token else []
    for code in TELLING:
        parts += [
            f"{messages.option_name(code)} {messages.option_value(code, value)}"
            for number, value in it.options
            if number == code
        ]
    if it.payload:
        more = ".." if len(it.payload) > SOME else ""
        parts.append(messages.quoted(cut(it.payload, SOME)) + more)
    return " · ".join(parts)


def token_text(token):
    """A token, in the form of the RFC's figures. Of a long one, as the proxy's are, only its end."""
    digits = token.hex()
    return f"Token 0x{digits}" if len(digits) <= 8 else f"Token 0x…{digits[-4:]}"


def cut(payload, most):
    """The first bytes of a payload, without a part of a character at the end."""
    while 0 < most < len(payload) and payload[most] & 0xC0 == 0x80:
        most -= 1
    return payload[:most]


def note_text(row):
    """What is said at the proxy: the outcome and its cause, in the program's words, without what an arrow shows."""
    outcome, cause = row.outcome, cause_of(row.words)
    if row.words.startswith(PERHAPS) and outcome not in PLAIN:
        return PERHAPS + outcome
    if outcome == "hit":
        left = LEFT.search(cause)
        return f"hit, {left[1]} s left" if left else "hit"
    if outcome in ("joined", "opened", "again", "resent", "gave up"):
        return outcome
    if outcome == "sent" and row.exchange and row.exchange.validates:
        return f"sent, ETag {' '.join(re.findall('ETag ([0-9a-f]+)', cause))}"
    if row.data is None or outcome == "unknown":
        return row.words
    return "" if outcome in PLAIN else f"{outcome} {cause}".strip()


def trouble_text(row):
    """What went wrong at a row, as a list of such things has it, or nothing. What is sent again stands there once."""
    it = row.message
    if row.first:
        return ""
    if row.outcome == "ignored" and it and it.kind in (messages.ACK, messages.RST):
        return ""
    if row.outcome in DROPPED:
        return DROPPED[row.outcome]
    if it and row.code >= 0x80 and not row.inward:
        return messages.code_name(row.code)
    if not row.is_silent() or not row.inward and row.replied:
        return ""
    if row.exchange and row.exchange.closed and row.exchange.closed.outcome == "gave up":
        return ""
    return "no answer" if it and messages.is_request(it.code) else "not acknowledged"


def reply_text(row):
    """What is missing at the end of an arrow that got no reply."""
    if not row.is_silent():
        return ""
    return "no answer" if row.inward and messages.is_request(row.code) else "no reply"


def fields_of(row):
    """The parts of a datagram, each as a name and a value."""
    it = row.message
    if it is None:
        return []
    fields = [
        (
            "Type",
            {CON: "CON, Confirmable", messages.NON: "NON, Non-confirmable", ACK: "ACK, Acknowledgement"}.get(
                it.kind, "RST, Reset"
            ),
        ),
        ("Code", f"{messages.code_text(it.code)} {messages.CODES.get(it.code, '')}".rstrip()),
        ("Message ID", f"0x{it.message_id:04x} ({it.message_id})"),
        ("Token", f"0x{it.token.hex()}" if it.token else "empty"),
    ]
    fields += [(messages.option_name(code), messages.option_value(code, value)) for code, value in it.options]
    if it.payload:
        fields.append(("Payload", messages.quoted(it.payload)))
    return fields


def sentence(row, name_of, since):
    """A row as a sentence, for who can't see it."""
    at = f"{time_text(row.moment, since)}{' s' if since is None else ''}"
    if row.data is None:
        return f"{at}: the proxy: {row.words}"
    way = f"{name_of(row.peer)} to the proxy" if row.inward else f"the proxy to {name_of(row.peer)}"
    again = "again, " if row.first else ""
    parts = [part for part in (head_text(row), detail_text(row), note_text(row), reply_text(row)) if part]
    return f"{at}: {again}{way}: {'; '.join(parts)}"
