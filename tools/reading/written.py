"""Messages of CoAP, written without the proxy's code (RFC 7252, 3)."""


def nibble(count):
    """The four bits of a delta or a length, and the bytes that extend them."""
    if count < 13:
        return count, b""
    return (13, bytes([count - 13])) if count < 269 else (14, (count - 269).to_bytes(2, "big"))


def option(number, value, before):
    """The encoding of an option that follows one with the number `before` (RFC 7252, 3.1)."""
    (delta, more_delta), (length, more_length) = nibble(number - before), nibble(len(value))
    return bytes([delta << 4 | length]) + more_delta + more_length + value


def message(kind, code, message_id, token=b"", options=(), payload=b""):
    """The encoding of a message. Options of one number stay in their order."""
    out, before = bytes([0x40 | kind << 4 | len(token), code]) + message_id.to_bytes(2, "big") + token, 0
    for number, value in sorted(options, key=lambda it: it[0]):
        out, before = out + option(number, value, before), number
    return out + (b"\xff" + payload if payload else b"")


def number_bytes(value):
    """A number as the value of an option, without leading zeros."""
    return value.to_bytes((value.bit_length() + 7) // 8, "big")
