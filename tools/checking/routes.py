"""Names, addresses, prefixes and origins, as coap-proxyd reads them."""

import ipaddress
import re
from collections import namedtuple
from urllib.parse import unquote_to_bytes

from checking.toml_lines import NotRead

# A map: its number (0 for that of the words), and its texts with their lines.
Route = namedtuple("Route", "number prefix origin")
# Where a map leads, or a next proxy is: an address, a port and a path as text.
Origin = namedtuple("Origin", "address port path")

LONGEST = 255
# What a host can't have (the URL Standard, forbidden host code points).
NO_HOST = re.compile(r"[\x00\t\n\r #/:<>?@\[\\\]^|]")


def ipv4_of(text):
    """The IPv4 address that a text is, in dotted-decimal form without leading zeros."""
    number = "(0|[1-9][0-9]{0,2})"
    parts = re.fullmatch(r"\.".join([number] * 4), text)
    if not parts or any(int(it) > 255 for it in parts.groups()):
        return None
    return ipaddress.IPv4Address(text)


def ipv6_of(text):
    """The IPv6 address that a text is."""
    ipv4 = text.rpartition(":")[2]
    if not re.fullmatch("[0-9A-Fa-f:.]*", text) or ("." in ipv4 and ipv4_of(ipv4) is None):
        return None
    try:
        return ipaddress.IPv6Address(text)
    except ValueError:
        return None


def host_of(text):
    """The address that a text is: IPv4, or IPv6 in brackets."""
    return ipv6_of(text[1:-1]) if text.startswith("[") and text.endswith("]") else ipv4_of(text)


def next_proxy_of(text):
    """Where a next proxy is, with no path, or nothing if the text isn't one."""
    found = re.fullmatch(r"coap://([^\[\]:]*|\[[^\[\]]*\])(?::([1-9][0-9]{0,4}))?", text)
    address, port = (host_of(found[1]), int(found[2] or "5683")) if found else (None, 0)
    return Origin(address, port, "") if address is not None and port < 65_536 else None


def is_name(text):
    """Whether a text may be a name: 1 to 255 visible ASCII characters, none of them a comma."""
    return bool(re.fullmatch(r"[!-+\--~]{1,255}", text))


def lower(text):
    """A text with its ASCII letters in lower case."""
    return "".join(it.lower() if it.isascii() else it for it in text)


def name_of(text):
    """A name as names are compared."""
    return lower(text).encode()


def prefix_fault(text):
    """What is wrong with a prefix, if something is."""
    if not text.startswith("/"):
        return "doesn't begin with a slash"
    return "has a ? or a #" if "?" in text or "#" in text else None


def port_of(text):
    """The port after the host of a URI, or what is wrong with it."""
    if not re.fullmatch("(:[0-9]*)?", text):
        return "has something else than a port after its host"
    port = int(text[1:] or "5683")
    return port if 0 < port < 65_536 else "has a port out of 1 to 65535"


def path_fault(path):
    """What is wrong with the path of a URI, if something is."""
    parts = path.split("/")
    if all(len(unquote_to_bytes(it)) <= LONGEST for it in parts):
        return None
    if any(unquote_to_bytes(it) == b".." for it in parts):
        raise NotRead("a long path with .. in it")
    return f"has a segment of more than {LONGEST} bytes"


def authority_of(authority, known):
    """The address and the port of a URI, where hosts are known by their names; or what is wrong with them."""
    user, at, rest = authority.rpartition("@")
    if at and not user.strip(":"):
        raise NotRead("an empty user in a URI")
    if at:
        return "has a user"
    host, _, port = rest.partition("]") if rest.startswith("[") else (re.split(":", rest)[0], "", "")
    port = port_of(port if rest.startswith("[") else rest[len(host) :])
    if rest.startswith("["):
        address = ipv6_of(host[1:]) if "]" in rest else None
        return (address, port) if address else "has no IPv6 address in its brackets"
    if not host or NO_HOST.search(host):
        return "has no host"
    name = unquote_to_bytes(lower(host))
    address = ipv4_of(host) or known.get(name)
    if len(name) > LONGEST or address is None:
        return "has a host that is neither an address nor among the hosts"
    return address, port


def origin_of(text, known):
    """Where an origin leads, or what is wrong with it."""
    # What a URL may have at its ends and within, by the URL Standard.
    text = re.sub("[\t\n\r]", "", text.strip("".join(map(chr, range(0x21)))))
    scheme, colon, rest = text.partition(":")
    if not colon or scheme.lower() != "coap":
        return "hasn't the scheme coap"
    if "#" in rest or "?" in rest:
        return "has a query or a fragment"
    if not rest.startswith("//"):
        return "has no host"
    authority, slash, path = rest[2:].partition("/")
    found = authority_of(authority, known)
    if isinstance(found, str):
        return found
    address, port = found
    if isinstance(port, str):
        return port
    return path_fault(path) or Origin(address, port, slash + path)
