"""Stand-ins that are wrong in one respect of targets: whose a URI is, and which Uri options it becomes."""

import re
import urllib.parse

from conforming import model_wire, wire
from conforming.model import NOT_FOUND, Proxy
from conforming.model_cache import CONTENT
from conforming.model_origins import TIMEOUT
from conforming.model_wire import Target, UriError
from conforming.wire import PROXY_URI, URI_HOST, URI_PATH, URI_PORT, URI_QUERY


class SchemesIgnored(Proxy):
    def serves_scheme(self, scheme):
        return True

    def match_uri(self, value):
        return super().match_uri(b"coap" + value[value.index(b":") :] if b":" in value else value)


class OwnNamesForwarded(Proxy):
    """Takes its own names for those of others, and can't reach them."""

    def is_own(self, host, port):
        return False

    def target_of_scheme(self, it, values):
        if URI_HOST not in values:
            raise UriError(TIMEOUT)
        return super().target_of_scheme(it, values)


class PortsIgnored(Proxy):
    def is_own(self, host, port):
        return host in self.names


class OwnPortIgnored(Proxy):
    def default_port(self):
        return 5683


class UriOptionsMerged(Proxy):
    """Has Uri options beside a Proxy-Uri change what that says."""

    def target_of(self, it):
        target = super().target_of(it)
        values = dict(it.options)
        if target is None or PROXY_URI not in values:
            return target
        port = wire.number(values[URI_PORT]) if URI_PORT in values else target.port
        host = values[URI_HOST].decode() if URI_HOST in values else target.host
        path, query = target.path + self.paths_of(it), target.query + self.queries_of(it)
        return Target(host, port, path, query)


class UrisNotDecoded(Proxy):
    def decoded(self, text):
        return text.encode()


class UrisDecodedTwice(Proxy):
    def decoded(self, text):
        return model_wire.decoded(super().decoded(text).decode("latin-1"))

    def paths_of(self, it):
        return tuple(model_wire.decoded(one.decode("latin-1")) for one in super().paths_of(it))


class EmptySegmentsLost(Proxy):
    def target_options(self, target):
        return [it for it in super().target_options(target) if it[1]]


class SplitAfterDecoding(Proxy):
    """Decodes first, and then splits at what was a reserved character."""

    def target_options(self, target):
        segments = [it for one in target.path for it in one.split(b"?")[0].split(b"#")[0].split(b"/")]
        queries = [it for one in target.query for it in one.split(b"&")]
        return [(URI_PATH, it) for it in segments] + [(URI_QUERY, it) for it in queries]


class QueriesNotSplit(Proxy):
    def target_options(self, target):
        joined = [(URI_QUERY, b"&".join(target.query)[:255])] if target.query else []
        return [(URI_PATH, it) for it in target.path] + joined


class UrisCut(Proxy):
    """Has room for 200 bytes of a path, and for as many of a query."""

    def target_options(self, target):
        path, query = [], []
        for room, parts, kept in ((200, target.path, path), (200, target.query, query)):
            for it in parts:
                kept.append(it[:room])
                room -= len(it) + 1
                if room <= 0:
                    break
        return [(URI_PATH, it) for it in path] + [(URI_QUERY, it) for it in query]


class UriPartsCut(Proxy):
    """Has room for eight segments, and for 50 bytes of each."""

    def target_options(self, target):
        return [(number, value[:50]) for number, value in super().target_options(target)][:9]


class UriPartsCounted(Proxy):
    """Has room for 60 segments and 45 queries."""

    def target_options(self, target):
        return super().target_options(target._replace(path=target.path[:60], query=target.query[:45]))


class LongPartsSent(Proxy):
    def are_options(self, parts):
        return True


class UsersTaken(Proxy):
    """Passes over what stands before an at sign."""

    def match_uri(self, value):
        return super().match_uri(re.sub(rb"//[^/@]*@", b"//", value))


class DotsKept(Proxy):
    def resolved(self, path):
        return path

    def has_dots(self, target):
        return False


class PlusIsSpace(Proxy):
    def target_options(self, target):
        return [(number, value.replace(b"+", b" ")) for number, value in super().target_options(target)]


class DelimitersSplit(Proxy):
    """Takes sub-delimiters for the end of a segment, and doesn't send the rest."""

    def target_options(self, target):
        ends = b";:=&~"
        kept = []
        for number, value in super().target_options(target):
            end = min((value.index(it) for it in ends if it in value), default=len(value))
            kept.append((number, value[:end]))
        return kept


class LowerCaseUndecoded(Proxy):
    def decoded(self, text):
        encoded = text.replace("%7e", "%257e")
        return super().decoded(encoded)


class UriLost(Proxy):
    """Sends a segment more than the URI has, or one less."""

    def target_options(self, target):
        more = [(URI_PATH, b"")] if len(target.path) < 2 else []
        segments = [(URI_PATH, it) for it in target.path[: -1 if len(target.path) > 1 else None]]
        return segments + more + [(URI_QUERY, it) for it in target.query]


class CaseSensitive(Proxy):
    def serves_scheme(self, scheme):
        return scheme == "coap"


class PortsRequired(Proxy):
    def port_of(self, text):
        return int(text) + 1 if text == "5683" else int(text) if text else 5684


class SloppyUris(Proxy):
    """Takes for a URI what has a host somewhere, and what isn't one for a request to an origin that it can guess."""

    def target_of_uri(self, value):
        text = value.decode("latin-1").strip().replace("\t", "").replace("\n", "")
        authority = text.partition("//")[2].partition("/")[0] if "//" in text else ""
        host, _, port = authority.rpartition(":")
        digits = "".join(it for it in port if it.isdigit())[:5]
        if not host.startswith("127."):
            return Target(None, None, (), ()) if self.maps else None
        path = text.partition("//")[2].partition("/")[2].partition("#")[0]
        return Target(host, int(digits) % 65_536, tuple(path.encode("latin-1").split(b"/")), ())

    def error(self, waiter, code, options=()):
        if code == NOT_FOUND:
            code = CONTENT
        super().error(waiter, code, options)


class ComposedUnescaped(Proxy):
    """Composes a URI of Uri options without encoding, and takes it apart again."""

    def target_options(self, target):
        text = b"/".join(target.path) + (b"?" + b"&".join(target.query) if target.query else b"")
        path, mark, query = text.partition(b"#")[0].partition(b"?")
        segments = [model_wire.decoded(it.decode("latin-1")) for it in path.split(b"/")] if path else []
        queries = [model_wire.decoded(it.decode("latin-1")) for it in query.split(b"&")] if mark else []
        return [(URI_PATH, it) for it in segments] + [(URI_QUERY, it[:200]) for it in queries]


class EncodedAgain(Proxy):
    """Sends parts of a URI as they stand in it, percent-encoded."""

    def target_options(self, target):
        options = super().target_options(target)
        return [(number, urllib.parse.quote(value, safe="").encode()) for number, value in options]


class NextIsOrigin(Proxy):
    def chain_options(self, target):
        return []


class NamesLost(Proxy):
    def name_options(self, target):
        return []


class NamesAsTheyStand(Proxy):
    """Tells an origin its name as it stands in a URI."""

    def plain_host(self, host):
        plain = super().plain_host(host)
        self.asked = host if plain in self.hosts else None
        return plain

    def name_options(self, target):
        return [(URI_HOST, self.asked.encode())]


class NamesAreAddresses(Proxy):
    """Has what is stored for a name be that of its address."""

    def key_of(self, target, options):
        return super().key_of(target._replace(host=self.hosts.get(target.host, target.host)), options)


class QueriesLost(Proxy):
    def target_options(self, target):
        return [it for it in super().target_options(target) if it[0] != URI_QUERY]
