"""The targets of a stand-in: what a request is for, by its URI or its options (sections 5.7.2, 5.10.1 and 6.4)."""

import re

from conforming import model_wire, wire
from conforming.model_options import URI_OPTIONS
from conforming.model_wire import Target, UriError, decoded
from conforming.wire import PROXY_SCHEME, PROXY_URI, URI_HOST, URI_PATH, URI_PORT, URI_QUERY

NOT_SUPPORTED = wire.code("5.05")


class Targets:
    """What requests are for."""

    def target_of(self, it):
        """What a request is for, or None for what the proxy itself doesn't have."""
        values = {number: value for number, value in it.options if number in URI_OPTIONS}
        if PROXY_URI in values:
            target = self.target_of_uri(values[PROXY_URI])
        elif PROXY_SCHEME in values:
            target = self.target_of_scheme(it, values)
        else:
            target = Target(None, None, self.paths_of(it), self.queries_of(it))
        if self.has_dots(target):
            raise UriError(self.bad_uri)
        return self.mapped(target) if target.host is None else target

    def has_dots(self, target):
        return any(it in (b".", b"..") for it in target.path)

    def paths_of(self, it):
        return tuple(value for number, value in it.options if number == URI_PATH)

    def queries_of(self, it):
        return tuple(value for number, value in it.options if number == URI_QUERY)

    def target_of_scheme(self, it, values):
        """The target that a Proxy-Scheme and Uri options name."""
        if not self.serves_scheme(values[PROXY_SCHEME].decode("latin-1")):
            raise UriError(NOT_SUPPORTED)
        port = wire.number(values[URI_PORT]) if URI_PORT in values else self.default_port()
        if URI_HOST not in values:
            return Target(None, None, self.paths_of(it), self.queries_of(it))
        return self.located(values[URI_HOST].decode("latin-1"), port, self.paths_of(it), self.queries_of(it))

    def default_port(self):
        """The port of a Proxy-Scheme without a Uri-Port: the one that the request was sent to."""
        return self.port

    def serves_scheme(self, scheme):
        return scheme.lower() == "coap"

    def target_of_uri(self, value):
        """The target that a Proxy-Uri names."""
        found = self.match_uri(value)
        if found is None or found["fragment"] is not None:
            raise UriError(self.bad_uri)
        if not self.serves_scheme(found["scheme"]):
            raise UriError(NOT_SUPPORTED)
        port = self.port_of(found["port"])
        if not found["host"] or port > 65_535 or (found["path"] and not found["path"].startswith("/")):
            raise UriError(self.bad_uri)
        path, query = self.segments_of(self.resolved(found["path"])), self.arguments_of(found["query"])
        if not self.are_options(path + query):
            raise UriError(self.bad_uri)
        return self.located(found["host"], port, path, query)

    def match_uri(self, value):
        try:
            return model_wire.URI.fullmatch(value.decode("ascii"))
        except UnicodeDecodeError:
            return None

    def are_options(self, parts):
        """Whether the parts of a URI have the lengths that options may have."""
        return all(len(it) <= 255 for it in parts)

    def port_of(self, text):
        return int(text) if text else 5683

    def resolved(self, path):
        return model_wire.without_dots(path)

    def decoded(self, text):
        return decoded(text)

    def segments_of(self, path):
        """The segments of a path that begins with a slash, decoded."""
        return () if path in ("", "/") else tuple(self.decoded(it) for it in path[1:].split("/"))

    def arguments_of(self, query):
        """The arguments of a query, decoded."""
        return () if query is None else tuple(self.decoded(it) for it in query.split("&"))

    def located(self, host, port, path, query):
        """The target at a host and a port; without a host if that is the proxy itself."""
        host = self.plain_host(host)
        if self.is_own(host, port):
            return Target(None, None, path, query)
        if host in self.hosts and port:
            return Target(host, port, path, query)
        if not port or not self.is_address(host):
            raise UriError(NOT_SUPPORTED)
        return Target(host.strip("[]"), port, path, query)

    def is_address(self, host):
        """Whether a host is an address that it can send to: an IPv4 one, or the loopback's of IPv6."""
        if re.fullmatch(r"\d+\.\d+\.\d+\.\d+", host):
            return all(int(it) < 256 for it in host.split("."))
        return host == "[::1]" and self.host == "::1"

    def plain_host(self, host):
        """A host in lower case and decoded."""
        return decoded(host.lower()).decode("latin-1").lower()

    def is_own(self, host, port):
        return host in (*self.names, wire.literal(self.host)) and port == self.port

    def mapped(self, target):
        """The target that a path of the proxy itself is mapped to, or None."""
        for prefix, host, port in self.maps:
            if target.path[: len(prefix)] == prefix:
                return Target(host, port, target.path[len(prefix) :], target.query)
        return None
