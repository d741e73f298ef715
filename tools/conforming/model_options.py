"""The options of a stand-in: which it recognises, and which of a request it sends on (sections 5.4 and 5.7.1)."""

from conforming.wire import (
    ETAG, MAX_AGE, OBSERVE, PROXY_SCHEME, PROXY_URI, SIZE1, URI_HOST, URI_PATH, URI_PORT, URI_QUERY,
)

# The lengths of options (5.10, table 4), and those that may stand more than once.
REQUEST_LENGTHS = {
    1: (0, 8), URI_HOST: (1, 255), ETAG: (1, 8), 5: (0, 0), URI_PORT: (0, 2), URI_PATH: (0, 255), 12: (0, 2),
    URI_QUERY: (0, 255), 17: (0, 2), PROXY_URI: (1, 1034), PROXY_SCHEME: (1, 255), SIZE1: (0, 4),
}
RESPONSE_LENGTHS = {ETAG: (1, 8), 8: (0, 255), 12: (0, 2), MAX_AGE: (0, 4), 20: (0, 255), SIZE1: (0, 4)}
REPEATED_IN_REQUESTS, REPEATED_IN_RESPONSES = (1, ETAG, URI_PATH, URI_QUERY), (8, 20)
URI_OPTIONS = (URI_HOST, URI_PORT, URI_PATH, URI_QUERY, PROXY_URI, PROXY_SCHEME)


class Options:
    """Which options a proxy recognises, and which of them it refuses or sends on."""

    def is_recognised(self, number, value, before, lengths, repeated):
        """Whether an option is one that is known, has a length that it may have, and stands once if it must."""
        if number not in lengths or not self.has_length(number, value, lengths):
            return False
        return number in repeated or not self.stands_before(number, before)

    def has_length(self, number, value, lengths):
        return lengths[number][0] <= len(value) <= lengths[number][1]

    def stands_before(self, number, before):
        return number in before

    def unrecognised(self, options, lengths, repeated):
        """The options that aren't recognised."""
        found, before = [], set()
        for number, value in options:
            if not self.is_recognised(number, value, before, lengths, repeated):
                found.append((number, value))
            before.add(number)
        return found

    def request_lengths(self):
        return {**REQUEST_LENGTHS, OBSERVE: (0, 3)} if self.knows_observe else REQUEST_LENGTHS

    def refused(self, it):
        """The unrecognised options of a request that are unsafe to forward."""
        unknown = self.unrecognised(it.options, self.request_lengths(), REPEATED_IN_REQUESTS)
        return [it for it in unknown if self.is_unsafe(it[0])]

    def is_unsafe(self, number):
        return number & 2 != 0

    def carried(self, options):
        """The options of a request that are sent on beside those of the target."""
        dropped = (*URI_OPTIONS, MAX_AGE, OBSERVE)
        return [it for it in options if it[0] not in dropped]
