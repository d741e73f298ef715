"""Stand-ins that have other words or another configuration than they are given."""

import re

from testing.right import Right


class OtherLimits(Right):
    def config(self, text):
        return re.sub(r"(?m)^(?!version)(\w+ = )(\d+)$", lambda it: it[1] + str(other(int(it[2]))), text)


class ClientsUnlimited(Right):
    """Has no limits for a client, as in version 1."""

    def config(self, text):
        return re.sub(r"(?m)^client_.*\n", "", text.replace("version = 2", "version = 1"))


class ClientsCountTogether(Right):
    """Has all clients together within the limits for one."""

    def config(self, text):
        for key, limit in re.findall(r"(?m)^client_(\w+) = (\d+)$", text):
            text = re.sub(rf"(?m)^{key} = \d+$", f"{key} = {limit}", text)
        return text


class NstartIsOne(Right):
    def config(self, text):
        return re.sub(r"nstart = \d+", "nstart = 1", text)


class ShortPrefixesOnly(Right):
    def config(self, text):
        return re.sub(r'prefix = "/\w+/\w+"', 'prefix = "/no/path"', text)


class OtherFirstId(Right):
    def words(self, words):
        return [str(int(it) - 1) if before == "--id" else it for before, it in zip([""] + words, words)]


class RecordingEndsSoon(Right):
    """Has no room for a long datagram in a recording."""

    def words(self, words):
        return [*words, "--record-bytes", "8000"] if "--record" in words else words


class NothingDrawn(Right):
    def words(self, words):
        return [*words, "--id", "1", "--salt", "0"]


class NotCounted(Right):
    def words(self, words):
        kept = zip([""] + words, words)
        return [it for before, it in kept if not {before, it} & {"--stats", "--stats-file"}]


class BufferUnasked(Right):
    """Asks for no receive buffer of a size that it is told."""

    def words(self, words):
        kept = zip([""] + words, words)
        return [it for before, it in kept if "--receive-buffer" not in (before, it)]


def other(limit):
    """Another limit, which is in its range too."""
    return limit + 1 if limit < 100 else limit * 5 if limit < 10_000 else limit
