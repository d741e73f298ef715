"""A ladder: who takes part in a run, and what there is to draw of it."""

from drawing import words
from reading.belonging import sort_of
from reading.endpoints import short_endpoint

# A time in which nothing happened, in milliseconds, that is cut out.
IDLE = 1000


class Ladder:
    """The rows of a run with its lanes: the clients and the origins, in the order in which they came."""

    def __init__(self, rows, origins, names=None, title="", since=None, remark=""):
        self.rows, self.names, self.title, self.since, self.remark = rows, names or {}, title, since, remark
        peers = dict.fromkeys(row.peer for row in rows if row.peer)
        self.clients = [peer for peer in peers if peer not in origins]
        self.origins = [peer for peer in peers if peer in origins]

    def name_of(self, peer):
        """What an endpoint is called."""
        return self.names.get(peer) or short_endpoint(peer)

    def subtitle(self):
        """When the run was, how long, and how much there is of it."""
        if not self.rows:
            return "nothing to draw"
        count = sum(1 for row in self.rows if row.data is not None)
        length = words.seconds_text(self.rows[-1].moment - self.rows[0].moment)
        day = words.date_text(self.since)
        parts = [f"{day}, times in UTC" if day else "times in seconds", f"{count:,} datagrams in {length}", self.remark]
        return "; ".join(part for part in parts if part)

    def description(self):
        """The ladder in a sentence."""
        count = lambda number, name: f"{number:,} {name}{'' if number == 1 else 's'}"
        who = f"{count(len(self.clients), 'client')}, the proxy and {count(len(self.origins), 'origin')}"
        sorts = [sort_of(row) for row in self.rows if row.request and row.inward and not row.first and row.message.code]
        named = (
            ("hit", "from the cache"),
            ("miss", "asked of an origin"),
            ("validation", "validated"),
            ("error", "refused"),
        )
        told = [f"{sorts.count(sort):,} {name}" for sort, name in named if sorts.count(sort)]
        return f"A ladder of {who}; {count(len(sorts), 'request')}: {', '.join(told) or 'none'}."

    def sentence(self, row):
        """A row in words."""
        return words.sentence(row, self.name_of, self.since)
