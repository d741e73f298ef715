"""What is chosen of a run: by clients, origins, targets and time."""

import re

from reading.belonging import Belonging
from reading.captures import Bad
from reading.endpoints import plain_endpoint

# After so many rows, those that can't be chosen any more are forgotten.
ROUND = 100_000
DAY = 86_400_000
CLOCK = re.compile(r"(\d{1,2}):(\d\d)(?::(\d\d(?:\.\d+)?))?")


def moment_since(text, since):
    """The moment that a word such as 12.5 (seconds) or 14:03:05 (the next such time of day in UTC) names."""
    clock = CLOCK.fullmatch(text)
    if clock is None:
        try:
            return round(float(text) * 1000)
        except ValueError:
            raise Bad(f"{text} is neither seconds nor a time of day such as 14:03:05") from None
    if since is None:
        raise Bad(f"{text}: the file doesn't say at what time of day it begins")
    hours, minutes, seconds = int(clock[1]), int(clock[2]), float(clock[3] or 0)
    return round(((hours * 60 + minutes) * 60 + seconds) * 1000 - since) % DAY


class Choice:
    """What is chosen: clients and origins by their endpoints, targets by a part of them, moments between two."""

    def __init__(self, clients=(), origins=(), targets=(), first=None, last=None):
        self.clients, self.origins = (set(map(plain_endpoint, some)) for some in (clients, origins))
        self.targets = tuple(targets)
        self.first, self.last = first, last

    def is_all(self):
        """Whether nothing is left out."""
        return not (self.clients or self.origins or self.targets) and self.first is None and self.last is None

    def has_moment(self, moment):
        """Whether it is within the time that is chosen."""
        return (self.first is None or moment >= self.first) and (self.last is None or moment <= self.last)

    def has_client(self, row):
        """Whether a row is of a client that is chosen, or of an exchange for one."""
        if not self.clients or row.peer in self.clients:
            return True
        if row.request is None and row.exchange:
            return any(it.client in self.clients for it in row.exchange.members)
        return False

    def has(self, row):
        """Whether a row is chosen."""
        exchange, request = row.exchange, row.request
        target = exchange.target if exchange else request.target if request else ""
        return (
            self.has_client(row)
            and (
                not self.origins or row.peer in self.origins or exchange is not None and exchange.origin in self.origins
            )
            and (not self.targets or any(it in target for it in self.targets))
        )


def is_settled(row):
    """Whether nothing that comes later makes a row belong to more."""
    return row.exchange is None or row.exchange.closed is not None


def chosen_rows(seen, choice, most):
    """The rows of what was seen that are chosen, or None if they are more than `most`, and who is an origin."""
    belonging, rows = Belonging(), []
    for it in seen:
        if choice.last is not None and it.moment > choice.last:
            break
        row = belonging.take(it)
        if choice.has_moment(row.moment):
            rows.append(row)
        if belonging.count % ROUND == 0:
            rows = [row for row in rows if not is_settled(row) or choice.has(row)]
            belonging.forget(it.moment)
        if len(rows) > most and choice.is_all():
            break
    rows = [row for row in rows if choice.has(row)]
    return (None if len(rows) > most else rows), belonging.origins
