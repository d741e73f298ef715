"""Stand-ins that are wrong in one respect of messages: their parts, duplicates, senders, and when they are sent."""

from testing.coap import ACK, CON, CONTENT, EMPTY, GET, NON, OBSERVE, RST, message, read
from testing.right import Right, edited


class PayloadChanged(Right):
    def to_client(self, data, client):
        return [data[:-1] + bytes([data[-1] ^ 1])] if read(data).payload else [data]


class TokenChanged(Right):
    def to_client(self, data, client):
        token = read(data).token
        return [edited(data, token=token[:-1] + bytes([token[-1] ^ 1]))] if token else [data]


class CodeChanged(Right):
    def to_client(self, data, client):
        return [edited(data, code=data[1] ^ 1)] if data[1] >= 0x40 else [data]


class OptionLost(Right):
    def to_client(self, data, client):
        return [edited(data, options=read(data).options[1:])]


class ObserveAdded(Right):
    def to_client(self, data, client):
        return [edited(data, options=read(data).options + [(OBSERVE, b"\x07")])] if data[1] == CONTENT else [data]


class ResetOfAnotherId(Right):
    def to_client(self, data, client):
        return [edited(data, message_id=data[2] << 8 | data[3] ^ 1)] if data[0] >> 4 & 3 == RST else [data]


class SeparateIgnored(Right):
    def to_origin(self, data):
        return [] if data[1] == EMPTY else [data]


class NonConfirmableIgnored(Right):
    def from_origin(self, data):
        return [] if data[0] >> 4 & 3 == NON else [data]


class SendsOnce(Right):
    def to_origin(self, data):
        count = self.seen[data] = self.seen.get(data, 0) + 1
        return [data] if count == 1 else []

    def to_client(self, data, client):
        return self.to_origin(data) if data[0] >> 4 & 3 == CON else [data]


class SendsAgainSoon(Right):
    def to_origin(self, data):
        return [data, (0.7, data)]

    def to_client(self, data, client):
        return self.to_origin(data) if data[0] >> 4 & 3 == CON else [data]


class SendsAgainAtTwo(Right):
    """Sends a request again after two seconds, and not after a time that it draws."""

    def to_origin(self, data):
        count = self.seen[data] = self.seen.get(data, 0) + 1
        return [data, (2, data)] if count == 1 else []


class AnswersLate(Right):
    """Sends one answer in five milliseconds."""

    def to_client(self, data, client):
        if data[1] < 0x40:
            return [data]
        count = self.seen["answers"] = self.seen.get("answers", 0) + 1
        return [(0.005 * count, data)]


class ServesAllAddresses(Right):
    def local(self, host):
        return "0.0.0.0"


class Spins(Right):
    patience = 0


class WakesOften(Right):
    patience = 0.004


class SendsAgainAsNew(Right):
    def to_origin(self, data):
        self.seen[data] = self.seen.get(data, -1) + 1
        return [edited(data, message_id=(data[2] << 8 | data[3]) + self.seen[data] & 0xFFFF)]


class DuplicatesAreNew(Right):
    """Gives a request that comes again another Message ID, and its reply the one that the client knows."""

    def to_proxy(self, data, client):
        count = self.seen[client, data] = self.seen.get((client, data), -1) + 1
        if count == 0 or read(data).code == EMPTY:
            return [data]
        known = data[2] << 8 | data[3]
        self.seen[client, known ^ count << 8] = known
        return [edited(data, message_id=known ^ count << 8)]

    def to_client(self, data, client):
        known = self.seen.get((client, data[2] << 8 | data[3]))
        return [data] if known is None or data[0] >> 4 & 3 != ACK else [edited(data, message_id=known)]


class NonConfirmablesTwice(Right):
    """Takes each Non-confirmable request for two, with other Message IDs."""

    def to_proxy(self, data, client):
        it = read(data)
        return [data, edited(data, message_id=it.message_id ^ 0x8000)] if it.kind == NON and it.code == GET else [data]


class SourcesAreOne(Right):
    """Takes what any client sent for a duplicate of the same bytes of another."""

    def to_proxy(self, data, client):
        return [data] if self.seen.setdefault(data, client) == client else []


class IdsRepeat(Right):
    """Gives all requests to origins one Message ID, and their answers the one that the program knows."""

    def to_origin(self, data):
        self.seen[data[4:12]] = data[2:4]
        return [data[:2] + b"\x11\x11" + data[4:]]

    def from_origin(self, data):
        return [data[:2] + self.seen.get(data[4:12], data[2:4]) + data[4:]]


class StopsAtBadMessages(Right):
    def to_proxy(self, data, client):
        try:
            read(data)
        except ValueError:
            self.seen["bad"] = data
        return [] if self.seen else [data]


class NeverSilent(Right):
    """Acknowledges what the program doesn't reply to."""

    def to_proxy(self, data, client):
        it = read(data)
        if it.kind == CON and it.code != EMPTY:
            self.relay.later(0.2, lambda: self.reply(client, it.message_id))
        return [data]

    def to_client(self, data, client):
        self.seen[client, data[2] << 8 | data[3]] = data
        return [data]

    def reply(self, client, message_id):
        if (client, message_id) not in self.seen:
            self.relay.reply(client, message(ACK, EMPTY, message_id))


class ImpostorsBelieved(Right):
    trusts_all = True
