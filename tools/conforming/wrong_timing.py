"""Stand-ins that are wrong in one respect of timers: when and how often they send again, and how much at once."""

from conforming.model import Proxy
from conforming.wire import EMPTY
from testing.coap import message, read


def edited(data, **changes):
    """A message with some of its parts changed."""
    return message(*read(data)._replace(**changes))


class SendsOnce(Proxy):
    retransmissions = 0


class SendsOnceUnderPrefixes(Proxy):
    def on_timeout(self, sock, key, sending):
        if sending.to not in [(host, port) for _, host, port in self.maps]:
            super().on_timeout(sock, key, sending)


class SendsAgainSoon(Proxy):
    def first_timeout(self):
        return 0.7


class SendsAgainAsNew(Proxy):
    def again(self, sock, data):
        return edited(data, message_id=(int.from_bytes(data[2:4], "big") + 7) % 65_536)


class TimeoutsConstant(Proxy):
    def next_timeout(self, wait):
        return wait


class SendsAgainAlways(Proxy):
    """Sends requests again, whatever came for them."""

    def take_sending(self, sock, it, source):
        if sock is self.front:
            return super().take_sending(sock, it, source)
        return self.sendings.get(self.sending_key(sock, source, it.message_id))

    def close(self, exchange):
        self.exchanges.pop((exchange.to, exchange.token), None)
        self.release(exchange)


class SendsAtTwo(Proxy):
    def first_timeout(self):
        return 2


class SendsFourTimes(Proxy):
    retransmissions = 3


class SendsSixTimes(Proxy):
    retransmissions = 5


class NoGatewayTimeout(Proxy):
    def give_up(self, exchange):
        pass


class AnswersOnce(Proxy):
    def most_tries(self, sock):
        return 0 if sock is self.front else self.retransmissions


class AnswersAgainSoon(Proxy):
    def first_timeout(self):
        return 0.5


class AnswersAlways(Proxy):
    def take_sending(self, sock, it, source):
        return None if sock is self.front else super().take_sending(sock, it, source)


class FilledAcksIgnored(Proxy):
    def on_reply(self, sock, it, source):
        if sock is self.back or it.code == EMPTY:
            super().on_reply(sock, it, source)


class NstartIgnored(Proxy):
    def most_outstanding(self):
        return 100


class NstartForever(Proxy):
    """Counts a request as outstanding until it is answered, even if it was acknowledged."""

    def on_sending_ended(self, exchange, how):
        if how != "ack":
            super().on_sending_ended(exchange, how)


class ProbesFast(Proxy):
    def note_silence(self, exchange):
        pass


class SendsTwice(Proxy):
    retransmissions = 1


class TimeoutsLong(Proxy):
    """Waits five times as long as before, and more."""

    def first_timeout(self):
        return 2.1

    def next_timeout(self, wait):
        return 5.2 * wait


class AnswersAgainChanged(Proxy):
    """Sends an answer again with another code."""

    def again(self, sock, data):
        return data[:1] + bytes([data[1] ^ 1]) + data[2:] if sock is self.front else data
