"""What all stand-ins begin with: one that does nothing to what it passes on, and how a message is changed."""

import subprocess

from testing.coap import message, read


def edited(data, **changes):
    """A message with some of its parts changed."""
    return message(*read(data)._replace(**changes))


class Right:
    """What a stand-in does with datagrams, words, configurations and results: nothing."""

    trusts_all = False
    # How long it waits for a datagram before it looks at what is due, in seconds.
    patience = 0.05

    def __init__(self, relay):
        self.relay, self.seen = relay, {}

    def to_proxy(self, data, client):
        return [data]

    def to_client(self, data, client):
        return [data]

    def to_origin(self, data):
        return [data]

    def from_origin(self, data):
        return [data]

    def local(self, host):
        return host

    def words(self, words):
        return words

    def config(self, text):
        return text

    def replay(self, program, words):
        done = subprocess.run([program, *self.words(words)], capture_output=True)
        return done.returncode, done.stdout, done.stderr

    def result(self, status, output, errors):
        return status, output, errors
