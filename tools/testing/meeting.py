"""What would meet in one part of an index, if a number spread it that somebody knows: endpoints, targets, cache keys and
Message IDs. Very many have to be tried, so two thousand are tried at once: one whole number has them in lanes, of 128 bits
each, of which the upper 64 are 0 between two steps. What adds, shifts or multiplies that number does so in all lanes."""

import itertools
import random
from collections import namedtuple

WORD, LANES = (1 << 64) - 1, 2048
# In each lane a 1, and in each lane which one it is, from 0.
ONES = int.from_bytes((b"\1" + bytes(15)) * LANES, "little")
STEPS = int.from_bytes(b"".join(lane.to_bytes(16, "little") for lane in range(LANES)), "little")
# Of how many parts of an index one is chosen, in which there is room for few of 4,000 pairs, and which one that is.
PARTS, PART = 129, 3
# What spreads IPv4 endpoints over 64 bits, and what those that are tried are apart, as numbers of 32 bits.
SPREAD, APART = 0x9E3779B97F4A7C15, 0x9E3779B1
# How many are tried at most, so that five hexadecimal digits tell them apart.
TRIED = 1 << 20
# The target of all cache keys, and an option that isn't recognised and is part of the key (RFC 7252, 5.4.6): an Accept has too
# few values. With two bytes for its delta, and a value of five, it is a word of eight bytes in an encoded message.
ORIGIN, PATH, KEPT = "10.200.0.1:5683", "of_keys", 2052
OPTION = bytes([0xE5]) + (KEPT - 269).to_bytes(2, "big")
# How a number spreads keys: as the salt did before there was a secret, or as a secret does now.
Seeding = namedtuple("Seeding", "number is_old")


# SipHash


def rotated(word, bits, mask):
    return (word << bits | word >> (64 - bits)) & mask


def mixed(a, b, c, d, mask):
    """A round of SipHash."""
    a, c = (a + b) & mask, (c + d) & mask
    b, d = rotated(b, 13, mask) ^ a, rotated(d, 16, mask) ^ c
    a, c = (rotated(a, 32, mask) + d) & mask, (c + b) & mask
    return a, rotated(b, 17, mask) ^ c, rotated(d, 21, mask) ^ a, rotated(c, 32, mask)


def sip_hash(words, ones=1, before=()):
    """SipHash-1-3 of words of eight bytes, with keys that are 0: of those before, and of these in each lane that has a 1."""
    state = 0x736F6D6570736575, 0x646F72616E646F6D, 0x6C7967656E657261, 0x7465646279746573
    for word in before:
        state = with_word(state, word, WORD)
    state, mask = [it * ones for it in state], ones * WORD
    for word in (*words, (8 * len([*before, *words]) << 56) * ones):
        state = with_word(state, word, mask)
    a, b, c, d = state
    c ^= 0xFF * ones
    for _ in range(3):
        a, b, d, c = mixed(a, b, c, d, mask)
    return a ^ b ^ c ^ d


def with_word(state, word, mask):
    """The state of SipHash after one word more."""
    a, b, c, d = state
    a, b, d, c = mixed(a, b, c, d ^ word, mask)
    return a ^ word, b, c, d


# Parts


def parts_of(keys, seeding, parts=PARTS, ones=1):
    """In which part of an index each key is, times 2^64: the key is multiplied by a factor that is made from the seed,
    and now once more, after its upper half joined the lower one."""
    mask, factor = ones * WORD, sip_hash([seeding.number]) | 1
    spread = keys * factor & mask
    if not seeding.is_old:
        spread = (spread ^ spread >> 32 & mask) * factor & mask
    return spread * parts


def part_of(number, salt):
    """In which part of an index the endpoint with this address and port would be, if the salt spread it now."""
    return parts_of(number * SPREAD & WORD, Seeding(salt, False)) >> 64


def meeting(seeding, keys_of, parts=PARTS):
    """Yields the numbers from 0 on whose keys would be in one part of an index, given the keys of those of all lanes
    from one on. Without a seeding, any numbers."""
    if seeding is None:
        yield from sorted(random.Random(1).sample(range(TRIED), TRIED // PARTS))
        return
    for first in range(0, TRIED, LANES):
        found = parts_of(keys_of(first, seeding), seeding, parts, ONES).to_bytes(16 * LANES, "little")[8::16]
        yield from (first + lane for lane, part in enumerate(found) if part == PART)


def so_many(found, many):
    """So many of what was found. There are as many."""
    some = list(itertools.islice(found, many))
    if len(some) < many:
        raise ValueError(f"{len(some)} of {many} meet")
    return some


def lanes(words):
    """Words of eight bytes in a lane each."""
    return int.from_bytes(b"".join(word + bytes(8) for word in words), "little")


def digests(seeding, words, before=()):
    """What an index of cache keys or targets has for a key: the SipHash of some words in all lanes, and of these in each.
    They come after the secret, and before there was one, after nothing."""
    return sip_hash(words, ONES, before if seeding.is_old else [seeding.number, *before])


# Endpoints


def number_of(n, network):
    """The address and the port of an endpoint that is tried, as one number: no two have the same."""
    return network << 16 | n * APART & 0xFFFFFFFF


def numbers(first, network):
    """The same of those of all lanes from one on."""
    return ((STEPS + first * ONES) * APART & 0xFFFFFFFF * ONES) + (network << 16) * ONES


def text_of(number):
    """An address and a port, as a text."""
    return f"{'.'.join(str(it) for it in (number >> 16).to_bytes(4, 'big'))}:{number & 0xFFFF}"


def with_ports(found, network, many):
    """So many of the numbers that were found, where the endpoint of each has a port that anyone may use."""
    return so_many((n for n in found if number_of(n, network) & 0xFFFF >= 1024), many)


def endpoints(seeding, network, many):
    """So many endpoints of a network of 65,536 addresses."""

    def keys_of(first, _):
        return numbers(first, network) * SPREAD & WORD * ONES

    return [text_of(number_of(n, network)) for n in with_ports(meeting(seeding, keys_of), network, many)]


# Targets and cache keys


def at_word(endpoint):
    """An endpoint as a word that is hashed."""
    address, _, port = endpoint.partition(":")
    return int.from_bytes(bytes(int(it) for it in address.split(".")), "big") << 16 | int(port)


# What is hashed of a target that has no name as its host: a word with its address and its port; a word with how many bytes
# its host (65,535 for none), its path and its query take, from bits 48, 24 and 0 on; and these bytes. Each segment of a path
# comes after a byte with its length: so one of seven bytes is a word of eight.
SIZES = 0xFFFF << 48 | 8 << 24


def targets(seeding, network, many):
    """The origins and the paths of so many targets, with a host, a port and a path of their own."""

    def keys_of(first, seeding):
        paths = lanes(b"\x07%07x" % n for n in range(first, first + LANES))
        return digests(seeding, [numbers(first, network), SIZES * ONES, paths])

    found = with_ports(meeting(seeding, keys_of), network, many)
    return [(text_of(number_of(n, network)), f"{n:07x}") for n in found]


def values(seeding, many):
    """The values of an option in so many cache keys of one target. After what is hashed of the target come the options
    of the key, encoded as in a message."""
    target = [at_word(ORIGIN), SIZES, int.from_bytes(b"\x07" + PATH.encode(), "little")]

    def keys_of(first, seeding):
        return digests(seeding, [lanes(OPTION + b"%05x" % n for n in range(first, first + LANES))], target)

    return [b"%05x" % n for n in so_many(meeting(seeding, keys_of), many)]


# Message IDs


def message_ids(seeding, parts, most, many):
    """So many Message IDs from 1 on, in their order, below this one. An index has the ID itself as its key."""
    if seeding is None:
        return sorted(random.Random(1).sample(range(1, most), many))
    found = meeting(seeding, lambda first, _: STEPS + first * ONES, parts)
    return so_many(filter(None, itertools.takewhile(lambda it: it < most, found)), many)
