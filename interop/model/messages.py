"""MIKEY messages (RFC 3830): read with their first fault, their keys, and the crypto sessions that they make."""
import struct

from mikey import ERA, SALT, TEK, ciphered, derived, read_keys, signed
from mikey import Refused as BadKeys
from srtp import MasterKey

KNOWN = (0, 1, 5, 6, 9, 10, 11, 21)


class Fault(Exception):
    """A fault of a message at an offset."""

    def __init__(self, offset, name):
        super().__init__(f"{offset} {name}")


class Reader:
    """Takes octets from the front; where there are none, the message is cut."""

    def __init__(self, octets):
        self.octets, self.at = octets, 0

    def take(self, length):
        if self.at + length > len(self.octets):
            raise Fault(len(self.octets), "Cut")
        self.at += length
        return self.octets[self.at - length:self.at]

    def number(self, length, accepted=None, fault="Value"):
        at = self.at
        value = int.from_bytes(self.take(length), "big")
        if accepted is not None and value not in accepted:
            raise Fault(at, fault)
        return value


def follows(kind, numbers):
    """The payloads that may come behind those of the numbers, in a message of a kind."""
    first = [5, 11] if kind == 0 else [5]
    if len(numbers) < len(first):
        return first[len(numbers):len(numbers) + 1]
    last = 1 if kind == 0 else 9
    if last in numbers:
        return [0]
    ids = [6] * (numbers.count(6) < (2 if kind == 0 else 1))
    return ids + [21, last] + [10] * (kind == 0)


class Message:
    def __init__(self, octets):
        reader = Reader(octets)
        reader.number(1, [1], "Version")
        self.kind = reader.number(1, [0, 1], "DataType")
        following = reader.number(1, KNOWN, "Payload")
        reader.number(1, [0, 128])
        self.csb = reader.number(4)
        count = reader.number(1)
        reader.number(1, [0])
        self.entries = [struct.unpack(">BII", reader.take(9)) for _ in range(count)]
        self.octets, self.ids, self.policies, numbers = octets, [], [], []
        while True:
            if following not in follows(self.kind, numbers):
                raise Fault(reader.at, "Order")
            if following == 0:
                break
            numbers.append(following)
            number, following = following, reader.number(1, KNOWN, "Payload")
            self.payload(number, reader)
        if reader.at < len(octets):
            raise Fault(reader.at, "Trailing")

    def payload(self, number, reader):
        if number == 5:
            reader.number(1, [0, 1])
            self.stamp = reader.take(8)
        elif number == 11:
            self.random = reader.take(reader.number(1))
        elif number == 6:
            reader.number(1, [0, 1])
            self.ids.append(reader.take(reader.number(2)))
        elif number == 10:
            self.policy(reader)
        elif number == 21:
            reader.number(1)
            reader.take(reader.number(2))
        elif number == 1:
            self.cipher = reader.number(1, [0, 1, 2])
            self.inner = reader.take(reader.number(2))
            self.tag(reader)
        else:
            self.tag(reader)

    def tag(self, reader):
        self.mac = reader.number(1, [0, 1])
        self.covered = self.octets[:reader.at]
        self.tag_octets = reader.take(20 * self.mac)

    def policy(self, reader):
        number = reader.number(1)
        reader.number(1, [0])
        end = reader.number(2)
        end += reader.at
        items = []
        while reader.at < end:
            at = reader.at
            kind = reader.number(1)
            if at + 1 == end:
                raise Fault(at, "Value")
            length = reader.number(1)
            if reader.at + length > end:
                raise Fault(at + 1, "Value")
            items.append((kind, reader.take(length)))
        self.policies.append((number, items))

    def moment(self):
        seconds, fraction = struct.unpack(">II", self.stamp)
        return (seconds - ERA) * 1000 + (fraction * 1000 >> 32)


class Refused(Exception):
    """A refusal of the exchange, `Psk`, or of its crypto sessions, `Cs`."""


class Exchange:
    """What both sides know of an initial message: its CSB ID, RAND, stamp, pair, keys, crypto sessions and policies."""

    def __init__(self, csb, random, stamp, own, peer, shared, keys, entries, policies):
        self.csb, self.random, self.stamp, self.own, self.peer, self.shared = csb, random, stamp, own, peer, shared
        self.keys, self.entries, self.policies = keys, entries, policies

    def check(self, media):
        """Refuses another number of crypto sessions than the media have, and what no policy of theirs serves."""
        if len(self.entries) != 2 * media:
            raise Refused("Cs", "CsCount")
        for number, _, _ in self.entries:
            if number not in [policy for policy, _ in self.policies]:
                raise Refused("Cs", "PolicyMissing")
        for number, _, _ in self.entries:
            self.meaning(number)

    def meaning(self, number):
        """The suite of a policy, and whether RTP and RTCP are unencrypted."""
        items = next(items for policy, items in self.policies if policy == number)
        if len(dict(items)) < len(items):
            raise Refused("Cs", "PolicyValue")
        said = dict(DEFAULTS)
        for kind, value in items:
            length = int.from_bytes(value, "big")
            if kind in LENGTHS and length % 8 == 0 and length // 8 in LENGTHS[kind]:
                length //= 8
            if not 1 <= len(value) <= 4 or length not in LENGTHS.get(kind, VALUES.get(kind, ())):
                raise Refused("Cs", "PolicyValue")
            said[kind] = length
        cipher = {16: "AES_CM_128", 24: "AES_192_CM", 32: "AES_256_CM"}[said[1]]
        return f"{cipher}_HMAC_SHA1_{8 * said[11]}", said[7] == 0, said[8] == 0

    def session(self, place):
        """The keys of the crypto session at a place from 0, each with its MKI, and what its policy means."""
        suite, plain_rtp, plain_rtcp = self.meaning(self.entries[place][0])
        length = {"AES_CM_128": 16, "AES_192_CM": 24, "AES_256_CM": 32}[suite[:10]]
        keys = []
        for key, spi in self.keys:
            label = place + 1, self.csb, self.random
            octets = derived(key, TEK, *label, length) + derived(key, SALT, *label, 14)
            keys.append((MasterKey(suite, octets), 2**48, spi or b""))
        return keys, plain_rtp, plain_rtcp


DEFAULTS = {1: 16, 7: 1, 8: 1, 11: 10}
LENGTHS = {1: (16, 24, 32), 3: (20,), 4: (14,), 11: (10, 4)}
VALUES = {0: (1,), 2: (1,), 5: (0,), 6: (0,), 7: (0, 1), 8: (0, 1), 9: (0,), 10: (1,), 12: (0,)}


def accepted(message, pairs, noted, now):
    """The exchange of a peer's initial message, by the pairs (own name, peer's name, key) that are held."""
    ids = message.ids
    fits = [pair for pair in pairs if ids[:1] == [pair[1]] and ids[1:] in ([], [pair[0]])]
    if not fits:
        raise Refused("Psk", "IdUnknown")
    own, peer, shared = fits[0]
    if (message.cipher, message.mac) != (1, 1):
        raise Refused("Psk", "Algorithm")
    if signed(shared, message.csb, message.random, message.covered) != message.tag_octets:
        raise Refused("Psk", "BadMac")
    if abs(message.moment() - now) > 300_000:
        raise Refused("Psk", f"Skew {message.moment()} {now}")
    if (peer, message.csb, message.stamp) in noted:
        raise Refused("Psk", "Repeated")
    try:
        keys = read_keys(ciphered(shared, message.csb, message.random, message.stamp, message.inner))
    except BadKeys:
        raise Refused("Psk", "KeyType") from None
    if len(noted) > 1020:
        raise Refused("Psk", "CacheFull")
    return Exchange(
        message.csb, message.random, message.stamp, own, peer, shared, keys, message.entries, message.policies
    )


def answered(message, exchange):
    """The crypto sessions of a response to what the gateway sent."""
    if message.mac != 1:
        raise Refused("Psk", "Algorithm")
    covered = message.covered + exchange.own + exchange.peer + exchange.stamp
    if signed(exchange.shared, exchange.csb, exchange.random, covered) != message.tag_octets:
        raise Refused("Psk", "BadMac")
    if (message.csb, len(message.entries)) != (exchange.csb, len(exchange.entries)):
        raise Refused("Psk", "OtherSession")
    return message.entries
