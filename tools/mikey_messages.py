"""MIKEY messages of the pre-shared key method (RFC 3830): the first fault of one, as the gateway tells it, and in words.

Nothing of a key is looked at: whether a message is authentic, only who holds the key can tell. Needs Python 3.8 alone.
"""

TIME, RANDOM, IDENTITY, POLICY, EXTENSION, KEMAC, VERIFICATION, LAST = 5, 11, 6, 10, 21, 1, 9, 0
NAMES = {TIME: "T", RANDOM: "RAND", IDENTITY: "ID", POLICY: "SP", EXTENSION: "an extension", KEMAC: "KEMAC",
         VERIFICATION: "V", LAST: "the end"}
OFFERED, ANSWERED = 0, 1
TYPES = {2: "public keys", 3: "public keys, its answer", 4: "Diffie-Hellman", 5: "Diffie-Hellman, its answer",
         6: "an error", 7: "Diffie-Hellman with HMAC", 8: "Diffie-Hellman with HMAC, its answer"}


class Fault(Exception):
    """A fault by its name, at an octet from 0 on, and in words."""

    def __init__(self, name, offset, words):
        super().__init__(words)
        self.name, self.offset, self.words = name, offset, words


class Reader:
    """Takes octets one field behind the other; where there are none, the message is cut."""

    def __init__(self, octets):
        self.octets, self.at = octets, 0

    def take(self, length, what):
        if self.at + length > len(self.octets):
            raise Fault("Cut", len(self.octets), f"the message ends within {what}, which begins at octet {self.at}")
        self.at += length
        return self.octets[self.at - length:self.at]

    def number(self, length, what, served=None, fault="Value", words=None):
        at = self.at
        value = int.from_bytes(self.take(length, what), "big")
        if served is not None and value not in served:
            raise Fault(fault, at, words(value) if words else f"{what} is {value}, which isn't served")
        return value


def due(kind, numbers):
    """The payloads that may come next in a message of a kind, behind those of the numbers."""
    first = [TIME, RANDOM] if kind == OFFERED else [TIME]
    if len(numbers) < len(first):
        return first[len(numbers):len(numbers) + 1]
    last = KEMAC if kind == OFFERED else VERIFICATION
    if last in numbers:
        return [LAST]
    identities = [IDENTITY] * (numbers.count(IDENTITY) < (2 if kind == OFFERED else 1))
    return identities + [EXTENSION, last] + [POLICY] * (kind == OFFERED)


def tag(reader):
    reader.take(20 * reader.number(1, "the MAC's kind", [0, 1]), "the MAC")


def policy(reader):
    """A policy with its items, which have to end where its length says."""
    reader.number(1, "the policy's number")
    reader.number(1, "the policy's protocol", [0])
    end = reader.number(2, "the policy's length")
    end += reader.at
    while reader.at < end:
        at = reader.at
        reader.number(1, "a policy item's kind")
        if at + 1 == end:
            raise Fault("Value", at, "a policy item has no length within its policy")
        length = reader.number(1, "a policy item's length")
        if reader.at + length > end:
            raise Fault("Value", at + 1, "a policy item passes its policy's end")
        reader.take(length, "a policy item")


def payload(number, reader):
    """The octets of a payload behind its first one."""
    if number == TIME:
        reader.number(1, "the stamp's kind", [0, 1])
        reader.take(8, "the stamp")
    elif number == RANDOM:
        reader.take(reader.number(1, "RAND's length"), "RAND")
    elif number == IDENTITY:
        reader.number(1, "the identity's kind", [0, 1])
        reader.take(reader.number(2, "the identity's length"), "the identity")
    elif number == POLICY:
        policy(reader)
    elif number == EXTENSION:
        reader.number(1, "the extension's kind")
        reader.take(reader.number(2, "the extension's length"), "the extension")
    else:
        if number == KEMAC:
            reader.number(1, "the cipher", [0, 1, 2])
            reader.take(reader.number(2, "the length of the encrypted keys"), "the encrypted keys")
        tag(reader)


def header(reader):
    """The common header; the message's kind and the number of its first payload."""
    reader.number(1, "the version", [1], "Version", lambda value: f"the version is {value}, not 1")
    kind = reader.number(1, "the kind of message", [OFFERED, ANSWERED], "DataType", lambda value:
                         f"the message is of {TYPES.get(value, f'kind {value}')}, not of the pre-shared key exchange")
    following = next_payload(reader)
    reader.number(1, "the octet of the flag V and the PRF", [0, 128])
    reader.number(4, "the CSB ID")
    sessions = reader.number(1, "the number of crypto sessions")
    reader.number(1, "the kind of map", [0])
    for _ in range(sessions):
        reader.take(9, "the map of crypto sessions")
    return kind, following


def next_payload(reader):
    return reader.number(1, "the next payload", NAMES, "Payload", lambda value: f"payload {value} isn't known")


def check(octets, kind):
    """Raises the first fault of a message that is to be of a kind, OFFERED or ANSWERED."""
    reader = Reader(octets)
    found, following = header(reader)
    numbers = []
    while True:
        allowed = due(found, numbers)
        if following not in allowed:
            expected = " or ".join(dict.fromkeys(NAMES[number] for number in allowed))
            raise Fault("Order", reader.at, f"{NAMES[following]} stands where {expected} is due")
        if following == LAST:
            break
        numbers.append(following)
        number, following = following, next_payload(reader)
        payload(number, reader)
    if reader.at < len(octets):
        raise Fault("Trailing", reader.at, f"{len(octets) - reader.at} octets stand behind the message's end")
    if found != kind:
        raise Fault("DataType", 1, "the message is an answer, where an offer is due" if found else
                    "the message is an offer, where an answer is due")
