"""Captures of the classic libpcap form behind a script: records, frames, and what the datagrams of a capture tell."""
from . import scripts
from .replay import Told as OfLines

CAPTURED_MOST = 262_144
# What a datagram's longest part is that counts.
PAD = 4_352
# The order of a capture's octets, and how many of a record's fractions make a millisecond.
MAGICS = {"a1b2c3d4": ("big", 1_000), "a1b23c4d": ("big", 1_000_000)}
MAGICS.update({bytes.fromhex(magic)[::-1].hex(): ("little", per) for magic, (_, per) in list(MAGICS.items())})


class Fault(Exception):
    """The first fault of a capture, with its octet."""

    def __init__(self, octet, name):
        super().__init__(f"{octet}: {name}")


class Reader:
    """Takes fields from the front of a capture of which so many octets count. Where there are none, it is cut, or goes on
    beyond what counts."""

    def __init__(self, octets, most):
        self.octets, self.most, self.at, self.order = octets, most, 0, None

    def is_at_end(self):
        return self.at == len(self.octets)

    def take(self, length):
        if self.at + length > min(len(self.octets), self.most):
            raise Fault(self.most, "Length") if len(self.octets) > self.most else Fault(len(self.octets), "Cut")
        self.at += length
        return self.octets[self.at - length:self.at]

    def number(self, length):
        return int.from_bytes(self.take(length), self.order)


def records(octets, most):
    """Each record's moment in milliseconds, and its frame."""
    reader = Reader(octets, most)
    magic = reader.take(4).hex()
    if magic not in MAGICS:
        raise Fault(0, "Magic")
    reader.order, per = MAGICS[magic]
    for wanted in (2, 4):
        if reader.number(2) != wanted:
            raise Fault(4, "Version")
    reader.take(12)
    if reader.number(4) != 1:
        raise Fault(20, "LinkType")
    while not reader.is_at_end():
        seconds, fraction = reader.number(4), reader.number(4)
        length, at = reader.number(4), reader.at
        if length > CAPTURED_MOST:
            raise Fault(at - 4, "Length")
        reader.take(4)
        yield 1_000 * seconds + fraction // per, reader.take(length)


def read(frame):
    """What a frame has: a datagram with its port, its source and its octets, the cause for which it is skipped, or None."""
    number = lambda at, length: int.from_bytes(frame[at:at + length], "big")
    if len(frame) < 14 or number(12, 2) != 0x0800:
        return None
    if len(frame) < 34:
        return "CutShort"
    version, head, total = frame[14] >> 4, 4 * (frame[14] & 15), number(16, 2)
    if version != 4 or head < 20 or total < head:
        return "Malformed"
    if frame[23] != 17:
        return None
    more, offset = frame[20] >> 5 & 1, number(20, 2) % 2**13
    if more or offset:
        return "Fragment"
    if len(frame) < 14 + total:
        return "CutShort"
    payload = total - head
    if payload < 8:
        return "Malformed"
    start = 14 + head
    length = number(start + 4, 2)
    if length < 8 or length > payload:
        return "Malformed"
    host = ".".join(str(octet) for octet in frame[26:30])
    return number(start + 2, 2), (host, number(start, 2)), frame[start + 8:start + length]


class Lines(scripts.Reader):
    """The lines of a script up to the one that says that a capture follows."""

    is_captured = False

    def is_end(self, line):
        self.is_captured = self.place > 1 and line == b"capture\n" and self.at + len(line) <= scripts.SCRIPT_MOST
        if self.is_captured:
            self.at += len(line)
        return self.is_captured


class Told(OfLines):
    """What is written of a script and of the capture behind it, the status and the text of the end. What is told of a
    record stands by itself, behind what is told of the lines."""

    reader = Lines

    def follow(self, rest, lines):
        if not lines.is_captured:
            return
        began, first = self.world.now, None
        try:
            for number, (millis, frame) in enumerate(records(rest, scripts.SCRIPT_MOST - lines.at), 1):
                first = millis if first is None else first
                moment = min(max(began + millis - first, began), scripts.LAST_TICK)
                self.by_line.append(self.record(number, moment, read(frame)))
        except Fault as fault:
            self.status, self.said = 10, f"srtpgw: capture octet {fault}\n".encode()

    def record(self, number, moment, found):
        """The outcomes of a record: those of its moment, then of its datagram, or that it is skipped."""
        told = self.world.signal("tick", moment) if moment > self.world.now else []
        if isinstance(found, str):
            return told + [f"skip {number} {found}"]
        if found:
            port, source, octets = found
            told.append(self.world.datagram(port, source, octets[:PAD]))
        return told
