"""Lines of a script and their first fault."""
import re

from srtp import SUITES, MasterKey

NUMBER = re.compile(rb"0|[1-9][0-9]*")
HEX = re.compile(rb"(?:[0-9a-f]{2})+")
LAST_TICK = 2_085_978_495_999
LINE_MOST = 70_000
SCRIPT_MOST = 2**30
HEADERS = {b"srtpgw 1": 1, b"srtpgw 2": 2}
# Fields behind the first word; those of `offer-plain` hang on its second one, those of `in` on the version.
FIELDS = {b"tick": 1, b"psk": 3, b"manual": 7, b"offer-secure": 3, b"answer": 3, b"reject": 1, b"bye": 1}
# Those that join and part calls, which a bridge alone takes.
PAIRS = {b"join": 2, b"part": 1}


class Fault(Exception):
    """The first fault of a line."""


class Drawn(Exception):
    """What comes next hangs on octets that the system draws."""


class Noise:
    """Noise that is to be drawn: it may be handed on, but not looked at."""

    def __getitem__(self, place):
        raise Drawn


def number(field, most, least=0):
    if not NUMBER.fullmatch(field) or len(field) > 20 or not least <= int(field) <= most:
        raise Fault("Number")
    return int(field)


def address(field):
    host, colon, port = field.partition(b":")
    parts = host.split(b".")
    if not colon or len(parts) != 4:
        raise Fault("Number")
    return ".".join(str(number(part, 255)) for part in parts), number(port, 65535)


def octets(field, least, most):
    if field != b"-" and not HEX.fullmatch(field):
        raise Fault("Hex")
    given = b"" if field == b"-" else bytes.fromhex(field.decode())
    if not least <= len(given) <= most:
        raise Fault("Length")
    return given


def noise(field):
    return Noise() if field == b"-" else octets(field, 304, 304)


def master_key(field):
    suite, colon, digits = field.partition(b":")
    if not colon or suite.decode("latin-1") not in SUITES:
        raise Fault("Word")
    name = suite.decode()
    length = sum(SUITES[name][:2])
    return MasterKey(name, octets(digits, length, length))


def identity(field):
    if any(not 0x21 <= octet <= 0x7E for octet in field):
        raise Fault("Word")
    if not 1 <= len(field) <= 128:
        raise Fault("Length")
    return field


def call(field):
    return number(field, 2**32 - 1)


def rollover(field):
    if not re.fullmatch(rb"[0-9a-f]{8}", field):
        raise Fault("Hex")
    return int(field, 16)


def text(field):
    return octets(field, 0, 32768)


def datagram(fields, version):
    """A datagram line: in version 2 its moment stands in front."""
    if len(fields) != version + 2:
        raise Fault("Word")
    moment = [number(fields.pop(0), LAST_TICK)] if version == 2 else []
    port, source, content = fields
    values = number(port, 65535), address(source), octets(content, 0, 4352)
    return "at" if moment else "in", *moment, *values


def read(place, line, version=1, at=0, has_pairs=False):
    """What the line at a place from 1 on, which begins at an octet of the script, says in a version: its word and its
    fields' values. A datagram without a moment of its own is `in`, one with it `at`."""
    if len(line) > LINE_MOST or at + len(line) > SCRIPT_MOST:
        raise Fault("Length")
    if not line.endswith(b"\n"):
        raise Fault("Unended")
    line = line[:-1]
    if place == 1:
        if line not in HEADERS:
            raise Fault("Version")
        return "header", HEADERS[line]
    word, *fields = line.split(b" ")
    if word == b"offer-plain":
        kind = fields[1] if len(fields) > 1 else None
        if (kind, len(fields)) == (b"sdes", 4):
            return "sdes", call(fields[0]), noise(fields[2]), text(fields[3])
        if (kind, len(fields)) == (b"mikey", 5):
            return "mikey", call(fields[0]), identity(fields[2]), noise(fields[3]), text(fields[4])
        raise Fault("Word")
    if word == b"in":
        return datagram(fields, version)
    if has_pairs and len(fields) == PAIRS.get(word):
        return word.decode(), *map(call, fields)
    if len(fields) != FIELDS.get(word):
        raise Fault("Word")
    if word == b"tick":
        return "tick", number(fields[0], LAST_TICK)
    if word == b"psk":
        return "psk", identity(fields[0]), identity(fields[1]), octets(fields[2], 16, 64)
    if word == b"manual":
        values = (
            call(fields[0]), address(fields[1]), address(fields[2]), rollover(fields[3]),
            number(fields[4], 1024, 64), master_key(fields[5]), master_key(fields[6]),
        )
        if values[5].is_raw != values[6].is_raw:
            raise Fault("Word")
        return "manual", *values
    if word in (b"offer-secure", b"answer"):
        return word.decode(), call(fields[0]), noise(fields[1]), text(fields[2])
    return word.decode(), call(fields[0])


def lines(script):
    """The lines, each with its end; a rest without an end is the last."""
    return (found[0] for found in re.finditer(rb"[^\n]*\n|[^\n]+", script))


class Reader:
    """The lines of a script up to the first outside the grammar, each as itself, its word and its values. Behind them
    `ended` is that line and its fault, or None, and `at` the octets that were read."""

    has_pairs = False

    def __init__(self, script):
        self.script, self.at, self.place, self.version, self.ended = script, 0, 0, 1, None

    def __iter__(self):
        for line in lines(self.script):
            self.place += 1
            if self.is_end(line):
                return
            try:
                word, *values = read(self.place, line, self.version, self.at, self.has_pairs)
                self.accept(word, *values)
            except Fault as fault:
                self.ended = f"srtpgw: script line {self.place}: {fault}\n".encode()
                return
            self.at += len(line)
            yield line, word, values

    def is_end(self, line):
        """Whether the lines end before this one, which is none of the grammar's."""
        return False

    def accept(self, word, *values):
        if word == "header":
            self.version, = values
