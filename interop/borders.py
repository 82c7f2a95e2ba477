"""Scripts and captures that end at 2^30 octets, an octet before and an octet behind, with what must be told of them, worked
out by hand; `corpus.py` plays them.

None is in memory as a whole: what is read and what is written are parts, octets with how often they come. The limit is a
number that is handed on, so that the same can be compared with the model at a lower one.
"""
import hashlib
import signal
import subprocess
import threading

from captured import CAPTURED_MOST, OUT, frame, header, record
from joined import first_call
from model import TOLD, scripts
from signals import MARK, Script, noise, offer_secure
from srtp import KNOWN_SEALED

# A run that takes longer doesn't end.
SECONDS = 600
BLOCK = 1 << 20
COMMANDS = ("replay", 1), ("replay", 2), ("replay --mux", 1), ("bridge", 1), ("migrate", 1)
LAST = MARK.encode() + b"\n"
LAST_TOLD = b"refused 4294967295 CallUnknown\n"
# A text has 16,384 octets at the most, so that an offer of more is refused for that alone, whatever they are.
TOO_LONG = b"refused 7 Sdp 0 TooLong\n"
LINE = b"capture\n"


def refused(length):
    """Such an offer in a line of so many octets, an odd number from 33,395 to 66,161."""
    bare = len(offer_secure(7, b"", noise("long")))
    return offer_secure(7, bytes((length - bare) // 2), noise("long")).encode() + b"\n"


FILLING = refused(50_001)
# Two of them have at least so many octets, and a tick before them.
TWO_LEAST = 2 * 33_395 + 7


def length_of(parts):
    return sum(len(octets) * times for octets, times in parts)


def blocks(parts):
    """The octets of the parts, in blocks."""
    for octets, times in parts:
        in_one = max(1, BLOCK // max(1, len(octets)))
        for begun in range(0, times, in_one):
            yield octets * min(in_one, times - begun)


class Border:
    """What a command reads and writes, as parts, and how it ends. Whatever is read counts from the first octet on."""

    def __init__(self, command, version=1, most=scripts.SCRIPT_MOST):
        self.command, self.most, self.count, self.captured_at = command, most, 0, None
        self.read, self.written, self.end = [], [], (0, b"")
        self.has(b"srtpgw %d\n" % version, b"", migrated=b"srtpgw 2\n")

    def has(self, line, told, times=1, migrated=None):
        """A line so many times, with what is told of it each time; a migration writes it as it is."""
        self.read.append((line, times))
        self.written.append(((migrated or line) if self.command == "migrate" else told, times))
        self.count += times
        return self

    def filled(self, length):
        """Lines of no consequence up to a length: offers that are refused, and for an odd rest a tick that tells nothing."""
        count, rest = divmod(length - length_of(self.read) - TWO_LEAST, len(FILLING))
        rest += TWO_LEAST
        self.has(FILLING, TOO_LONG, count)
        if rest % 2:
            self.has(b"tick 0\n", b"")
            rest -= len(b"tick 0\n")
        first = rest // 2 | 1
        return self.has(refused(first), TOO_LONG).has(refused(rest - first), TOO_LONG)

    def stops(self, octets, fault):
        """A line that is outside the grammar, behind which nothing is read."""
        self.read.append((octets, 1))
        self.end = 2, f"srtpgw: script line {self.count + 1}: {fault}\n".encode()
        return self

    def captures(self):
        """The lines end, by one that tells nothing; the offsets of a capture's faults count from here."""
        self.read.append((LINE, 1))
        self.captured_at = length_of(self.read)
        return self

    def captured(self, octets, times=1, told=b""):
        self.read.append((octets, times))
        self.written.append((told, times))
        return self

    def recorded(self, length):
        """A header and records up to a length, whose frames of zeros are of no type that is known and are passed over. One
        has at least its head, so that what is left is shared by two."""
        self.captured(header())
        longest = record(bytes(CAPTURED_MOST))
        count = (length - length_of(self.read)) // len(longest) - 1
        rest = length - length_of(self.read) - count * len(longest)
        self.captured(longest, count)
        return self.captured(record(bytes(rest // 2 - 16))).captured(record(bytes(rest - rest // 2 - 16)))

    def faults(self, name, back=0):
        """The capture's fault is at the limit or where it ends before, or so many octets before that."""
        at = min(length_of(self.read), self.most) - self.captured_at - back
        self.end = 10, f"srtpgw: capture octet {at}: {name}\n".encode()
        return self

    # ---- playing

    def said_by_model(self):
        """Whether the model says the same; for a low limit."""
        whole = lambda parts: b"".join(blocks(parts))
        told = TOLD[self.command](whole(self.read))
        return (told.octets(), told.status, told.said) == (whole(self.written), *self.end)

    def differs(self, program):
        """Whether the program writes something else, or ends otherwise."""
        wanted, written = hashlib.sha256(), hashlib.sha256()
        for block in blocks(self.written):
            wanted.update(block)
        pipe = subprocess.PIPE
        with subprocess.Popen([program, *self.command.split()], stdin=pipe, stdout=pipe, stderr=pipe, bufsize=0) as run:
            feeder = threading.Thread(target=self.feed, args=(run.stdin,))
            feeder.start()
            signal.alarm(SECONDS)
            try:
                while block := run.stdout.read(BLOCK):
                    written.update(block)
                ended = run.wait(), run.stderr.read()
            except TimeoutError:
                run.kill()
                ended = None
            finally:
                signal.alarm(0)
            feeder.join()
        return ended != self.end or written.digest() != wanted.digest()

    def feed(self, stream):
        """Writes what is read, as far as it is."""
        try:
            for block in blocks(self.read):
                rest = memoryview(block)
                while rest:
                    rest = rest[stream.write(rest):]
            stream.close()
        except BrokenPipeError:
            pass


def of_scripts(most):
    """An octet before the limit, at it, and behind it. Length comes before Unended, so a line whose last octet is behind the
    limit is Length with its end or without it."""
    for command, version in COMMANDS:
        filled = lambda more: Border(command, version, most).filled(most - len(LAST) + more)
        yield filled(-1).has(LAST, LAST_TOLD)
        yield filled(0).has(LAST, LAST_TOLD)
        yield filled(0).stops(LAST[:-1], "Unended")
        yield filled(1).stops(LAST[:-1], "Unended")
        yield filled(1).stops(LAST, "Length")
        yield filled(2).stops(LAST[:-1], "Length")
        yield filled(0).has(LAST, LAST_TOLD).stops(LAST, "Length")


def of_heads(most):
    """The line that begins a capture, and the capture's header. A field that isn't whole is Cut where nothing follows and
    Length where something does, at the first octet that isn't there or doesn't count; a whole one is looked at."""
    filled = lambda behind: Border("capture", 1, most).filled(most - behind)
    begun = lambda octets: filled(len(LINE) + octets).captures()
    yield filled(0)
    yield filled(len(LINE) - 1).stops(LINE, "Length")
    for whole in 0, 2, 5, 6, 22:
        yield begun(whole).captured(header()[:whole]).faults("Cut")
        yield begun(whole).captured(header()[:whole + 1]).faults("Length")
        yield begun(whole).captured(header()).faults("Length")
    yield begun(24).captured(header())
    yield begun(24).captured(header() + b"\0").faults("Length")
    # a wrong magic, version and link type whose last octet is at the limit
    for wrong, name in (header(magic=0)[:4], "Magic"), (header(minor=5)[:8], "Version"), (header(link=2), "LinkType"):
        yield begun(len(wrong)).captured(wrong + b"\0").faults(name, 4)


def call(most):
    """The known packet's call, and a capture."""
    border, s = Border("capture", 1, most), Script()
    first_call(s)
    return border.has(*("".join(line + "\n" for line in lines).encode() for lines in (s.lines[1:], s.told))).captures()


def of_records(most):
    """The known packet's record, so many of whose octets are within the limit."""
    known = record(frame(KNOWN_SEALED))
    behind = lambda octets: call(most).recorded(most - octets)
    yield behind(0)
    yield behind(1)
    for within in 0, 1, 4, 8, 10, 12, 15, 16, 30, len(known) - 1:
        yield behind(within).captured(known).faults("Length")
        if within:
            yield behind(within).captured(known[:within]).faults("Cut")
    for octets in len(known) + 1, len(known):
        yield behind(octets).captured(known, told=OUT.encode() + b"\n")
    yield behind(len(known)).captured(known, told=OUT.encode() + b"\n").captured(b"\0").faults("Length")
    # a captured length of too much is looked at where it is whole: at 12 octets, and not at 11
    head = bytes(8) + (CAPTURED_MOST + 1).to_bytes(4, "little") + bytes(4)
    yield behind(12).captured(head).faults("Length", 4)
    yield behind(11).captured(head).faults("Length")


def borders(most=scripts.SCRIPT_MOST):
    yield from of_records(most)
    yield from of_heads(most)
    yield from of_scripts(most)


def otherwise_by_model(most=1 << 20):
    """The numbers of those of which the model, with a lower limit, tells something else than is worked out here."""
    kept, scripts.SCRIPT_MOST = scripts.SCRIPT_MOST, most
    try:
        return [number for number, border in enumerate(borders(most)) if not border.said_by_model()]
    finally:
        scripts.SCRIPT_MOST = kept
