"""Session descriptions: read, carried to the other side, printed."""
import re

PROFILES = {b"RTP/AVP": "Avp", b"RTP/SAVP": "Savp", b"RTP/AVPF": "Avpf", b"RTP/SAVPF": "Savpf"}
PROTOS = {profile: proto for proto, profile in PROFILES.items()}
EXCHANGED = {"Avp": "Savp", "Savp": "Avp", "Avpf": "Savpf", "Savpf": "Avpf", "Other": "Other"}
OF_SIDE = {"secure": ("Savp", "Savpf"), "plain": ("Avp", "Avpf")}
LEFT_OUT = (
    b"crypto key-mgmt rtcp rtcp-mux candidate end-of-candidates remote-candidates ice-ufrag ice-pwd ice-options"
    b" ice-lite fingerprint setup"
).split()

DECIMAL = rb"(?:0|[1-9][0-9]*)"
LINE = re.compile(rb"[a-z]=[^\r\n\0]*")
MEDIUM = re.compile(rb"m=([\x21-\x7e]+) (" + DECIMAL + rb") ([\x21-\x7e]+) ([^\r\n\0]+)")
HOST = re.compile(rb"c=IN IP4 (" + rb"\.".join([DECIMAL] * 4) + rb")")
SSRC = re.compile(rb"a=ssrc:([1-9][0-9]*)(?: .*)?", re.DOTALL)


class Refused(Exception):
    """What a signal is refused for."""


class Medium:
    def __init__(self, place, word, port, proto, formats):
        self.place, self.word, self.port, self.proto, self.formats = place, word, port, proto, formats
        self.profile = PROFILES.get(proto, "Other")
        self.lines, self.address = [], None

    def is_active(self, side):
        return self.port != 0 and self.profile in OF_SIDE[side]

    def ssrc(self):
        """The source that the gateway has towards the secure side, 0 where none is named."""
        for line in self.lines:
            named = SSRC.fullmatch(line)
            if named and len(named[1]) <= 10 and int(named[1]) < 2**32:
                return int(named[1])
        return 0


def host(line):
    """The address of a `c=` line, or None."""
    found = HOST.fullmatch(line)
    if not found or any(len(part) > 3 or int(part) > 255 for part in found[1].split(b".")):
        return None
    return found[1].decode()


class Description:
    def __init__(self, text, side):
        """Reads a text of a side; the first fault of its lines, then that of an active medium without an address."""
        self.session, self.media, self.side = [], [], side
        if len(text) > 16384:
            raise Refused("Sdp 0 TooLong")
        *whole, rest = text.split(b"\n")
        place = 0
        for place, line in enumerate(whole, 1):
            fault = self.line(place, line[:-1] if line.endswith(b"\r") else line)
            if fault:
                raise Refused(f"Sdp {place} {fault}")
        if rest:
            raise Refused(f"Sdp {place + 1} {'TooLong' if len(rest) > 2048 else 'Form'}")
        if place < 3:
            raise Refused(f"Sdp {place + 1} Order")
        for medium in self.media:
            own = [host(line) for line in medium.lines if line.startswith(b"c=")]
            shared = [host(line) for line in self.session if line.startswith(b"c=")]
            medium.address = (own + shared + [None])[0]
        for medium in self.media:
            if medium.is_active(side) and medium.address is None:
                raise Refused(f"Sdp {medium.place} Address")

    def line(self, place, line):
        """Takes a line in; its fault, if it has one."""
        if len(line) > 2048:
            return "TooLong"
        medium = MEDIUM.fullmatch(line)
        if not LINE.fullmatch(line):
            return "Form"
        if line.startswith(b"m=") and (not medium or len(medium[2]) > 5 or int(medium[2]) > 65535):
            return "Form"
        if place <= 3 and not (line == b"v=0", line.startswith(b"o="), line.startswith(b"s="))[place - 1]:
            return "Order"
        if line.startswith(b"c=") and host(line) is None:
            return "Address"
        if not medium:
            (self.media[-1].lines if self.media else self.session).append(line)
            return None
        if len(self.media) == 4:
            return "TooManyMedia"
        self.media.append(Medium(place, medium[1], int(medium[2]), medium[3], medium[4]))
        return None

    def active(self):
        return [medium.is_active(self.side) for medium in self.media]

    def carried(self, ports, profiles):
        """The parts of the text for the other side: the session's lines, and those of each medium."""
        parts = [carried_lines(self.session)]
        for medium, port, profile in zip(self.media, ports, profiles):
            proto = PROTOS.get(profile, medium.proto)
            first = b"m=%b %d %b %b" % (medium.word, port, proto, medium.formats)
            parts.append([first] + carried_lines(medium.lines))
        return parts


def carried_lines(lines):
    kept = []
    for line in lines:
        if line.startswith(b"c="):
            kept.append(b"c=IN IP4 127.0.0.1")
        elif not (line.startswith(b"a=") and line[2:].split(b":")[0] in LEFT_OUT):
            kept.append(line)
    return kept


def printed(parts):
    return b"".join(line + b"\r\n" for part in parts for line in part)
