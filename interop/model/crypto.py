"""Crypto lines (RFC 4568): read, and those that the gateway prints."""
import base64
import re

from srtp import SUITES, MasterKey

DECIMAL = re.compile(r"0|[1-9][0-9]*")
BASE64 = re.compile(r"([A-Za-z0-9+/]*)(=*)")
LONGEST_LIFE = 2**48


class Bad(Exception):
    """The first fault of a line."""


def decoded(text):
    """The octets of base64 with all its closing `=` or none, and with no bit set that belongs to no octet; or None."""
    found = BASE64.fullmatch(text)
    if not found or len(found[1]) % 4 == 1:
        return None
    digits, pads = found[1], -len(found[1]) % 4
    if len(found[2]) not in (0, pads):
        return None
    octets = base64.b64decode(digits + "=" * pads)
    return octets if base64.b64encode(octets).decode().rstrip("=") == digits else None


def is_decimal(text, most):
    """Whether it is a number without a zero in front, up to the most."""
    return bool(DECIMAL.fullmatch(text)) and len(text) <= len(str(most)) and int(text) <= most


def lifetime(text):
    if text.startswith("2^"):
        if is_decimal(text[2:], 48):
            return 2 ** int(text[2:])
    elif is_decimal(text, LONGEST_LIFE) and text != "0":
        return int(text)
    raise Bad("Lifetime")


def mki(text):
    value, _, length = text.partition(":")
    if not (is_decimal(value, 2**128 - 1) and is_decimal(length, 128) and length != "0"):
        raise Bad("MkiValue")
    value, length = int(value), int(length)
    if value >= 256**length:
        raise Bad("MkiValue")
    return value.to_bytes(length, "big")


def key(suite, text):
    """A master key, its life and its MKI."""
    method, *parts = text.split("|")
    octets = decoded(method[7:]) if method.startswith("inline:") else None
    colons = [":" in part for part in parts]
    if octets is None or len(octets) != sum(SUITES[suite][:2]) or colons not in ([], [False], [True], [False, True]):
        raise Bad("Key")
    life = lifetime(parts[0]) if colons[:1] == [False] else LONGEST_LIFE
    return MasterKey(suite, octets), life, mki(parts[-1]) if True in colons else b""


class Line:
    """A value behind `a=crypto:`."""

    def __init__(self, value):
        tag, *words = re.split(" +", value.decode("latin-1"))
        if not re.fullmatch("[0-9]{1,9}", tag):
            raise Bad("Tag")
        self.tag, self.window, self.plain_rtp, self.plain_rtcp = int(tag), 64, False, False
        self.suite = words[0] if words else ""
        if self.suite not in SUITES or self.suite == "RAW80":
            raise Bad("Suite")
        self.keys = []
        for text in (words[1] if len(words) > 1 else "").split(";"):
            if len(self.keys) == 8:
                raise Bad("Key")
            self.keys.append(key(self.suite, text))
        mkis = [mki for _, _, mki in self.keys]
        if len(mkis) > 1 and (b"" in mkis or len(set(map(len, mkis))) > 1 or len(set(mkis)) < len(mkis)):
            raise Bad("MkiValue")
        self.parameters(words[2:])

    def parameters(self, words):
        names = [word.split("=")[0] for word in words if not word.startswith("-")]
        if len(set(names)) < len(names):
            raise Bad("Parameter")
        for word in words:
            window = re.fullmatch("WSH=([0-9]{1,9})", word)
            if window:
                self.window = min(max(int(window[1]), 64), 1024)
            elif word == "UNENCRYPTED_SRTP":
                self.plain_rtp = True
            elif word == "UNENCRYPTED_SRTCP":
                self.plain_rtcp = True
            elif word not in ("KDR=0", "FEC_ORDER=FEC_SRTP") and not word.startswith("-"):
                raise Bad("Parameter")


def values(lines):
    """The values of the crypto lines of a medium."""
    return [line[9:] for line in lines if line.startswith(b"a=crypto:")]


def chosen(lines):
    """The first line of an offer that can be read."""
    for value in values(lines):
        try:
            return Line(value)
        except Bad:
            pass
    raise Bad("NoLine")


def answered(lines, offered):
    """The first line of an answer, by the tags and suites that were offered."""
    if not values(lines):
        raise Bad("NoLine")
    line = Line(values(lines)[0])
    if line.tag not in offered:
        raise Bad("Tag")
    if offered[line.tag] != line.suite:
        raise Bad("Suite")
    return line


def printed(tag, master, plain_rtp=False, plain_rtcp=False):
    marks = " UNENCRYPTED_SRTP" * plain_rtp + " UNENCRYPTED_SRTCP" * plain_rtcp
    return f"a=crypto:{tag} {master.suite} inline:{base64.b64encode(master.octets).decode()}{marks}".encode()
