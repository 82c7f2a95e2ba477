"""Session descriptions (RFC 4566) with crypto lines (RFC 4568) and MIKEY lines (RFC 4567): why the gateway refuses one,
to the line and the column, in words. No octet of a key is told.

    look = looked_at(octets, SECURE)              # of an offer; `refusal` is None where there is none
    look.remarks, look.refusal, look.offer
    look = looked_at(octets, PLAIN, look.offer)   # of the answer to it

Needs Python 3.8 alone.
"""

import base64
import collections
import re

import mikey_messages
from fields import SUITES

SECURE, PLAIN = "secure", "plain"
SALT = 14
PROFILES = {SECURE: ("RTP/SAVP", "RTP/SAVPF"), PLAIN: ("RTP/AVP", "RTP/AVPF")}
LINE_MOST, TEXT_MOST, MEDIA_MOST, KEYS_MOST, LIFE_MOST = 2_048, 16_384, 4, 8, 2**48
DECIMAL = re.compile(r"0|[1-9][0-9]*")
CRYPTO, MIKEY = "a=crypto:", "a=key-mgmt:mikey"

# Where, from 1 on; column 0 is the whole line, line 0 the whole text.
Remark = collections.namedtuple("Remark", "line column words")
# What an answer is held against: the side that offered, the number of media, the places of those that are active, how
# the secure side is keyed ("sdes" or "mikey", of the gateway's own where the plain side offered).
Offer = collections.namedtuple("Offer", "side media active keyed")
# The crypto lines that the gateway offers, by tag.
OWN_LINES = {1: "AES_CM_128_HMAC_SHA1_80", 2: "AES_256_CM_HMAC_SHA1_80"}


class Bad(Exception):
    """The first fault of a crypto line by its name, at a place from 0 on, in words."""

    def __init__(self, name, at, words):
        super().__init__(words)
        self.name, self.at, self.words = name, at, words


class Refused(Exception):
    """What the gateway refuses a text for."""


# ---- lines

class Medium:
    def __init__(self, line, port, profile):
        self.line, self.port, self.profile, self.lines = line, port, profile, []

    def is_active(self, side):
        return self.port != 0 and self.profile in PROFILES[side]


class Description:
    """The lines of the session part and of each medium, each with its number."""

    def __init__(self):
        self.session, self.media = [], []

    def of_line(self, number, text):
        if text.startswith("m="):
            _, port, profile = text[2:].split(" ")[:3]
            self.media.append(Medium(number, int(port), profile))
        else:
            (self.media[-1].lines if self.media else self.session).append((number, text))


def is_address(text):
    parts = text.split(".")
    return len(parts) == 4 and all(DECIMAL.fullmatch(part) and int(part) < 256 for part in parts)


def form_of(text):
    """A place and words where a line isn't a letter, `=` and a text, or None."""
    if not text:
        return 0, "the line is empty"
    if not re.match("[a-z]=", text):
        return 0, "the line doesn't begin with a small letter and `=`"
    for letter, name in (("\r", "a carriage return"), ("\0", "a NUL")):
        if letter in text:
            return text.index(letter), f"{name} stands within the line"
    return medium_form(text) if text.startswith("m=") else None


def medium_form(text):
    """A place and words where an `m=` line isn't whole, or None."""
    words = text[2:].split(" ", 3)
    if len(words) < 4 or not all(words):
        return 0, "an `m=` line is a word, a port, a profile and formats, with one space between them"
    for word, at in ((words[0], 2), (words[2], 4 + len(words[0]) + len(words[1]))):
        if not re.fullmatch("[!-~]+", word):
            return at, "a word of the `m=` line has other characters than printing ones"
    if not DECIMAL.fullmatch(words[1]) or int(words[1]) > 65_535:
        return 3 + len(words[0]), "the port isn't a number of 0 to 65535 (a port and a count, as in `5000/2`, isn't served)"
    return None


def address_form(text):
    """A place and words where a `c=` line isn't an IPv4 address, or None."""
    if text[2:].startswith("IN IP6"):
        return 5, "IPv6 isn't served"
    if not text[2:].startswith("IN IP4 "):
        return 2, "a `c=` line is `IN IP4` and an address"
    if is_address(text[9:]):
        return None
    if "/" in text and is_address(text[9:].split("/")[0]):
        return 9, "the address has a time to live or a count behind it"
    return 9, "the address isn't four numbers of 0 to 255 (names aren't looked up)"


def line_fault(number, text, media):
    """The name, place and words of a line's first fault, or None."""
    if len(text) > LINE_MOST:
        return "TooLong", LINE_MOST, f"the line has {len(text)} octets; {LINE_MOST} are the most"
    bad = form_of(text)
    if bad:
        return ("Form", *bad)
    first = ("v=0", "o=", "s=")[number - 1] if number <= 3 else ""
    if not text.startswith(first) or number == 1 and text != first:
        return "Order", 0, f"line {number} has to be " + ("`v=0`" if number == 1 else f"an `{first}` line")
    if text.startswith("c="):
        bad = address_form(text)
        return ("Address", *bad) if bad else None
    if text.startswith("m=") and media == MEDIA_MOST:
        return "TooManyMedia", 0, f"this is medium {media + 1}; {MEDIA_MOST} are the most"
    return None


def read(octets):
    """The description that a text is. Raises Refused with a remark."""
    if len(octets) > TEXT_MOST:
        refuse("Sdp 0 TooLong", 0, 0, f"the text has {len(octets)} octets; {TEXT_MOST} are the most")
    *lines, rest = octets.decode("latin-1").split("\n")
    found = Description()
    for number, line in enumerate(lines, 1):
        text = line[:-1] if line.endswith("\r") else line
        fault = line_fault(number, text, len(found.media))
        if fault:
            refuse(f"Sdp {number} {fault[0]}", number, 1 + fault[1], fault[2])
        found.of_line(number, text)
    number = len(lines) + 1
    if len(rest) > LINE_MOST:
        refuse(f"Sdp {number} TooLong", number, 1 + LINE_MOST, f"the line has {len(rest)} octets")
    if rest:
        refuse(f"Sdp {number} Form", number, 1 + len(rest), "the last line has no line end")
    if number <= 3:
        refuse(f"Sdp {number} Order", number, 0, "the text ends before its third line; `v=0`, `o=` and `s=` come first")
    return found


def refuse(cause, line, column, words):
    raise Refused(cause, Remark(line, column, words))


# ---- crypto lines

def words_of(text):
    """The words between spaces, each with its place."""
    return [(found.start(), found[0]) for found in re.finditer("[^ ]+", text)]


def decoded(text):
    """The octets of base64 with all its closing `=` or none; a place and words where there are none."""
    digits = text.rstrip("=")
    other = re.search("[^A-Za-z0-9+/]", digits)
    if other:
        kind = " (that of URLs has `-` and `_`)" if other[0] in "-_" else ""
        return None, other.start(), f"`{other[0]}` isn't a digit of base64{kind}"
    pads = -len(digits) % 4
    if len(digits) % 4 == 1:
        return None, len(digits), "the base64 is cut: a last group of one digit"
    if len(text) - len(digits) not in (0, pads):
        return None, len(digits), f"{len(text) - len(digits)} `=` close the base64; it needs {pads} or none"
    octets = base64.b64decode(digits + "=" * pads)
    if base64.b64encode(octets).decode().rstrip("=") != digits:
        return None, len(digits) - 1, "the last digit of the base64 has bits that belong to no octet"
    return octets, 0, None


def lifetime(text, at):
    if text.startswith("2^"):
        good = DECIMAL.fullmatch(text[2:]) and int(text[2:]) <= 48
    else:
        good = DECIMAL.fullmatch(text) and 0 < int(text) <= LIFE_MOST
    if not good:
        raise Bad("Lifetime", at, "the lifetime isn't a number of 1 to 2^48, or `2^` and a number of 0 to 48")


def mki(text, at):
    value, _, length = text.partition(":")
    if not (DECIMAL.fullmatch(value) and int(value) < 2**128 and DECIMAL.fullmatch(length) and 0 < int(length) <= 128):
        raise Bad("MkiValue", at, "the MKI isn't a number below 2^128, a colon and a length of 1 to 128")
    if int(value) >= 256**int(length):
        raise Bad("MkiValue", at, f"the MKI doesn't fit in {length} octets")
    return int(value), int(length)


def one_key(suite, text, at):
    """The MKI of a key, or None where it has none; its octets without the salt."""
    if not text.startswith("inline:"):
        small = " in small letters" if text.lower().startswith("inline:") else ""
        raise Bad("Key", at, f"the key doesn't begin with `inline:`{small}")
    digits, *parts = text[7:].split("|")
    octets, place, words = decoded(digits)
    if words:
        raise Bad("Key", at + 7 + place, words)
    if len(octets) != SUITES[suite]:
        raise Bad("Key", at + 7, f"the key and its salt have {len(octets)} octets; {suite} needs {SUITES[suite]}")
    behind = at + 8 + len(digits)
    if [":" in part for part in parts] not in ([], [False], [True], [False, True]):
        raise Bad("Key", behind, "behind a key come a lifetime and an MKI at most, in this order, each behind a `|`")
    if parts and ":" not in parts[0]:
        lifetime(parts[0], behind)
    named = mki(parts[-1], behind + len("|".join(parts)) - len(parts[-1])) if parts and ":" in parts[-1] else None
    return named, octets[:-SALT]


def keys(suite, text, at):
    """The keys of a crypto line, each without its salt."""
    found, place = [], at
    for part in text.split(";"):
        if len(found) == KEYS_MOST:
            raise Bad("Key", place, f"this is key {KEYS_MOST + 1}; {KEYS_MOST} are the most")
        found.append(one_key(suite, part, place))
        place += len(part) + 1
    named = [name for name, _ in found]
    if len(found) > 1 and (None in named or len({length for _, length in named}) > 1 or len(set(named)) < len(named)):
        raise Bad("MkiValue", at, "several keys have MKIs of one length, each another")
    return [octets for _, octets in found]


def parameters(words):
    """The first fault of session parameters: one that stands twice, then one that isn't served."""
    seen = set()
    for at, word in words:
        name = word.split("=")[0]
        if name in seen and not word.startswith("-"):
            raise Bad("Parameter", at, f"the parameter `{name[:40]}` stands twice")
        seen.add(name)
    for at, word in words:
        served = word in ("UNENCRYPTED_SRTP", "UNENCRYPTED_SRTCP", "KDR=0", "FEC_ORDER=FEC_SRTP") or word.startswith("-")
        if not word:
            raise Bad("Parameter", at, "a space ends the line")
        if not served and not re.fullmatch("WSH=[0-9]{1,9}", word):
            raise Bad("Parameter", at, f"the parameter `{word.split('=')[0][:40]}` isn't served with this value, or at all")


def suite_words(name):
    if not name:
        return "the suite is missing"
    if "GCM" in name.upper():
        return f"`{name[:40]}` isn't served: GCM isn't, AES in counter mode with HMAC-SHA-1 is"
    if name.upper() in SUITES:
        return f"suites are written in capital letters: `{name.upper()}`"
    return f"`{name[:40]}` isn't one of the suites: {', '.join(SUITES)}"


def crypto_line(value):
    """Tag, suite and keys of what stands behind `a=crypto:`. Raises Bad."""
    words = words_of(value)
    if not words or words[0][0] > 0 or not re.fullmatch("[0-9]{1,9}", words[0][1]):
        raise Bad("Tag", 0, "the tag isn't 1 to 9 digits")
    at, suite = words[1] if len(words) > 1 else (len(value), "")
    if suite not in SUITES:
        raise Bad("Suite", at, suite_words(suite))
    at, text = words[2] if len(words) > 2 else (len(value), "")
    found = keys(suite, text, at)
    if len(words) > 2 and value.endswith(" "):
        words.append((len(value), ""))
    parameters(words[3:])
    return int(words[0][1]), suite, found


def crypto_lines(lines):
    return [(number, text) for number, text in lines if text.startswith(CRYPTO)]


class Look:
    """Remarks on a text, the first refusal, and the keys that it brings, by line."""

    def __init__(self, side):
        self.side = side
        self.remarks, self.refusal, self.keys, self.offer = [], None, [], None

    def remark(self, line, column, words):
        self.remarks.append(Remark(line, column, words))

    def refuse(self, cause):
        self.refusal = self.refusal or cause

    def crypto(self, number, text):
        """A crypto line that is read, or None and a remark."""
        try:
            tag, suite, found = crypto_line(text[len(CRYPTO):])
        except Bad as bad:
            self.remark(number, 1 + len(CRYPTO) + bad.at, f"this crypto line can't be read ({bad.name}): {bad.words}")
            return bad.name
        return tag, suite, found

    def near_misses(self, lines):
        """Remarks on lines that were meant as crypto lines, perhaps."""
        for number, text in lines:
            if re.match(r"(?i)a=crypto\b", text) and not text.startswith(CRYPTO):
                self.remark(number, 1, "this isn't a crypto line: it has to begin with `a=crypto:` in small letters")
            if text.startswith("a=fingerprint:"):
                self.remark(number, 1, "keys by DTLS (`a=fingerprint`) aren't served")


def chosen(look, place, medium):
    """An offer's crypto lines: the first that can be read counts."""
    lines = crypto_lines(medium.lines)
    read_ = [(number, look.crypto(number, text)) for number, text in lines]
    good = [(number, line) for number, line in read_ if not isinstance(line, str)]
    if not good:
        look.near_misses(medium.lines)
        if not lines:
            look.remark(medium.line, 0, f"medium {place} has no crypto line")
        look.refuse(f"Sdes {place} NoLine")
    else:
        look.keys += [(good[0][0], key) for key in good[0][1][2]]


def answered(look, place, medium):
    """An answer's crypto lines: the first is the peer's, and has to take one that the gateway offered."""
    lines = crypto_lines(medium.lines)
    if not lines:
        look.near_misses(medium.lines)
        look.remark(medium.line, 0, f"medium {place} has no crypto line")
        return look.refuse(f"Sdes {place} NoLine")
    number, text = lines[0]
    line = look.crypto(number, text)
    for further, other in lines[1:]:
        look.remark(further, 1, "this crypto line isn't looked at: an answer's first one counts")
    if isinstance(line, str):
        return look.refuse(f"Sdes {place} {line}")
    tag, suite, found = line
    if tag not in OWN_LINES:
        look.remark(number, 1 + len(CRYPTO), f"tag {tag} wasn't offered; {' and '.join(map(str, OWN_LINES))} were")
        return look.refuse(f"Sdes {place} Tag")
    if OWN_LINES[tag] != suite:
        look.remark(number, 0, f"tag {tag} was offered with {OWN_LINES[tag]}, not with {suite}")
        return look.refuse(f"Sdes {place} Suite")
    look.keys += [(number, key) for key in found]
    return None


# ---- MIKEY lines

def mikey_lines(lines):
    return [(number, text) for number, text in lines if text == MIKEY or text.startswith(MIKEY + " ")]


def message(look, place, lines, kind, line):
    """The first MIKEY line of a part; a part without one is remarked at its own line."""
    found = mikey_lines(lines)
    if not found:
        look.remark(line, 0, "this part has no line `a=key-mgmt:mikey`")
        return look.refuse(f"KeyMgmt {place}")
    number, text = found[0]
    digits = text[len(MIKEY) + 1:]
    octets, at, words = decoded(digits)
    if words or text == MIKEY:
        look.remark(number, 2 + len(MIKEY) + at, f"this MIKEY line can't be read: {words or 'it has no message'}")
        return look.refuse(f"KeyMgmt {place}")
    try:
        mikey_messages.check(octets, kind)
    except mikey_messages.Fault as fault:
        column = 2 + len(MIKEY) + 4 * (fault.offset // 3)
        look.remark(number, column, f"this MIKEY message can't be read ({fault.name}, octet {fault.offset}): {fault.words}")
        return look.refuse(f"Mikey {place} {fault.offset} {fault.name}")
    return None


def keyed_offer(look, description, active):
    """An offer of the secure side: by its messages alone where it has one anywhere."""
    parts = [medium.lines for medium in description.media]
    if mikey_lines(description.session):
        return message(look, 255, description.session, mikey_messages.OFFERED, 0)
    for place in active:
        medium = description.media[place]
        if any(map(mikey_lines, parts)):
            message(look, place, medium.lines, mikey_messages.OFFERED, medium.line)
        else:
            chosen(look, place, medium)
    return None


# ---- whole texts

def inactive(medium, side):
    """Why a medium isn't active, in words."""
    if medium.port == 0:
        return "its port is 0"
    words = f"its profile is {medium.profile[:40]}, where the {side} side has {' or '.join(PROFILES[side])}"
    if "TLS" in medium.profile:
        return words + ": keys by DTLS aren't served"
    if side == SECURE and crypto_lines(medium.lines):
        return words + ": crypto lines under a plain profile (encryption if the other side can) count for nothing"
    return words


def addressed(look, description, active):
    """An active medium has an address of its own, or the session's."""
    shared = any(text.startswith("c=") for _, text in description.session)
    for place in active:
        medium = description.media[place]
        if not shared and not any(text.startswith("c=") for _, text in medium.lines):
            look.remark(medium.line, 0, f"medium {place} has no `c=` line, and the session part has none either")
            return look.refuse(f"Sdp {medium.line} Address")
    return None


def keyed_answer(look, description, offer, active):
    """An answer of the secure side to what the gateway offered."""
    if offer.keyed == "mikey":
        return message(look, 255, description.session, mikey_messages.ANSWERED, 0)
    for place in active:
        answered(look, place, description.media[place])
    return None


def no_media(look, description):
    """Remarks on a text of which no medium is active."""
    for place, medium in enumerate(description.media):
        look.remark(medium.line, 0, f"medium {place} isn't active: {inactive(medium, look.side)}")
    if not description.media:
        look.remark(0, 0, "the text has no `m=` line")
    look.refuse("NoMedia")


def counted(look, description, wanted, whose):
    """A call keeps its number of media."""
    count = len(description.media)
    if not look.refusal and wanted not in (None, count):
        look.remark(0, 0, f"the text has {count} media, {whose} has {wanted}")
        look.refuse("MediaCount")


def looked_at(octets, side, offer=None, live=None, keyed="sdes", known=True):
    """What is to be said of a text of a side: of the answer to an offer, or of an offer, in a call that is live with so
    many media. Where the plain side offers, `keyed` says how the gateway does, and `known` whether it has a key for the
    peer."""
    look = Look(side)
    try:
        description = read(octets)
    except Refused as refused:
        cause, remark = refused.args
        look.remark(*remark)
        look.refuse(cause)
        return look
    media = description.media
    active = [place for place, medium in enumerate(media) if medium.is_active(side)]
    addressed(look, description, active)
    if not look.refusal and not active:
        no_media(look, description)
    counted(look, description, offer.media if offer else live, "the offer" if offer else "the call")
    if not look.refusal and not known:
        look.refuse("Psk 255 IdUnknown")
    if look.refusal:
        return look
    if offer is None:
        if side == SECURE:
            keyed_offer(look, description, active)
        look.offer = Offer(side, len(media), active, keyed)
    elif side == SECURE:
        keyed_answer(look, description, offer, [place for place in active if place in offer.active])
    return look
