#!/usr/bin/env python3
"""Says why the gateway doesn't take a script, or refuses a session description: to the line, the field and the column,
and in words.

    python3 tools/why.py call.script
    python3 tools/why.py --capture call.script     # one for the command `capture`, with the capture behind it or without
    python3 tools/why.py --bridge calls.script     # one for `bridge` or `relay --bridge`, whose lines join and part calls
    python3 tools/why.py --secure alice.sdp        # a text of the secure side by itself, as an offer
    python3 tools/why.py --plain bob.sdp

Of a script the first line outside the grammar ends the run; of the texts before it each crypto line and MIKEY line that
can't be read is named, whether the gateway refuses the text for it or not. No octet of a key is told. The status is 0
where nothing is to be said, 1 where something is, 2 where the words aren't right or a file can't be read. What hangs on
keys, clocks and packets (Psk, Cs, calls that end as idle, drops) only a run can tell: tools/outcomes.py. Needs Python
3.8 alone.
"""

import argparse
import difflib
import re
import signal
import sys
from pathlib import Path

from fields import (
    DATAGRAM_MOST, KEY_OCTETS, NUMBER_MOST, SHARED_KEY_LEAST, SHARED_KEY_MOST, TEXT_MOST, WINDOW_LEAST, WINDOW_MOST,
)
from sentences import refusal
from texts import PLAIN, SALT, SECURE, looked_at

LINE_MOST, SCRIPT_MOST, NOISE = 70_000, 2**30, 304
LAST_TICK, PORT_MOST = 2_085_978_495_999, 65_535
CAPTURE = "capture"
HEADERS = {"srtpgw 1": 1, "srtpgw 2": 2}
# The fields behind each first word; those of `offer-plain` hang on its third word, and a datagram's on the version.
DATAGRAMS = {1: "PORT ADDRESS OCTETS", 2: "MOMENT PORT ADDRESS OCTETS"}
FIELDS = {
    "in": DATAGRAMS[1], "tick": "MOMENT", "psk": "OWN PEER SECRET",
    "manual": "CALL SECURE PLAIN ROLLOVER WINDOW KEY KEY", "offer-secure": "CALL NOISE TEXT",
    "answer": "CALL NOISE TEXT", "reject": "CALL", "bye": "CALL",
}
# Those that a bridge alone takes.
PAIRS = {"join": "CALL CALL", "part": "CALL"}
OFFERS = {"sdes": "CALL sdes NOISE TEXT", "mikey": "CALL mikey PEER NOISE TEXT"}


class Fault(Exception):
    """A line's first fault by its name, at an octet of the line or of a field from 0 on, in words."""

    def __init__(self, name, at, words):
        super().__init__(words)
        self.name, self.at, self.words, self.field = name, at, words, None


# ---- fields

def number(text, most, least=0, what="the number"):
    if not re.fullmatch("[0-9]+", text):
        at = re.search("[^0-9]|$", text).start()
        raise Fault("Number", at, f"{what} isn't written in digits alone")
    if text[0] == "0" and text != "0":
        raise Fault("Number", 0, f"{what} has a zero in front")
    if len(text) > 20 or not least <= int(text) <= most:
        raise Fault("Number", 0, f"{what} isn't of {least} to {most}")


def address(text):
    host, colon, port = text.partition(":")
    if host.startswith("[") or text.count(":") > 1:
        raise Fault("Number", 0, "the address isn't four numbers, a colon and a port (IPv6 isn't served)")
    parts, at = host.split("."), 0
    if len(parts) != 4:
        name = " (names aren't looked up)" if re.search("[a-zA-Z]", host) else ""
        raise Fault("Number", 0, f"the address isn't four numbers joined by full stops{name}")
    for part in parts:
        within("Number", at, number, part, 255, 0, "a number of the address")
        at += len(part) + 1
    if not colon:
        raise Fault("Number", len(host), "the address has no port behind a colon")
    within("Number", at, number, port, PORT_MOST, 0, "the port")


def within(name, at, reads, *given):
    """Reads a part of a field that begins at a place."""
    try:
        return reads(*given)
    except Fault as fault:
        raise Fault(name or fault.name, at + fault.at, fault.words) from None


def digits(text):
    """The octets of hexadecimal digits."""
    if text == "-":
        return b""
    other = re.search("[^0-9a-f]", text)
    if text[:2] in ("0x", "0X"):
        raise Fault("Hex", 0, "the digits begin with `0x`: they stand without it")
    if other and other[0] in "ABCDEF":
        raise Fault("Hex", other.start(), "a capital digit: hexadecimal digits are small letters here")
    if other:
        in_clear = len(set(re.findall("[^0-9a-fA-F]", text))) > 3
        hint = " (octets are written as hexadecimal digits, not as they are)" if in_clear else ""
        raise Fault("Hex", other.start(), f"`{shown(other[0])}` isn't a hexadecimal digit{hint}")
    if not text:
        raise Fault("Hex", 0, "no digits: no octets at all are written `-`")
    if len(text) % 2:
        raise Fault("Hex", len(text), f"an odd number of digits, {len(text)}: an octet has two")
    return bytes.fromhex(text)


def octets(text, least, most, what):
    found = digits(text)
    if not least <= len(found) <= most:
        wanted = f"{least}" if least == most else f"{least} to {most}"
        raise Fault("Length", 0, f"{what} has {len(found)} octets; it has to have {wanted}")
    return found


def noise(text):
    if text != "-":
        octets(text, NOISE, NOISE, "the noise")


def rollover(text):
    if not re.fullmatch("[0-9a-f]{8}", text):
        raise Fault("Hex", 0, f"the rollover isn't 8 hexadecimal digits in small letters (here: {len(text)} characters)")


def identity(text):
    other = re.search("[^!-~]", text)
    if other:
        raise Fault("Word", other.start(), f"`{shown(other[0])}` may not stand in a name")
    if not 1 <= len(text) <= 128:
        raise Fault("Length", 0, f"the name has {len(text)} characters; it has to have 1 to 128")


def key(text):
    """A key by hand; its suite and its octets."""
    suite, colon, rest = text.partition(":")
    if not colon:
        raise Fault("Word", 0, "a key is a suite, a colon and hexadecimal digits; here is no colon")
    if suite not in KEY_OCTETS:
        if suite.upper() in KEY_OCTETS:
            raise Fault("Word", 0, f"suites are written in capital letters: `{suite.upper()}`")
        gcm = " (GCM isn't served)" if "GCM" in suite.upper() else ""
        raise Fault("Word", 0, f"`{shown(suite[:40])}` isn't one of the suites{gcm}: {', '.join(KEY_OCTETS)}")
    most = KEY_OCTETS[suite]
    return suite, within(None, len(suite) + 1, octets, rest, most, most, f"the key of {suite}, with its salt,")


READS = {
    "PORT": lambda text: number(text, PORT_MOST, 0, "the port"), "ADDRESS": address, "SECURE": address, "PLAIN": address,
    "OCTETS": lambda text: octets(text, 0, DATAGRAM_MOST, "the datagram"),
    "MOMENT": lambda text: number(text, LAST_TICK, 0, "the moment"), "OWN": identity, "PEER": identity,
    "SECRET": lambda text: octets(text, SHARED_KEY_LEAST, SHARED_KEY_MOST, "the pre-shared key"),
    "CALL": lambda text: number(text, NUMBER_MOST, 0, "the call's number"), "ROLLOVER": rollover,
    "WINDOW": lambda text: number(text, WINDOW_MOST, WINDOW_LEAST, "the window"), "KEY": key, "NOISE": noise,
    "TEXT": lambda text: octets(text, 0, TEXT_MOST, "the session description"),
}


# ---- lines

def shown(text):
    """Characters for a terminal."""
    return "".join(letter if letter.isprintable() else f"\\x{ord(letter):02x}" for letter in text)


def header_fault(line):
    """Why line 1 isn't a header."""
    if line.rstrip("\r") in HEADERS:
        return Fault("Version", 8, "the header is right, but the line ends with a carriage return (CRLF): "
                     "lines end with a line feed alone")
    if line.startswith("\xef\xbb\xbf"):
        return Fault("Version", 0, "the file begins with a byte order mark (UTF-8): save it without one")
    if line[:2] in ("\xff\xfe", "\xfe\xff"):
        return Fault("Version", 0, "the file is UTF-16: save it as plain text")
    if re.fullmatch(r"\s*srtpgw\s+[0-9.]+\s*", line, re.I):
        return Fault("Version", 0, f"the header is `srtpgw 1` or `srtpgw 2`, to the letter; here is `{shown(line)}`")
    if line.split(" ")[0] in (*FIELDS, "offer-plain"):
        return Fault("Version", 0, "the header is missing: line 1 is `srtpgw 1` or `srtpgw 2`")
    return Fault("Version", 0, "line 1 isn't the header, `srtpgw 1` or `srtpgw 2`")


def space_fault(line):
    """Spaces that are no separators, or None."""
    for pattern, words in (("\t", "a tab: fields are separated by one space"), ("^ ", "a space in front of the line"),
                           ("  ", "two spaces: fields are separated by one"), (" $", "a space behind the last field")):
        found = re.search(pattern, line)
        if found:
            return Fault("Word", found.start(), words)
    return None


def word_fault(line, word):
    """Why a first word isn't one."""
    known = [*FIELDS, "offer-plain"]
    if not line:
        return Fault("Word", 0, "the line is empty: a script has no empty lines")
    if line == CAPTURE:
        return Fault("Word", 0, "a capture follows: the command `capture` alone takes one (here: `--capture`)")
    if word in PAIRS:
        return Fault("Word", 0, f"`{word}` is a line of `bridge` and `relay --bridge` alone (here: `--bridge`)")
    if line[0] in "#;" or line.startswith("//"):
        return Fault("Word", 0, "a comment: a script has none")
    if line in HEADERS:
        return Fault("Word", 0, "a header again: it stands in line 1 alone")
    spaces = space_fault(line)
    if spaces:
        return spaces
    if word.lower() in known:
        return Fault("Word", 0, f"words are small letters: `{word.lower()}`")
    near = difflib.get_close_matches(word.lower(), known, 1)
    return Fault("Word", 0, f"`{shown(word[:40])}` isn't a word of a script" + (f"; perhaps `{near[0]}`" if near else ""))


def count_fault(line, word, names, given):
    """Why a word hasn't so many fields."""
    at_ = given[len(names)][0] if len(given) > len(names) else len(line)
    hint = ""
    if word == "in" and len(given) == 4:
        hint = ": a datagram has a moment in front of its port in version 2, which begins with `srtpgw 2`"
    elif word == "in" and len(given) == 3:
        hint = ": in version 2 a datagram has its moment in front of its port"
    return Fault("Word", at_, f"`{word}` has {len(names)} field(s), {' '.join(names)}; here are {len(given)}{hint}")


def fields_of(line, version, is_bridged):
    """The first word, the names of its fields, and each field with its place; or the line's Word fault."""
    found, at = [], 0
    for text in line.split(" "):
        found.append((at, text))
        at += len(text) + 1
    word, given = found[0][1], found[1:]
    names = DATAGRAMS[version] if word == "in" else FIELDS.get(word) or is_bridged and PAIRS.get(word)
    if word == "offer-plain":
        kind = given[1][1] if len(given) > 1 else ""
        names = OFFERS.get(kind)
        if not names:
            raise space_fault(line) or Fault("Word", given[1][0] if len(given) > 1 else len(line),
                                             "behind the call's number stands `sdes` or `mikey`")
    if not names:
        raise word_fault(line, word)
    names = names.split(" ")
    if len(names) != len(given):
        raise space_fault(line) or count_fault(line, word, names, given)
    return word, names, given


def values_of(line, version, is_bridged):
    """The first word and what each field says. Raises the line's first fault."""
    word, names, given = fields_of(line, version, is_bridged)
    values = []
    for place, (name, (at, text)) in enumerate(zip(names, given), 1):
        if name.islower():
            continue
        try:
            values.append((name, READS[name](text), text))
        except Fault as fault:
            fault.at, fault.field = at + fault.at, f"field {place} of `{word}`, {name}"
            raise
    keys = [value for name, value, _ in values if name == "KEY"]
    if keys and ("RAW80" in (keys[0][0], keys[1][0])) and keys[0][0] != keys[1][0]:
        raise Fault("Word", given[6][0], "one of the two keys is `RAW80`: both are, or neither")
    return word, values


def read_line(place, octets_, version=1, is_bridged=False):
    """What the line at a place from 1 on says in a version; of a header its version. Raises its first fault. Of a bridge
    there are lines of pairs, too."""
    if len(octets_) > LINE_MOST:
        raise Fault("Length", LINE_MOST, f"the line has {len(octets_)} octets; {LINE_MOST} are the most")
    if not octets_.endswith(b"\n"):
        raise Fault("Unended", len(octets_), "the last line has no line end")
    line = octets_[:-1].decode("latin-1")
    if place == 1:
        if line not in HEADERS:
            raise header_fault(line)
        return "srtpgw", [("VERSION", HEADERS[line], line[-1])]
    if line.endswith("\r"):
        try:
            values_of(line, version, is_bridged)
        except Fault as fault:
            raise Fault(fault.name, len(line) - 1, "the line ends with a carriage return (CRLF): lines end with a line "
                        "feed alone") from None
    return values_of(line, version, is_bridged)


# ---- what the lines say to each other

class Book:
    """Calls, keys and the moment, as far as they can be known without a run. A call is there with an open offer, or
    with sessions (of so many media, or `MANUAL` under keys by hand), or both; one that may have ended as idle stands
    here still. An offer whose answer hangs on a pre-shared key is perhaps open still."""

    MANUAL = "manual"

    def __init__(self):
        self.stands, self.offers, self.perhaps, self.moment, self.keys, self.peers = {}, {}, set(), 0, {}, set()
        # Each refusal that is certain: the line, the call, the cause.
        self.refused = []

    def take(self, place, word, values):
        """Remarks on a line that is within the grammar, in words."""
        does = getattr(self, "take_" + word.replace("-", "_"), None)
        return does(place, [text for _, _, text in values], [value for _, value, _ in values]) if does else []

    def refuse(self, place, call, cause):
        self.refused.append((place, call, cause))
        return [refusal(cause)]

    def is_there(self, call):
        return call in self.stands or call in self.offers

    def take_tick(self, place, texts, values):
        if int(texts[0]) < self.moment:
            return self.refuse(place, "-", f"TickBack {self.moment}")
        self.moment = int(texts[0])
        return []

    def take_in(self, place, texts, values):
        """Of version 2, a tick to the moment."""
        return self.take_tick(place, texts, values) if len(texts) == len(DATAGRAMS[2].split(" ")) else []

    def take_psk(self, place, texts, values):
        self.peers.add(texts[1])
        return []

    def take_manual(self, place, texts, values):
        if self.is_there(texts[0]):
            return ["where the call hasn't ended by itself: " + refusal("CallKnown")]
        reused = self.reused([(f"line {place}, field {field}", octets_ if suite == "RAW80" else octets_[:-SALT])
                              for field, (suite, octets_) in ((6, values[5]), (7, values[6]))])
        if not reused:
            self.stands[texts[0]] = self.MANUAL
        return reused

    def take_offer_secure(self, place, texts, values):
        return self.offered(place, texts[0], lambda live: looked_at(values[2], SECURE, live=live))

    def take_offer_plain(self, place, texts, values):
        if len(texts) == 3:
            return self.offered(place, texts[0], lambda live: looked_at(values[2], PLAIN, live=live))
        keyed = {"keyed": "mikey", "known": texts[1] in self.peers}
        return self.offered(place, texts[0], lambda live: looked_at(values[3], PLAIN, live=live, **keyed))

    def offered(self, place, call, looks):
        if call in self.offers and call not in self.perhaps or self.stands.get(call) == self.MANUAL:
            return ["where the call hasn't ended by itself: " + refusal("State")]
        look = looks(self.stands.get(call))
        if look.refusal:
            self.refused.append((place, call, look.refusal))
        else:
            self.offers[call] = look.offer, self.keys_of(place, look)
            self.perhaps.discard(call)
        return told(look)

    def take_answer(self, place, texts, values):
        call = texts[0]
        if call not in self.offers:
            return self.refuse(place, call, "State" if self.is_there(call) else "CallUnknown")
        offer, keys = self.offers[call]
        look = looked_at(values[2], PLAIN if offer.side == SECURE else SECURE, offer)
        if look.refusal:
            self.refused.append((place, call, look.refusal))
            return told(look)
        reused = self.reused(keys + self.keys_of(place, look))
        if not reused:
            self.answered(call, offer)
        return told(look) + reused

    def answered(self, call, offer):
        self.stands[call] = offer.media
        if offer.keyed == "mikey":
            self.perhaps.add(call)
        else:
            del self.offers[call]

    def take_reject(self, place, texts, values):
        if texts[0] not in self.offers:
            return self.refuse(place, texts[0], "State" if self.is_there(texts[0]) else "CallUnknown")
        del self.offers[texts[0]]
        return []

    def take_bye(self, place, texts, values):
        if not self.is_there(texts[0]):
            return self.refuse(place, texts[0], "CallUnknown")
        self.offers.pop(texts[0], None)
        self.stands.pop(texts[0], None)
        return []

    @staticmethod
    def keys_of(place, look):
        return [(f"line {place}, crypto line at line {line} of its text", octets_) for line, octets_ in look.keys]

    def reused(self, keys):
        """Keys that stand in an earlier place, or twice here; none of them is kept then."""
        known, found = dict(self.keys), []
        for where, octets_ in keys:
            if octets_ in known:
                found.append(f"the key of {where} is that of {known[octets_]}: KeyReused, a key serves once")
            known.setdefault(octets_, where)
        if not found:
            self.keys = known
        return found


def told(look):
    """What is said of a text, in lines."""
    lines = [f"{at(remark.line, remark.column)}: {remark.words}" for remark in look.remarks]
    return lines + ([refusal(look.refusal)] if look.refusal else [])


def at(line, column):
    where = f"line {line} of its text" if line else "its text"
    return f"{where}, column {column}" if column else where


class Why:
    """What is to be said of a script: remarks by line, and the first fault."""

    def __init__(self, octets_, is_captured=False, is_bridged=False):
        self.remarks, self.fault, self.further, self.book = [], None, 0, Book()
        begun, version = 0, 1
        for place, line in enumerate(re.findall(rb"[^\n]*\n|[^\n]+", octets_), 1):
            begun += len(line)
            if is_captured and place > 1 and line == CAPTURE.encode() + b"\n":
                break
            try:
                if begun > SCRIPT_MOST:
                    raise Fault("Length", SCRIPT_MOST - begun + len(line), f"the script has more than {SCRIPT_MOST} octets")
                word, values = read_line(place, line, version, is_bridged)
                if word == "srtpgw":
                    version = values[0][1]
                if not self.fault:
                    self.remarks += [(place, words) for words in self.book.take(place, word, values)]
            except Fault as fault:
                self.further += bool(self.fault)
                self.fault = self.fault or (place, fault)

    def lines(self):
        """All of it in words."""
        said = [f"line {place}: {words}" for place, words in self.remarks]
        if self.fault:
            place, fault = self.fault
            where = f"line {place}, column {fault.at + 1}{f', {fault.field}' if fault.field else ''}"
            ends = f"The run ends here (`srtpgw: script line {place}: {fault.name}`)."
            said.append(f"{where}: {fault.name}: {fault.words}. {ends}")
        if self.further:
            said.append(f"{self.further} further line(s) are outside the grammar, too")
        return said


def words():
    parser = argparse.ArgumentParser(description="says why the gateway doesn't take a script or a session description")
    what = parser.add_mutually_exclusive_group(required=True)
    what.add_argument("script", nargs="?", help="a script, or - for standard input")
    parser.add_argument("--capture", action="store_true", help="a line `capture` ends the script")
    parser.add_argument("--bridge", action="store_true", help="the script may have lines `join` and `part`")
    what.add_argument("--secure", metavar="SDP", help="a session description of the secure side, as an offer")
    what.add_argument("--plain", metavar="SDP", help="one of the plain side")
    return parser


def main():
    given = words().parse_args()
    signal.signal(signal.SIGPIPE, signal.SIG_DFL)
    path = given.script or given.secure or given.plain
    try:
        octets_ = sys.stdin.buffer.read() if path == "-" else Path(path).read_bytes()
    except OSError as fault:
        print(f"why.py: {fault}", file=sys.stderr)
        sys.exit(2)
    if given.script:
        said = Why(octets_, given.capture, given.bridge).lines()
    else:
        said = told(looked_at(octets_, SECURE if given.secure else PLAIN))
    for line in said:
        print(line)
    sys.exit(1 if said else 0)


if __name__ == "__main__":
    main()
