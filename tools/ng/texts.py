"""What becomes of a session description between a SIP server and the gateway: addresses and profiles, as flags ask.

A text that comes in names what the gateway knows: its own peer's address, and the profile of its side. A text that goes
out names what the other side is to see: an address that it reaches, and the profile that it is to have.
"""

import re

from descriptions import HOME, MUX, looked_at, parts
from ng.request import Bad, PROFILES

# A telephone of the older kind says by this address that it holds (RFC 3264, 8.4).
NOWHERE = b"0.0.0.0"
CONNECTION = re.compile(rb"c=IN IP4 ([0-9.]+)")
ORIGIN = re.compile(rb"^(o=\S+ \S+ \S+ IN) IP[46] \S+")
CRYPTO = b"a=crypto:"
SECURED = {b"RTP/AVP": b"RTP/SAVP", b"RTP/AVPF": b"RTP/SAVPF"}
# By these a side says that it doesn't talk, or doesn't listen (RFC 8866, 6.7).
DIRECTIONS = {b"a=sendrecv", b"a=sendonly", b"a=recvonly", b"a=inactive"}


def printed(found):
    """The text of a session part and media."""
    return b"".join(line + b"\r\n" for part in found for line in part)


def changed(text, change):
    """The text with each line changed."""
    return printed([[change(line) for line in part] for part in parts(text)])


def addresses(text):
    """The addresses of its c= lines, in their order."""
    found = (CONNECTION.fullmatch(line) for part in parts(text) for line in part)
    return [match[1] for match in found if match]


def holds(text):
    """Whether it holds by naming no address at all."""
    return set(addresses(text)) == {NOWHERE}


def is_quiet(text):
    """Whether none of its active media goes both ways, as while a call is held (RFC 3264, 8.4)."""
    session, *rest = parts(text)
    active = [part for part, words in zip(rest, media(text)) if words[1:2] != [b"0"]]
    ways = [[line for line in [*session, *part] if line in DIRECTIONS][-1:] for part in active]
    return holds(text) or bool(active) and all(way not in ([], [b"a=sendrecv"]) for way in ways)


def addressed(text, source, known=None):
    """The text with its peer's address: where the SIP message came from, if that is given, and else its own; in place
    of none that which is known from before."""
    def change(line):
        match = CONNECTION.fullmatch(line)
        if source and line.startswith(b"c="):
            return b"c=IN IP4 " + source
        return b"c=IN IP4 " + known if match and known and match[1] == NOWHERE else line
    return changed(text, change)


def media(text):
    """The words of its m= lines."""
    return [part[0].split(b" ") for part in parts(text)[1:]]


def profiles(text):
    """The profile of each medium; none of a line that isn't whole."""
    return [words[2] if len(words) >= 4 else b"" for words in media(text)]


def profile(text):
    """The profile of the first medium that is active, or of the first one; none where it has no medium."""
    whole = [words for words in media(text) if len(words) >= 4]
    active = [words for words in whole if words[1] != b"0"] or whole
    return active[0][2] if active else b""


def has_keys(text):
    return any(line.startswith((b"a=crypto:", b"a=key-mgmt:")) for part in parts(text) for line in part)


def profiled(text, protos):
    """The text with its media of RTP in these profiles, in their order."""
    found = parts(text)
    for part, words, proto in zip(found[1:], media(text), protos):
        if len(words) >= 4 and words[2] in PROFILES and proto in PROFILES:
            part[0] = b" ".join([*words[:2], proto, *words[3:]])
    return printed(found)


def secured(text):
    """The text of a telephone that encrypts though its profile doesn't say so, as the gateway takes it: media with keys
    have the profile that says it."""
    keyed = [has_keys(printed([part])) for part in parts(text)[1:]]
    return profiled(text, [SECURED.get(proto, proto) if own else proto for own, proto in zip(keyed, profiles(text))])


def seen(text, muxes=False):
    """What the gateway looks at in a text, but for the tags of crypto lines: who has answered one of several lines may offer
    its key under another tag."""
    lines = looked_at(text, muxes)
    return [line.split(b" ", 1)[1:] if isinstance(line, bytes) and line.startswith(CRYPTO) else line for line in lines]


def answering(given, offer):
    """The gateway's text with the key lines that answer an offer: of each medium the one of a suite that is offered there,
    under its tag."""
    told = []
    for part, offered in zip(parts(given), parts(offer)):
        words = [line[len(CRYPTO):].split(b" ") for line in reversed(offered) if line.startswith(CRYPTO)]
        tags = {suite: tag for tag, suite, *_ in (one for one in words if len(one) > 1)}
        chosen = next((line for line in part if line.startswith(CRYPTO) and line.split(b" ")[1] in tags), None)
        kept = [line for line in part if line is chosen or not line.startswith(CRYPTO)]
        told.append([tagged(line, tags) if line is chosen else line for line in kept])
    return printed(told)


def tagged(line, tags):
    """A crypto line under the tag of its suite."""
    words = line.split(b" ")
    return b" ".join([CRYPTO + tags[words[1]], *words[1:]])


def unmuxed(text):
    """The text without the lines by which RTP and RTCP share a port."""
    return printed([[line for line in part if line != MUX] for part in parts(text)])


def shown(text, address, replaces_origin, nowhere):
    """The gateway's text with the address that the side is to see; it holds where the text that it stands for did."""
    def change(line):
        if line == b"c=IN IP4 " + HOME:
            return b"c=IN IP4 " + (NOWHERE if nowhere else address)
        return ORIGIN.sub(rb"\1 IP4 " + address, line) if replaces_origin else line
    return changed(text, change)


def without_suites(text, may):
    """The text without the crypto lines of suites that may not be offered."""
    def keeps(line):
        return not line.startswith(b"a=crypto:") or may(b"".join(line.split(b" ")[1:2]))
    kept = [[line for line in part if keeps(line)] for part in parts(text)]
    if any(has_keys(printed([part])) and not has_keys(printed([left])) for part, left in zip(parts(text), kept)):
        raise Bad("SDES: no suite of the gateway's is left to be offered")
    return printed(kept)
