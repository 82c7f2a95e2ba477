#!/usr/bin/env python3
"""MIKEY messages of the pre-shared-key method, written and read from the text of RFC 3830, and keys of crypto
sessions.

AES and HMAC are those of the Python package `cryptography`. Nothing here is of srtpgw, and srtpgw has nothing
of this. `python3 interop/mikey.py` writes the tables of `crates/sg_exchange_tests`, which `rt fmt` then lays out.
"""
import struct
from pathlib import Path

from cryptography.hazmat.primitives import hashes
from cryptography.hazmat.primitives.ciphers import Cipher, algorithms, modes
from cryptography.hazmat.primitives.hmac import HMAC

CRATES = Path(__file__).resolve().parent.parent / "crates"
# Seconds from 1900 to 1970 (RFC 868).
ERA = 2208988800
# The constants of labels (4.1.3, 4.1.4).
TEK, SALT = 0x2AD01C64, 0x39A2C14B
ENCRYPTION, AUTHENTICATION, MESSAGE_SALT = 0x150533E1, 0x2D22AC75, 0x29B88916


# ---- keys (4.1)

def mac_of(key, text):
    mac = HMAC(key, hashes.SHA1())
    mac.update(text)
    return mac.finalize()


def derived(in_key, constant, session, csb, random, length):
    """The default PRF under a label."""
    label = struct.pack(">IBI", constant, session, csb) + random
    total = 0
    for start in range(0, len(in_key), 32):
        block, a, joined = in_key[start:start + 32], label, b""
        while len(joined) < length:
            a = mac_of(block, a)
            joined += mac_of(block, a + label)
        total ^= int.from_bytes(joined[:length], "big")
    return total.to_bytes(length, "big")


def ciphered(key, csb, random, stamp, octets):
    """AES in counter mode, as 4.2.3 has it."""
    salt = derived(key, MESSAGE_SALT, 255, csb, random, 14)
    iv = int.from_bytes(salt, "big") ^ int.from_bytes(struct.pack(">HI", 0, csb) + stamp, "big")
    secret = derived(key, ENCRYPTION, 255, csb, random, 16)
    cipher = Cipher(algorithms.AES(secret), modes.CTR((iv << 16).to_bytes(16, "big")))
    return cipher.encryptor().update(octets)


def signed(key, csb, random, octets):
    return mac_of(derived(key, AUTHENTICATION, 255, csb, random, 20), octets)


def stamp_of(now):
    """NTP's form of a moment in milliseconds since 1970, rounded down."""
    seconds, rest = divmod(now, 1000)
    return struct.pack(">II", seconds + ERA, (rest << 32) // 1000)


# ---- writing (6)

def key_data(keys):
    """Key data payloads of TGKs, each a key and an SPI or None."""
    octets = b""
    for place, (key, spi) in enumerate(keys):
        last = place == len(keys) - 1
        octets += struct.pack(">BBH", 0 if last else 20, 0 if spi is None else 1, len(key)) + key
        if spi is not None:
            octets += bytes([len(spi)]) + spi
    return octets


def chain(head, payloads):
    """The header with the payloads behind it, each a number and the octets behind the next one's number."""
    octets = head(payloads[0][0])
    for place, (_, body) in enumerate(payloads):
        following = payloads[place + 1][0] if place + 1 < len(payloads) else 0
        octets += bytes([following]) + body
    return octets


def header(kind, verify, csb, entries):
    crypto_sessions = b"".join(struct.pack(">BII", *entry) for entry in entries)
    return lambda first: struct.pack(">BBBBIBB", 1, kind, first, 128 * verify, csb, len(entries), 0) + crypto_sessions


def policy(number, items):
    body = b"".join(bytes([kind, len(value)]) + value for kind, value in items)
    return 10, struct.pack(">BBH", number, 0, len(body)) + body


def identity(name):
    return 6, struct.pack(">BH", 1, len(name)) + name


DEFAULTS = [(kind, bytes([value])) for kind, value in enumerate([1, 16, 1, 20, 14, 0, 0, 1, 1, 0, 1, 10, 0])]


class Exchange:
    """What an initiator sends, and what it takes for the answer."""

    def __init__(self, key, now, keys, entries, policies, names, csb=0x10203040, random=bytes(range(16))):
        self.key, self.csb, self.random, self.stamp = key, csb, random, stamp_of(now)
        self.keys, self.entries, self.policies, self.names = keys, entries, policies, names

    def initial(self, cipher=1, mac=1, text=None, exchanged=False):
        inner = ciphered(self.key, self.csb, self.random, self.stamp, key_data(self.keys) if text is None else text)
        payloads = [(5, b"\0" + self.stamp), (11, bytes([len(self.random)]) + self.random)]
        if exchanged:
            payloads.reverse()
        payloads += [identity(name) for name in self.names] + [policy(*p) for p in self.policies]
        payloads += [(1, struct.pack(">BH", cipher, len(inner)) + inner + bytes([mac]))]
        octets = chain(header(0, 1, self.csb, self.entries), payloads)
        return octets + signed(self.key, self.csb, self.random, octets) * mac

    def response(self, own, entries, mac=1, csb=None):
        csb = self.csb if csb is None else csb
        payloads = [(5, b"\0" + self.stamp), identity(own), (9, bytes([mac]))]
        octets = chain(header(1, 0, csb, entries), payloads)
        covered = octets + self.names[0] + own + self.stamp
        return octets + signed(self.key, self.csb, self.random, covered) * mac

    def sessions(self, key_len):
        """The master key and salt of each crypto session under each TGK."""
        return [
            [
                derived(tgk, TEK, session, self.csb, self.random, key_len)
                + derived(tgk, SALT, session, self.csb, self.random, 14)
                for tgk, _ in self.keys
            ]
            for session in range(1, len(self.entries) + 1)
        ]


# ---- reading

class Refused(Exception):
    pass


def read_parts(octets):
    """The header's fields, the map and the payloads of a message that is well formed."""
    version, kind, following, _, csb, count, _ = struct.unpack(">BBBBIBB", octets[:10])
    assert version == 1
    at = 10 + 9 * count
    entries = [struct.unpack(">BII", octets[10 + 9 * i:19 + 9 * i]) for i in range(count)]
    payloads = []
    while following:
        number, following, at = following, octets[at], at + 1
        sizes = {5: 9, 9: 1 + 20 * (octets[at] == 1), 11: 1 + octets[at]}
        if number in (6, 21):
            size = 3 + int.from_bytes(octets[at + 1:at + 3], "big")
        elif number == 10:
            size = 4 + int.from_bytes(octets[at + 2:at + 4], "big")
        elif number == 1:
            inner = int.from_bytes(octets[at + 1:at + 3], "big")
            size = 4 + inner + 20 * (octets[at + 3 + inner] == 1)
        else:
            size = sizes[number]
        payloads.append((number, octets[at:at + size]))
        at += size
    assert at == len(octets)
    return kind, csb, entries, payloads


def read_keys(text):
    keys, following = [], 20
    while following:
        if following != 20 or len(keys) == 8 or len(text) < 4:
            raise Refused("KeyType")
        following, form, size = struct.unpack(">BBH", text[:4])
        key, text = text[4:4 + size], text[4 + size:]
        if form > 1 or len(key) < size or not 16 <= size <= 64 or (form and not text):
            raise Refused("KeyType")
        spi = None
        if form:
            count, text = text[0], text[1:]
            spi, text = text[:count], text[count:]
            if len(spi) < count or not 1 <= count <= 128 or int.from_bytes(spi, "big") >= 2**128:
                raise Refused("KeyType")
        keys.append((key, spi))
    spis = [spi for _, spi in keys]
    if text or (len(keys) > 1 and (None in spis or len(set(map(len, spis))) > 1 or len(set(spis)) < len(spis))):
        raise Refused("KeyType")
    return keys


def accept(octets, pairs, noted, now):
    """What a responder makes of an initial message: the position of the pair and the keys."""
    _, csb, _, payloads = read_parts(octets)
    if [number for number, _ in payloads[:2]] != [5, 11]:
        raise Refused("Order")
    names = [body[3:] for number, body in payloads if number == 6]
    fits = [i for i, (own, peer, _) in enumerate(pairs) if names[:1] == [peer] and names[1:] in ([], [own])]
    if not fits:
        raise Refused("IdUnknown")
    key = pairs[fits[0]][2]
    stamp, random, last = payloads[0][1][1:], payloads[1][1][1:], payloads[-1][1]
    inner = last[3:3 + int.from_bytes(last[1:3], "big")]
    if (last[0], last[3 + len(inner)]) != (1, 1):
        raise Refused("Algorithm")
    if signed(key, csb, random, octets[:-20]) != octets[-20:]:
        raise Refused("BadMac")
    seconds, fraction = struct.unpack(">II", stamp)
    if abs((seconds - ERA) * 1000 + (fraction * 1000 >> 32) - now) > 300000:
        raise Refused("Skew")
    if (names[0], csb, stamp) in noted:
        raise Refused("Repeated")
    keys = read_keys(ciphered(key, csb, random, stamp, inner))
    if len(noted) > 1020:
        raise Refused("CacheFull")
    return fits[0], keys


# ---- the tables

GATEWAY, PEER, KEY = b"sip:gw@a", b"sip:bob@b", bytes(range(100, 132))
PAIRS = [(GATEWAY, PEER, KEY)]
NOW = 1_000_000_000_000
NOISE = bytes((5 * i + 1) % 256 for i in range(304))


def tgk(length, first):
    return bytes((first + 3 * i) % 256 for i in range(length))


def with_items(**values):
    """The default policy with other values."""
    return [(kind, values.get(f"t{kind}", value)) for kind, value in DEFAULTS]


def entries(count, number=0):
    return [(number, 0x1000 + i if i % 2 == 0 else 0, i) for i in range(count)]


def answered(map_of, ssrcs):
    return [
        (number, ssrcs[place // 2], 0) if place % 2 else (number, ssrc, roc)
        for place, (number, ssrc, roc) in enumerate(map_of)
    ]


ONE = [(tgk(16, 9), None)]
# Keys, crypto sessions, policies, names, moments after NOW of the reader, octets of RAND; and what the policy
# means: suite, and whether RTP and RTCP are unencrypted. Scripts have the others: `messages.py`, `policies.py`.
PLAIN = ("AES_CM_128_HMAC_SHA1_80", False, False)
ACCEPTED = [
    ("a key of 64 octets, no name of the responder", [(tgk(64, 1), None)], entries(2), [(0, DEFAULTS)], [PEER], 300000, 0, PLAIN),
    ("two SPIs of four octets", [(tgk(16, 3), b"\0\0\0\1"), (tgk(16, 4), b"\0\0\0\2")], entries(4), [(0, DEFAULTS)],
     [PEER, GATEWAY], 0, 16, PLAIN),
    ("32 octets in two, a tag of four", ONE, entries(2), [(0, [(1, b"\0\x20"), (11, b"\0\0\0\4"), (3, b"\xa0")])],
     [PEER, GATEWAY], 0, 16, ("AES_256_CM_HMAC_SHA1_32", False, False)),
    ("RTP unencrypted", ONE, entries(2), [(0, with_items(t7=b"\0"))], [PEER, GATEWAY], 0, 16,
     ("AES_CM_128_HMAC_SHA1_80", True, False)),
]
KEY_LENGTHS = {"AES_CM_128_HMAC_SHA1_80": 16, "AES_256_CM_HMAC_SHA1_32": 32}
VARIANTS = {"AES_CM_128_HMAC_SHA1_80": "Cm128Tag80", "AES_256_CM_HMAC_SHA1_32": "Cm256Tag32"}


def flipped(octets, place):
    place %= len(octets)
    return octets[:place] + bytes([octets[place] ^ 1]) + octets[place + 1:]


def accepted_rows():
    rows = []
    for name, keys, map_of, policies, names, after, random, _ in ACCEPTED:
        exchange = Exchange(KEY, NOW, keys, map_of, policies, names, random=tgk(random, 17))
        message = exchange.initial()
        assert accept(message, PAIRS, [], NOW + after) == (0, keys), name
        ssrcs = [0xA0 + i for i in range(len(map_of) // 2)]
        rows.append((name, message, NOW + after, len(ssrcs), b"".join(key for key, _ in keys),
                     b"".join(spi for _, spi in keys if spi), exchange.response(GATEWAY, answered(map_of, ssrcs))))
    return rows


def session_rows():
    """Crypto sessions 1 and 2 under one TGK and a policy, and what the policy means."""
    rows = []
    for name, keys, map_of, policies, _, _, random, (suite, rtp, rtcp) in ACCEPTED:
        if len(keys) == 1:
            exchange = Exchange(KEY, NOW, keys, map_of, policies, [PEER], random=tgk(random, 17))
            first, second = exchange.sessions(KEY_LENGTHS[suite])
            rows.append((name, keys[0][0], exchange.random, policies[0][1], VARIANTS[suite], rtp, rtcp, first[0], second[0]))
    return rows


def own_exchange():
    """What the gateway sends of NOISE to PEER, with the SSRCs 0xa0 and 0xa1."""
    keys = [(NOISE[20:36], None)]
    map_of = [(0, ssrc, 0) for pair in ((0xA0, 0), (0xA1, 0)) for ssrc in pair]
    return Exchange(KEY, NOW, keys, map_of, [(0, DEFAULTS)], [GATEWAY, PEER],
                    csb=int.from_bytes(NOISE[16:20], "big"), random=NOISE[:16])


def answer():
    """The response to it."""
    exchange = own_exchange()
    return exchange.response(PEER, answered(exchange.entries, [0xB0, 0xB1]))


def text(octets):
    return f'b"{octets.hex()}"'


def items_text(items):
    return "&[" + ", ".join(f"({kind}, {text(value)})" for kind, value in items) + "]"


HEAD = "//! Messages that `interop/mikey.py` wrote, as lower-case hexadecimal digits.\n\n"


def messages():
    lines = ["/// An initial message and what it carries: a name, the message, the moment, the media that its crypto",
             "/// sessions serve, its keys and their SPIs joined, and the response.",
             "pub struct Accepted {", "    pub name: &'static str,", "    pub message: &'static [u8],", "    pub now: u64,",
             "    pub media: usize,", "    pub keys: &'static [u8],", "    pub spis: &'static [u8],",
             "    pub response: &'static [u8],", "}", ""]
    rows = accepted_rows()
    lines.append(f"pub const ACCEPTED: [Accepted; {len(rows)}] = [")
    for name, message, now, media, keys, spis, response in rows:
        lines += ["    Accepted {", f'        name: "{name}",', f"        message: {text(message)},", f"        now: {now},",
                  f"        media: {media},", f"        keys: {text(keys)},", f"        spis: {text(spis)},",
                  f"        response: {text(response)},", "    },"]
    lines += ["];", "", "/// What the gateway sends.", f"pub const OWN: &[u8] = {text(own_exchange().initial())};", "",
              "/// The response to it.", f"pub const ANSWER: &[u8] = {text(answer())};"]
    return HEAD + "\n".join(lines) + "\n"


def sessions():
    lines = ["use sg_base::Suite;", "", "/// Crypto sessions 1 and 2 under a key, random octets and a policy.", "pub struct Sessions {",
             "    pub name: &'static str,", "    pub key: &'static [u8],", "    pub random: &'static [u8],",
             "    pub items: &'static [(u8, &'static [u8])],", "    pub suite: Suite,", "    pub plain_rtp: bool,",
             "    pub plain_rtcp: bool,", "    pub first: &'static [u8],", "    pub second: &'static [u8],", "}", ""]
    rows = session_rows()
    lines.append(f"pub const SESSIONS: [Sessions; {len(rows)}] = [")
    for name, key, random, items, suite, rtp, rtcp, first, second in rows:
        lines += ["    Sessions {", f'        name: "{name}",', f"        key: {text(key)},", f"        random: {text(random)},",
                  f"        items: {items_text(items)},", f"        suite: Suite::{suite},",
                  f"        plain_rtp: {str(rtp).lower()},", f"        plain_rtcp: {str(rtcp).lower()},",
                  f"        first: {text(first)},", f"        second: {text(second)},", "    },"]
    lines += ["];"]
    return HEAD.replace("Messages", "Keys") + "\n".join(lines) + "\n"


if __name__ == "__main__":
    for name, rows in (("exchange_rows", messages), ("session_rows", sessions)):
        (CRATES / "sg_exchange_tests" / "src" / f"{name}.rt").write_text(rows())
