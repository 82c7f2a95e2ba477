"""Scripts of signals and datagrams with what must be told of them, and the texts, keys and messages that they
carry: what `rows.py` and its parts write with.

Every octet that is told comes from here, or from the writers of packets and of messages beside this file.
"""
import base64
import hashlib

from mikey import DEFAULTS, Exchange
from srtp import MasterKey, rtp

CM, CM32, CM256 = "AES_CM_128_HMAC_SHA1_80", "AES_CM_128_HMAC_SHA1_32", "AES_256_CM_HMAC_SHA1_80"
LAST = CM256.replace("_80", "_32")
SECURE, PLAIN = "127.0.0.1:40000", "127.0.0.1:41000"
COUNTING = bytes(n % 256 for n in range(304))
SHIFTED = bytes((n + 1) % 256 for n in range(304))


def octets_of(name, length):
    """Octets that no other name gives."""
    return hashlib.sha512(name.encode()).digest()[:length]


def key(name, suite=CM):
    return MasterKey(suite, octets_of(name, 30 if "128" in suite else 46))


def noise(name):
    return b"".join(octets_of(f"{name} {part}", 38) for part in range(8))


def own_key(drawn, medium=0, suite=CM):
    """The gateway's key of a medium whose line has the suite."""
    return MasterKey(suite, drawn[76 * medium:76 * medium + (30 if "128" in suite else 46)])


def inline(master):
    return "inline:" + base64.b64encode(master.octets).decode()


def crypto(tag, master, rest=""):
    return f"a=crypto:{tag} {master.suite} {inline(master)}{rest}"


def own_lines(drawn, medium=0):
    """The gateway's two lines of a medium that it offers."""
    long = MasterKey(CM256, drawn[76 * medium + 30:76 * medium + 76])
    return [crypto(1, own_key(drawn, medium)), crypto(2, long)]


def message_line(octets):
    return "a=key-mgmt:mikey " + base64.b64encode(octets).decode()


def text(lines):
    return b"".join(line.encode() + b"\r\n" for line in lines)


# ---- texts

ALICE = ["v=0", "o=alice 2890844526 2890844526 IN IP4 127.0.0.1", "s=-", "c=IN IP4 127.0.0.1", "t=0 0"]
BOB = ["v=0", "o=bob 1 1 IN IP4 127.0.0.1", "s=-", "c=IN IP4 127.0.0.1", "t=0 0"]
PCMU = "a=rtpmap:0 PCMU/8000"
ALICES_KEY = "WVNfX19zZW1jdGwgKCkgewkyMjA7fQp9CnVubGVz"
ALICE_OFFERS = ALICE + [
    "m=audio 40000 RTP/SAVP 0 101",
    PCMU,
    "a=rtpmap:101 telephone-event/8000",
    f"a=crypto:1 {CM} inline:{ALICES_KEY}|2^20|1:4 FEC_ORDER=FEC_SRTP",
    "a=crypto:2 F8_128_HMAC_SHA1_80 inline:AAECAwQFBgcICQoLDA0ODxAREhMUFRYXGBkaGxwd",
    "a=sendrecv",
]
ALICE_CARRIED = ALICE + ["m=audio 20002 RTP/AVP 0 101", PCMU, "a=rtpmap:101 telephone-event/8000", "a=sendrecv"]
BOB_ANSWERS = BOB + ["m=audio 41000 RTP/AVP 0", PCMU]
BOB_CARRIED = BOB + [
    "m=audio 20000 RTP/SAVP 0",
    PCMU,
    f"a=crypto:1 {CM} inline:AAECAwQFBgcICQoLDA0ODxAREhMUFRYXGBkaGxwd",
]
BOBS_OFFER_CARRIED = BOB_CARRIED + [
    f"a=crypto:2 {CM256} inline:Hh8gISIjJCUmJygpKissLS4vMDEyMzQ1Njc4OTo7PD0+P0BBQkNERUZHSElKSw=="
]
ALICE_KEYED = MasterKey(CM, base64.b64decode(ALICES_KEY))


def secure_text(*lines, media="m=audio 40000 RTP/SAVP 0", session=()):
    return ALICE + list(session) + [media, *lines]


def plain_text(*lines, media="m=audio 41000 RTP/AVP 0", session=()):
    return BOB + list(session) + [media, *lines]


def at_slot(slot, lines):
    """The lines with the gateway's ports of the first medium in a slot."""
    moved = lambda line, port: line.replace(f"audio {port} ", f"audio {port + 16 * slot} ")
    return [moved(moved(line, 20000), 20002) if line.startswith("m=") else line for line in lines]


# ---- scripts

# A line that changes nothing and tells always the same.
MARK = "bye 4294967295"


class Script:
    """A script of a version, the command that plays it, and what must be told of it; where a line is outside the
    grammar, how the run ends: the status, and what is said."""

    def __init__(self, version=1, command="replay"):
        self.command, self.lines, self.told, self.end = command, [f"srtpgw {version}"], [], None
        # Octets behind the lines.
        self.capture = b""

    def text(self):
        return "".join(line + "\n" for line in self.lines).encode()

    def says(self, line, *told):
        self.lines.append(line)
        self.told += told

    def refused(self, line, cause):
        call = line.split()[1]
        self.says(line, f"refused {call} {cause}")

    def tick(self, now, *told):
        """Where nothing is told of the tick, the line behind it shows that nothing was told before that line."""
        self.says(f"tick {now}", *told)
        if not told:
            self.refused(MARK, "CallUnknown")

    def manual(self, call, from_peer, to_peer, told, secure=SECURE, plain=PLAIN):
        self.says(f"manual {call} {secure} {plain} 00000000 64 {from_peer.field()} {to_peer.field()}", *told)

    def arrives(self, port, octets, told, source=None):
        """Ports towards the secure side are the first two of four."""
        source = source or (SECURE if port % 4 < 2 else PLAIN)
        self.says(f"in {port} {source} {octets.hex() or '-'}", told)

    def arrives_at(self, moment, port, octets, *told, source=None):
        """The same in version 2, with the moment at which it comes."""
        source = source or (SECURE if port % 4 < 2 else PLAIN)
        self.says(f"in {moment} {port} {source} {octets.hex() or '-'}", *told)

    def dropped(self, port, octets, cause, source=None):
        self.arrives(port, octets, f"drop {port} {cause}", source)

    def opened(self, port, master, packet, index, mki=b"", encrypts=True, to=PLAIN):
        self.arrives(port, master.srtp(packet, index, mki, encrypts), f"out {port + 2} {to} {packet.hex()}")

    def sealed(self, port, master, packet, index, mki=b"", encrypts=True, to=SECURE):
        self.arrives(port, packet, f"out {port - 2} {to} {master.srtp(packet, index, mki, encrypts).hex()}")

    def rtcp_opened(self, port, master, packet, index, mki=b"", encrypts=True, to="127.0.0.1:41001"):
        self.arrives(port, master.srtcp(packet, index, mki, encrypts), f"out {port + 2} {to} {packet.hex()}")

    def rtcp_sealed(self, port, master, packet, index, mki=b"", encrypts=True, to="127.0.0.1:40001"):
        self.arrives(port, packet, f"out {port - 2} {to} {master.srtcp(packet, index, mki, encrypts).hex()}")

    def both_ways(self, opening, sealing, seq=7, **other):
        """A packet each way by the ports of the first medium in the first slot."""
        self.opened(20000, opening, rtp(seq, **other), seq)
        self.sealed(20002, sealing, rtp(seq, **other), seq)


def hexed(lines):
    octets = lines if isinstance(lines, bytes) else text(lines)
    return octets.hex() or "-"


def offer_secure(call, lines, drawn=COUNTING):
    """Without given noise the line asks that it be drawn; no outcome of such an offer hangs on it."""
    return f"offer-secure {call} {drawn.hex() if drawn else '-'} {hexed(lines)}"


def offer_sdes(call, lines, drawn=COUNTING):
    return f"offer-plain {call} sdes {drawn.hex()} {hexed(lines)}"


def offer_mikey(call, peer, lines, drawn=COUNTING):
    return f"offer-plain {call} mikey {peer} {drawn.hex()} {hexed(lines)}"


def answer(call, lines, drawn=COUNTING):
    return f"answer {call} {drawn.hex()} {hexed(lines)}"


def sdp(call, side, lines):
    return f"sdp {call} {side} {hexed(lines)}"


def made(call, slot=0, media=1):
    return f"made {call} {slot} {media}"


MANUAL = made(1), "live 1"
MADE = made(7), sdp(7, "plain", ALICE_CARRIED)


def alice_live(s):
    """The call of the two known texts."""
    s.says(offer_secure(7, ALICE_OFFERS), *MADE)
    s.says(answer(7, BOB_ANSWERS), sdp(7, "secure", BOB_CARRIED), "live 7")


ONE = bytes.fromhex("00000001")
OWN = own_key(COUNTING)


# ---- pre-shared keys

GATEWAY, PEER, OTHER = "sip:gw@a", "sip:bob@b", "sip:eve@c"
SHARED = octets_of("shared", 16)
NOW = 1_000_000_000
TGK = octets_of("a key", 16)


def psk(own=GATEWAY, peer=PEER, shared=SHARED):
    return f"psk {own} {peer} {shared.hex()}"


def own_exchange(drawn, ssrcs, now=0):
    """What the gateway sends of its noise."""
    entries = [(0, ssrc, 0) for own in ssrcs for ssrc in (own, 0)]
    return Exchange(
        SHARED, now, [(drawn[20:36], None)], entries, [(0, DEFAULTS)], [GATEWAY.encode(), PEER.encode()],
        csb=int.from_bytes(drawn[16:20], "big"), random=drawn[:16],
    )


def peers_exchange(csb=7, entries=((0, 0, 0), (0, 0, 0)), policies=((0, DEFAULTS),), now=NOW, keys=((TGK, None),),
                   names=(PEER, GATEWAY), shared=SHARED):
    return Exchange(
        shared, now, list(keys), list(entries), list(policies), [name.encode() for name in names],
        csb=csb, random=octets_of(f"random {csb}", 16),
    )


def master(octets, suite=CM):
    return MasterKey(suite, octets)
