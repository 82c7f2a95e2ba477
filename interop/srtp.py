"""SRTP and SRTCP from the text of RFC 3711, with the key lengths of RFC 6188: the writer of all packets that
the tests, the examples and the measures have from outside.

AES is that of the Python package `cryptography`, HMAC-SHA-1 that of Python's standard library. Nothing here
is of srtpgw, and srtpgw has nothing of this.
"""
import functools
import hashlib
import hmac

from cryptography.hazmat.primitives.ciphers import Cipher, algorithms, modes

# The octets of a suite's master key and master salt, and of its SRTP tag.
SUITES = {
    "RAW80": (20, 0, 10),
    "AES_CM_128_HMAC_SHA1_80": (16, 14, 10),
    "AES_CM_128_HMAC_SHA1_32": (16, 14, 4),
    "AES_192_CM_HMAC_SHA1_80": (24, 14, 10),
    "AES_192_CM_HMAC_SHA1_32": (24, 14, 4),
    "AES_256_CM_HMAC_SHA1_80": (32, 14, 10),
    "AES_256_CM_HMAC_SHA1_32": (32, 14, 4),
}
RTCP_TAG_LEN = 10
# The labels of the first session key of SRTP and of SRTCP (4.3.2).
RTP, RTCP = 0, 3


def keystream(key, first, length):
    """AES in counter mode from the counter `first` on (4.1.1)."""
    mode = modes.CTR((first % 2**128).to_bytes(16, "big"))
    return Cipher(algorithms.AES(key), mode).encryptor().update(bytes(length))


def xor(octets, stream):
    length = len(octets)
    return (int.from_bytes(octets, "big") ^ int.from_bytes(stream[:length], "big")).to_bytes(length, "big")


def rtp_head_len(packet):
    """The octets of an RTP head with its list of sources and its extension (RFC 3550, 5.1 and 5.3.1)."""
    length = 12 + 4 * (packet[0] & 15)
    if packet[0] & 16:
        length += 4 + 4 * int.from_bytes(packet[length + 2:length + 4], "big")
    return length


class MasterKey:
    """A master key with its salt, under a suite. `RAW80` is srtpgw's own form for tests: the key is the
    authentication key itself, and nothing is encrypted."""

    def __init__(self, suite, octets):
        key_len, salt_len, self.tag_len = SUITES[suite]
        assert len(octets) == key_len + salt_len
        self.suite, self.octets = suite, octets
        self.key, self.salt = octets[:key_len], octets[key_len:]
        self.is_raw = suite == "RAW80"

    def field(self):
        """The key as a field of a script."""
        return f"{self.suite}:{self.octets.hex()}"

    @functools.cache
    def derived(self, label, length):
        """The session key of a label, at a derivation rate of 0 (4.3.1 and 4.3.3)."""
        salt = int.from_bytes(self.salt, "big")
        return keystream(self.key, (salt ^ (label << 48)) << 16, length)

    def encrypted(self, kind, ssrc, index, octets):
        """The octets under the keystream of a source and an index (4.1.1)."""
        if self.is_raw:
            return octets
        salt = int.from_bytes(self.derived(kind + 2, 14), "big")
        first = (salt << 16) ^ (ssrc << 64) ^ (index << 16)
        return xor(octets, keystream(self.derived(kind, len(self.key)), first, len(octets)))

    def mac(self, kind, octets):
        key = self.key if self.is_raw else self.derived(kind + 1, 20)
        return hmac.new(key, octets, hashlib.sha1).digest()

    def srtp(self, packet, index, mki=b"", encrypts=True):
        """An RTP packet sealed at an index (3.1 and 4.2)."""
        ssrc, length = int.from_bytes(packet[8:12], "big"), rtp_head_len(packet)
        rest = packet[length:]
        sealed = packet[:length] + (self.encrypted(RTP, ssrc, index, rest) if encrypts else rest)
        return sealed + mki + self.mac(RTP, sealed + (index >> 16).to_bytes(4, "big"))[: self.tag_len]

    def srtcp(self, packet, index, mki=b"", encrypts=True):
        """An RTCP packet sealed at an index (3.4); its tag has 80 bits in every suite (RFC 4568, 6.2)."""
        ssrc, rest = int.from_bytes(packet[4:8], "big"), packet[8:]
        body = packet[:8] + (self.encrypted(RTCP, ssrc, index, rest) if encrypts else rest)
        sealed = body + ((encrypts << 31) + index).to_bytes(4, "big")
        return sealed + mki + self.mac(RTCP, sealed)[:RTCP_TAG_LEN]


def rtp(seq, ssrc=0xCAFEBABE, first="800f", rest="", payload=b"\xab" * 4):
    """An RTP packet with a fixed time stamp; `rest` has its list of sources and its extension."""
    head = bytes.fromhex(first) + seq.to_bytes(2, "big") + bytes.fromhex("decafbad") + ssrc.to_bytes(4, "big")
    return head + bytes.fromhex(rest) + payload


def rtcp(ssrc=0xCAFEBABE, payload=b"\xcd" * 20):
    """An RTCP packet whose first word is that of a sender report of seven words."""
    return bytes.fromhex("80c80006") + ssrc.to_bytes(4, "big") + payload


SMALL = MasterKey(
    "AES_CM_128_HMAC_SHA1_80", bytes.fromhex("e1f97a0d3e018be0d64fa32c06de41390ec675ad498afeebb6960b3aabe6")
)
# The packet that two well-known libraries have in their tests, and how they seal it under that key.
KNOWN = rtp(0x1234, payload=b"\xab" * 16)
KNOWN_SEALED = bytes.fromhex("800f1234decafbadcafebabe4e55dc4ce79978d88ca4d215949d2402b78d6acc99ea179b8dbb")
assert SMALL.srtp(KNOWN, 0x1234) == KNOWN_SEALED
# RFC 3711, B.3.
assert SMALL.derived(0, 16).hex() == "c61e7a93744f39ee10734afe3ff7a087"
assert SMALL.derived(1, 20).hex() == "cebe321f6ff7716b6fd4ab49af256a156d38baa4"
