"""A telephone's protected end in Python, over interop/srtp.py, for what no other program of this folder does: keys
that change within a call, and keys by MIKEY. Needs Python's package `cryptography`.
"""

import base64
import sys
from pathlib import Path

sys.path.insert(0, str(Path(__file__).resolve().parents[2] / "interop"))

from srtp import MasterKey, RTCP, RTCP_TAG_LEN, RTP, rtp_head_len  # noqa: E402


class Sealing:
    """Seals packets of RTP in the order of their numbers, and of RTCP, under one key."""

    def __init__(self, master):
        self.master, self.last, self.rollover, self.reports = master, 0, 0, -1

    def seal(self, packet):
        number = int.from_bytes(packet[2:4], "big")
        self.rollover += number < self.last
        self.last = number
        return self.master.srtp(packet, self.rollover << 16 | number)

    def seal_report(self, packet):
        self.reports += 1
        return self.master.srtcp(packet, self.reports)


class Opening:
    """Opens packets under one key; None of what doesn't fit."""

    def __init__(self, master):
        self.master, self.highest = master, None

    def open(self, datagram):
        body, tag = datagram[:-self.master.tag_len], datagram[-self.master.tag_len:]
        index = self.nearest(int.from_bytes(datagram[2:4], "big"))
        if self.master.mac(RTP, body + (index >> 16).to_bytes(4, "big"))[:len(tag)] != tag:
            return None
        self.highest = max(index, self.highest or 0)
        head = rtp_head_len(body)
        return body[:head] + self.master.encrypted(RTP, int.from_bytes(body[8:12], "big"), index, body[head:])

    def open_report(self, datagram):
        body, tag = datagram[:-RTCP_TAG_LEN], datagram[-RTCP_TAG_LEN:]
        if self.master.mac(RTCP, body)[:RTCP_TAG_LEN] != tag:
            return None
        word = int.from_bytes(body[-4:], "big")
        return body[:8] + self.master.encrypted(RTCP, int.from_bytes(body[4:8], "big"), word % 2**31, body[8:-4])

    def nearest(self, number):
        """The index of a number that is nearest to the highest one (RFC 3711, 3.3.1)."""
        if self.highest is None:
            return number
        around = [(self.highest >> 16) + step << 16 | number for step in (-1, 0, 1)]
        return min((index for index in around if index >= 0), key=lambda index: abs(index - self.highest))


def lines(*all_of_them):
    return "".join(line + "\r\n" for line in all_of_them)


def text_of(user, media, *rest, session=()):
    """A session description with one medium."""
    return lines("v=0", f"o={user} 1 1 IN IP4 127.0.0.1", "s=-", "c=IN IP4 127.0.0.1", "t=0 0", *session, media, *rest)


def crypto_line(tag, master):
    return f"a=crypto:{tag} {master.suite} inline:{base64.b64encode(master.octets).decode()}"


def crypto_of(text):
    """The keys of a text's crypto lines, by tag."""
    words = [line[9:].split() for line in text.splitlines() if line.startswith("a=crypto:")]
    return {tag: MasterKey(suite, base64.b64decode(key[7:])) for tag, suite, key in words}
