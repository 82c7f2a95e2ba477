"""The sessions of a medium: what they have done, kept whole, and by it what a datagram opens to or is sealed as."""
from srtp import RTCP, RTP, rtp_head_len

LAST_INDEX = 2**48
LAST_RTCP_INDEX = 2**31 - 1
SOURCES_MOST = 64
FIRST_SEEN = object()


class Drop(Exception):
    """Why a datagram is dropped."""


class Key:
    """A key of a session: its number in the ring, its life for each kind, and its MKI."""

    def __init__(self, number, master, life, mki):
        self.number, self.master, self.life, self.mki = number, master, life, mki


class Session:
    """`admits` is None for any source, a number for that one, or FIRST_SEEN."""

    def __init__(self, kind, keys, rollover, window, admits, encrypts):
        self.kind, self.keys, self.rollover, self.window = kind, keys, rollover, window
        self.admits, self.encrypts = admits, encrypts and not keys[0].master.is_raw
        self.done = {}
        self.spent = {key.number: 0 for key in keys}

    def life(self, key):
        return key.life if self.kind == RTP else min(key.life, 2**31)

    def head(self, octets):
        """The number and the source of a packet, or the first fault of its head."""
        if len(octets) < (12 if self.kind == RTP else 8):
            raise Drop("Short")
        if octets[0] >> 6 != 2:
            raise Drop("Version")
        if self.kind == RTCP:
            return None, int.from_bytes(octets[4:8], "big")
        listed = 12 + 4 * (octets[0] & 15)
        if listed > len(octets):
            raise Drop("CsrcCut")
        if octets[0] & 16 and (listed + 4 > len(octets) or rtp_head_len(octets) > len(octets)):
            raise Drop("ExtensionCut")
        return int.from_bytes(octets[2:4], "big"), int.from_bytes(octets[8:12], "big")

    def admit(self, source):
        known = next(iter(self.done), source) if self.admits is FIRST_SEEN else self.admits
        if known not in (None, source):
            raise Drop("SsrcUnknown")

    def has_room(self, source):
        return source in self.done or len(self.done) < SOURCES_MOST

    def nearest(self, source, seq):
        """The index of a number that is nearest to the highest of its source."""
        if source not in self.done:
            return self.rollover * 65536 + seq
        high = max(self.done[source])
        blocks = [high // 65536 + step for step in (0, -1, 1)]
        index = min((block * 65536 + seq for block in blocks), key=lambda index: abs(index - high))
        if index < 0:
            raise Drop("BeforeFirst")
        if index >= LAST_INDEX:
            raise Drop("IndexSpent")
        return index

    def fresh(self, source, index):
        if source in self.done:
            if index + self.window <= max(self.done[source]):
                raise Drop("TooOld")
            if index in self.done[source]:
                raise Drop("Repeat")

    def note(self, source, index, key):
        self.done.setdefault(source, set()).add(index)
        self.spent[key.number] += 1

    def opened(self, datagram):
        mki_len, tag_len = len(self.keys[0].mki), 10 if self.kind == RTCP else self.keys[0].master.tag_len
        end = len(datagram) - tag_len - mki_len
        body = end if self.kind == RTP else end - 4
        if body < (12 if self.kind == RTP else 8):
            raise Drop("Short")
        seq, source = self.head(datagram[:body])
        self.admit(source)
        found = [key for key in self.keys if key.mki == datagram[end:end + mki_len]]
        if not found:
            raise Drop("MkiUnknown")
        key, spent = found[0], self.spent[found[0].number]
        if spent == self.life(key):
            raise Drop(f"KeySpent {key.number} {spent}")
        if self.kind == RTP:
            index, encrypted, front = self.nearest(source, seq), self.encrypts, rtp_head_len(datagram)
        else:
            word = int.from_bytes(datagram[body:end], "big")
            index, encrypted, front = word % 2**31, word >= 2**31, 8
        self.fresh(source, index)
        packet = datagram[:body]
        if encrypted:
            packet = packet[:front] + key.master.encrypted(self.kind, source, index, packet[front:])
        sealing = key.master.srtp if self.kind == RTP else key.master.srtcp
        if sealing(packet, index, key.mki, encrypted) != datagram:
            raise Drop("BadTag")
        if not self.has_room(source):
            raise Drop("StreamsFull")
        self.note(source, index, key)
        return packet

    def sealed(self, packet):
        seq, source = self.head(packet)
        self.admit(source)
        if not self.has_room(source):
            raise Drop("StreamsFull")
        living = [key for key in self.keys if self.spent[key.number] < self.life(key)]
        if not living:
            last = self.keys[-1]
            raise Drop(f"KeySpent {last.number} {self.spent[last.number]}")
        if self.kind == RTP:
            index = self.nearest(source, seq)
            self.fresh(source, index)
            datagram = living[0].master.srtp(packet, index, living[0].mki, self.encrypts)
        else:
            index = max(self.done[source]) + 1 if source in self.done else 0
            if index > LAST_RTCP_INDEX:
                raise Drop("RtcpIndexSpent")
            datagram = living[0].master.srtcp(packet, index, living[0].mki, self.encrypts)
        self.note(source, index, living[0])
        return datagram
