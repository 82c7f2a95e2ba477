"""What the sequence numbers and time stamps of RTP say of a stream: loss, order, jitter and lateness (RFC 3550, 6.4.1,
A.3 and A.8), and the samples of G.711 (ITU-T G.711; RFC 3551, 4.5.14). Needs Python 3.8 alone.
"""

import collections
import struct

# The clock rates of static payload types for audio (RFC 3551, table 4), and those of G.711.
RATES = {0: 8_000, 3: 8_000, 4: 8_000, 5: 8_000, 6: 16_000, 7: 8_000, 8: 8_000, 9: 8_000, 10: 44_100, 11: 44_100,
         12: 8_000, 13: 8_000, 15: 8_000, 16: 11_025, 17: 22_050, 18: 8_000}
MU_LAW, A_LAW = 0, 8
# The second octets of RTCP, where it shares a port with RTP (RFC 5761, 4).
RTCP = range(192, 224)
G711_RATE = 8_000
# A gap of more than ten seconds, or a step back of as much, is closed up, and so is what would be more than an hour of
# silence in all: a time stamp says what its sender likes.
GAP_MOST, SILENCE_MOST = 10 * G711_RATE, 3_600 * G711_RATE

# A packet as it went out: its moment in milliseconds, or None where that isn't known.
Packet = collections.namedtuple("Packet", "moment kind seq stamp source payload")


def packet_of(moment, octets):
    """The packet that octets are, or None where its head, its list of sources, its extension or its padding is cut, and of
    RTCP, which may come by the same port."""
    if len(octets) < 12 or octets[0] >> 6 != 2 or octets[1] in RTCP:
        return None
    begins, ends = 12 + 4 * (octets[0] & 15), len(octets)
    if octets[0] & 0x10:
        if len(octets) < begins + 4:
            return None
        begins += 4 + 4 * int.from_bytes(octets[begins + 2:begins + 4], "big")
    if octets[0] & 0x20:
        ends -= octets[-1]
    if not begins <= ends:
        return None
    seq, stamp, source = struct.unpack(">HII", octets[2:12])
    return Packet(moment, octets[1] & 0x7F, seq, stamp, source, octets[begins:ends])


def nearest(number, bits, last):
    """The number of which the given one has the lowest bits, nearest to the last one."""
    turn = 1 << bits
    return last + ((number - last + turn // 2) % turn) - turn // 2


class Stream:
    """The packets of one source at one port, in the order in which they went out. `rate` is the clock's, or None."""

    def __init__(self, rate=None):
        self.rate, self.packets, self.numbers, self.stamps = rate, [], [], []

    def take(self, packet):
        self.numbers.append(nearest(packet.seq, 16, self.numbers[-1]) if self.numbers else packet.seq)
        self.stamps.append(nearest(packet.stamp, 32, self.stamps[-1]) if self.stamps else packet.stamp)
        self.packets.append(packet)

    @property
    def seen(self):
        return set(self.numbers)

    def expected(self):
        """How many there are from the lowest number to the highest."""
        return max(self.numbers) - min(self.numbers) + 1

    def lost(self):
        return self.expected() - len(self.seen)

    def repeated(self):
        return len(self.numbers) - len(self.seen)

    def disordered(self):
        """How many came behind one of a higher number."""
        highest, count = self.numbers[0], 0
        for number in self.numbers[1:]:
            count += number < highest
            highest = max(highest, number)
        return count

    def transits(self):
        """Of each packet its moment less the time that its stamp says, in milliseconds; empty where either isn't known."""
        if not self.rate or any(packet.moment is None for packet in self.packets):
            return []
        return [packet.moment - 1_000 * stamp / self.rate for packet, stamp in zip(self.packets, self.stamps)]

    def jitters(self):
        """Behind each packet the interarrival jitter, in milliseconds (A.8)."""
        transits = self.transits()
        told = [0.0] * min(1, len(transits))
        for before, now in zip(transits, transits[1:]):
            told.append(told[-1] + (abs(now - before) - told[-1]) / 16)
        return told

    def lateness(self):
        """Of each packet how much later it is than the least late one, in milliseconds."""
        transits = self.transits()
        return [transit - min(transits) for transit in transits]

    def gaps(self):
        """Of each run of numbers that never came how many it has, and the place of the first packet behind it."""
        first = {}
        for place, number in enumerate(self.numbers):
            first.setdefault(number, place)
        rising = sorted(first)
        return [(after - before - 1, first[after]) for before, after in zip(rising, rising[1:]) if after > before + 1]


# ---- G.711

def of_mu_law(octet):
    """The sample of 16 bits that an octet of mu-law says."""
    octet ^= 0xFF
    sample = ((((octet & 15) << 3) + 0x84) << (octet >> 4 & 7)) - 0x84
    return -sample if octet & 0x80 else sample


def of_a_law(octet):
    """The sample of 16 bits that an octet of A-law says."""
    octet ^= 0x55
    segment = octet >> 4 & 7
    sample = ((octet & 15) << 4) + (8 if segment == 0 else 0x108)
    sample <<= max(segment - 1, 0)
    return sample if octet & 0x80 else -sample


DECODED = {kind: [struct.pack("<h", law(octet)) for octet in range(256)]
           for kind, law in ((MU_LAW, of_mu_law), (A_LAW, of_a_law))}


def firsts(stream):
    """Of each number the first packet of G.711 with its time stamp, by number; and how many packets are of other kinds."""
    found, other = {}, 0
    for packet, number, stamp in zip(stream.packets, stream.numbers, stream.stamps):
        if packet.kind in DECODED:
            found.setdefault(number, (stamp, packet))
        else:
            other += 1
    return [found[number] for number in sorted(found)], other


def samples(stream):
    """The samples of a stream of G.711 as octets of 16 bits each, lowest first, each packet where its time stamp says,
    with silence where nothing came. And how many packets weren't G.711."""
    packets, other = firsts(stream)
    sound, silence = bytearray(), 0
    began = packets[0][0] if packets else 0
    for stamp, packet in packets:
        gap = stamp - began - len(sound) // 2
        if abs(gap) > GAP_MOST or silence + gap > SILENCE_MOST:
            began, gap = began + gap, 0
        silence += max(0, gap)
        sound.extend(bytes(2 * max(0, gap)))
        at = max(0, 2 * (stamp - began))
        said = b"".join(DECODED[packet.kind][octet] for octet in packet.payload)
        sound[at:at + len(said)] = said
    return bytes(sound), other


def wav(sound, rate=G711_RATE):
    """A WAV file of samples of 16 bits, one channel."""
    form = struct.pack("<HHIIHH", 1, 1, rate, 2 * rate, 2, 16)
    body = b"WAVEfmt " + struct.pack("<I", len(form)) + form + b"data" + struct.pack("<I", len(sound)) + sound
    return b"RIFF" + struct.pack("<I", len(body)) + body
