"""Many streams at once, at a telephone's pace: sealed before the first is sent and opened behind the last, by one thread that
sends, so that what it measures isn't its own. When a packet came is the system's own stamp on it.
"""

import gc
import os
import socket
import struct
import time

from ends import FRAME, PACE, packets_of
from sealed import Opening, Sealing

# Linux's numbers, which Python's module `socket` hasn't.
RCVBUFFORCE, TIMESTAMPNS = 33, 35
OCTETS = 8 << 20


class Stream:
    """What one end sends, `payload` of PCMU under a key, and where; and what the other end took, by number."""

    def __init__(self, end, to, payload, key, opening, first):
        self.end, self.to, self.payload, self.opening, self.first = end, to, payload, opening, first
        sealing = Sealing(key)
        self.packets = [sealing.seal(packet) for packet in packets_of(payload, first)]
        self.sent, self.came = {}, {}

    def whole(self):
        """Whether all came as it was sent."""
        return b"".join(octets for _, (_, octets) in sorted(self.came.items())) == self.payload

    def wrong(self):
        """Packets that came and are none of those that were sent."""
        frames = {self.first + place // FRAME: self.payload[place:place + FRAME] for place in range(0, len(self.payload), FRAME)}
        return sum(frames.get(number) != octets for number, (_, octets) in self.came.items())


def stamped(end):
    """Has the system keep what comes to a socket, each datagram with when it came."""
    end.setsockopt(socket.SOL_SOCKET, RCVBUFFORCE, OCTETS)
    end.setsockopt(socket.SOL_SOCKET, TIMESTAMPNS, 1)
    return end


def send(streams):
    """Sends all packets, one of each stream each 20 ms, the streams one behind another within these."""
    order = [(PACE * (place + at / len(streams)), stream, place, packet)
             for at, stream in enumerate(streams) for place, packet in enumerate(stream.packets)]
    order.sort(key=lambda one: one[0])
    gc.disable()
    began = time.monotonic()
    for due, stream, place, packet in order:
        rest = began + due - time.monotonic()
        if rest > 0:
            time.sleep(rest)
        stream.sent[stream.first + place] = time.time_ns()
        stream.end.sendto(packet, stream.to)
    gc.enable()


def take(end, stream):
    """All that has come to a socket, opened by the keys of the stream that comes there."""
    opening = Opening(stream.opening)
    end.setblocking(False)
    while True:
        try:
            octets, more, _, _ = end.recvmsg(4_096, 64)
        except BlockingIOError:
            return
        seconds, nanoseconds = struct.unpack("qq", more[0][2])
        packet = opening.open(octets)
        if packet:
            stream.came[int.from_bytes(packet[2:4], "big")] = seconds * 10**9 + nanoseconds, packet[12:]


def told(name, streams):
    """What came, and how long it was under way, in a line; whether each stream is whole."""
    waits = sorted((came - stream.sent[number]) / 1e6 for stream in streams for number, (came, _) in stream.came.items()
                   if number in stream.sent)
    sent, came = (sum(len(getattr(stream, what)) for stream in streams) for what in ("sent", "came"))
    whole, wrong = sum(stream.whole() for stream in streams), sum(stream.wrong() for stream in streams)
    at = {share: waits[min(len(waits) - 1, int(share * len(waits)))] for share in (0.5, 0.99)} if waits else {0.5: 0, 0.99: 0}
    print(f"{name}: {came} of {sent} packets came, {sent - came} lost, {wrong} wrong; {whole} of {len(streams)} streams whole; "
          f"{at[0.5]:.2f} ms in the middle, {at[0.99]:.2f} for one in a hundred, {max(waits, default=0):.1f} at most; load average "
          f"{os.getloadavg()[0]:.0f}", flush=True)
    return whole == len(streams) and not wrong
