#!/usr/bin/env python3
"""The numbers of the command `demo`: a small model of both ends of its calls, over the writer of `srtp.py`.

The generator is PCG32 (XSH RR) from its paper, seeded as the Rust crates `rand_core` and `rand_pcg` seed it from a
number. Nothing here is of srtpgw.

    interop/demonstration.py CALLS START              what must be written of one
    interop/demonstration.py PROGRAM [COUNT [SEED]]   plays a table of them, and so many of a few calls each
"""
import random
import subprocess
import sys

import srtp
from usage import words_or_usage

ROUNDS = 320
FIRST = 65_400
SUITE = "AES_CM_128_HMAC_SHA1_80"
MULTIPLIER = 6364136223846793005
MASK = 2**64 - 1


def output(state):
    """The word of a state: the high bits xor themselves, rotated by the top five."""
    word = ((state >> 18 ^ state) >> 27) % 2**32
    turn = state >> 59
    return (word >> turn | word << (32 - turn)) % 2**32


class Words:
    def __init__(self, number):
        seed, state = b"", number
        for _ in range(4):
            state = (state * MULTIPLIER + 11634580027462260723) & MASK
            seed += output(state).to_bytes(4, "little")
        self.increment = int.from_bytes(seed[8:], "little") | 1
        self.state = (int.from_bytes(seed[:8], "little") + self.increment) & MASK
        self.draw()

    def draw(self):
        word = output(self.state)
        self.state = (self.state * MULTIPLIER + self.increment) & MASK
        return word

    def key(self):
        octets = b"".join(self.draw().to_bytes(4, "big") for _ in range(8))
        return srtp.MasterKey(SUITE, octets[:30])


def packet(ssrc, number):
    head = b"\x80\0" + (number % 2**16).to_bytes(2, "big") + (160 * number % 2**32).to_bytes(4, "big")
    return head + ssrc.to_bytes(4, "big") + bytes([number % 256]) * 160


class Receiver:
    """Opens the packets of one source, with a replay window (RFC 3711, 3.3.1 to 3.3.3)."""

    def __init__(self, key, window):
        self.key, self.window, self.seen = key, window, set()

    def index(self, seq):
        if not self.seen:
            return seq
        near = max(self.seen)
        blocks = ((near >> 16) + step for step in (-1, 0, 1))
        return min((block << 16 | seq for block in blocks if block >= 0), key=lambda index: abs(index - near))

    def opened(self, datagram):
        index = self.index(int.from_bytes(datagram[2:4], "big"))
        if index in self.seen:
            return "repeat"
        if self.seen and index + self.window <= max(self.seen):
            return "other"
        plain = srtp.xor(datagram[12:-10], self.stream(datagram, index))
        packet = datagram[:12] + plain
        if self.key.srtp(packet, index) != datagram:
            return "badtag"
        self.seen.add(index)
        return "out"

    def stream(self, datagram, index):
        length = len(datagram) - 22
        ssrc = int.from_bytes(datagram[8:12], "big")
        return self.key.encrypted(srtp.RTP, ssrc, index, bytes(length))


class Call:
    def __init__(self, ssrc, words):
        self.ssrc = ssrc
        self.from_peer, self.to_peer = words.key(), words.key()
        self.gateway = Receiver(self.from_peer, 64)
        self.peer = Receiver(self.to_peer, 64)
        self.next = self.next_plain = FIRST
        self.last = None

    def seal(self):
        self.last = self.from_peer.srtp(packet(self.ssrc, self.next), self.next)
        self.next += 1
        return self.last

    def plain(self, numbers):
        """The gateway seals the next packet of the plain side, at its own index."""
        sealed = self.to_peer.srtp(packet(self.ssrc, self.next_plain), self.next_plain)
        self.next_plain += 1
        numbers["sent"] += 1
        numbers["opened"] += self.peer.opened(sealed) == "out"

    def turn(self, word, numbers):
        action = word % 8
        if action == 3:
            return self.plain(numbers)
        if action == 1:
            arriving = [self.last] if self.last else []
        else:
            sealed = [self.seal() for _ in range(2 if action == 2 else 1)]
            numbers["sealed"] += len(sealed)
            arriving = {0: [], 4: [d[:-1] + bytes([d[-1] ^ 1]) for d in sealed]}.get(action, sealed[::-1])
        for datagram in arriving:
            numbers["arrived"] += 1
            numbers[self.gateway.opened(datagram)] += 1


def demonstration(calls, start):
    words = Words(start)
    names = ("calls", "sealed", "arrived", "out", "repeat", "badtag", "other", "sent", "opened")
    numbers = dict.fromkeys(names, 0)
    made = [Call(ssrc, words) for ssrc in range(1, calls + 1)]
    keys = [key.key for call in made for key in (call.from_peer, call.to_peer)]
    assert len(set(keys)) == len(keys), "the gateway would refuse a call"
    numbers["calls"] = calls
    for _ in range(ROUNDS):
        for call in made:
            call.turn(words.draw(), numbers)
    return numbers


def lines(calls, start):
    """What must be written of it."""
    return "".join(f"{name} {number}\n" for name, number in demonstration(calls, start).items())


# ---- beside the program

WORKERS = 1, 2, 16
CALLS = 1, 2, 3, 4, 8, 15, 16, 17, 32, 64, 128, 255, 256
STARTS = 0, 1, 7, 2**31, 2**32 - 1, 2**32, 2**63, 2**64 - 1


def difference(program, calls, start):
    """By how many workers a demonstration is another than it must be, or None."""
    wanted = lines(calls, start).encode()
    for workers in WORKERS:
        words = [program, "demo", str(calls), str(start), "--workers", str(workers)]
        run = subprocess.run(words, capture_output=True, timeout=300, check=False)
        if (run.stdout, run.returncode, run.stderr) != (wanted, 0, b""):
            return f"{workers} workers: {run.returncode} {run.stderr[-200:]!r} {run.stdout!r}"
    return None


def main():
    program, *rest = words_or_usage(__doc__)
    if program.isdigit():
        print(lines(int(program), int(rest[0])), end="")
        return 0
    count, seed = (rest + ["100", "1"][len(rest):])[:2]
    dice, bad = random.Random(f"demonstrations {seed}"), 0
    shown = [(calls, start) for calls in CALLS for start in STARTS]
    shown += [(dice.randrange(1, 9), dice.randrange(2**64)) for _ in range(int(count))]
    for calls, start in shown:
        fault = difference(program, calls, start)
        if fault:
            bad += 1
            print(f"demo {calls} {start} by {fault}", flush=True)
    print(f"demonstrations: {len(shown)}, each by 1, 2 and 16 workers, {bad} with a difference")
    return bool(bad)


if __name__ == "__main__":
    sys.exit(main())
