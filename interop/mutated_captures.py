#!/usr/bin/env python3
"""Plays captures that were made by a grammar, cut and changed through the program's `capture`, and compares each run with
the model's.

    interop/mutated_captures.py PROGRAM [COUNT [SEED]]
    interop/mutated_captures.py PROGRAM FILE..

Each begins with a script of one call in either version and a capture of up to a dozen records: packets under the call's
keys, both ways, repeated and forged ones, fragments, frames of other kinds, long ones, moments that go on, back and
beyond the last, in each of the four forms. One in four stays as it is, one in eight is cut at an octet, one in eight has
a bit of its lines changed; of the others one to three fields, octets or bits are changed, left out or put in. In turns
with these come the rows of `rows/` that have whole captures, cut behind each octet. What must be told is the model's
(`model/captures.py`), with the status and its text: the five faults with their octets among them. One with a difference
is kept in the folder of the call as `capture-NUMBER.source`.
"""
import os
import random
import re
import subprocess
import sys
from collections import Counter
from pathlib import Path

from calls import KEY, ONES
from captured import ARP, CAPTURED_MOST, IPV4, IPV6, MICRO, NANO, TCP, UDP, VLAN, ethernet, header, ipv4, udp
from mixed import causes
from model import TOLD
from srtp import KNOWN_SEALED, rtcp, rtp
from usage import words_or_usage

ROWS = Path(__file__).resolve().parent / "rows"
CUT_MOST = 1_200
LAST_MOMENT, MILLIS_MOST = 2_085_978_495_999, 4_294_967_295_999
FIELD_VALUES = (0, 1, 2, 4, 8, 0xFF, 0x0800, 0xFFFF, CAPTURED_MOST, CAPTURED_MOST + 1, 2**31, 2**32 - 1)


class Maker:
    """A script with a capture in the making."""

    def __init__(self, seed):
        self.dice = random.Random(seed)
        self.version = self.dice.choice((1, 2))
        self.magic, self.order = self.dice.choice((MICRO, NANO)), self.dice.choice(("big", "little"))
        self.number, self.millis, self.heads = 0, self.dice.choice((0, 0, 1_764_000_000_000)), []

    def likely(self, chance):
        return self.dice.random() < chance

    def lines(self):
        """A call by hand, perhaps behind a tick and before a packet."""
        moment = self.dice.choice((0, 5, 1_764_000_000_000, LAST_MOMENT - 70_000, LAST_MOMENT))
        yield f"srtpgw {self.version}"
        if self.likely(0.5):
            yield f"tick {moment}"
        yield f"manual 1 127.0.0.1:40000 127.0.0.1:41000 00000000 64 {KEY.field()} {ONES.field()}"
        if self.likely(0.3):
            yield f"in {f'{moment} ' * (self.version == 2)}20000 127.0.0.1:40000 {KNOWN_SEALED.hex()}"
        yield "capture"

    def datagram(self):
        """Octets, and the port to which they come."""
        dice = self.dice
        if self.likely(0.15):
            return dice.choice((b"", KNOWN_SEALED, bytes(dice.choice((7, 4238, 4239, 4352, 4353, 9000, 65_507))))), 20000
        self.number += dice.choice((0, 1, 1, 1, 2, 70))
        kind = dice.randrange(8)
        if kind < 4:
            return KEY.srtp(rtp(self.number), self.number), 20000
        if kind == 4:
            return KEY.srtcp(rtcp(), self.number), 20001
        if kind == 5:
            return rtcp(), 20003
        return rtp(self.number), dice.choice((20002, 20002, 20002, 20003, 20004, 53))

    def packet(self):
        """An IPv4 packet; each of its fields is seldom another one."""
        dice, (octets, port) = self.dice, self.datagram()
        other = lambda field, *values: {field: dice.choice(values)} if self.likely(0.05) else {}
        number = lambda field, *values: other(field, *(min(value, 65_535) for value in values))
        options = dice.choice((b"",) * 8 + (bytes(4), bytes(40)))
        length = len(octets) + 8
        fits = 20 + len(options) + length <= 65_535
        payload = udp(octets, port, **number("length", 0, 7, 8, length - 1, length + 1, 65_535)) if length <= 65_535 else b""
        head = {"words": 5 + len(options) // 4, "options": options, **({} if fits else {"total": 65_535})}
        for field in (
            other("protocol", TCP, 0, 1), other("version", 0, 5, 6, 15), other("words", 0, 4, 5, 6, 15),
            other("flags", 0x2000, 0x4000, 0x8000, 0x0001, 0x1FFF, 0x3FFF, 0xFFFF),
            number("total", 0, 19, 20, 27, 28, 20 + length - 1, 20 + length + 1, 65_535), other("host", "127.0.0.2", "0.0.0.0"),
        ):
            head.update(field)
        return ipv4(payload, **{"protocol": UDP, **head})

    def frame(self):
        dice = self.dice
        octets = ethernet(self.packet(), IPV4 if self.likely(0.93) else dice.choice((ARP, IPV6, VLAN, 0, 0xFFFF)))
        kind = dice.randrange(20)
        if kind == 0:
            return octets[:dice.choice((0, 13, 14, 33, 34, 41, 42, dice.randrange(len(octets) + 1)))]
        if kind == 1:
            return octets + bytes(dice.choice((1, 18, 400)))
        return octets

    def record(self):
        """A record; where its fields stand in the capture is kept."""
        dice = self.dice
        self.millis += dice.choice((0, 0, 1, 20, 999, 59_999, 60_000, -1, -5_000, 70_000))
        if self.likely(0.03):
            self.millis = dice.choice((0, MILLIS_MOST))
        self.millis = min(max(self.millis, 0), MILLIS_MOST)
        octets, per = self.frame(), 1_000_000 if self.magic == NANO else 1_000
        fraction = self.millis % 1_000 * per + dice.choice((0, per - 1))
        if self.likely(0.03):
            fraction = dice.choice((1_000 * per, 2**32 - 1))
        fields = self.millis // 1_000, fraction, len(octets), dice.choice((len(octets), 0, 2**32 - 1))
        return b"".join(field.to_bytes(4, self.order) for field in fields) + octets

    def capture(self):
        made = header(self.magic, self.order)
        self.heads = [at for at in range(0, 24, 4)]
        for _ in range(self.dice.choice((0, 1, 2, 3, 5, 8, 12))):
            self.heads += [len(made) + at for at in range(0, 16, 4)]
            made += self.record()
        return made

    def changed(self, octets):
        """One change."""
        dice = self.dice
        at = dice.randrange(len(octets)) if octets else 0
        kind = dice.randrange(6)
        if kind < 2 and self.heads:
            at = min(dice.choice(self.heads), len(octets))
            return octets[:at] + dice.choice(FIELD_VALUES).to_bytes(4, self.order) + octets[at + 4:]
        if kind == 2 and octets:
            return octets[:at] + bytes([octets[at] ^ 1 << dice.randrange(8)]) + octets[at + 1:]
        if kind == 3:
            return octets[:at] + dice.randbytes(dice.choice((1, 2, 4))) + octets[at:]
        if kind == 4:
            return octets[:at] + octets[at + dice.choice((1, 2, 4)):]
        return octets[:at] + dice.randbytes(1) + octets[at + 1:]

    def source(self):
        lines = "".join(line + "\n" for line in self.lines()).encode()
        capture, kind = self.capture(), self.dice.randrange(8)
        if kind == 2:
            return lines + capture[:self.dice.randrange(len(capture) + 1)]
        if kind == 3:
            whole = lines + capture
            at = self.dice.randrange(len(lines))
            return whole[:at] + bytes([whole[at] ^ 1 << self.dice.randrange(8)]) + whole[at + 1:]
        if kind > 3:
            for _ in range(self.dice.choice((1, 1, 2, 3))):
                capture = self.changed(capture)
        return lines + capture


def cut_rows():
    """The rows with whole captures that aren't long, cut behind each octet of the capture."""
    for row in sorted(ROWS.glob("*.pcap")):
        lines, capture = row.with_suffix(".script").read_bytes(), row.read_bytes()
        if len(capture) <= CUT_MOST and not row.with_suffix(".end").exists():
            for length in range(len(capture) + 1):
                yield f"{row.stem} cut behind {length}", lines + capture[:length]


def cases(count, seed):
    cut = cut_rows()
    for number in range(count):
        found = next(cut, None) if number % 2 else None
        yield found or (f"{seed} {number}", Maker(f"captures {seed} {number}").source())


def difference(program, source):
    """What is wrong with a run, or None; and what it must tell."""
    wanted = TOLD["capture"](source)
    run = subprocess.run([program, "capture"], input=source, capture_output=True, timeout=60, check=False)
    if (run.returncode, run.stderr) != (wanted.status, wanted.said):
        return f"ends with {run.returncode} {run.stderr[-200:]!r}, the model with {wanted.status} {wanted.said!r}", wanted
    if run.stdout == wanted.octets():
        return None, wanted
    written, place = run.stdout.decode("latin-1").split("\n"), 0
    for number, told in enumerate(wanted.by_line, 1):
        if written[place:place + len(told)] != told:
            found = written[place:place + max(len(told), 1)]
            return f"line or record {number}: the model tells {told}, the program {found}", wanted
        place += len(told)
    return "writes more than the model", wanted


def end_of(wanted):
    """How a run ends, without its numbers."""
    return re.sub(r"\d+: ", "", wanted.said.decode().strip()) or "done"


def main():
    program, *rest = words_or_usage(__doc__)
    if rest and not rest[0].isdigit():
        told = [(path, difference(program, Path(path).read_bytes())[0]) for path in rest]
        for path, fault in told:
            print(f"{path}: {fault or 'the same'}")
        sys.exit(any(fault for _, fault in told))
    count, seed = (rest + ["2000", "1"][len(rest):])[:2]
    counts, ends, bad = Counter(), Counter(), 0
    for number, (name, source) in enumerate(cases(int(count), seed)):
        fault, wanted = difference(program, source)
        counts.update(causes(line) for told in wanted.by_line for line in told)
        ends[end_of(wanted)] += 1
        if fault:
            bad += 1
            Path(f"capture-{number}.source").write_bytes(source)
            print(f"capture-{number}.source ({name}): {fault}", flush=True)
    for cause, times in sorted(counts.items()):
        print(f"{times:7} {cause}")
    for end, times in sorted(ends.items()):
        print(f"{times:7} runs: {end}")
    print(f"mutated captures: {count} played, {bad} with a difference, {sum(os.times()[:4]):.0f} s of processor")
    sys.exit(bool(bad))


if __name__ == "__main__":
    main()
