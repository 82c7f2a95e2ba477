#!/usr/bin/env python3
"""Writes the scripts of `examples/` and, beside each, what must be written of it, and the numbers of demonstrations; with
`--check` nothing is written, and it is said what would be. The numbers of 256 calls, which take half a minute, are those of
`interop/demonstration.py 256 1`."""
import sys
from pathlib import Path

from calls import (
    KEY, MADE, ONES, ONES_SALTED, PLAIN, RAW, RAW_OTHER,
    comes, drop, manual, opened, out, rtcp_opened, rtcp_sealed, sealed,
)
from captured import ARP, Captured, ethernet, frame
from demonstration import lines
from joined import THREES, TO_FIRST, TO_SECOND, TWOS, joined_calls
from kept import settle
from shared import PLAIN_RTCP, SECURE_MUXED, Shared, alice_muxed
from signals import ALICE_KEYED, MANUAL, ONE, OWN
from srtp import KNOWN, KNOWN_SEALED, MasterKey, rtcp, rtp

EXAMPLES = Path(__file__).resolve().parent.parent / "examples"
SHOWN = (1, 7), (3, 2**64 - 1), (4, 0), (4, 1), (32, 1)
KNOWN_OPENED = comes(20000, KNOWN_SEALED), out(20002, KNOWN, PLAIN)


def raw_key():
    """One call under raw keys and its one packet."""
    return manual(RAW, RAW_OTHER), [(comes(20000, KNOWN_SEALED), out(20002, KNOWN_SEALED[:28], PLAIN))]


def both_ways():
    """A packet that is opened, and one that is sealed."""
    return manual(KEY, ONES), [KNOWN_OPENED, sealed(ONES, KNOWN, 0x1234)]


def with_rtcp():
    """RTP and RTCP both ways, and a packet that is repeated."""
    return manual(KEY, ONES), [
        KNOWN_OPENED,
        sealed(ONES, KNOWN, 0x1234),
        rtcp_opened(KEY, rtcp(), 0),
        rtcp_sealed(ONES, rtcp(), 0),
        drop(20000, KNOWN_SEALED, "Repeat"),
    ]


def drops():
    """What is dropped, each cause that a script of one call reaches in a few lines."""
    forged = KNOWN_SEALED[:-1] + bytes([KNOWN_SEALED[-1] ^ 1])
    rows = [drop(20000, forged, "BadTag"), KNOWN_OPENED, drop(20000, KNOWN_SEALED, "Repeat")]
    rows.append(drop(20000, KEY.srtp(rtp(0x1234 - 64), 0x1234 - 64), "TooOld"))
    rows.append(drop(20000, KEY.srtp(rtp(0xFFFF), 0xFFFF), "BeforeFirst"))
    rows.append(drop(20000, KNOWN_SEALED[:21], "Short"))
    causes = {0x40: "Version", 0x81: "CsrcCut", 0x90: "ExtensionCut"}
    rows += [drop(20000, bytes([first]) + bytes(21), cause) for first, cause in causes.items()]
    rows.append(drop(20000, bytes([0x80]) + bytes(4238), "TooLong"))
    rows += [opened(KEY, 7, 7, ssrc=ssrc) for ssrc in range(1, 64)]
    rows.append(drop(20000, KEY.srtp(rtp(7, ssrc=64), 7), "StreamsFull"))
    rows.append(drop(20002, rtp(1), "SourceUnknown", "127.0.0.2:41000"))
    rows += [sealed(ONES, rtp(1), 1), drop(20002, rtp(1, payload=b"\xcc" * 4), "Repeat")]
    return manual(KEY, ONES), rows


def last_index():
    """A stream that has used its last index."""
    first = 0xFFFFFFFF << 16
    spent = drop(20000, KEY.srtp(rtp(0), first), "IndexSpent")
    return manual(KEY, ONES, rollover=0xFFFFFFFF), [opened(KEY, 0xFFFF, first + 0xFFFF), spent]


def clashing_keys():
    """Two keys that differ in their salts alone leave no call."""
    refused = manual(ONES, ONES_SALTED), [drop(20000, KNOWN_SEALED, "PortUnused")]
    return refused


def long_key():
    """Keys of 256 bits and tags of 32, over a wrap of the sequence numbers."""
    ours = MasterKey("AES_256_CM_HMAC_SHA1_32", bytes(range(46)))
    theirs = MasterKey("AES_256_CM_HMAC_SHA1_32", bytes(range(100, 146)))
    order = [(65534, 65534), (65535, 65535), (0, 65536), (1, 65537), (65533, 65533)]
    return manual(ours, theirs), [opened(ours, seq, index) for seq, index in order]


def at(moment, row, *before):
    """A row of version 2: the moment stands in front of the port, and what it brings about before what the datagram does."""
    line, told = row
    return line.replace("in ", f"in {moment} ", 1), "".join(it + "\n" for it in before) + told


def moments():
    """Moments on datagram lines: a packet each 20 ms, one line that is earlier than the one before, and a minute later the
    call has ended."""
    rows = [at(20 * n, opened(KEY, n, n)) for n in range(3)]
    rows.append(at(39, opened(KEY, 3, 3), "refused - TickBack 40"))
    rows.append(at(60, sealed(ONES, rtp(7), 7)))
    rows.append(at(60_060, drop(20000, KEY.srtp(rtp(4), 4), "PortUnused"), "ended 1 0 1 idle"))
    return manual(KEY, ONES), rows


def captured():
    """A capture behind a script of one call: what is put out, dropped, skipped and passed over, and a minute later the call
    has ended."""
    s, began = Captured(), 1_764_000_000_000
    s.says(f"tick {began}")
    s.manual(1, KEY, ONES, MANUAL)
    s.begins()
    for n in range(3):
        s.has(frame(KEY.srtp(rtp(n), n)), f"out 20002 {PLAIN} {rtp(n).hex()}", millis=began + 20 * n)
    forged = KEY.srtp(rtp(3), 3)[:-1] + b"\0"
    s.has(frame(forged), "drop 20000 BadTag", millis=began + 60)
    s.has(frame(rtp(7), 20002), f"out 20000 127.0.0.1:40000 {ONES.srtp(rtp(7), 7).hex()}", millis=began + 61)
    s.has(frame(rtp(8), 20002, host="127.0.0.2"), "drop 20002 SourceUnknown", millis=began + 81)
    s.skips(frame(KEY.srtp(rtp(4), 4), flags=0x2000), "Fragment", millis=began + 90)
    s.has(ethernet(bytes(28), ARP), millis=began + 95)
    s.has(frame(b"", 53), "drop 53 PortUnused", millis=began + 99)
    s.has(frame(KEY.srtp(rtp(5), 5)), "ended 1 0 1 idle", "drop 20000 PortUnused", millis=began + 60_061)
    return s


def muxed():
    """RTP and RTCP that share a port on the protected side, both ways, and each at the plain side's own port."""
    s = Shared()
    alice_muxed(s)
    s.opened(20000, ALICE_KEYED, rtp(7), 7, ONE)
    s.report_opened(20000, ALICE_KEYED, 0, PLAIN_RTCP, ONE)
    s.sealed(20002, OWN, rtp(7), 7)
    s.report_sealed(20003, OWN, 0, SECURE_MUXED)
    return s


def joined():
    """Two protected calls that are joined, a packet and a report each way, a plain packet at a port that is unused
    meanwhile, and the end of one of them."""
    s = joined_calls()
    s.arrives(20000, KNOWN_SEALED, f"out {TO_SECOND} {THREES.srtp(KNOWN, 0x1234).hex()}")
    s.crosses(20016, TWOS, rtp(7), 7, TO_FIRST, ONES)
    s.report_crosses(20001, KEY, 0, "20017 127.0.0.1:40011", THREES, 0)
    s.report_crosses(20017, TWOS, 0, "20001 127.0.0.1:40001", ONES, 0)
    s.dropped(20002, rtp(7), "PortUnused")
    s.says("bye 2", "ended 2 1 1 bye", "parted 1 2")
    s.opened(20000, KEY, rtp(0x1235), 0x1235)
    return s


def files(name, s):
    yield f"{name}.script", s.text()
    yield f"{name}.words", f"{s.command}\n".encode()
    yield f"{name}.out", "".join(line + "\n" for line in s.told).encode()
    if s.capture:
        yield f"{name}.pcap", s.capture


def examples():
    for name, example, told in (
        ("raw-key", raw_key, MADE),
        ("both-ways", both_ways, MADE),
        ("with-rtcp", with_rtcp, MADE),
        ("drops", drops, MADE),
        ("last-index", last_index, MADE),
        ("clashing-keys", clashing_keys, "refused 1 KeyReused 0\n"),
        ("long-key", long_key, MADE),
        ("moments", moments, MADE),
    ):
        call, rows = example()
        header = "srtpgw 2\n" if example is moments else "srtpgw 1\n"
        yield f"{name}.script", (header + call + "".join(row[0] for row in rows)).encode()
        yield f"{name}.out", (told + "".join(row[1] for row in rows)).encode()
    for example in captured, muxed, joined:
        yield from files(example.__name__, example())
    for number, start in SHOWN:
        yield f"demo-{number}-{start}.out", lines(number, start).encode()


if __name__ == "__main__":
    sys.exit(settle(EXAMPLES, dict(examples())))
