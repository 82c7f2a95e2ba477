#!/usr/bin/env python3
"""Plays what ends at the first 2^30 octets, or goes on beyond them: scripts, migrations and captures of a gibibyte each.

    interop/longest_source.py PROGRAM

By hand: it pipes some six gibibytes through the program, and takes a minute or some. What must be told is worked out here
by counting; nothing of it is kept in memory.
"""
import subprocess
import sys
import threading

from calls import KEY, ONES, manual
from captured import CAPTURED_MOST, frame, header, record
from srtp import KNOWN_SEALED, KNOWN
from usage import words_or_usage

MOST = 2**30
# A datagram line, and what is told of it where no call is there.
COMES = b"in 20000 127.0.0.1:40000 "
LINE, DROPPED = COMES + 4352 * b"80" + b"\n", b"drop 20000 PortUnused\n"
HEADER = b"srtpgw 1\n"
MADE = manual(KEY, ONES).encode()
TOLD = b"made 1 0 1\nlive 1\n"
OUT = b"out 20002 127.0.0.1:41000 " + KNOWN.hex().encode() + b"\n"
SKIPPED = record(bytes(CAPTURED_MOST))


LINES = (MOST - len(HEADER)) // len(LINE)


def script(more):
    """Lines up to 2^30 octets, and so many octets more in the last one."""
    yield HEADER
    for _ in range(LINES - 1):
        yield LINE
    rest = MOST + more - len(HEADER) - (LINES - 1) * len(LINE)
    # two lines more, the first of which is of the first's length or shorter by one
    first = COMES + 2000 * b"80" + b"\n"
    if (rest - len(first) - len(COMES)) % 2 == 0:
        first = first.replace(b":40000", b":4000")
    last = rest - len(first) - len(COMES) - 1
    yield first + COMES + last // 2 * b"80" + b"\n"


def captured(more, last=b""):
    """A call and a capture up to 2^30 octets, and so many more: the known packet at its end, or other octets."""
    lines = HEADER + MADE + b"capture\n"
    known = record(frame(KNOWN_SEALED))
    room = MOST + more - len(lines) - 24 - len(known) - len(last)
    count = room // len(SKIPPED) - 1
    room -= count * len(SKIPPED)
    yield lines + header()
    for _ in range(count):
        yield SKIPPED
    # the rest is a record of what is left and one of half of the most
    half = record(bytes(CAPTURED_MOST // 2))
    yield half + record(bytes(room - len(half) - 16)) + known + last


def offset(octets=MOST):
    """That octet of all, counted from the capture's first."""
    return octets - len(HEADER + MADE + b"capture\n")


def played(program, command, parts):
    """Status, what is written (but of a migration its length), and what is said."""
    with subprocess.Popen([program, command], stdin=subprocess.PIPE, stdout=subprocess.PIPE, stderr=subprocess.PIPE) as run:
        def feed():
            try:
                for part in parts:
                    run.stdin.write(part)
                run.stdin.close()
            except BrokenPipeError:
                pass
        threading.Thread(target=feed, daemon=True).start()
        if command == "migrate":
            written = sum(len(part) for part in iter(lambda: run.stdout.read(2**20), b""))
        else:
            written = run.stdout.read()
        said = run.stderr.read()
    return run.returncode, written, said


def cases():
    """A name, a command, what is played and what must come of it."""
    # the header, and two lines in the place of the last
    length = f"srtpgw: script line {1 + LINES + 1}: Length\n".encode()
    yield "a script of 2^30 octets", "replay", script(0), (0, DROPPED * (LINES + 1), b"")
    yield "a script of one more", "replay", script(1), (2, DROPPED * LINES, length)
    yield "a migration of 2^30 octets", "migrate", script(0), (0, MOST + len(b"0 ") * (LINES + 1), b"")
    yield "a capture up to 2^30 octets", "capture", captured(0), (0, TOLD + OUT, b"")
    fault = f"srtpgw: capture octet {offset()}: Length\n".encode()
    yield "one whose last record has an octet more", "capture", captured(1), (10, TOLD, fault)
    yield "one behind which an octet stands", "capture", captured(1, b"x"), (10, TOLD + OUT, fault)
    long_one = bytes(8) + b"\xff" * 4
    inside = f"srtpgw: capture octet {offset(MOST - 4)}: Length\n".encode()
    yield "one with a length that ends there", "capture", captured(0, long_one), (10, TOLD + OUT, inside)
    yield "one with a length that ends an octet further", "capture", captured(1, long_one), (10, TOLD + OUT, fault)


def main():
    program, bad = words_or_usage(__doc__)[0], 0
    for name, command, parts, wanted in cases():
        found = played(program, command, parts)
        bad += found != wanted
        print(f"{name}: {'as it must be' if found == wanted else f'{found} and not {wanted}'}"[:400], flush=True)
    print(f"longest sources: {bad} otherwise than they must be")
    return bool(bad)


if __name__ == "__main__":
    sys.exit(main())
