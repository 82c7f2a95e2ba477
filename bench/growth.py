#!/usr/bin/env python3
"""Counts the instructions that a packet and a tick cost in a replay, with one call and with many, and prints two
tables.

    bench/growth.py [--program FILE]

Each row is the difference of two replays under callgrind (Debian's valgrind), one with 4,096 packets or ticks more
than the other, so what the calls themselves cost isn't in it. The ticks tell nothing: they are a millisecond apart,
and all before the 60 seconds after which a call ends."""

import argparse
import re
import subprocess
import sys
import tempfile
from pathlib import Path

from script import Call

BENCH = Path(__file__).resolve().parent
PROGRAM = BENCH.parent / "crates/srtpgw/out/srtpgw"
MORE = 4096
ROWS = [(1, 1), (1, 4), (16, 4), (64, 4), (256, 1), (256, 4)]
TICK_ROWS = [1, 16, 256]


def write_packets(count, script, outcomes, calls, media):
    subprocess.run([sys.executable, BENCH / "script.py", str(count), "both", script, outcomes, str(calls), str(media)], check=True)


def write_ticks(count, script, outcomes, calls):
    made = [Call(number, 1) for number in range(calls)]
    ticks = "".join(f"tick {moment}\n" for moment in range(1, count + 1))
    script.write_text("srtpgw 1\n" + "".join(call.script for call in made) + ticks)
    outcomes.write_text("".join(call.told for call in made))


def instructions(program, write, count, *words):
    """How many a replay takes of the script with so many packets or ticks."""
    with tempfile.TemporaryDirectory() as folder:
        script, outcomes = (Path(folder) / name for name in ("script", "outcomes"))
        write(count, script, outcomes, *words)
        told = ["valgrind", "--tool=callgrind", f"--callgrind-out-file={folder}/counts", program, "replay"]
        with open(script) as source:
            ran = subprocess.run(told, stdin=source, capture_output=True, check=True)
        if ran.stdout != outcomes.read_bytes():
            sys.exit("bench/growth.py: the program wrote something else than it must")
        return int(re.search(rb"Collected : (\d+)", ran.stderr)[1])


def each(program, write, *words):
    """The instructions of one packet or tick."""
    both = [instructions(program, write, count, *words) for count in (2 * MORE, MORE)]
    return (both[0] - both[1]) / MORE


def main():
    words = argparse.ArgumentParser(description=__doc__, formatter_class=argparse.RawDescriptionHelpFormatter)
    words.add_argument("--program", default=PROGRAM)
    program = words.parse_args().program
    print("| calls | media each | instructions a packet | of one call's |")
    print("| ---: | ---: | ---: | ---: |")
    one = None
    for calls, media in ROWS:
        packet = each(program, write_packets, calls, media)
        one = one or packet
        print(f"| {calls} | {media} | {packet:,.0f} | {packet / one:.2f} |")
    print("\n| calls | instructions a tick |")
    print("| ---: | ---: |")
    for calls in TICK_ROWS:
        print(f"| {calls} | {each(program, write_ticks, calls):,.0f} |")


if __name__ == "__main__":
    main()
