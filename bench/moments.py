#!/usr/bin/env python3
"""Measures what moments on datagram lines cost: replays of one script in both versions, and prints a table in Markdown.

    bench/moments.py [COUNT] [--rounds N] [--program FILE]

COUNT (100,000) datagrams of one call: packets of 172 octets that are opened and sealed in turns, or datagrams of no octets,
which are dropped (of these 59,000 at most: the call ends a minute later). In version 1; in version 2 all at one moment; in
version 2 each a millisecond behind the one before; and in version 1 with a `tick` line before each, which says the same.
Seconds are those of the processor, medians of N rounds (5) with the rows in turns. What is written is compared. Ends with 1
where moments of their own take more than twice the time of version 1."""

import argparse
import os
import statistics
import subprocess
import sys
import tempfile
from pathlib import Path

BENCH = Path(__file__).resolve().parent
WRAPPER = BENCH.parent / "srtpgw"
PROGRAM = BENCH.parent / "crates/srtpgw/out/srtpgw"
MOST_TIMES = 2
MADE = "manual 0 127.0.0.1:40000 127.0.0.1:41000 00000000 64 RAW80:" + 20 * "01" + " RAW80:" + 20 * "02"


def packets(count, folder):
    """The lines of a script of version 1, and what it must write."""
    files = folder / "packets.script", folder / "packets.out"
    subprocess.run([sys.executable, BENCH / "script.py", str(count), "both", *files], check=True)
    return files[0].read_text().splitlines()[1:], files[1].read_bytes()


def drops(count, folder):
    count = min(count, 59_000)
    lines = [MADE] + count * ["in 20000 127.0.0.1:40000 -"]
    return lines, b"made 0 0 1\nlive 0\n" + count * b"drop 20000 Short\n"


def with_moments(lines, moment_of):
    """The lines with a moment on each datagram line."""
    place = 0
    for line in lines:
        if line.startswith("in "):
            line, place = f"in {moment_of(place)} {line[3:]}", place + 1
        yield line


def with_ticks(lines):
    """The lines with a tick before each datagram line."""
    place = 0
    for line in lines:
        if line.startswith("in "):
            yield f"tick {place}"
            place += 1
        yield line


def scripts(lines):
    yield "version 1", ["srtpgw 1", *lines]
    yield "version 2, one moment", ["srtpgw 2", *with_moments(lines, lambda place: 5)]
    yield "version 2, moments of their own", ["srtpgw 2", *with_moments(lines, lambda place: place)]
    yield "version 1, a tick before each", ["srtpgw 1", *with_ticks(lines)]


def seconds(program, script, wanted, folder):
    """The processor's time of a replay."""
    written = folder / "written"
    with open(script) as source, open(written, "wb") as sink:
        run = subprocess.Popen([program, "replay"], stdin=source, stdout=sink)
        _, status, used = os.wait4(run.pid, 0)
        run.returncode = os.waitstatus_to_exitcode(status)
    if run.returncode or written.read_bytes() != wanted:
        sys.exit(f"bench/moments.py: of {script.name} the program wrote something else than it must")
    return used.ru_utime + used.ru_stime


def measured(name, made, words, folder):
    """Prints the rows of a kind of datagrams; how many times the time of version 1 moments of their own take."""
    lines, wanted = made(words.count, folder)
    rows = {}
    for row, script in scripts(lines):
        rows[row] = folder / f"{name} {row}".replace(" ", "-").replace(",", ""), []
        rows[row][0].write_text("".join(line + "\n" for line in script))
    for _ in range(words.rounds):
        for script, taken in rows.values():
            taken.append(seconds(words.program, script, wanted, folder))
    medians = {row: statistics.median(taken) for row, (_, taken) in rows.items()}
    first = max(medians["version 1"], 0.001)
    for row, taken in medians.items():
        print(f"| {name} | {row} | {taken:.2f} | {taken / first:.2f} |")
    return medians["version 2, moments of their own"] / first


def main():
    words = argparse.ArgumentParser(description=__doc__, formatter_class=argparse.RawDescriptionHelpFormatter)
    words.add_argument("count", nargs="?", type=int, default=100_000)
    words.add_argument("--rounds", type=int, default=5)
    words.add_argument("--program", default=PROGRAM)
    words = words.parse_args()
    if words.program == PROGRAM:
        # The program is built where it isn't.
        subprocess.run([WRAPPER, "replay"], stdin=subprocess.DEVNULL, check=True)
    load = f"{os.cpu_count()} processors, load average {os.getloadavg()[0]:.2f}"
    print(f"{words.count:,} datagrams, {load}, medians of {words.rounds} rounds")
    print()
    print("| datagrams | script | seconds of the processor | of version 1 |")
    print("| --- | --- | ---: | ---: |")
    with tempfile.TemporaryDirectory() as name:
        folder = Path(name)
        times = [measured(kind, made, words, folder) for kind, made in (("packets", packets), ("dropped", drops))]
    return max(times) > MOST_TIMES


if __name__ == "__main__":
    sys.exit(main())
