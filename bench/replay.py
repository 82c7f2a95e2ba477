#!/usr/bin/env python3
"""Measures `srtpgw replay` over scripts of calls, and prints a table in Markdown.

    bench/replay.py [COUNT [open|seal|both [CALLS[,CALLS..] [WORKERS[,WORKERS..]]]]] [--size N] [--rounds N] [--least]
        [--small-pages] [--program FILE] [--beside FILE]

COUNT (200,000) packets of N octets (172) under AES_CM_128_HMAC_SHA1_80 are opened, sealed, or opened and sealed in
turns (both), in so many calls and by so many workers (1, and 1); a row for each. A figure is the median of N
rounds (5), with the rows in turns, or with --least the least of them. What the program writes is compared with what another
implementation says. With --beside another program has a row too, in turns: it is told the word replay alone, so it may be one
of before there were workers. All run as ./srtpgw runs the program, with memory in pages of 2 MiB where the kernel has some to
give; with --small-pages each row is run a second time, in turns, with memory in pages of 4 KiB alone."""

import argparse
import filecmp
import os
import re
import statistics
import subprocess
import sys
import tempfile
import time
from pathlib import Path

BENCH = Path(__file__).resolve().parent
WRAPPER = BENCH.parent / "srtpgw"
TIME = "/usr/bin/time"
PROGRAM = BENCH.parent / "crates/srtpgw/out/srtpgw"
SETTING = "GLIBC_TUNABLES"


def pages_of_wrapper():
    """What ./srtpgw says to glibc of the pages of memory."""
    return re.search(SETTING + r"-(\S+?)\}", WRAPPER.read_text())[1]


def run(program, workers, pages, script, written):
    """Runs the program; the seconds that passed, those of the processor, of these the user's, and by GNU time the peak
    in MiB."""
    told = [TIME, "-f", "%M", program, "replay"] + (["--workers", str(workers)] if workers else [])
    with open(script) as source, open(written, "w") as sink, tempfile.TemporaryFile("w+") as said:
        began = time.monotonic()
        env = {**os.environ, SETTING: pages}
        _, status, used = os.wait4(subprocess.Popen(told, stdin=source, stdout=sink, stderr=said, env=env).pid, 0)
        passed = time.monotonic() - began
        said.seek(0)
        peak = said.read()
    if status != 0:
        sys.exit(f"bench/replay.py: the program failed: {peak}")
    return passed, used.ru_utime + used.ru_stime, used.ru_utime, int(peak) / 1024


def given():
    words = argparse.ArgumentParser(description=__doc__, formatter_class=argparse.RawDescriptionHelpFormatter)
    words.add_argument("count", nargs="?", type=int, default=200_000)
    words.add_argument("ways", nargs="?", choices=["open", "seal", "both"], default="both")
    words.add_argument("calls", nargs="?", default="1")
    words.add_argument("workers", nargs="?", default="1")
    words.add_argument("--size", type=int, default=172)
    words.add_argument("--rounds", type=int, default=5)
    words.add_argument("--least", action="store_true")
    words.add_argument("--small-pages", action="store_true")
    words.add_argument("--program", default=PROGRAM)
    words.add_argument("--beside")
    return words.parse_args()


def main():
    if not Path(TIME).exists():
        sys.exit("bench/replay.py: GNU time is wanting; Debian has it in the package time")
    words = given()
    if words.program == PROGRAM:
        # The program is built where it isn't.
        subprocess.run([WRAPPER, "replay"], stdin=subprocess.DEVNULL, check=True)
    counts = [int(count) for count in words.workers.split(",")] + ([None] if words.beside else [])
    pages = {pages_of_wrapper(): ""} | ({"": ", small pages"} if words.small_pages else {})
    rows = [(int(calls), count, setting) for calls in words.calls.split(",") for count in counts for setting in pages]
    taken = {row: [] for row in rows}
    with tempfile.TemporaryDirectory() as folder:
        written = Path(folder) / "written"
        for calls in {calls for calls, _, _ in rows}:
            files = [Path(folder) / f"{name}-{calls}" for name in ("script", "outcomes")]
            subprocess.run([sys.executable, BENCH / "script.py", str(words.count), words.ways, *files, str(calls), "1", str(words.size)], check=True)
        for _ in range(words.rounds):
            for calls, workers, setting in rows:
                program = words.program if workers else words.beside
                used = run(program, workers, setting, Path(folder) / f"script-{calls}", written)
                taken[calls, workers, setting].append(used)
                if not filecmp.cmp(Path(folder) / f"outcomes-{calls}", written, shallow=False):
                    sys.exit("bench/replay.py: the program wrote something else than it must")
    chosen, name = (min, "least") if words.least else (statistics.median, "medians")
    print(f"packets of {words.size} octets, {os.cpu_count()} processors, load average {os.getloadavg()[0]:.2f}, {name} of {words.rounds} rounds")
    print()
    print("| calls | workers | packets | | seconds | of the processor | of the user | packets a second | of the processor | peak MiB |")
    print("| ---: | ---: | ---: | --- | ---: | ---: | ---: | ---: | ---: | ---: |")
    for (calls, workers, setting), runs in taken.items():
        passed, processor, user, peak = (chosen(it) for it in zip(*runs))
        rates = f"{words.count / max(passed, 0.01):,.0f} | {words.count / max(processor, 0.01):,.0f}"
        seconds = f"{passed:.3f} | {processor:.3f} | {user:.3f}"
        way = words.ways + pages[setting]
        print(f"| {calls} | {workers or 'beside'} | {words.count:,} | {way} | {seconds} | {rates} | {peak:.1f} |")


if __name__ == "__main__":
    main()
