#!/usr/bin/env python3
"""Reads lines of times, and prints tables in Markdown: the medians, or with a first word --least the least of them, and how
often the time of srtpgw goes into that of each program that is named."""

import statistics
import sys
from collections import defaultdict


def read(lines):
    """The nanoseconds that each program took, by what it did, and those of the parts."""
    times, parts = defaultdict(list), defaultdict(list)
    for line in lines:
        words = line.split()
        if words[0] == "part":
            parts[words[1]].append(int(words[2]))
        else:
            program, suite, octets, way, cost = words
            times[program, (suite, octets, way)].append(int(cost))
    return times, parts


def row(cells):
    return "| " + " | ".join(cells) + " |"


def main():
    least = sys.argv[1:2] == ["--least"]
    programs, chosen = sys.argv[1 + least :], min if least else statistics.median
    times, parts = read(sys.stdin)
    heads = [f"{p}, ns | over srtpgw" for p in programs]
    print(row(["suite", "octets", "", "srtpgw, ns", "packets a second"] + heads))
    print(row(["---"] * 3 + ["---:"] * (2 + 2 * len(programs))))
    for what in [what for program, what in times if program == "srtpgw"]:
        own = chosen(times["srtpgw", what])
        cells = [*what, f"{own:.0f}", f"{1e9 / own:,.0f}"]
        for program in programs:
            other = times.get((program, what))
            cells += [f"{chosen(other):.0f}", f"{chosen(other) / own:.2f}"] if other else ["-", "-"]
        print(row(cells))
    print()
    print(row(["part", "ns"]))
    print(row(["---", "---:"]))
    for part, costs in parts.items():
        print(row([part.replace("-", " "), f"{chosen(costs):.0f}"]))


if __name__ == "__main__":
    main()
