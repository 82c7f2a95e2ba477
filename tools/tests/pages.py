#!/usr/bin/env python3
"""Each name of docs/formats.md has its sentence in docs/refusals.md, and tools/sentences.py finds it.

    python3 tools/tests/pages.py
"""

import re
import sys
from pathlib import Path

TOOLS = Path(__file__).resolve().parent.parent
sys.path.insert(0, str(TOOLS))
from sentences import Missing, advice, meaning, page, refusal, sentence, status  # noqa: E402

FORMATS = (TOOLS.parent / "docs/formats.md").read_text(encoding="utf-8")


PAIRS = FORMATS.split("## Joined calls\n")[1].split("\n## ")[0].replace("CALL", "2")


def cells(heading, column):
    """The cells of a column of the first table behind a heading."""
    lines = FORMATS.split(f"# {heading}\n")[1].split("\n")
    rows = [line.strip("| ").split(" | ") for line in lines[:next(
        place for place, line in enumerate(lines) if place > 1 and line.startswith("#"))] if line.startswith("| ")]
    return [row[column] for row in rows[1:]]


def names():
    """Each cause with the kind of its sentence."""
    yield from (("drop", cell.split(",")[0]) for cell in cells("Causes of a drop", 1))
    refusals = [cell.split(",")[0].split()[0] for cell in cells("Refusals of a signal", 1)]
    yield from (("refused", name) for name in refusals)
    for of, faults in zip(cells("Faults inside refusals", 0), cells("Faults inside refusals", 1)):
        yield from (("refused", f"{of} 0 {fault}") for fault in re.findall(r"\d ([A-Z][A-Za-z]*)", faults))


def main():
    bad, count = [], 0
    for kind, cause in names():
        count += 1
        try:
            if not meaning(cause, kind) or not advice(cause, kind):
                bad.append(f"{cause} has no meaning, or no advice")
        except Missing as missing:
            bad.append(str(missing))
    for number in range(1, 10):
        bad += [f"status {number}"] if "says nothing" in status(number) else []
    for outcome in ("ended 1 0 1 idle", "ended 1 0 1 bye", "ended 1 0 1 rejected", "unsent 20000 1.2.3.4:5",
                    "drop 20000 KeySpent 1 2", "refused - TickBack 5", "refused 1 Psk 255 Skew -1 2",
                    "refused 1 Mikey 0 12 Cut", "lost 20018 TooLong", "lost 20018 KeySpent 1 2", "joined 1 2", "parted 1 2",
                    *(f"unjoined 1 {cause}" for cause in re.findall(r"\| \d \| ([A-Z]\w+(?: 2)?) \|", PAIRS))):
        bad += [outcome] if "says nothing" in sentence(outcome, advises=True) else []
    bad += [cause for cause in ("TooLong", "Field: a number") if "says nothing" in refusal(cause)]
    if refusal("Sdes 1 NoLine") != f"refused (Sdes 1 NoLine) in medium 1: {page()['fault', 'Sdes NoLine'][0]}.":
        bad.append(refusal("Sdes 1 NoLine"))
    print(*(f"NOT SO: {what}" for what in bad), sep="\n", end="\n" * bool(bad))
    print(f"pages: {count} causes, {len(bad)} without a sentence")
    return bool(bad) or count < 60


if __name__ == "__main__":
    sys.exit(main())
