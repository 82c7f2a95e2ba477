#!/usr/bin/env python3
"""Compares what tools/why.py says of changed lines and changed session descriptions with the model's first fault.

    interop/whys.py [LINES [SEED]]

Lines and texts are those of `rows/` and `examples/`, each with one to three octets changed, put in, taken out, or cut
off. Of a line the fault has to be the same, of an offer the refusal; refusals that hang on a pre-shared key (`Psk`) or on
what a message's policy means (`Cs`) why.py doesn't know.
"""
import random
import sys
from pathlib import Path

TOP = Path(__file__).resolve().parent.parent
sys.path.append(str(TOP / "tools"))

import texts  # noqa: E402
import why  # noqa: E402
from model import scripts  # noqa: E402
from model.world import World  # noqa: E402

OCTETS = b" \t\r-:.|;=0123456789abcdefABCDEFxyzinline/+\x00\xe9"
LONGEST = 6_000


def rows():
    """All lines of scripts that aren't long, but for their headers; each once."""
    files = sorted([*TOP.glob("interop/rows/*.script"), *TOP.glob("examples/*.script")])
    lines = dict.fromkeys(line for file in files for line in file.read_bytes().split(b"\n")[1:])
    return [line for line in lines if 0 < len(line) < LONGEST]


def changed(draw, octets, more=b""):
    """Octets with one to three changes."""
    octets = bytearray(octets)
    for _ in range(draw.choice((1, 1, 1, 2, 3))):
        place, other = draw.randrange(len(octets) + 1), draw.choice(OCTETS + more)
        how = draw.randrange(4)
        if how == 0:
            octets[place:place + 1] = bytes([other])
        elif how == 1:
            octets.insert(place, other)
        elif how == 2:
            del octets[place:place + 1]
        else:
            del octets[place:]
    return bytes(octets)


def fault(read, faults, line, version, **more):
    """The name of a line's first fault in a version, or None."""
    try:
        read(2, line, version, **more)
    except faults as found:
        return getattr(found, "name", str(found))
    return None


def lines_differ(draw, lines, count):
    """Changed lines of which two faults are told."""
    for _ in range(count):
        line, version, pairs = changed(draw, draw.choice(lines)) + b"\n", draw.choice((1, 2)), draw.choice((False, True))
        told = (fault(why.read_line, why.Fault, line, version, is_bridged=pairs),
                fault(scripts.read, scripts.Fault, line, version, has_pairs=pairs))
        if told[0] != told[1]:
            yield line, told


def offers_differ(draw, lines, count):
    """Changed offers of which two refusals are told."""
    offers = [line.split(b" ") for line in lines if line.startswith((b"offer-secure ", b"offer-plain "))]
    offers = [(fields[0], fields[-1]) for fields in offers if fields[2] != b"mikey"]
    for _ in range(count):
        word, digits = draw.choice(offers)
        side = "secure" if word == b"offer-secure" else "plain"
        text = changed(draw, b"" if digits == b"-" else bytes.fromhex(digits.decode()), b"\n")
        outcomes = World().signal("offer-secure" if side == "secure" else "sdes", 1, bytes(304), text)
        refused = [line[len("refused 1 "):] for line in outcomes if line.startswith("refused")]
        told = texts.looked_at(text, side).refusal, refused[0] if refused else None
        if told[0] != told[1] and not (told[1] or "").startswith(("Psk", "Cs")):
            yield text, told


def main():
    count, seed = [*map(int, sys.argv[1:]), *(20_000, 1)[len(sys.argv) - 1:]]
    draw, lines = random.Random(seed), rows()
    bad = [*lines_differ(draw, lines, count), *offers_differ(draw, lines, count)]
    for octets, told in bad[:10]:
        print(f"why.py says {told[0]}, the model {told[1]}: {octets}")
    print(f"whys: {count} changed lines and {count} changed offers, {len(bad)} told otherwise than by the model")
    return bool(bad)


if __name__ == "__main__":
    sys.exit(main())
