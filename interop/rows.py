#!/usr/bin/env python3
"""Writes the scripts of `interop/rows/` and, beside each, what must be told of it: calls that are agreed by
offers and answers, by crypto lines and by MIKEY messages, how they are renewed and how they end; calls that are
keyed manually; scripts of both versions and captures; ports that RTP and RTCP share; and calls that are joined. What
must be told is worked out by hand in the parts beside this file; the model (`model/`), which decides every line by the
rules alone, has to tell the same.

A script is played by `replay`, or by the command that a file NAME.words beside it names, then with the octets of
NAME.pcap behind it where that is there; it is handled to its end, or ends as NAME.end says, with a status and a text on
standard error. With `--check` nothing is written, and it is said what would be.
"""
import sys
from pathlib import Path

import agreements
import calls
import captured
import joined
import kept
import lives
import messages
import policies
import ports
import shared
import versions
from model import TOLD
from relayed import OVER_LOOPBACK

ROWS = Path(__file__).resolve().parent / "rows"


def of_text(told):
    """Outcomes as lines, or octets as they are."""
    return told if isinstance(told, bytes) else "".join(line + "\n" for line in told).encode()


def by_model(command, source):
    """What the model tells of a run; of a relay, over a loopback and at some moment, of which no row tells."""
    relay = OVER_LOOPBACK.get(command.replace(" --turns 1", ""))
    return relay(source, 0) if relay else TOLD[command](source)


def files(name, script, told, command="replay", end=None, capture=b""):
    """The files of a row, with their octets. The model has to tell the same."""
    model, (status, said) = by_model(command, script + capture), end or (0, "")
    assert model.octets() == told, f"the model tells something else of {name}"
    assert (model.status, model.said.decode()) == (status, said), f"the model ends {name} otherwise"
    yield f"{name}.script", script
    yield f"{name}.out", told
    if command != "replay":
        yield f"{name}.words", f"{command}\n".encode()
    if end:
        yield f"{name}.end", f"{status} {said}".encode()
    if capture:
        yield f"{name}.pcap", capture


def rows():
    parts = agreements, messages, policies, lives, ports, versions, captured, shared, joined
    for row in (row for part in parts for row in part.ALL):
        s = row()
        yield from files(row.__name__.replace("_", "-"), s.text(), of_text(s.told), s.command, s.end, s.capture)
    for name, script, told in calls.scripts():
        yield from files(name, script.encode(), told.encode())


def main():
    made = dict(rows())
    ROWS.mkdir(exist_ok=True)
    return kept.settle(ROWS, made, [file for file in ROWS.iterdir() if file.name not in (*made, "README.md")])


if __name__ == "__main__":
    sys.exit(main())
