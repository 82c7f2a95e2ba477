#!/usr/bin/env python3
"""Makes a script from session descriptions that a person can read, and from a capture.

    python3 tools/script.py --offer-secure alice.sdp --answer bob.sdp --capture call.pcap --bye > call.script
    srtpgw replay < call.script

The options that are events come into the script in the order in which they stand. A capture is a file of the
classic pcap form; its UDP datagrams to the gateway's ports become `in` lines, each behind a `tick` of its moment.
Where they were captured elsewhere, `--port CAPTURED=GATEWAY` says which port stands for which. With `--live` the
script is for a relay: a moment would be a wait there, so `tick` and `in` lines are left out. Nothing is written
unless the whole script can be made, each line of it within the grammar. Needs Python 3.8 alone. What is written holds
keys wherever the texts do.
"""

import argparse
import collections
import sys
from pathlib import Path

from captures import Fault, datagrams, records
from counters import is_port
from fields import DATAGRAM_MOST, NUMBER_MOST, TEXT_MOST, WINDOW_LEAST, WINDOW_MOST
import why
import words

# What a relay doesn't take of a replay's script: it has its own clock and its own datagrams.
NOT_LIVE = ("tick", "in")


# ---- captures

def why_not(datagram, port):
    """A word why a datagram to a port isn't taken, or None."""
    if not is_port(port):
        return "other ports"
    return "too long" if len(datagram.octets) > DATAGRAM_MOST else None


def lines_of(path, ports, skipped):
    """The lines of a capture. What isn't taken is counted by its cause."""
    last = -1
    for datagram in datagrams(Path(path).read_bytes()):
        if isinstance(datagram, str):
            skipped[datagram] += 1
            continue
        port = int(datagram.to.rsplit(":", 1)[1])
        port = ports.get(port, port)
        why = why_not(datagram, port)
        if why:
            skipped[why] += 1
            continue
        if datagram.moment > last:
            yield f"tick {datagram.moment}"
            last = datagram.moment
        yield f"in {port} {datagram.source} {datagram.octets.hex() or '-'}"


# ---- signals

def text_of(path):
    """A session description as a field, its octets as they are. Its lines end with a line feed in the file, with or
    without a carriage return, and get both; empty lines behind them go."""
    lines = Path(path).read_bytes().rstrip(b"\r\n").split(b"\n")
    octets = b"".join(line[:-1] + b"\r\n" if line.endswith(b"\r") else line + b"\r\n" for line in lines)
    if len(octets) > TEXT_MOST:
        raise Fault(f"{path} has more than {TEXT_MOST} octets")
    return octets.hex() or "-"


class Event(argparse.Action):
    """Keeps an option and its values in the order of the command line."""

    def __call__(self, parser, given, values, option=None):
        given.events = (getattr(given, "events", None) or []) + [(self.dest, values)]


def line(name, values, given):
    """The line of an event."""
    call, noise = given.call, given.noise
    if name in ("offer_secure", "answer"):
        return f"{name.replace('_', '-')} {call} {noise} {text_of(values)}"
    if name == "offer_plain":
        return f"offer-plain {call} sdes {noise} {text_of(values)}"
    if name == "offer_mikey":
        return f"offer-plain {call} mikey {values[0]} {noise} {text_of(values[1])}"
    if name == "manual":
        secure, plain, from_peer, to_peer = values
        return f"manual {call} {secure} {plain} 00000000 {given.window} {from_peer} {to_peer}"
    if name in ("reject", "bye"):
        return f"{name} {call}"
    return f"{name} {' '.join(values) if isinstance(values, list) else values}"


def words_of():
    parser = words.Parser(description="makes a script for srtpgw", epilog="events come in the order given")
    event = dict(action=Event)
    parser.add_argument("--offer-secure", metavar="SDP", help="an offer of the secure side", **event)
    parser.add_argument("--offer-plain", metavar="SDP", help="one of the plain side, keyed by crypto lines", **event)
    parser.add_argument("--offer-mikey", metavar=("PEER", "SDP"), nargs=2, help="one that is keyed by MIKEY", **event)
    parser.add_argument("--answer", metavar="SDP", help="the other side's answer", **event)
    ends = ("SECURE", "PLAIN", "FROM", "TO")
    parser.add_argument("--manual", nargs=4, metavar=ends, help="a call with keys by hand", **event)
    parser.add_argument("--psk", nargs=3, metavar=("OWN", "PEER", "HEX"), help="a pre-shared key", **event)
    parser.add_argument("--tick", metavar="MS", help="the moment, in milliseconds since 1970", **event)
    parser.add_argument("--capture", metavar="PCAP", help="a capture", **event)
    parser.add_argument("--reject", nargs=0, help="the open offer is rejected", **event)
    parser.add_argument("--bye", nargs=0, help="the call ends", **event)
    parser.add_argument("--call", type=words.number(0, NUMBER_MOST), default=1, help="the call's number, by default 1")
    parser.add_argument("--window", type=words.number(WINDOW_LEAST, WINDOW_MOST), default=WINDOW_LEAST,
                        help="the window of a call with keys by hand")
    parser.add_argument("--noise", default="-", metavar="HEX", help="304 octets for the gateway's keys, else drawn")
    parser.add_argument("--live", action="store_true", help="for a relay: no `tick` and no `in` lines")
    parser.add_argument(
        "--port", action="append", default=[], type=pair, metavar="CAPTURED=GATEWAY", help="which port stands for which")
    return parser


def pair(text):
    """The two ports of `CAPTURED=GATEWAY`."""
    captured, own = map(words.number(0, 65_535), text.partition("=")[::2])
    words.require(is_port(own), f"{own} is no port of the gateway's")
    return captured, own


def starting(events):
    """The first capture's first moment as a tick, where no other begins the script: a call that is made at moment
    0 would have been idle for years at the first one of a capture."""
    captures = [values for name, values in events if name == "capture"]
    if not captures or events[0][0] == "tick":
        return []
    return [f"tick {moment}" for moment, _ in list(records(Path(captures[0]).read_bytes()))[1:2]]


def script(given, skipped):
    """All lines of the script."""
    events = getattr(given, "events", None) or []
    made = ["srtpgw 1", *starting(events)]
    for name, values in events:
        made += lines_of(values, dict(given.port), skipped) if name == "capture" else [line(name, values, given)]
    if given.live:
        kept = [text for text in made if text.split(" ")[0] not in NOT_LIVE]
        skipped["`tick` and `in` lines, which a relay has of itself"] += len(made) - len(kept)
        return kept
    return made


def look_at(made):
    """Raises why.Fault where a line is outside of the grammar."""
    for place, text in enumerate(made, 1):
        why.read_line(place, text.encode(errors="surrogateescape") + b"\n")


def main():
    parser = words_of()
    given = parser.parse_args()
    skipped = collections.Counter()
    try:
        made = script(given, skipped)
        look_at(made)
    except (Fault, OSError) as fault:
        sys.exit(f"script.py: {fault}")
    except why.Fault as fault:
        parser.error(f"{fault.field}: {fault.words}" if fault.field else fault.words)
    sys.stdout.write("".join(text + "\n" for text in made))
    counts = ", ".join(f"{count} {why}" for why, count in skipped.items() if count)
    if counts:
        print(f"script.py: not taken: {counts}", file=sys.stderr)


if __name__ == "__main__":
    main()
