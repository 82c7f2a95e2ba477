#!/usr/bin/env python3
"""Tells in words what a file of outcomes says: calls, session descriptions, refusals, packets and octets by leg,
drops by cause, and of each stream loss, order, jitter and lateness.

    srtpgw replay < call.script | python3 tools/outcomes.py
    python3 tools/outcomes.py call.out --script call.script --plot call.png --pcap call.pcap --wav call.wav

With the script, drops and streams are told with their moments. They can be drawn over time where Python's `matplotlib`
is there, and what was opened, and what came to be sealed, can be written in the clear: as a capture for Wireshark,
and, of G.711, as WAV files for a player. Keys in session descriptions are covered up, but with `--keys`. Needs
Python 3.8 alone.
"""

import argparse
import collections
import importlib
import re
import signal
import sys
from pathlib import Path

import captures
import rtp
from counters import LEGS, is_port, place_of

SECURE_RTP, PLAIN_RTP, PLAIN_RTCP = 0, 2, 3
GOES_ON = "goes on"
# Attributes and fields that hold keys or passwords, whatever their letters: what stands behind the first group.
SECRETS = re.compile(
    r"(?im)^(a=crypto:\d* *[\w-]* *|a=key-mgmt:\w* *|k=|a=ice-pwd:|[^\r\n]*?inline:)([^\r\n]*)")
# A datagram's outcome: the cause of its drop, or None and where it went.
Datagram = collections.namedtuple("Datagram", "cause port address octets")
# A datagram line of a script.
Arrival = collections.namedtuple("Arrival", "moment port source octets")


class Fault(Exception):
    """Why the files can't be told."""


def leg_of(port):
    """The slot, the medium and the leg of a gateway's port; of another port, that."""
    return place_of(port) if is_port(port) else ("-", "-", f"port {port}")


def of_leg(port, leg):
    return is_port(port) and place_of(port)[2] == LEGS[leg]


def octets_of(field):
    """The octets of a field of hexadecimal digits."""
    return b"" if field == "-" else bytes.fromhex(field)


def shown(octets, covers):
    """A session description for a terminal: octets that aren't text are told by their numbers, keys are covered up."""
    text = octets.decode("utf-8", "backslashreplace").replace("\r\n", "\n")
    text = "".join(letter if letter.isprintable() or letter in "\n\t" else f"\\x{ord(letter):02x}" for letter in text)
    return SECRETS.sub(r"\1(covered)", text) if covers else text


class Report:
    """What the lines have said so far."""

    def __init__(self, covers):
        self.covers = covers
        self.calls, self.texts, self.refusals = {}, [], []
        self.packets, self.octets = collections.Counter(), collections.Counter()
        self.drops, self.unsent = collections.Counter(), collections.Counter()
        self.skips, self.lost, self.pairs = collections.Counter(), collections.Counter(), []
        # Of each datagram in its order what became of it.
        self.datagrams = []

    def take(self, fields):
        getattr(self, "take_" + fields[0])(*fields[1:])

    def take_srtpgw(self, version):
        """In a driver's log: another process begins, and the calls of the one before have ended with it."""
        for ones in self.calls.values():
            ones[-1].update({"end": "gone"} if ones[-1]["end"] == GOES_ON else {})

    def take_made(self, call, slot, media):
        self.calls.setdefault(call, []).append({"slot": slot, "media": media, "answers": 0, "end": GOES_ON})

    def take_live(self, call):
        self.calls[call][-1]["answers"] += 1

    def take_ended(self, call, slot, media, why):
        self.calls[call][-1]["end"] = why

    def take_sdp(self, call, side, octets):
        self.texts.append((call, side, shown(octets_of(octets), self.covers)))

    def take_refused(self, call, *cause):
        self.refusals.append((call, " ".join(cause)))

    def take_out(self, port, address, octets):
        went = Datagram(None, int(port), address, octets_of(octets))
        leg = leg_of(went.port)
        self.packets[leg] += 1
        self.octets[leg] += len(went.octets)
        self.datagrams.append(went)

    def take_drop(self, port, *cause):
        self.drops[leg_of(int(port)), cause[0]] += 1
        self.datagrams.append(Datagram(cause[0], int(port), None, b""))

    def take_lost(self, port, *cause):
        """Of a bridge: what was opened in the other call couldn't be sealed at this port."""
        self.lost[leg_of(int(port)), cause[0]] += 1
        self.datagrams.append(Datagram(cause[0], int(port), None, b""))

    def take_joined(self, first, second):
        self.pairs.append((first, second, "joined"))

    def take_parted(self, first, second):
        self.pairs.append((first, second, "parted"))

    def take_unjoined(self, call, *cause):
        self.pairs.append((call, "-", " ".join(cause)))

    def take_unsent(self, port, address):
        self.unsent[leg_of(int(port))] += 1

    def take_skip(self, record, cause):
        """Of a capture: no datagram could be taken of this record."""
        self.skips[cause] += 1


def lines_of(octets):
    """The lines of a file, which line feeds alone end."""
    return octets.split(b"\n")[:-1] if octets.endswith(b"\n") else octets.split(b"\n")


def reported(octets, covers):
    """The report of a file of outcomes."""
    report = Report(covers)
    for number, line in enumerate(lines_of(octets) if octets else [], 1):
        try:
            report.take(line.decode("ascii").split(" "))
        except (AttributeError, IndexError, KeyError, TypeError, ValueError):
            raise Fault(f"line {number} isn't an outcome") from None
    return report


def arrivals_of(octets):
    """The datagram lines of a script, each with its moment in milliseconds: that of the tick before it, 0 before the first
    one, or, in version 2, its own."""
    now, found = 0, []
    is_timed = octets.startswith(b"srtpgw 2\n")
    for number, line in enumerate(lines_of(octets), 1):
        word, *fields = line.decode("latin-1").split(" ")
        try:
            if word == "tick" or word == "in" and is_timed:
                now = max(now, int(fields.pop(0)))
            if word == "in":
                found.append(Arrival(now, int(fields[0]), fields[1], octets_of(fields[2])))
        except (IndexError, ValueError):
            raise Fault(f"line {number} of the script can't be read: tools/why.py says why") from None
    return found


# ---- streams

def rates_of(report):
    """The clock rates of payload types: those of RFC 3551, and what the session descriptions say of others."""
    rates = dict(rtp.RATES)
    for _, _, text in report.texts:
        said = re.findall(r"(?m)^a=rtpmap:(\d{1,3}) [^/\s]+/(\d{1,6})", text)
        rates.update((int(kind), int(rate)) for kind, rate in said)
    return rates


class Streams(dict):
    """Streams by port and source."""

    def __init__(self, rates):
        super().__init__()
        self.rates = rates

    def take(self, port, moment, octets):
        packet = rtp.packet_of(moment, octets)
        if packet:
            rate = self.rates.get(packet.kind) or None
            self.setdefault((port, packet.source), rtp.Stream(rate)).take(packet)


def moments_of(report, arrivals):
    """Of each datagram its moment, or None where no script says one."""
    return [arrival.moment for arrival in arrivals] if arrivals else [None] * len(report.datagrams)


def streams_out(report, arrivals):
    """The streams of RTP that went out on either side."""
    streams = Streams(rates_of(report))
    for went, moment in zip(report.datagrams, moments_of(report, arrivals)):
        if not went.cause and (of_leg(went.port, SECURE_RTP) or of_leg(went.port, PLAIN_RTP)):
            streams.take(went.port, moment, went.octets)
    return streams


def in_the_clear(report, arrivals):
    """Each packet of the plain side that was put out, either way, with its moment, its ends and the gateway's port."""
    for went, arrival in zip(report.datagrams, arrivals):
        plain = [port for port in (went.port, arrival.port) if of_leg(port, PLAIN_RTP) or of_leg(port, PLAIN_RTCP)]
        if went.cause or not plain:
            continue
        own = f"127.0.0.1:{plain[0]}"
        ends = (own, went.address, went.octets) if plain[0] == went.port else (arrival.source, own, arrival.octets)
        yield plain[0], captures.Datagram(arrival.moment, *ends)


def streams_in_the_clear(report, arrivals):
    """The streams that can be listened to: what was opened, and what came to be sealed."""
    streams = Streams(rates_of(report))
    for port, datagram in in_the_clear(report, arrivals):
        if of_leg(port, PLAIN_RTP):
            way = "to" if datagram.source == f"127.0.0.1:{port}" else "from"
            streams.take((port, way), datagram.moment, datagram.octets)
    return streams


# ---- told

def title(text):
    print(f"\n{text}\n{'-' * len(text)}")


def table(heads, rows):
    rows = [heads] + [tuple(map(str, row)) for row in rows or [("none",) + ("",) * (len(heads) - 1)]]
    widths = [max(len(row[place]) for row in rows) for place in range(len(heads))]
    for row in rows:
        print("  ".join(cell.ljust(width) for cell, width in zip(row, widths)).rstrip())


def in_order(counted):
    """Legs with what is counted of each, the gateway's own before others."""
    return sorted(counted.items(), key=lambda item: [(isinstance(part, str), part) for part in flat(item[0])])


def flat(key):
    return [part for one in key for part in (one if isinstance(one, tuple) else (one,))]


def told(report):
    """Prints the report."""
    title("Calls")
    calls = [(call, one) for call, ones in report.calls.items() for one in ones]
    table(("call", "slot", "media", "answers", "end"), [(call, *one.values()) for call, one in calls])
    if report.refusals:
        title("Refused signals")
        table(("call", "cause"), report.refusals)
    title("Packets that went out")
    table(("slot", "medium", "leg", "packets", "octets"),
          [(*leg, count, report.octets[leg]) for leg, count in in_order(report.packets)])
    title("Dropped datagrams")
    table(("slot", "medium", "came to", "cause", "datagrams"),
          [(*leg, cause, count) for (leg, cause), count in in_order(report.drops)])
    if report.pairs:
        title("Pairs of calls")
        table(("call", "other call", "what became of it"), report.pairs)
    if report.lost:
        title("Packets that were lost between joined calls")
        table(("slot", "medium", "leg", "cause", "packets"),
              [(*leg, cause, count) for (leg, cause), count in in_order(report.lost)])
    if report.unsent:
        title("Packets that couldn't be sent")
        table(("slot", "medium", "leg", "packets"), [(*leg, count) for leg, count in in_order(report.unsent)])
    if report.skips:
        title("Records that were skipped")
        table(("cause", "records"), sorted(report.skips.items()))
    for call, side, text in report.texts:
        title(f"Session description of call {call} for the {side} side")
        print(text.rstrip("\n"))


def told_streams(streams):
    """Prints each stream: loss and order by its numbers; jitter and lateness where moments and the clock are known."""
    title("Streams that went out")
    rows = []
    for (port, source), stream in sorted(streams.items()):
        late, jitters = sorted(stream.lateness()), stream.jitters()
        timed = "---"
        if late:
            timed = f"{jitters[-1]:.1f}", f"{late[len(late) // 2]:.0f}", f"{late[-1]:.0f}"
        rows.append((*leg_of(port), f"{source:08x}", len(stream.packets), stream.lost(), stream.repeated(),
                     stream.disordered(), *timed))
    table(("slot", "medium", "leg", "source", "packets", "lost", "repeated", "out of order", "jitter, ms", "late, ms",
           "latest, ms"), rows)


def drops_by_second(report, arrivals):
    """By cause: in each second from the first datagram on, how many datagrams were dropped."""
    counts = collections.defaultdict(collections.Counter)
    for arrival, went in zip(arrivals, report.datagrams):
        if went.cause:
            counts[went.cause][(arrival.moment - arrivals[0].moment) // 1_000] += 1
    return counts


def told_drops(counts):
    if counts:
        title("Drops by second")
        rows = [(second, cause, n) for cause, by_second in counts.items() for second, n in by_second.items()]
        table(("second", "cause", "datagrams"), sorted(rows))


# ---- drawn

def pyplot():
    """What draws, or None."""
    try:
        importlib.import_module("matplotlib").use("Agg")
        return importlib.import_module("matplotlib.pyplot")
    except ImportError:
        return None


def lost_by_second(streams, began):
    """In each second how many packets never came, told at the first one behind them."""
    counts = collections.Counter()
    for stream in streams.values():
        for missing, place in stream.gaps():
            counts[(stream.packets[place].moment - began) // 1_000] += missing
    return counts


def plot(drawer, counts, streams, began, path):
    """Draws drops and loss by second, and below them jitter and lateness of each stream."""
    figure, (above, below) = drawer.subplots(2, 1, sharex=True)
    lost = lost_by_second(streams, began)
    rows = sorted(counts.items()) + [("never came", lost)] * bool(lost)
    last = max((second for _, by_second in rows for second in by_second), default=0)
    for cause, by_second in rows:
        # Up to the second behind the last, or drops of one second would be no line.
        above.step(range(last + 2), [by_second[second] for second in range(last + 2)], where="post", label=cause)
    above.set_ylabel("datagrams a second")
    above.set_ylim(bottom=0)
    for (port, source), stream in sorted(streams.items()):
        seconds = [(packet.moment - began) / 1_000 for packet in stream.packets]
        for name, values in (("late", stream.lateness()), ("jitter", stream.jitters())):
            if values:
                below.plot(seconds, values, label=f"{name}, {port} {source:08x}", linewidth=1)
    below.set_ylabel("milliseconds")
    below.set_xlabel("seconds from the first datagram on")
    for axes in (above, below):
        if axes.get_legend_handles_labels()[0]:
            axes.legend(fontsize="x-small")
    figure.savefig(path)


# ---- written

def write_pcap(report, arrivals, path):
    Path(path).write_bytes(captures.written(datagram for _, datagram in in_the_clear(report, arrivals)))


def write_wav(report, arrivals, path):
    """A file for each stream of G.711; of several, each with its number in its name."""
    title("Sound")
    streams, rows = sorted(streams_in_the_clear(report, arrivals).items()), []
    for number, (((port, way), source), stream) in enumerate(streams, 1):
        sound, other = rtp.samples(stream)
        file = Path(path)
        file = file if len(streams) == 1 else file.with_name(f"{file.stem}-{number}{file.suffix}")
        if sound:
            file.write_bytes(rtp.wav(sound))
        slot, medium, _ = leg_of(port)
        rows.append((file if sound else "-", slot, medium, f"{way} the plain side", f"{source:08x}",
                     f"{len(sound) / 2 / rtp.G711_RATE:.2f}", other))
    table(("file", "slot", "medium", "way", "source", "seconds", "packets of other codecs"), rows)


# ---- the words

def words():
    parser = argparse.ArgumentParser(description="tells in words what a file of outcomes says")
    parser.add_argument("outcomes", nargs="?", help="the file, by default standard input")
    parser.add_argument("--script", help="the script that they are of")
    parser.add_argument("--plot", metavar="PNG", help="draws drops, loss, jitter and lateness; needs matplotlib")
    parser.add_argument("--pcap", metavar="FILE", help="writes the packets of the plain side as a capture")
    parser.add_argument("--wav", metavar="FILE", help="writes G.711 of the plain side as sound")
    parser.add_argument("--keys", action="store_true", help="shows keys in session descriptions")
    return parser


def tell(given, drawer):
    """Reads the files, prints and writes what is asked for."""
    octets = Path(given.outcomes).read_bytes() if given.outcomes else sys.stdin.buffer.read()
    report = reported(octets, not given.keys)
    arrivals = arrivals_of(Path(given.script).read_bytes()) if given.script else []
    if given.script and len(arrivals) != len(report.datagrams):
        raise Fault(f"the script has {len(arrivals)} datagrams, the outcomes tell of {len(report.datagrams)}")
    told(report)
    streams = streams_out(report, arrivals)
    if streams:
        told_streams(streams)
    counts = drops_by_second(report, arrivals)
    told_drops(counts)
    if given.wav:
        write_wav(report, arrivals, given.wav)
    if given.pcap:
        write_pcap(report, arrivals, given.pcap)
    if given.plot:
        plot(drawer, counts, streams, arrivals[0].moment if arrivals else 0, given.plot)


def main():
    parser = words()
    given = parser.parse_args()
    for option in ("plot", "pcap", "wav"):
        if getattr(given, option) and not given.script:
            parser.error(f"--{option} needs --script, which has the moments")
    signal.signal(signal.SIGPIPE, signal.SIG_DFL)
    drawer = pyplot() if given.plot else None
    if given.plot and not drawer:
        sys.exit("outcomes.py: --plot needs Python's matplotlib, which isn't there")
    try:
        tell(given, drawer)
    except (Fault, OSError, captures.Fault) as fault:
        sys.exit(f"outcomes.py: {fault}")


if __name__ == "__main__":
    main()
