#!/usr/bin/env python3
"""Watches a live gateway: by call and leg packets, octets and the last packet, drops by cause, and what the system threw
away in front of a socket; and says where audio goes one way only, or has stopped.

    python3 tools/watch.py --outcomes outcomes.log                       # a screen, anew every two seconds
    python3 tools/watch.py --outcomes outcomes.log --json                # once
    python3 tools/watch.py --outcomes outcomes.log --prometheus --every 5 --to srtpgw.prom

Packets are those that the sets of examples/network/srtpgw.nft count (docs/network.md): it runs where they are, as root
or with CAP_NET_ADMIN, and in their namespace: `ip netns exec NAME python3 tools/watch.py ..`. Calls and drops are those
of a log of outcomes (`Gateway(.., log=FILE)` of gateway.py), read from its beginning; without one only ports are told.
Needs Python 3.8 and nft.
"""

import collections
import contextlib
import json
import os
import shutil
import signal
import subprocess
import sys
import threading
import time
from pathlib import Path

from counters import Calls, Fault, LEGS, NOTHING, SLOTS, Socket, counts, is_port, port_of, sockets
from metrics import Metrics
from sentences import Missing, meaning
import words

SETS = ["nft", "-j", "list", "table", "ip", "srtpgw"]
SECURE, PLAIN = LEGS[0], LEGS[2]
# What is said of a medium.
TROUBLES = ("overflow", "silence", "one-way", "not-put-out", "elsewhere")
# The sets of counters, and those of places.
WAYS, OCTETS = ("arrived", "left"), ("arrived_octets", "left_octets")
PLACES = {"sources": "comes_from", "targets": "goes_to"}
# Where a side's packets come, where they go out, and what stopped them, by cause.
Way = collections.namedtuple("Way", "name comes goes stopped")


def read_sets():
    """The sets as they are now. Raises Fault where nft or the table isn't there."""
    try:
        run = subprocess.run(SETS, capture_output=True, timeout=20)
    except (OSError, subprocess.TimeoutExpired) as fault:
        raise Fault(f"nft: {fault}") from None
    if run.returncode:
        said = run.stderr.decode(errors="replace").strip().splitlines() or [f"it ended with {run.returncode}"]
        raise Fault(f"nft: {said[0]}")
    return counts(run.stdout)


class Arrived:
    """What came to ports: packets and octets by port, of a reading that is half a second old at most. None where nothing
    counts them."""

    AGE = 0.5

    def __init__(self, sets=read_sets):
        self.sets, self.found, self.until, self.lock = sets, {}, 0.0, threading.Lock()

    def __call__(self, ports):
        # Of many that ask at once one reads.
        with self.lock:
            if time.monotonic() >= self.until:
                try:
                    self.found = self.sets().get("arrived", {})
                except Fault:
                    self.found = {}
                self.until = time.monotonic() + self.AGE
            found = self.found
        return {port: found[port][:2] for port in ports if port in found}


def read_sockets():
    return sockets(Path("/proc/net/udp").read_text())


class Log:
    """A file that grows. It is read on from where it was; what came to it before another one took its name is read before
    that one, and one that was begun anew from its beginning."""

    def __init__(self, path):
        self.path, self.at, self.rest, self.file, self.place = path, 0, b"", None, None

    def lines(self):
        """The whole lines that have come since the last look."""
        found = self.come()
        with contextlib.suppress(OSError):
            status = os.stat(self.path)
            if (status.st_ino, status.st_dev) != self.place or status.st_size < self.at:
                found += self.come()
                self.opened()
                found += self.come()
        return found

    def opened(self):
        before, self.file = self.file, open(self.path, "rb")
        if before:
            before.close()
        status = os.fstat(self.file.fileno())
        self.at, self.rest, self.place = 0, b"", (status.st_ino, status.st_dev)

    def come(self):
        came = self.file.read() if self.file else b""
        self.at += len(came)
        *lines, self.rest = (self.rest + came).split(b"\n")
        return [line.decode("ascii", "replace") for line in lines]


class Watch:
    """Keeps what was seen. `look` answers what is to be shown; `after` is how many seconds without a packet are told.

    The counters of a port go on over its calls. A call's are those since the look at which the one before it in its slot
    had ended, so what is shown of a call is right to a look; of a call that is there at the first look, all are its own."""

    def __init__(self, path=None, after=5.0, sets=read_sets, sockets_=read_sockets, clock=time.time):
        self.log, self.after, self.clock = Log(path) if path else None, after, clock
        self.sets, self.sockets = sets, sockets_
        self.calls, self.bases, self.last, self.moment = Calls(), {}, {}, None
        self.lost = collections.Counter()
        self.seen_lost = {}

    def look(self):
        """What there is to be shown now, as lists and dictionaries."""
        now = self.clock()
        for line in self.log.lines() if self.log else []:
            self.calls.take(line, now)
        try:
            found, fault = self.sets(), None
        except Fault as why:
            found, fault = {}, str(why)
        self.begin(found)
        ends = self.sockets()
        self.add_lost(ends)
        legs = {call.number: self.legs(call, found, ends, now) for call in self.calls.by_slot.values()}
        calls = [self.call(call, legs, bool(found), now) for _, call in sorted(self.calls.by_slot.items())]
        self.last, self.moment = found, now
        return {"moment": now, "fault": fault, "calls": calls, "totals": self.totals(found)}

    def begin(self, found):
        """Counters of slots in which a call has ended begin anew, at the first look those of slots without a call."""
        if self.moment is None:
            self.calls.over.update(set(range(SLOTS)) - set(self.calls.by_slot))
        for slot in self.calls.over:
            for port in range(port_of(slot, 0, 0), port_of(slot + 1, 0, 0)):
                self.bases.update({(way, port): found[way][port] for way in WAYS if port in found.get(way, {})})
        self.calls.over.clear()

    def add_lost(self, ends):
        """A socket that was closed and opened again counts from 0."""
        for port, end in ends.items():
            before = self.seen_lost.get(port, 0)
            self.lost[port] += end.drops - before if end.drops >= before else end.drops
        self.seen_lost = {port: end.drops for port, end in ends.items()}

    def counted(self, name, port, found):
        """A port's counts since its call began."""
        count, base = found.get(name, {}).get(port, NOTHING), self.bases.get((name, port), NOTHING)
        if count.packets < base.packets:
            # The sets were loaded anew.
            self.bases.pop((name, port))
            base = NOTHING
        return count._replace(packets=count.packets - base.packets, octets=count.octets - base.octets)

    def leg(self, call, medium, leg, found, ends, now):
        port, name = port_of(call.slot, medium, leg), LEGS[leg]
        shown = {"leg": name, "port": port}
        for way in WAYS:
            count = self.counted(way, port, found)
            rate = None
            if self.moment is not None and now > self.moment:
                came = found.get(way, {}).get(port, NOTHING).packets - self.last.get(way, {}).get(port, NOTHING).packets
                rate = max(0.0, round(came / (now - self.moment), 1))
            quiet = count.quiet if count.packets else None
            shown[way] = {"packets": count.packets, "octets": count.octets, "quiet": quiet, "rate": rate}
        for places, field in PLACES.items():
            shown[field] = sorted(place for place, quiet in found.get(places, {}).get(port, {}).items() if quiet <= self.after)
        drops = {cause: n for (at, of, cause), n in sorted(call.drops.items()) if (at, of) == (medium, name)}
        lost = {cause: n for (at, of, cause), n in sorted(call.lost.items()) if (at, of) == (medium, name)}
        end = ends.get(port, Socket(0, 0))
        return {**shown, "drops": drops, "lost": lost, "unsent": call.unsent[medium, name], "overflows": end.drops,
                "waiting": end.waiting}

    def legs(self, call, found, ends, now):
        """By medium the four legs of a call."""
        return [[self.leg(call, medium, leg, found, ends, now) for leg in range(4)] for medium in range(call.media)]

    def call(self, call, legs, counted, now):
        media = []
        for medium, own in enumerate(legs[call.number]):
            said = [("overflow", f"{leg['overflows']} datagrams were lost in front of the full socket of {leg['leg']}")
                    for leg in own if leg["overflows"]]
            if counted and call.live and now - call.live >= self.after:
                said += self.heard(ways_of(call, legs, medium), now - call.live)
            media.append({"medium": medium, "legs": own, "says": [words for _, words in said],
                          "troubles": [trouble for trouble, _ in said]})
        return {"call": call.number, "slot": call.slot, "state": "live" if call.live else "offered", "joined": call.joined,
                "seconds": round(now - (call.live or call.made), 1), "media": media}

    def heard(self, ways, since):
        """What an operator should know of a medium's two ways: one of TROUBLES, and words."""
        said, silent = [], {way.name: quiet(way.comes, "arrived", since) for way in ways}
        if min(silent.values()) >= self.after:
            said.append(("silence", f"silence: no packet from either side for {min(silent.values()):.0f} s"))
        elif max(silent.values()) >= self.after:
            dumb = max(silent, key=silent.get)
            said.append(("one-way", f"one-way: no packet from the {dumb} side for {silent[dumb]:.0f} s"))
        for way in ways:
            if silent[way.name] < self.after <= quiet(way.goes, "left", since):
                said.append(("not-put-out", f"what the {way.name} side sends isn't put out: {worst(way.stopped)}"))
            said += elsewhere(way.name, way.comes["comes_from"], way.comes["goes_to"])
        return said

    def totals(self, found):
        """Counts over all calls."""
        ways = {way: collections.Counter() for way in (*WAYS, *OCTETS)}
        for way in WAYS:
            for port, count in found.get(way, {}).items():
                if is_port(port):
                    ways[way][LEGS[port % 4]] += count.packets
                    ways[f"{way}_octets"][LEGS[port % 4]] += count.octets
        drops = [{"leg": leg or "no port of the gateway", "cause": cause, "datagrams": n}
                 for (leg, cause), n in sorted(self.calls.drops.items(), key=str)]
        return {"made": self.calls.made, "refused": dict(self.calls.refused), "ended": dict(self.calls.ended),
                "drops": drops, "unsent": sum(self.calls.unsent.values()), "overflows": sum(self.lost.values()),
                "pairs": sum(call.joined is not None for call in self.calls.by_slot.values()) // 2,
                "unjoined": dict(self.calls.unjoined),
                "lost": [{"leg": leg or "no port of the gateway", "cause": cause, "datagrams": n}
                         for (leg, cause), n in sorted(self.calls.lost.items(), key=str)],
                **{way: dict(legs) for way, legs in ways.items()}}


def ways_of(call, legs, medium):
    """The two ways of a medium: between its sides, or where the call is joined to the other call's secure side."""
    own = {leg["leg"]: leg for leg in legs[call.number][medium]}
    if call.joined not in legs:
        return [Way("secure", own[SECURE], own[PLAIN], own[SECURE]["drops"]),
                Way("plain", own[PLAIN], own[SECURE], own[PLAIN]["drops"])]
    other = {leg["leg"]: leg for leg in legs[call.joined][medium]}
    return [Way("secure", own[SECURE], other[SECURE], {**other[PLAIN]["lost"], **own[SECURE]["drops"]}),
            Way(f"joined call {call.joined}'s", other[SECURE], own[SECURE], {**own[PLAIN]["lost"], **other[SECURE]["drops"]})]


def quiet(leg, way, since):
    """For how many seconds nothing came to a leg, or left it."""
    return leg[way]["quiet"] if leg[way]["quiet"] is not None else since


def elsewhere(side, sources, targets):
    """What is to be said where packets come from another place than they go to, as behind address translation."""
    if not sources or not targets or set(sources) & set(targets):
        return []
    return [("elsewhere", f"the {side} side's packets come from {sources[0]}, and media go to {targets[0]}: behind address "
                          "translation they don't arrive there (docs/network.md)")]


def worst(drops):
    """The most frequent cause of drops, in words."""
    if not drops:
        return "no drop is told, so look at the way behind the gateway"
    cause = max(drops, key=drops.get)
    with contextlib.suppress(Missing):
        return f"{drops[cause]} {cause}, {meaning(cause, 'drop')}"
    return f"{drops[cause]} {cause}"


# ---- shown

def screen(view):
    """Lines for a terminal, calls of which something is to be said first."""
    lines = [time.strftime("%H:%M:%S", time.localtime(view["moment"])) + f"  {len(view['calls'])} calls"]
    if view["fault"]:
        lines.append(f"no counters of packets (docs/network.md): {view['fault']}")
    lines += total_lines(view["totals"])
    for call in sorted(view["calls"], key=lambda call: not any(medium["says"] for medium in call["media"])):
        joined = f", joined with call {call['joined']}" if call["joined"] is not None else ""
        lines.append(f"call {call['call']}, slot {call['slot']}, {call['state']} for {call['seconds']:.0f} s{joined}")
        for medium in call["media"]:
            for leg in medium["legs"]:
                lines += leg_lines(medium["medium"], leg)
            lines += [f"  ! {words}" for words in medium["says"]]
    return lines


def total_lines(totals):
    """Counts over all calls, in lines."""
    lines = []
    for name in ("refused", "ended"):
        if totals[name]:
            lines.append(f"{name}: " + ", ".join(f"{n} {cause}" for cause, n in sorted(totals[name].items())))
    if totals["unjoined"]:
        lines.append("not joined: " + ", ".join(f"{n} {cause}" for cause, n in sorted(totals["unjoined"].items())))
    for name, rows in (("dropped", totals["drops"]), ("lost between joined calls", totals["lost"])):
        if rows:
            lines.append(f"{name}: " + ", ".join(f"{row['datagrams']} {row['cause']} at {row['leg']}" for row in rows))
    lines.append(f"unsent: {totals['unsent']}, lost in front of sockets: {totals['overflows']}")
    return lines


def leg_lines(medium, leg):
    """A leg in a line; none where it has nothing to tell."""
    came, left = leg["arrived"], leg["left"]
    if not (came["packets"] or left["packets"] or leg["drops"] or leg["lost"] or leg["waiting"]):
        return []
    ago = f", the last {came['quiet']} s ago" if came["quiet"] is not None else ""
    drops = "".join(f", {n} {cause}" for cause, n in leg["drops"].items())
    drops += "".join(f", lost {n} {cause}" for cause, n in leg["lost"].items())
    waiting = f", {leg['waiting']} octets wait" if leg["waiting"] else ""
    return [f"  medium {medium}  {leg['leg']:<11} {leg['port']}  in {came['packets']} ({came['octets']} octets{ago})  "
            f"out {left['packets']} ({left['octets']} octets){drops}{waiting}"]


def prometheus(view):
    """Lines of Prometheus's text format. No label is a call's: what is told of calls is told of all together."""
    rows, totals = Metrics(), view["totals"]
    rows.gauge("srtpgw_counters_up", "Whether the counters of packets could be read", 0 if view["fault"] else 1)
    states = collections.Counter(call["state"] for call in view["calls"])
    for state in ("live", "offered"):
        rows.gauge("srtpgw_calls", "Calls that are there", states[state], state=state)
    rows.counter("srtpgw_calls_made_total", "Calls that were made", totals["made"])
    for cause, n in sorted(totals["refused"].items()):
        rows.counter("srtpgw_signals_refused_total", "Refused signals", n, cause=cause)
    for why, n in sorted(totals["ended"].items()):
        rows.counter("srtpgw_calls_ended_total", "Calls that have ended", n, why=why)
    for row in totals["drops"]:
        rows.counter("srtpgw_drops_total", "Dropped datagrams", row["datagrams"], leg=row["leg"], cause=row["cause"])
    rows.gauge("srtpgw_pairs", "Pairs of calls that are joined", totals["pairs"])
    for cause, n in sorted(totals["unjoined"].items()):
        rows.counter("srtpgw_unjoined_total", "Calls that couldn't be joined or parted", n, cause=cause)
    for row in totals["lost"]:
        rows.counter("srtpgw_lost_total", "Packets that were opened in one call and couldn't be sealed in the joined one",
                     row["datagrams"], leg=row["leg"], cause=row["cause"])
    rows.counter("srtpgw_unsent_total", "Packets that the system didn't send", totals["unsent"])
    rows.counter("srtpgw_overflows_total", "Datagrams that were lost in front of full sockets", totals["overflows"])
    for way in WAYS:
        for leg in LEGS if not view["fault"] else ():
            for what, name in (("packets", way), ("octets", f"{way}_octets")):
                rows.counter(f"srtpgw_{what}_total", f"{what.capitalize()} that came to a leg and left it",
                             totals[name].get(leg, 0), leg=leg, way=way)
    add_troubles(rows, view["calls"])
    return rows.lines()


def add_troubles(rows, calls):
    media = [medium for call in calls for medium in call["media"]]
    troubles = collections.Counter(trouble for medium in media for trouble in medium["troubles"])
    for trouble in TROUBLES:
        rows.gauge("srtpgw_troubled_media", "Media of which watch.py says something", troubles[trouble], trouble=trouble)
    for index, leg in enumerate(LEGS):
        waiting = [medium["legs"][index]["waiting"] for medium in media]
        rows.gauge("srtpgw_waiting_octets", "Octets that wait in sockets", sum(waiting), leg=leg)


# ---- the words

def words_of():
    parser = words.Parser(description="watches a live gateway")
    parser.add_argument("--outcomes", metavar="FILE", help="a log of outcomes, which is read on as it grows")
    parser.add_argument("--after", type=words.seconds(0, 86_400), default=5.0, metavar="S",
                        help="seconds without a packet, by default 5")
    parser.add_argument("--every", type=words.seconds(0.1, 86_400), metavar="S",
                        help="looks every S seconds; the screen does every 2")
    parser.add_argument("--looks", type=words.number(1, 2**63), metavar="N", help="ends behind N looks")
    parser.add_argument("--to", type=words.file_in_a_folder, metavar="FILE",
                        help="a file that each look replaces as a whole")
    shape = parser.add_mutually_exclusive_group()
    shape.add_argument("--json", action="store_true", help="a line of JSON a look")
    shape.add_argument("--prometheus", action="store_true", help="Prometheus's text format")
    return parser


def text_of(view, given):
    if given.json:
        return json.dumps(view) + "\n"
    return "".join(line + "\n" for line in (prometheus if given.prometheus else screen)(view))


def put(text, given):
    """Prints a look, or puts it in its file's place. Whether that could be done."""
    if given.to:
        return put_in_place(text, given.to)
    if not given.json and not given.prometheus and sys.stdout.isatty():
        text = "\x1b[H\x1b[2J" + fitted(text, shutil.get_terminal_size().lines - 1)
    sys.stdout.write(text)
    sys.stdout.flush()
    return True


def put_in_place(text, path):
    beside = Path(f"{path}.new")
    try:
        beside.write_text(text, encoding="utf-8")
        os.replace(beside, path)
    except OSError as fault:
        print(f"watch.py: {path} isn't written: {fault}", file=sys.stderr, flush=True)
        return False
    return True


def fitted(text, most):
    """As many lines as a terminal has."""
    lines = text.splitlines(keepends=True)
    if len(lines) <= most:
        return text
    return "".join(lines[:most - 1]) + f"and {len(lines) - most + 1} further lines, which --json has\n"


def main():
    given = words_of().parse_args()
    signal.signal(signal.SIGPIPE, signal.SIG_DFL)
    once = given.json or given.prometheus
    every = given.every or (None if once else 2.0)
    watch, looks = Watch(given.outcomes, given.after), 0
    with contextlib.suppress(KeyboardInterrupt):
        while True:
            is_put = put(text_of(watch.look(), given), given)
            looks += 1
            if every is None or looks == given.looks:
                return 0 if is_put else 1
            # The next look may find room.
            time.sleep(every)
    return 0


if __name__ == "__main__":
    sys.exit(main())
