#!/usr/bin/env python3
"""Learns where telephones behind address translation send from, by rules of nftables in front of the gateway: media then go
there, and not where the session description says. docs/network.md says what that opens to an attacker.

    python3 tools/latch.py up                             # loads the table; `down` takes it away
    python3 tools/latch.py follow 20000 10.1.0.2 46000    # may be learnt at this port of the gateway, from this address
    python3 tools/latch.py leave 20000                    # the call is over
    python3 tools/latch.py show                           # what was learnt

tools/ng/srtpgw-ng --latch does all of it by call. The rules stand in a table of their own, beside examples/network/srtpgw.nft.
It needs root or CAP_NET_ADMIN, in the gateway's network namespace; Python 3.8, and nft 1.0 or later.
"""

import argparse
import collections
import contextlib
import ipaddress
import json
import subprocess
import sys
import threading
import time

from counters import Fault, PORTS, is_port
import words

TABLE = "srtpgw_latch"
# For how many seconds behind an answer an address is learnt.
SECONDS = 10.0
# The seconds between two looks at what was learnt, and how often a change is tried that something came between.
LOOK, TRIES = 1.0, 5

# Where one of the gateway's ports is looked at, and what each set and each rule is for:
#   window, wide   ports that learn now, from one address or from any; an element goes by itself
#   settled        ports that have learnt since the last answer: a first packet decides, and none after it
#   known          what was learnt; elsewhere: what came from another place to a port that had learnt, or might not
#   to_address, to_port   where what the gateway sends from a port goes
#   said           the address of a plain telephone's text, under which alone the gateway takes its packets
RULES = f"""
table ip {TABLE}
delete table ip {TABLE}
table ip {TABLE} {{
  set followed {{ type inet_service; size 8192; }}
  set window {{ type inet_service . ipv4_addr; flags timeout; size 8192; }}
  set wide {{ type inet_service; flags timeout; size 8192; }}
  set settled {{ type inet_service; flags dynamic; size 8192; }}
  set known {{ type inet_service . ipv4_addr . inet_service; flags dynamic; size 8192; }}
  set elsewhere {{ type inet_service . ipv4_addr . inet_service; flags dynamic,timeout; size 8192; timeout 1m; }}
  map to_address {{ type inet_service : ipv4_addr; flags dynamic; size 8192; }}
  map to_port {{ type inet_service : inet_service; flags dynamic; size 8192; }}
  map said {{ type inet_service : ipv4_addr; size 8192; }}
  chain learning {{
    delete @to_address {{ udp dport : ip saddr }} delete @to_port {{ udp dport : udp sport }}
    add @to_address {{ udp dport : ip saddr }} add @to_port {{ udp dport : udp sport }}
    add @known {{ udp dport . ip saddr . udp sport }} add @settled {{ udp dport }}
  }}
  chain looking {{
    udp dport != @settled udp dport . ip saddr @window jump learning
    udp dport != @settled udp dport @wide jump learning
    udp dport . ip saddr . udp sport != @known update @elsewhere {{ udp dport . ip saddr . udp sport }}
    udp dport . ip saddr . udp sport @known ip saddr set udp dport map @said
  }}
  chain arriving {{
    type filter hook input priority 10
    ip daddr 127.0.0.1 udp dport @followed jump looking
  }}
  chain leaving {{
    type route hook output priority mangle
    ip saddr 127.0.0.1 udp sport {PORTS[0]}-{PORTS[-1]} ip daddr set udp sport map @to_address udp dport set udp sport map @to_port
  }}
}}
"""
NO_RULES = f"table ip {TABLE}\ndelete table ip {TABLE}\n"

# One of the gateway's ports: the telephone's address and port there, as its text says, and a name for the log.
Leg = collections.namedtuple("Leg", "port address to name")
# What was learnt by port, as pairs of address and port, and all places that packets came from besides.
Seen = collections.namedtuple("Seen", "learnt elsewhere")


def nft(text, *words):
    """What nft answers to a text. Raises Fault."""
    try:
        run = subprocess.run(["nft", *words, *([] if words else ["-f", "-"])], input=text, capture_output=True, text=True,
                             timeout=20, check=False)
    except (OSError, subprocess.TimeoutExpired) as fault:
        raise Fault(f"nft: {fault}") from None
    if run.returncode:
        said = run.stderr.strip().splitlines() or [f"it ended with {run.returncode}"]
        raise Fault(f"nft: {said[0]}")
    return run.stdout


def elements(octets):
    """The elements of each set and map by name, each a list of fields, of what `nft -j list table` writes."""
    try:
        objects = [it.get("set") or it.get("map") for it in json.loads(octets)["nftables"]]
        return {found["name"]: [list(fields_of(one)) for one in found.get("elem", [])] for found in objects if found}
    except (KeyError, TypeError, ValueError) as fault:
        raise Fault(f"nft's answer can't be read: {type(fault).__name__} {fault}") from None


def fields_of(element):
    """The fields of an element: of a map its key and its value, of a concatenation each part."""
    for part in element if isinstance(element, list) else [element]:
        while isinstance(part, dict) and "elem" in part:
            part = part["elem"]["val"]
        yield from part["concat"] if isinstance(part, dict) else [part]


def seen(found):
    """What elements say."""
    ports = dict(found.get("to_port", []))
    learnt = {port: (address, ports[port]) for port, address in found.get("to_address", []) if port in ports}
    elsewhere = collections.defaultdict(set)
    for port, *place in found.get("elsewhere", []):
        elsewhere[port].add(tuple(place))
    return Seen(learnt, elsewhere)


def element(name, word, fields, more=""):
    return f"{word} element ip {TABLE} {name} {{ {fields}{more} }}\n"


class Latch:
    """Follows the legs of calls. `log` is given a line where a telephone sends from another place than its text says, and
    where packets come from a place that isn't followed. `wide` learns from any address, and not from the text's alone.

    Changes are made by a thread of its own, together those that came meanwhile, so no call waits for nft."""

    def __init__(self, log, seconds=SECONDS, wide=False, run=nft):
        self.log, self.seconds, self.wide, self.run = log, seconds, wide, run
        self.changed, self.over = threading.Condition(), False
        # What waits to be done, by port: a leg to be followed, or None where its call is over; and what is followed now.
        self.waiting, self.legs, self.told = {}, {}, set()
        self.run(RULES)
        self.thread = threading.Thread(target=self.work, daemon=True)
        self.thread.start()

    def follow(self, legs):
        """An answer has been taken: each leg's first packet now says where its telephone is."""
        self.want({leg.port: leg for leg in legs})

    def leave(self, ports):
        """The call of these ports is over."""
        self.want(dict.fromkeys(ports))

    def want(self, legs):
        with self.changed:
            self.waiting.update(legs)
            self.changed.notify()

    def close(self):
        """Takes the rules away."""
        with self.changed:
            self.over = True
            self.changed.notify()
        self.thread.join(10)
        with contextlib.suppress(Fault):
            self.run(NO_RULES)

    def work(self):
        while True:
            with self.changed:
                if not self.waiting and not self.over:
                    self.changed.wait(LOOK)
                legs, self.waiting = self.waiting, {}
                if self.over:
                    return
            try:
                if legs:
                    self.change(legs)
                elif self.legs:
                    self.look(self.found())
            except Fault as fault:
                self.log(f"what telephones send from isn't learnt: {fault}")
                self.begin_anew(legs)

    def begin_anew(self, legs):
        """Loads the rules again, which somebody may have taken away, and wants all that was followed and `legs`, which
        couldn't be changed."""
        time.sleep(LOOK)
        with contextlib.suppress(Fault):
            self.run(RULES)
        wanted, self.legs, self.told = {**self.legs, **legs}, {}, set()
        with self.changed:
            self.waiting = {**wanted, **self.waiting}

    def found(self):
        return elements(self.run("", "-j", "list", "table", "ip", TABLE))

    def change(self, legs):
        """Begins anew at some ports, and follows those that a call has."""
        same = {port for port, leg in legs.items() if leg and self.legs.get(port) == leg}
        self.told = {(port, place) for port, place in self.told if port not in legs or place and port in same}
        for left in reversed(range(TRIES)):
            try:
                # While nothing is learnt there, no packet adds to what is read and taken away.
                self.run("".join(element("followed", word, port) for port in legs for word in ("add", "delete")))
                self.run(self.text(legs, same, self.found()))
                break
            except Fault:
                if not left:
                    raise
                time.sleep(0.05)
        self.legs.update(legs)
        self.legs = {port: leg for port, leg in self.legs.items() if leg}

    def text(self, legs, kept, found):
        """What is taken away and what is added. Where a leg's text says what it said, media go where they went until the
        next packet: a telephone that is held and sends nothing still hears."""
        text = "".join(element(name, "delete", one[0] if name.startswith("to_") else spelled(one))
                       for name in ("window", "wide", "settled", "known", "elsewhere", "to_address", "to_port")
                       for one in found[name]
                       if one[0] in legs and not (name.startswith("to_") and one[0] in kept))
        text += "".join(element("said", "delete", port) for port, _ in found["said"] if port in legs)
        return text + "".join(self.followed(leg) for leg in legs.values() if leg)

    def followed(self, leg):
        until = f" timeout {round(1000 * self.seconds)}ms"
        if not self.wide:
            return element("window", "add", spelled(leg[:2]), until) + element("followed", "add", leg.port)
        said = element("said", "add", f"{leg.port} : {leg.address}") if leg.port & 2 else ""
        return said + element("wide", "add", leg.port, until) + element("followed", "add", leg.port)

    def look(self, found):
        """Says what is new."""
        now = seen(found)
        for port, leg in self.legs.items():
            place, text = now.learnt.get(port), (leg.address, leg.to)
            # Of the ports of RTCP, which are odd, this would say the same once more.
            if place and place != text and port % 2 == 0:
                self.say(port, place, f"{leg.name} is at {shown(place)}, and not at {shown(text)} as its text says: media go there")
            strange = now.elsewhere.get(port, set()) - {place}
            if strange and place:
                self.say(port, None, f"{leg.name}: packets come from {shown(min(strange))}, too, and media go on to {shown(place)}")
            elif strange:
                self.say(port, None, f"{leg.name}: packets come from {shown(min(strange))}, which isn't learnt, and media go to "
                                     f"{shown(text)} as its text says")

    def say(self, port, place, line):
        if (port, place) not in self.told:
            self.told.add((port, place))
            self.log(line)


def spelled(fields):
    return " . ".join(map(str, fields))


def shown(place):
    return f"{place[0]}:{place[1]}"


# ---- the words

def port(text):
    if not text.isdigit() or not is_port(int(text)):
        raise argparse.ArgumentTypeError(f"{text} is none of the gateway's ports, {PORTS[0]} to {PORTS[-1]}")
    return int(text)


def words_of():
    parser = words.Parser(description="learns where telephones behind address translation send from")
    does = parser.add_subparsers(dest="does", required=True)
    for name, says in (("up", "loads the rules, anew where they are there"), ("down", "takes them away"),
                       ("show", "what was learnt, and which packets come from elsewhere")):
        does.add_parser(name, help=says)
    follow = does.add_parser("follow", help="learns at a port of the gateway for some seconds")
    follow.add_argument("port", type=port)
    follow.add_argument("address", type=ipaddress.IPv4Address, help="the telephone's address, as its text says")
    follow.add_argument("to", type=words.number(1, 65_535), help="and its port")
    follow.add_argument("--any", action="store_true", help="learns from any address")
    follow.add_argument("--seconds", type=words.seconds(0.1, 3_600), default=SECONDS, help=f"for so many seconds ({SECONDS:g})")
    does.add_parser("leave", help="forgets a port of the gateway").add_argument("port", type=port)
    return parser


def once(given, legs):
    """One change, without a thread."""
    latch = Latch.__new__(Latch)
    latch.seconds, latch.wide, latch.run = getattr(given, "seconds", SECONDS), getattr(given, "any", False), nft
    latch.legs, latch.told = {}, set()
    latch.change(legs)


def show():
    now = seen(elements(nft("", "-j", "list", "table", "ip", TABLE)))
    for number, place in sorted(now.learnt.items()):
        print(f"{number}: learnt, {shown(place)}")
    for number, places in sorted(now.elsewhere.items()):
        print(*(f"{number}: not followed, {shown(place)}" for place in sorted(places)), sep="\n")


def main():
    given = words_of().parse_args()
    try:
        if given.does in ("up", "down"):
            nft(RULES if given.does == "up" else NO_RULES)
        elif given.does == "show":
            show()
        elif given.does == "leave":
            once(given, {given.port: None})
        else:
            once(given, {given.port: Leg(given.port, str(given.address), given.to, f"port {given.port}")})
    except Fault as fault:
        print(f"latch: {fault}", file=sys.stderr)
        return 1
    return 0


if __name__ == "__main__":
    sys.exit(main())
