"""What the system counts at the gateway's ports, and what the gateway tells of them: packets and octets by nftables' sets
(examples/network/srtpgw.nft), sockets by /proc/net/udp, calls and drops by lines of outcomes. Needs Python 3.8 alone.
"""

import collections
import json
import os

# The gateway's ports: sixteen a slot, four a medium, one a leg (docs/formats.md, "Ports").
SLOTS = 256
PORTS = range(20_000, 20_000 + 16 * SLOTS)
LEGS = ("secure RTP", "secure RTCP", "plain RTP", "plain RTCP")
# The octets of a packet that aren't its datagram's: nftables counts the IPv4 and UDP heads, too.
HEADS = 28

# The type of a set of places, by port.
PLACES = ["inet_service", "ipv4_addr", "inet_service"]

# `quiet` is for how many seconds no packet came, or None where the set has no time-out.
Count = collections.namedtuple("Count", "packets octets quiet")
Socket = collections.namedtuple("Socket", "waiting drops")
NOTHING = Count(0, 0, None)
# A leg of a medium of a call.
Leg = collections.namedtuple("Leg", "call medium name")


class Fault(Exception):
    """What was to be read can't be."""


def is_port(port):
    return port in PORTS


def port_of(slot, medium, leg):
    return PORTS.start + 16 * slot + 4 * medium + leg


def place_of(port):
    """The slot, the medium and the leg of one of the gateway's ports."""
    slot, rest = divmod(port - PORTS.start, 16)
    return slot, rest // 4, LEGS[rest % 4]


def counts(octets):
    """The sets by name, each by port, of what `nft -j list table ip srtpgw` writes: counters, or the places that packets
    came from or went to."""
    try:
        objects = json.loads(octets)["nftables"]
        found = [it["set"] for it in objects if "set" in it]
        return {one["name"]: places(one) if one["type"] == PLACES else dict(elements(one)) for one in found}
    except (KeyError, TypeError, ValueError) as fault:
        raise Fault(f"nft's answer can't be read: {type(fault).__name__} {fault}") from None


def elements(found):
    """The ports of a set with what was counted at each."""
    for element in found.get("elem", []):
        if isinstance(element, dict) and "counter" in element["elem"]:
            element = element["elem"]
            packets, octets = element["counter"]["packets"], element["counter"]["bytes"]
            quiet = None
            if "expires" in element:
                quiet = max(0, element.get("timeout", found.get("timeout", 0)) - element["expires"])
            yield element["val"], Count(packets, octets - HEADS * packets, quiet)


def places(found):
    """By port for how many seconds each place was quiet, as `ADDRESS:PORT`."""
    by_port = collections.defaultdict(dict)
    for element in found.get("elem", []):
        port, address, other = element["elem"]["val"]["concat"]
        by_port[port][f"{address}:{other}"] = max(0, found["timeout"] - element["elem"]["expires"])
    return dict(by_port)


def kept_by_host(table):
    """How many seconds of all processors the host of a virtual machine has kept from it, by /proc/stat; 0 where it has no
    such count."""
    fields = table.split("\n", 1)[0].split()
    return int(fields[8]) / os.sysconf("SC_CLK_TCK") if fields[:1] == ["cpu"] and len(fields) > 8 else 0.0


def sockets(text):
    """The sockets at the gateway's ports, by port, of /proc/net/udp: how many octets of its buffer waiting datagrams take,
    and how many datagrams the system threw away in front of it."""
    found = {}
    for line in text.splitlines()[1:]:
        fields = line.split()
        port = int(fields[1].split(":")[1], 16)
        if is_port(port):
            found[port] = Socket(int(fields[4].split(":")[1], 16), int(fields[-1]))
    return found


class Call:
    """A call of a slot. Moments are those at which its lines were read."""

    def __init__(self, number, slot, media, now):
        self.number, self.slot, self.media, self.made, self.live = number, slot, media, now, None
        self.drops, self.unsent, self.lost = (collections.Counter() for _ in range(3))
        # The number of the call that it is joined with.
        self.joined = None


class Calls:
    """What lines of outcomes tell: calls by slot, drops by leg and cause, refusals and ends, pairs of calls, and what was
    lost between two that are joined."""

    def __init__(self):
        self.by_slot, self.refused, self.ended = {}, collections.Counter(), collections.Counter()
        # Drops of all calls, also those that have ended, by leg and cause; ports without a call as `None`.
        self.drops, self.unsent, self.lost = (collections.Counter() for _ in range(3))
        self.made, self.unjoined = 0, collections.Counter()
        # Slots in which a call has ended since somebody looked.
        self.over = set()

    def take(self, line, now):
        """A line of outcomes. Lines that aren't outcomes are passed over: the log may end in the middle of one."""
        word, *fields = line.split()[:5] or [""]
        does = getattr(self, f"take_{word}", None)
        try:
            if does:
                does(now, *fields)
        except (TypeError, ValueError, IndexError):
            pass

    def take_srtpgw(self, now, version):
        """Another process begins: the calls of the one before have ended with it."""
        self.ended.update(["gone"] * len(self.by_slot))
        self.over.update(self.by_slot)
        self.by_slot.clear()

    def take_made(self, now, call, slot, media):
        self.by_slot[int(slot)] = Call(call, int(slot), int(media), now)
        self.made += 1

    def take_there(self, now, call, slot, media, state):
        """A log that was begun anew has the calls that are there. What is known of them goes on."""
        known = self.by_slot.get(int(slot))
        if known is None or known.number != call:
            self.by_slot[int(slot)] = known = Call(call, int(slot), int(media), now)
        if state == "live" and known.live is None:
            known.live = now

    def take_live(self, now, call):
        for one in self.by_slot.values():
            if one.number == call and one.live is None:
                one.live = now

    def take_ended(self, now, call, slot, media, why):
        self.by_slot.pop(int(slot), None)
        self.over.add(int(slot))
        self.ended[why] += 1

    def numbered(self, call):
        """The call of a number; None where it isn't there."""
        return next((one for one in self.by_slot.values() if one.number == call), None)

    def take_joined(self, now, first, second):
        for call, other in ((first, second), (second, first)):
            one = self.numbered(call)
            if one:
                one.joined = other

    def take_parted(self, now, first, second):
        for call in filter(None, map(self.numbered, (first, second))):
            call.joined = None

    def take_unjoined(self, now, call, cause, *numbers):
        self.unjoined[cause] += 1

    def take_lost(self, now, port, cause, *numbers):
        self.tell(self.lost, "lost", int(port), cause)

    def take_refused(self, now, call, cause, *numbers):
        self.refused[" ".join([cause, *(word for word in numbers if not word.lstrip("-").isdigit())])] += 1

    def take_drop(self, now, port, cause, *numbers):
        self.tell(self.drops, "drops", int(port), cause)

    def take_unsent(self, now, port, address):
        self.tell(self.unsent, "unsent", int(port), None)

    def tell(self, all_of_them, name, port, cause):
        slot, medium, leg = place_of(port) if is_port(port) else (None, None, None)
        all_of_them[(leg, cause) if cause else leg] += 1
        call = self.by_slot.get(slot)
        if call:
            getattr(call, name)[(medium, leg, cause) if cause else (medium, leg)] += 1
