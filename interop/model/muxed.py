"""Legs whose RTP and RTCP share a port (RFC 5761): a world of which such legs are told, and a replay with `--mux`."""
import re

from . import replay
from .texts import Description, Refused
from .world import World as Unmuxed

LINE = b"a=rtcp-mux"
REPORTS = range(192, 224)
SIDES = "secure", "plain"


def leg_of(port):
    """The slot, the medium and the side of a port of the gateway, and whether it is one of RTCP."""
    slot, place = divmod(port - 20000, 16)
    return slot, place // 4, SIDES[place % 4 // 2], place % 2 == 1


def with_lines(text, media):
    """The text with the line last in each of these media."""
    parts = re.split(rb"^(?=m=)", text, flags=re.MULTILINE)
    return b"".join(part + (LINE + b"\r\n" if place - 1 in media else b"") for place, part in enumerate(parts))


class World(Unmuxed):
    """`marked` has, by call, the media that have the line in the offer that was accepted last; `legs` the legs that are
    muxed, each as its slot, its medium and its side."""

    def __init__(self):
        super().__init__()
        self.marked, self.legs = {}, set()

    # ---- signals

    def signal(self, word, *values):
        return [self.followed(word, values, line) for line in super().signal(word, *values)]

    def followed(self, word, values, line):
        """Takes in an outcome of a signal; the outcome as it is told."""
        kind, *fields = line.split(" ")
        if kind in ("made", "ended"):
            self.forget(int(fields[1]))
        if kind != "sdp":
            return line
        number, side, text = int(fields[0]), fields[1], bytes.fromhex(fields[2])
        if word != "answer":
            offer = Description(values[-1], "plain" if side == "secure" else "secure")
            self.marked[number] = {place for place, medium in enumerate(offer.media) if LINE in medium.lines}
            return line
        return f"sdp {number} {side} {with_lines(text, self.settled(number, side, text)).hex()}"

    def forget(self, slot):
        self.legs = {leg for leg in self.legs if leg[0] != slot}

    def settled(self, number, side, text):
        """The media that an answer muxes on the side that offered, whose text this is. Those of before end."""
        slot = self.call(number).slot
        self.forget(slot)
        try:
            media = Description(text, side).media
        except Refused:
            return set()
        muxed = {place for place, medium in enumerate(media) if medium.port != 0} & self.marked[number]
        self.legs |= {(slot, place, side) for place in muxed}
        return muxed

    # ---- datagrams

    def arriving(self, port, octets):
        """The port that a datagram has come to: RTCP at an RTP port that is shared has come to the one of RTCP."""
        *leg, is_rtcp = leg_of(port)
        is_report = len(octets) > 1 and octets[1] in REPORTS
        return port + 1 if tuple(leg) in self.legs and not is_rtcp and is_report else port

    def leaving(self, port, host, to):
        """By which port a packet leaves that the gateway puts out, and where it goes."""
        *leg, is_rtcp = leg_of(port)
        return (port - 1, host, to - 1) if tuple(leg) in self.legs and is_rtcp and to else (port, host, to)

    def put_out(self, port, source, octets):
        out = super().put_out(self.arriving(port, octets), source, octets)
        _, port, address, packet = out.split(" ")
        host, to = address.split(":")
        return "out {} {}:{} {}".format(*self.leaving(int(port), host, int(to)), packet)


class Told(replay.Told):
    world_of = World


class Relayed(replay.Relayed):
    world_of = World
