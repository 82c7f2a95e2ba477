"""Has tools/latch.py follow the media of the calls that are live: behind each answer its legs learn anew."""

from descriptions import parts
from latch import Leg
from ng.texts import CONNECTION

KINDS = ("RTP", "RTCP")


class Following:
    """`settled` and `left` of a `Book`, for a `Latch`."""

    def __init__(self, latch):
        self.latch = latch

    def settled(self, call):
        legs = {leg.port: leg for leg in legs_of(call)}
        self.latch.leave([port for port in call.ports if port not in legs])
        self.latch.follow(legs.values())

    def left(self, call):
        self.latch.leave(call.ports)


def legs_of(call):
    """The legs of a call with the address and the port that their telephones' texts say."""
    for port, (medium, side, kind) in call.ports.items():
        session, *media = parts(call.said.get(side, b""))
        place = place_of(media[medium], session) if medium < len(media) else None
        if place:
            yield Leg(port, place[0], place[1] + KINDS.index(kind), f"{call.name()}: {side} {kind} of medium {medium}")


def place_of(part, session):
    """Where the telephone takes a medium; None of one that isn't active."""
    words = part[0].split(b" ")
    address = next((match[1] for match in map(CONNECTION.fullmatch, part + session) if match), b"")
    if not address or len(words) < 2 or not words[1].isdigit() or int(words[1]) == 0:
        return None
    return address.decode(), int(words[1])
