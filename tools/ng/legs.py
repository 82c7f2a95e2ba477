"""What a call of the SIP server's is at the gateway: one call between a side that encrypts and one that doesn't, or, of two
telephones that both encrypt, two calls that are joined.

Of a `Pair` each telephone has a call with keys of its own, and what its plain side is told is made here: an address where
nobody is. An offer goes through the call of the one who makes it where that one's text changes, and through the other
one's where its media begin or end; else that telephone is told of it past the gateway, and keeps its keys.
"""

import contextlib

from descriptions import KEYS, carried, parts
from driver import Gone, Refused, Unjoined
from ng.request import Bad, PROFILES
from ng.texts import printed, seen

FAR = {"secure": "plain", "plain": "secure", "first": "second", "second": "first"}
# The plain side of a joined call: an address of the loopback that no program is asked to have, and the port `discard`.
INSIDE, INSIDE_PORT = b"127.0.0.2", b"9"
UNSECURED = {b"RTP/SAVP": b"RTP/AVP", b"RTP/SAVPF": b"RTP/AVPF"}
NO_ROOM = "each of two telephones that encrypt takes one of the gateway's 256 calls, and one alone is left"


class Full(Bad):
    """This gateway takes no new call now; another one may."""


class Single:
    """A call between a side that encrypts and one that doesn't. Whether the latest answer was a sign of life of all that it
    has at the gateway says `renewed`."""

    renewed = True

    def __init__(self, driver, numbers):
        self.driver, self.number = driver, next(numbers)
        self.numbers = self.number,

    def offers(self, call, side, text):
        """The text for the other side."""
        return (self.driver.offer_secure if side == "secure" else self.driver.offer_plain)(self.number, text)

    def answers(self, call, side, text):
        """The text for the side that offered."""
        return self.driver.answer(self.number, text)

    def rejects(self):
        """The open offer comes to nothing."""
        self.driver.reject(self.number)

    def ends(self, is_live):
        with contextlib.suppress(Refused, Gone):  # It has ended by itself meanwhile, and is told so.
            (self.driver.bye if is_live else self.driver.reject)(self.number)

    def gives_sign(self, call):
        self.driver.offer_plain(self.number, call.said["plain"])
        self.driver.reject(self.number)

    def ports(self, medium):
        """The ports of a medium, each with its side."""
        return zip(self.driver.ports(self.number, medium), ("secure", "secure", "plain", "plain"))


class Leg:
    """One telephone's call with the gateway. `inside` is what its plain side said last, `asked` what it offers, and `given`
    the text for the telephone that offers, where its call has been answered and the other one's hasn't yet."""

    def __init__(self, number):
        self.number, self.live, self.open = number, False, False
        self.inside, self.asked, self.given = b"", b"", None


class Pair:
    """Two telephones that encrypt: who offered first, and the other one."""

    def __init__(self, driver, numbers):
        self.driver, self.by_side = driver, {"first": Leg(next(numbers)), "second": Leg(next(numbers))}
        self.legs = list(self.by_side.values())
        self.numbers, self.renewed = tuple(leg.number for leg in self.legs), True

    def offers(self, call, side, text):
        """The text for the other telephone."""
        near, far, told = self.by_side[side], self.by_side[FAR[side]], inside(text)
        if not near.live or seen(text) != seen(call.said[side]):
            self.driver.offer_secure(near.number, text)
            near.open, near.given = True, None
        if far.live and seen(told) == seen(far.inside):
            return carried(text, call.given[FAR[side]])
        try:
            given = self.driver.offer_plain(far.number, told)
        except Refused as refused:
            self.rejects()
            raise Full(NO_ROOM) if str(refused) == "TableFull" else refused
        far.open, far.asked = True, told
        return given

    def answers(self, call, side, text):
        """The text for the telephone that offered. Its own call is answered first: until it has that text it can't send, so
        nothing goes out in clear before the two are joined, which they are with the other one's answer."""
        near, far, told = self.by_side[FAR[side]], self.by_side[side], inside(text)
        if not far.open and seen(text) != seen(call.said[side]):
            raise Bad("the answer to an offer that went past this telephone's call changes its port, address or keys")
        if near.open and near.given is None:
            near.given, near.live, near.inside = self.driver.answer(near.number, told), True, told
        given = carried(text, near.given or call.given[FAR[side]])
        if far.open:
            self.answered(far, near, text)
        self.renewed = far.open
        near.open = far.open = False
        near.given = None
        return given

    def answered(self, far, near, text):
        try:
            self.driver.answer(far.number, text, joins=None if far.live else near.number)
        except Unjoined as fault:
            # What they opened would go out in clear.
            far.live = True
            self.ends(True)
            raise Bad(f"the calls of the two telephones can't be joined: call {fault.call} {fault}") from fault
        far.live, far.inside = True, far.asked

    def rejects(self):
        for leg in self.legs:
            if leg.open and leg.given is None:
                self.driver.reject(leg.number)
            leg.open, leg.given = False, None

    def ends(self, is_live):
        """Both at once, with no packet between. Of one that is gone the other one ends."""
        live = [leg.number for leg in self.legs if leg.live and leg.number in self.driver.slots]
        with contextlib.suppress(Refused, Gone):
            if live:
                self.driver.bye(*live)
        for leg in self.legs:
            with contextlib.suppress(Refused, Gone):
                if not leg.live and leg.number in self.driver.slots:
                    self.driver.reject(leg.number)

    def gives_sign(self, call):
        for leg in self.legs:
            self.driver.offer_plain(leg.number, leg.inside)
            self.driver.reject(leg.number)

    def ports(self, medium):
        for side, leg in self.by_side.items():
            yield from zip(self.driver.ports(leg.number, medium), (side, side, "inside", "inside"))


def inside(text):
    """What the plain side of a telephone's partner says: that text without its keys, at an address where nobody is. Media
    that aren't protected are idle."""
    told = []
    for part in parts(text):
        kept = [b"c=IN IP4 " + INSIDE if line.startswith(b"c=") else line for line in part if not line.startswith(KEYS)]
        words = kept[0].split(b" ") if kept else []
        if len(words) >= 4 and words[0].startswith(b"m="):
            is_active = words[1] != b"0" and PROFILES.get(words[2]) == "secure"
            kept[0] = b" ".join([words[0], INSIDE_PORT if is_active else b"0", UNSECURED.get(words[2], words[2]), *words[3:]])
        told.append(kept)
    return printed(told)
