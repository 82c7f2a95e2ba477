"""Calls that are joined in pairs, so that what is opened in the one is sealed in the other: what a bridge tells, and a
relay that joins calls."""
from srtp import RTCP, RTP

from . import replay, scripts
from .world import World as Apart


class Unjoined(Exception):
    """Why calls aren't joined, or a call isn't parted: the call, and the cause."""


class World(Apart):
    """`joined` has each call that is joined, with its pair in the order in which it was joined."""

    def __init__(self):
        super().__init__()
        self.joined = {}

    # ---- signals and pairs

    def signal(self, word, *values):
        try:
            told = super().signal(word, *values)
        except Unjoined as fault:
            call, cause = fault.args
            return [f"unjoined {call} {cause}"]
        return [line for each in told for line in [each] + self.parted_by(each)]

    def parted_by(self, told):
        """That a pair is parted, where the outcome is the end of one of its calls."""
        kind, number, *_ = told.split(" ")
        return self.parted(int(number)) if kind == "ended" and int(number) in self.joined else []

    def parted(self, number):
        first, second = self.joined[number]
        del self.joined[first], self.joined[second]
        return [f"parted {first} {second}"]

    def take_join(self, first, second):
        calls = [self.call(first), self.call(second)]
        for number, call in zip((first, second), calls):
            if not call:
                raise Unjoined(number, "CallUnknown")
        if first == second:
            raise Unjoined(first, "Same")
        for call in calls:
            if call.paths is None:
                raise Unjoined(call.number, "Unready")
        for call in calls:
            if call.number in self.joined:
                raise Unjoined(call.number, f"Joined {self.other(call.number)}")
        if calls[0].media != calls[1].media:
            raise Unjoined(first, "MediaCount")
        self.joined[first] = self.joined[second] = first, second
        return [f"joined {first} {second}"]

    def take_part(self, number):
        if not self.call(number):
            raise Unjoined(number, "CallUnknown")
        if number not in self.joined:
            raise Unjoined(number, "NotJoined")
        return self.parted(number)

    def other(self, number):
        first, second = self.joined[number]
        return second if number == first else first

    # ---- datagrams

    def onward(self, port):
        """For a plain port of a joined call the one of the same medium and kind of the other call, else None."""
        slot, place = divmod(port - 20000, 16)
        call = self.slots.get(slot)
        if not call or call.number not in self.joined or place % 4 < 2 or place // 4 >= call.media:
            return None
        return 20000 + 16 * self.call(self.other(call.number)).slot + place

    def plain_of(self, port):
        """The plain address of the session of the current generation at a plain port, or None."""
        slot, place = divmod(port - 20000, 16)
        path = self.slots[slot].paths.get(place // 4)
        if not path or ("open", (RTP, RTCP)[place % 2]) not in path.sessions:
            return None
        host, to = path.plain
        return host, to + place % 2

    def datagram(self, port, source, octets):
        if self.onward(port):
            return f"drop {port} PortUnused"
        told = super().datagram(port, source, octets)
        kind, out, *rest = told.split(" ")
        onward = self.onward(int(out)) if kind == "out" else None
        if onward is None:
            return told
        inner = self.plain_of(onward)
        if inner is None:
            return f"lost {onward} PortUnused"
        packet = bytes.fromhex(rest[1])
        return super().datagram(onward, inner, packet).replace("drop", "lost", 1)


class Lines(scripts.Reader):
    """The lines of a script, among which calls are joined and parted."""

    has_pairs = True


class Told(replay.Told):
    reader, world_of = Lines, World


class Relayed(replay.Relayed):
    reader, world_of = Lines, World
