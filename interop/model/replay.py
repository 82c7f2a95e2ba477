"""What a replay of a script writes, and how it ends."""
from . import scripts
from .world import World


class Told:
    """What is written, by line of the script that it comes of; the status and the text of its end. Where a line needs
    octets that the system draws, what is told ends before it, and the status is None."""

    reader, world_of = scripts.Reader, World

    def __init__(self, script):
        self.by_line, self.status, self.said, self.world = [], 0, b"", self.world_of()
        lines = self.reader(script)
        try:
            for _, word, values in lines:
                self.by_line.append(self.told(word, *values))
        except scripts.Drawn:
            self.status = None
            return
        if lines.ended:
            self.status, self.said = 2, lines.ended
        else:
            self.follow(script[lines.at:], lines)

    def told(self, word, *values):
        return told(self.world, word, *values)

    def follow(self, rest, lines):
        """What comes behind the last line: nothing."""

    def octets(self):
        return "".join(line + "\n" for told in self.by_line for line in told).encode()


class Relayed(Told):
    """The same of a relay whose clock always reads one moment and to which nothing comes over the network: packets are sent
    and not written, a line's own moment isn't used, and a `tick` line can only be `tick 0`, whose turn brings nothing."""

    def __init__(self, script, now):
        self.first = now
        super().__init__(script)

    def told(self, word, *values):
        if word == "header":
            return self.world.signal("tick", self.first)
        if word == "tick":
            assert values == (0,), "a relay's wait"
            return []
        told = super().told(*(("in", *values[1:]) if word == "at" else (word, *values)))
        return [line for each in told for line in self.carried_out(each)]

    def carried_out(self, line):
        """What is written of an outcome: nothing of a packet, which is sent."""
        return [] if line.startswith("out ") else [line]


def told(world, word, *values):
    """The outcomes of a line."""
    if word == "header":
        return []
    if word == "at":
        moment, *datagram = values
        return world.signal("tick", moment) + [world.datagram(*datagram)]
    return [world.datagram(*values)] if word == "in" else world.signal(word, *values)
