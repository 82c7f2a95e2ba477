"""What becomes of a script of version 1 by `migrate`: the same in version 2."""
from . import scripts


class Reader(scripts.Reader):
    """The lines of version 1 alone: the header of the other one is a fault."""

    def accept(self, word, *values):
        if (word, *values) == ("header", 2):
            raise scripts.Fault("Version")


class Told:
    """What is written, by line of the script; the status and the text of its end."""

    def __init__(self, script):
        self.by_line, self.moment = [], 0
        lines = Reader(script)
        for line, word, values in lines:
            self.by_line.append(self.migrated(line, word, values))
        self.status, self.said = (2, lines.ended) if lines.ended else (0, b"")

    def migrated(self, line, word, values):
        """Before each datagram's port stands the greatest moment of the ticks before it."""
        if word == "header":
            return b"srtpgw 2\n"
        if word == "tick":
            self.moment = max(self.moment, *values)
        if word == "in":
            _, fields = line.split(b" ", 1)
            return b"in %d " % self.moment + fields
        return line

    def octets(self):
        return b"".join(self.by_line)
