"""A log of outcomes that may be moved away while it is written, and that has a bound of size.

    log = OutcomeLog("/var/log/srtpgw/outcomes.log")
    driver = Driver("./srtpgw", log=log)
    log.begin_anew()          # behind a rename, as logrotate has it done

What a file has from before goes at the first line: until then another gateway may have the ports, and write there. A log that
was begun anew has a line `there CALL SLOT MEDIA STATE` for each call that is there, and `joined CALL CALL` for each pair, and
then goes on, so whoever reads it from its beginning knows the calls (tools/watch.py). Needs Python 3.8 alone.
"""

import contextlib
import logging
import os
import threading

# Where it has so many octets it is moved to `PATH.1`, in the place of the one before.
OCTETS_MOST = 256 << 20


class OutcomeLog:
    """A file of octets, begun anew. `warn` is told once where it can't be moved: it is cut then."""

    def __init__(self, path, most=OCTETS_MOST, warn=logging.getLogger("srtpgw").warning):
        self.path, self.most, self.warn, self.lock = path, most, warn, threading.Lock()
        self.file, self.octets, self.is_begun, self.has_warned = self._opened(), 0, False, False
        # The slot, the number of media and the state of each call that is there; and the pairs.
        self.there, self.pairs = {}, set()

    def write(self, line):
        """Takes a whole line of outcomes."""
        with self.lock:
            if not self.is_begun:
                self._begin()
            self._keep(line.split())
            self._put(line)
            if self.octets > self.most:
                self._move()

    def flush(self):
        """Each line is written at once."""

    def begin_anew(self):
        """Goes on in another file of the same name. Raises OSError where it can't be made, and goes on in the old one."""
        with self.lock:
            self._open_another()
            self._begin()

    def _move(self):
        """Has the full file stand aside. One that can't is cut."""
        try:
            os.replace(self.path, f"{self.path}.1")
            self._open_another()
        except OSError as fault:
            if not self.has_warned:
                self.warn(f"the log of outcomes is full and can't be moved, so it is cut: {fault}")
            self.has_warned = True
        self._begin()

    def _open_another(self):
        before, self.file = self.file, self._opened()
        before.close()

    def _begin(self):
        """Begins the file with the calls that are there."""
        self.is_begun, self.octets = True, 0
        # Of a pipe nothing can be cut.
        with contextlib.suppress(OSError):
            self.file.truncate(0)
        for call, (slot, media, state) in self.there.items():
            self._put(b"there %b %b %b %b\n" % (call, slot, media, state))
        for pair in sorted(self.pairs):
            self._put(b"joined %b %b\n" % pair)

    def _opened(self):
        return open(self.path, "ab", buffering=0)

    def _put(self, line):
        self.octets += len(line)
        self.file.write(line)

    def _keep(self, fields):
        word, *rest = fields or [b""]
        if word == b"srtpgw":
            self.there.clear(), self.pairs.clear()
        elif word == b"joined":
            self.pairs.add(tuple(rest))
        elif word == b"parted":
            self.pairs.discard(tuple(rest))
        elif word == b"made":
            self.there[rest[0]] = (*rest[1:3], b"offered")
        elif word == b"live" and rest[0] in self.there:
            self.there[rest[0]] = (*self.there[rest[0]][:2], b"live")
        elif word == b"ended":
            self.there.pop(rest[0], None)
