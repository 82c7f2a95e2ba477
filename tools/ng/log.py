"""The daemon's log. Nothing waits for whoever reads it: a thread of its own writes, and what it can't write in time is
counted, and told as soon as there is room.
"""

import codecs
import contextlib
import json
import os
import queue
import re
import sys
import threading
import time

# So many lines wait at most. At the end they have so many seconds.
WAITING_MOST, ENDING = 4_096, 2.0
# How a line about a call begins, or about two that are joined.
CALL = re.compile(r"calls? (\d+)(?: and (\d+))? ")


def in_words(line):
    """A line for people."""
    return f"{time.strftime('%Y-%m-%d %H:%M:%S')} {line}\n"


def as_json(line):
    """A line for a program: its moment by UTC, its words, and the number of the call that it is about, with that of the one
    that it is joined with."""
    now = time.time()
    told = {"time": time.strftime("%Y-%m-%dT%H:%M:%S", time.gmtime(now)) + f".{int(now * 1000) % 1000:03}Z", "message": line}
    found = CALL.match(line)
    numbers = map(int, filter(None, found.groups())) if found else ()
    return json.dumps({**told, **dict(zip(("call", "joined"), numbers))}) + "\n"


SHAPES = {"text": in_words, "json": as_json}


class Log:
    """Lines on standard output, each with its moment. What its encoding can't spell stands there by its number."""

    def __init__(self, number=1, most=WAITING_MOST, shape=in_words):
        self.number, self.shape, self.lost, self.lock = number, shape, 0, threading.Lock()
        self.waiting = queue.Queue(most)
        self.encoding = encoding_of(sys.stdout)
        self.thread = threading.Thread(target=self.work, daemon=True)
        self.thread.start()

    def __call__(self, line):
        dated = self.shape(line)
        with self.lock:
            try:
                if self.lost:
                    self.waiting.put_nowait(self.spelled(self.shape(f"{self.lost} lines of this log are lost: nobody read it")))
                    self.lost = 0
                self.waiting.put_nowait(self.spelled(dated))
            except queue.Full:
                self.lost += 1

    def spelled(self, line):
        return line.encode(self.encoding, "backslashreplace")

    def close(self):
        """Waits until all is written, or some seconds."""
        with contextlib.suppress(queue.Full):
            self.waiting.put(None, timeout=ENDING)
            self.thread.join(ENDING)

    def work(self):
        for octets in iter(self.waiting.get, None):
            # One that can't be written ends no call.
            with contextlib.suppress(OSError):
                while octets:
                    octets = octets[os.write(self.number, octets):]


def encoding_of(file):
    """The encoding of a file, UTF-8 where it has none that is known."""
    with contextlib.suppress(LookupError, TypeError):
        return codecs.lookup(getattr(file, "encoding", None)).name
    return "utf-8"
