"""Keeps one gateway process: lines go in, outcomes come out, and ticks keep it going between them.

    gateway = Gateway("./srtpgw")                                  # starts the program
    gateway = Gateway(Fifos("/run/srtpgw/lines", "/run/srtpgw/outcomes"))    # takes one that a unit keeps
    gateway.tell("bye", "7")
    print(gateway.next())                                          # ['refused', '7', 'CallUnknown']
    status = gateway.close()

driver.py keeps calls over it. Needs Python 3.8, Linux, and nothing else. docs/driving.md says what this file does and why.
"""

import collections
import contextlib
import errno
import os
import queue
import resource
import select
import signal
import socket
import subprocess
import threading
import time
from pathlib import Path

from counters import PORTS, kept_by_host, sockets

STATUSES = {
    0: "done", 1: "usage", 2: "script", 3: "read", 4: "write", 5: "link", 6: "no memory", 7: "clock",
    8: "noise", 9: "turns spent", None: "ended",
}
HOST = "127.0.0.1"
# The files that a full table has open: four ports for each of 1,024 media, and a few.
FILES_MOST = 4_200
TURNS_MOST = 1_000_000_000
# A call that is never there. What is told of it says that the tick before it is over.
PROBE = 2**32 - 1
PROBED = f"refused {PROBE} CallUnknown\n".encode()
# For so many seconds an answer to a probe counts for the start of the gateway's clock, and so many are between two probes.
WINDOW, PROBING = 30.0, 0.1
# The seconds of a step, and of one while signals come or are likely to, which is until so long after the latest. Where
# more probes than that have no answer, the gateway has enough to do, and each tick more would only take a turn: so the
# steps are longer by as much.
STEP, SHORT_STEP, LINGERING, BEHIND = 0.02, 0.005, 1.0, 4
# So much of what it says on standard error is kept.
SAID_MOST = 4_096
# How long a turn without a datagram takes at least.
TURN = 0.004
# How long a process that was asked to end may take.
ENDING = 10.0
# What a terminal, or a unit's `systemctl kill`, sends to all processes at once. It is for the driver, which ends the
# gateway by the end of its input, or by SIGKILL.
WITHHELD = (signal.SIGHUP, signal.SIGINT, signal.SIGQUIT, signal.SIGTERM, signal.SIGUSR1, signal.SIGUSR2)


class Gone(Exception):
    """The gateway's process has ended. `status` is its number, None where that isn't known, and below 0 where a signal
    of the system ended it; `said` is what it said on standard error."""

    def __init__(self, status, said):
        ended = f"ended by signal {-status}" if status is not None and status < 0 else STATUSES.get(status, "unknown")
        super().__init__(": ".join(filter(None, [f"{ended} ({status})", said])))
        self.status, self.said = status, said


class Taken(Exception):
    """Another program has UDP ports of the gateway's, `ports`. The gateway would end at the call that needs one."""

    def __init__(self, ports):
        super().__init__(f"another program has UDP port {', '.join(map(str, ports))} of {HOST}")
        self.ports = ports


def taken_ports(ports=PORTS):
    """Those of the gateway's ports that can't be bound."""
    return [port for port in ports if not can_bind(port)]


def can_bind(port):
    with socket.socket(socket.AF_INET, socket.SOCK_DGRAM) as end:
        try:
            end.bind((HOST, port))
        except OSError as fault:
            return fault.errno != errno.EADDRINUSE
    return True


class Program:
    """Starts the gateway. `program` is its path, or a list of words to stand before `relay`. Where it `muxes`, RTP and
    RTCP may share a port towards a side that offers it; where it `bridges`, calls may be joined. It can't do both."""

    def __init__(self, program, turns=TURNS_MOST, muxes=False, bridges=False):
        if muxes and bridges:
            raise ValueError("a relay has shared ports (--mux) or joined calls (--bridge), and not both")
        words = program if isinstance(program, (list, tuple)) else [program]
        options = ["--mux"] * muxes + ["--bridge"] * bridges
        self.words, self.turns, self.bridges = [*map(str, words), "relay", "--turns", str(turns), *options], turns, bridges

    def open(self, patience):
        """A new process. Raises Taken where another program has one of its ports."""
        taken = taken_ports()
        if taken:
            raise Taken(taken)
        return Started(self.words)


class Started:
    """A process of this program's own, in a session of its own, to which signals that are for the driver don't come; it
    ends when its input does."""

    def __init__(self, words):
        # In memory: a full disk is no fault of a gateway.
        self.errors = os.fdopen(os.memfd_create("srtpgw-errors"), "w+b", buffering=0)
        with withheld(WITHHELD):
            self.process = subprocess.Popen(
                words, stdin=subprocess.PIPE, stdout=subprocess.PIPE, stderr=self.errors, start_new_session=True)
        self.lines, self.outcomes, self.pid = self.process.stdin, self.process.stdout, self.process.pid
        self.files = raised_files(self.pid)

    def kill(self):
        """Ends it at once, with what it has started itself."""
        if self.process.poll() is None:
            with contextlib.suppress(ProcessLookupError):
                os.killpg(self.pid, signal.SIGKILL)

    def end(self):
        """Waits for its end: its status, and what it said."""
        try:
            status = self.process.wait(ENDING)
        except subprocess.TimeoutExpired:
            self.kill()
            status = self.process.wait()
        with contextlib.suppress(OSError, ValueError):
            self.lines.close()
        with self.errors, self.outcomes:
            self.errors.seek(max(0, os.fstat(self.errors.fileno()).st_size - SAID_MOST))
            return status, self.errors.read().decode(errors="replace").strip()


class Fifos:
    """A gateway that somebody else keeps (docs/srtpgw.service): it reads its lines from one FIFO and writes outcomes to
    another. `turns` is what it was started with, and `bridges` whether it has `--bridge`."""

    def __init__(self, lines, outcomes, turns=TURNS_MOST, bridges=False):
        self.paths, self.turns, self.bridges = (lines, outcomes), turns, bridges

    def open(self, patience):
        """Its two FIFOs, once it has opened the first. Raises Gone where none does in time."""
        lines, until = None, time.monotonic() + patience
        while lines is None:
            try:
                lines = os.open(self.paths[0], os.O_WRONLY | os.O_NONBLOCK)
            except OSError as fault:
                # No reader yet, or no FIFO.
                if fault.errno not in (errno.ENXIO, errno.ENOENT) or time.monotonic() > until:
                    raise Gone(None, f"{self.paths[0]}: {fault.strerror}") from fault
                time.sleep(0.05)
        try:
            # The gateway opens this one only behind the other, so there is nothing to wait for here.
            outcomes = os.open(self.paths[1], os.O_RDONLY | os.O_NONBLOCK)
        except OSError:
            os.close(lines)
            raise
        for end in (lines, outcomes):
            os.set_blocking(end, True)
        return Opened(lines, outcomes)


class Opened:
    """The two FIFOs of a process that isn't this program's."""

    pid, files = None, None

    def __init__(self, lines, outcomes):
        self.lines, self.outcomes = os.fdopen(lines, "wb"), Held(outcomes)

    def kill(self):
        """It ends by itself at its next outcome, which nobody reads."""
        self.outcomes.stop()

    def end(self):
        self.kill()
        with contextlib.suppress(OSError, ValueError):
            self.lines.close()
        return None, "its outcomes have ended"


class Held:
    """The lines of a FIFO until its writer has gone. Before a writer has come it would read as ended."""

    def __init__(self, number):
        self.number, self.over = number, threading.Event()

    def __iter__(self):
        rest, poll = b"", select.poll()
        poll.register(self.number, select.POLLIN)
        while not self.over.is_set():
            if poll.poll(100):
                octets = os.read(self.number, 65_536)
                if not octets:
                    break
                *lines, rest = (rest + octets).split(b"\n")
                yield from (line + b"\n" for line in lines)
        os.close(self.number)

    def stop(self):
        self.over.set()


@contextlib.contextmanager
def withheld(numbers):
    """Signals that don't come to this thread, nor ever to a process that it starts here."""
    before = signal.pthread_sigmask(signal.SIG_BLOCK, numbers)
    try:
        yield
    finally:
        signal.pthread_sigmask(signal.SIG_SETMASK, before)


def raised_files(pid):
    """Has a process open as many files as it may at all; how many, or None where that isn't known or isn't bounded."""
    with contextlib.suppress(ProcessLookupError, PermissionError):
        most = resource.prlimit(pid, resource.RLIMIT_NOFILE)[1]
        resource.prlimit(pid, resource.RLIMIT_NOFILE, (most, most))
        return None if most == resource.RLIM_INFINITY else most
    return None


class Due:
    """When something is due, by the clock that the gateway waits by."""

    def __init__(self, moment):
        self.moment, self.written = moment, time.monotonic()

    def late(self):
        """By how many seconds it is late. A clock that was set doesn't make it so: where it was set back the gateway
        itself waits, and where it was set forward nothing has waited longer than since it was written."""
        return max(0.0, min(time.time() - self.moment, time.monotonic() - self.written))


class Gateway:
    """One process of `srtpgw relay`. `program` is a path, a `Program` or `Fifos`.

    A tick is written each `step` seconds and reaches two steps ahead, so a signal waits as long at most; the media
    don't wait. As soon as a signal waits, until a second behind the latest, and while `expects` answers that one may
    come, steps are short. Behind a tick stands a probe, ten times a second or more often, whose answer says where the
    gateway's clock began. `patience` is how many seconds the first answer may take, behind which the process is
    ended. `outcomes` is a queue of its lines, each a list of fields, and `octets` counts what was written to it.
    `late` has by how many seconds the latest answer to a probe was late, and `worst` the most of it, and of gaps
    between ticks, since it was set to 0. `log` is a file of octets that gets `srtpgw 1` where a process begins, and
    each outcome but for session descriptions, which hold keys (tools/watch.py reads it). Raises Gone where it doesn't
    answer, and Taken where another program has its ports."""

    def __init__(self, program, step=STEP, patience=60.0, log=None, expects=lambda: False):
        opener = program if hasattr(program, "open") else Program(program)
        self.step, self.turns, self.log, self.expects = step, opener.turns, log, expects
        self.outcomes, self.gone, self.why = queue.Queue(), None, None
        self.octets, self.ticks, self.late, self.worst = 0, 0, 0.0, 0.0
        # When it last told of anything but a datagram.
        self.heard = time.monotonic()
        # Under the lock lines are written, and the length of a tick is decided together with its line: a long one that was
        # decided before a signal is never written behind it.
        self.lock, self.answered, self.ending = threading.Lock(), threading.Event(), threading.Event()
        # Wakes the thread that writes ticks, and until when its steps are short.
        self.wakes, self.hurried = threading.Event(), 0.0
        # Ticks that were written and aren't answered, with when they are due; the starts of its clock that answers tell of,
        # each with its moment, but those that a later one undercuts; the earliest; the tick that reaches farthest.
        self.probes, self.starts = collections.deque(), collections.deque()
        self.began, self.last = time.time(), 0
        # When this process was begun, whatever answers tell of its clock.
        self.started = self.began
        self.ends = opener.open(patience)
        self.pid, self.files = self.ends.pid, self.ends.files
        self.reader = threading.Thread(target=self._read, daemon=True)
        self.ticker = threading.Thread(target=self._tick, daemon=True)
        self._copy(b"srtpgw 1\n")
        self.reader.start()
        self._probe("srtpgw 1")
        self.answered.wait(patience)
        if not self.starts:
            self.end(f"it didn't answer within {patience:g} s")
            self.reader.join(ENDING)
            raise self.gone or Gone(None, self.why)
        # That the first answer came late is no concern of the calls.
        self.ready, self.taken, self.worst = time.monotonic(), self._datagrams(), 0.0
        self.ticker.start()

    def tell(self, *fields):
        """Hands on a signal line. Its outcomes follow in the queue. Raises ValueError, and writes nothing, where a
        field isn't of printing characters: it would be another line, and might end the run."""
        self.tell_all([fields])

    def tell_all(self, lines):
        """The same of lines between which no tick is to stand, so that no packet is taken there."""
        for field in (field for line in lines for field in line):
            if not field or not all("!" <= letter <= "~" for letter in field):
                raise ValueError(f"no field of a line: {field!r}")
        with self.lock:
            self._write("\n".join(" ".join(line) for line in lines))
            hurried, self.hurried = self._hurries(), time.monotonic() + LINGERING
        if not hurried:
            self.wakes.set()

    def next(self, timeout=5.0):
        """The next outcome, a list of fields. Raises Gone where the process has ended, and queue.Empty where none comes
        in time."""
        fields = self.outcomes.get(timeout=timeout)
        if fields is None:
            self.outcomes.put(None)
            raise self.gone
        return fields

    def close(self):
        """Ends the script, and with it the run. Answers the status, 0 where all was handled, once all that it told
        stands in `outcomes`."""
        self.ending.set()
        self.wakes.set()
        self.ticker.join(ENDING)
        if not self.ticker.is_alive():
            # Else it waits to write into a pipe that nobody reads.
            with self.lock, contextlib.suppress(OSError, ValueError):
                self.ends.lines.close()
        self.reader.join(ENDING)
        if self.gone is None:
            self.end("it didn't end with its input")
            self.reader.join(ENDING)
        return self.gone.status if self.gone else None

    def end(self, why):
        """Ends a process that can't be gone on with: `Gone` says why."""
        self.why = self.why or why
        self.ending.set()
        self.wakes.set()
        self.ends.kill()

    def due(self):
        """When what is told now is due: behind the ticks that are written."""
        return Due(self.began + self.last / 1000)

    def waited(self):
        """By how many seconds the oldest answer to a probe is late, or for how many no line was answered. A gateway that has
        much to do answers one line behind another."""
        with contextlib.suppress(IndexError):
            return min(self.probes[0][1].late(), time.monotonic() - self.heard)
        return 0.0

    def turns_taken(self):
        """How many turns it has taken, at most: one for each datagram that it and other programs of its network
        namespace took, one for each 4 ms without one, and one for each tick."""
        idle = (time.monotonic() - self.ready) / TURN
        return self._datagrams() - self.taken + round(idle) + self.ticks

    def sockets(self):
        """What waits in each socket of the gateway's, and what the system threw away in front of it, by port."""
        return sockets(_network(self.pid, "udp"))

    def kept_by_host(self):
        """How many seconds of all processors the host of a virtual machine has kept from it."""
        return kept_by_host(_text("/proc/stat"))

    def never_waits(self):
        """Whether its standard input was opened so that a read never waits: it would ask again each millisecond."""
        try:
            flags = Path(f"/proc/{self.pid}/fdinfo/0").read_text().split("flags:")[1].split()[0]
        except (OSError, IndexError):
            return False
        return bool(int(flags, 8) & os.O_NONBLOCK)

    def _write(self, text):
        octets = text.encode() + b"\n"
        with contextlib.suppress(OSError, ValueError):
            # Else the process has ended: `next` tells its status.
            self.octets += len(octets)
            self.ends.lines.write(octets)
            self.ends.lines.flush()

    def _probe(self, line):
        self.probes.append((self.last, self.due()))
        self.probed = time.monotonic()
        self._write(f"{line}\nbye {PROBE}")

    def _hurries(self):
        """Whether a signal waits, or may come soon."""
        return time.monotonic() < self.hurried or self.expects()

    def _read(self):
        for line in self.ends.outcomes:
            if not line.startswith((b"drop ", b"unsent ", b"lost ")):
                self.heard = time.monotonic()
            if line == PROBED:
                if not self.probes:
                    self.end("an answer to a probe that wasn't written")
                    break
                self._learn()
            # A run that fails may end in the middle of a line, which would read as another one.
            elif line.endswith(b"\n"):
                self._copy(line)
                self.outcomes.put(line.decode("ascii", "replace").split())
        status, said = self.ends.end()
        self.gone = Gone(status, "; ".join(filter(None, (self.why, said))))
        self.ending.set()
        self.outcomes.put(None)
        self.answered.set()

    def _copy(self, line):
        if self.log and not line.startswith(b"sdp "):
            with contextlib.suppress(OSError, ValueError):
                # A log that can't be written ends no call.
                self.log.write(line)
                self.log.flush()

    def _learn(self):
        """The answer behind `tick N` comes N milliseconds after the gateway's first reading of its clock, or later. So
        of several the earliest start is the nearest. Behind a stall many are late, and would have ticks come late."""
        number, due = self.probes.popleft()
        now, start = time.monotonic(), time.time() - number / 1000
        while self.starts and self.starts[-1][1] >= start:
            self.starts.pop()
        self.starts.append((now, start))
        while self.starts[0][0] < now - WINDOW:
            self.starts.popleft()
        self.began = self.starts[0][1]
        self.late = due.late()
        self.worst = max(self.worst, self.late)
        self.answered.set()

    def _tick(self):
        while not self.ending.is_set():
            with self.lock:
                step = self._write_tick()
            before = self.due()
            self.wakes.wait(step)
            self.wakes.clear()
            # Where this thread itself comes late, no tick was there for a time.
            self.worst = max(self.worst, before.late())

    def _write_tick(self):
        """Writes the next tick, where the one under way doesn't reach as far: how long its step is."""
        hurries = self._hurries()
        short = SHORT_STEP * (BEHIND if len(self.probes) > BEHIND else 1)
        step = min(self.step, short) if hurries else self.step
        # By the clock that the gateway reads: after a jump of a steadier one its ticks would be over at once.
        ahead = round((time.time() - self.began + 2 * step) * 1000)
        # Where the clock was set back, or steps have become short, the tick under way goes on until it is caught up.
        if ahead > self.last:
            self.last, line = ahead, f"tick {ahead}"
            if hurries or time.monotonic() >= self.probed + PROBING:
                self._probe(line)
            else:
                self._write(line)
            self.ticks += 1
        return step

    def _datagrams(self):
        values = [line.split() for line in _network(self.pid, "snmp").splitlines() if line.startswith("Udp:")]
        return int(dict(zip(*values))["InDatagrams"]) if values else 0


def _network(pid, table):
    """A table of the network namespace of a process, or of this one's."""
    return _text(f"/proc/{pid or 'self'}/net/{table}")


def _text(path):
    """A file of the system's, or nothing where it can't be read."""
    try:
        return Path(path).read_text()
    except OSError:
        return ""
