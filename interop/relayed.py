#!/usr/bin/env python3
"""Plays scripts of both versions by the program's `relay` and compares what is written with the model's: what a line's
moment is, a relay doesn't ask.

    interop/relayed.py PROGRAM [COUNT [SEED [COMMAND]]]

The scripts are rows without ticks, each in the version that it is of, and those of version 1 in version 2 with moments
that go on, go back and are the last ones of all; and rows by `relay --mux` and `relay --bridge`. Nothing comes over the
network to these.

Then so many scripts of the grammar of `mixed.py` are played live, by `relay`, `relay --mux` and `relay --bridge` in turn, or
by the one COMMAND of these: half of their datagrams come over the loopback, and each tick is a reading of the clock, which
`held_clock.c` holds. Each datagram is handled before the next one comes, so what must be written, and what must reach each
telephone's port, is the model's to the octet, at every moment. Behind them come as many scripts of `hostile.py`, cut and
changed, without their ticks. One with a difference is kept as `relayed-NUMBER.script`, where what came over the loopback
has the lines of version 2. This needs a network of its own, and a C compiler.
"""
import mmap
import os
import select
import socket
import subprocess
import sys
import tempfile
import time
from collections import Counter, defaultdict
from contextlib import closing
from pathlib import Path

import hostile
from loopback import has_own_loopback
from mixed import PORTS, Mixer, causes, hexed
from model import bridged, muxed, replay, scripts
from signals import MARK
from usage import words_or_usage

ROWS = Path(__file__).resolve().parent / "rows"
TIMED = (
    "calls-side-by-side-at-one-moment", "calls-side-by-side-at-moments-of-their-own",
    "calls-side-by-side-at-moments-that-go-back", "moment-of-a-datagram-goes-back", "more-of-one-moment-than-a-batch-has",
)
UNTIMED = (
    "calls-side-by-side", "offered-by-the-secure-side", "offered-by-the-plain-side", "manual-sources-opened",
    "manual-control-sealed", "every-port-in-each-state", "rejected-offers", "echoed-key", "idle-media",
)
# Those with legs whose RTP and RTCP share a port, by `--mux`.
MUXED = (
    "muxed-reports", "muxed-second-octets", "muxed-offers-of-the-plain-side", "muxed-lines-elsewhere", "muxed-media",
    "muxed-offers-again", "muxed-legs-change-sides", "muxed-in-an-earlier-generation", "muxed-slots-used-again",
    "muxed-texts-at-their-limits", "muxed-calls-side-by-side", "muxed-in-version-2",
)
# Those with calls that are joined, by `--bridge`.
BRIDGED = (
    "bridged-packets", "bridged-pairs", "bridged-numbers-of-media", "bridged-losses", "bridged-calls-without-control",
    "bridged-rollovers", "bridged-ends-of-calls", "bridged-new-keys", "bridged-idle-media", "bridged-in-version-2",
    "bridged-none", "bridged-line-before-the-header", "bridged-line-of-a-capture", "bridged-line-of-another-number",
    "bridged-line-of-no-call", "bridged-line-of-one-call", "bridged-line-of-three-calls", "bridged-line-past-the-last-call",
)
MOMENTS = 0, 5, 60_000, 4, 2_085_978_495_999, 0


class OverLoopback(replay.Relayed):
    """A relay in a network that has a loopback alone: what isn't sent is told."""

    def carried_out(self, line):
        return carried_out(line)[0]


class MuxedOverLoopback(OverLoopback):
    world_of = muxed.World


class BridgedOverLoopback(OverLoopback):
    reader, world_of = bridged.Lines, bridged.World


# What each relay tells that no packet leaves, and one over a loopback alone.
RELAYED = {"relay": replay.Relayed, "relay --mux": muxed.Relayed, "relay --bridge": bridged.Relayed}
OVER_LOOPBACK = {"relay": OverLoopback, "relay --mux": MuxedOverLoopback, "relay --bridge": BridgedOverLoopback}
# The command of `mixed.py` whose scripts such a relay plays.
PLAYED_AS = {"relay": "replay", "relay --mux": "replay --mux", "relay --bridge": "bridge"}


def words_of(command, turns):
    """The words of a relay with so many turns."""
    relay, *flags = command.split()
    return [relay, "--turns", str(turns), *flags]


def with_moments(script):
    """A script of version 1 as one of version 2, with moments that a replay would refuse or end calls at."""
    place, lines = 0, []
    for line in script.splitlines(keepends=True):
        if line.startswith(b"in "):
            line, place = b"in %d " % MOMENTS[place % len(MOMENTS)] + line[3:], place + 1
        lines.append(b"srtpgw 2\n" if line == b"srtpgw 1\n" else line)
    return b"".join(lines)


def without_ticks(script):
    return b"".join(line for line in script.splitlines(keepends=True) if not line.startswith(b"tick "))


def difference(program, script, command="relay"):
    """What is wrong with a run, or None."""
    wanted = RELAYED[command](script, int(1_000 * time.time()))
    run = subprocess.run([program, *words_of(command, 1)], input=script, capture_output=True, timeout=60, check=False)
    if (run.stdout, run.returncode, run.stderr) == (wanted.octets(), wanted.status, wanted.said):
        return None
    told = zip(run.stdout.decode().splitlines(), wanted.octets().decode().splitlines())
    first = next((both for both in told if both[0] != both[1]), "one tells more")
    return f"{run.returncode} {run.stderr.decode()!r}; the program's and the model's line: {first}"


# ---- live

MARKED, SECONDS = "refused 4294967295 CallUnknown", 60
# Those at which something changes: what is read of a datagram, and the longest that there is.
LENGTHS = 0, 1, 4_096, 4_097, 4_238, 4_239, 4_352, 4_353, 65_507
# The telephones' ports, with those of RTCP above them.
TELEPHONES = sorted({port + more for port in PORTS for more in (0, 1)} & set(range(1, 65_536)))


class Live(Mixer):
    """A script in the making for a relay. Its steps are lines, readings of the clock, and datagrams that come at one."""

    def __init__(self, seed, version, command):
        super().__init__(seed, version, PLAYED_AS[command])
        self.command = command
        self.began = self.dice.choice((0, 1_000_000_000, 1_764_000_000_123, scripts.LAST_TICK - 2_000_000_000))
        self.world.signal("tick", self.began)
        self.steps = [("line", self.lines[0], [])]

    def says(self, *fields):
        """A line, but for a tick, which is a reading of the clock."""
        line = b" ".join(field if isinstance(field, bytes) else str(field).encode() for field in fields)
        self.lines.append(line)
        word, *values = scripts.read(2, line + b"\n", self.version, has_pairs=self.is_bridge)
        if word == "tick":
            return self.reads(*values)
        told = replay.told(self.world, *(("in", *values[1:]) if word == "at" else (word, *values)))
        return self.steps_on("line", line, told)

    def steps_on(self, kind, what, told):
        self.steps.append((kind, what, told))
        self.told.append(told)
        return told

    def ticks(self, moment):
        """What is told of a turn's reading; it isn't before the first one, which a turn would wait for."""
        moment = min(max(moment, self.began), scripts.LAST_TICK)
        return moment, self.world.signal("tick", moment) if moment > self.world.now else []

    def reads(self, moment):
        return self.steps_on("turn", *self.ticks(moment))

    def comes(self, port, octets, host=b"127.0.0.1"):
        if not host.startswith(b"127.") or self.likely(0.5):
            return super().comes(port, octets, host)
        known = [it for it in self.datagrams if it[2].startswith(b"127.")]
        if known and self.likely(0.1):
            port, octets, host = self.dice.choice(known)
        self.datagrams.append((port, octets, host))
        if self.likely(0.02):
            octets = bytes(self.dice.choice(LENGTHS))
        moment, told = self.ticks(self.arrival())
        self.lines.append(b"in %d %d %s:1 %s" % (moment, port, host, hexed(octets)))
        if self.is_bound(port):
            told = told + [self.world.datagram(port, (host.decode(), 1), octets[:4352])]
        return self.steps_on("datagram", (moment, port, host.decode(), octets), told)

    def is_bound(self, port):
        """Whether the port is one of a medium of a call that is there."""
        slot, place = divmod(port - 20000, 16)
        call = self.world.slots.get(slot)
        return bool(call) and place // 4 < call.media


def is_sent(host, port):
    """Whether the system takes a packet for there in a network that has a loopback alone: the loopback, the address of
    none, which is the loopback's, and groups."""
    first = int(host.split(".")[0])
    return port != 0 and (first == 127 or host == "0.0.0.0" or 224 <= first < 240)


class Telephones:
    """The sockets of all telephones, one that sends, and what has arrived."""

    def __init__(self):
        self.at, self.found = {port: self.opened(port) for port in TELEPHONES}, defaultdict(list)
        self.senders = {}

    @staticmethod
    def opened(port, host="127.0.0.1"):
        one = socket.socket(socket.AF_INET, socket.SOCK_DGRAM)
        one.setsockopt(socket.SOL_SOCKET, socket.SO_RCVBUF, 1 << 20)
        one.bind((host, port))
        one.setblocking(False)
        return one

    def close(self):
        for one in [*self.at.values(), *self.senders.values()]:
            one.close()

    def sends(self, host, port, octets):
        if host not in self.senders:
            self.senders[host] = self.opened(0, host)
        self.senders[host].sendto(octets, ("127.0.0.1", port))

    def take(self):
        for port, one in self.at.items():
            try:
                while True:
                    octets, (_, gate) = one.recvfrom(65_536)
                    self.found[port].append((gate, octets.hex()))
            except BlockingIOError:
                pass


def holding(room, moment):
    """The environment of a program whose clock reads a moment, which a file in this folder holds: HELD_CLOCK."""
    shim, clock = Path(room, "clock.so"), Path(room, "clock")
    source = Path(__file__).resolve().parent / "held_clock.c"
    subprocess.run(["cc", "-O2", "-shared", "-fPIC", "-o", shim, source], check=True)
    clock.write_bytes(moment.to_bytes(8, sys.byteorder))
    return {**os.environ, "LD_PRELOAD": str(shim), "HELD_CLOCK": str(clock)}


class Relay:
    """The program, live: it is told lines, and is at one with us at each mark."""

    def __init__(self, program, words, held):
        pipe = subprocess.PIPE
        self.run = subprocess.Popen([program, *words], stdin=pipe, stdout=pipe, stderr=pipe, env=held)
        self.written, self.rest, self.seen, self.marks = [], b"", 0, 0

    def says(self, lines):
        """Tells it these lines and a mark, and waits until the mark's outcome is there."""
        self.marks += sum(line == MARK.encode() for line in lines) + 1
        left = b"".join(line + b"\n" for line in [*lines, MARK.encode()])
        while left or self.seen < self.marks:
            # what it has told is read meanwhile, since a relay that can't write reads no line
            told, taken, _ = select.select([self.run.stdout], [self.run.stdin] if left else [], [], SECONDS)
            if not told and not taken:
                raise TimeoutError
            if taken:
                left = left[os.write(self.run.stdin.fileno(), left[:select.PIPE_BUF]):]
            if told:
                self.hears()

    def hears(self):
        part = os.read(self.run.stdout.fileno(), 1 << 20)
        if not part:
            raise EOFError
        self.takes(part)

    def takes(self, part):
        *lines, self.rest = (self.rest + part).split(b"\n")
        self.written += [line.decode() for line in lines]
        self.seen += lines.count(MARKED.encode())

    def ends(self):
        out, said = self.run.communicate(timeout=SECONDS)
        self.takes(out)
        return self.written, self.run.returncode, said + self.rest


def carried_out(line):
    """What is written of an outcome; and where a packet arrives that is sent, the gateway's port and its octets, or None."""
    word, *fields = line.split(" ")
    if word != "out":
        return [line], None
    host, port = fields[1].split(":")
    if not is_sent(host, int(port)):
        return [f"unsent {fields[0]} {fields[1]}"], None
    is_seen = host in ("127.0.0.1", "0.0.0.0") and int(port) in TELEPHONES
    return [], (int(port), int(fields[0]), fields[2]) if is_seen else None


def must_be(steps):
    """The lines that must be written, marks among them, and what must reach each telephone's port."""
    lines, arrives = [], defaultdict(list)
    for written, sent in (carried_out(line) for told in steps for line in told):
        lines += written
        if sent:
            arrives[sent[0]].append(sent[1:])
    return lines, arrives


def played_live(live, relay, telephones, moments):
    """Plays the steps; what must be written then, with the marks between them."""
    (_, header, _), *steps = live.steps
    waiting, told = [header], [[MARKED]]

    def marks(lines=()):
        relay.says([*waiting, *lines])
        waiting.clear()
        telephones.take()

    # The clock stands still until the relay has read it.
    marks()
    for kind, what, outcomes in steps:
        if kind == "line":
            waiting.append(what)
            told.append(outcomes)
            continue
        if kind == "datagram" and waiting:
            marks()
            told.append([MARKED])
        if kind == "datagram":
            telephones.sends(*what[2:3], *what[1:2], what[3])
        moments[:8] = (what if kind == "turn" else what[0]).to_bytes(8, sys.byteorder)
        marks([b"tick 0"])
        told += [outcomes, [MARKED]]
    marks()
    return [*told, [MARKED]]


def difference_live(program, live, telephones, held):
    """What is wrong with a live run, or None."""
    with open(held["HELD_CLOCK"], "r+b") as file, mmap.mmap(file.fileno(), 8) as moments:
        moments[:8] = live.began.to_bytes(8, sys.byteorder)
        relay = Relay(program, words_of(live.command, 1_000_000_000), held)
        try:
            told = played_live(live, relay, telephones, moments)
        except (TimeoutError, EOFError, BrokenPipeError) as fault:
            relay.run.kill()
            return f"{type(fault).__name__}: behind {relay.written[-3:]} and {relay.run.stderr.read()!r}"
        written, status, said = relay.ends()
        telephones.take()
    lines, arrives = must_be(told)
    if (status, said) != (0, b""):
        return f"ends with {status} {said!r}"
    if written != lines:
        first = next((both for both in zip(lines, written) if both[0] != both[1]), "one tells more")
        return f"the model's line and the program's: {first}"
    wrong = [port for port in TELEPHONES if telephones.found[port] != arrives[port]]
    return f"other packets at {wrong}" if wrong else None


def command_of(number, only):
    """The command by which a script is played."""
    return only or list(RELAYED)[number % 3]


def play_live(program, count, seed, only, held):
    """Plays so many mixed scripts; how many have a difference."""
    bad, steps, counts, begun = 0, Counter(), Counter(), time.monotonic()
    for number in range(1, count + 1):
        live = Live(f"relayed {seed} {number}", 2 if number % 4 > 1 else 1, command_of(number, only))
        live.mixed()
        steps.update(kind for kind, _, _ in live.steps)
        counts.update(causes(line) for told in live.told for line in told)
        with closing(Telephones()) as telephones:
            fault = difference_live(program, live, telephones, held)
        bad += is_kept(f"relayed-{number}.script", live.script(), f"live by {live.command}: {fault}" if fault else None)
    for cause, times in sorted(counts.items()):
        print(f"{times:7} {cause}")
    came = f"{steps['line']} lines, {steps['datagram']} datagrams over the loopback and {steps['turn']} readings"
    print(f"relayed live: {count} mixed scripts of {came}, {bad} with a difference, {time.monotonic() - begun:.0f} s")
    return bad


def is_kept(name, script, fault):
    """Whether there is a fault; then the script is kept."""
    if fault:
        Path(name).write_bytes(script)
        print(f"{name} {fault}", flush=True)
    return bool(fault)


def play_hostile(program, count, seed, only, held):
    """The same of scripts that were cut and changed, of which nothing comes over the network."""
    bad, ends, begun, now = 0, Counter(), time.monotonic(), 1_764_000_000_123
    Path(held["HELD_CLOCK"]).write_bytes(now.to_bytes(8, sys.byteorder))
    for number, (_, script) in enumerate(hostile.cases(count, f"relayed {seed}"), 1):
        script, command = without_ticks(script), command_of(number, only)
        wanted = OVER_LOOPBACK[command](script, now)
        ran = subprocess.run([program, *words_of(command, 1)], input=script, capture_output=True, timeout=60, env=held)
        ends[wanted.status] += 1
        fault = hostile.fault((ran.returncode, ran.stdout, ran.stderr), wanted)
        bad += is_kept(f"relayed-hostile-{number}.script", script, f"by {command}: {fault}" if fault else None)
    done = f"{ends[0]} handled to their end, {ends[2]} that leave the grammar, {ends[None]} that have noise drawn"
    print(f"relayed hostile: {count} scripts, {done}, {bad} with a difference, {time.monotonic() - begun:.0f} s")
    return bad


def play_made(program, count, seed, only):
    """Plays so many of each; how many have a difference."""
    with tempfile.TemporaryDirectory() as room:
        held = holding(room, 0)
        return sum(play(program, count, seed, only, held) for play in (play_live, play_hostile))


def main():
    program, *rest = words_or_usage(__doc__)
    count, seed, only = (rest + ["0", "1", None][len(rest):])[:3]
    played, bad, is_own = 0, 0, has_own_loopback()
    read = lambda name: without_ticks((ROWS / f"{name}.script").read_bytes())
    given = [(name, read(name), "relay") for name in TIMED + UNTIMED]
    given += [(f"{name} with moments", with_moments(read(name)), "relay") for name in UNTIMED]
    given += [(name, read(name), "relay --mux") for name in MUXED + UNTIMED]
    given += [(name, read(name), "relay --bridge") for name in BRIDGED + UNTIMED]
    given += [(f"{name} with moments", with_moments(read(name)), "relay --bridge") for name in BRIDGED if "version" not in name]
    for name, script, command in given:
        played += 1
        fault = difference(program, script, command)
        if fault:
            bad += 1
            print(f"{name} by {command}: {fault}", flush=True)
    print(f"relayed scripts: {played} of both versions, {bad} with a difference")
    if int(count) and not is_own:
        print("not run: relayed live: the system gives no network of its own")
    elif int(count):
        bad += play_made(program, int(count), seed, only)
    return bool(bad)


if __name__ == "__main__":
    sys.exit(main())
