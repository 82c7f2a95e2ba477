#!/usr/bin/env python3
"""Uses a live gateway badly, over a loopback, and checks that it loses nothing that it could have kept.

    interop/hostile_relay.py PROGRAM [paced]

Each check starts the program anew as `relay`, drives it by lines and datagrams, and prints its figures; the first that
fails ends the whole with 1. No check has a mark of time: packets go in windows, and the next ones go when these have
come out. So what the system throws away in front of a socket, because the gateway had no processor, is never taken for
a loss. With `paced` two more follow: a call at a telephone's pace beside a flood, which wants a quiet machine, and five
rollovers by replay.

It makes a loopback of its own where the system lets it; else the ports 20000 to 21023 of 127.0.0.1 have to be free.
"""
import fcntl
import itertools
import os
import select
import signal
import socket
import subprocess
import sys
import tempfile
import termios
import threading
import time
from collections import deque
from pathlib import Path

from loopback import has_own_loopback
from signals import CM, octets_of
from srtp import MasterKey, rtp

HOST = "127.0.0.1"
# What is given to a program that no longer answers, and to the whole.
SECONDS, ALL_SECONDS = 60, 900
# How many packets may be on their way through a port at once: a buffer holds more.
WINDOW = 64
# Datagrams at each of 128 ports; at one port; packets of a call beside a flood, and forged ones that are handled
# meanwhile; to closed ports; outcomes of each of 64 calls that nobody reads; packets over a rollover; and calls that
# are made in the slot of one that has ended.
QUEUED, AT_ONE_PORT, TALKED, FORGED, CLOSED, UNREAD, ROLLED, ANEW = 79, 10_000, 1000, 200_000, 200, 125, 65536, 20


def keys_of(call):
    return MasterKey(CM, octets_of(f"from {call}", 30)), MasterKey(CM, octets_of(f"to {call}", 30))


class Peer:
    """One side of a call: a socket, and what has arrived there."""

    # Below the ports that the system hands out, so that a port that is closed for a while stays free.
    ports = iter(range(10000, 20000))

    def __init__(self):
        self.found = []
        for self.port in self.ports:
            try:
                return self.opens()
            except OSError:
                self.socket.close()

    def opens(self):
        self.socket = socket.socket(socket.AF_INET, socket.SOCK_DGRAM)
        self.socket.bind((HOST, self.port))
        self.socket.setblocking(False)

    def holds_more(self):
        """Has the system keep more for it than for the gateway's sockets, where it may."""
        self.socket.setsockopt(socket.SOL_SOCKET, socket.SO_RCVBUF, 2 * buffer_octets())

    def sends(self, port, octets):
        while True:
            try:
                return self.socket.sendto(octets, (HOST, port))
            except BlockingIOError:
                time.sleep(0.001)

    def arrived(self):
        """All that has arrived so far."""
        try:
            while True:
                self.found.append(self.socket.recv(5000))
        except BlockingIOError:
            return self.found

    def takes(self):
        """What has arrived since the last time."""
        taken, self.found = self.arrived(), []
        return taken


class Call:
    def __init__(self, number, rollover=0, slot=None):
        first = 20000 + 16 * (number if slot is None else slot)
        self.number, self.ports = number, (first, first + 2)
        self.secure, self.plain, self.rollover = Peer(), Peer(), rollover
        self.from_peer, self.to_peer = keys_of(number)

    def line(self):
        return (
            f"manual {self.number} {HOST}:{self.secure.port} {HOST}:{self.plain.port} {self.rollover:08x} 64 "
            f"{self.from_peer.field()} {self.to_peer.field()}"
        )

    def seals(self, index):
        """The peer's packet of an index."""
        return self.from_peer.srtp(rtp(index % 65536), index)

    def sealed(self, index):
        """The gateway's packet of an index."""
        return self.to_peer.srtp(rtp(index % 65536), index)

    def forged(self, index):
        sealed = self.seals(index)
        return sealed[:-1] + bytes([sealed[-1] ^ 1])

    def to_plain(self, indices, window=WINDOW):
        packets = ((self.seals(index), rtp(index % 65536)) for index in indices)
        return Way(self.secure, self.ports[0], self.plain, packets, window)

    def to_secure(self, indices, window=WINDOW):
        packets = ((rtp(index % 65536), self.sealed(index)) for index in indices)
        return Way(self.plain, self.ports[1], self.secure, packets, window)


def crossing(first, second, indices):
    """What comes of the first call's telephone to the second one's, where the calls are joined."""
    packets = ((first.seals(index), second.sealed(index)) for index in indices)
    return Way(first.secure, first.ports[0], second.secure, packets, WINDOW)


class Way:
    """Packets from one end through the gateway to the other: pairs of what is sent and what must arrive, in this order.
    No more than a window are on their way."""

    def __init__(self, sender, port, receiver, packets, window):
        self.sender, self.port, self.receiver = sender, port, receiver
        self.packets, self.window = packets, window
        self.under_way, self.arrived, self.is_done = deque(), 0, False

    def goes_on(self):
        """Takes what has arrived, and sends the next ones; whether anything had arrived."""
        taken = self.receiver.takes()
        for octets in taken:
            assert self.under_way and octets == self.under_way.popleft(), f"another packet at {self.receiver.port}"
        self.arrived += len(taken)
        for octets, wanted in itertools.islice(self.packets, self.window - len(self.under_way)):
            self.sender.sends(self.port, octets)
            self.under_way.append(wanted)
        self.is_done = not self.under_way
        return bool(taken)


class Gateway:
    """The program, with calls that are live. Its outcomes are read as they come, or, of a slow reader, later."""

    started = []

    def __init__(self, program, calls, reads=True, rollover=0, flags=()):
        self.begun, self.asked = time.monotonic(), 0
        self.run = subprocess.Popen(
            [program, "relay", "--turns", "1000000000", *flags],
            stdin=subprocess.PIPE, stdout=subprocess.PIPE, stderr=subprocess.PIPE,
        )
        self.started.append(self.run)
        self.calls, self.lines = [Call(number, rollover) for number in range(calls)], []
        self.reader = threading.Thread(target=lambda: self.lines.extend(self.run.stdout), daemon=True)
        self.write("srtpgw 1", *(call.line() for call in self.calls))
        for _ in range(2 * calls):
            assert self.run.stdout.readline().split()[0] in (b"made", b"live")
        if reads:
            self.reader.start()

    def write(self, *lines):
        self.run.stdin.write("".join(line + "\n" for line in lines).encode())
        self.run.stdin.flush()

    def turns(self):
        """Keeps it at its turns: a tick is written before the one under way is over."""
        now = time.monotonic() - self.begun
        if self.asked < now + 0.1:
            self.asked = now + 0.3
            self.write(f"tick {int(1000 * self.asked)}")

    def turns_until(self, wanted, count):
        """Has it take turns until so many are counted, or for a minute no more than before."""
        seen, last = count(), time.monotonic()
        while seen < wanted and time.monotonic() < last + SECONDS:
            self.turns()
            time.sleep(0.02)
            if count() > seen:
                seen, last = count(), time.monotonic()

    def carries(self, *ways):
        """Has it carry all of these packets. It fails where none arrives for a minute."""
        last = time.monotonic()
        while not all(way.is_done for way in ways):
            self.turns()
            if any([way.goes_on() for way in ways]):
                last = time.monotonic()
            else:
                select.select([way.receiver.socket for way in ways], [], [], 0.02)
            assert time.monotonic() < last + SECONDS, f"of {[way.arrived for way in ways]} on nothing arrives"

    def memory(self):
        """The most memory that was resident, in KiB."""
        status = Path(f"/proc/{self.run.pid}/status").read_text()
        return int(status.split("VmHWM:")[1].split()[0])

    def unread(self):
        """The octets of outcomes that nobody has read, and how many the pipe holds."""
        pipe = self.run.stdout.fileno()
        waiting = fcntl.ioctl(pipe, termios.FIONREAD, bytes(4))
        return int.from_bytes(waiting, sys.byteorder), fcntl.fcntl(pipe, fcntl.F_GETPIPE_SZ)

    def ends(self):
        """Ends it by the end of its input; the outcomes since the calls were live."""
        self.run.stdin.close()
        if not self.reader.ident:
            self.reader.start()
        status = self.run.wait(SECONDS)
        self.reader.join(SECONDS)
        said = self.run.stderr.read()
        assert (status, said) == (0, b""), f"ends with {status} and {said!r}"
        assert all(line.endswith(b"\n") for line in self.lines), "an outcome without an end"
        return [line.decode().rstrip("\n") for line in self.lines]


class Flood:
    """Processes that send forged packets to a call's port as fast as they can."""

    def __init__(self, call, senders=3):
        told = [sys.executable, __file__, "flood", str(call.number)]
        self.runs = [
            subprocess.Popen(told, stdin=subprocess.PIPE, stdout=subprocess.PIPE, text=True) for _ in range(senders)
        ]
        Gateway.started.extend(self.runs)

    def ends(self):
        """How many were sent."""
        return sum(int(run.communicate(timeout=SECONDS)[0]) for run in self.runs)


def flood(number):
    """Floods the port of a call until the input ends."""
    call, sent = Call(number), 0
    forged = [call.forged(index) for index in range(64)]
    while not select.select([sys.stdin], [], [], 0)[0]:
        for octets in forged:
            call.secure.sends(call.ports[0], octets)
        sent += len(forged)
    print(sent)


def buffer_octets():
    """The octets of a socket's buffer, as the system gives it."""
    with socket.socket(socket.AF_INET, socket.SOCK_DGRAM) as one:
        return one.getsockopt(socket.SOL_SOCKET, socket.SO_RCVBUF)


def buffer_of(count, octets):
    """How many of so many datagrams of a length a socket of the system holds, before it throws the next away."""
    one, other = Peer(), Peer()
    for _ in range(count):
        other.sends(one.port, bytes(octets))
    return len(one.arrived())


# ---- the checks

def queued_before_the_first_turn(program):
    """10,112 datagrams at 128 ports, a tenth of them forged, before the gateway takes a turn."""
    gateway, each = Gateway(program, 64), QUEUED
    for call in gateway.calls:
        for seq in range(each):
            call.secure.sends(call.ports[0], call.forged(seq) if seq % 10 == 9 else call.seals(seq))
            call.plain.sends(call.ports[1], rtp(seq))
    good = [rtp(seq) for seq in range(each) if seq % 10 != 9]
    begun = time.monotonic()
    count, ends = 2 * each * len(gateway.calls), [end for call in gateway.calls for end in (call.secure, call.plain)]
    gateway.turns_until((each + len(good)) * len(gateway.calls), lambda: sum(len(end.arrived()) for end in ends))
    seconds = time.monotonic() - begun
    for call in gateway.calls:
        assert call.plain.arrived() == good, "a packet is missing on the plain side"
        assert call.secure.arrived() == [call.sealed(seq) for seq in range(each)], "one is missing on the secure side"
    memory, told = gateway.memory(), gateway.ends()
    dropped = [line for line in told if line.startswith("drop")]
    wanted = sorted(f"drop {call.ports[0]} BadTag" for call in gateway.calls for seq in range(each) if seq % 10 == 9)
    assert sorted(dropped) == wanted, "other drops"
    handled = f"{count - len(dropped)} put out, {len(dropped)} told as forged, in {seconds:.1f} s"
    return f"{count} datagrams queued at 128 ports: {handled}, {memory} KiB"


def queued_at_one_port(program):
    """10,000 datagrams at one port before a turn: what the system's buffer holds is handled."""
    gateway, count = Gateway(program, 1), AT_ONE_PORT
    call = gateway.calls[0]
    call.secure.holds_more()
    packets = [rtp(seq) for seq in range(count)]
    for packet in packets:
        call.plain.sends(call.ports[1], packet)
    size = len(packets[0])
    room = buffer_of(count, size)
    gateway.turns_until(room, lambda: len(call.secure.arrived()))
    gateway.write("bye 0")
    told, arrived = gateway.ends(), call.secure.arrived()
    assert arrived == [call.sealed(seq) for seq in range(len(arrived))], "others than the first"
    assert len(arrived) == room and told == ["ended 0 0 1 bye"], f"{len(arrived)} of {room}"
    return f"{count} datagrams of {size} octets at one port: the system's buffer holds {room}, all of these put out"


def flooded(program):
    """A call talks both ways while another's port is flooded by three senders; that one talks the other way, too."""
    gateway = Gateway(program, 2)
    talking, other = gateway.calls
    floods = Flood(other)
    gateway.turns_until(1, lambda: len(gateway.lines))
    ways = []

    def while_flooded():
        """The packets of a way: so many, and until so many forged ones were handled meanwhile."""
        return itertools.takewhile(lambda n: n < TALKED or len(gateway.lines) < FORGED, itertools.count())

    for way in (talking.to_plain, talking.to_secure, other.to_secure):
        ways.append(way(while_flooded(), 4))
    gateway.carries(*ways)
    sent = floods.ends()
    gateway.write("bye 0")
    memory, told = gateway.memory(), gateway.ends()
    dropped = told.count(f"drop {other.ports[0]} BadTag")
    assert dropped == len(told) - 1 and dropped >= FORGED, "something else was dropped"
    opened, sealed, others = (f"{way.arrived} of {way.arrived}" for way in ways)
    talked = f"the other call's {opened} and {sealed} each way, the flooded one's {others} the other way"
    return f"{sent} forged packets at a port, {dropped} of them handled: {talked}, {memory} KiB"


def closed_ports(program):
    """The far ends close their ports, and open them again: what is sent in between is lost, and nothing else."""
    gateway = Gateway(program, 1)
    call, sender, marks = gateway.calls[0], Peer(), 0
    call.secure.socket.close()
    call.plain.socket.close()
    for seq in range(CLOSED):
        sender.sends(call.ports[0], call.seals(seq))
        sender.sends(call.ports[1], rtp(seq))
        if seq % WINDOW == WINDOW - 1 or seq == CLOSED - 1:
            # What was sent has been handled once those behind it are told.
            sender.sends(call.ports[0], call.forged(seq + 1))
            sender.sends(call.ports[1], b"\x80")
            marks += 1
            gateway.turns_until(2 * marks, lambda: sum(line.startswith(b"drop") for line in gateway.lines))
    call.secure.opens()
    call.plain.opens()
    ways = [way(range(CLOSED, CLOSED + 100)) for way in (call.to_plain, call.to_secure)]
    gateway.carries(*ways)
    gateway.write("bye 0")
    told = gateway.ends()
    unsent = [line for line in told if line.startswith("unsent")]
    behind = marks * [f"drop {call.ports[0]} BadTag", f"drop {call.ports[1]} Short"]
    assert sorted(told) == sorted(unsent + behind + ["ended 0 0 1 bye"]), told[:5]
    assert [way.arrived for way in ways] == [100, 100]
    closed = f"{CLOSED} packets each way to closed ports, {len(unsent)} told as unsent"
    return f"{closed}; 100 to opened ones: 100 of 100 each way, status 0"


def made_anew(program):
    """Of two calls under traffic one ends and another is made in its slot, again and again. What waits at the ports of
    the other call is put out all the same, and each new call carries its packets."""
    gateway = Gateway(program, 2)
    staying, leaving = gateway.calls
    for number in range(2, 2 + ANEW):
        indices = range(WINDOW * number, WINDOW * (number + 1))
        ways = [staying.to_plain(indices), staying.to_secure(indices)]
        for way in ways:
            way.goes_on()
        for seq in range(WINDOW):
            leaving.secure.sends(leaving.ports[0], leaving.seals(WINDOW + seq))
            leaving.plain.sends(leaving.ports[1], rtp(WINDOW + seq))
        coming = Call(number, slot=1)
        # One turn: the system tells of all four ports, and one datagram is handled.
        gateway.write("tick 0", f"bye {leaving.number}", coming.line())
        gateway.turns_until(3 * (number - 1), lambda: len(gateway.lines))
        gateway.carries(*ways, coming.to_plain(range(WINDOW)), coming.to_secure(range(WINDOW)))
        leaving = coming
    told = gateway.ends()
    wanted = [[f"ended {n - 1} 1 1 bye", f"made {n} 1 1", f"live {n}"] for n in range(2, 2 + ANEW)]
    assert told == [line for lines in wanted for line in lines], told[:5]
    packets = 2 * WINDOW * ANEW
    return f"{ANEW} calls made anew in a slot beside a call that talks: {packets} of {packets} of its packets are out"


def joined_calls(program):
    """Two pairs of joined calls talk over a rollover, while datagrams come to their plain ports from outside, which does
    nothing. One call of a pair ends, the other pair is parted, and each call that is left is by itself again."""
    gateway, indices = Gateway(program, 4, flags=["--bridge"]), range(65536 - TALKED // 2, 65536 + TALKED // 2)
    gateway.write("join 0 1", "join 3 2")
    for call in gateway.calls:
        for seq in range(WINDOW):
            call.plain.sends(call.ports[1], rtp(seq))
    zero, one, two, three = gateway.calls
    pairs = (zero, one), (one, zero), (two, three), (three, two)
    ways = [crossing(first, second, indices) for first, second in pairs]
    gateway.carries(*ways)
    gateway.turns_until(2 + 4 * WINDOW, lambda: len(gateway.lines))
    gateway.write("bye 0", "part 2")
    gateway.turns_until(5 + 4 * WINDOW, lambda: len(gateway.lines))
    behind = range(indices.stop, indices.stop + WINDOW)
    gateway.carries(*(way(behind) for call in (one, two, three) for way in (call.to_plain, call.to_secure)))
    assert not any(end.takes() for call in gateway.calls for end in (call.secure, call.plain)), "more than was sent"
    told = gateway.ends()
    dropped = [line for line in told if line.startswith("drop")]
    assert sorted(dropped) == sorted(f"drop {call.ports[1]} PortUnused" for call in gateway.calls for _ in range(WINDOW))
    others = ["joined 0 1", "joined 3 2", "ended 0 0 1 bye", "parted 0 1", "parted 3 2"]
    assert [line for line in told if line not in dropped] == others, told[:8]
    crossed = " and ".join(f"{way.arrived} of {TALKED}" for way in ways)
    return f"joined calls beside {len(dropped)} datagrams at their plain ports, all dropped: {crossed} over a rollover"


def joined_anew(program):
    """Of two joined calls one ends, and another is made in its slot and joined, again and again. What waits at the port of
    the call that stays crosses to the one that is there then."""
    gateway = Gateway(program, 2, flags=["--bridge"])
    gateway.write("join 0 1")
    staying, leaving = gateway.calls
    for number in range(2, 2 + ANEW):
        first, coming = 2 * WINDOW * number, Call(number, slot=1)
        waiting, later = range(first, first + WINDOW), range(first + WINDOW, first + 2 * WINDOW)
        for index in waiting:
            staying.secure.sends(staying.ports[0], staying.seals(index))
            leaving.secure.sends(leaving.ports[0], leaving.seals(index))
        gateway.write("tick 0", f"bye {leaving.number}", coming.line(), f"join 0 {number}")
        gateway.turns_until(1 + 5 * (number - 1), lambda: len(gateway.lines))
        before, back = leaving.secure.takes(), staying.secure.takes()
        gateway.turns_until(WINDOW - len(before), lambda: len(coming.secure.arrived()))
        assert before == [leaving.sealed(index) for index in waiting[:len(before)]], "another packet to the call that ends"
        assert coming.secure.takes() == [coming.sealed(index) for index in waiting[len(before):]], "one is missing"
        assert back == [staying.sealed(index) for index in waiting[:len(back)]], "another packet to the call that stays"
        gateway.carries(crossing(staying, coming, later), crossing(coming, staying, later))
        leaving = coming
    told = gateway.ends()
    made = lambda n: [f"ended {n - 1} 1 1 bye", f"parted 0 {n - 1}", f"made {n} 1 1", f"live {n}", f"joined 0 {n}"]
    assert told == ["joined 0 1"] + [line for n in range(2, 2 + ANEW) for line in made(n)], told[:8]
    packets = 2 * WINDOW * ANEW
    return f"{ANEW} calls made anew and joined with a call that talks: {packets} of {packets} of its packets cross"


def slow_reader(program):
    """8,000 outcomes that nobody reads until the pipe is full, and for two seconds more: the gateway waits, and then
    tells them all."""
    gateway, each = Gateway(program, 64, reads=False), UNREAD
    for call in gateway.calls:
        for seq in range(each):
            call.secure.sends(call.ports[0], call.forged(seq))
        call.plain.sends(call.ports[1], rtp(7))
    full = gateway.unread()[1] - 4096
    gateway.turns_until(full, lambda: gateway.unread()[0])
    unread = gateway.unread()[0]
    assert unread >= full, "the gateway doesn't fill the pipe"
    time.sleep(2)
    gateway.reader.start()
    gateway.turns_until(each * len(gateway.calls), lambda: len(gateway.lines))
    gateway.turns_until(len(gateway.calls), lambda: sum(len(call.secure.arrived()) for call in gateway.calls))
    told = gateway.ends()
    wanted = sorted(f"drop {call.ports[0]} BadTag" for call in gateway.calls for _ in range(each))
    assert sorted(told) == wanted, f"{len(told)} outcomes"
    for call in gateway.calls:
        assert call.secure.arrived() == [call.sealed(7)], "a packet is missing"
    kept = f"{len(told)} outcomes, of which a pipe holds {unread} octets that nobody reads for two seconds"
    return f"{kept}: none is missing, and 64 packets of the calls are out"


def reader_that_goes(program):
    """Standard output is closed at its far end: the run ends with 4, by no signal."""
    gateway = Gateway(program, 1, reads=False)
    gateway.run.stdout.close()
    gateway.calls[0].secure.sends(gateway.calls[0].ports[0], gateway.calls[0].forged(1))
    gateway.turns()
    status = gateway.run.wait(SECONDS)
    said = gateway.run.stderr.read()
    assert (status, said) == (4, b"srtpgw: write failed\n"), f"{status} {said!r}"
    return "standard output closed: status 4"


def over_rollovers(program):
    """2^16 packets each way through a live call, from the middle of a rollover to the middle of the next: of the first
    one, and of the last without the counter's highest bit."""
    window = buffer_of(WINDOW * 4, 26) * 3 // 4
    for rollover in (0, 0x7FFFFFFF):
        gateway = Gateway(program, 1, rollover=rollover)
        call, first = gateway.calls[0], rollover * 65536 + 32768
        ways = [way(range(first, first + ROLLED), window) for way in (call.to_plain, call.to_secure)]
        gateway.carries(*ways)
        gateway.write("bye 0")
        memory, told = gateway.memory(), gateway.ends()
        assert told == ["ended 0 0 1 bye"], told[:5]
        assert [way.arrived for way in ways] == [ROLLED, ROLLED]
    return f"{ROLLED} packets each way over each of two rollovers of live calls: the same octets, {memory} KiB"


# ---- with `paced`

def at_a_pace(program):
    """A call talks at 200 packets a second each way, whatever comes out, while another's port is flooded."""
    gateway, count = Gateway(program, 2), TALKED
    talking, other = gateway.calls
    floods = Flood(other)
    gateway.turns_until(1, lambda: len(gateway.lines))
    for seq in range(count):
        talking.secure.sends(talking.ports[0], talking.seals(seq))
        talking.plain.sends(talking.ports[1], rtp(seq))
        gateway.turns()
        time.sleep(0.005)
        talking.plain.arrived()
        talking.secure.arrived()
    sent = floods.ends()
    gateway.turns_until(2 * count, lambda: len(talking.plain.arrived()) + len(talking.secure.arrived()))
    gateway.write("bye 0")
    memory, told = gateway.memory(), gateway.ends()
    opened, sealed = talking.plain.arrived(), talking.secure.arrived()
    assert opened == [rtp(seq) for seq in range(count)], f"{len(opened)} of {count} on the plain side"
    assert sealed == [talking.sealed(seq) for seq in range(count)], f"{len(sealed)} on the secure side"
    dropped = told.count(f"drop {other.ports[0]} BadTag")
    assert dropped == len(told) - 1, "something else was dropped"
    forged = f"{sent} forged packets at another port, {dropped} of them handled"
    return f"{forged}: {count} of {count} each way, {memory} KiB"


def rollovers(program):
    """2^16 packets each way over each of five rollovers, by replay, octet for octet."""
    secure, plain, handled = f"{HOST}:40000", f"{HOST}:41000", 0
    for number, rollover in enumerate((0, 1, 0x7FFFFFFF, 0xFFFF, 0xFFFFFFFE)):
        from_peer, to_peer = keys_of(number)
        first = rollover * 65536 + 32768
        with tempfile.TemporaryFile() as script, tempfile.TemporaryFile() as wanted:
            keys = f"{from_peer.field()} {to_peer.field()}"
            script.write(f"srtpgw 1\nmanual 1 {secure} {plain} {rollover:08x} 64 {keys}\n".encode())
            wanted.write(b"made 1 0 1\nlive 1\n")
            for index in range(first, first + ROLLED):
                packet = rtp(index % 65536)
                arriving, sealed = from_peer.srtp(packet, index).hex(), to_peer.srtp(packet, index).hex()
                script.write(f"in 20000 {secure} {arriving}\nin 20002 {plain} {packet.hex()}\n".encode())
                wanted.write(f"out 20002 {plain} {packet.hex()}\nout 20000 {secure} {sealed}\n".encode())
                handled += 2
            script.seek(0)
            wanted.seek(0)
            run = subprocess.run([program, "replay"], stdin=script, capture_output=True, timeout=SECONDS, check=True)
            assert run.stdout == wanted.read(), f"other octets from rollover {rollover}"
    return f"{handled} packets over five rollovers: the same octets"


ALL = (
    queued_before_the_first_turn, queued_at_one_port, flooded, closed_ports, made_anew, joined_calls, joined_anew,
    slow_reader, reader_that_goes, over_rollovers,
)
PACED = (at_a_pace, rollovers)


def is_too_long(*_):
    sys.exit(f"the checks take more than {ALL_SECONDS} seconds")


def main():
    signal.signal(signal.SIGALRM, is_too_long)
    signal.alarm(ALL_SECONDS)
    where = "a loopback of its own" if has_own_loopback() else "the machine's loopback"
    processors, load = len(os.sched_getaffinity(0)), os.getloadavg()[0]
    print(f"{where}, buffers of {buffer_octets()} octets, {processors} processors, load average {load:.1f}")
    begun = time.monotonic()
    try:
        for check in ALL + (PACED if sys.argv[2:] == ["paced"] else ()):
            since = time.monotonic()
            print(f"{check.__name__}: {check(sys.argv[1])}; {time.monotonic() - since:.1f} s", flush=True)
    finally:
        for run in Gateway.started:
            run.kill()
    print(f"a live gateway used badly: as it should be, in {time.monotonic() - begun:.1f} s")


if __name__ == "__main__":
    if sys.argv[1] == "flood":
        flood(int(sys.argv[2]))
    else:
        main()
