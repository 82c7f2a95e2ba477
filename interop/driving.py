#!/usr/bin/env python3
"""Drives a gateway by tools/driver.py, and looks at what a driver must not get wrong: where the count of ticks begins,
whose outcome is whose, what is told when the process ends, what waits for how long, and what is spent.

    interop/driving.py PROGRAM [CHECK..]     all of them, or these

Needs Python 3.8 and Linux. It makes a network of its own where the system lets it; else the UDP ports of the gateway, and
40000 and 41000 of 127.0.0.1, have to be free.
"""

import base64
import contextlib
import hashlib
import hmac
import os
import random
import re
import signal
import socket
import subprocess
import sys
import tempfile
import threading
import time
from pathlib import Path

from loopback import has_own_loopback
from usage import words_or_usage

HERE = Path(__file__).resolve().parent
sys.path.insert(0, str(HERE.parent / "tools"))

from driver import Bounds, Driver, Fifos, Gone, Program, Refused, Taken, Unjoined  # noqa: E402
from gateway import Due, Gateway, Held, PROBED, WITHHELD  # noqa: E402

HOST = "127.0.0.1"
SECURE, PLAIN = (HOST, 40_000), (HOST, 41_000)
SECURE_RTP, PLAIN_RTP = 20_000, 20_002
# The second telephone of two that encrypt, and the plain address of their calls, where nobody is.
SECOND, NOBODY = (HOST, 40_010), ("127.0.0.2", 9)
# The longest opened packet that can be sealed has an octet fewer (docs/formats.md).
TOO_LONG = 4_097
PACKETS, PACE, WINDOW = 300, 0.01, 100
DELAYS = [0, 50, 100, 500]
# How long anything may take on a busy machine, and for how long nothing more comes where all has come.
PATIENCE, SILENCE = 60.0, 10.0
DROPS = 3_000


class Wrong(Exception):
    """The driver did something else than it should."""


def require(holds, what):
    if not holds:
        raise Wrong(what)


def wait_until(holds, what, seen=()):
    """Waits for what is to come; `seen` is what came meanwhile, told where it doesn't."""
    end = time.monotonic() + PATIENCE
    while not holds():
        require(time.monotonic() < end, f"waited {PATIENCE:g} s for {what}; what came is {seen}")
        time.sleep(0.02)


class Key:
    """A key of `RAW80`: HMAC-SHA-1 under it, of the packet and the rollover, is the tag (RFC 3711, 4.2.1), and nothing is
    encrypted."""

    def __init__(self):
        self.octets = os.urandom(20)

    def field(self):
        return f"RAW80:{self.octets.hex()}"

    def sealed(self, packet, rollover=0):
        return packet + hmac.new(self.octets, packet + rollover.to_bytes(4, "big"), hashlib.sha1).digest()[:10]


class Call:
    """The two ends of a call with keys by hand. One at a time, since they have one address each."""

    def __init__(self, driver, number):
        self.from_peer, self.to_peer = Key(), Key()
        self.ends = [bound(address) for address in (SECURE, PLAIN)]
        driver.manual(number, SECURE, PLAIN, self.from_peer.field(), self.to_peer.field())
        self.ports = driver.ports(number)

    def talk(self, count, what):
        """Sends packets each way at once, and looks at what arrives. No more than a window are on their way, so what a
        gateway without a processor leaves to the system isn't taken for a loss."""
        there, back = packets(count), packets(count)
        sealed = [self.from_peer.sealed(packet) for packet in there]
        began, arrived = time.monotonic(), ([], [])
        for place, pair in enumerate(zip(sealed, back)):
            time.sleep(max(0, began + PACE * place - time.monotonic()))
            for end, found in zip(self.ends, arrived):
                found += taken(end, place + 1 - WINDOW - len(found))
                require(len(found) > place - WINDOW, f"{what}: of {place} packets on nothing arrives")
            for end, octets, port in zip(self.ends, pair, (self.ports[0], self.ports[2])):
                end.sendto(octets, (HOST, port))
        for end, found in zip(self.ends, arrived):
            found += taken(end, count - len(found))
        require(arrived[1] == there, f"{what}: {len(arrived[1])} of {count} packets came to the plain side")
        wanted = [self.to_peer.sealed(packet) for packet in back]
        require(arrived[0] == wanted, f"{what}: {len(arrived[0])} of {count} packets came to the secure side")

    def close(self):
        for end in self.ends:
            end.close()


class Pair:
    """Two telephones that encrypt, each with a call of its own with keys by hand, joined or not."""

    def __init__(self, driver):
        self.driver, self.ends = driver, [bound(SECURE), bound(SECOND)]
        self.keys = [(Key(), Key()), (Key(), Key())]
        for number, (address, (own, given)) in enumerate(zip((SECURE, SECOND), self.keys), 1):
            driver.manual(number, address, NOBODY, own.field(), given.field())

    def talk(self, count, what):
        """Packets each way, each opened by the one call and sealed by the other."""
        for place in (0, 1):
            sent = packets(count)
            for packet in sent:
                self.sends(place, packet)
                time.sleep(PACE / 10)
            wanted = [self.keys[1 - place][1].sealed(packet) for packet in sent]
            arrived = taken(self.ends[1 - place], count)
            require(arrived == wanted, f"{what}: {len(arrived)} of {count} packets crossed from telephone {place + 1}")

    def sends(self, place, packet):
        self.ends[place].sendto(self.keys[place][0].sealed(packet), (HOST, self.driver.ports(place + 1)[0]))

    def close(self):
        for end in self.ends:
            end.close()


def bound(address):
    end = socket.socket(socket.AF_INET, socket.SOCK_DGRAM)
    end.setsockopt(socket.SOL_SOCKET, socket.SO_RCVBUF, 1 << 20)
    end.bind(address)
    return end


def packets(count):
    """RTP packets of PCMU, of random octets."""
    ssrc, first = os.urandom(4), random.randrange(30_000)
    heads = [bytes([0x80, 0]) + (first + place).to_bytes(2, "big") + (160 * place).to_bytes(4, "big") for place in range(count)]
    return [head + ssrc + os.urandom(160) for head in heads]


def taken(end, count):
    """What came to an end, until `count` have come or nothing more comes."""
    arrived = []
    end.settimeout(SILENCE)
    with contextlib.suppress(socket.timeout):
        while len(arrived) < count:
            arrived.append(end.recv(4_096))
    return arrived


def text_of(name, port, profile, *rest):
    lines = [b"v=0", b"o=- 1 1 IN IP4 127.0.0.1", b"s=" + name, b"c=IN IP4 127.0.0.1", b"t=0 0",
             b"m=audio %d %s 0" % (port, profile), *rest]
    return b"".join(line + b"\r\n" for line in lines)


def secure_text(name):
    key = base64.b64encode(os.urandom(30))
    return text_of(name, SECURE[1], b"RTP/SAVP", b"a=crypto:1 AES_CM_128_HMAC_SHA1_80 inline:" + key)


@contextlib.contextmanager
def driving(program, **options):
    """A driver for the time being, what it warned of, and the ends of calls that it told of."""
    warned, ended = [], []
    options.setdefault("on_end", lambda call, why: ended.append((call, why)))
    driver = Driver(program, warn=warned.append, **options)
    try:
        yield driver, warned, ended
    finally:
        driver.close()


class Seen:
    """What a driver knows of its gateway at the moment at which it is told."""

    def __init__(self, driver, warned):
        self.driver, self.warned = driver, warned

    def __str__(self):
        gateway = self.driver.gateway
        working = [thread.is_alive() for thread in self.driver.threads]
        waiting = {port: end for port, end in gateway.sockets().items() if any(end)}
        return f"warnings {self.warned}, sockets {waiting}, stands still {is_stopped(gateway.pid)}, threads that work {working}"


def is_stopped(pid):
    """Whether a process stands still, by a signal."""
    return Path(f"/proc/{pid}/stat").read_text().rpartition(")")[2].split()[0] in "Tt"


def is_there(pid):
    with contextlib.suppress(ProcessLookupError):
        os.kill(pid, 0)
        return True
    return False


def refusal_of(signal, *words):
    """The cause by which a signal is refused."""
    try:
        signal(*words)
    except Refused as refused:
        return str(refused)
    return "none"


def counts_from_the_start(program):
    """the first answer is late by"""
    for delay in DELAYS:
        with driving(Program([sys.executable, HERE / "slowed.py", "first", str(delay), program])) as (driver, _, _):
            call = Call(driver, 1)
            call.talk(PACKETS, f"{delay} ms late")
            call.close()
            require(not driver.drops, f"{delay} ms late: dropped {dict(driver.drops)}")
    return f"{', '.join(map(str, DELAYS))} ms: {PACKETS} of {PACKETS} packets each way each time"


def each_has_its_own(program):
    """texts that aren't UTF-8, of four calls at once"""
    given, numbers = {}, range(1, 5)

    def agree(driver, number):
        driver.offer_secure(number, secure_text(b"offer"))
        given[number] = driver.answer(number, text_of(b"caf\xe9 %d" % number, PLAIN[1], b"RTP/AVP"))

    with driving(program) as (driver, _, _):
        threads = [threading.Thread(target=agree, args=(driver, number)) for number in numbers]
        for thread in threads:
            thread.start()
        for thread in threads:
            thread.join()
        require(sorted(given) == list(numbers), f"answers of calls {sorted(given)}")
        for number in numbers:
            require(b"s=caf\xe9 %d\r\n" % number in given[number], f"the text of call {number} is another one's")
            port = int(re.search(rb"m=audio (\d+)", given[number])[1])
            require(port == driver.ports(number)[0], f"call {number} has the port of another one")
        keys = {re.search(rb"inline:(\S+)", text)[1] for text in given.values()}
        require(len(keys) == len(given), "two calls have one key")
    return "each has its own text, port and key"


def a_late_outcome_ends_the_process(program):
    """an outcome that doesn't come in time"""
    with driving(program) as (driver, _, ended):
        driver.offer_secure(1, secure_text(b"one"))
        driver.wait, pid = 1.0, driver.gateway.pid
        os.kill(pid, signal.SIGSTOP)
        with contextlib.suppress(Gone):
            driver.offer_secure(2, secure_text(b"two"))
            raise Wrong("the outcome of a stopped process")
        require(not is_there(pid), "the process is still there")
        wait_until(lambda: ended == [(1, "gone")], "the end of the call")
        with contextlib.suppress(Gone):
            driver.bye(1)
            raise Wrong("a signal to a process that has ended")
    return "the process is ended, and its call told as gone"


def calls_are_told_and_made_anew(program):
    """a process that is killed"""
    told, made = [], []

    def on_end(call, why):
        told.append((call, why))
        if call == 1:
            raise ZeroDivisionError("a fault of the server")
        # A signal from within: call 2 is made anew as soon as that can be.
        while not made:
            with contextlib.suppress(Gone):
                made.append(driver.offer_secure(call, secure_text(b"anew")))
            time.sleep(0.02)

    with driving(program, on_end=on_end, restarts=True) as (driver, warned, _):
        for number in (1, 2):
            driver.offer_secure(number, secure_text(b"one"))
        os.kill(driver.gateway.pid, signal.SIGKILL)
        wait_until(lambda: made, "a call of the next process")
        require(told == [(1, "gone"), (2, "gone")], f"told {told}")
        require(any("ZeroDivisionError" in line for line in warned), f"warned {warned}")
        driver.bye(2)
        call = Call(driver, 3)
        call.talk(50, "the next process")
        call.close()
    return "both calls are told as gone, one fault in on_end, one call made anew from within it"


def it_drains(program):
    """what is spent"""
    for bounds in (Bounds(octets=100), Bounds(turns=1)):
        with driving(program, bounds=bounds) as (driver, _, _):
            # Until some turns are taken.
            time.sleep(0.1)
            driver.manual(1, SECURE, PLAIN, Key().field(), Key().field())
            refused = refusal_of(driver.manual, 2, SECURE, PLAIN, Key().field(), Key().field())
            require(refused == "State", f"a call behind {bounds} is refused by {refused}")
    with driving(program, restarts=True, bounds=Bounds(keys=3)) as (driver, _, ended):
        pid, call = driver.gateway.pid, Call(driver, 1)
        for number in (2, 3):
            with contextlib.suppress(Refused):
                driver.manual(number, SECURE, PLAIN, Key().field(), Key().field())
        require(list(driver.slots) == [1, 2], f"calls {list(driver.slots)} with four keys spent")
        call.talk(50, "while it drains")
        driver.bye(2)
        call.talk(50, "with the last call")
        driver.bye(1)
        call.close()
        wait_until(lambda: driver.gateway.pid != pid and not driver.gone, "the next process")
        require(not is_there(pid) and not ended, f"told {ended}")
        driver.manual(3, SECURE, PLAIN, Key().field(), Key().field())
        require(not driver.draining, "what the process before has spent counts for the next")
        driver.restarts = False
        driver.drain()
        driver.bye(3)
        require(driver.drained.wait(PATIENCE), "it doesn't end with its last call")
        require(driver.gone.status == 0, f"{driver.gone}")
    return "new calls are refused, the others go on, the process ends with the last one, and the next one follows"


def it_drains_between_two(program):
    """a drain while the next process begins"""
    opener, opened = Program(program), []
    with driving(opener, restarts=True) as (driver, _, _):
        opens = opener.open

        def opens_behind_a_drain(patience):
            driver.restarts = False
            driver.drain()
            opened.append(opens(patience))
            return opened[0]
        opener.open = opens_behind_a_drain
        os.kill(driver.gateway.pid, signal.SIGKILL)
        require(driver.drained.wait(PATIENCE), "the next process goes on")
        require(not is_there(opened[0].pid), "the next process is still there")
    return "ends that process, and none follows"


def close_waits_for_drops(program):
    """drops that are told at the end"""
    with driving(Program([sys.executable, HERE / "slowed.py", "drops", "0", program])) as (driver, _, _):
        call = Call(driver, 1)
        for _ in range(DROPS // 20):
            for _ in range(20):
                call.ends[0].sendto(b"x", (HOST, call.ports[0]))
            time.sleep(PACE)
        wait_until(lambda: not driver.gateway.sockets()[SECURE_RTP].waiting, "a gateway that has taken all")
        require(not driver.drops, "drops weren't held back")
        require(driver.close() == 0, "the status")
        call.close()
        held = int(driver.gateway.gone.said.split()[0])
        counted = driver.drops[SECURE_RTP, "Short"]
        require(held == counted and held > DROPS // 20, f"{counted} of {held} are counted")
    return f"{held} of {held} are counted when it is closed"


def fields_are_fields(program):
    """fields that would be another line"""
    with driving(program) as (driver, _, _):
        tries = [
            lambda: driver.offer_plain(1, b"v=0\r\n", peer="sip:a b"),
            lambda: driver.psk("gateway", "peer\nbye 1", bytes(16)),
            lambda: driver.psk("gateway", "peer", bytes(15)),
            lambda: driver.manual(1, SECURE, ("localhost", 1), Key().field(), Key().field()),
            lambda: driver.manual(1, SECURE, PLAIN, Key().field() + "00", Key().field()),
            lambda: driver.offer_secure(1, bytes(32_769)),
            lambda: driver.bye(2**32 - 1),
            lambda: driver.offer_plain(True, b"v=0\r\n"),
            lambda: driver.manual(1, SECURE, (HOST, True), Key().field(), Key().field()),
        ]
        for attempt in tries:
            with contextlib.suppress(Refused):
                attempt()
                raise Wrong("a field that isn't one was told")
        for field in ("", "a b", "a\nbye", "caf\xe9", "\x7f"):
            with contextlib.suppress(ValueError):
                driver.gateway.tell("psk", field)
                raise Wrong(f"the field {field!r} was told")
        require(driver.close() == 0, "the status")
    return f"{len(tries)} are refused, and the run goes on"


def ports_and_answers_are_looked_at(program):
    """a port that is taken, and a process that doesn't answer"""
    with bound((HOST, 20_017)):
        try:
            Driver(program)
            raise Wrong("it starts with a port that is taken")
        except Taken as fault:
            require(fault.ports == [20_017], f"{fault}")
    try:
        Driver(["sh", "-c", "echo $$ building >&2; sleep 60"], patience=2.0)
        raise Wrong("a process that doesn't answer")
    except Gone as gone:
        pid = int(re.search(r"(\d+) building", gone.said)[1])
        require(not is_there(pid), "it is still there")
    return "the first is named, the second ended with what it said"


def sockets_overflow(program):
    """datagrams that wait too long"""
    with driving(program) as (driver, warned, _):
        call = Call(driver, 1)
        os.kill(driver.gateway.pid, signal.SIGSTOP)
        for packet in packets(2 * PACKETS):
            call.ends[1].sendto(packet, (HOST, call.ports[2]))
        time.sleep(0.5)
        os.kill(driver.gateway.pid, signal.SIGCONT)
        arrived = len(taken(call.ends[0], 2 * PACKETS))
        wait_until(lambda: arrived + driver.overflows[PLAIN_RTP] == 2 * PACKETS, f"what was lost, where {arrived} arrived")
        call.close()
        lost = driver.overflows[PLAIN_RTP]
        require(lost, "nothing was lost")
        for what in ("late", "full sockets"):
            wait_until(lambda what=what: any(what in line for line in warned), what, warned)
    return f"{lost} of {2 * PACKETS} were lost in front of a socket, and told, as is that turns ran late"


def telephones_have_their_ways(program):
    """early media, best effort and the name of a session"""
    with driving(program) as (driver, _, _):
        origin, offer = b"o=- 7 7 IN IP4 192.0.2.1\r\n", secure_text(b"one")
        offer = offer.replace(b"o=- 1 1 IN IP4 127.0.0.1\r\n", origin)
        given = driver.offer_secure(1, offer)
        require(origin in given and b"c=IN IP4 127.0.0.1\r\n" in given, "the o= line is another one")
        driver.answer(1, text_of(b"early media", PLAIN[1], b"RTP/AVP"))
        other = text_of(b"another branch", PLAIN[1] + 10, b"RTP/AVP")
        found = [refusal_of(driver.answer, 1, other)]
        driver.offer_plain(1, other)
        found.append(refusal_of(driver.answer, 1, offer).split()[0])
        driver.reject(1)
        best = secure_text(b"two")
        found.append(refusal_of(driver.offer_secure, 2, best.replace(b"RTP/SAVP", b"RTP/AVP")))
        driver.offer_secure(2, best)
        require(found == ["State", "KeyReused", "NoMedia"], f"refused by {found}")
    return "as docs/driving.md has it"


def keys_are_told_again(program):
    """pre-shared keys, in the next process"""
    with driving(program, restarts=True) as (driver, _, _):
        driver.psk("own", "peer", b"k" * 16)
        refused, first = refusal_of(driver.psk, "own", "peer", b"l" * 16), driver.gateway.pid
        require(refused == "PskKnown", f"the second key is refused as {refused}")
        os.kill(first, signal.SIGKILL)
        wait_until(lambda: driver.gateway.pid != first and not driver.gone, "the next process")
        given = driver.offer_plain(1, text_of(b"offer", PLAIN[1], b"RTP/AVP"), peer="peer")
        require(b"a=key-mgmt:mikey " in given, "the next process offers no message")
        second = driver.gateway.pid
        time.sleep(0.5)
        require(driver.gateway.pid == second and not driver.gone, "a key that was refused is told to the next process")
    return "those that were accepted, and no other"


def a_rejected_offer_spends_nothing(program):
    """keys of an offer that is rejected"""
    with driving(program) as (driver, _, _):
        driver.offer_secure(1, secure_text(b"one"))
        require(driver.spent["keys"] == 0, "keys are spent before an answer")
        driver.reject(1)
        require(driver.spent["keys"] == 0 and not driver.open_keys, "a rejected offer's keys are spent")
    return "aren't spent"


def the_log_has_no_keys(program):
    """the log of outcomes"""
    with tempfile.TemporaryFile() as log:
        with driving(program, log=log) as (driver, _, _):
            driver.offer_secure(1, secure_text(b"offer"))
            driver.answer(1, text_of(b"answer", PLAIN[1], b"RTP/AVP"))
            driver.bye(1)
        log.seek(0)
        lines = log.read().splitlines()
    require(lines == [b"srtpgw 1", b"made 1 0 1", b"live 1", b"ended 1 0 1 bye"], f"the log has {lines}")
    return "has each outcome but the session descriptions, which hold keys"


class Spoken:
    """What stands for a process: from the first probe on, or one at each probe, it says these octets, each behind so many
    seconds, and then ends."""

    pid, files, turns, bridges = None, None, 1_000, True

    def __init__(self, *parts, each=False, read=Held):
        (self.told, lines), (outcomes, self.says) = os.pipe(), os.pipe()
        self.heard = []
        self.lines, self.parts, self.each, self.over = os.fdopen(lines, "wb"), parts, each, threading.Event()
        self.outcomes = read(outcomes)

    def open(self, patience):
        threading.Thread(target=self.say, daemon=True).start()
        return self

    def say(self):
        with os.fdopen(self.told, "rb") as lines, contextlib.suppress(OSError):
            for place, (seconds, octets) in enumerate(self.parts):
                while self.each or place == 0:
                    self.heard.append(lines.readline())
                    if self.heard[-1] in (PROBE, b""):
                        break
                if not self.over.wait(seconds):
                    os.write(self.says, octets)
        os.close(self.says)

    def kill(self):
        self.over.set()

    def end(self):
        return 0, "it has said all"


PROBE = b"bye 4294967295\n"


def outcomes_come_in_parts(program):
    """outcomes whose lines come in parts, and end in the middle of one"""
    parts = PROBED, b"made 7 0", b" 1\nlive 7\nrefu", b"sed 7 State\nended 7 0 1 b"
    for read in (Held, lambda number: os.fdopen(number, "rb")):
        gateway, told = Gateway(Spoken(*((0.2, part) for part in parts), read=read)), []
        with contextlib.suppress(Gone):
            while True:
                told.append(gateway.next(PATIENCE))
        require(told == [["made", "7", "0", "1"], ["live", "7"], ["refused", "7", "State"]], f"{told}")
    return "whole, and the half one isn't told"


def whose_refusal(program):
    """a refusal of another call than the one that waits"""
    spoken = Spoken((0, PROBED), (0.2, b"refused 8 TableFull\n"), (PATIENCE, b""))
    with driving(spoken, wait=PATIENCE) as (driver, _, _):
        try:
            driver.bye(7)
        except Gone:
            return "ends the process"
        except Refused as refused:
            raise Wrong(f"it is taken: {refused}") from None
    raise Wrong("nothing is told")


def many_signals_wait(program):
    """signals that are answered one behind another, by a gateway with little of a processor"""
    numbers, kept = range(1, 10), []
    spoken = Spoken((0, PROBED), *((1.0, f"refused {number} CallUnknown\n".encode()) for number in numbers))

    def tell(driver, number):
        try:
            kept.append(refusal_of(driver.bye, number))
        except Gone as gone:
            kept.append(str(gone))

    with driving(spoken, wait=5.0) as (driver, _, _):
        threads = []
        for number in numbers:
            threads.append(threading.Thread(target=tell, args=(driver, number)))
            threads[-1].start()
            wait_until(lambda: len(driver.pending) + len(kept) == len(threads), "the signal to be told")
        for thread in threads:
            thread.join(PATIENCE)
        require(kept == ["CallUnknown"] * len(numbers), f"refused by {kept}")
    return f"{len(kept)} that wait for nine seconds, each no more than one behind the one before it: all are answered"


def an_answer_may_be_late(program):
    """an answer to a probe that comes late, a clock that is set, and turns without a datagram"""
    gateway = Gateway(Spoken((0, PROBED), (0.7, PROBED), (PATIENCE, b""), each=True))
    first = gateway.began
    wait_until(lambda: len(gateway.starts) == 2, "the second answer")
    require(gateway.began <= first + 0.01, f"the clock's start has moved by {gateway.began - first:.2f} s")
    taken, ticks, since = gateway.turns_taken(), gateway.ticks, time.monotonic()
    time.sleep(0.5)
    passed, last = time.monotonic() - since, gateway.ticks
    turns = gateway.turns_taken() - taken - (last - ticks)
    require(turns >= 200 * passed, f"{turns} turns in {passed:.1f} s without a datagram")
    gateway.end("it is over")
    require(Due(time.time() - 60).late() < 1, "a clock that is set forward makes what was just written late")
    return "moves nothing, makes nothing late, and they are counted"


class Watched(dict):
    """A book of open offers that notes whether their signals are over when they come into it."""

    def __init__(self, driver):
        super().__init__()
        self.driver, self.over = driver, []

    def __setitem__(self, call, keys):
        self.over.append(not self.driver.pending)
        super().__setitem__(call, keys)


def a_stall_moves_nothing(program):
    """a gateway that stands still for three seconds while an offer is open"""
    with driving(program) as (driver, _, _):
        driver.offer_secure(1, secure_text(b"offer"))
        time.sleep(0.5)
        gateway, moved = driver.gateway, []
        first = gateway.began
        os.kill(gateway.pid, signal.SIGSTOP)
        time.sleep(3)
        os.kill(gateway.pid, signal.SIGCONT)
        until = time.monotonic() + 2
        while time.monotonic() < until:
            moved.append(gateway.began - first)
            time.sleep(0.005)
        require(max(moved) < 0.05, f"what it knows of the start of its clock moves by {max(moved):.2f} s")
        require(driver.close() == 0, "the status")
    return "the start of its clock stays where it was known to be"


def signals_wait_little(program):
    """ticks, with steps of a second"""
    with driving(program, step=1.0) as (driver, _, _):
        gateway, book = driver.gateway, Watched(driver)
        driver.open_keys = book

        def reach():
            return gateway.began + gateway.last / 1000 - time.time()

        def most_in_a_second():
            reached, until = [reach()], time.monotonic() + 1.5
            while time.monotonic() < until:
                time.sleep(0.01)
                reached.append(reach())
            return max(reached)
        driver.offer_secure(1, secure_text(b"offer"))
        require(book.over == [False], "the offer is open only behind its signal")
        # So long behind a signal they would be short anyway. The tick under way may be long yet, and a machine that is
        # busy makes what the driver knows of the gateway's clock late; with long steps no such time is without a long one.
        time.sleep(1.2)
        first = gateway.last
        wait_until(lambda: most_in_a_second() < 0.2, "ticks that reach less than 0.2 s ahead while an offer is open")
        require(gateway.last > first + 500, "ticks don't go on")
        driver.reject(1)
        wait_until(lambda: reach() > 0.5, "long steps again")
    return "reach less than 0.2 s ahead while an offer is open"


def a_long_tick_comes_before_the_signal(program):
    """a signal that is told while the length of a tick is thought of"""
    thinks = threading.Event()

    def expects():
        if not thinks.is_set():
            thinks.set()
            time.sleep(0.5)
        return False

    spoken, signal = Spoken(*[(0, PROBED)] * 1_000, each=True), b"bye 7\n"
    gateway = Gateway(spoken, step=1.0, expects=expects)
    require(thinks.wait(PATIENCE), "no tick")
    gateway.tell("bye", "7")
    wait_until(lambda: signal in spoken.heard, "the signal")
    before = spoken.heard[:spoken.heard.index(signal)]
    gateway.end("it is over")
    require(any(line.startswith(b"tick ") for line in before), f"a long tick is written behind it: {before}")
    return "stands behind it"


def what_waits_is_told(program):
    """datagrams that wait in a socket"""
    with driving(program, wait=PATIENCE) as (driver, warned, _):
        call = Call(driver, 1)
        gateway = driver.gateway
        os.kill(gateway.pid, signal.SIGSTOP)
        wait_until(lambda: is_stopped(gateway.pid), "the gateway to stand still")
        for packet in packets(100):
            call.ends[1].sendto(packet, (HOST, call.ports[2]))
        wait_until(lambda: getattr(gateway.sockets().get(PLAIN_RTP), "waiting", 0), "datagrams that wait", Seen(driver, warned))
        wait_until(lambda: any("wait in sockets of 1 ports" in line for line in warned), "a warning", Seen(driver, warned))
        require(driver.waiting.get(PLAIN_RTP), f"what waits: {driver.waiting}")
        os.kill(driver.gateway.pid, signal.SIGCONT)
        require(len(taken(call.ends[0], 100)) == 100, "they don't all arrive")
        call.close()
    return "are told, and then all arrive"


def signals_of_the_system(program):
    """signals of the system to the gateway's process"""
    with driving(program) as (driver, _, ended):
        call = Call(driver, 1)
        for number in WITHHELD:
            os.kill(driver.gateway.pid, number)
        call.talk(50, "behind signals")
        call.close()
        require(driver.close() == 0 and not ended, f"the status, and {ended}")
    return f"{len(WITHHELD)} that are for its driver don't come to it"


def a_unit_keeps_it(program):
    """a gateway behind two FIFOs"""
    with tempfile.TemporaryDirectory() as folder:
        lines, outcomes = (Path(folder) / name for name in ("lines", "outcomes"))
        os.mkfifo(lines), os.mkfifo(outcomes)
        command = f'exec "{program}" relay --turns 1000000 < "{lines}" > "{outcomes}"'
        for _ in range(2):
            with subprocess.Popen(["sh", "-c", command]) as run:
                with driving(Fifos(lines, outcomes)) as (driver, _, _):
                    call = Call(driver, 1)
                    call.talk(50, "behind FIFOs")
                    call.close()
                require(run.wait(PATIENCE) == 0, f"its status is {run.returncode}")
    return "two in turn, 50 of 50 packets each way"


def unjoined_by(signal, *calls):
    """The call because of which a line isn't obeyed, and the cause."""
    try:
        signal(*calls)
    except Unjoined as fault:
        return fault.call, str(fault)
    return None


def calls_are_joined(program):
    """two calls that are joined"""
    with driving(Program(program, bridges=True)) as (driver, _, _):
        pair = Pair(driver)
        driver.join(1, 2)
        require(driver.joined == {1: 2, 2: 1}, f"the pairs are {driver.joined}")
        pair.talk(50, "joined")
        pair.ends[0].sendto(packets(1)[0], (HOST, driver.ports(1)[2]))
        pair.sends(0, packets(1)[0].ljust(TOO_LONG, b"x"))
        lost = driver.ports(2)[2], "TooLong"
        wait_until(lambda: driver.lost[lost] and driver.drops[PLAIN_RTP, "PortUnused"], "what is lost, and dropped")
        require(driver.lost == {lost: 1} and sum(driver.drops.values()) == 1, f"{driver.lost}, {driver.drops}")
        driver.manual(3, SECURE, PLAIN, Key().field(), Key().field())
        for wanted, *calls in (((1, "Joined 2"), 1, 3), ((2, "Joined 1"), 3, 2), ((9, "CallUnknown"), 3, 9), ((3, "Same"), 3, 3)):
            require(unjoined_by(driver.join, *calls) == wanted, f"{calls} aren't joined for another cause than {wanted}")
        driver.part(2)
        require(not driver.joined, "they are parted, and a pair is there")
        require(unjoined_by(driver.part, 2) == (2, "NotJoined"), "parted twice")
        driver.join(2, 1)
        pair.talk(50, "joined again")
        pair.close()
        require(driver.close() == 0, "the status")
    with driving(program) as (driver, _, _):
        pair = Pair(driver)
        refused = [refusal_of(driver.join, 1, 2), refusal_of(driver.part, 1)]
        pair.close()
        require(all(cause.startswith("Field") for cause in refused), f"without the word --bridge it is {refused}")
        require(driver.close() == 0, "a relay that joins no calls is told to")
    with contextlib.suppress(ValueError):
        Program(program, muxes=True, bridges=True)
        raise Wrong("a relay with shared ports and joined calls")
    return "100 of 100 packets cross each way, each cause and each loss is told"


def an_end_parts(program):
    """a joined call that ends"""
    parted = []
    with driving(Program(program, bridges=True), on_part=lambda *of: parted.append(of)) as (driver, _, ended):
        pair = Pair(driver)
        driver.join(1, 2)
        driver.bye(2)
        require(driver.joined == {} and list(driver.slots) == [1], f"{driver.joined}, {driver.slots}")
        wait_until(lambda: parted == [(1, 2)], "that it is told")
        driver.bye(1)
        pair.close()
        pair, told = Pair(driver), []
        tells = driver.gateway.tell_all
        driver.gateway.tell_all = lambda lines: told.append([" ".join(line) for line in lines]) or tells(lines)
        driver.join(1, 2)
        driver.bye(1, 2)
        pair.close()
        require(told == [["join 1 2"], ["bye 1", "bye 2"]], f"a tick may stand between two ends: {told}")
        offer = text_of(b"offer", NOBODY[1], b"RTP/AVP").replace(HOST.encode(), NOBODY[0].encode())
        driver.offer_plain(3, offer)
        driver.manual(4, SECURE, NOBODY, Key().field(), Key().field())
        driver.answer(3, secure_text(b"answer"), joins=4)
        require(driver.joined == {3: 4, 4: 3}, f"joined with its answer: {driver.joined}")
        require(told[-1][1:] == ["join 3 4"] and told[-1][0].startswith("answer 3 - "), "a tick may stand before it is joined")
        os.kill(driver.gateway.pid, signal.SIGKILL)
        wait_until(lambda: sorted(ended) == [(3, "gone"), (4, "gone")], "calls that have ended with the process")
        require(not driver.joined and len(parted) == 2, f"parted {parted}")
    return "is told with its partner, two end together, and one is joined with its answer"


CHECKS = [
    counts_from_the_start, each_has_its_own, a_late_outcome_ends_the_process, calls_are_told_and_made_anew, it_drains,
    it_drains_between_two, close_waits_for_drops, fields_are_fields, ports_and_answers_are_looked_at, sockets_overflow, telephones_have_their_ways,
    keys_are_told_again, a_rejected_offer_spends_nothing, the_log_has_no_keys, outcomes_come_in_parts, whose_refusal,
    many_signals_wait, an_answer_may_be_late, a_stall_moves_nothing, signals_wait_little, a_long_tick_comes_before_the_signal,
    what_waits_is_told, signals_of_the_system, a_unit_keeps_it, calls_are_joined, an_end_parts,
]


def main(program, *names):
    program = str(Path(program).resolve())
    has_own_loopback()
    chosen = [check for check in CHECKS if check.__name__ in names] or CHECKS
    return 0 if all(is_right(check, program) or is_right(check, program) for check in chosen) else 1


def is_right(check, program):
    """Plays one check and says what came of it. A machine that is busy may be late in ways that no gateway and no driver
    causes, so one that goes wrong is played once more, and both are told."""
    try:
        print(f"driver: {check.__doc__}: {check(program)}", flush=True)
    except Wrong as fault:
        print(f"driver: {check.__doc__}: WRONG: {fault}", flush=True)
        return False
    return True


if __name__ == "__main__":
    sys.exit(main(*words_or_usage(__doc__)))
