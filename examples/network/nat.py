"""Calls of telephones behind address translation that changes ports. See nat.sh, which runs this in the gateway's
namespace."""

import ctypes
import itertools
import os
import re
import signal
import socket
import subprocess
import sys
import tempfile
import threading
import time
from pathlib import Path

TOP = Path(__file__).resolve().parents[2]
sys.path[:0] = [str(TOP / "examples/live"), str(TOP / "tools")]

from ends import FRAME, packets_of, program, speech, wait_until  # noqa: E402
from sealed import MasterKey, Opening, Sealing, crypto_line, crypto_of, lines  # noqa: E402
from call import NAME, SUITE, said  # noqa: E402
from ng.bencode import decoded, encoded  # noqa: E402
from watch import Watch  # noqa: E402

NG = ("127.0.0.1", 2223)
GATEWAY = {"secure": "10.1.0.1", "plain": "10.2.0.1"}
INSIDE = {"secure": "192.168.7.2", "plain": "192.168.8.2"}
OUTSIDE = {"secure": "10.1.0.2", "plain": "10.2.0.2"}
FAR = {"secure": "plain", "plain": "secure"}
MOVED, STRANGE = "10.1.0.3", "10.2.0.9"
# The gateway's first port of a side, for the first call.
PORTS = {"secure": 20_000, "plain": 20_002}
PACKETS, PACE, REPORTS = 50, 0.01, 5
# What comes has come within so many seconds, on a busy machine too; what doesn't isn't waited for as long.
COMES, QUIET = 30, 0.5
# A gateway that comes to no turn for seconds passes nothing on, and nothing is to be learnt of that here.
LATE = re.compile("turns ran late, by [0-9]{4,} ms|no outcome came within|media are late")
REPORT = bytes.fromhex("80c90001") + (0x5EED).to_bytes(4, "big")
LIBC, CLONE_NEWNET = ctypes.CDLL(None, use_errno=True), 0x40000000
NUMBERS = itertools.count(46_000, 2)


def taken(end):
    """What has arrived at a socket, with where it came from."""
    found = []
    while True:
        try:
            found.append(end.recvfrom(4_096))
        except BlockingIOError:
            return found


def bound(space, host, port):
    """A socket in a namespace: a thread goes there, makes it and ends."""
    made = []

    def make():
        with open(f"/run/netns/{NAME}-{space}", "rb") as file:
            if LIBC.setns(file.fileno(), CLONE_NEWNET):
                raise OSError(ctypes.get_errno(), "setns")
        end = socket.socket(socket.AF_INET, socket.SOCK_DGRAM)
        end.bind((host, port))
        end.setblocking(False)
        made.append(end)

    goes = threading.Thread(target=make)
    goes.start(), goes.join()
    return made[0]


class Telephone:
    """A telephone behind translation: RTP and RTCP. `outside` is where its SIP messages come from."""

    def __init__(self, side):
        self.side, self.outside, self.own, self.opening, self.seq = side, OUTSIDE[side], None, None, 1_000
        self.begin_anew()

    def begin_anew(self):
        """New sockets, and so new ports at the translation."""
        self.port = next(NUMBERS)
        self.ends = [bound(self.side, INSIDE[self.side], self.port + above) for above in (0, 1)]

    def text(self, *more):
        """What it offers or answers; the one that encrypts has a new key each time."""
        host, profile, keys = INSIDE[self.side], "RTP/AVP", []
        if self.side == "secure":
            self.own = MasterKey(SUITE, os.urandom(30))
            profile, keys, self.sealing = "RTP/SAVP", [crypto_line(1, self.own)], Sealing(self.own)
        return lines("v=0", f"o=- 1 1 IN IP4 {host}", "s=-", f"c=IN IP4 {host}", "t=0 0",
                     f"m=audio {self.port} {profile} 0", *keys, *more)

    def takes(self, text):
        if self.side == "secure":
            self.opening = Opening(next(iter(crypto_of(text).values())))

    def send(self, packet):
        self.ends[0].sendto(self.sealing.seal(packet) if self.own else packet, (GATEWAY[self.side], PORTS[self.side]))

    def report(self):
        octets = self.sealing.seal_report(REPORT) if self.own else REPORT
        self.ends[1].sendto(octets, (GATEWAY[self.side], PORTS[self.side] + 1))

    def heard(self, wanted=(0, 0)):
        """How many packets and reports arrived, once so many have; only those that open are counted."""
        count, until = [0, 0], time.monotonic() + (COMES if any(wanted) else QUIET)
        opens = (self.opening.open, self.opening.open_report) if self.opening else (bool, bool)
        while True:
            for kind, end in enumerate(self.ends):
                count[kind] += sum(bool(opens[kind](octets)) for octets, _ in taken(end))
            if time.monotonic() > until or any(wanted) and tuple(count) >= wanted and count[1] >= wanted[1]:
                return tuple(count)
            time.sleep(0.05)

    def close(self):
        for end in self.ends:
            end.close()


class Daemon:
    """srtpgw-ng, asked as a SIP server asks it."""

    all_of_them = []

    def __init__(self, folder, *given):
        self.all_of_them.append(self)
        number = len(self.all_of_them)
        self.outcomes, self.log = folder / f"outcomes-{number}", folder / f"log-{number}"
        words = ["--secure", GATEWAY["secure"], "--plain", GATEWAY["plain"], "--program", program(),
                 "--outcomes", self.outcomes, *given]
        with open(self.log, "wb") as log:
            self.process = subprocess.Popen([sys.executable, TOP / "tools/ng", *words], stdout=log, stderr=log)
        self.calls, self.cookies = itertools.count(), itertools.count()
        wait_until(lambda: "answers NG requests" in self.said() or self.process.poll() is not None, 120, "the daemon")

    def said(self):
        return self.log.read_text(errors="replace")

    def has_said(self, pattern, seconds=COMES):
        until = time.monotonic() + seconds
        while not re.search(pattern, self.said()):
            if time.monotonic() > until:
                return False
            time.sleep(0.1)
        return True

    def asks(self, command, **fields):
        with socket.socket(socket.AF_INET, socket.SOCK_DGRAM) as end:
            end.settimeout(20)
            message = {key.replace("_", "-"): value for key, value in fields.items()}
            end.sendto(b"%d " % next(self.cookies) + encoded({**message, "command": command}), NG)
            answer = decoded(end.recv(65_536).partition(b" ")[2])
        assert answer[b"result"] == b"ok", answer
        return answer

    def agree(self, call, offering, answering, *more, by_source=True):
        """An offer and its answer. The texts say the telephones' own addresses; with `by_source` the daemon takes those
        that their messages come from."""
        flag = "SIP-source-address" if by_source else "trust-address"
        to = "RTP/AVP" if offering.side == "secure" else "RTP/SAVP"
        near, far = f"near-{offering.side}", f"far-{answering.side}"
        offer = self.asks("offer", call_id=call, from_tag=near, transport_protocol=to, flags=[flag],
                          sdp=offering.text(*more), received_from=["IP4", offering.outside],
                          **({"to_tag": far} if more else {}))
        answer = self.asks("answer", call_id=call, from_tag=near, to_tag=far, flags=[flag], sdp=answering.text(*more),
                           received_from=["IP4", answering.outside])
        answering.takes(offer[b"sdp"].decode()), offering.takes(answer[b"sdp"].decode())

    def end(self):
        self.process.send_signal(signal.SIGTERM)
        status = self.process.wait(60)
        if status:
            print(self.said())
        return status


WHOLE, NOTHING = (PACKETS, REPORTS), ((0, 0), (0, 0))


def talk(secure, plain, wanted=(WHOLE, WHOLE), begins=True):
    """Packets and reports both ways at once: how many came to the secure and to the plain one. A telephone that `begins`
    sends some before, by which the other side's way is known."""
    until = time.monotonic() + (COMES if begins and all(map(any, wanted)) else QUIET)
    known = {secure: False, plain: False}
    while begins and not all(known.values()) and time.monotonic() < until:
        for telephone in known:
            telephone.send(next(packets_of(bytes(FRAME), telephone.seq)))
            telephone.report()
            telephone.seq += 1
        time.sleep(0.1)
        for telephone, way in known.items():
            packets, reports = (taken(end) for end in telephone.ends)
            known[telephone] = way or bool(packets and reports)
    time.sleep(QUIET)
    secure.heard(), plain.heard()
    streams = [list(packets_of(speech(1)[:FRAME * PACKETS], telephone.seq)) for telephone in (secure, plain)]
    for place, pair in enumerate(zip(*streams)):
        for telephone, packet in zip((secure, plain), pair):
            telephone.send(packet)
            telephone.seq += 1
            if place % (PACKETS // REPORTS) == 0:
                telephone.report()
        time.sleep(PACE)
    return secure.heard(wanted[0]), plain.heard(wanted[1])


def both(what, secure, plain, wanted=(WHOLE, WHOLE), **more):
    """Whether so much arrives at both."""
    arrived = talk(secure, plain, wanted, **more)
    print(f"{what}: to the secure side {arrived[0]}, to the plain side {arrived[1]} packets and reports", flush=True)
    return said(f"{what}: {wanted[0]} and {wanted[1]}", arrived == wanted)


def pair():
    return Telephone("secure"), Telephone("plain")


def a_call(daemon, what, offering, check=both, **more):
    """A call of its own that a side offers, looked at by `check`."""
    call, telephones = f"call-{next(daemon.calls)}", dict(zip(("secure", "plain"), pair()))
    daemon.agree(call, telephones[offering], telephones[FAR[offering]], **more)
    try:
        return check(what, telephones["secure"], telephones["plain"])
    finally:
        daemon.asks("delete", call_id=call, from_tag=f"near-{offering}")
        for telephone in telephones.values():
            telephone.close()


# ---- without the rules

def without(folder):
    daemon = Daemon(folder)
    watch = Watch(daemon.outcomes, 2.0)

    def nothing(what, secure, plain):
        watch.look()
        good, until = both(what, secure, plain, NOTHING), time.monotonic() + COMES
        wanted = [rf"{side} side's packets come from {OUTSIDE[side]}:\d+, and media go to {OUTSIDE[side]}:" for side in OUTSIDE]
        while time.monotonic() < until:
            for telephone in (secure, plain):
                telephone.send(next(packets_of(bytes(FRAME), telephone.seq)))
                telephone.seq += 1
            time.sleep(0.2)
            words = watch.look()["calls"][0]["media"][0]["says"]
            if all(any(re.search(one, line) for line in words) for one in wanted):
                print(f"watch.py says {words}")
                return good
        return good & said("watch.py says where packets come from and where they go", False)

    good = a_call(daemon, "without --latch", "secure", nothing)
    return good & said("the daemon ends with 0", daemon.end() == 0)


# ---- with them

def stranger(what, secure, plain):
    """Behind the telephones' first packets nobody moves anything, by the same address either."""
    good = both(f"{what}, before", secure, plain)
    ends = {side: bound(f"{side}-nat", OUTSIDE[side], 39_000) for side in OUTSIDE}
    other = bound("plain-nat", STRANGE, 39_001)
    for place in range(20):
        for side, end in ends.items():
            end.sendto(b"\x80\0" + bytes(170), (GATEWAY[side], PORTS[side]))
        other.sendto(b"\x80\0" + bytes(170), (GATEWAY["plain"], PORTS["plain"]))
        time.sleep(PACE)
    good &= both(f"{what}, behind it", secure, plain)
    got = [len(taken(end)) for end in (*ends.values(), other)]
    return good & said(f"nothing comes to a stranger at the same addresses or another one: {got}", got == [0, 0, 0])


def first(what, secure, plain):
    """What a stranger gets who sends before the telephone does."""
    good = True
    wait_until(lambda: str(PORTS["secure"]) in shows("set", "ip", "srtpgw_latch", "followed"), what="the rules")
    other = bound("plain-nat", STRANGE, 39_003)
    other.sendto(bytes(172), (GATEWAY["plain"], PORTS["plain"]))
    end = bound("secure-nat", OUTSIDE["secure"], 39_002)
    end.sendto(bytes(182), (GATEWAY["secure"], PORTS["secure"]))
    wait_until(lambda: "39002" in shows("map", "ip", "srtpgw_latch", "to_port"), COMES, "the first packet")
    plain_text = f"{what}, once the plain telephone is known"
    both(plain_text, secure, plain, ((0, REPORTS), WHOLE))
    taken(end), taken(other)
    (secure_packets, _), (plain_packets, _) = talk(secure, plain, ((0, REPORTS), WHOLE))
    got, strange = [octets for octets, _ in taken(end)], len(taken(other))
    print(f"a stranger at another address sends first: {strange} packets come to him, {plain_packets} to the telephone")
    good &= said("he gets nothing", strange == 0 and plain_packets == PACKETS)
    sealed = sum(bool(secure.opening.open(octets)) for octets in got)
    print(f"a stranger at the secure telephone's own address sends first: {len(got)} packets come to him, all sealed: "
          f"{sealed == len(got)}; {secure_packets} to the telephone")
    return good & said("he gets the sealed packets, and the telephone none (docs/network.md)",
                       len(got) >= PACKETS and sealed == len(got) and secure_packets == 0)


def translated_to(address):
    rule = f"oifname outside ip saddr {INSIDE['secure']} snat to {address} random"
    text = f"flush chain ip translation leaving\nadd rule ip translation leaving {rule}\n"
    subprocess.run(["ip", "netns", "exec", f"{NAME}-secure-nat", "nft", "-f", "-"], input=text, text=True, check=True)


def moves(daemon):
    """The secure telephone gets another address and other ports; and tells of it."""
    secure, plain = pair()
    daemon.agree("moves", secure, plain)
    good = both("before it moves", secure, plain)
    translated_to(MOVED)
    secure.begin_anew()
    good &= both("it has moved and hasn't told", secure, plain, ((0, 0), WHOLE), begins=False)
    good &= said("a line tells of it", daemon.has_said(
        rf"secure RTP of medium 0: packets come from {MOVED}:\d+, too, and media go on to {OUTSIDE['secure']}:\d+"))
    secure.outside = MOVED
    daemon.agree("moves", secure, plain, "a=x-moved")
    good &= both("it has told", secure, plain)
    good &= said("a line tells where it is", daemon.has_said(
        rf"secure RTP of medium 0 is at {MOVED}:\d+, and not at {MOVED}:{secure.port} as its text says: media go there"))
    good &= held(daemon, secure, plain)
    daemon.asks("delete", call_id="moves", from_tag="near-secure")
    translated_to(OUTSIDE["secure"])
    return good


def held(daemon, secure, plain):
    """A telephone that is held and sends nothing hears on; and so when it is back."""
    for word in ("a=sendonly", "a=sendrecv"):
        text = secure.text
        secure.text = lambda *more, kept=secure.own, of=text: kept_text(secure, kept, *more)
        daemon.agree("moves", secure, plain, word)
        secure.text = text
        sent = 0
        for packet in itertools.islice(packets_of(speech(1), plain.seq), 25):
            plain.send(packet)
            plain.seq, sent = plain.seq + 1, sent + 1
            time.sleep(PACE)
        arrived = secure.heard((sent, 0))[0]
        if not said(f"behind {word} {arrived} of {sent} come to a telephone that sends nothing", arrived == sent):
            return False
    return both("when it is back", secure, plain)


def kept_text(secure, own, *more):
    """The text that it had, under the key that it had."""
    host = INSIDE["secure"]
    secure.own = own
    return lines("v=0", f"o=- 1 1 IN IP4 {host}", "s=-", f"c=IN IP4 {host}", "t=0 0",
                 f"m=audio {secure.port} RTP/SAVP 0", crypto_line(1, own), *more)


def shows(*words):
    return subprocess.run(["nft", "list", *words], capture_output=True, text=True).stdout


def with_ports(folder):
    daemon = Daemon(folder, "--latch", "port", "--latch-seconds", "60")
    good = all([
        a_call(daemon, "the secure side offers", "secure"), a_call(daemon, "the plain side offers", "plain"),
        a_call(daemon, "a stranger", "secure", stranger),
        said("a line tells of the stranger", daemon.has_said(r"plain RTP of medium 0: packets come from \S+, too")),
        a_call(daemon, "a stranger is first", "plain", first), moves(daemon)])
    wait_until(lambda: "elements" not in shows("map", "ip", "srtpgw_latch", "to_port"), COMES, "the end of calls")
    left = shows("map", "ip", "srtpgw_latch", "to_port") + shows("set", "ip", "srtpgw_latch", "followed")
    good &= said("nothing is left of calls that are over", "elements" not in left and "to_port" in left)
    good &= said("the daemon ends with 0", daemon.end() == 0)
    good &= said("and takes its rules away", "srtpgw_latch" not in shows("tables"))
    print(*(line for line in daemon.said().splitlines() if "medium 0" in line), sep="\n")
    return good


def with_limit(folder):
    """A telephone that sends first when the time is over isn't learnt."""
    daemon = Daemon(folder, "--latch", "port", "--latch-seconds", "0.5")

    def late(what, secure, plain):
        def is_over():
            return str(PORTS["plain"]) in shows("set", "ip", "srtpgw_latch", "followed") and not any(
                str(port) in shows("set", "ip", "srtpgw_latch", "window") for port in PORTS.values())
        wait_until(is_over, COMES, "the end of the time")
        return both(what, secure, plain, NOTHING)

    good = a_call(daemon, "behind the time", "secure", late)
    good &= said("a line tells of it", daemon.has_said(r"plain RTP of medium 0: packets come from \S+, which isn't learnt"))
    return good & said("the daemon ends with 0", daemon.end() == 0)


def with_any(folder):
    """The texts' own addresses, which nobody reaches from outside."""
    daemon = Daemon(folder, "--latch", "any", "--latch-seconds", "60")
    good = a_call(daemon, "any address, the secure side offers", "secure", by_source=False)
    good &= a_call(daemon, "any address, the plain side offers", "plain", by_source=False)
    return good & said("the daemon ends with 0", daemon.end() == 0)


def main():
    with tempfile.TemporaryDirectory() as folder:
        try:
            good = all([check(Path(folder)) for check in (without, with_ports, with_limit, with_any)])
        except (AssertionError, OSError, subprocess.TimeoutExpired) as fault:
            print(f"{type(fault).__name__}: {fault}")
            good = False
        finally:
            for daemon in Daemon.all_of_them:
                daemon.process.kill()
        late = [line for daemon in Daemon.all_of_them for line in daemon.said().splitlines() if LATE.search(line)]
    if not good and late:
        print(f"nat: not run: the machine has no turns for the gateway: {late[-1]}")
        return 77
    print("nat: as it should be" if good else "nat: NOT as it should be")
    return 0 if good else 1


if __name__ == "__main__":
    sys.exit(main())
