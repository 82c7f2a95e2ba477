#!/usr/bin/env python3
"""Refuses the program each allocation of a run in turn, and each call of the system, alone and with all behind it, and looks
at what it answers.

    interop/refused.py PROGRAM [SCRIPT..]

Each script (by default some of `examples` and `interop/rows`) is played with all memory first, by `replay` or by the words
beside it; its output must be the file beside it. Then, with the Nth allocation refused, for each N, the program must answer
`no memory` (6) with a prefix of that output, or, where it can do without, done (0) with the whole of it. Relays over their
own ports and a demonstration are played, too; what a relay's sockets can't have is `link failed` (5). `refuse.c` refuses.

Of each command, every read, write, bind, receive, wait, reading of the clock and draw fails in turn, too: the run must end
with that call's status and a prefix of the output; so must one whose clock tells a moment before 1970. A send that fails
is told as `unsent`. A call that was interrupted, or would have had to wait, is made again: the output is the whole. A relay
to which datagrams come fast rests, but for no millisecond, and once before a wait."""

import errno
import os
import subprocess
import sys
import tempfile
from pathlib import Path

from calls import KEY, ONES
from joined import THREES, TOO_LONG, TWOS
from loopback import has_own_loopback
from signals import BOB_ANSWERS, hexed
from srtp import KNOWN_SEALED, rtp
from usage import words_or_usage

TOP = Path(__file__).resolve().parent.parent
DONE, LINK, NO_MEMORY = 0, 5, 6
SCRIPTS = [
    "examples/both-ways",
    "examples/with-rtcp",
    "interop/rows/offered-by-the-secure-side",
    "interop/rows/offered-by-the-plain-side",
    "interop/rows/earlier-generation",
    "interop/rows/mikey-by-the-gateway",
    "interop/rows/mikey-by-the-peer",
    "interop/rows/session-of-two-media",
    "interop/rows/keys-of-before-by-datagrams-moments",
    "interop/rows/migrated-lines-of-every-kind",
    "interop/rows/muxed-media",
    "interop/rows/bridged-in-version-2",
    "interop/rows/captured-packet-in-version-2",
    "interop/rows/captured-frames-that-are-malformed",
    "interop/rows/relayed-unsent-of-joined-calls",
]
# The status with which a run ends where such a call fails, and what it says; and calls that are to be made again.
OF_LINKS = "socket", "bind", "ioctl", "epoll_create1", "epoll_ctl", "epoll_wait", "recvfrom"
STATUSES = {
    "read": (3, b"read failed"), "write": (4, b"write failed"), **dict.fromkeys(OF_LINKS, (5, b"link failed")),
    **dict.fromkeys(("clock_gettime", "1969"), (7, b"clock failed")), "getentropy": (8, b"noise failed"),
}
PASSING = [
    ("read", errno.EINTR), ("read", errno.EAGAIN), ("write", errno.EINTR), ("write", errno.EAGAIN), ("sendto", errno.EINTR),
    ("sendto", errno.EAGAIN), ("recvfrom", errno.EINTR), ("epoll_wait", errno.EINTR),
]


def of_name(name):
    """The words, the input and the output of a row or an example."""
    of = lambda end: Path(TOP, name + end).read_bytes() if Path(TOP, name + end).exists() else b""
    return of(".words").decode().split() or ["replay"], of(".script") + of(".pcap"), of(".out")


def of_a_joined_relay():
    """A relay of two joined calls that talks to itself: what crosses to the second one, whose peer it is itself, comes to a
    plain port of the first one, from outside; what crosses to the first one comes to its own secure port, where its tag
    doesn't fit. Before that something is lost, and behind it are calls that aren't joined, an offer whose noise is drawn,
    and the end."""
    calls = [("20000", KEY, ONES), ("20002", TWOS, THREES)]
    sealed = [f"in 20016 127.0.0.1:20002 {TWOS.srtp(rtp(7), 7).hex()}", f"in 20000 127.0.0.1:20000 {KNOWN_SEALED.hex()}"]
    lines = ["srtpgw 1"] + [
        f"manual {call} 127.0.0.1:{secure} 127.0.0.1:41000 00000000 64 {opening.field()} {sealing.field()}"
        for call, (secure, opening, sealing) in enumerate(calls, 1)
    ]
    lines += ["join 1 2", f"in 20000 127.0.0.1:20000 {KEY.srtp(TOO_LONG, 9).hex()}"]
    lines += [line for each in sealed for line in (each, "tick 0", "tick 0")]
    lines += ["join 2 1", "part 2", "part 1", "join 2 1"]
    lines += [f"offer-plain 7 sdes - {hexed(BOB_ANSWERS)}", "join 7 1", "bye 1"]
    return ["relay", "--turns", "100", "--bridge"], "".join(line + "\n" for line in lines).encode(), None


def to_itself(*lines):
    """These lines behind the calls of a relay that talks to itself: what the first call puts out comes to the second one's
    plain port, and what that one seals comes to the first one's secure port, where its tag doesn't fit."""
    calls = [("40000", "20018", KEY, ONES), ("20000", "41010", TWOS, THREES)]
    made = [
        f"manual {call} 127.0.0.1:{secure} 127.0.0.1:{plain} 00000000 64 {opening.field()} {sealing.field()}"
        for call, (secure, plain, opening, sealing) in enumerate(calls, 1)
    ]
    return "".join(line + "\n" for line in ["srtpgw 1", *made, *lines]).encode()


def of_a_relay(*more):
    """Such a relay, and an offer whose noise is drawn."""
    lines = [f"in 20000 127.0.0.1:40000 {KNOWN_SEALED.hex()}", *6 * ["tick 0"], f"offer-plain 7 sdes - {hexed(BOB_ANSWERS)}", "bye 1"]
    return ["relay", "--turns", "100", *more], to_itself(*lines), None


def of_a_loaded_relay():
    """Such a relay to which packets come, one by one, as fast as it takes them."""
    packets = [KEY.srtp(rtp(seq), seq).hex() for seq in range(1, 101)]
    return ["relay", "--turns", "200"], to_itself(*(f"in 20000 127.0.0.1:40000 {each}\ntick 0\ntick 0" for each in packets)), None


class Refusing:
    """A run of the program, with what it must write, or what it wrote with nothing refused."""

    def __init__(self, program, shim, room, words, script, wanted):
        self.program, self.shim, self.room, self.words, self.script = program, shim, room, words, script
        self.whole = self.play()[1] if wanted is None else wanted

    def play(self, number=0, rest=False, count=None, call=None, error=errno.EIO):
        told = {**os.environ, "LD_PRELOAD": self.shim, "REFUSE": str(number)}
        told.update({"REFUSE_REST": "1"} if rest else {})
        told.update({"REFUSE_COUNT": str(count)} if count else {})
        told.update({"REFUSE_CALL": call, "REFUSE_ERROR": str(error)} if call else {})
        ran = subprocess.run([self.program, *self.words], input=self.script, capture_output=True, env=told, timeout=60)
        return ran.returncode, ran.stdout, ran.stderr

    def fails(self, what):
        sys.exit(f"{' '.join(self.words)}: {what}")

    def counts(self, call=None):
        """How many allocations a run makes, or calls of that name."""
        count = self.room / "count"
        found = self.play(count=count, call=call)
        if found != (DONE, self.whole, b""):
            self.fails(f"other outcomes than wanted with all memory: {found}")
        return int.from_bytes(count.read_bytes(), sys.byteorder)

    def allocations(self):
        """How many allocations there were, and how often each answer came."""
        answers, count = {DONE: 0, LINK: 0, NO_MEMORY: 0}, self.counts()
        without = (NO_MEMORY, LINK) if self.words[0] == "relay" else (NO_MEMORY,)
        for number in range(1, count + 1):
            for rest in (False, True):
                status, written, _ = self.play(number, rest)
                is_done = status == DONE and written == self.whole
                if not (is_done or status in without and self.whole.startswith(written)):
                    self.fails(f"allocation {number} refused{' with all behind it' * rest}: status {status}")
                answers[status] += 1
        return count, answers

    def calls(self):
        """How often a call of the system failed in a run that ended by it."""
        failed = 0
        for call, (status, said) in STATUSES.items():
            for number in range(1, self.counts(call) + 1):
                for rest in (False, True):
                    found, written, told = self.play(number, rest, call=call)
                    if (found, told) != (status, b"srtpgw: " + said + b"\n") or not self.whole.startswith(written):
                        self.fails(f"{call} {number} failed: {found} {told!r}")
                    failed += 1
        return failed

    def passes(self):
        """How often a call was to be made again, in a run that did so."""
        passed = 0
        for call, error in PASSING:
            for number in range(1, self.counts(call) + 1):
                found = self.play(number, call=call, error=error)
                if found != (DONE, self.whole, b""):
                    self.fails(f"{call} {number} was to be made again ({errno.errorcode[error]}): {found}")
                passed += 1
        return passed

    def unsent(self):
        """How many packets were told as unsent, since that call failed."""
        whole = self.whole.splitlines()
        kept = [line for line in whole if not line.startswith(b"drop ")]
        count = self.counts("sendto")
        for number in range(1, count + 1):
            status, written, said = self.play(number, call="sendto")
            lines = written.splitlines()
            others = [line for line in lines if not line.startswith((b"unsent ", b"drop "))]
            is_one = len(lines) == len(whole) and sum(line.startswith(b"unsent ") for line in lines) == 1
            if (status, said, others) != (DONE, b"", kept) or not is_one:
                self.fails(f"sendto {number} failed: {status} {said!r} {lines}")
        return count

    def rests(self):
        """How often it rested; a rest of more than a millisecond, or a second one before a wait, would have ended it."""
        return self.counts("nanosleep") or self.fails("it never rested")


# The runs in which calls of the system fail, by a row or an example: each command.
OF_CALLS = (
    "examples/both-ways", "interop/rows/muxed-media", "interop/rows/migrated-lines-of-every-kind", "interop/rows/captured-packet-in-version-2",
    "interop/rows/bridged-in-version-2",
)


def main():
    program, *names = words_or_usage(__doc__)
    has_own_loopback()
    program, names = str(Path(program).resolve()), [name.removesuffix(".script") for name in names]
    relays = [(f"a relay{' with ' * bool(more)}{more}", of_a_relay(*more.split())) for more in ("", "--mux", "--bridge")]
    relays += [("a relay of joined calls", of_a_joined_relay())]
    others = [] if names else [*relays, ("a demonstration", (["demo", "1", "0"], b"", None))]
    with tempfile.TemporaryDirectory() as folder:
        room = Path(folder)
        shim = str(room / "refuse.so")
        subprocess.run(["cc", "-O2", "-shared", "-fPIC", "-o", shim, TOP / "interop/refuse.c"], check=True)
        runs = [(name, of_name(name)) for name in names or SCRIPTS] + others
        for name, of in runs:
            allocations, answers = Refusing(program, shim, room, *of).allocations()
            print(f"{name}: {allocations} allocations, {answers[NO_MEMORY] + answers[LINK]} runs without memory, {answers[DONE]} done", flush=True)
        for name, of in [] if names else [(name, of_name(name)) for name in OF_CALLS] + others:
            run = Refusing(program, shim, room, *of)
            failed, passed, unsent = run.calls(), run.passes(), run.unsent()
            print(f"{name}: {failed} runs ended by a call that failed, {passed} made one again, {unsent} told a packet as unsent", flush=True)
        if not names:
            print(f"a loaded relay: {Refusing(program, shim, room, *of_a_loaded_relay()).rests()} rests", flush=True)


if __name__ == "__main__":
    main()
