"""Calls over a gateway process: session descriptions go in and come back, drops are counted.

    driver = Driver("./srtpgw")
    plain_text = driver.offer_secure(7, secure_text)       # hand it on to the plain side
    secure_text = driver.answer(7, plain_answer)           # hand it back; the call is live
    driver.bye(7)
    status = driver.close()

Texts are octets, in and out; a `str` is taken as UTF-8. A call's number is the caller's choice, from 1 to 4294967294.
Each signal waits for its outcomes, up to two steps of the gateway's ticks (`Gateway`), and raises `Refused` where it is
refused, with the call as it was, or `Gone` where the gateway's process has ended, with all its calls. Signals may come
from several threads: those that are told meanwhile are handled behind the same tick, so a server of many calls tells
each call's signals by a thread of a pool. Needs Python 3.8, Linux, and nothing else.
"""

import collections
import concurrent.futures
import contextlib
import logging
import queue
import threading
import time

import fields
from counters import port_of
from fields import Refused, Unjoined, keys_of, octets_of
from gateway import FILES_MOST, Fifos, Gateway, Gone, Program, Taken

__all__ = ["Bounds", "Driver", "Fifos", "Gone", "Program", "Refused", "Taken", "Unjoined"]

# So much may be spent before new calls are refused: an eighth is left for the calls that are there.
Bounds = collections.namedtuple("Bounds", "keys octets messages turns", defaults=[57_344, 7 * 2**27, 896, None])
# The seconds between two looks at the gateway, and between two at the system's tables.
LOOK, LOOK_AROUND = 0.5, 5.0
# What is told: turns that ran late by more seconds, and more octets that wait in one socket, which are some ten packets
# of G.711.
LATE, WAITING = 0.05, 8_192
# The seconds between two starts.
AGAIN = 1.0
# Signals that may make a call.
NEW = {"offer-secure", "offer-plain", "manual"}
# What is answered only where it is refused is followed by the end of call 0, which isn't there: that is always answered.
QUIET, QUIET_END = "quiet", ["refused", "0", "CallUnknown"]


class Signal:
    """A line that was told, of a call or of two, and the outcome that it waits for."""

    def __init__(self, line, calls, last, keys=0):
        self.line, self.calls, self.last, self.keys = line, tuple(map(str, calls)), last, keys
        self.due, self.text, self.refusal, self.result = None, None, None, concurrent.futures.Future()

    def take(self, outcome):
        """Whether this outcome is its last one. Raises ValueError where it isn't one of its own."""
        word, number = outcome[:2]
        if self.last == QUIET and outcome == QUIET_END:
            return True
        if number not in self.calls and not (word == "parted" and outcome[2] in self.calls):
            raise ValueError(f"{word} of call {number}, where one of call {' or '.join(self.calls)} was due")
        if word == "refused":
            self.refusal = Refused(" ".join(outcome[2:]))
        elif word == "unjoined":
            self.refusal = Unjoined(int(number), " ".join(outcome[2:]))
        elif word == "sdp":
            self.text = bytes.fromhex(outcome[3])
            self.keys += keys_of(self.text) if outcome[2] == "secure" else 0
        return self.last != QUIET and word in ("refused", "unjoined", self.last)

    def finish(self):
        if self.refusal:
            self.result.set_exception(self.refusal)
        else:
            self.result.set_result(self.text)


class Driver:
    """Keeps the calls of one gateway. `program` is its path, or a `Program` or `Fifos` of gateway.py; `options` are those
    of `Gateway`.

    `drops` counts dropped datagrams by `(port, cause)`, `lost` packets that were opened in one call and couldn't be sealed
    in the one that it is joined with, by that one's plain port and the cause, `unsent` packets that weren't sent by port,
    `overflows` datagrams that the system threw away in front of a port; `slots` has the slot of each call that is there, and
    `joined` the other call of each that is in a pair. Every five seconds `late` has by how many seconds turns ran late
    meanwhile, and `waiting` the octets that wait in sockets, by port.

    `on_end(call, why)` is told of a call that ended by itself: `idle` where nothing of it was put out for a minute,
    `gone` where the gateway's process has ended. `on_part(call, ended)` is told of a call whose partner has ended, in
    whichever way but with the process: what is opened in it goes out on its plain side from then on. Both run in a thread
    of the driver's own, and may tell signals.

    With `restarts` the next process is started where one has ended, and is told the pre-shared keys again. `wait` is how
    many seconds an outcome may be late, behind the one before it; then the process is ended. Where more than `bounds` is
    spent, the driver drains: see `drain`. `warn(text)` is told what an operator should know."""

    def __init__(self, program="./srtpgw", on_end=lambda call, why: None, restarts=False, wait=10.0, bounds=Bounds(),
                 warn=logging.getLogger("srtpgw").warning, on_part=lambda call, ended: None, **options):
        self.opener = program if hasattr(program, "open") else Program(program)
        self.on_end, self.on_part, self.restarts, self.wait = on_end, on_part, restarts, wait
        self.bounds, self.warn, self.options, self.shared = bounds, warn, options, []
        self.drops, self.lost, self.unsent, self.overflows = (collections.Counter() for _ in range(4))
        self.slots, self.joined, self.pending, self.notices = {}, {}, collections.deque(), queue.Queue()
        # When a signal was answered last.
        self.answered = time.monotonic()
        self.late, self.waiting = 0.0, {}
        # Keys of offers that aren't answered, by call; what is spent for good; and the overflows of the last look.
        self.open_keys, self.spent, self.seen = {}, collections.Counter(), {}
        # `over` says that no process is to follow, `gone` that none is there, and `drained` both.
        self.lock, self.over, self.drained = threading.RLock(), threading.Event(), threading.Event()
        self.gone, self.draining = None, False
        self.gateway = self._started()
        self.kept = self.gateway.kept_by_host()
        self.threads = [threading.Thread(target=work, daemon=True) for work in (self._run, self._notify, self._watch)]
        for thread in self.threads:
            thread.start()

    # ---- signals

    def offer_secure(self, call, text):
        """An offer of the secure side, of a new call or within one. The text for the plain side."""
        text = octets_of(text)
        given = self._offer(call, "offer-secure", [], text, keys_of(text))
        self._spend("messages", text.count(b"a=key-mgmt:"))
        return given

    def offer_plain(self, call, text, peer=None):
        """An offer of the plain side, of a new call or within one; to be keyed by crypto lines, or by MIKEY to the peer
        of this name, whose key `psk` has told. The text for the secure side."""
        keyed = ["mikey", fields.identity(peer)] if peer else ["sdes"]
        return self._offer(call, "offer-plain", keyed, octets_of(text), 0)

    def answer(self, call, text, joins=None):
        """The answer of the side that didn't offer. The text for the one that did; the call is live. A refused answer
        leaves the offer open: `answer` again, or `reject`. With `joins` the call is joined with that one before it takes a
        packet, so none goes out in clear; Unjoined where it is live and isn't joined."""
        text = octets_of(text)
        # Keys are in the secure side's text, whichever of the two it is.
        signals = [Signal(("answer", fields.call_number(call), "-", fields.digits(text)), [call], "live", keys_of(text))]
        if joins is not None:
            signals.append(self._joining(call, joins))
        answer = self._tell(signals)[0]
        self._spend("keys", self.open_keys.pop(call, 0) + answer.keys)
        for signal in signals[1:]:
            signal.result.result()
        return answer.text

    def manual(self, call, secure, plain, from_peer, to_peer, rollover=0, window=64):
        """A call with keys by hand, each as `SUITE:HEX`; addresses are pairs of host and port."""
        places = fields.address(secure), fields.address(plain), fields.rollover(rollover), fields.window(window)
        keys = fields.manual_key(from_peer), fields.manual_key(to_peer)
        self._tell([Signal(("manual", fields.call_number(call), *places, *keys), [call], "live")])
        self._spend("keys", 2)

    def psk(self, own, peer, key):
        """A pre-shared key, 16 to 64 octets, between the gateway's name and a peer's. 64 pairs can be held."""
        line = "psk", fields.identity(own), fields.identity(peer), fields.shared_key(key)
        self._tell([Signal(line, "-", QUIET)])
        self.shared.append(line)

    def reject(self, call):
        """The open offer is rejected. A first one ends its call; behind a later one the call goes on."""
        self._tell([Signal(("reject", fields.call_number(call)), [call], QUIET)])
        self.open_keys.pop(call, None)

    def bye(self, *calls):
        """The call ends. Refused where it has just ended by itself. Several end together: none takes a packet behind the
        end of another one, so nothing goes out in clear of two that were joined."""
        try:
            self._tell([Signal(("bye", fields.call_number(call)), [call], "ended") for call in calls], all_of_them=True)
        finally:
            for call in calls:
                self.open_keys.pop(call, None)

    def join(self, first, second):
        """From now on what is opened in the one call is sealed in the other, and goes out there. Both have had their
        answers. Unjoined where they can't be: its `call` is the one because of which, its text the cause."""
        self._tell([self._joining(first, second)])

    def part(self, call):
        """The pair of this call is parted, and both go on by themselves. Unjoined where it is in none."""
        self._needs_bridge()
        self._tell([Signal(("part", fields.call_number(call)), [call], "parted")])

    def ports(self, call, medium=0):
        """The gateway's four ports of a call that is there: secure RTP, secure RTCP, plain RTP, plain RTCP."""
        first = port_of(self.slots[call], medium, 0)
        return range(first, first + 4)

    # ---- the end

    def drain(self):
        """From now on new calls are refused (`State`), and the gateway's run ends with its last call. With `restarts`,
        which may be set to False before, the next process is started then; without, `drained` is set, and each further
        signal raises Gone."""
        with self.lock:
            self.draining = True
            self._end_if_drained()

    def close(self):
        """Ends the run, with the calls that are there, which aren't told to `on_end`. Answers its status, once all that
        it told is counted."""
        self.over.set()
        with self.lock:
            gateway = self.gateway
        status = gateway.close()
        for thread in self.threads:
            if thread is not threading.current_thread():
                thread.join(2 * self.wait)
        return status

    # ---- telling

    def _offer(self, call, word, keyed, text, keys):
        line = word, fields.call_number(call), *keyed, "-", fields.digits(text)
        return self._tell([Signal(line, [call], "sdp", keys)])[0].text

    def _joining(self, first, second):
        self._needs_bridge()
        return Signal(("join", fields.call_number(first), fields.call_number(second)), [first, second], "joined")

    def _needs_bridge(self):
        fields.require(getattr(self.opener, "bridges", False), "the gateway joins calls where it has --bridge, and this one hasn't")

    def _tell(self, signals, all_of_them=False):
        """Hands lines on together, with no tick between them, and waits for the last outcome of the first, or of all."""
        with self.lock:
            if self.gone:
                raise self.gone
            new = (signal for signal in signals if signal.line[0] in NEW)
            if self.draining and any(int(signal.calls[0]) not in self.slots for signal in new):
                raise Refused("State")
            # Outcomes come in the order of the lines, so these signals are answered behind those before them.
            due, lines = self.gateway.due(), []
            for signal in signals:
                signal.due = due
                self.pending.append(signal)
                lines += [signal.line, ("bye", "0")] if signal.last == QUIET else [signal.line]
            self.gateway.tell_all(lines)
        for signal in signals if all_of_them else signals[:1]:
            signal.result.result()
        return signals

    def _spend(self, what, count):
        self.spent[what] += count
        self._drain_if_spent()

    def _drain_if_spent(self):
        gateway = self.gateway
        spent = Bounds(self.spent["keys"], gateway.octets, self.spent["messages"], gateway.turns_taken())
        bounds = self.bounds._replace(turns=self.bounds.turns or gateway.turns * 7 // 8)
        over = [f"{name}, {count} of {most}" for name, count, most in zip(Bounds._fields, spent, bounds) if count > most]
        if over and not self.draining:
            self._warn(f"new calls are refused from now on, since enough is spent of {'; '.join(over)}")
            self.drain()

    # ---- outcomes

    def _started(self):
        """A process that is ready to be told signals."""
        # Behind an offer its answer may come at any time, and with it the far telephone's packets.
        gateway = Gateway(self.opener, expects=lambda: bool(self.pending or self.open_keys), **self.options)
        if gateway.files is not None and gateway.files < FILES_MOST:
            self._warn(f"the gateway may open {gateway.files} files, and a full table needs {FILES_MOST}")
        if gateway.never_waits():
            self._warn("the gateway's standard input never waits (O_NONBLOCK), so it asks again each millisecond: give it a pipe")
        for line in self.shared:
            gateway.tell(*line)
        return gateway

    def _run(self):
        while True:
            try:
                self._sort(self.gateway.next(timeout=None))
            except Gone as gone:
                self._ended(gone)
                if not self._restarted():
                    self.drained.set()
                    return self.notices.put(None)

    def _sort(self, outcome):
        """Tells apart what answers a signal and what comes by itself."""
        try:
            word, of, *rest = outcome
            if word == "drop":
                self.drops[int(of), " ".join(rest)] += 1
            elif word == "lost":
                self.lost[int(of), " ".join(rest)] += 1
            elif word == "unsent":
                self.unsent[int(of)] += 1
            else:
                with self.lock:
                    if not self._keep(word, of, rest):
                        self._answer(outcome)
                    self._end_if_drained()
        except (ValueError, IndexError) as fault:
            self.gateway.end(f"an outcome that wasn't due: {' '.join(outcome[:3])}: {fault}")

    def _keep(self, word, of, rest):
        """Keeps the book of calls. Whether this outcome came by itself, and answers no signal."""
        if word == "made":
            self.slots[int(of)] = int(rest[0])
        elif word == "joined":
            self.joined.update({int(of): int(rest[0]), int(rest[0]): int(of)})
        elif word == "parted":
            return self._parted(int(of), int(rest[0]))
        elif word == "ended":
            self.slots.pop(int(of), None)
            self.joined.pop(self.joined.pop(int(of), None), None)
            if rest[2] == "idle":
                self.open_keys.pop(int(of), None)
                self.notices.put(("on_end", int(of), "idle"))
            # The end of a rejected call comes before the outcome that its signal waits for.
            return rest[2] != "bye"
        return False

    def _parted(self, *pair):
        """A pair is parted right behind the end of one of its calls, or by a signal."""
        for call in pair:
            self.joined.pop(call, None)
        for call, other in (pair, pair[::-1]):
            if other not in self.slots:
                self.notices.put(("on_part", call, other))
                return True
        return False

    def _answer(self, outcome):
        if not self.pending:
            raise ValueError("no signal waits")
        signal = self.pending[0]
        if signal.take(outcome):
            # An offer is open before its signal is over: between the two ticks would be long.
            if signal.last == "sdp" and not signal.refusal:
                self.open_keys[int(signal.calls[0])] = signal.keys
            self.answered = time.monotonic()
            self.pending.popleft().finish()

    # ---- the end of a process

    def _end_if_drained(self):
        if self.draining and not (self.slots or self.pending or self.gone):
            self.gone = Gone(0, "all calls of a drained gateway have ended")
            # By another thread, since this one may have to sort what is told at the end.
            threading.Thread(target=self.gateway.close, daemon=True).start()

    def _ended(self, gone):
        with self.lock:
            self.gone = gone
            pending, self.pending = self.pending, collections.deque()
            calls, self.slots, self.joined = list(self.slots), {}, {}
        for signal in pending:
            signal.result.set_exception(gone)
        if not self.over.is_set():
            if gone.status != 0 or calls:
                self._warn(f"the gateway has ended, and {len(calls)} calls with it: {gone}")
            for call in calls:
                self.notices.put(("on_end", call, "gone"))

    def _restarted(self):
        """Starts the next process, where one is to follow, no more than one each second."""
        if time.monotonic() - self.gateway.ready < AGAIN:
            self.over.wait(AGAIN)
        while self.restarts and not self.over.is_set():
            try:
                gateway = self._started()
            except (Gone, Taken, OSError) as fault:
                self._warn(f"the gateway can't be started: {fault}")
                self.over.wait(AGAIN)
                continue
            with self.lock:
                # Since it was begun it may have become one that isn't to follow: `drain`, with `restarts` set to False.
                follows = self.restarts
                if follows:
                    self.gateway, self.gone, self.draining = gateway, None, False
                    self.spent.clear()
                    self.open_keys.clear()
            if self.over.is_set() or not follows:
                # `close` may have ended the one before. What was told to this one is answered by its end.
                gateway.close()
            return follows
        return False

    def _warn(self, text):
        # Who can't be told mustn't end the thread that tells.
        with contextlib.suppress(Exception):
            self.warn(text)

    # ---- threads

    def _notify(self):
        """Tells of calls that ended by themselves, and of those that they were joined with."""
        while True:
            notice = self.notices.get()
            if notice is None:
                return
            told, *of = notice
            try:
                getattr(self, told)(*of)
            except Exception as fault:
                self._warn(f"{told} of call {of[0]} ({of[1]}): {type(fault).__name__}: {fault}")

    def _watch(self):
        """Ends a process that doesn't answer, and looks at what an operator should know."""
        around = time.monotonic() + LOOK_AROUND
        while not self.over.wait(LOOK) and not self.drained.is_set():
            gateway = self.gateway
            if max(gateway.waited(), self._oldest()) > self.wait:
                gateway.end(f"no outcome came within {self.wait:g} s")
            elif time.monotonic() > around:
                around = time.monotonic() + LOOK_AROUND
                self._look_around(gateway)

    def _oldest(self):
        """By how many seconds the oldest signal is late, or for how many none was answered."""
        with contextlib.suppress(IndexError):
            return min(self.pending[0].due.late(), time.monotonic() - self.answered)
        return 0.0

    def _look_around(self, gateway):
        self.late, gateway.worst = gateway.worst, 0.0
        before, self.kept = self.kept, gateway.kept_by_host()
        if self.late > max(LATE, 2 * gateway.step):
            kept = self.kept - before
            more = f"; the machine's host kept {kept:.1f} s of processors from it meanwhile" if kept > LATE else ""
            self._warn(f"the gateway's turns ran late, by {1000 * self.late:.0f} ms: give it a higher priority, or less to do{more}")
        ends = gateway.sockets()
        self._look_at_waiting({port: end.waiting for port, end in ends.items() if end.waiting})
        self._look_at_overflows({port: end.drops for port, end in ends.items() if end.drops})
        if not self.gone:
            self._drain_if_spent()

    def _look_at_waiting(self, waiting):
        """Turns may be on time and the media late: where more comes than is taken, it waits in the sockets."""
        self.waiting = waiting
        long = {port: octets for port, octets in waiting.items() if octets > WAITING}
        if long:
            port, most = max(long.items(), key=lambda item: item[1])
            self._warn(f"media are late: datagrams wait in sockets of {len(long)} ports, {most} octets of them at port {port}; "
                       "give the gateway a higher priority, or less to do")

    def _look_at_overflows(self, now):
        lost = {port: count - self.seen.get(port, 0) for port, count in now.items()}
        # A port that was given up and taken again counts from 0.
        lost = {port: count if count > 0 else now[port] for port, count in lost.items() if count}
        self.seen = now
        if lost:
            self.overflows.update(lost)
            port, most = max(lost.items(), key=lambda item: item[1])
            self._warn(f"{sum(lost.values())} datagrams were lost before full sockets of {len(lost)} ports, {most} at port {port}")
