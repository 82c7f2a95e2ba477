"""rtpengine's control protocol over UDP: datagrams of a cookie, a space and a bencoded dictionary, each answered by the
same cookie and another dictionary.

A datagram that has no cookie is let by; any other is answered, and none ends the server. The same cookie from the same
sender gets the same answer again, and is obeyed once. The requests of one call are obeyed in the order in which they
came, those of several calls side by side.
"""

import collections
import contextlib
import functools
import queue
import socket
import sys
import threading
import time
import traceback

import sentences
from ng.bencode import Bad as NotBencoded, decoded, encoded
from ng.legs import Full
from driver import Refused
from gateway import Gone
from ng.request import Bad, Request, text_of
from ng.told import drops_of, lost_of, query_of, statistics_of, totals_of

COOKIE_MOST = 255
DATAGRAM_MOST = 65_507
# How many requests may wait for one of the workers, how many answers are kept, for how long, and of how many octets.
WAITING_MOST, KEPT_MOST, KEPT_SECONDS, KEPT_OCTETS = 256, 10_000, 60, 16 << 20
WORKERS = 64
# How many seconds are between two looks for calls that are held.
BETWEEN_SIGNS = 5.0
# How many seconds the workers have at the end for what waits.
ENDING = 5
# The commands that are counted by name. All others are counted together.
COMMANDS, ANOTHER = ("offer", "answer", "delete", "query", "list", "statistics"), "another"
# What a server that doesn't know `load limit` takes for it.
LIMIT_OF_OLD = "Parallel session limit reached"


class Answers:
    """The latest answers by sender and cookie; None of one that isn't ready."""

    def __init__(self):
        self.kept, self.octets, self.lock = collections.OrderedDict(), 0, threading.Lock()

    def begin(self, key):
        """Whether this is new; else the answer that it had, None where that isn't ready."""
        with self.lock:
            if key in self.kept:
                return False, self.kept[key][1]
            self.kept[key] = time.monotonic(), None
            self.trim()
            return True, None

    def end(self, key, answer):
        with self.lock:
            if key in self.kept:
                self.kept[key] = self.kept[key][0], answer
                self.octets += len(answer)

    def trim(self):
        old = time.monotonic() - KEPT_SECONDS
        while self.kept:
            began, answer = next(iter(self.kept.values()))
            if began > old and len(self.kept) <= KEPT_MOST and self.octets <= KEPT_OCTETS:
                return
            self.kept.popitem(last=False)
            self.octets -= len(answer or b"")


class Server:
    """Answers requests about the calls of a book at an address, a pair of host and port."""

    def __init__(self, book, address, log=print):
        self.book, self.log = book, log
        self.began = time.time()
        self.refused = collections.Counter()
        # To be set: what is given each command that was obeyed, its result, and how many seconds that took.
        self.answered = lambda command, result, seconds: None
        self.answers = Answers()
        self.over = threading.Event()
        self.socket = socket.socket(socket.AF_INET, socket.SOCK_DGRAM)
        self.socket.setsockopt(socket.SOL_SOCKET, socket.SO_RCVBUF, 1 << 20)
        self.socket.bind(address)
        self.socket.settimeout(0.2)
        self.queues = [queue.Queue(WAITING_MOST) for _ in range(WORKERS)]
        self.threads = [threading.Thread(target=self.work, args=(waiting,), daemon=True) for waiting in self.queues]
        for thread in (*self.threads, threading.Thread(target=self.keep_alive, daemon=True)):
            thread.start()

    def serve(self, is_over=lambda: False):
        """Takes datagrams until `close`, or until `is_over()` is true, and then answers what waits."""
        while not self.over.is_set() and not is_over():
            try:
                octets, sender = self.socket.recvfrom(65_536)
            except OSError:
                continue  # None came in time; or the system tells of a datagram that was sent before.
            self.take(octets, sender)
        self.finish()

    def close(self):
        self.over.set()

    def finish(self):
        """Waits for the workers, some seconds at most."""
        until = time.monotonic() + ENDING
        for waiting in self.queues:
            with contextlib.suppress(queue.Full):
                waiting.put_nowait(None)
        for thread in self.threads:
            thread.join(max(0, until - time.monotonic()))

    # ---- datagrams

    def take(self, octets, sender):
        """Has a datagram obeyed, unless it came before."""
        cookie, space, body = octets.partition(b" ")
        if not space or not 0 < len(cookie) <= COOKIE_MOST:
            return
        is_new, answer = self.answers.begin((sender, cookie))
        if not is_new:
            if answer is not None:
                self.send(answer, sender)
            return
        message, fault = message_of(body)
        if fault:
            self.log(f"a datagram of {sender[0]}:{sender[1]} isn't a request: {fault}")
            self.reply(sender, cookie, error(fault))
        elif message.get(b"command") == b"ping":
            self.reply(sender, cookie, {"result": "pong"})
        else:
            self.hand_on(message, cookie, sender)

    def hand_on(self, message, cookie, sender):
        try:
            self.queue_of(call_of(message)).put_nowait(functools.partial(self.answer_to, message, cookie, sender))
        except queue.Full:
            self.reply(sender, cookie, error("too many requests wait"))

    def queue_of(self, call_id):
        """The queue of all that is asked of a call, or done for it."""
        return self.queues[hash(call_id) % WORKERS]

    def work(self, waiting):
        """Does what waits, one behind another. Nothing of it ends the worker, which many calls share."""
        for task in iter(waiting.get, None):
            try:
                task()
            except Exception:
                self.failed()

    def answer_to(self, message, cookie, sender):
        self.reply(sender, cookie, self.timed(message))

    def keep_alive(self):
        """Has calls that are held have their sign of life, each in the order of its requests."""
        while not self.over.wait(BETWEEN_SIGNS):
            for call in self.book.quiet():
                with contextlib.suppress(queue.Full):
                    self.queue_of(call.id).put_nowait(functools.partial(self.book.give_sign, call))

    def reply(self, sender, cookie, answer):
        octets = cookie + b" " + encoded(answer)
        if len(octets) > DATAGRAM_MOST:
            octets = cookie + b" " + encoded(error("the answer is longer than a datagram"))
        self.answers.end((sender, cookie), octets)
        self.send(octets, sender)

    def send(self, octets, sender):
        try:
            self.socket.sendto(octets, sender)
        except OSError as fault:
            self.log(f"an answer to {sender[0]}:{sender[1]} couldn't be sent: {fault}")

    # ---- requests

    def timed(self, message):
        began, answer, command = time.monotonic(), self.obeyed(message), text_of(command_of(message))
        self.answered(command if command in COMMANDS else ANOTHER, answer["result"], time.monotonic() - began)
        return answer

    def obeyed(self, message):
        """The answer to a message, whatever it is."""
        name = f"{text_of(command_of(message))} of {text_of(call_of(message))}"
        try:
            request = Request(message)
            return {"result": "ok", **self.does(request.command)(request)}
        except Full as full:
            return self.full(request, name, full)
        except Refused as refused:
            return self.error(name, sentence_of(str(refused)))
        except Bad as bad:
            return self.error(name, str(bad))
        except Gone as gone:
            return self.error(name, f"the gateway has ended: {gone}")
        except Exception as fault:  # A fault of this program's own ends one request, and not all calls.
            self.failed()
            return self.error(name, f"the daemon failed at this request: {type(fault).__name__}")

    def failed(self):
        """Tells of a fault of this program's own, and where it stands. What it says itself may hold a key."""
        kind, _, trace = sys.exc_info()
        for line in "".join(traceback.format_tb(trace)).splitlines():
            self.log(line)
        self.log(f"a fault of the daemon's own: {kind.__name__}")

    def error(self, name, reason):
        command = name.split(" ", 1)[0]
        self.refused[command if command in COMMANDS else ANOTHER] += 1
        self.log(f"{name} {reason if reason.startswith('refused') else f'refused: {reason}'}")
        return error(reason)

    def full(self, request, name, full):
        """Another gateway is to be asked. Servers before `load limit` know that by one error's text."""
        reason = sentence_of(str(full))
        self.error(name, reason)
        self.book.counts["full"] += 1
        if request.has_load_limit():
            return {"result": "load limit", "message": reason}
        return error(LIMIT_OF_OLD)

    def does(self, command):
        if command not in COMMANDS:
            raise Bad('Dictionary contains no key "command"' if not command else f"Unrecognized command {command}")
        return getattr(self, command)

    def offer(self, request):
        return {"sdp": self.book.offer(request)}

    def answer(self, request):
        return {"sdp": self.book.answer(request)}

    def delete(self, request):
        ended = self.book.delete(request)
        if not ended:
            return {"warning": "Call-ID not found or tags didn't match"}
        return {"created": int(min(report.call.made for report in ended)), "totals": totals_of(ended),
                "drops": drops_of(ended), "lost": lost_of(ended)}

    def query(self, request):
        request.needs("call_id")
        return query_of(self.book, request.call_id)

    def list(self, request):
        limit = request.number(b"limit", 32)
        return {"calls": sorted({call.id for call in self.book.all()})[:max(0, limit)]}

    def statistics(self, request):
        return {"statistics": statistics_of(self.book, self.refused, self.began)}


def message_of(body):
    """The dictionary of a datagram, and what is wrong with it."""
    if not body.startswith(b"d"):
        return None, "Invalid NG data format"
    try:
        return decoded(body), None
    except NotBencoded as fault:
        return None, f"Could not decode bencode dictionary: {fault}"


def command_of(message):
    command = message.get(b"command")
    return command if isinstance(command, bytes) else b"a request"


def call_of(message):
    call = message.get(b"call-id")
    return call if isinstance(call, bytes) else b"no call"


def error(reason):
    return {"result": "error", "error-reason": reason}


def sentence_of(cause):
    """The sentence of docs/refusals.md for the gateway's cause; the text itself where it is none."""
    try:
        sentences.meaning(cause)
    except sentences.Missing:
        return cause
    return sentences.refusal(cause)
