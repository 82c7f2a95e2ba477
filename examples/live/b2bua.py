"""A small SIP server between two telephones, which has their calls go through the gateway: what comes to its one
port is a call from the secure side, what comes to its other one a call from the plain side.

    python3 b2bua.py --secure 127.0.0.1:5060 --plain 127.0.0.1:5080      and telephones that call 5070 or 5072

It knows INVITE (also within a call), ACK, CANCEL and BYE over UDP on the loopback, where nothing is lost: it
repeats no request. An offer within a call that leaves ports, addresses and keys as they are, as most telephones
hold and resume, it hands on past the gateway. It shows how SIP drives the gateway, and isn't meant for more.
Needs Python 3.8 alone.
"""

import argparse
import collections
import contextlib
import itertools
import re
import select
import socket
import sys
import time

from ends import program, require_free
from descriptions import carried, looked_at
from driver import Driver, Gone, Program, Refused, Taken

HOME = "127.0.0.1"
PORTS = {"secure": 5070, "plain": 5072}
FAR = {"secure": "plain", "plain": "secure"}
# Causes of a refused offer for which the gateway has no room: another call may be made later, or elsewhere.
FULL = {"TableFull", "State"}
# The short names of headers (RFC 3261, 7.3.3).
SHORT = {"v": "via", "f": "from", "t": "to", "i": "call-id", "m": "contact"}


class Message:
    """A request or a response: its first line, its headers and its text."""

    def __init__(self, octets, source):
        head, _, body = octets.partition(b"\r\n\r\n")
        self.first, *lines = head.decode(errors="replace").split("\r\n")
        pairs = [line.split(":", 1) for line in lines if ":" in line]
        names = [(name.strip().lower(), value.strip()) for name, value in pairs]
        self.headers = [(SHORT.get(name, name), value) for name, value in names]
        # A telephone of several addresses may name another one than that which it sends from, and the gateway takes
        # plain packets from the named one alone. So a text gets the address that its message came from.
        self.body = re.sub(rb"(?m)^c=IN IP4 \S+", b"c=IN IP4 " + source[0].encode(), body)
        self.source = source

    def all(self, name):
        return [value for known, value in self.headers if known == name]

    def get(self, name):
        return (self.all(name) or [""])[0]

    def status(self):
        """The number of a response, 0 of a request."""
        return int(self.first.split()[1]) if self.first.startswith("SIP/2.0") else 0

    def method(self):
        return self.get("cseq").split()[-1] if self.status() else self.first.split()[0]

    def is_whole(self):
        """Whether it is a request or a response. Else it is nothing of SIP, as what keeps a way through a firewall
        open."""
        first = re.fullmatch(r"SIP/2\.0 [1-6][0-9][0-9]( .*)?|[A-Z]+ \S+ SIP/2\.0", self.first)
        return bool(first and self.get("call-id") and re.fullmatch(r"[0-9]+\s+[A-Z]+", self.get("cseq")))


class Dialog:
    """One telephone's half of a call: the headers that name it, and its next number."""

    def __init__(self, side, call_id, own, other, target, uri):
        self.side, self.call_id, self.own, self.other, self.target, self.uri = side, call_id, own, other, target, uri
        self.number = 1
        self.waiting = None    # the INVITE from this side that hasn't been answered
        self.invited = None    # the INVITE to this side that hasn't been answered
        self.said, self.given = b"", b""   # its last accepted text, and the gateway's last one for it
        self.passes = False    # whether the open offer goes past the gateway


class Server:
    """Its `log` has a line for each offer; `told` is given each one, too. `muxes` says that the gateway takes one port for
    RTP and RTCP."""

    def __init__(self, driver, peers, told=lambda line: None, muxes=False):
        self.driver, self.peers, self.told, self.muxes = driver, peers, told, muxes
        self.sockets = {side: socket.socket(socket.AF_INET, socket.SOCK_DGRAM) for side in PORTS}
        for side, port in PORTS.items():
            self.sockets[side].bind((HOME, port))
        self.calls = {}                     # by the SIP name of either half: number, and the two halves by side
        self.names = itertools.count(1)
        self.log, self.ended_calls = [], 0
        # Calls that ended by themselves, and why; the driver tells of them in a thread of its own.
        self.over = collections.deque()
        driver.on_end = lambda call, why: self.over.append((call, why))

    def note(self, line):
        self.log.append(line)
        self.told(line)

    # ---- messages

    def reply(self, side, request, code, words, text=b"", tag=""):
        lines = [f"SIP/2.0 {code} {words}"] + [f"Via: {via}" for via in request.all("via")]
        to = request.get("to")
        to += f";tag={tag}" if tag and ";tag=" not in to else ""
        lines += [f"From: {request.get('from')}", f"To: {to}", f"Call-ID: {request.get('call-id')}",
                  f"CSeq: {request.get('cseq')}", f"Contact: <sip:gateway@{HOME}:{PORTS[side]}>"]
        self.send(side, lines, text, request.source)

    def ask(self, half, method, text=b"", number=None):
        number, place = number or half.number, f"{HOME}:{PORTS[half.side]}"
        # ACK and CANCEL belong to their INVITE.
        branch = f"z9hG4bK{half.call_id}.{number}" + ("" if method == "BYE" else ".i")
        lines = [f"{method} {half.uri} SIP/2.0", f"Via: SIP/2.0/UDP {place};branch={branch}", "Max-Forwards: 70",
                 f"From: {half.own}", f"To: {half.other}", f"Call-ID: {half.call_id}", f"CSeq: {number} {method}",
                 f"Contact: <sip:gateway@{place}>"]
        if method not in ("ACK", "CANCEL"):
            half.number += 1
        self.send(half.side, lines, text, half.target)

    def send(self, side, lines, body, target):
        lines += ["Content-Type: application/sdp"] if body else []
        octets = "\r\n".join(lines + [f"Content-Length: {len(body)}", "", ""]).encode() + body
        self.sockets[side].sendto(octets, target)

    # ---- calls

    def offer(self, call, side, text):
        return (self.driver.offer_secure if side == "secure" else self.driver.offer_plain)(call, text)

    def invite(self, side, request):
        """An offer, of a new call or within one."""
        call, halves = self.calls.get(request.get("call-id"), (None, None))
        if call is None:
            call, halves = self.make(side, request)
        near, far = halves[side], halves[FAR[side]]
        self.reply(side, request, 100, "Trying")
        if near.waiting or far.waiting:
            return self.reply(side, request, 491, "Request Pending")
        near.passes = bool(near.said) and looked_at(request.body, self.muxes) == looked_at(near.said, self.muxes)
        try:
            text = carried(request.body, far.given) if near.passes else self.offer(call, side, request.body)
        except (Refused, Gone) as fault:
            self.note(f"call {call}: offer refused: {fault}")
            is_full = isinstance(fault, Gone) or not near.said and str(fault) in FULL
            code, words = (503, "Service Unavailable") if is_full else (488, "Not Acceptable Here")
            self.reply(side, request, code, words, tag=f"g{call}")
            return None if near.said else self.forget(call)
        near.waiting, far.invited, near.offer, far.offer = request, far.number, request.body, text
        return self.ask(far, "INVITE", text)

    def make(self, side, request):
        call, far_side = next(self.names), FAR[side]
        near = Dialog(side, request.get("call-id"), request.get("to") + f";tag=g{call}", request.get("from"),
                      request.source, inner(request.get("contact")))
        peer = self.peers[far_side]
        user = request.first.split()[1].split("@")[0]
        uri = f"{user}@{peer[0]}:{peer[1]}"
        own = f"<sip:gateway@{HOME}:{PORTS[far_side]}>;tag=h{call}"
        far = Dialog(far_side, f"gateway-{call}", own, f"<{uri}>", peer, uri)
        halves = {side: near, far_side: far}
        self.calls[near.call_id] = self.calls[far.call_id] = call, halves
        return call, halves

    def answered(self, half, response):
        """A response to the INVITE that was handed on."""
        call, halves = self.calls[response.get("call-id")]
        near, code = halves[FAR[half.side]], response.status()
        if half.invited is None or int(response.get("cseq").split()[0]) != half.invited:
            return
        if code < 200:
            if code > 100 and near.waiting:
                self.reply(near.side, near.waiting, code, "Ringing", tag=f"g{call}")
            return
        half.other = response.get("to")
        self.ask(half, "ACK", number=half.invited)
        request, near.waiting, half.invited = near.waiting, None, None
        if code >= 300:
            return self.refuse(call, near, request, code)
        half.uri = inner(response.get("contact")) or half.uri
        try:
            text = self.answer(call, near, half, response.body)
        except (Refused, Gone) as fault:
            # The far telephone holds to a text that the gateway doesn't: nothing is left but to end the call.
            self.note(f"call {call}: answer refused: {fault}")
            self.ask(half, "BYE")
            self.refuse(call, near, request, 503 if isinstance(fault, Gone) else 488)
            return self.hang_up(call, near) if near.said else None
        near.said, near.given, half.said, half.given = near.offer, text, response.body, half.offer
        self.note(f"call {call}: agreed{', past the gateway' if near.passes else ''}")
        return self.reply(near.side, request, 200, "OK", text, tag=f"g{call}")

    def answer(self, call, near, far, text):
        if not near.passes:
            return self.driver.answer(call, text)
        if looked_at(text) != looked_at(far.said):
            raise Refused("the answer to an offer that the gateway doesn't know changes ports, addresses or keys")
        return carried(text, near.given)

    def refuse(self, call, near, request, code):
        if not near.passes:
            self.tell(self.driver.reject, call)
        self.reply(near.side, request, code, "Refused", tag=f"g{call}")
        if not near.said:
            self.forget(call)

    def hang_up(self, call, near):
        self.ask(near, "BYE")
        self.tell(self.driver.bye, call)
        self.forget(call)

    @staticmethod
    def tell(signal, call):
        """Tells the gateway of an end. It may have ended the call by itself just now, or may have ended."""
        with contextlib.suppress(Refused, Gone):
            signal(call)

    def ended(self, side, request):
        """A BYE, or a CANCEL of what isn't answered."""
        call, halves = self.calls[request.get("call-id")]
        near, far = halves[side], halves[FAR[side]]
        self.reply(side, request, 200, "OK")
        if request.method() == "BYE":
            self.ask(far, "BYE")
            self.tell(self.driver.bye, call)
        elif near.waiting:
            self.ask(far, "CANCEL", number=far.invited)
            return
        self.forget(call)

    def went(self, call, why):
        """A call had no media for a minute, or the gateway has ended with all calls; the telephones are told."""
        halves = next((halves for number, halves in self.calls.values() if number == call), {})
        code, words = (480, "Temporarily Unavailable") if why == "idle" else (503, "Service Unavailable")
        for half in halves.values():
            if half.waiting:
                self.reply(half.side, half.waiting, code, words, tag=f"g{call}")
            else:
                self.ask(half, "CANCEL" if half.invited else "BYE", number=half.invited)
        if halves:
            self.note(f"call {call}: ended: {why}")
            self.forget(call)

    def forget(self, call):
        self.ended_calls += any(known[0] == call for known in self.calls.values())
        self.calls = {name: known for name, known in self.calls.items() if known[0] != call}

    # ---- the loop

    def handle(self, side, message):
        known = message.get("call-id") in self.calls
        if message.status():
            if known and message.method() == "INVITE":
                self.answered(self.calls[message.get("call-id")][1][side], message)
        elif message.method() == "INVITE":
            self.invite(side, message)
        elif message.method() in ("BYE", "CANCEL") and known:
            self.ended(side, message)
        elif message.method() != "ACK":
            self.reply(side, message, 200 if message.method() == "OPTIONS" else 481, "OK", tag="g")

    def serve(self, is_over):
        """Handles messages until `is_over()` is true."""
        while not is_over():
            ready, _, _ = select.select(list(self.sockets.values()), [], [], 0.1)
            for side, own in self.sockets.items():
                if own in ready:
                    message = Message(*own.recvfrom(65_536))
                    if message.is_whole():
                        self.handle(side, message)
            while self.over:
                self.went(*self.over.popleft())

    def close(self):
        for own in self.sockets.values():
            own.close()


def inner(value):
    """The address in a Contact header."""
    return value.split("<", 1)[1].split(">")[0] if "<" in value else value.split(";")[0]


def address(text):
    host, port = text.split(":")
    return host, int(port)


def main():
    words = argparse.ArgumentParser(description="a SIP server between two telephones, over the gateway")
    words.add_argument("--secure", type=address, required=True, help="the telephone on the secure side")
    words.add_argument("--plain", type=address, required=True, help="the telephone on the plain side")
    words.add_argument("--seconds", type=float, default=3_600, help="when it ends by itself")
    words.add_argument("--mux", action="store_true", help="a telephone that offers one port for RTP and RTCP gets it")
    words.add_argument("--calls", type=int, default=0, help="that it ends once so many calls have ended; 0 for never")
    given = words.parse_args()
    require_free(*PORTS.values())
    try:
        # The next process follows where one ends.
        driver = Driver(Program(program(), muxes=given.mux), restarts=True)
    except (Gone, Taken, OSError) as fault:
        print(f"the gateway can't be started: {fault}", file=sys.stderr)
        return 1
    end = time.monotonic() + given.seconds
    peers = {"secure": given.secure, "plain": given.plain}
    server = Server(driver, peers, lambda line: print(line, flush=True), given.mux)
    print(f"telephones of the secure side call {HOME}:{PORTS['secure']}, of the plain side {HOME}:{PORTS['plain']};"
          f" until {given.seconds:g} seconds have passed, or Ctrl-C", flush=True)
    with contextlib.suppress(KeyboardInterrupt):
        server.serve(lambda: time.monotonic() > end or 0 < given.calls <= server.ended_calls)
    status = driver.close()
    for (port, cause), count in sorted(driver.drops.items()):
        print(f"dropped at port {port}: {count} by {cause}")
    print(f"unsent: {sum(driver.unsent.values())}; status {status}")
    return status


if __name__ == "__main__":
    sys.exit(main())
