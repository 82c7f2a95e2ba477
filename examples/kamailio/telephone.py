"""Telephones in Python for what no other program does at will: many calls at once, new keys within a call, an INVITE
that is cancelled. SIP over UDP by a proxy, without a password; RTP in the clear or sealed by interop/srtp.py, at a
telephone's pace. Needs Python's package `cryptography`.

    alice = Telephone("alice", ("127.0.0.1", 5060), proxy=("127.0.0.1", 5070))
    call = alice.calls("bob", Media(("127.0.0.1", 42_000), master()))
    call.offers(master())                         # a re-INVITE
    call.ends()
"""

import itertools
import os
import queue
import re
import socket
import sys
import threading
import time
from pathlib import Path

sys.path.insert(0, str(Path(__file__).resolve().parents[1] / "live"))

from ends import packets_of  # noqa: E402
from sealed import MasterKey, Opening, Sealing, crypto_line, crypto_of, lines  # noqa: E402
from srtp import SUITES as KNOWN  # noqa: E402

PATIENCE = 20
# The number of a stream's first packet.
FIRST = 1_000
SUITES = {"AES_CM_128_HMAC_SHA1_80": 30, "AES_CM_128_HMAC_SHA1_32": 30, "AES_256_CM_HMAC_SHA1_80": 46,
          "AES_192_CM_HMAC_SHA1_80": 38}


class Refused(Exception):
    """A final response that isn't 2xx; its number."""


def master(suite="AES_CM_128_HMAC_SHA1_80"):
    """A master key made anew."""
    return MasterKey(suite, os.urandom(SUITES[suite]))


class Media:
    """One side's media: a socket, its key where it encrypts, and what came in."""

    def __init__(self, address, key=None):
        self.address, self.key, self.to = address, key, None
        self.socket = socket.socket(socket.AF_INET, socket.SOCK_DGRAM)
        self.socket.setsockopt(socket.SOL_SOCKET, socket.SO_RCVBUF, 1 << 20)
        self.socket.bind(address)
        self.openings, self.sealing, self.version = [], None, 0
        # Which way the media go, as `a=sendonly`.
        self.way = None
        # Payloads by sequence number, and what came under a key that the answer hadn't told yet.
        self.came, self.early, self.lock = {}, [], threading.Lock()
        self.over = threading.Event()
        self.thread = threading.Thread(target=self.gathers, daemon=True)
        self.thread.start()

    def text(self, tag="1"):
        """Its session description; the version counts up."""
        self.version += 1
        host, port = self.address
        profile = "RTP/SAVP" if self.key else "RTP/AVP"
        keyed = ([crypto_line(tag, self.key)] if self.key else []) + ([self.way] if self.way else [])
        return lines("v=0", f"o=user 1 {self.version} IN IP4 {host}", "s=-", f"c=IN IP4 {host}", "t=0 0",
                     f"m=audio {port} {profile} 0", "a=rtpmap:0 PCMU/8000", *keyed).encode()

    def agrees(self, text):
        """Takes the other side's description: where to send, and the key that comes."""
        host = re.search(rb"(?m)^c=IN IP4 (\S+)", text)[1].decode()
        self.to = host, int(re.search(rb"(?m)^m=audio (\d+)", text)[1])
        if self.key:
            key = next((key for key in keys_of(text).values() if key.suite == self.key.suite), None)
            with self.lock:
                if key and (not self.openings or key.octets != self.openings[0].master.octets):
                    self.openings.insert(0, Opening(key))
                early, self.early = self.early, []
                for octets in early:
                    self.takes(octets)
            if not self.sealing or self.sealing.master is not self.key:
                self.sealing = Sealing(self.key)

    def answers(self, text):
        """Its answer to a description: under a new key, of its own suite if that is offered, but where the other side's key
        is as it was."""
        tag = "1"
        if self.key:
            offered = {key.suite: (tag, key.octets) for tag, key in reversed(keys_of(text).items())}
            suite = next(suite for suite in (self.key.suite, *offered) if suite in offered and suite in SUITES)
            tag, octets = offered[suite]
            if not self.openings or self.openings[0].master.octets != octets:
                self.key = master(suite)
        return self.text(tag)

    def sends(self, octets, first=FIRST):
        """Sends octets of PCMU, 20 ms each packet, wherever the latest text says."""
        began = time.monotonic()
        for place, packet in enumerate(packets_of(octets, first)):
            time.sleep(max(0, began + place * 0.02 - time.monotonic()))
            self.socket.sendto(self.sealing.seal(packet) if self.key else packet, self.to)

    def gathers(self):
        self.socket.settimeout(0.2)
        while not self.over.is_set():
            try:
                octets = self.socket.recv(4096)
            except OSError:
                continue
            with self.lock:
                self.takes(octets)

    def takes(self, octets):
        packet = next(filter(None, (opening.open(octets) for opening in self.openings)), None) if self.key else octets
        if packet:
            self.came[int.from_bytes(packet[2:4], "big")] = packet[12:]
        else:
            self.early.append(octets)

    def heard(self):
        """The payloads by the order of their numbers, which don't pass 65535 here."""
        with self.lock:
            return b"".join(payload for _, payload in sorted(self.came.items()))

    def close(self):
        self.over.set()
        self.thread.join()
        self.socket.close()


class Message:
    """A request or a response."""

    def __init__(self, octets):
        head, _, self.body = octets.partition(b"\r\n\r\n")
        self.first, *rest = head.decode(errors="replace").split("\r\n")
        pairs = (line.partition(":") for line in rest)
        self.headers = [(name.strip().lower(), value.strip()) for name, _, value in pairs]

    def all(self, name):
        return [value for known, value in self.headers if known == name]

    def get(self, name):
        return (self.all(name) or [""])[0]

    def status(self):
        return int(self.first.split()[1]) if self.first.startswith("SIP/2.0") else 0

    def method(self):
        return self.get("cseq").split()[-1] if self.status() else self.first.split()[0]


class Telephone:
    """A telephone at one address, of any number of calls. `answers` makes the media of a call that comes; with none it
    rings for ever. It answers at once, or so many seconds behind a 183 with the same text."""

    numbers = itertools.count(1)

    def __init__(self, name, address, proxy, answers=None, early=0):
        self.name, self.address, self.proxy, self.answers, self.early = name, address, proxy, answers, early
        self.by_id, self.came, self.over = {}, [], threading.Event()
        self.socket = socket.socket(socket.AF_INET, socket.SOCK_DGRAM)
        self.socket.bind(address)
        self.socket.settimeout(0.2)
        self.thread = threading.Thread(target=self.listens, daemon=True)
        self.thread.start()

    def contact(self):
        return f"<sip:{self.name}@{self.address[0]}:{self.address[1]}>"

    def call(self, to, media):
        uri = f"sip:{to}@{self.proxy[0]}:{self.proxy[1]}"
        call = Call(self, f"{os.urandom(6).hex()}.{next(self.numbers)}", media, uri)
        self.by_id[call.id] = call
        return call

    def calls(self, to, media):
        """A call that has been answered."""
        call = self.call(to, media)
        call.offers()
        return call

    def listens(self):
        while not self.over.is_set():
            try:
                octets, sender = self.socket.recvfrom(65_536)
            except OSError:
                continue
            message = Message(octets)
            call = self.by_id.get(message.get("call-id"))
            if message.status():
                if call:
                    call.responses.put(message)
            elif message.method() == "INVITE" and call is None:
                self.is_called(message, sender)
            elif call:
                call.is_asked(message, sender)

    def is_called(self, request, sender):
        call = Call(self, request.get("call-id"), self.answers() if self.answers else None, "")
        self.by_id[call.id] = call
        self.came.append(call)
        call.is_invited(request, sender)

    def sends(self, first, headers, body=b"", to=None):
        kind = ["Content-Type: application/sdp"] if body else []
        head = "\r\n".join([first, *headers, *kind, f"Content-Length: {len(body)}", "", ""])
        self.socket.sendto(head.encode() + body, to or self.proxy)

    def close(self):
        self.over.set()
        self.thread.join()
        self.socket.close()


class Call:
    """One dialog of a telephone."""

    def __init__(self, telephone, call_id, media, uri):
        self.telephone, self.id, self.media = telephone, call_id, media
        self.uri, self.own, self.other = uri, f"{telephone.contact()};tag={os.urandom(4).hex()}", f"<{uri}>"
        self.routes, self.number, self.responses = [], 0, queue.Queue()
        # When the other one ended it, and an INVITE that rings.
        self.ended, self.ended_at, self.waiting = threading.Event(), None, None

    # ---- what it asks

    def asks(self, method, body=b"", number=None, branch=None):
        self.number = number or self.number + 1
        branch = branch or f"z9hG4bK{self.id}.{self.telephone.name}.{self.number}.{method}"
        host, port = self.telephone.address
        headers = [f"Via: SIP/2.0/UDP {host}:{port};branch={branch}", "Max-Forwards: 70", f"From: {self.own}",
                   f"To: {self.other}", f"Call-ID: {self.id}", f"CSeq: {self.number} {method}",
                   f"Contact: {self.telephone.contact()}", *(f"Route: {route}" for route in self.routes)]
        self.telephone.sends(f"{method} {self.uri} SIP/2.0", headers, body)
        return branch

    def waits(self, method, seconds=PATIENCE):
        """The final response."""
        end = time.monotonic() + seconds
        while True:
            response = self.responses.get(timeout=max(0.01, end - time.monotonic()))
            if response.status() == 183:
                self.media.agrees(response.body)
            if response.status() >= 200 and response.get("cseq") == f"{self.number} {method}":
                return response

    def offers(self, key=None):
        """An INVITE or a re-INVITE, with a new key if one is given."""
        if key:
            self.media.key = key
        branch = self.asks("INVITE", self.media.text())
        response = self.waits("INVITE")
        if response.status() >= 300:
            self.asks("ACK", number=self.number, branch=branch)
            raise Refused(response.status())
        self.other = response.get("to")
        if not self.routes:
            self.routes = list(reversed(response.all("record-route")))
        self.uri = inner(response.get("contact"))
        self.media.agrees(response.body)
        self.asks("ACK", number=self.number)

    def offers_nothing(self):
        """An INVITE without a text: the other one's offer comes with the 200, and its answer goes with the ACK."""
        self.asks("INVITE")
        response = self.waits("INVITE")
        self.other, self.uri = response.get("to"), inner(response.get("contact"))
        self.routes = list(reversed(response.all("record-route")))
        text = self.media.answers(response.body)
        self.media.agrees(response.body)
        self.asks("ACK", text, number=self.number)

    def updates(self, method="UPDATE", key=None):
        """An offer by another request than INVITE."""
        if key:
            self.media.key = key
        self.asks(method, self.media.text())
        response = self.waits(method)
        if response.status() >= 300:
            raise Refused(response.status())
        self.media.agrees(response.body)

    def cancels(self, waits=180):
        """An INVITE that is cancelled behind a response of this number, while it rings: the response to it. Within a call
        nothing rings here, and 100 is the one to wait for."""
        branch = self.asks("INVITE", self.media.text())
        while self.responses.get(timeout=PATIENCE).status() != waits:
            pass
        self.asks("CANCEL", number=self.number, branch=branch)
        response = self.waits("INVITE")
        self.asks("ACK", number=self.number, branch=branch)
        return response.status()

    def ends(self):
        """A BYE; what was answered."""
        self.asks("BYE")
        return self.waits("BYE").status()

    # ---- what it is asked

    def replies(self, request, sender, status, body=b""):
        to = request.get("to")
        to += "" if "tag=" in to else ";" + self.own.split(";")[-1]
        headers = [f"Via: {via}" for via in request.all("via")]
        headers += [f"Record-Route: {route}" for route in request.all("record-route")]
        headers += [f"From: {request.get('from')}", f"To: {to}", f"Call-ID: {self.id}", f"CSeq: {request.get('cseq')}",
                    f"Contact: {self.telephone.contact()}"]
        self.telephone.sends(f"SIP/2.0 {status}", headers, body, sender)

    def is_invited(self, request, sender):
        """An offer: answered at once, or let ring."""
        if not self.routes:
            self.routes = request.all("record-route")
        self.uri, self.other = inner(request.get("contact")), request.get("from")
        if "tag=" not in request.get("to"):
            self.own = f"{request.get('to')};{self.own.split(';')[-1]}"
            self.replies(request, sender, "180 Ringing")
        if not self.media:
            self.waiting = request
            return
        text = self.media.answers(request.body) if request.body else self.media.text()
        if self.telephone.early:
            self.replies(request, sender, "183 Session Progress", text)
            self.media.agrees(request.body)
            time.sleep(self.telephone.early)
        self.replies(request, sender, "200 OK", text)
        if request.body:
            self.media.agrees(request.body)

    def is_asked(self, request, sender):
        method = request.method()
        if method in ("INVITE", "UPDATE", "PRACK"):
            self.is_invited(request, sender)
        elif method == "ACK" and request.body:
            self.media.agrees(request.body)
        elif method in ("BYE", "CANCEL"):
            self.ended_at = time.monotonic()
            # As over a network: Kamailio 5.6.3, which sends BYE to both sides, leaves out the second one where the first is
            # answered before.
            time.sleep(0.02)
            self.replies(request, sender, "200 OK")
            if method == "CANCEL" and self.waiting:
                self.replies(self.waiting, sender, "487 Request Terminated")
            self.ended.set()


def keys_of(text):
    """The keys of a description by tag, of the suites that are known here."""
    known = re.compile(rf"a=crypto:\d+ ({'|'.join(KNOWN)}) ")
    return crypto_of("\n".join(line for line in padded(text).decode().splitlines() if known.match(line)))


def inner(value):
    """The address in a Contact header."""
    return value.split("<", 1)[1].split(">")[0] if "<" in value else value.split(";")[0]


def padded(text):
    """A text whose keys have base64 with its padding, which rtpengine leaves out."""
    return re.sub(rb"inline:([A-Za-z0-9+/]+)=*", lambda key: b"inline:" + key[1] + b"=" * (-len(key[1]) % 4), text)


def registers(name, address, proxy, encrypts=False):
    """Has calls to a name come to an address, whoever is there. That it encrypts stands in its Contact."""
    with socket.socket(socket.AF_INET, socket.SOCK_DGRAM) as own:
        own.bind((address[0], 0))
        own.settimeout(PATIENCE)
        host, port = own.getsockname()
        uri = f"sip:{name}@{proxy[0]}:{proxy[1]}"
        headers = [f"REGISTER {uri} SIP/2.0", f"Via: SIP/2.0/UDP {host}:{port};branch=z9hG4bK{os.urandom(6).hex()}",
                   f"From: <{uri}>;tag={os.urandom(4).hex()}", f"To: <{uri}>", f"Call-ID: {os.urandom(6).hex()}",
                   "CSeq: 1 REGISTER", f"Contact: <sip:{name}@{address[0]}:{address[1]}{';srtp' * encrypts}>", "Expires: 600",
                   "Content-Length: 0", "", ""]
        own.sendto("\r\n".join(headers).encode(), proxy)
        response = Message(own.recv(65_536))
        if response.status() != 200:
            raise Refused(response.status())
