#!/usr/bin/env python3
"""Uses the NG daemon (tools/ng) as a SIP server does, and badly, and checks what it answers.

    interop/ng_protocol.py PROGRAM

It starts the daemon over the program, which is a gateway by its command `relay`. What must come stands here, or in the
pages that say so; requests are written by a writer of its own. It makes a network of its own where the system lets it;
else UDP port 2223 and the gateway's ports 20000 to 24095 of 127.0.0.1 have to be free.
"""
import base64
import contextlib
import http.server
import itertools
import json
import os
import random
import re
import signal
import socket
import subprocess
import sys
import tempfile
import threading
import time
from pathlib import Path

from loopback import has_own_loopback

TOP = Path(__file__).resolve().parents[1]
sys.path.insert(0, str(TOP / "tools"))
from ng import bencode  # noqa: E402

HOST, NG = "127.0.0.1", ("127.0.0.1", 2223)
SECURE, PLAIN = (HOST, 4000), (HOST, 4010)
ALL_SECONDS = 900
# The calls that a gateway has at most (docs/formats.md).
CALLS_MOST = 256
SUITE = "AES_CM_128_HMAC_SHA1_80"

# The examples of BEP 3, and values that differ from them by a rule of its text.
VALUES = {
    b"4:spam": b"spam", b"i3e": 3, b"i-3e": -3, b"i0e": 0, b"l4:spam4:eggse": [b"spam", b"eggs"],
    b"d3:cow3:moo4:spam4:eggse": {b"cow": b"moo", b"spam": b"eggs"}, b"d4:spaml1:a1:bee": {b"spam": [b"a", b"b"]},
    b"0:": b"", b"le": [], b"de": {},
}
NO_VALUES = (
    b"", b"i-0e", b"i03e", b"ie", b"i3", b"i+3e", b"5:spam", b"04:spam", b"-1:", b"4spam", b"l4:spam", b"d3:cowe",
    b"di3e3:mooe", b"d3:cow3:moo3:cow3:mooe", b"e", b"4:spami3e", b"x",
)
# Datagrams of Kamailio 5.6.3 as they were captured: a ping, baresip's offer and SIPp's answer; the key is another one.
PING = b"0_17582_0 d7:command4:pinge"
OFFER = (
    b"0_17584_0 d8:supportsl10:load limite3:sdp396:v=0\r\no=- 359279170 934334464 IN IP4 10.99.0.1\r\ns=-\r\n"
    b"c=IN IP4 10.99.0.1\r\nt=0 0\r\na=tool:baresip 1.0.0\r\nm=audio 42004 RTP/SAVP 0 101\r\na=rtpmap:0 PCMU/8000\r\n"
    b"a=rtpmap:101 telephone-event/8000\r\na=fmtp:101 0-15\r\na=sendrecv\r\na=label:1\r\na=rtcp-rsize\r\n"
    b"a=ssrc:58050736 cname:sip:alice@127.0.0.1\r\n"
    b"a=crypto:1 AES_CM_128_HMAC_SHA1_80 inline:AAECAwQFBgcICQoLDA0ODxAREhMUFRYXGBkaGxwd\r\na=minptime:20\r\n"
    b"a=ptime:20\r\n3:ICE6:remove5:flagsl18:SIP-source-addresse7:replacel6:origin18:session-connectione"
    b"18:transport-protocol7:RTP/AVP8:rtcp-muxl5:demuxe7:call-id16:f80697588c6f308a13:received-froml3:IP49:127.0.0.1e"
    b"8:from-tag16:380d2bf4ccb3361f7:command5:offere")
ANSWER = (
    b"0_17587_0 d8:supportsl10:load limite3:sdp113:v=0\r\no=echo 1 1 IN IP4 127.0.0.1\r\ns=-\r\nc=IN IP4 127.0.0.1\r\n"
    b"t=0 0\r\nm=audio 43000 RTP/AVP 0\r\na=rtpmap:0 PCMU/8000\r\n3:ICE6:remove5:flagsl18:SIP-source-addresse"
    b"7:replacel6:origin18:session-connectione18:transport-protocol8:RTP/SAVP8:rtcp-muxl5:demuxe"
    b"7:call-id16:f80697588c6f308a13:received-froml3:IP49:127.0.0.1e8:from-tag16:380d2bf4ccb3361f6:to-tag10:17624echo1"
    b"7:command6:answere")


def bencoded(value):
    """A writer of its own: keys stand as they come."""
    if isinstance(value, dict):
        return b"d" + b"".join(bencoded(key) + bencoded(held) for key, held in value.items()) + b"e"
    if isinstance(value, list):
        return b"l" + b"".join(map(bencoded, value)) + b"e"
    if isinstance(value, int):
        return b"i%de" % value
    octets = value.encode() if isinstance(value, str) else value
    return b"%d:%b" % (len(octets), octets)


class Server:
    """A SIP server's end of the protocol."""

    numbers = itertools.count()

    def __init__(self):
        self.socket = socket.socket(socket.AF_INET, socket.SOCK_DGRAM)
        self.socket.bind((HOST, 0))
        self.socket.settimeout(20)
        self.socket.connect(NG)

    def sends(self, octets):
        self.socket.send(octets)

    def takes(self):
        return self.socket.recv(65_536)

    def asks(self, command, **fields):
        """The answer to a request, as a dictionary of octets."""
        message = {key.replace("_", "-"): value for key, value in fields.items()}
        return bencode.decoded(self.hears(bencoded({**message, "command": command})))

    def hears(self, body):
        """The answer to a body, whatever else comes before."""
        cookie = b"%d_%d " % (os.getpid(), next(self.numbers))
        self.sends(cookie + body)
        while True:
            answer = self.takes()
            if answer.startswith(cookie):
                return answer[len(cookie):]

    def offers(self, call, tag, text, to, **more):
        return self.asks("offer", **{"call_id": call, "from_tag": tag, "sdp": text, "transport_protocol": to, **more})

    def answers(self, call, tags, text, **more):
        return self.asks("answer", call_id=call, from_tag=tags[0], to_tag=tags[1], sdp=text, **more)

    def is_answered(self):
        return self.hears(b"d7:command4:pinge") == b"d6:result4:ponge"


class Daemon:
    """The daemon, and the lines of its log."""

    def __init__(self, program, *words, more=(), **how):
        command = [sys.executable, TOP / "tools" / "ng", "--listen", "%s:%d" % NG, "--program", program, *words]
        environment = {**os.environ, **dict(more)}
        self.process = subprocess.Popen(command, stdout=subprocess.PIPE, text=True, errors="replace", env=environment, **how)
        self.lines = []
        self.begins = threading.Event()
        self.reader = threading.Thread(target=self.reads, daemon=True)
        self.reader.start()
        assert self.begins.wait(60), f"the daemon does not begin: {self.process.poll()}"

    def reads(self):
        for line in self.process.stdout:
            self.lines.append(line)
            if "answers NG requests" in line:
                self.begins.set()

    def has_said(self, pattern, seconds=20):
        end = time.monotonic() + seconds
        while time.monotonic() < end:
            if any(re.search(pattern, line) for line in list(self.lines)):
                return True
            time.sleep(0.05)
        raise AssertionError(f"no line of the log says {pattern}: {self.lines[-5:]}")

    def ends(self, number=signal.SIGTERM):
        """Its status, behind a signal or by itself."""
        if number:
            self.process.send_signal(number)
        try:
            return self.process.wait(60)
        finally:
            self.process.kill()
            self.reader.join()


@contextlib.contextmanager
def running(program, *words, **how):
    daemon = Daemon(program, *words, **how)
    try:
        yield daemon, Server()
        assert daemon.ends() == 0, "the daemon's status"
    finally:
        daemon.process.kill()


def text_of(address, profile, *rest, version=1):
    host, port = address
    lines = ["v=0", f"o=user 1 {version} IN IP4 10.0.0.99", "s=-", f"c=IN IP4 {host}", "t=0 0",
             f"m=audio {port} {profile} 0", "a=rtpmap:0 PCMU/8000", *rest]
    return "".join(line + "\r\n" for line in lines)


def key():
    return f"a=crypto:1 {SUITE} inline:{base64.b64encode(os.urandom(30)).decode()}"


def secure(*rest, crypto=None, **more):
    return text_of(SECURE, "RTP/SAVP", crypto or key(), *rest, **more)


def plain(*rest, **more):
    return text_of(PLAIN, "RTP/AVP", *rest, **more)


def lines_of(answer):
    assert answer.get(b"result") == b"ok", answer
    return answer[b"sdp"].decode().splitlines()


def port_of(lines):
    return int(re.search(r"^m=audio (\d+)", "\n".join(lines), re.M)[1])


def reason_of(answer):
    assert answer.get(b"result") == b"error", answer
    return answer[b"error-reason"].decode()


def sentence(name):
    """What the page says of a refusal."""
    for line in (TOP / "docs" / "refusals.md").read_text().splitlines():
        cells = [cell.strip() for cell in line.strip("|").split(" | ")]
        if re.match(rf"{name}\b", cells[0]) and len(cells) == 3:
            return cells[1]
    raise AssertionError(f"the page has no {name}")


@contextlib.contextmanager
def sockets():
    with contextlib.ExitStack() as kept:
        pair = [kept.enter_context(socket.socket(socket.AF_INET, socket.SOCK_DGRAM)) for _ in (SECURE, PLAIN)]
        for one, address in zip(pair, (SECURE, PLAIN)):
            one.bind(address)
            one.settimeout(20)
        yield pair


def call(server, name, tags=("a", "b")):
    """A call that the secure side makes: the lines of both texts."""
    to_plain = lines_of(server.offers(name, tags[0], secure(), "RTP/AVP"))
    return to_plain, lines_of(server.answers(name, tags, plain()))


# ---- checks


def values(_):
    for octets, value in VALUES.items():
        assert bencode.decoded(octets) == value, octets
        assert bencode.encoded(value) == octets, octets
    for octets in NO_VALUES:
        try:
            bencode.decoded(octets)
        except bencode.Bad:
            continue
        raise AssertionError(f"{octets} is taken as a value")
    return f"{len(VALUES)} values, {len(NO_VALUES)} that are none"


def a_call(program):
    """Offered by either side, answered, with a packet, and deleted."""
    with running(program) as (daemon, server), sockets() as (at_secure, at_plain):
        to_plain, to_secure = call(server, "one")
        assert "c=IN IP4 127.0.0.1" in to_plain and not any("crypto" in line for line in to_plain), to_plain
        assert [line for line in to_plain if line.startswith("m=")] == [f"m=audio {port_of(to_plain)} RTP/AVP 0"]
        assert any(line.startswith(f"a=crypto:1 {SUITE} inline:") for line in to_secure), to_secure
        passes(at_plain, at_secure, port_of(to_plain))
        at_plain.sendto(b"\x80\x00", (HOST, port_of(to_plain)))
        while not server.asks("query", call_id="one")[b"drops"]:
            time.sleep(0.05)
        asked = server.asks("query", call_id="one")
        assert set(asked[b"tags"]) == {b"a", b"b"} and asked[b"tags"][b"a"][b"in dialogue with"] == b"b", asked
        ended = ends(server, "one", daemon)
        assert ended[b"totals"][b"RTP"][b"errors"] == 1 and ended[b"drops"] == {b"Short": 1}, ended
        to_secure = lines_of(server.offers("two", "c", plain(), "RTP/SAVP"))
        assert sum(line.startswith("a=crypto:") for line in to_secure) == 2, to_secure
        lines_of(server.answers("two", ("c", "d"), secure()))
        assert server.asks("list")[b"calls"] == [b"two"]
        assert server.asks("statistics")[b"statistics"][b"currentstatistics"][b"sessionsown"] == 1
        ends(server, "two", daemon)
    return "two calls and a packet"


def as_kamailio_asks(program):
    """Its own datagrams: baresip's offer goes out plain, and SIPp's answer with a key."""
    with running(program) as (_, server):
        server.sends(PING)
        assert server.takes() == b"0_17582_0 d6:result4:ponge"
        server.sends(OFFER)
        cookie, _, body = server.takes().partition(b" ")
        lines = lines_of(bencode.decoded(body))
        assert cookie == b"0_17584_0" and lines[1] == "o=- 359279170 934334464 IN IP4 127.0.0.1", lines
        assert "m=audio 20002 RTP/AVP 0 101" in lines and not crypto_in(lines), lines
        server.sends(ANSWER)
        cookie, _, body = server.takes().partition(b" ")
        lines = lines_of(bencode.decoded(body))
        assert cookie == b"0_17587_0" and "m=audio 20000 RTP/SAVP 0" in lines and len(crypto_in(lines)) == 1, lines
        asked = server.asks("query", call_id="f80697588c6f308a")
        medium = asked[b"tags"][b"380d2bf4ccb3361f"][b"medias"][0][b"streams"][0]
        assert medium[b"endpoint"] == {b"family": b"IPv4", b"address": HOST.encode(), b"port": 42_004}, medium
        server.asks("delete", call_id="f80697588c6f308a")
    return "a ping, an offer, an answer"


def passes(at_plain, at_secure, port):
    """A plain packet comes out sealed: its head, and ten octets more."""
    packet = bytes.fromhex("8000001000000020000000ab") + bytes(160)
    at_plain.sendto(packet, (HOST, port))
    sealed = at_secure.recv(2048)
    assert sealed[:12] == packet[:12] and len(sealed) == len(packet) + 10, sealed


def ends(server, name, daemon):
    ended = server.asks("delete", call_id=name)
    assert ended[b"result"] == b"ok" and b"warning" not in ended, ended
    assert b"warning" in server.asks("delete", call_id=name)
    assert daemon.has_said(rf"call \d+ \({name}\) deleted after")
    return ended


def cookies(program):
    """The same request again is answered by the same octets, and obeyed once."""
    with running(program) as (_, server):
        message = {"sdp": plain(), "call-id": "one", "from-tag": "a", "command": "offer",
                   "transport-protocol": "RTP/SAVP"}
        first, second = (twice(server, b"7_1 " + bencoded(message)) for _ in range(2))
        assert first == second
        assert server.asks("statistics")[b"statistics"][b"totalstatistics"][b"managedsessions"] == 1
        assert b"warning" not in server.asks("delete", call_id="one")
        assert server.asks("list")[b"calls"] == []
        other = Server()
        other.sends(b"7_1 " + bencoded({"command": "ping"}))
        assert other.takes() == b"7_1 d6:result4:ponge", "another sender's cookie"
        return "a request three times: one call, the same answer"


def twice(server, octets):
    """The answer to a datagram that comes twice at once."""
    server.sends(octets)
    server.sends(octets)
    return server.takes()


def flags(program):
    """What a server asks of texts is done, and what can't be is refused."""
    words = ["--secure", "10.1.0.1", "--plain", "10.2.0.1", "--interface", "outside=10.3.0.1"]
    with running(program, *words) as (_, server):
        asked = {"replace": ["origin", "session-connection"], "flags": ["SIP-source-address"],
                 "received_from": ["IP4", HOST], "ICE": "remove", "rtcp_mux": ["demux"]}
        lines = lines_of(server.offers("one", "a", plain("a=rtcp-mux", "a=candidate:x"), "RTP/SAVP", **asked))
        assert lines[1] == "o=user 1 1 IN IP4 10.1.0.1" and lines[3] == "c=IN IP4 10.1.0.1", lines
        assert not any("rtcp-mux" in line or "candidate" in line for line in lines), lines
        lines = lines_of(server.answers("one", "ab", secure()))
        assert lines[1] == "o=user 1 1 IN IP4 10.0.0.99" and lines[3] == "c=IN IP4 10.2.0.1", lines
        more = {"media_address": "10.4.0.1", "SDES": [f"no-{SUITE}"]}
        lines = lines_of(server.offers("two", "a", plain(), "RTP/SAVPF", **more))
        assert lines[3] == "c=IN IP4 10.4.0.1" and sum("a=crypto" in line for line in lines) == 1, lines
        assert [line.split()[2] for line in lines if line.startswith("m=")] == ["RTP/SAVPF"], lines
        lines = lines_of(server.offers("three", "a", plain(), "RTP/SAVP", direction=["outside", "outside"]))
        assert lines[3] == "c=IN IP4 10.3.0.1", lines
        best_effort = text_of(SECURE, "RTP/AVP", key())
        lines_of(server.offers("four", "a", best_effort, "RTP/AVP"))
        lines = lines_of(server.answers("four", "ab", plain()))
        assert "RTP/AVP" in lines[5] and any(line.startswith("a=crypto:1") for line in lines), lines
        video = "m=video 4012 RTP/{}F 96"
        lines_of(server.offers("six", "a", plain(video.format("AVP")), "RTP/SAVP"))
        lines = lines_of(server.answers("six", "ab", secure(video.format("SAVP"), key())))
        assert [line.split()[2] for line in lines if line.startswith("m=")] == ["RTP/AVP", "RTP/AVPF"], lines
        for wrong, said in NOT_DONE:
            asked = {"transport_protocol": "RTP/SAVP", "call_id": "five", "from_tag": "a", "sdp": plain(), **wrong}
            assert said in reason_of(server.asks("offer", **asked)), wrong
    return f"texts as the flags ask; {len(NOT_DONE)} flags refused"


def one_port(program):
    """With `--mux` a telephone that offers one port for RTP and RTCP gets it, unless a flag bars that; the other side is
    offered two. Offers that go past the gateway keep it, and one without the line ends it."""
    mux = "a=rtcp-mux"
    with running(program, "--mux") as (_, server), sockets() as (at_secure, at_plain):
        to_plain = lines_of(server.offers("one", "a", secure(mux, crypto=KEEPS), "RTP/AVP", rtcp_mux=["demux"]))
        to_secure = lines_of(server.answers("one", "ab", plain()))
        assert mux not in to_plain and to_secure[-1] == mux, (to_plain, to_secure)
        report = bytes.fromhex("80c90001") + b"\1\2\3\4"
        at_plain.sendto(report, (HOST, port_of(to_plain) + 1))
        came, sender = at_secure.recvfrom(100)
        assert (came[:8], sender[1], len(came)) == (report, port_of(to_secure), 22), (came, sender)
        held = lines_of(server.offers("one", "a", secure("a=sendonly", mux, crypto=KEEPS), "RTP/AVP", to_tag="b"))
        back = lines_of(server.answers("one", "ab", plain("a=recvonly")))
        assert mux not in held and back[-1] == mux and crypto_in(back) == crypto_in(to_secure), (held, back)
        lines_of(server.offers("one", "a", secure(), "RTP/AVP", to_tag="b"))
        assert mux not in lines_of(server.answers("one", "ab", plain())), "an offer without the line"
        lines_of(server.offers("two", "a", secure(mux), "RTP/AVP", rtcp_mux=["reject"]))
        assert mux not in lines_of(server.answers("two", "ab", plain())), "rtcp-mux-reject"
        lines_of(server.offers("three", "a", plain(mux), "RTP/SAVP", rtcp_mux=["accept", "offer"]))
        assert mux in lines_of(server.answers("three", "ab", secure())), "offered by the plain side"
        assert "rtcp-mux" in reason_of(server.offers("four", "a", secure(mux), "RTP/AVP", rtcp_mux=["require"]))
    return "taken where it is offered, told to the other side never"


NOT_DONE = (
    ({"transport_protocol": "UDP/TLS/RTP/SAVPF"}, "DTLS"),
    ({"transport_protocol": "RTP/AVP"}, "both sides would be plain"),
    ({"sdp": text_of(SECURE, "UDP/TLS/RTP/SAVPF", "a=fingerprint:sha-256 00"), "transport_protocol": "RTP/AVP"}, "DTLS"),
    ({"ICE": "force"}, "ICE"), ({"rtcp_mux": ["require"]}, "rtcp-mux"), ({"media_address": "::1"}, "IPv4"),
    ({"address_family": "IP6"}, "IP4"),
    ({"flags": ["SIP source address"], "received_from": ["IP6", "::1"]}, "IPv4"), ({"SDES": ["only-F8"]}, "suite"),
    ({"flags": 3}, "flags isn't a list"), ({"sdp": 3}, "sdp isn't a string"), ({"from_tag": ""}, "No from-tag"),
)


def offers_again(program):
    """Offers within a call: the same again, in place of one that wasn't answered, past the gateway, with new keys."""
    with running(program) as (daemon, server):
        first = lines_of(server.offers("one", "a", secure(crypto=KEEPS), "RTP/AVP"))
        assert lines_of(server.offers("one", "a", secure(crypto=KEEPS), "RTP/AVP")) == first, "the same offer again"
        early = lines_of(server.answers("one", "ab", plain()))
        final = lines_of(server.answers("one", "ab", plain("a=sendrecv")))
        assert final == early[:7] + ["a=sendrecv"] + early[7:], final
        assert sentence("State") in reason_of(server.answers("one", "ab", text_of((HOST, 4020), "RTP/AVP")))
        held = lines_of(server.offers("one", "a", secure("a=sendonly", crypto=KEEPS, version=2), "RTP/AVP", to_tag="b"))
        assert port_of(held) == port_of(first) and "a=sendonly" in held, held
        back = lines_of(server.answers("one", "ab", plain("a=recvonly")))
        assert crypto_in(back) == crypto_in(early) and "a=recvonly" in back, back
        nowhere = plain().replace(f"c=IN IP4 {HOST}", "c=IN IP4 0.0.0.0")
        held = lines_of(server.offers("one", "b", nowhere, "RTP/SAVP", to_tag="a"))
        assert "c=IN IP4 0.0.0.0" in held and crypto_in(held) == crypto_in(early), held
        lines_of(server.answers("one", "ba", secure(crypto=KEEPS)))
        moved = text_of((HOST, 4020), "RTP/AVP")
        refused = lines_of(server.offers("one", "b", moved, "RTP/SAVP", to_tag="a"))
        assert sentence("KeyReused") in reason_of(server.answers("one", "ba", secure(crypto=KEEPS)))
        anew = lines_of(server.offers("one", "b", plain("a=x", version=3), "RTP/SAVP", to_tag="a"))
        assert crypto_in(anew) != crypto_in(refused), "the second offer is in place of the first"
        lines_of(server.offers("one", "a", secure(), "RTP/AVP", to_tag="b"))
        lines_of(server.answers("one", "ab", plain()))
        ends(server, "one", daemon)
        first = lines_of(server.offers("two", "a", plain(), "RTP/SAVP"))
        second = lines_of(server.offers("two", "a", moved, "RTP/SAVP"))
        assert crypto_in(first) != crypto_in(second) and server.asks("list")[b"calls"] == [b"two"]
        ends(server, "two", daemon)
        branches(server)
    return "again, past the gateway, in place of another, by branches"


KEEPS = key()


def crypto_in(lines):
    return [line for line in lines if line.startswith("a=crypto:")]


def branches(server):
    """Two branches of a call have ports of their own; one may go alone."""
    ports = [port_of(lines_of(server.offers("three", "a", plain(), "RTP/SAVP", via_branch=name))) for name in "xy"]
    assert ports[0] != ports[1], ports
    lines_of(server.answers("three", "ab", secure(), via_branch="y"))
    # An answer that names no branch is the open offer's, though another one came later.
    assert port_of(lines_of(server.answers("three", "ac", secure()))) == ports[0] + 2
    assert b"warning" not in server.asks("delete", call_id="three", from_tag="a", via_branch="x")
    assert b"warning" in server.asks("delete", call_id="three", from_tag="other")
    assert b"warning" not in server.asks("delete", call_id="three", from_tag="b", via_branch="of the BYE")
    assert server.asks("list")[b"calls"] == []


def side_by_side(program):
    """A full table of calls offered at once has ports of its own for each; one more is for another gateway."""
    with running(program) as (_, server):
        answers = at_once(server, [{"command": "offer", "call-id": f"call {number}", "from-tag": "a", "sdp": plain(),
                                    "transport-protocol": "RTP/SAVP"} for number in range(CALLS_MOST)])
        ports = {port_of(lines_of(answer)) for answer in answers}
        assert ports == {20_000 + 16 * slot for slot in range(CALLS_MOST)}, len(ports)
        asked = server.offers("one more", "a", plain(), "RTP/SAVP", supports=["load limit"])
        assert asked[b"result"] == b"load limit" and sentence("TableFull") in asked[b"message"].decode(), asked
        at_once(server, [{"command": "delete", "call-id": f"call {number}"} for number in range(CALLS_MOST)])
        assert server.asks("list")[b"calls"] == []
    return f"{CALLS_MOST} calls at once, and one too many"


def at_once(server, messages):
    """The answers to requests that are sent without waiting for any."""
    for message in messages:
        server.sends(f"{message['command']}_{next(server.numbers)} ".encode() + bencoded(message))
    answers = (server.takes().partition(b" ")[2] for _ in messages)
    return [bencode.decoded(answer) for answer in answers]


def refusals(program):
    """A refused text is told by the page's sentence, in the answer and in the log."""
    with running(program) as (daemon, server):
        assert sentence("Sdp [^|]*Order") in reason_of(server.offers("one", "a", "v=0\r\n", "RTP/SAVP"))
        no_key = text_of(SECURE, "RTP/SAVP")
        assert sentence("Sdes NoLine") in reason_of(server.offers("one", "a", no_key, "RTP/AVP"))
        assert daemon.has_said(r"offer of one refused \(Sdes 0 NoLine\)")
        too_long = plain() + "a=" + 40_000 * "x" + "\r\n"
        assert "TooLong" in reason_of(server.offers("one", "a", too_long, "RTP/SAVP"))
        assert reason_of(server.asks("query", call_id="one")) == "Unknown call-id"
        assert "Unrecognized command" in reason_of(server.asks("play media", call_id="one"))
        assert reason_of(server.answers("one", "ab", plain())) == "Unknown call-id"
        assert server.asks("list")[b"calls"] == []
        return "by the page's sentences"


def hostile(program):
    """Datagrams that are no requests, or bad ones: none ends the daemon or a call."""
    with running(program) as (_, server), sockets() as (at_secure, at_plain):
        to_plain, _ = call(server, "kept")
        count = 0
        for datagram in itertools.chain(cut(), malformed(), mistyped(), drawn(2_000)):
            server.sends(datagram[:65_507])
            count += 1
            if count % 50 == 0:
                assert server.is_answered(), count
        assert server.is_answered()
        while server.asks("list", limit=1_000_000)[b"calls"] != [b"kept"]:
            for name in server.asks("list", limit=1_000_000)[b"calls"]:
                if name != b"kept":
                    server.asks("delete", call_id=name)
        passes(at_plain, at_secure, port_of(to_plain))
        server.asks("delete", call_id="kept")
        return f"{count} datagrams"


def cut():
    """An offer cut at every octet."""
    whole = b"9_9 " + bencoded({
        "ICE": "remove", "flags": ["SIP-source-address"], "replace": ["origin"], "transport-protocol": "RTP/SAVP",
        "call-id": "cut", "received-from": ["IP4", HOST], "from-tag": "a", "sdp": plain(), "command": "offer"})
    return (b"%d" % place + whole[:place] for place in range(len(whole)))


def malformed():
    cookies = (b"m%d " % number for number in itertools.count())
    for body in (
        b"", b" ", b"d", b"l" * 10_000, b"d1:a" * 10_000, b"d" * 65_000, b"l" * 30_000 + b"e" * 30_000, b"e" * 65_000,
        b"d9999999999:x", b"d99999999999999999999:x", b"i" + b"9" * 60_000 + b"e", b"di1ei2ee", b"d7:command4:pingei3e",
        b"d7:command" + b"9" * 50_000, b"{\"command\": \"ping\"}", b"\xff\xfe",
        b"d7:command5:offer7:call-id2:\xff\xfee",
    ):
        yield next(cookies) + body
    yield from (b"", b" ", b"x" * 60_000, b"x" * 300 + b" d7:command4:pinge", b"\n\r\0 d7:command4:pinge")


def mistyped():
    """Each field of an offer, an answer and others as each other type, and with octets that are no UTF-8."""
    fields = {
        "call-id": "wrong", "from-tag": "a", "to-tag": "b", "sdp": plain(), "flags": [], "replace": [],
        "received-from": ["IP4", HOST], "transport-protocol": "RTP/SAVP", "media-address": HOST,
        "direction": ["a", "b"], "via-branch": "z", "ICE": "remove", "rtcp-mux": [], "SDES": [], "supports": [],
        "limit": 3, "address-family": "IP4"}
    wrong = (-1, 10**18, "", b"\xff\0\n", [], [3], [[]], {}, {"a": 1}, ["IP4"], ["IP4", "300.1.1.1"], "x" * 40_000)
    for number, (command, name, value) in enumerate(itertools.product(
            ("offer", "answer", "delete", "query", "list", "statistics"), fields, wrong)):
        # By many calls, which are obeyed side by side.
        message = {**fields, "call-id": f"wrong {number % 64}", name: value, "command": command}
        yield b"t%d " % number + bencoded(message)
    yield b"t " + bencoded({"command": ["ping"]})


def drawn(count, seed=7):
    """Offers to a telephone that encrypts, of one that doesn't and of one that does, too, with octets changed, left out or
    doubled, from a seed."""
    random.seed(seed)
    message = {"from-tag": "a", "transport-protocol": "RTP/SAVP", "command": "offer"}
    for number in range(count):
        text = (plain(), secure(crypto=KEEPS))[number % 3 == 0]
        octets = bytearray(bencoded({"call-id": f"drawn {number % 64}", "sdp": text, **message}))
        for _ in range(random.randint(1, 4)):
            place = random.randrange(len(octets))
            octets[place:place + random.randint(0, 2)] = bytes(random.choices(range(256), k=random.randint(0, 2)))
        yield b"r%d " % number + octets


class Kamailio(http.server.BaseHTTPRequestHandler):
    """What is told of calls that have ended: the lists of Call-ID and tags. It answers behind some seconds."""

    told, seconds = [], 0

    def do_POST(self):
        asked = json.loads(self.rfile.read(int(self.headers["Content-Length"])))
        self.told.append([asked["method"], *asked["params"]])
        time.sleep(self.seconds)
        # Who has asked may be there no more.
        with contextlib.suppress(OSError):
            self.send_response(200)
            self.end_headers()
            self.wfile.write(json.dumps({"jsonrpc": "2.0", "id": asked["id"], "result": {}}).encode())

    def log_message(self, *_):
        pass


def drains(program):
    """A daemon that drains takes no new call, keeps those that it has, and ends with the last one."""
    with running(program) as (daemon, server):
        call(server, "one")
        daemon.process.send_signal(signal.SIGUSR1)
        daemon.has_said("takes no new calls")
        asked = server.offers("two", "a", plain(), "RTP/SAVP", supports=["load limit"])
        assert asked[b"result"] == b"load limit", asked
        assert reason_of(server.offers("two", "a", plain(), "RTP/SAVP")) == "Parallel session limit reached"
        lines_of(server.offers("one", "b", text_of((HOST, 4030), "RTP/AVP"), "RTP/SAVP", to_tag="a"))
        lines_of(server.answers("one", "ba", secure()))
        assert daemon.process.poll() is None
        server.asks("delete", call_id="one")
        assert daemon.process.wait(30) == 0
    return "no new call, a new key for one that is there, and the end"


@contextlib.contextmanager
def tells_kamailio():
    """A place that is told of calls, and its URL."""
    place = http.server.ThreadingHTTPServer((HOST, 0), Kamailio)
    threading.Thread(target=place.serve_forever, daemon=True).start()
    Kamailio.told.clear()
    try:
        yield f"http://{HOST}:{place.server_port}/RPC"
    finally:
        place.shutdown()


def gateway_dies(program):
    """Where the gateway's process is killed, the SIP server is told of each call, and new calls go on by the next."""
    with tells_kamailio() as url, running(program, "--tell", url) as (daemon, server):
        for name in ("one", "two"):
            call(server, name)
        children = Path(f"/proc/{daemon.process.pid}/task/{daemon.process.pid}/children").read_text().split()
        assert len(children) == 1, children
        os.kill(int(children[0]), signal.SIGKILL)
        end = time.monotonic() + 20
        while len(Kamailio.told) < 2 and time.monotonic() < end:
            time.sleep(0.05)
        wanted = [["dlg.terminate_dlg", name, "a", "b"] for name in ("one", "two")]
        assert sorted(Kamailio.told) == wanted, Kamailio.told
        while server.offers("three", "a", plain(), "RTP/SAVP")[b"result"] != b"ok":
            assert time.monotonic() < end, "no next gateway"
            time.sleep(0.2)
        assert server.asks("list")[b"calls"] == [b"three"]
        lines_of(server.answers("three", "ab", secure()))
    assert Kamailio.told[2:] == [["dlg.terminate_dlg", "three", "a", "b"]], Kamailio.told
    return "two calls told, the next call by the next process, and told where the daemon ends"


def has_ended_its_calls(seconds=30):
    """Waits until the gateway of a daemon that was killed has ended: its calls have their ports until then, and the next
    daemon can't begin."""
    end = time.monotonic() + seconds
    while True:
        try:
            for port in range(20000, 20032):
                with socket.socket(socket.AF_INET, socket.SOCK_DGRAM) as one:
                    one.bind((HOST, port))
            return
        except OSError:
            assert time.monotonic() < end, "the gateway of a daemon that was killed goes on"
            time.sleep(0.1)


def daemon_dies(program):
    """Where the daemon itself is killed, the next one tells of the calls that were there."""
    with tempfile.TemporaryDirectory() as folder, tells_kamailio() as url:
        words = ["--tell", url, "--calls", f"{folder}/calls"]
        with contextlib.suppress(AssertionError), running(program, *words) as (daemon, server):
            call(server, "one")
            call(server, "two")
            server.asks("delete", call_id="one")
            daemon.process.kill()
        assert not Kamailio.told
        has_ended_its_calls()
        with running(program, *words) as (_, server):
            assert server.asks("list")[b"calls"] == []
    assert Kamailio.told == [["dlg.terminate_dlg", "two", "a", "b"]], Kamailio.told
    return "the call that was left is told"


ALL = (
    values, as_kamailio_asks, a_call, cookies, flags, one_port, offers_again, side_by_side, refusals, hostile, drains,
    gateway_dies, daemon_dies,
)


def is_too_long(*_):
    sys.exit(f"the checks take more than {ALL_SECONDS} seconds")


def main():
    signal.signal(signal.SIGALRM, is_too_long)
    signal.alarm(ALL_SECONDS)
    has_own_loopback()
    begun = time.monotonic()
    wanted = [check for check in ALL if check.__name__ in sys.argv[2:]] or ALL
    for check in wanted:
        since = time.monotonic()
        print(f"{check.__name__}: {check(sys.argv[1])}; {time.monotonic() - since:.1f} s", flush=True)
    print(f"the NG daemon: as it should be, in {time.monotonic() - begun:.1f} s")


if __name__ == "__main__":
    main()
