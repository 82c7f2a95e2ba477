#!/usr/bin/env python3
"""Two telephones that encrypt, by the NG daemon (tools/ng): each has keys of its own, and their calls are joined.

    interop/ng_joined.py PROGRAM [CHECK..]     all of them, or these

What a telephone seals and opens is srtp.py's, so Python's library `cryptography` is needed. It makes a network of its own
where the system lets it; else UDP port 2223 and the gateway's ports of 127.0.0.1 have to be free.
"""

import contextlib
import os
import random
import socket
import sys
import time
from pathlib import Path

from loopback import has_own_loopback
from ng_protocol import (
    CALLS_MOST, HOST, at_once, bencoded, crypto_in, drawn, key, lines_of, plain, port_of, reason_of, running, sentence, text_of,
    tells_kamailio,
)
from usage import words_or_usage

TOP = Path(__file__).resolve().parents[1]
sys.path.append(str(TOP / "examples" / "live"))
from sealed import MasterKey, Opening, Sealing, crypto_line, crypto_of  # noqa: E402
from srtp import rtcp, rtp  # noqa: E402

SHORT, LONG = "AES_CM_128_HMAC_SHA1_80", "AES_256_CM_HMAC_SHA1_80"
OCTETS = {SHORT: 30, LONG: 46}
PORTS = {SHORT: 4_000, LONG: 4_020}
PACKETS = 20
BOTH = "RTP/SAVP"


class Telephone:
    """A telephone that encrypts in one suite, with a port for RTP and the next one for RTCP."""

    def __init__(self, suite):
        self.suite, self.tag, self.sockets, self.number = suite, "1", [], 0
        for above in (0, 1):
            self.sockets.append(socket.socket(socket.AF_INET, socket.SOCK_DGRAM))
            self.sockets[above].bind((HOST, PORTS[suite] + above))
            self.sockets[above].settimeout(20)
        self.draws()

    def draws(self):
        """Another key."""
        self.key = MasterKey(self.suite, os.urandom(OCTETS[self.suite]))
        self.sealing = Sealing(self.key)

    def text(self, *rest, version=1):
        return text_of((HOST, PORTS[self.suite]), BOTH, crypto_line(self.tag, self.key), *rest, version=version)

    def takes(self, lines):
        """The gateway's text: where to send, and what opens; of an offer the line of its own suite is answered."""
        text = "\n".join(lines)
        keys = {tag: key for tag, key in crypto_of(text).items() if key.suite == self.suite}
        (self.tag, key), self.to = next(iter(keys.items())), port_of(lines)
        self.opening = Opening(key)

    def sends(self, packet, report):
        self.sockets[0].sendto(self.sealing.seal(packet), (HOST, self.to))
        self.sockets[1].sendto(self.sealing.seal_report(report), (HOST, self.to + 1))

    def hears(self):
        return self.opening.open(self.sockets[0].recv(2_048)), self.opening.open_report(self.sockets[1].recv(2_048))

    def close(self):
        for one in self.sockets:
            one.close()


def talk(one, other):
    """Packets and reports each way, octet for octet."""
    for sender, taker in ((one, other), (other, one)):
        for _ in range(PACKETS):
            sender.number += 1
            sent = rtp(sender.number, payload=os.urandom(160)), rtcp(payload=os.urandom(20))
            sender.sends(*sent)
            heard = taker.hears()
            assert heard == sent, (sender.suite, sender.number, heard)


@contextlib.contextmanager
def telephones():
    both = Telephone(SHORT), Telephone(LONG)
    try:
        yield both
    finally:
        for one in both:
            one.close()


def agree(server, one, other, name="one", tags=("a", "b"), **more):
    """An offer and its answer, each through the telephones' own calls."""
    other.takes(lines_of(server.offers(name, tags[0], one.text(), BOTH, **more)))
    one.takes(lines_of(server.answers(name, tags, other.text(), transport_protocol=BOTH)))


def past(server, one, other, way, back, tags):
    """An offer and an answer that change no key: the other lines go on, and each keeps the gateway's key."""
    lines = lines_of(server.offers("one", tags[0], one.text(way, version=2), BOTH, to_tag=tags[1]))
    assert way in lines and len(crypto_in(lines)) > 0, lines
    lines = lines_of(server.answers("one", tags, other.text(back), transport_protocol=BOTH))
    assert back in lines, lines


def counts_of(server):
    return server.asks("statistics")[b"statistics"]


# ---- checks


def a_call(program):
    """AES-128 calls AES-256, packets and reports each way; held and resumed by either; new keys of one, then of the other"""
    with running(program) as (daemon, server), telephones() as (one, other):
        agree(server, one, other)
        assert one.opening.master.octets != other.opening.master.octets, "both have one key of the gateway's"
        talk(one, other)
        asked = server.asks("query", call_id="one")
        assert {tag[b"side"] for tag in asked[b"tags"].values()} == {b"first", b"second"}, asked
        assert counts_of(server)[b"pairs"] == 1 and counts_of(server)[b"currentstatistics"][b"sessionsown"] == 1
        past(server, one, other, "a=sendonly", "a=recvonly", "ab")
        past(server, other, one, "a=inactive", "a=inactive", "ba")
        past(server, other, one, "a=sendrecv", "a=sendrecv", "ba")
        talk(one, other)
        for first, second, tags in ((one, other, "ab"), (other, one, "ba")):
            keys = second.opening.master.octets
            first.draws()
            second.takes(lines_of(server.offers("one", tags[0], first.text(), BOTH, to_tag=tags[1])))
            assert second.opening.master.octets == keys, "the other telephone's keys have changed"
            first.takes(lines_of(server.answers("one", tags, second.text(), transport_protocol=BOTH)))
            talk(one, other)
        ended = server.asks("delete", call_id="one", from_tag="a", to_tag="b")
        assert not ended[b"drops"] and not ended[b"lost"], ended
        assert daemon.has_said(r"calls \d+ and \d+ \(one\) deleted after .*: 6 offers, 3 of them past the gateway$")
        assert counts_of(server)[b"pairs"] == 0 and server.asks("list")[b"calls"] == []
    return f"{6 * PACKETS} packets and as many reports each way, octet for octet"


def what_is_refused(program):
    """a telephone that asks for what two that encrypt can't have"""
    with running(program, "--mux") as (_, server), telephones() as (one, _):
        assert "--mux" in reason_of(server.offers("one", "a", one.text(), BOTH)), "with shared ports"
        assert server.asks("list")[b"calls"] == []
    with running(program) as (_, server), telephones() as (one, other):
        other.takes(lines_of(server.offers("one", "a", one.text(), BOTH)))
        bare = text_of((HOST, PORTS[LONG]), BOTH)
        assert sentence("Sdes NoLine") in reason_of(server.answers("one", "ab", bare)), "an answer without a key"
        one.takes(lines_of(server.answers("one", "ab", other.text())))
        talk(one, other)
        assert "both telephones" in reason_of(server.offers("one", "a", one.text(), "RTP/AVP", to_tag="b"))
        keeps = other.key
        lines_of(server.offers("one", "a", one.text("a=sendonly"), BOTH, to_tag="b"))
        other.draws()
        assert "past" in reason_of(server.answers("one", "ab", other.text())), "another key than was agreed"
        other.key, other.sealing = keeps, Sealing(keeps)
        one.key = MasterKey(SHORT, one.key.octets)
        moved = one.text().replace(f"m=audio {PORTS[SHORT]}", "m=audio 4100")
        lines_of(server.offers("one", "a", moved, BOTH, to_tag="b"))
        assert sentence("KeyReused") in reason_of(server.answers("one", "ab", other.text())), "it moved under its old key"
        server.asks("delete", call_id="one")
        # An offer that another one takes the place of leaves nothing behind, whichever kind it is.
        for text in (one.text(), plain(), one.text()):
            lines_of(server.offers("two", "a", text, BOTH))
            assert counts_of(server)[b"currentstatistics"][b"sessionsown"] == 1
        server.asks("delete", call_id="two")
        lines = crypto_in(lines_of(server.offers("three", "a", one.text(), BOTH, SDES=["only-" + LONG])))
        assert [line.split()[1] for line in lines] == [LONG], lines
    return "each by its reason; a better answer is taken"


def there_is_room(program):
    """two calls of the 256 for each such call"""
    def offers(server, first, last):
        return at_once(server, [{"command": "offer", "call-id": f"call {number}", "from-tag": "a", "sdp": plain(),
                                 "transport-protocol": BOTH} for number in range(first, last)])
    with running(program) as (_, server), telephones() as (one, other):
        offers(server, 0, CALLS_MOST - 2)
        agree(server, one, other)
        talk(one, other)
        server.asks("delete", call_id="one")
        offers(server, CALLS_MOST - 2, CALLS_MOST - 1)
        asked = server.offers("two", "a", one.text(), BOTH, supports=["load limit"])
        assert asked[b"result"] == b"load limit" and b"two telephones" in asked[b"message"], asked
        lines_of(offers(server, CALLS_MOST - 1, CALLS_MOST)[0])
        asked = server.offers("three", "a", one.text(), BOTH, supports=["load limit"])
        assert asked[b"result"] == b"load limit" and sentence("TableFull") in asked[b"message"].decode(), asked
    return "the last two are taken; where one is left, it stays for another call"


def a_process_ends(program):
    """a gateway that is killed under such a call"""
    with tells_kamailio() as url, running(program, "--tell", url) as (daemon, server), telephones() as (one, other):
        agree(server, one, other)
        told = sys.modules["ng_protocol"].Kamailio.told
        children = Path(f"/proc/{daemon.process.pid}/task/{daemon.process.pid}/children").read_text().split()
        os.kill(int(children[0]), 9)
        end = time.monotonic() + 20
        while not told:
            assert time.monotonic() < end, "nobody is told"
            time.sleep(0.05)
        assert server.asks("list")[b"calls"] == []
        while server.offers("two", "a", one.text(), BOTH)[b"result"] != b"ok":
            assert time.monotonic() < end, "no next gateway"
            time.sleep(0.2)
        server.asks("delete", call_id="two")
        assert told == [["dlg.terminate_dlg", "one", "a", "b"]], told
    return "the server is told once, and the next process takes the next one"


def odd_requests(program):
    """offers, answers and ends with octets changed, of one telephone that encrypts and of two"""
    random.seed(5)
    with running(program) as (daemon, server):
        for number, offer in enumerate(drawn(600, seed=11)):
            server.sends(offer)
            asked = {"call-id": f"drawn {number % 64}", "from-tag": "a", "to-tag": "b", "transport-protocol": BOTH,
                     "sdp": text_of((HOST, 4_000), (BOTH, "RTP/AVP")[number % 2], key()),
                     "command": random.choice(("answer", "answer", "offer", "delete"))}
            octets = bytearray(bencoded(asked))
            if number % 3:
                place = random.randrange(len(octets))
                octets[place:place + 1] = bytes(random.choices(range(256), k=random.randint(0, 2)))
            server.sends(b"q%d " % number + octets)
            if number % 50 == 0:
                assert server.is_answered(), number
        time.sleep(1)
        while server.asks("list", limit=10_000)[b"calls"]:
            for name in server.asks("list", limit=10_000)[b"calls"]:
                server.asks("delete", call_id=name)
        taken = [server.offers(f"call {number}", "a", plain(), BOTH)[b"result"] for number in range(CALLS_MOST)]
        assert set(taken) == {b"ok"}, f"{taken.count(b'ok')} calls are left"
        assert not any("fault of the daemon" in line for line in daemon.lines), daemon.lines[-5:]
    return f"1,200 requests; behind them there is room for all {CALLS_MOST} calls"


CHECKS = [a_call, what_is_refused, there_is_room, a_process_ends, odd_requests]


def main(program, *names):
    has_own_loopback()
    for check in [check for check in CHECKS if check.__name__ in names] or CHECKS:
        print(f"ng: {check.__doc__}: {check(program)}", flush=True)
    return 0


if __name__ == "__main__":
    sys.exit(main(*words_or_usage(__doc__)))
