#!/usr/bin/env python3
"""What the NG daemon has of two telephones that encrypt at a gateway that only notes what it is told: which of the two calls an
offer goes through, in which order they are answered, joined and ended, and what becomes of one whose partner has ended.

    python3 tools/tests/pairs.py
"""

import collections
import json
import sys
from pathlib import Path

sys.path.insert(0, str(Path(__file__).resolve().parent.parent))
from driver import Refused, Unjoined  # noqa: E402
from ng.calls import Book, SIGN  # noqa: E402
from ng.legs import inside  # noqa: E402
from ng.log import as_json  # noqa: E402
from ng.request import Bad, Request  # noqa: E402

CLAIMS = []
LINES = "v=0", "o=user 1 1 IN IP4 10.0.0.9", "s=-", "c=IN IP4 10.0.0.9", "t=0 0"
SHORT, LONG = "AES_CM_128_HMAC_SHA1_80", "AES_256_CM_HMAC_SHA1_80"
# What the gateway gives: two lines in an offer.
GIVEN = "".join(line + "\r\n" for line in (
    *LINES[:3], "c=IN IP4 127.0.0.1", "t=0 0", "m=audio 20000 RTP/SAVP 0", f"a=crypto:1 {SHORT} inline:G",
    f"a=crypto:2 {LONG} inline:H")).encode()


def check(what, holds):
    CLAIMS.append((what, bool(holds)))


class Noted:
    """A driver that notes what it is told, and refuses what it is to refuse."""

    draining = False

    def __init__(self):
        self.told, self.slots, self.refuses, self.said = [], {}, {}, {}
        self.drops, self.lost = collections.Counter(), collections.Counter()

    def tells(self, word, *calls):
        self.told.append((word, *calls))
        fault = self.refuses.pop((word, calls[0]), None)
        if fault:
            raise fault
        return GIVEN

    def makes(self, word, call, text):
        given, self.said[call] = self.tells(word, call), text
        self.slots.setdefault(call, len(self.slots))
        return given

    def offer_secure(self, call, text):
        return self.makes("offer_secure", call, text)

    def offer_plain(self, call, text):
        return self.makes("offer_plain", call, text)

    def answer(self, call, text, joins=None):
        return self.tells("answer", call) if joins is None else self.tells("answer", call, joins)

    def reject(self, call):
        self.tells("reject", call)

    def bye(self, *calls):
        self.tells("bye", *calls)
        for call in calls:
            self.slots.pop(call)

    def ports(self, call, medium=0):
        return range(20_000 + 16 * self.slots[call], 20_004 + 16 * self.slots[call])

    def since(self):
        """What it was told since somebody asked."""
        told, self.told = self.told, []
        return told


def text_of(key, *rest, port=4_000, line=f"1 {SHORT}"):
    media = f"m=audio {port} RTP/SAVP 0", f"a=crypto:{line} inline:{key}"
    return "".join(line + "\r\n" for line in (*LINES, *media, *rest)).encode()


class World:
    """A book over such a driver, and what it is asked."""

    def __init__(self):
        self.driver, self.told = Noted(), []
        self.book = Book(self.driver, {"secure": b"10.1.0.1", "plain": b"10.2.0.1"}, {}, lambda line: None)
        self.book.tell = lambda call, why: self.told.append(why)

    def asks(self, command, text, tags, to=b"RTP/SAVP"):
        fields = {b"command": command, b"call-id": b"one", b"sdp": text, b"transport-protocol": to}
        fields.update(zip((b"from-tag", b"to-tag"), tags))
        return getattr(self.book, command.decode())(Request(fields))

    def offers(self, text, *tags):
        return self.asks(b"offer", text, tags)

    def answers(self, text, *tags):
        return self.asks(b"answer", text, tags)

    def call(self):
        """A call that is live."""
        self.offers(text_of("A"), b"a"), self.answers(text_of("B"), b"a", b"b")
        self.driver.since()
        return self.book.all()[0]


def refused(work, *given):
    try:
        work(*given)
    except (Bad, Refused) as fault:
        return str(fault)
    return None


def order():
    world = World()
    given = world.offers(text_of("A"), b"a")
    check("an offer", world.driver.since() == [("offer_secure", 1), ("offer_plain", 2)])
    check("at the secure side's address", b"c=IN IP4 10.1.0.1\r\n" in given)
    plain = world.driver.said[2]
    check("no key comes to the inside", b"crypto" not in plain and b"c=IN IP4 127.0.0.2" in plain and b"m=audio 9 RTP/AVP 0" in plain)
    world.answers(text_of("B"), b"a", b"b")
    check("who offered is answered first, and the other one's answer joins", world.driver.since() == [("answer", 1), ("answer", 2, 1)])
    name = world.book.all()[0].name()
    check("one call of the server's", len(world.book.all()) == 1 and name == "calls 1 and 2 (one)")
    line = json.loads(as_json(f"{name} is live: the first side offered"))
    check("both numbers in a line of the log", (line["call"], line["joined"]) == (1, 2))
    check("or one, or none", [json.loads(as_json(line)).get("call") for line in ("call 7 (a) is live", "calls")] == [7, None])
    world.offers(text_of("A", "a=sendonly"), b"a", b"b"), world.answers(text_of("B", "a=recvonly"), b"a", b"b")
    check("held past the gateway", world.driver.since() == [])
    world.offers(text_of("C"), b"a", b"b"), world.answers(text_of("B"), b"a", b"b")
    check("new keys of one", world.driver.since() == [("offer_secure", 1), ("answer", 1)])
    world.offers(text_of("D"), b"b", b"a"), world.answers(text_of("C"), b"b", b"a")
    check("new keys of the other", world.driver.since() == [("offer_secure", 2), ("answer", 2)])
    world.offers(text_of("E", port=0), b"a", b"b"), world.answers(text_of("F", port=0), b"a", b"b")
    check("media that end go through both", world.driver.since() == [
        ("offer_secure", 1), ("offer_plain", 2), ("answer", 1), ("answer", 2)])
    world.book.delete(Request({b"command": b"delete", b"call-id": b"one"}))
    check("both end at once", world.driver.since() == [("bye", 1, 2)] and not world.book.all())


def tags():
    """A telephone that has answered the second of two lines offers its key again under another tag."""
    world = World()
    world.offers(text_of("A"), b"a"), world.answers(text_of("B", line=f"2 {LONG}"), b"a", b"b")
    world.driver.since()
    given = world.offers(text_of("B", "a=sendonly", line=f"1 {LONG}"), b"b", b"a")
    check("the same key under another tag goes past", world.driver.since() == [] and b"a=sendonly" in given)
    given = world.answers(text_of("A", "a=recvonly"), b"b", b"a")
    lines = [line for line in given.splitlines() if line.startswith(b"a=crypto")]
    check("and is answered by its own suite's line, under that tag", lines == [f"a=crypto:1 {LONG} inline:H".encode()])


def refusals():
    world = World()
    world.driver.refuses["offer_plain", 2] = Refused("TableFull")
    check("no room for the second", "two telephones" in refused(world.offers, text_of("A"), b"a"))
    check("the first is given up", world.driver.since()[2:] == [("reject", 1)] and not world.book.all())
    world = World()
    world.offers(text_of("A"), b"a")
    world.driver.refuses["answer", 2] = Refused("Sdes 0 NoLine")
    check("an answer that is refused", refused(world.answers, text_of("B"), b"a", b"b") == "Sdes 0 NoLine")
    world.driver.since(), world.answers(text_of("C"), b"a", b"b")
    check("a better one is the other call's alone", world.driver.since() == [("answer", 2, 1)])
    world = World()
    world.offers(text_of("A"), b"a")
    world.driver.refuses["answer", 2] = Refused("Sdes 0 NoLine")
    refused(world.answers, text_of("B"), b"a", b"b"), world.driver.since()
    world.offers(text_of("C"), b"a")
    check("another offer in its place leaves neither call", world.driver.since()[:2] == [("bye", 1), ("reject", 2)])
    world = World()
    world.offers(text_of("A"), b"a")
    world.driver.refuses["answer", 2] = Unjoined(1, "Unready")
    check("two that can't be joined", "can't be joined" in refused(world.answers, text_of("B"), b"a", b"b"))
    check("end, since they would talk in clear", world.driver.since()[-1] == ("bye", 1, 2))


def alone():
    world = World()
    call = world.call()
    world.driver.slots.pop(2)
    world.book.gone(2, "idle")
    check("one doesn't go on alone", world.driver.since() == [("bye", 1)] and world.told == ["idle"] and not world.book.all())
    world.book.gone(1, "idle")
    check("and is told once", world.told == ["idle"])
    world = World()
    call = world.call()
    call.held, call.alive = call.alive, call.alive - SIGN - 1
    world.offers(text_of("C", "a=sendonly"), b"a", b"b"), world.answers(text_of("B", "a=recvonly"), b"a", b"b")
    check("new keys of one are no sign of life of the other", call in world.book.quiet() and world.driver.since())
    world.book.give_sign(call)
    check("both are kept alive while they hold", world.driver.since() == [
        ("offer_plain", 1), ("reject", 1), ("offer_plain", 2), ("reject", 2)])
    check("by what their inside said", world.driver.said[1] == inside(text_of("B", "a=recvonly"))
          and world.driver.said[2] == inside(text_of("A")))
    world.driver.drops[20_000, "BadTag"], world.driver.lost[20_018, "TooLong"] = 2, 3
    report = world.book.report(call)
    check("what is dropped and lost", report.dropped == {(20_000, "BadTag"): 2} and report.lost == {(20_018, "TooLong"): 3})
    check("ports by telephone", [call.ports[port] for port in (20_000, 20_001, 20_002, 20_016)] == [
        (0, "first", "RTP"), (0, "first", "RTCP"), (0, "inside", "RTP"), (0, "second", "RTP")])


def signs():
    """A held call has signs of life beside an open offer that went past the gateway, and none beside one that the gateway has."""
    world = World()
    call = world.call()
    call.held, call.alive = call.alive, call.alive - SIGN - 1
    world.offers(text_of("A", "a=sendrecv"), b"a", b"b")
    world.book.give_sign(call)
    check("beside an offer that went past", world.driver.since() == [
        ("offer_plain", 1), ("reject", 1), ("offer_plain", 2), ("reject", 2)])
    call.alive -= SIGN + 1
    world.offers(text_of("C"), b"a", b"b"), world.driver.since()
    world.book.give_sign(call)
    check("none beside one that didn't", world.driver.since() == [])


def counters():
    """Packets are those since the call was made, and all of those since the counters began anew."""
    world = World()
    call = world.call()
    call.arrived_before = {20_000: (9, 900), 20_001: (9, 900), 20_016: (9, 900)}
    world.book.arrived = lambda ports: {20_000: (10, 1_000), 20_001: (3, 300), 20_016: (10, 800), 20_017: (2, 200)}
    check("packets and octets", world.book.report(call).arrived == {
        20_000: (1, 100), 20_001: (3, 300), 20_016: (10, 800), 20_017: (2, 200)})


def main():
    order()
    tags()
    refusals()
    alone()
    signs()
    counters()
    bad = [what for what, holds in CLAIMS if not holds]
    print(*(f"NOT SO: {what}" for what in bad), sep="\n", end="\n" * bool(bad))
    print(f"pairs: {len(CLAIMS)} looked at, {len(bad)} are otherwise")
    return bool(bad)


if __name__ == "__main__":
    sys.exit(main())
