"""Rows of legs whose RTP and RTCP share a port (RFC 5761), played with `--mux`, and what must be told of each;
`interop/rows.py` writes them.
"""
from lives import NEW, NEW_OWN, RENEWED, renewed
from mikey import answered
from signals import (
    ALICE, ALICE_CARRIED, ALICE_KEYED, ALICE_OFFERS, BOB, BOB_ANSWERS, BOB_CARRIED, COUNTING, GATEWAY, MADE, MANUAL, NOW,
    ONE, OWN, PEER, SHIFTED, Script, alice_live, answer, at_slot, crypto, key, made, master, message_line, noise,
    offer_mikey, offer_sdes, offer_secure, own_exchange, own_key, own_lines, peers_exchange, plain_text, psk, sdp,
    secure_text, text,
)
from srtp import rtcp, rtp

MUX = "a=rtcp-mux"
ALICE_MUXES = ALICE_OFFERS[:-1] + [MUX] + ALICE_OFFERS[-1:]
# By which port RTCP leaves towards each side, and where it goes: on a leg of two ports, and on one that is muxed.
PLAIN_RTCP, PLAIN_MUXED = "20003 127.0.0.1:41001", "20002 127.0.0.1:41000"
SECURE_RTCP, SECURE_MUXED = "20001 127.0.0.1:40001", "20000 127.0.0.1:40000"
AUDIO, PLAIN_AUDIO = "m=audio 20000 RTP/SAVP 0", "m=audio 20002 RTP/AVP 0"


class Shared(Script):
    """Such a script. RTCP is opened and sealed at a port, and leaves as is said."""

    def __init__(self, version=1):
        super().__init__(version, "replay --mux")

    def report_opened(self, port, master_key, index, out, mki=b"", packet=rtcp()):
        self.arrives(port, master_key.srtcp(packet, index, mki), f"out {out} {packet.hex()}")

    def report_sealed(self, port, master_key, index, out, packet=rtcp()):
        self.arrives(port, packet, f"out {out} {master_key.srtcp(packet, index).hex()}")


def report(kind, **other):
    """RTCP of a packet type."""
    octets = rtcp(**other)
    return octets[:1] + bytes([kind]) + octets[2:]


def alice_muxed(s):
    """The call of the two known texts, of which the offer has the line."""
    s.says(offer_secure(7, ALICE_MUXES), *MADE)
    s.says(answer(7, BOB_ANSWERS), sdp(7, "secure", BOB_CARRIED + [MUX]), "live 7")


def offered(s, *lines, drawn, call=7, slot=0, new=()):
    """A call of the secure side whose offer has these lines behind its key; the keys of both ways."""
    mine = key(f"of {drawn}")
    carried = [line for line in lines if line.split(":")[0] != MUX]
    told = at_slot(slot, ALICE + [PLAIN_AUDIO, *carried])
    s.says(offer_secure(call, secure_text(crypto(1, mine), *lines), noise(drawn)), *new, sdp(call, "plain", told))
    return mine, own_key(noise(drawn))


def accepted(s, *lines, drawn, call=7, slot=0):
    """Its answer, of which the text that is told ends with these lines."""
    told = at_slot(slot, BOB + [AUDIO, crypto(1, own_key(noise(drawn))), *lines])
    s.says(answer(call, plain_text(), noise(drawn)), sdp(call, "secure", told), f"live {call}")


# ---- one call

def muxed_reports():
    """The known call: the answer ends with the line, and RTCP of the secure side comes and goes by the port of RTP; that
    at the port of RTCP is taken too. The plain side's leg has two ports."""
    s = Shared()
    alice_muxed(s)
    s.report_opened(20000, ALICE_KEYED, 0, PLAIN_RTCP, ONE)
    s.report_sealed(20003, OWN, 0, SECURE_MUXED)
    s.report_opened(20001, ALICE_KEYED, 1, PLAIN_RTCP, ONE)
    s.opened(20000, ALICE_KEYED, rtp(7), 7, ONE)
    s.sealed(20002, OWN, rtp(7), 7)
    s.report_sealed(20003, OWN, 1, SECURE_MUXED)
    # what comes to the plain side's port of RTP is RTP, whatever its second octet is
    s.sealed(20002, OWN, rtcp(), 6)
    s.dropped(20000, ALICE_KEYED.srtcp(rtcp(), 0, ONE), "Repeat")
    s.dropped(20001, ALICE_KEYED.srtcp(rtcp(), 0, ONE), "Repeat")
    s.dropped(20003, rtcp(), "SourceUnknown", "127.0.0.2:41001")
    return s


def muxed_second_octets():
    """RTCP is what has a second octet of 192 to 223; what is dropped is told at the port at which it came."""
    s = Shared()
    alice_muxed(s)
    for seq, kind in ((7, "80bf"), (8, "80e0"), (9, "8000"), (10, "80ff")):
        s.opened(20000, ALICE_KEYED, rtp(seq, first=kind), seq, ONE)
    for index, kind in enumerate((0xC0, 0xDF, 0xC8, 0xC9)):
        s.report_opened(20000, ALICE_KEYED, index, PLAIN_RTCP, ONE, report(kind))
    for kind in ("80c0", "80df"):
        s.dropped(20000, ALICE_KEYED.srtp(rtp(11, first=kind), 11, ONE), "BadTag")
    for kind in (0xBF, 0xE0):
        s.dropped(20000, ALICE_KEYED.srtcp(report(kind), 4, ONE), "BadTag")
        s.report_opened(20001, ALICE_KEYED, kind, PLAIN_RTCP, ONE, report(kind))
    for octets in (b"", b"\x80", b"\x80\xc8", b"\x80\x00"):
        s.dropped(20000, octets, "Short")
    s.dropped(20000, bytes.fromhex("80c8") + bytes(4237), "TooLong")
    s.dropped(20000, bytes.fromhex("00c8") + bytes(40), "Version")
    return s


def muxed_offers_of_the_plain_side():
    """The plain side offers the line: its leg is muxed, and that of the secure side isn't."""
    s = Shared()
    mine = key("mine")
    s.says(offer_sdes(7, plain_text(MUX)), made(7), sdp(7, "secure", BOB + [AUDIO] + own_lines(COUNTING)))
    s.dropped(20002, rtcp(), "NotLive")
    s.says(answer(7, secure_text(crypto(1, mine), MUX)), sdp(7, "plain", ALICE + [PLAIN_AUDIO, MUX]), "live 7")
    s.report_opened(20001, mine, 0, PLAIN_MUXED)
    s.report_sealed(20002, OWN, 0, SECURE_RTCP)
    s.report_sealed(20003, OWN, 1, SECURE_RTCP)
    s.both_ways(mine, OWN)
    s.dropped(20000, mine.srtcp(rtcp(), 1), "BadTag")
    s.dropped(20002, rtcp(), "SourceUnknown", "127.0.0.2:41000")
    s.dropped(20002, report(0xC8)[:7], "Short")
    return s


def muxed_by_messages():
    """The same by MIKEY messages, offered by either side."""
    s = Shared()
    s.says(psk())
    s.tick(NOW)
    exchange = peers_exchange(entries=[(0, 0xCAFEBABE, 0), (0, 0, 0)])
    offer = secure_text(MUX, session=[message_line(exchange.initial())])
    s.says(offer_secure(7, offer), made(7), sdp(7, "plain", ALICE + [PLAIN_AUDIO]))
    response = message_line(exchange.response(GATEWAY.encode(), answered(exchange.entries, [0])))
    s.says(answer(7, plain_text()), sdp(7, "secure", BOB + [response, AUDIO, MUX]), "live 7")
    (theirs,), (own,) = exchange.sessions(16)
    s.report_opened(20000, master(theirs), 0, PLAIN_RTCP)
    s.report_sealed(20003, master(own), 0, SECURE_MUXED)
    later = own_exchange(SHIFTED, [0], NOW)
    told = BOB + [message_line(later.initial()), AUDIO]
    s.says(offer_mikey(7, PEER, plain_text(MUX), SHIFTED), sdp(7, "secure", told))
    reply = message_line(later.response(PEER.encode(), answered(later.entries, [0xCAFEBABE])))
    s.says(answer(7, secure_text(session=[reply])), sdp(7, "plain", ALICE + [PLAIN_AUDIO, MUX]), "live 7")
    (own,), (theirs,) = later.sessions(16)
    s.report_opened(20001, master(theirs), 0, PLAIN_MUXED)
    s.report_sealed(20002, master(own), 0, SECURE_RTCP)
    # as RTP it has another source
    s.dropped(20000, master(theirs).srtcp(rtcp(), 1), "SsrcUnknown")
    return s


def muxed_lines_elsewhere():
    """A medium's own line asks, and it has no value: neither one of the session part, nor one with a value or a blank."""
    s = Shared()
    for number, line in enumerate([MUX + ":x", MUX + " ", "a=rtcp-mux-only", "a=Rtcp-mux", MUX + ":"]):
        mine, own = offered(s, line, drawn=f"elsewhere {number}", new=[made(7)] if number == 0 else ())
        accepted(s, drawn=f"elsewhere {number}")
        s.dropped(20000, mine.srtcp(rtcp(), 0), "BadTag")
        s.report_sealed(20003, own, 0, SECURE_RTCP)
    drawn, mine = noise("in the session part"), key("under the session part")
    offer = secure_text(crypto(1, mine), session=[MUX])
    s.says(offer_secure(7, offer, drawn), sdp(7, "plain", ALICE + [PLAIN_AUDIO]))
    told = BOB + [AUDIO, crypto(1, own_key(drawn))]
    s.says(answer(7, plain_text(MUX, session=[MUX]), drawn), sdp(7, "secure", told), "live 7")
    s.dropped(20000, mine.srtcp(rtcp(), 0), "BadTag")
    # twice is once, and the line stands behind all others
    mine, own = offered(s, MUX, "a=sendrecv", MUX, drawn="twice")
    accepted(s, MUX, drawn="twice")
    s.report_opened(20000, mine, 0, PLAIN_RTCP)
    return s


def muxed_media():
    """Each medium is muxed by its own lines: idle ones aren't and get no line, in offer or answer; one without RTCP has
    none at the port of RTP either."""
    s = Shared()
    keys = [key(f"medium {n}") for n in range(4)]
    offer = ALICE + [
        "m=audio 40000 RTP/SAVP 0", crypto(1, keys[0]), MUX, "m=audio 0 RTP/SAVP 0", MUX,
        "m=video 40020 RTP/SAVP 31", crypto(1, keys[2]), "m=video 40030 RTP/SAVP 31", MUX, crypto(1, keys[3]),
    ]
    carried = ALICE + [PLAIN_AUDIO, "m=audio 0 RTP/AVP 0", "m=video 20010 RTP/AVP 31", "m=video 20014 RTP/AVP 31"]
    s.says(offer_secure(7, offer), made(7, media=4), sdp(7, "plain", carried))
    reply = BOB + ["m=audio 41000 RTP/AVP 0", "m=audio 41010 RTP/AVP 0", "m=video 41020 RTP/AVP 31", "m=video 0 RTP/AVP 31"]
    told = BOB + [
        AUDIO, crypto(1, OWN), MUX, "m=audio 0 RTP/SAVP 0", "m=video 20008 RTP/SAVP 31",
        crypto(1, own_key(COUNTING, 2)), "m=video 0 RTP/SAVP 31",
    ]
    s.says(answer(7, reply), sdp(7, "secure", told), "live 7")
    s.report_opened(20000, keys[0], 0, PLAIN_RTCP)
    s.report_sealed(20003, OWN, 0, SECURE_MUXED)
    for port in (20004, 20006, 20012, 20014):
        s.dropped(port, rtcp(), "PortUnused")
    s.dropped(20008, keys[2].srtcp(rtcp(), 0), "BadTag")
    s.report_opened(20009, keys[2], 0, "20011 127.0.0.1:41021")
    s.report_sealed(20011, own_key(COUNTING, 2), 0, "20009 127.0.0.1:40021")
    # the last medium comes in, and the first one has no RTCP, since its plain side has no port above its own
    again, drawn = [key(f"again {n}") for n in range(4)], noise("media again")
    offer = ALICE + [
        "m=audio 40000 RTP/SAVP 0", crypto(1, again[0]), MUX, "m=audio 0 RTP/SAVP 0",
        "m=video 40020 RTP/SAVP 31", crypto(1, again[2]), "m=video 40030 RTP/SAVP 31", MUX, crypto(1, again[3]),
    ]
    s.says(offer_secure(7, offer, drawn), sdp(7, "plain", carried))
    reply = BOB + ["m=audio 65535 RTP/AVP 0", "m=audio 0 RTP/AVP 0", "m=video 0 RTP/AVP 31", "m=video 41030 RTP/AVP 31"]
    told = BOB + [
        AUDIO, crypto(1, own_key(drawn)), MUX, "m=audio 0 RTP/SAVP 0", "m=video 0 RTP/SAVP 31",
        "m=video 20012 RTP/SAVP 31", crypto(1, own_key(drawn, 3)), MUX,
    ]
    s.says(answer(7, reply, drawn), sdp(7, "secure", told), "live 7")
    s.report_opened(20012, again[3], 0, "20015 127.0.0.1:41031")
    s.report_sealed(20015, own_key(drawn, 3), 0, "20012 127.0.0.1:40030")
    s.opened(20000, again[0], rtp(7), 7, to="127.0.0.1:65535")
    s.report_opened(20000, keys[0], 1, PLAIN_RTCP)
    s.tick(2000)
    s.dropped(20000, keys[0].srtcp(rtcp(), 2), "PortUnused")
    s.dropped(20003, rtcp(), "PortUnused")
    return s


# ---- generations, and the life of calls

def muxed_offers_again():
    """An open offer, a refused answer and a rejected offer change no leg; an accepted answer makes them anew by its own
    offer."""
    s = Shared()
    alice_muxed(s)
    s.says(offer_secure(7, RENEWED, SHIFTED), sdp(7, "plain", ALICE_CARRIED))
    s.report_opened(20000, ALICE_KEYED, 0, PLAIN_RTCP, ONE)
    s.report_sealed(20003, OWN, 0, SECURE_MUXED)
    s.refused(answer(7, BOB), "NoMedia")
    s.report_opened(20000, ALICE_KEYED, 1, PLAIN_RTCP, ONE)
    s.says("reject 7")
    s.report_opened(20000, ALICE_KEYED, 2, PLAIN_RTCP, ONE)
    s.report_sealed(20003, OWN, 1, SECURE_MUXED)
    # an offer with the line again: the line is there again
    mine, own = offered(s, MUX, drawn="again")
    accepted(s, MUX, drawn="again")
    s.report_opened(20000, mine, 0, PLAIN_RTCP)
    s.report_sealed(20003, own, 0, SECURE_MUXED)
    # without the line, and an answer that is refused before it is taken
    mine, own = offered(s, drawn="without")
    s.refused(answer(7, plain_text(), noise("again")), "KeyReused 3")
    s.report_opened(20000, key("of again"), 1, PLAIN_RTCP)
    accepted(s, drawn="without")
    s.dropped(20000, mine.srtcp(rtcp(), 0), "BadTag")
    s.report_opened(20001, mine, 0, PLAIN_RTCP)
    s.report_sealed(20003, own, 0, SECURE_RTCP)
    # by the other side, with the line
    s.says(offer_sdes(7, plain_text(MUX), noise("plain")), sdp(7, "secure", BOB + [AUDIO] + own_lines(noise("plain"))))
    s.says("reject 7")
    s.report_sealed(20003, own, 1, SECURE_RTCP)
    s.says(offer_sdes(7, plain_text(MUX), noise("plain")), sdp(7, "secure", BOB + [AUDIO] + own_lines(noise("plain"))))
    theirs = key("theirs")
    s.says(answer(7, secure_text(crypto(1, theirs))), sdp(7, "plain", ALICE + [PLAIN_AUDIO, MUX]), "live 7")
    s.report_opened(20001, theirs, 0, PLAIN_MUXED)
    s.report_sealed(20002, own_key(noise("plain")), 0, SECURE_RTCP)
    return s


def muxed_legs_change_sides():
    """A leg of the one side ends where the other one offers, with the line and without."""
    s = Shared()
    alice_muxed(s)
    drawn, theirs = noise("other side"), key("other side")
    s.says(offer_sdes(7, plain_text(MUX), drawn), sdp(7, "secure", BOB + [AUDIO] + own_lines(drawn)))
    s.says(answer(7, secure_text(crypto(1, theirs))), sdp(7, "plain", ALICE + [PLAIN_AUDIO, MUX]), "live 7")
    s.dropped(20000, theirs.srtcp(rtcp(), 0), "BadTag")
    s.report_opened(20001, theirs, 0, PLAIN_MUXED)
    s.report_sealed(20002, own_key(drawn), 0, SECURE_RTCP)
    drawn, theirs = noise("without"), key("without")
    s.says(offer_sdes(7, plain_text(), drawn), sdp(7, "secure", BOB + [AUDIO] + own_lines(drawn)))
    s.says(answer(7, secure_text(crypto(1, theirs))), sdp(7, "plain", ALICE + [PLAIN_AUDIO]), "live 7")
    s.report_opened(20001, theirs, 0, PLAIN_RTCP)
    s.report_sealed(20003, own_key(drawn), 0, SECURE_RTCP)
    s.sealed(20002, own_key(drawn), rtcp(), 6)
    return s


def muxed_in_an_earlier_generation():
    """The legs are those of the current generation. RTCP that the one before muxed goes to RTP and is dropped; of RTP
    that the one before didn't mux, what has a second octet of RTCP is dropped. The rest still opens."""
    s = Shared()
    alice_muxed(s)
    s.report_opened(20000, ALICE_KEYED, 0, PLAIN_RTCP, ONE)
    renewed(s)
    s.dropped(20000, ALICE_KEYED.srtcp(rtcp(), 1, ONE), "BadTag")
    s.report_opened(20001, ALICE_KEYED, 1, PLAIN_RTCP, ONE)
    s.opened(20000, ALICE_KEYED, rtp(7), 7, ONE)
    s.report_sealed(20003, NEW_OWN, 0, SECURE_RTCP)
    mine, own = offered(s, MUX, drawn="muxed again")
    accepted(s, MUX, drawn="muxed again")
    s.opened(20000, NEW, rtp(7, first="804f"), 7)
    s.dropped(20000, NEW.srtp(rtp(8, first="80c8"), 8), "BadTag")
    s.opened(20000, NEW, rtp(9, first="80e0"), 9)
    s.report_opened(20000, NEW, 0, PLAIN_RTCP)
    s.report_opened(20001, NEW, 1, PLAIN_RTCP)
    s.report_opened(20000, mine, 0, PLAIN_RTCP)
    s.report_sealed(20003, own, 0, SECURE_MUXED)
    s.tick(1999)
    s.report_opened(20000, NEW, 2, PLAIN_RTCP)
    s.tick(2000)
    s.dropped(20000, NEW.srtcp(rtcp(), 3), "BadTag")
    return s


def muxed_slots_used_again():
    """A leg ends with its call, however that ends; what is made in its slot isn't muxed before it asks."""
    s = Shared()
    alice_muxed(s)
    s.says("bye 7", "ended 7 0 1 bye")
    s.dropped(20000, ALICE_KEYED.srtcp(rtcp(), 0, ONE), "PortUnused")
    s.manual(1, key("from"), key("to"), MANUAL)
    s.dropped(20000, key("from").srtcp(rtcp(), 0), "BadTag")
    s.report_opened(20001, key("from"), 0, PLAIN_RTCP)
    s.report_sealed(20003, key("to"), 0, SECURE_RTCP)
    s.tick(60000, "ended 1 0 1 idle")
    mine, own = offered(s, MUX, drawn="first", new=[made(7)])
    s.dropped(20000, mine.srtcp(rtcp(), 0), "NotLive")
    accepted(s, MUX, drawn="first")
    s.report_opened(20000, mine, 0, PLAIN_RTCP)
    s.tick(120000, "ended 7 0 1 idle")
    offered(s, drawn="rejected", new=[made(7)])
    s.says("reject 7", "ended 7 0 1 rejected")
    mine, own = offered(s, drawn="second", new=[made(7)])
    accepted(s, drawn="second")
    s.dropped(20000, mine.srtcp(rtcp(), 0), "BadTag")
    s.report_sealed(20003, own, 0, SECURE_RTCP)
    # beside it a muxed one, whose end leaves its neighbours
    mine, own = offered(s, MUX, drawn="beside", call=8, slot=1, new=[made(8, 1)])
    accepted(s, MUX, drawn="beside", call=8, slot=1)
    s.report_opened(20016, mine, 0, "20019 127.0.0.1:41001")
    s.says("bye 7", "ended 7 0 1 bye")
    s.report_sealed(20019, own, 0, "20016 127.0.0.1:40000")
    return s


# ---- texts at their limits

def answered_with(s, lines, is_muxed, drawn, call=7):
    """An answer of the plain side by these lines of its medium, the text that is told, and by which port RTCP goes."""
    mine, own = offered(s, MUX, drawn=drawn)
    told = BOB + [lines[0].replace("41000 RTP/AVP", "20000 RTP/SAVP"), *lines[1:], crypto(1, own)]
    s.says(answer(call, BOB + lines, noise(drawn)), sdp(call, "secure", told + [MUX] * is_muxed), f"live {call}")
    if is_muxed:
        s.report_opened(20000, mine, 0, PLAIN_RTCP)
        s.report_sealed(20003, own, 0, SECURE_MUXED)
    else:
        s.dropped(20000, mine.srtcp(rtcp(), 0), "BadTag")
        s.report_opened(20001, mine, 0, PLAIN_RTCP)
        s.report_sealed(20003, own, 0, SECURE_RTCP)


def filled(most):
    """Lines of a medium with which the text that is told, before the line, has so many octets."""
    lines = ["m=audio 41000 RTP/AVP 0"]
    room = most - len(text(BOB + ["m=audio 20000 RTP/SAVP 0", crypto(1, OWN)]))
    while room:
        size = room if room <= 1500 else min(1500, room - 5)
        lines.append("a=" + "y" * (size - 4))
        room -= size
    return lines


def muxed_texts_at_their_limits():
    """Where the text that is told can't be read again, since the carry made a line longer than 2,048 octets or the text
    longer than 16,384, no leg is muxed and the text stays."""
    s = Shared()
    s.says(offer_secure(7, secure_text(crypto(1, key("first")))), made(7), sdp(7, "plain", ALICE + [PLAIN_AUDIO]))
    s.says(answer(7, plain_text()), sdp(7, "secure", BOB + [AUDIO, crypto(1, OWN)]), "live 7")
    line = "m=audio 41000 RTP/AVP " + "0" * (2047 - len("m=audio 41000 RTP/AVP "))
    answered_with(s, [line], True, "2048 in a line")
    answered_with(s, [line + "0"], False, "2049 in a line")
    answered_with(s, filled(16384), True, "16384 in the text")
    answered_with(s, filled(16385), False, "16385 in the text")
    # the other media of such a text aren't muxed either
    keys, drawn = [key("first of two"), key("second of two")], noise("of two")
    s.says("bye 7", "ended 7 0 1 bye")
    media = ["m=audio 40000 RTP/SAVP 0", "m=video 40020 RTP/SAVP 31"]
    offer = ALICE + [media[0], crypto(1, keys[0]), MUX, media[1], crypto(1, keys[1]), MUX]
    carried = ALICE + [PLAIN_AUDIO, "m=video 20006 RTP/AVP 31"]
    s.says(offer_secure(7, offer, drawn), made(7, media=2), sdp(7, "plain", carried))
    told = BOB + [
        AUDIO, crypto(1, own_key(drawn)), line.replace("audio 41000 RTP/AVP", "audio 20004 RTP/SAVP") + "0",
        crypto(1, own_key(drawn, 1)),
    ]
    reply = BOB + ["m=audio 41000 RTP/AVP 0", line.replace("41000", "41020") + "0"]
    s.says(answer(7, reply, drawn), sdp(7, "secure", told), "live 7")
    s.dropped(20000, keys[0].srtcp(rtcp(), 0), "BadTag")
    s.report_sealed(20003, own_key(drawn), 0, SECURE_RTCP)
    return s


# ---- many datagrams, and version 2

def in_turns(s, comes):
    """Three calls, muxed on the secure side, on none, and on the plain side; datagrams that take turns at them, both
    ways, of RTP and RTCP."""
    one = offered(s, MUX, drawn="one", new=[made(7)])
    accepted(s, MUX, drawn="one")
    two = offered(s, drawn="two", call=8, slot=1, new=[made(8, 1)])
    accepted(s, drawn="two", call=8, slot=1)
    drawn, theirs = noise("three"), key("three")
    told = at_slot(2, BOB + [AUDIO]) + own_lines(drawn)
    s.says(offer_sdes(9, plain_text(MUX), drawn), made(9, 2), sdp(9, "secure", told))
    told = at_slot(2, ALICE + [PLAIN_AUDIO]) + [MUX]
    s.says(answer(9, secure_text(crypto(1, theirs)), drawn), sdp(9, "plain", told), "live 9")
    three = theirs, own_key(drawn)
    # by call: the ports at which RTCP comes, and by which it leaves with the port to which it goes
    reports = (
        (one, 20000, 20003, (20003, 41001), (20000, 40000)), (two, 20017, 20019, (20019, 41001), (20017, 40001)),
        (three, 20033, 20034, (20034, 41000), (20033, 40001)),
    )
    for n in range(12):
        for slot, ((opening, sealing), secure, plain, to_plain, to_secure) in enumerate(reports):
            first, seq, packet = 20000 + 16 * slot, 100 + n, rtp(100 + n)
            comes(first, opening.srtp(packet, seq), f"out {first + 2} 127.0.0.1:41000 {packet.hex()}")
            comes(secure, opening.srtcp(rtcp(), n), "out {} 127.0.0.1:{} {}".format(*to_plain, rtcp().hex()))
            comes(first + 2, packet, f"out {first} 127.0.0.1:40000 {sealing.srtp(packet, seq).hex()}")
            comes(plain, rtcp(), "out {} 127.0.0.1:{} {}".format(*to_secure, sealing.srtcp(rtcp(), n).hex()))
            if n % 3 == slot:
                comes(secure, opening.srtcp(rtcp(), n), f"drop {secure} Repeat")
                comes(plain, b"\x80\xc8", f"drop {plain} Short")


def muxed_calls_side_by_side():
    """168 datagrams in lines one behind another."""
    s = Shared()
    in_turns(s, s.arrives)
    return s


def muxed_in_version_2():
    """The same in version 2: three of one moment, and three of the next."""
    s, moments = Shared(2), iter(range(10**6))
    in_turns(s, lambda port, octets, told: s.arrives_at(next(moments) // 3, port, octets, told))
    return s


def offered_with_the_line_for_one_port():
    """Without `--mux` the line is left out, and RTCP has its own port."""
    s = Script()
    s.says(offer_secure(7, ALICE_MUXES), *MADE)
    s.says(answer(7, BOB_ANSWERS), sdp(7, "secure", BOB_CARRIED), "live 7")
    s.dropped(20000, ALICE_KEYED.srtcp(rtcp(), 0, ONE), "BadTag")
    s.rtcp_opened(20001, ALICE_KEYED, rtcp(), 0, ONE)
    s.rtcp_sealed(20003, OWN, rtcp(), 0)
    return s


def muxed_none():
    """With `--mux`, where nobody asks for it, all is as without."""
    s = Shared()
    alice_live(s)
    s.dropped(20000, ALICE_KEYED.srtcp(rtcp(), 0, ONE), "BadTag")
    s.rtcp_opened(20001, ALICE_KEYED, rtcp(), 0, ONE)
    s.rtcp_sealed(20003, OWN, rtcp(), 0)
    renewed(s)
    s.rtcp_sealed(20003, NEW_OWN, rtcp(), 0)
    return s


ALL = (
    muxed_reports, muxed_second_octets, muxed_offers_of_the_plain_side, muxed_by_messages, muxed_lines_elsewhere,
    muxed_media, muxed_offers_again, muxed_legs_change_sides, muxed_in_an_earlier_generation, muxed_slots_used_again,
    muxed_texts_at_their_limits, muxed_calls_side_by_side, muxed_in_version_2, offered_with_the_line_for_one_port,
    muxed_none,
)
