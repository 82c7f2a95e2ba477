"""A datagram at every port of a slot in each state of its call, and what becomes of it, worked out by hand."""
from signals import (
    ALICE, BOB, COUNTING, MANUAL, OWN, PLAIN, SHIFTED, Script, answer, crypto, key, made, offer_secure, own_key,
    plain_text, sdp, secure_text,
)
from srtp import MasterKey, rtcp, rtp

RAW = "RAW80"
# One octet is Short wherever a session takes it.
OCTET = b"\x80"
LIVE = ["Short"] * 4
NOT_LIVE, UNUSED = ["NotLive"] * 4, ["PortUnused"] * 4


def everywhere(s, *media):
    """A datagram at each port of the first slot, and at the ports before and behind it; the four causes of each
    medium, of which those that aren't there are of no call."""
    causes = sum(media, []) + UNUSED * (4 - len(media))
    for port, cause in zip(range(19999, 20017), ["PortUnused", *causes, "PortUnused"]):
        s.dropped(port, OCTET, cause, PLAIN if port % 4 > 1 else None)


def two_media(first, second, proto="SAVP", lines=((), ())):
    """Two media of which the second's port may be 0, with their lines."""
    return [f"m=audio {first} RTP/{proto} 0", *lines[0], f"m=video {second} RTP/{proto} 31", *lines[1]]


def every_port_in_each_state():
    s = Script()
    everywhere(s)
    # An open first offer, of an active medium and an idle one.
    one, two = crypto(1, key("one")), crypto(1, key("two"))
    s.says(
        offer_secure(7, ALICE + two_media(40000, 0, lines=([one], []))), made(7, media=2),
        sdp(7, "plain", ALICE + two_media(20002, 0, proto="AVP")),
    )
    everywhere(s, NOT_LIVE, NOT_LIVE)
    # It is answered: the first medium is live, the second idle.
    s.says(
        answer(7, BOB + two_media(41000, 0, proto="AVP")),
        sdp(7, "secure", BOB + two_media(20000, 0, lines=([crypto(1, own_key(COUNTING))], []))), "live 7",
    )
    everywhere(s, LIVE, UNUSED)
    # A second offer, with both media, is open, and then answered without the first: its secure ports still open.
    s.says(
        offer_secure(7, ALICE + two_media(40000, 40010, lines=([crypto(1, key("three"))], [two])), SHIFTED),
        sdp(7, "plain", ALICE + two_media(20002, 20006, proto="AVP")),
    )
    everywhere(s, LIVE, UNUSED)
    s.says(
        answer(7, BOB + two_media(0, 41010, proto="AVP"), SHIFTED),
        sdp(7, "secure", BOB + two_media(0, 20004, lines=([], [crypto(1, own_key(SHIFTED, 1))]))), "live 7",
    )
    everywhere(s, ["Short", "Short", "PortUnused", "PortUnused"], LIVE)
    s.tick(1999)
    everywhere(s, ["Short", "Short", "PortUnused", "PortUnused"], LIVE)
    s.tick(2000)
    everywhere(s, UNUSED, LIVE)
    s.says("bye 7", "ended 7 0 2 bye")
    everywhere(s)
    # Raw keys have no RTCP, and a port 65535 has none behind it.
    raw = [MasterKey(RAW, bytes([n]) * 20) for n in (1, 2)]
    s.manual(1, *raw, [made(1), "live 1"])
    everywhere(s, ["Short", "PortUnused"] * 2)
    s.says("bye 1", "ended 1 0 1 bye")
    s.manual(2, key("four"), key("five"), [made(2), "live 2"], secure="127.0.0.1:65535")
    everywhere(s, ["Short", "PortUnused"] * 2)
    s.says("bye 2", "ended 2 0 1 bye")
    everywhere(s)
    return s


def no_control_above_the_plain_sides_last_port():
    """A medium whose plain port is 65535 has no RTCP: by a manual line, and by crypto lines of either side."""
    s = Script()
    last = PLAIN.replace("41000", "65535")
    mine, own = key("mine"), key("own")
    s.manual(1, mine, own, MANUAL, plain=last)
    s.dropped(20001, mine.srtcp(rtcp(), 0), "PortUnused")
    s.dropped(20003, rtcp(), "PortUnused", last)
    s.opened(20000, mine, rtp(7), 7, to=last)
    s.says("bye 1", "ended 1 0 1 bye")
    line = key("of a line")
    s.says(offer_secure(7, secure_text(crypto(1, line))), made(7), sdp(7, "plain", ALICE + ["m=audio 20002 RTP/AVP 0"]))
    told = BOB + ["m=audio 20000 RTP/SAVP 0", crypto(1, OWN)]
    s.says(answer(7, plain_text(media="m=audio 65535 RTP/AVP 0")), sdp(7, "secure", told), "live 7")
    s.dropped(20001, line.srtcp(rtcp(), 0), "PortUnused")
    s.opened(20000, line, rtp(7), 7, to=last)
    return s


ALL = (every_port_in_each_state, no_control_above_the_plain_sides_last_port)
