"""Rows of calls that are joined in pairs, played by `bridge` and by `relay --bridge`, and what must be told of each;
`interop/rows.py` writes them.
"""
from calls import KEY, ONES, RAW, RAW_OTHER
from mikey import answered
from signals import (
    ALICE, ALICE_KEYED, ALICE_OFFERS, BOB, BOB_ANSWERS, CM, GATEWAY, MANUAL, NOW, ONE, OWN, PCMU, SECURE,
    Script, alice_live, answer, crypto, key, made, master, message_line, noise, offer_secure, own_key,
    peers_exchange, plain_text, psk, sdp, secure_text,
)
from srtp import KNOWN, KNOWN_SEALED, MasterKey, rtcp, rtp

TWOS, THREES = (MasterKey(CM, bytes([octet]) * 30) for octet in (2, 3))
SECOND, SECOND_PLAIN = "127.0.0.1:40010", "127.0.0.1:41010"
# The longest packet that is sealed has one octet fewer.
TOO_LONG = rtp(9, payload=bytes(4097 - 12))


class Bridged(Script):
    """Such a script. What is opened at a port of the one call is sealed and goes out by the other, or is lost there."""

    def __init__(self, version=1):
        super().__init__(version, "bridge")

    def crosses(self, port, opening, packet, index, out, sealing, to_index=None, mki=b""):
        sealed = sealing.srtp(packet, index if to_index is None else to_index)
        self.arrives(port, opening.srtp(packet, index, mki), f"out {out} {sealed.hex()}")

    def report_crosses(self, port, opening, index, out, sealing, to_index, mki=b"", packet=rtcp()):
        self.arrives(port, opening.srtcp(packet, index, mki), f"out {out} {sealing.srtcp(packet, to_index).hex()}")

    def loses(self, port, datagram, lost, cause):
        self.arrives(port, datagram, f"lost {lost} {cause}")

    def joins(self, first, second):
        self.says(f"join {first} {second}", f"joined {first} {second}")

    def unjoined(self, line, call, cause):
        self.says(line, f"unjoined {call} {cause}")


def first_call(s):
    s.manual(1, KEY, ONES, MANUAL)


def second_call(s, call=2, slot=1, keys=(TWOS, THREES)):
    s.manual(call, *keys, [made(call, slot), f"live {call}"], SECOND, SECOND_PLAIN)


TO_SECOND, TO_FIRST = f"20016 {SECOND}", f"20000 {SECURE}"


def two_calls(version=1):
    s = Bridged(version)
    first_call(s)
    second_call(s)
    return s


def joined_calls(version=1):
    s = two_calls(version)
    s.joins(1, 2)
    return s


# ---- pairs

def bridged_packets():
    """The known packet crosses once; the plain ports of joined calls are unused; parted, each call is by itself again."""
    s = joined_calls()
    s.arrives(20000, KNOWN_SEALED, f"out {TO_SECOND} {THREES.srtp(KNOWN, 0x1234).hex()}")
    s.dropped(20000, KNOWN_SEALED, "Repeat")
    for port in (20002, 20003, 20018, 20019):
        s.dropped(port, rtp(7), "PortUnused")
    s.crosses(20016, TWOS, rtp(7), 7, TO_FIRST, ONES)
    s.report_crosses(20001, KEY, 0, "20017 127.0.0.1:40011", THREES, 0)
    s.report_crosses(20017, TWOS, 0, "20001 127.0.0.1:40001", ONES, 0)
    s.dropped(20000, KEY.srtp(rtp(0x1235), 0x1235)[:-1] + b"\0", "BadTag")
    for port in (20004, 20006, 20032, 19999):
        s.dropped(port, rtp(7), "PortUnused")
    s.says("part 1", "parted 1 2")
    s.opened(20000, KEY, rtp(0x1235), 0x1235)
    s.sealed(20002, ONES, rtp(8), 8)
    s.dropped(20002, rtp(7), "Repeat")
    s.sealed(20018, THREES, rtp(0x1236), 0x1236, to=SECOND)
    s.dropped(20018, KNOWN, "Repeat", SECOND_PLAIN)
    s.rtcp_sealed(20003, ONES, rtcp(), 1)
    return s


def bridged_pairs():
    """Why calls aren't joined, in the order in which it is looked at, and why a call isn't parted."""
    s = Bridged()
    s.unjoined("join 1 2", 1, "CallUnknown")
    s.unjoined("join 1 1", 1, "CallUnknown")
    s.unjoined("part 1", 1, "CallUnknown")
    first_call(s)
    second_call(s)
    s.unjoined("part 2", 2, "NotJoined")
    s.unjoined("join 1 1", 1, "Same")
    s.unjoined("join 1 9", 9, "CallUnknown")
    s.unjoined("join 9 1", 9, "CallUnknown")
    s.unjoined("join 8 9", 8, "CallUnknown")
    s.says(offer_secure(7, secure_text(crypto(1, key("open")))), made(7, 2),
           sdp(7, "plain", ALICE + ["m=audio 20034 RTP/AVP 0"]))
    s.unjoined("join 7 1", 7, "Unready")
    s.unjoined("join 1 7", 7, "Unready")
    s.unjoined("join 7 7", 7, "Same")
    s.joins(1, 2)
    s.unjoined("join 1 2", 1, "Joined 2")
    s.unjoined("join 2 1", 2, "Joined 1")
    s.unjoined("join 1 1", 1, "Same")
    s.unjoined("join 1 7", 7, "Unready")
    s.unjoined("join 7 2", 7, "Unready")
    s.manual(3, key("from"), key("to"), [made(3, 3), "live 3"])
    s.unjoined("join 3 2", 2, "Joined 1")
    s.unjoined("join 1 3", 1, "Joined 2")
    s.unjoined("part 3", 3, "NotJoined")
    s.loses(20000, KEY.srtp(TOO_LONG, 9), 20018, "TooLong")
    s.says("bye 2", "ended 2 1 1 bye", "parted 1 2")
    s.unjoined("part 1", 1, "NotJoined")
    s.unjoined("join 1 2", 2, "CallUnknown")
    s.joins(3, 1)
    s.unjoined("join 3 1", 3, "Joined 1")
    s.says("part 1", "parted 3 1")
    s.unjoined("part 1", 1, "NotJoined")
    s.unjoined("part 3", 3, "NotJoined")
    s.joins(1, 3)
    return s


def bridged_numbers_of_media():
    """Calls of as many media are joined, each medium with that of its place."""
    s = two_calls()
    for call, slot in ((5, 2), (6, 3)):
        port = 20000 + 16 * slot
        keys, drawn = [key(f"{call} audio"), key(f"{call} video")], noise(f"call {call}")
        media = ["m=audio 40000 RTP/SAVP 0", crypto(1, keys[0]), "m=video 40020 RTP/SAVP 31", crypto(1, keys[1])]
        carried = [f"m=audio {port + 2} RTP/AVP 0", f"m=video {port + 6} RTP/AVP 31"]
        s.says(offer_secure(call, ALICE + media, drawn), made(call, slot, 2), sdp(call, "plain", ALICE + carried))
        told = [f"m=audio {port} RTP/SAVP 0", crypto(1, own_key(drawn)), f"m=video {port + 4} RTP/SAVP 31",
                crypto(1, own_key(drawn, 1))]
        reply = BOB + ["m=audio 41000 RTP/AVP 0", "m=video 41020 RTP/AVP 31"]
        s.says(answer(call, reply, drawn), sdp(call, "secure", BOB + told), f"live {call}")
    s.unjoined("join 1 5", 1, "MediaCount")
    s.unjoined("join 5 1", 5, "MediaCount")
    s.joins(1, 2)
    s.unjoined("join 5 1", 1, "Joined 2")
    s.joins(6, 5)
    s.crosses(20032, key("5 audio"), rtp(7), 7, "20048 127.0.0.1:40000", own_key(noise("call 6")))
    s.crosses(20052, key("6 video"), rtp(7), 7, "20036 127.0.0.1:40020", own_key(noise("call 5"), 1))
    s.report_crosses(20037, key("5 video"), 0, "20053 127.0.0.1:40021", own_key(noise("call 6"), 1), 0)
    for port in (20034, 20038, 20055, 20056, 20058):
        s.dropped(port, rtp(8), "PortUnused")
    return s


def bridged_by_lines_and_by_messages():
    """A call by crypto lines and one by MIKEY messages: three packets and a report each way. The MIKEY side takes one
    source; what another one sends is lost."""
    s = Bridged()
    s.says(psk())
    s.tick(NOW)
    alice_live(s)
    exchange = peers_exchange(entries=[(0, 0x21, 0), (0, 0, 0)])
    offer = secure_text(media="m=audio 40010 RTP/SAVP 0", session=[message_line(exchange.initial())])
    s.says(offer_secure(9, offer), made(9, 1), sdp(9, "plain", ALICE + ["m=audio 20018 RTP/AVP 0"]))
    response = message_line(exchange.response(GATEWAY.encode(), answered(exchange.entries, [0])))
    told = BOB + [response, "m=audio 20016 RTP/SAVP 0"]
    s.says(answer(9, plain_text(media="m=audio 41010 RTP/AVP 0")), sdp(9, "secure", told), "live 9")
    (theirs,), (own,) = (map(master, keys) for keys in exchange.sessions(16))
    s.joins(7, 9)
    for seq in (7, 8, 9):
        s.crosses(20000, ALICE_KEYED, rtp(seq), seq, TO_SECOND, own, mki=ONE)
        s.crosses(20016, theirs, rtp(seq, ssrc=0x21), seq, TO_FIRST, OWN)
    s.report_crosses(20001, ALICE_KEYED, 0, "20017 127.0.0.1:40011", own, 0, ONE)
    s.report_crosses(20017, theirs, 0, "20001 127.0.0.1:40001", OWN, 0, packet=rtcp(0x21))
    s.loses(20000, ALICE_KEYED.srtp(rtp(7, ssrc=5), 7, ONE), 20018, "SsrcUnknown")
    s.loses(20001, ALICE_KEYED.srtcp(rtcp(5), 0, ONE), 20019, "SsrcUnknown")
    s.dropped(20000, ALICE_KEYED.srtp(rtp(7, ssrc=5), 7, ONE), "Repeat")
    s.dropped(20016, theirs.srtp(rtp(10, ssrc=0x22), 10), "SsrcUnknown")
    return s


# ---- what is lost

def bridged_losses():
    """What is opened and can't be sealed is lost with the cause for which it can't, and is opened for good."""
    s = joined_calls()
    s.loses(20000, KEY.srtp(TOO_LONG, 9), 20018, "TooLong")
    s.dropped(20000, KEY.srtp(TOO_LONG, 9), "Repeat")
    s.crosses(20000, KEY, rtp(10, payload=bytes(4096 - 12)), 10, TO_SECOND, THREES)
    s.loses(20001, KEY.srtcp(rtcp(payload=bytes(4097 - 8)), 0), 20019, "TooLong")
    s.dropped(20001, KEY.srtcp(rtcp(), 0), "Repeat")
    s.report_crosses(20001, KEY, 1, "20017 127.0.0.1:40011", THREES, 0)
    # sixty-four sources are sealed, of which one came before the calls were joined
    s.says("part 2", "parted 1 2")
    s.sealed(20018, THREES, rtp(7, ssrc=1), 7, to=SECOND)
    s.joins(2, 1)
    for ssrc in range(2, 64):
        s.crosses(20000, KEY, rtp(7, ssrc=ssrc), 7, TO_SECOND, THREES)
    s.loses(20000, KEY.srtp(rtp(7, ssrc=64), 7), 20018, "StreamsFull")
    s.dropped(20000, KEY.srtp(rtp(7, ssrc=65), 7), "StreamsFull")
    # the first call anew: what was sealed of the former one counts
    s.crosses(20000, KEY, rtp(5000, ssrc=2), 5000, TO_SECOND, THREES)
    s.says("bye 1", "ended 1 0 1 bye", "parted 2 1")
    opening = key("opening")
    s.manual(1, opening, key("sealing"), MANUAL)
    s.joins(1, 2)
    s.loses(20000, opening.srtp(rtp(3976, ssrc=2), 3976), 20018, "TooOld")
    s.crosses(20000, opening, rtp(3977, ssrc=2), 3977, TO_SECOND, THREES)
    s.loses(20000, opening.srtp(rtp(5000, ssrc=2), 5000), 20018, "Repeat")
    s.dropped(20000, opening.srtp(rtp(5000, ssrc=2), 5000), "Repeat")
    s.crosses(20000, opening, rtp(5001, ssrc=2), 5001, TO_SECOND, THREES)
    return s


def bridged_calls_without_control():
    """A call under raw keys has no RTCP: what comes for it is lost at a port that is unused."""
    s = Bridged()
    first_call(s)
    second_call(s, keys=(RAW, RAW_OTHER))
    s.joins(1, 2)
    s.loses(20001, KEY.srtcp(rtcp(), 0), 20019, "PortUnused")
    s.dropped(20001, KEY.srtcp(rtcp(), 0), "Repeat")
    s.dropped(20017, rtcp(), "PortUnused")
    s.dropped(20019, rtcp(), "PortUnused")
    s.crosses(20000, KEY, rtp(7), 7, TO_SECOND, RAW_OTHER)
    s.crosses(20016, RAW, rtp(7), 7, TO_FIRST, ONES)
    return s


def bridged_rollovers():
    """Each call counts rollovers by itself: what is within reach where it is opened may be before the first index, or
    past the last one, where it is to be sealed."""
    s = Bridged()
    rolled = lambda call, rollover, keys, slot, at: s.says(
        f"manual {call} 127.0.0.1:{40000 + at} 127.0.0.1:{41000 + at} {rollover:08x} 64 "
        + " ".join(it.field() for it in keys), made(call, slot), f"live {call}",
    )
    last, high = 0xFFFFFFFF, 0xFFFFFFFF << 16
    rolled(1, 1, (KEY, ONES), 0, 0)
    rolled(2, 0, (TWOS, THREES), 1, 10)
    rolled(3, last, (key("last from"), key("last to")), 2, 20)
    s.joins(1, 2)
    s.crosses(20000, KEY, rtp(10), 65546, TO_SECOND, THREES, 10)
    s.loses(20000, KEY.srtp(rtp(65530), 65530), 20018, "BeforeFirst")
    s.dropped(20000, KEY.srtp(rtp(65530), 65530), "Repeat")
    s.dropped(20016, TWOS.srtp(rtp(10, ssrc=5), 65546), "BadTag")
    s.crosses(20016, TWOS, rtp(10, ssrc=5), 10, TO_FIRST, ONES, 65546)
    s.says("part 2", "parted 1 2")
    s.joins(2, 3)
    s.crosses(20016, TWOS, rtp(65535, ssrc=6), 65535, "20032 127.0.0.1:40020", key("last to"), high + 65535)
    s.loses(20016, TWOS.srtp(rtp(0, ssrc=6), 65536), 20034, "IndexSpent")
    s.crosses(20032, key("last from"), rtp(65535, ssrc=6), high + 65535, TO_SECOND, THREES, 65535)
    return s


# ---- the life of calls

def bridged_ends_of_calls():
    """A pair ends with either of its calls; nothing of it is left for what is made in the slot or under the number."""
    s = joined_calls()
    s.crosses(20000, KEY, rtp(7), 7, TO_SECOND, THREES)
    s.says("bye 2", "ended 2 1 1 bye", "parted 1 2")
    s.opened(20000, KEY, rtp(8), 8)
    s.sealed(20002, ONES, rtp(8), 8)
    s.dropped(20018, rtp(8), "PortUnused")
    s.unjoined("part 2", 2, "CallUnknown")
    # the slot again, under another number, and the number again, in another slot
    second_call(s, 5, 1, (key("five from"), key("five to")))
    second_call(s, 2, 2, (key("two from"), key("two to")))
    s.opened(20000, KEY, rtp(9), 9)
    s.opened(20016, key("five from"), rtp(9), 9, to=SECOND_PLAIN)
    s.unjoined("part 5", 5, "NotJoined")
    s.joins(2, 1)
    s.crosses(20000, KEY, rtp(10), 10, f"20032 {SECOND}", key("two to"))
    s.crosses(20032, key("two from"), rtp(10), 10, TO_FIRST, ONES)
    s.sealed(20018, key("five to"), rtp(10), 10, to=SECOND)
    s.says("bye 2", "ended 2 2 1 bye", "parted 2 1")
    s.joins(5, 1)
    s.crosses(20000, KEY, rtp(11), 11, TO_SECOND, key("five to"))
    s.says("bye 1", "ended 1 0 1 bye", "parted 5 1")
    s.opened(20016, key("five from"), rtp(12), 12, to=SECOND_PLAIN)
    s.dropped(20000, KEY.srtp(rtp(12), 12), "PortUnused")
    return s


def bridged_idle_calls():
    """Each pair is parted behind the end of the first of its calls, once; what is lost keeps the call in which it was
    opened, and not the other one; what comes to an unused port keeps none."""
    s = joined_calls()
    second_call(s, 3, 2, (key("three from"), key("three to")))
    second_call(s, 4, 3, (key("four from"), key("four to")))
    s.joins(4, 3)
    s.tick(30000)
    s.loses(20000, KEY.srtp(TOO_LONG, 9), 20018, "TooLong")
    s.dropped(20018, rtp(7), "PortUnused", SECOND_PLAIN)
    s.dropped(20034, rtp(7), "PortUnused", SECOND_PLAIN)
    s.tick(59999)
    s.tick(60000, "ended 2 1 1 idle", "parted 1 2", "ended 3 2 1 idle", "parted 4 3", "ended 4 3 1 idle")
    s.opened(20000, KEY, rtp(10), 10)
    s.tick(119999)
    s.tick(120000, "ended 1 0 1 idle")
    s.unjoined("part 1", 1, "CallUnknown")
    return s


def bridged_crossings_keep_both_calls():
    """What crosses moves both calls' moments."""
    s = joined_calls()
    s.tick(59999)
    s.crosses(20000, KEY, rtp(7), 7, TO_SECOND, THREES)
    s.tick(119998)
    s.tick(119999, "ended 1 0 1 idle", "parted 1 2", "ended 2 1 1 idle")
    return s


def offered_again(s, drawn):
    """An offer of the secure side within the call of crypto lines; the keys of both ways."""
    mine = key(f"of {drawn}")
    s.says(offer_secure(7, secure_text(crypto(1, mine)), noise(drawn)), sdp(7, "plain", ALICE + ["m=audio 20002 RTP/AVP 0"]))
    return mine, own_key(noise(drawn))


def bridged_new_keys():
    """Offers within a joined call leave the pair: an open one and a rejected one change nothing, and behind its answer
    both generations open, and the new one seals. Another number of media is refused."""
    s = Bridged()
    alice_live(s)
    second_call(s)
    s.joins(7, 2)
    s.crosses(20000, ALICE_KEYED, rtp(7), 7, TO_SECOND, THREES, mki=ONE)
    s.refused(offer_secure(7, ALICE_OFFERS + ["m=video 0 RTP/SAVP 31"]), "MediaCount")
    offered_again(s, "rejected")
    s.crosses(20000, ALICE_KEYED, rtp(8), 8, TO_SECOND, THREES, mki=ONE)
    s.says("reject 7")
    s.crosses(20016, TWOS, rtp(8), 8, TO_FIRST, OWN)
    mine, own = offered_again(s, "accepted")
    s.crosses(20016, TWOS, rtp(9), 9, TO_FIRST, OWN)
    told = BOB + ["m=audio 20000 RTP/SAVP 0", PCMU, crypto(1, own)]
    s.says(answer(7, BOB_ANSWERS, noise("accepted")), sdp(7, "secure", told), "live 7")
    s.unjoined("join 7 2", 7, "Joined 2")
    s.dropped(20002, rtp(10), "PortUnused")
    # the key of before opens, and one number is sealed once, whichever generation it came by
    s.crosses(20000, ALICE_KEYED, rtp(9), 9, TO_SECOND, THREES, mki=ONE)
    s.loses(20000, mine.srtp(rtp(9), 9), 20018, "Repeat")
    s.crosses(20000, mine, rtp(10), 10, TO_SECOND, THREES)
    s.crosses(20016, TWOS, rtp(10), 10, TO_FIRST, own)
    # far ahead by the new key, and late by the one of before
    s.crosses(20000, mine, rtp(2000), 2000, TO_SECOND, THREES)
    s.loses(20000, ALICE_KEYED.srtp(rtp(11), 11, ONE), 20018, "TooOld")
    s.tick(2000)
    s.dropped(20000, ALICE_KEYED.srtp(rtp(1990), 1990, ONE), "BadTag")
    s.says("part 7", "parted 7 2")
    s.opened(20000, mine, rtp(2001), 2001)
    return s


def bridged_idle_media():
    """A medium that the other call has left idle: what is opened for it is lost, and its own packets of before still
    cross, while they open."""
    s = Bridged()
    keys = {}
    for call, slot in ((5, 0), (6, 1)):
        port, drawn = 20000 + 16 * slot, noise(f"idle {call}")
        keys[call] = [key(f"{call} audio"), key(f"{call} video")], [own_key(drawn), own_key(drawn, 1)]
        (audio, video), own = keys[call]
        media = ["m=audio 40000 RTP/SAVP 0", crypto(1, audio), "m=video 40020 RTP/SAVP 31", crypto(1, video)]
        carried = [f"m=audio {port + 2} RTP/AVP 0", f"m=video {port + 6} RTP/AVP 31"]
        s.says(offer_secure(call, ALICE + media, drawn), made(call, slot, 2), sdp(call, "plain", ALICE + carried))
        told = [f"m=audio {port} RTP/SAVP 0", crypto(1, own[0]), f"m=video {port + 4} RTP/SAVP 31", crypto(1, own[1])]
        reply = BOB + ["m=audio 41000 RTP/AVP 0", "m=video 41020 RTP/AVP 31"]
        s.says(answer(call, reply, drawn), sdp(call, "secure", BOB + told), f"live {call}")
    (five, five_own), (six, six_own) = keys[5], keys[6]
    s.joins(5, 6)
    s.crosses(20004, five[1], rtp(7), 7, "20020 127.0.0.1:40020", six_own[1])
    drawn, audio = noise("without video"), key("without video")
    offer = ALICE + ["m=audio 40000 RTP/SAVP 0", crypto(1, audio), "m=video 0 RTP/SAVP 31"]
    s.says(offer_secure(6, offer, drawn), sdp(6, "plain", ALICE + ["m=audio 20018 RTP/AVP 0", "m=video 0 RTP/AVP 31"]))
    told = BOB + ["m=audio 20016 RTP/SAVP 0", crypto(1, own_key(drawn)), "m=video 0 RTP/SAVP 31"]
    reply = BOB + ["m=audio 41000 RTP/AVP 0", "m=video 0 RTP/AVP 31"]
    s.says(answer(6, reply, drawn), sdp(6, "secure", told), "live 6")
    s.loses(20004, five[1].srtp(rtp(8), 8), 20022, "PortUnused")
    s.loses(20005, five[1].srtcp(rtcp(), 0), 20023, "PortUnused")
    s.crosses(20000, five[0], rtp(8), 8, "20016 127.0.0.1:40000", own_key(drawn))
    s.crosses(20020, six[1], rtp(8), 8, "20004 127.0.0.1:40020", five_own[1])
    s.tick(1999)
    s.crosses(20020, six[1], rtp(9), 9, "20004 127.0.0.1:40020", five_own[1])
    s.tick(2000)
    s.dropped(20020, six[1].srtp(rtp(10), 10), "PortUnused")
    s.loses(20004, five[1].srtp(rtp(9), 9), 20022, "PortUnused")
    for port in (20006, 20022, 20023):
        s.dropped(port, rtp(9), "PortUnused")
    return s


# ---- lines

def bridged_in_version_2():
    """Moments on datagram lines: one that ends a call of a pair, one that goes back, and one of an unused port."""
    s = joined_calls(2)
    sealed = THREES.srtp(rtp(7), 7)
    s.arrives_at(59_999, 20000, KEY.srtp(rtp(7), 7), f"out {TO_SECOND} {sealed.hex()}")
    s.arrives_at(59_998, 20000, KEY.srtp(TOO_LONG, 9), "refused - TickBack 59999", "lost 20018 TooLong")
    s.arrives_at(100_000, 20002, rtp(7), "drop 20002 PortUnused")
    s.arrives_at(119_998, 20001, KEY.srtcp(rtcp(), 0), f"out 20017 127.0.0.1:40011 {THREES.srtcp(rtcp(), 0).hex()}")
    s.arrives_at(179_997, 20000, KEY.srtp(rtp(10), 10)[:-1] + b"\0", "drop 20000 BadTag")
    s.arrives_at(179_998, 20000, KEY.srtp(rtp(11), 11), "ended 1 0 1 idle", "parted 1 2", "ended 2 1 1 idle",
                 "drop 20000 PortUnused")
    s.tick(179_997, "refused - TickBack 179998")
    return s


def ended_by(line, fault, place=2, version=1, before=()):
    """A run that ends at this line."""
    s = Bridged(version)
    s.lines += before
    s.lines.append(line)
    s.end = 2, f"srtpgw: script line {place}: {fault}\n"
    return s


def bridged_line_of_one_call():
    return ended_by("join 1", "Word")


def bridged_line_of_three_calls():
    return ended_by("join 1 2 3", "Word")


def bridged_line_of_no_call():
    return ended_by("part", "Word")


def bridged_line_of_another_number():
    return ended_by("join 01 x", "Number")


def bridged_line_past_the_last_call():
    """In version 2, behind one of the last call."""
    s = Bridged(2)
    s.unjoined("part 4294967295", 4294967295, "CallUnknown")
    s.lines.append("join 4294967295 4294967296")
    s.end = 2, "srtpgw: script line 3: Number\n"
    return s


def bridged_line_before_the_header():
    s = Bridged()
    s.lines = ["join 1 2"]
    s.end = 2, "srtpgw: script line 1: Version\n"
    return s


def bridged_line_of_a_capture():
    return ended_by("capture", "Word")


def joined_in_a_replay():
    """No other command has these lines."""
    s = Script()
    s.lines += ["part 1", "join 1 2"]
    s.end = 2, "srtpgw: script line 2: Word\n"
    return s


def bridged_none():
    """A script that joins nothing tells what a replay tells."""
    s = Bridged()
    first_call(s)
    s.both_ways(KEY, ONES)
    s.rtcp_opened(20001, KEY, rtcp(), 0)
    s.rtcp_sealed(20003, ONES, rtcp(), 0)
    s.says("bye 1", "ended 1 0 1 bye")
    return s


# ---- by a relay, to which nothing comes

class Relayed(Bridged):
    """Such a script of a relay, which sends a packet and doesn't write it; to port 0 none can be sent."""

    def __init__(self, version=1, command="relay --turns 1 --bridge"):
        super().__init__(version)
        self.command = command

    def says(self, line, *told):
        super().says(line, *(it for each in told for it in self.written(each)))

    @staticmethod
    def written(told):
        word, *fields = told.split(" ")
        if word != "out":
            return [told]
        return [f"unsent {fields[0]} {fields[1]}"] if fields[1].endswith(":0") else []


def relayed_packets_of_joined_calls():
    """What crosses isn't written, but at the parted calls' plain ports its numbers are used up; nor is what comes there
    from outside meanwhile sealed. What can't be sealed is lost, what can't be sent is told. A call ends."""
    s = Relayed()
    first_call(s)
    second_call(s)
    s.joins(1, 2)
    for seq in (7, 8):
        s.crosses(20000, KEY, rtp(seq), seq, TO_SECOND, THREES)
        s.crosses(20016, TWOS, rtp(seq + 2), seq + 2, TO_FIRST, ONES)
    s.report_crosses(20001, KEY, 0, "20017 127.0.0.1:40011", THREES, 0)
    s.report_crosses(20017, TWOS, 0, "20001 127.0.0.1:40001", ONES, 0)
    s.dropped(20000, KEY.srtp(rtp(7), 7), "Repeat")
    s.dropped(20016, TWOS.srtp(rtp(11), 11)[:-1] + b"\0", "BadTag")
    s.loses(20000, KEY.srtp(TOO_LONG, 9), 20018, "TooLong")
    for port in (20002, 20003, 20018, 20019):
        s.dropped(port, rtp(20) if port % 2 == 0 else rtcp(), "PortUnused")
    s.says("part 2", "parted 1 2")
    for port, seqs, to in ((20018, (7, 8), SECOND_PLAIN), (20002, (9, 10), None)):
        for seq in seqs:
            s.dropped(port, rtp(seq), "Repeat", to)
    s.sealed(20002, ONES, rtp(20), 20)
    s.joins(2, 1)
    s.crosses(20000, KEY, rtp(10), 10, TO_SECOND, THREES)
    s.says("bye 2", "ended 2 1 1 bye", "parted 2 1")
    s.opened(20000, KEY, rtp(11), 11)
    s.dropped(20016, TWOS.srtp(rtp(12), 12), "PortUnused")
    return s


def relayed_unsent_of_joined_calls():
    """A call whose peer has the port 0: each packet that crosses to it is told as unsent, by the port by which it would
    have left, and was sealed; RTCP goes to the port above."""
    s = Relayed()
    first_call(s)
    s.manual(2, TWOS, THREES, [made(2, 1), "live 2"], "127.0.0.1:0", SECOND_PLAIN)
    s.joins(2, 1)
    for seq in (7, 8):
        s.crosses(20000, KEY, rtp(seq), seq, "20016 127.0.0.1:0", THREES)
        s.crosses(20016, TWOS, rtp(seq), seq, TO_FIRST, ONES)
    s.report_crosses(20001, KEY, 0, "20017 127.0.0.1:1", THREES, 0)
    s.dropped(20000, KEY.srtp(rtp(8), 8), "Repeat")
    s.says("part 1", "parted 2 1")
    s.dropped(20018, rtp(8), "Repeat", SECOND_PLAIN)
    s.sealed(20018, THREES, rtp(9), 9, to="127.0.0.1:0")
    return s


def relayed_pairs():
    """The row of each cause by a relay."""
    s, bridged = Relayed(), bridged_pairs()
    s.lines, s.told = bridged.lines, bridged.told
    return s


def relayed_joined_in_version_2():
    """The moment of a datagram line isn't used: none of these ends a call or goes back."""
    s = Relayed(2)
    first_call(s)
    second_call(s)
    s.joins(1, 2)
    s.arrives_at(0, 20000, KEY.srtp(rtp(7), 7))
    s.arrives_at(2_085_978_495_999, 20000, KEY.srtp(TOO_LONG, 9), "lost 20018 TooLong")
    s.arrives_at(5, 20018, rtp(7), "drop 20018 PortUnused")
    s.arrives_at(1_000_000, 20016, TWOS.srtp(rtp(7), 7))
    s.arrives_at(0, 20000, KEY.srtp(rtp(7), 7), "drop 20000 Repeat")
    s.says("bye 1", "ended 1 0 1 bye", "parted 1 2")
    return s


def joined_in_a_relay():
    """Without the word a relay has no such lines."""
    s = Relayed(command="relay --turns 1")
    s.lines += ["part 1", "join 1 2"]
    s.end = 2, "srtpgw: script line 2: Word\n"
    return s


def capture_in_a_relay_of_joined_calls():
    """Nor with it those of a capture."""
    s = Relayed()
    s.unjoined("part 1", 1, "CallUnknown")
    s.lines.append("capture")
    s.end = 2, "srtpgw: script line 3: Word\n"
    return s


ALL = (
    bridged_packets, bridged_pairs, bridged_numbers_of_media, bridged_by_lines_and_by_messages, bridged_losses,
    bridged_calls_without_control, bridged_rollovers, bridged_ends_of_calls, bridged_idle_calls,
    bridged_crossings_keep_both_calls, bridged_new_keys, bridged_idle_media, bridged_in_version_2,
    bridged_line_of_one_call, bridged_line_of_three_calls, bridged_line_of_no_call, bridged_line_of_another_number,
    bridged_line_past_the_last_call, bridged_line_before_the_header, bridged_line_of_a_capture, joined_in_a_replay,
    bridged_none, relayed_packets_of_joined_calls, relayed_unsent_of_joined_calls, relayed_pairs,
    relayed_joined_in_version_2, joined_in_a_relay, capture_in_a_relay_of_joined_calls,
)
