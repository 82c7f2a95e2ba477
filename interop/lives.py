"""Rows of how calls begin, go on under new keys, and end."""
import base64

from signals import (
    ALICE, ALICE_CARRIED, ALICE_KEYED, ALICE_OFFERS, BOB, BOB_ANSWERS, BOB_CARRIED, CM, COUNTING, MADE, MANUAL,
    ONE, OWN, PCMU, SHIFTED, Script, alice_live, answer, at_slot, crypto, key, made, noise, octets_of,
    offer_mikey, offer_sdes, offer_secure, own_key, own_lines, plain_text, sdp, secure_text,
)
from srtp import MasterKey, SMALL, rtcp, rtp

# ---- the life of calls

def ends_of_calls():
    """A call that is idle ends at 60,000 ms; ticks don't go back; who isn't there can't be ended."""
    s = Script()
    s.manual(1, SMALL, MasterKey(CM, bytes([1]) * 30), MANUAL)
    s.tick(59999)
    s.tick(60000, "ended 1 0 1 idle")
    s.tick(60000)
    s.tick(5, "refused - TickBack 60000")
    s.says("bye 1", "refused 1 CallUnknown")
    s.refused(answer(1, BOB_ANSWERS), "CallUnknown")
    s.refused("reject 1", "CallUnknown")
    s.says(offer_secure(3, ALICE_OFFERS), made(3), sdp(3, "plain", ALICE_CARRIED))
    s.says("reject 3", "ended 3 0 1 rejected")
    s.says(offer_secure(3, ALICE_OFFERS), made(3), sdp(3, "plain", ALICE_CARRIED))
    s.says("bye 3", "ended 3 0 1 bye")
    return s


def ends_of_calls_of_several_media():
    """A call's end names its number of media, whoever ends it."""
    s = Script()
    for slot, media in enumerate((2, 3, 4)):
        offered = [line for k in range(media) for line in (f"m=audio {40000 + 10 * k} RTP/SAVP 0", crypto(1, key(f"{media} {k}")))]
        carried = [f"m=audio {20002 + 16 * slot + 4 * k} RTP/AVP 0" for k in range(media)]
        s.says(offer_secure(media, ALICE + offered), made(media, slot, media), sdp(media, "plain", ALICE + carried))
    s.says("bye 2", "ended 2 0 2 bye")
    s.says("reject 3", "ended 3 1 3 rejected")
    s.tick(60000, "ended 4 2 4 idle")
    return s


def idle_calls():
    """What is put out either way keeps a call, and so does what is accepted; what is dropped or refused doesn't.
    Calls end by rising slot."""
    s = Script()
    for call in range(5):
        a, b = key(f"from {call}"), key(f"to {call}")
        s.manual(9 - call, a, b, [made(9 - call, call), f"live {9 - call}"])
    s.tick(30000)
    s.opened(20000, key("from 0"), rtp(7), 7)
    s.sealed(20018, key("to 1"), rtp(7), 7)
    s.dropped(20032, key("from 0").srtp(rtp(7), 7), "BadTag")
    s.dropped(20050, rtp(7), "SourceUnknown", "127.0.0.2:41000")
    s.refused(offer_secure(5, ALICE_OFFERS), "State")
    s.tick(59999)
    s.tick(60000, "ended 7 2 1 idle", "ended 6 3 1 idle", "ended 5 4 1 idle")
    s.tick(89999)
    s.tick(90000, "ended 9 0 1 idle", "ended 8 1 1 idle")
    return s


def moments_of_signals():
    """Offers, answers and rejects that are accepted move a call's moment; refused ones don't."""
    s = Script()
    s.says(offer_secure(7, ALICE_OFFERS), *MADE)
    s.tick(40000)
    s.says(answer(7, BOB_ANSWERS), sdp(7, "secure", BOB_CARRIED), "live 7")
    s.tick(80000)
    s.refused(answer(7, BOB_ANSWERS), "State")
    s.refused("reject 7", "State")
    s.refused(offer_secure(7, ALICE), "NoMedia")
    s.tick(99999)
    s.tick(100000, "ended 7 0 1 idle")
    s.says(offer_secure(7, ALICE_OFFERS), *MADE)
    s.tick(140000)
    s.refused(answer(7, BOB_ANSWERS), "KeyReused 0")
    s.refused(answer(7, BOB), "NoMedia")
    s.tick(159999)
    s.tick(160000, "ended 7 0 1 idle")
    mine, drawn = key("mine"), noise("mine")
    s.says(offer_secure(7, secure_text(crypto(1, mine))), made(7), sdp(7, "plain", ALICE + ["m=audio 20002 RTP/AVP 0"]))
    told = sdp(7, "secure", BOB + ["m=audio 20000 RTP/SAVP 0", crypto(1, own_key(drawn))])
    s.says(answer(7, plain_text(), drawn), told, "live 7")
    s.tick(200000)
    s.says(offer_secure(7, secure_text(crypto(1, key("two")))), sdp(7, "plain", ALICE + ["m=audio 20002 RTP/AVP 0"]))
    s.both_ways(mine, own_key(drawn))
    s.tick(240000)
    s.says("reject 7")
    s.tick(299999)
    s.tick(300000, "ended 7 0 1 idle")
    return s


def states():
    """Which signals a call doesn't take, and that nothing comes of them."""
    s = Script()
    s.manual(1, SMALL, MasterKey(CM, bytes([1]) * 30), MANUAL)
    s.refused(answer(1, BOB_ANSWERS), "State")
    s.refused("reject 1", "State")
    s.refused(offer_secure(1, ALICE_OFFERS), "State")
    s.refused(offer_sdes(1, BOB_ANSWERS), "State")
    s.refused(offer_mikey(1, "sip:bob@b", BOB_ANSWERS), "State")
    s.refused(offer_secure(1, ALICE), "State")
    s.manual(1, key("a"), key("b"), ["refused 1 CallKnown"])
    s.says(offer_secure(7, ALICE_OFFERS), made(7, 1), sdp(7, "plain", at_slot(1, ALICE_CARRIED)))
    s.refused(offer_secure(7, ALICE_OFFERS), "State")
    s.refused(offer_sdes(7, BOB_ANSWERS), "State")
    s.manual(7, key("a"), key("b"), ["refused 7 CallKnown"])
    told = at_slot(1, BOB_CARRIED)
    s.says(answer(7, BOB_ANSWERS), sdp(7, "secure", told), "live 7")
    s.refused(answer(7, BOB_ANSWERS), "State")
    s.refused("reject 7", "State")
    s.opened(20016, ALICE_KEYED, rtp(7), 7, ONE)
    s.opened(20000, SMALL, rtp(7), 7)
    return s


def rejected_offers():
    """A first offer that is rejected ends its call; a later one is closed, and leaves the generation that is there."""
    s = Script()
    alice_live(s)
    s.opened(20000, ALICE_KEYED, rtp(7), 7, ONE)
    told = BOB + ["m=audio 20000 RTP/SAVP 0", PCMU, *own_lines(SHIFTED)]
    s.says(offer_sdes(7, BOB_ANSWERS, SHIFTED), sdp(7, "secure", told))
    s.opened(20000, ALICE_KEYED, rtp(8), 8, ONE)
    s.says("reject 7")
    s.refused("reject 7", "State")
    s.dropped(20000, ALICE_KEYED.srtp(rtp(8), 8, ONE), "Repeat")
    s.opened(20000, ALICE_KEYED, rtp(9), 9, ONE)
    s.sealed(20002, OWN, rtp(7), 7)
    # no key of the rejected offer came into use
    s.manual(1, own_key(SHIFTED), key("other"), ["made 1 1 1", "live 1"])
    return s


def full_table():
    """256 calls; who is there is told before that there is no room, and slots are used again, the lowest first."""
    s = Script()
    raw = lambda name: MasterKey("RAW80", octets_of(name, 20))
    for call in range(256):
        s.manual(call, raw(f"from {call}"), raw(f"to {call}"), [made(call, call), f"live {call}"])
    s.manual(256, raw("from 256"), raw("to 256"), ["refused 256 TableFull"])
    s.manual(256, raw("from 0"), raw("to 256"), ["refused 256 TableFull"])
    s.manual(255, raw("from 256"), raw("to 256"), ["refused 255 CallKnown"])
    s.refused(offer_secure(256, ALICE_OFFERS), "TableFull")
    s.refused(offer_secure(256, ALICE), "TableFull")
    s.refused(offer_secure(255, ALICE_OFFERS), "State")
    s.refused(answer(256, BOB_ANSWERS), "CallUnknown")
    s.opened(24080, raw("from 255"), rtp(7), 7)
    s.says("bye 200", "ended 200 200 1 bye")
    s.says("bye 3", "ended 3 3 1 bye")
    s.manual(256, raw("from 3"), raw("to 256"), ["refused 256 KeyReused 6"])
    s.manual(256, raw("from 256"), raw("to 256"), ["made 256 3 1", "live 256"])
    s.says(offer_secure(3, ALICE_OFFERS), made(3, 200), sdp(3, "plain", at_slot(200, ALICE_CARRIED)))
    s.manual(257, raw("from 257"), raw("to 257"), ["refused 257 TableFull"])
    s.dropped(20048, raw("from 3").srtp(rtp(7), 7), "BadTag")
    s.opened(20048, raw("from 256"), rtp(7), 7)
    return s


def slots_used_again():
    """An ended call's id and slot may be used again; its keys may not, and its sessions don't come back."""
    s = Script()
    keys = {n: (key(f"from {n}"), key(f"to {n}")) for n in range(1, 6)}
    for n in (1, 2, 3):
        s.manual(n, *keys[n], [made(n, n - 1), f"live {n}"])
    s.opened(20016, keys[2][0], rtp(7), 7)
    s.says("bye 2", "ended 2 1 1 bye")
    s.dropped(20016, keys[2][0].srtp(rtp(8), 8), "PortUnused")
    s.manual(2, *keys[2], ["refused 2 KeyReused 2"])
    s.manual(2, keys[4][0], keys[2][1], ["refused 2 KeyReused 3"])
    s.manual(2, *keys[4], [made(2, 1), "live 2"])
    s.dropped(20016, keys[2][0].srtp(rtp(8), 8), "BadTag")
    s.opened(20016, keys[4][0], rtp(7), 7)
    s.says("bye 1", "ended 1 0 1 bye")
    s.says("bye 3", "ended 3 2 1 bye")
    s.says(offer_secure(3, ALICE_OFFERS), made(3), sdp(3, "plain", ALICE_CARRIED))
    s.manual(1, *keys[5], [made(1, 2), "live 1"])
    s.dropped(20032, keys[3][0].srtp(rtp(8), 8), "BadTag")
    s.dropped(20000, keys[1][0].srtp(rtp(8), 8), "NotLive")
    # the keys' numbers went on from 8, those of the fourth being 6 and 7
    s.says(answer(3, BOB_ANSWERS), sdp(3, "secure", BOB_CARRIED), "live 3")
    s.manual(9, ALICE_KEYED, key("other"), ["refused 9 KeyReused 10"])
    return s


# ---- generations

TEN = f"a=crypto:1 {CM} inline:" + 10 * "AQEB"
NEW = MasterKey(CM, base64.b64decode(10 * "AQEB"))
RENEWED = ALICE_OFFERS[:8] + [TEN] + ALICE_OFFERS[10:]
RENEWED_ANSWER = BOB_CARRIED[:-1] + [f"a=crypto:1 {CM} inline:AQIDBAUGBwgJCgsMDQ4PEBESExQVFhcYGRobHB0e"]
NEW_OWN = own_key(SHIFTED)


def renewed(s):
    s.says(offer_secure(7, RENEWED, SHIFTED), sdp(7, "plain", ALICE_CARRIED))
    s.says(answer(7, BOB_ANSWERS, SHIFTED), sdp(7, "secure", RENEWED_ANSWER), "live 7")


def earlier_generation():
    """The keys of before open for 2,000 ms after the answer; sealing is under the new ones at once."""
    s = Script()
    alice_live(s)
    s.sealed(20002, OWN, rtp(7), 7)
    s.tick(1000)
    renewed(s)
    s.sealed(20002, NEW_OWN, rtp(7), 7)
    s.tick(2999)
    s.opened(20000, ALICE_KEYED, rtp(7), 7, ONE)
    s.opened(20000, NEW, rtp(7, ssrc=5), 7)
    s.rtcp_opened(20001, ALICE_KEYED, rtcp(), 0, ONE)
    s.tick(3000)
    s.dropped(20000, ALICE_KEYED.srtp(rtp(8), 8, ONE), "BadTag")
    s.dropped(20001, ALICE_KEYED.srtcp(rtcp(), 1, ONE), "BadTag")
    s.opened(20000, NEW, rtp(8, ssrc=5), 8)
    return s


def earlier_packet_twice():
    """A packet under the key of before is put out once; then the cause is that of the current session."""
    s = Script()
    alice_live(s)
    s.tick(1000)
    renewed(s)
    s.tick(2999)
    s.opened(20000, ALICE_KEYED, rtp(7), 7, ONE)
    s.dropped(20000, ALICE_KEYED.srtp(rtp(7), 7, ONE), "BadTag")
    return s


def third_generation():
    """A further answer drops the generation that was kept and keeps the one that it replaces, from its own moment."""
    s = Script()
    alice_live(s)
    s.tick(1000)
    renewed(s)
    s.tick(1500)
    third, drawn = key("third"), noise("third")
    s.says(offer_secure(7, secure_text(crypto(1, third))), sdp(7, "plain", ALICE + ["m=audio 20002 RTP/AVP 0"]))
    s.opened(20000, ALICE_KEYED, rtp(7), 7, ONE)
    told = sdp(7, "secure", BOB + ["m=audio 20000 RTP/SAVP 0", crypto(1, own_key(drawn))])
    s.says(answer(7, plain_text(), drawn), told, "live 7")
    s.dropped(20000, ALICE_KEYED.srtp(rtp(8), 8, ONE), "BadTag")
    s.opened(20000, NEW, rtp(7, ssrc=5), 7)
    s.opened(20000, third, rtp(7, ssrc=6), 7)
    s.tick(3499)
    s.opened(20000, NEW, rtp(8, ssrc=5), 8)
    s.tick(3500)
    s.dropped(20000, NEW.srtp(rtp(9, ssrc=5), 9), "BadTag")
    s.opened(20000, third, rtp(8, ssrc=6), 8)
    return s


def idle_in_the_new_generation():
    """A medium that the new answer leaves idle still opens for 2,000 ms, and seals nothing any more."""
    s = Script()
    keys, later = [key("one"), key("two")], [key("three"), key("four")]
    media = ["m=audio 40000 RTP/SAVP 0", "m=video 40010 RTP/SAVP 31"]
    s.says(
        offer_secure(7, ALICE + [media[0], crypto(1, keys[0]), media[1], crypto(1, keys[1])]), made(7, media=2),
        sdp(7, "plain", ALICE + ["m=audio 20002 RTP/AVP 0", "m=video 20006 RTP/AVP 31"]),
    )
    first, second = own_key(COUNTING), own_key(COUNTING, 1)
    s.says(
        answer(7, BOB + ["m=audio 41000 RTP/AVP 0", "m=video 41010 RTP/AVP 31"]),
        sdp(7, "secure", BOB + [
            "m=audio 20000 RTP/SAVP 0", crypto(1, first), "m=video 20004 RTP/SAVP 31", crypto(1, second),
        ]),
        "live 7",
    )
    s.opened(20004, keys[1], rtp(7), 7, to="127.0.0.1:41010")
    s.sealed(20006, second, rtp(7), 7, to="127.0.0.1:40010")
    for number, master in enumerate((keys[0], first, keys[1], second)):
        s.manual(1, master, key("other"), [f"refused 1 KeyReused {number}"])
    s.tick(500)
    s.says(
        offer_secure(7, ALICE + [media[0], crypto(1, later[0]), media[1], crypto(1, later[1])], SHIFTED),
        sdp(7, "plain", ALICE + ["m=audio 20002 RTP/AVP 0", "m=video 20006 RTP/AVP 31"]),
    )
    s.says(
        answer(7, BOB + ["m=audio 41000 RTP/AVP 0", "m=video 0 RTP/AVP 31"], SHIFTED),
        sdp(7, "secure", BOB + ["m=audio 20000 RTP/SAVP 0", crypto(1, NEW_OWN), "m=video 0 RTP/SAVP 31"]), "live 7",
    )
    s.tick(2499)
    s.opened(20004, keys[1], rtp(8), 8, to="127.0.0.1:41010")
    s.dropped(20006, rtp(8), "PortUnused")
    s.dropped(20004, later[1].srtp(rtp(9), 9), "BadTag")
    s.dropped(20004, keys[1].srtp(rtp(8), 8), "Repeat")
    s.tick(2500)
    s.dropped(20004, keys[1].srtp(rtp(9), 9), "PortUnused")
    s.dropped(20006, rtp(9), "PortUnused")
    return s

ALL = (
    ends_of_calls, ends_of_calls_of_several_media, idle_calls, moments_of_signals, states, rejected_offers, full_table, slots_used_again,
    earlier_generation, earlier_packet_twice, third_generation, idle_in_the_new_generation,
)
