"""Rows of offers and answers by MIKEY messages, and of pre-shared keys."""
import struct

from agreements import edge_of
from mikey import DEFAULTS, ERA, answered, flipped, key_data, stamp_of
from signals import (
    ALICE, BOB, BOB_ANSWERS, COUNTING, GATEWAY, LAST, MANUAL, NOW, OTHER, PCMU, PEER, SHIFTED, Script, TGK, answer,
    crypto, key, made, master, message_line, noise, octets_of, offer_mikey, offer_secure, own_exchange, peers_exchange,
    plain_text, psk, sdp, secure_text,
)
from srtp import rtcp, rtp


def pairs():
    """A pair of names is held once, whatever the key, and 64 are held at most."""
    s = Script()
    s.says(psk())
    s.says(psk(), "refused - PskKnown")
    s.says(psk(shared=octets_of("another", 64)), "refused - PskKnown")
    s.says(psk(PEER, GATEWAY))
    s.says(psk(GATEWAY, OTHER))
    for n in range(61):
        s.says(psk(peer=f"sip:{n}@b"))
    s.says(psk(peer="sip:61@b"), "refused - PskFull")
    s.says(psk(), "refused - PskKnown")
    return s


def mikey_by_the_gateway():
    """The gateway's message to the octet at moments 0 and 500, what it refuses of responses, and packets."""
    s = Script()
    s.refused(offer_mikey(9, PEER, BOB_ANSWERS), "Psk 255 IdUnknown")
    s.says(psk())
    s.refused(offer_mikey(9, PEER, BOB), "NoMedia")
    s.refused(offer_mikey(9, OTHER, BOB_ANSWERS), "Psk 255 IdUnknown")
    offer = plain_text("a=ssrc:4294967296 cname:x", "a=ssrc:0", "a=ssrc:3405691582 cname:bob", "a=ssrc:1")
    exchange = own_exchange(COUNTING, [0xCAFEBABE])
    initial = exchange.initial()
    assert bytes.fromhex("83aa7e8000000000") in initial
    carried = BOB + [message_line(initial), "m=audio 20000 RTP/SAVP 0"] + offer[6:]
    s.says(offer_mikey(9, PEER, offer), made(9), sdp(9, "secure", carried))
    entries = answered(exchange.entries, [0x11])
    reply = lambda octets: answer(9, secure_text(session=[message_line(octets)]))
    good = exchange.response(PEER.encode(), entries)
    for octets, cause in (
        (flipped(good, -1), "Psk 255 BadMac"),
        (flipped(good, 12), "Psk 255 BadMac"),
        (exchange.response(PEER.encode(), entries, mac=0), "Psk 255 Algorithm"),
        (exchange.response(PEER.encode(), entries, csb=1), "Psk 255 OtherSession"),
        (exchange.response(PEER.encode(), entries + entries), "Psk 255 OtherSession"),
        (initial, "Mikey 255 1 DataType"),
        (good[:-1], f"Mikey 255 {len(good) - 1} Cut"),
        (good + b"\0", f"Mikey 255 {len(good)} Trailing"),
    ):
        s.refused(reply(octets), cause)
    s.refused(answer(9, secure_text()), "KeyMgmt 255")
    s.refused(answer(9, secure_text(message_line(good))), "KeyMgmt 255")
    s.refused(answer(9, secure_text(session=["a=key-mgmt:mikey ???"])), "KeyMgmt 255")
    s.says(reply(good), sdp(9, "plain", ALICE + ["m=audio 20002 RTP/AVP 0"]), "live 9")
    (own,), (theirs,) = exchange.sessions(16)
    s.dropped(20000, master(theirs).srtp(rtp(7), 7), "SsrcUnknown")
    s.opened(20000, master(theirs), rtp(7, ssrc=0x11), 7)
    s.dropped(20002, rtp(7, ssrc=0x11), "SsrcUnknown")
    s.sealed(20002, master(own), rtp(7), 7)
    s.rtcp_opened(20001, master(theirs), rtcp(0x11), 0)
    s.rtcp_sealed(20003, master(own), rtcp(), 0)
    s.manual(1, master(theirs), key("other"), ["refused 1 KeyReused 0"])
    s.manual(1, master(own), key("other"), ["refused 1 KeyReused 1"])
    s.tick(500)
    later = own_exchange(SHIFTED, [0], 500).initial()
    assert bytes.fromhex("83aa7e8080000000") in later
    told = BOB + [message_line(later), "m=audio 20000 RTP/SAVP 0", PCMU]
    s.says(offer_mikey(9, PEER, BOB_ANSWERS, SHIFTED), sdp(9, "secure", told))
    return s


def mikey_by_the_peer():
    """A message in the session part and the gateway's response to the octet; SSRC and rollover of the map."""
    s = Script()
    s.says(psk())
    s.tick(NOW)
    exchange = peers_exchange(entries=[(0, 0x21, 3), (0, 0, 9)])
    offer = secure_text(crypto(1, key("of no use")), session=[message_line(exchange.initial()), "a=tool:x"])
    s.says(offer_secure(9, offer), made(9), sdp(9, "plain", ALICE + ["a=tool:x", "m=audio 20002 RTP/AVP 0"]))
    response = exchange.response(GATEWAY.encode(), answered(exchange.entries, [0x22]))
    told = BOB + ["a=tool:y", message_line(response), "m=audio 20000 RTP/SAVP 0", "a=ssrc:34"]
    s.says(answer(9, plain_text("a=ssrc:34", session=["a=tool:y"])), sdp(9, "secure", told), "live 9")
    (theirs,), (own,) = exchange.sessions(16)
    s.dropped(20000, master(theirs).srtp(rtp(7), 3 * 65536 + 7), "SsrcUnknown")
    s.dropped(20000, master(theirs).srtp(rtp(7, ssrc=0x21), 7), "BadTag")
    s.opened(20000, master(theirs), rtp(7, ssrc=0x21), 3 * 65536 + 7)
    s.dropped(20002, rtp(7), "SsrcUnknown")
    s.sealed(20002, master(own), rtp(7, ssrc=0x22), 7)
    s.manual(1, key("other"), master(own), ["refused 1 KeyReused 1"])
    return s


def first_source():
    """Without an SSRC in the map each session takes the first that comes, and then that one alone."""
    s = Script()
    s.says(psk())
    s.tick(NOW)
    exchange = peers_exchange()
    s.says(
        offer_secure(9, secure_text(session=[message_line(exchange.initial())])), made(9),
        sdp(9, "plain", ALICE + ["m=audio 20002 RTP/AVP 0"]),
    )
    response = exchange.response(GATEWAY.encode(), answered(exchange.entries, [0]))
    told = BOB + [message_line(response), "m=audio 20000 RTP/SAVP 0"]
    s.says(answer(9, plain_text()), sdp(9, "secure", told), "live 9")
    (theirs,), (own,) = exchange.sessions(16)
    s.dropped(20000, flipped(master(theirs).srtp(rtp(7, ssrc=1), 7), -1), "BadTag")
    s.opened(20000, master(theirs), rtp(7, ssrc=2), 7)
    s.dropped(20000, master(theirs).srtp(rtp(7, ssrc=1), 7), "SsrcUnknown")
    s.sealed(20002, master(own), rtp(7, ssrc=3), 7)
    s.dropped(20002, rtp(7, ssrc=2), "SsrcUnknown")
    s.rtcp_opened(20001, master(theirs), rtcp(4), 0)
    s.dropped(20001, master(theirs).srtcp(rtcp(2), 1), "SsrcUnknown")
    return s


def shared_key_behind_a_call():
    """A key that comes to be held changes nothing of a call that is live."""
    s = Script()
    theirs, own = key("theirs"), key("own")
    s.manual(1, theirs, own, MANUAL)
    s.both_ways(theirs, own, 7)
    s.says(psk())
    s.both_ways(theirs, own, 8)
    s.says(psk(), "refused - PskKnown")
    s.both_ways(theirs, own, 9)
    return s


def messages_of_media():
    """A message in each active medium, under policies and SPIs of their own, is answered in that medium."""
    s = Script()
    s.says(psk())
    s.tick(NOW)
    spis = [(TGK, b"\7\1"), (octets_of("second", 32), b"\7\2")]
    one = peers_exchange(csb=1, policies=[(0, [(1, b"\x20"), (11, b"\x20")])], keys=spis)
    two = peers_exchange(csb=2, policies=[(5, [(7, b"\0"), (8, b"\0")])], entries=[(5, 0, 0), (5, 0, 0)], names=(PEER,))
    media = ["m=audio 40000 RTP/SAVP 0", "m=video 0 RTP/SAVP 31", "m=video 40020 RTP/SAVP 31"]
    offer = ALICE + [media[0], message_line(one.initial()), media[1], media[2], message_line(two.initial())]
    s.says(
        offer_secure(9, offer), made(9, media=3),
        sdp(9, "plain", ALICE + ["m=audio 20002 RTP/AVP 0", "m=video 0 RTP/AVP 31", "m=video 20010 RTP/AVP 31"]),
    )
    told = BOB + [
        "m=audio 20000 RTP/SAVP 0", message_line(one.response(GATEWAY.encode(), answered(one.entries, [0]))),
        "m=video 0 RTP/SAVP 31",
        "m=video 20008 RTP/SAVP 31", "a=ssrc:5 x",
        message_line(two.response(GATEWAY.encode(), answered(two.entries, [5]))),
    ]
    reply = BOB + ["m=audio 41000 RTP/AVP 0", "m=video 41010 RTP/AVP 31", "m=video 41020 RTP/AVP 31", "a=ssrc:5 x"]
    s.says(answer(9, reply), sdp(9, "secure", told), "live 9")
    theirs, own = one.sessions(32)
    s.opened(20000, master(theirs[0], LAST), rtp(7), 7, b"\7\1")
    s.opened(20000, master(theirs[1], LAST), rtp(8), 8, b"\7\2")
    s.sealed(20002, master(own[0], LAST), rtp(7), 7, b"\7\1")
    s.rtcp_sealed(20003, master(own[0], LAST), rtcp(), 0, b"\7\1")
    (theirs,), (own,) = two.sessions(16)
    s.opened(20008, master(theirs), rtp(7), 7, encrypts=False, to="127.0.0.1:41020")
    s.sealed(20010, master(own), rtp(7, ssrc=5), 7, encrypts=False, to="127.0.0.1:40020")
    s.dropped(20010, rtp(8), "SsrcUnknown")
    s.dropped(20004, b"", "PortUnused")
    return s


def session_of_two_media():
    """One message for two media; the crypto sessions of a medium that the answer leaves idle are there all the same."""
    s = Script()
    s.says(psk())
    s.tick(NOW)
    exchange = peers_exchange(entries=[(0, 1, 0), (0, 0, 0), (0, 2, 0), (0, 0, 0)])
    media = ["m=audio 40000 RTP/SAVP 0", "m=audio 0 RTP/SAVP 0", "m=video 40020 RTP/SAVP 31"]
    s.says(
        offer_secure(9, ALICE + [message_line(exchange.initial())] + media), made(9, media=3),
        sdp(9, "plain", ALICE + ["m=audio 20002 RTP/AVP 0", "m=audio 0 RTP/AVP 0", "m=video 20010 RTP/AVP 31"]),
    )
    response = exchange.response(GATEWAY.encode(), answered(exchange.entries, [0x31, 0x32]))
    video = ["m=video 41020 RTP/AVP 31", "a=ssrc:50"]
    reply = BOB + ["m=audio 0 RTP/AVP 0", "a=ssrc:49", "m=audio 41010 RTP/AVP 0"] + video
    told = BOB + [message_line(response), "m=audio 0 RTP/SAVP 0", "a=ssrc:49", "m=audio 0 RTP/SAVP 0",
                  "m=video 20008 RTP/SAVP 31", "a=ssrc:50"]
    s.says(answer(9, reply), sdp(9, "secure", told), "live 9")
    sessions = exchange.sessions(16)
    s.opened(20008, master(sessions[2][0]), rtp(7, ssrc=2), 7, to="127.0.0.1:41020")
    s.sealed(20010, master(sessions[3][0]), rtp(7, ssrc=0x32), 7, to="127.0.0.1:40020")
    s.dropped(20000, master(sessions[0][0]).srtp(rtp(7, ssrc=1), 7), "PortUnused")
    s.manual(1, master(sessions[2][0]), key("other"), ["refused 1 KeyReused 0"])
    return s


def mikey_of_three_media():
    """The gateway's message covers the active media of the offer alone, each with two crypto sessions."""
    s = Script()
    s.says(psk(GATEWAY, PEER))
    s.says(psk("sip:two@a", PEER, octets_of("of the second pair", 16)))
    idle = ["m=audio 0 RTP/AVP 0", "a=ssrc:6 x"]
    offer = BOB + ["m=audio 41000 RTP/AVP 0", "a=ssrc:5 x", *idle, "m=video 41020 RTP/AVP 31"]
    exchange = own_exchange(COUNTING, [5, 0])
    told = BOB + [message_line(exchange.initial()), "m=audio 20000 RTP/SAVP 0", "a=ssrc:5 x", "m=audio 0 RTP/SAVP 0",
                  "a=ssrc:6 x", "m=video 20008 RTP/SAVP 31"]
    s.says(offer_mikey(9, PEER, offer), made(9, media=3), sdp(9, "secure", told))
    entries = [(0, 5, 0), (0, 0x41, 1), (0, 0, 0), (0, 0x42, 2)]
    line = message_line(exchange.response(PEER.encode(), entries))
    media = ["m=audio 40000 RTP/SAVP 0", "m=audio 40010 RTP/SAVP 0", "m=video 40020 RTP/SAVP 31"]
    carried = ALICE + ["m=audio 20002 RTP/AVP 0", "m=audio 0 RTP/AVP 0", "m=video 20010 RTP/AVP 31"]
    s.says(answer(9, ALICE + [line] + media), sdp(9, "plain", carried), "live 9")
    sessions = [master(keys[0]) for keys in exchange.sessions(16)]
    s.opened(20000, sessions[1], rtp(7, ssrc=0x41), 65536 + 7)
    s.sealed(20002, sessions[0], rtp(7, ssrc=5), 7)
    s.opened(20008, sessions[3], rtp(7, ssrc=0x42), 2 * 65536 + 7, to="127.0.0.1:41020")
    s.sealed(20010, sessions[2], rtp(7, ssrc=9), 7, to="127.0.0.1:40020")
    s.dropped(20010, rtp(8, ssrc=8), "SsrcUnknown")
    for number, place in enumerate((1, 0, 3, 2)):
        s.manual(1, sessions[place], key("other"), [f"refused 1 KeyReused {number}"])
    return s


def pair_of_a_message():
    """A message's names choose the first pair that has them; without the second name its own name isn't asked."""
    s = Script()
    two, shared = "sip:two@a", octets_of("of the second pair", 64)
    s.says(psk(GATEWAY, PEER))
    s.says(psk(two, PEER, shared))
    s.tick(NOW)
    carried = lambda slot: sdp(8 + slot, "plain", ALICE + [f"m=audio {20002 + 16 * slot} RTP/AVP 0"])
    offer = lambda call, exchange: offer_secure(call, secure_text(session=[message_line(exchange.initial())]))
    s.refused(offer(8, peers_exchange(1, names=(PEER, two))), "Psk 255 BadMac")
    s.refused(offer(8, peers_exchange(1, names=(PEER,), shared=shared)), "Psk 255 BadMac")
    second = peers_exchange(1, names=(PEER, two), shared=shared)
    s.says(offer(8, second), made(8), carried(0))
    bare = peers_exchange(2, names=(PEER,))
    s.says(offer(9, bare), made(9, 1), carried(1))
    for slot, exchange, own in ((0, second, two), (1, bare, GATEWAY)):
        line = message_line(exchange.response(own.encode(), answered(exchange.entries, [0])))
        told = BOB + [line, f"m=audio {20000 + 16 * slot} RTP/SAVP 0"]
        s.says(answer(8 + slot, plain_text()), sdp(8 + slot, "secure", told), f"live {8 + slot}")
    return s


def skews():
    """A stamp may be 300,000 ms off either way as it reads; one that isn't a whole second may read 1 ms early."""
    s = Script()
    s.says(psk())
    line = lambda csb, now: message_line(peers_exchange(csb, now=now).initial())
    offer = lambda csb, now: offer_secure(9, secure_text(session=[line(csb, now)]))
    told = made(9), sdp(9, "plain", ALICE + ["m=audio 20002 RTP/AVP 0"])
    s.tick(NOW - 300001)
    s.refused(offer(1, NOW), f"Psk 255 Skew {NOW} {NOW - 300001}")
    s.tick(NOW - 300000)
    s.says(offer(1, NOW), *told)
    s.tick(NOW + 300000, "ended 9 0 1 idle")
    s.says(offer(2, NOW), *told)
    s.says("bye 9", "ended 9 0 1 bye")
    s.tick(NOW + 300001)
    s.refused(offer(3, NOW), f"Psk 255 Skew {NOW} {NOW + 300001}")
    assert stamp_of(NOW + 1) == struct.pack(">II", NOW // 1000 + ERA, 4294967)
    s.refused(offer(4, NOW + 1), f"Psk 255 Skew {NOW} {NOW + 300001}")
    s.says(offer(5, NOW + 2), *told)
    return s


def early_stamps():
    """A stamp of zeros reads as 1900."""
    s = Script()
    s.says(psk())
    exchange = peers_exchange()
    exchange.stamp = bytes(8)
    offer = offer_secure(9, secure_text(session=[message_line(exchange.initial())]))
    s.refused(offer, "Psk 255 Skew -2208988800000 0")
    return s


def refused_messages():
    """What is refused of a peer's message, each cause in its place; no refused offer notes anything."""
    s = Script()
    s.says(psk())
    s.tick(NOW)
    offer = lambda octets: offer_secure(9, secure_text(session=[message_line(octets)]))
    plain = peers_exchange()
    good = plain.initial()
    head = bytes.fromhex("01000580" "00000007" "02")
    entries = bytes.fromhex("00" "00cafebabe00000000" "000000000000000000")
    response = peers_exchange().response(GATEWAY.encode(), [(0, 0, 0)] * 2)
    spi = lambda *values: [(octets_of(f"spi {n}", 16), value) for n, value in enumerate(values)]
    for octets, cause in (
        (b"", "Mikey 255 0 Cut"),
        (head, "Mikey 255 9 Cut"),
        (head + entries, "Mikey 255 28 Cut"),
        (b"\2" + head[1:], "Mikey 255 0 Version"),
        (b"\1\2" + head[2:], "Mikey 255 1 DataType"),
        (good[:2] + b"\7" + good[3:], "Mikey 255 2 Payload"),
        (good[:3] + b"\1" + good[4:], "Mikey 255 3 Value"),
        (plain.initial(exchanged=True), "Mikey 255 28 Order"),
        (response, "Mikey 255 1 DataType"),
        (good[:-1], f"Mikey 255 {len(good) - 1} Cut"),
        (good + b"\0", f"Mikey 255 {len(good)} Trailing"),
        (peers_exchange(names=(OTHER, GATEWAY)).initial(), "Psk 255 IdUnknown"),
        (peers_exchange(names=(PEER, OTHER)).initial(), "Psk 255 IdUnknown"),
        (peers_exchange(names=()).initial(), "Psk 255 IdUnknown"),
        *((peers_exchange(names=("x" * length,)).initial(), "Psk 255 IdUnknown") for length in (0, 128, 129)),
        (plain.initial(cipher=0), "Psk 255 Algorithm"),
        (flipped(plain.initial(cipher=2), -1), "Psk 255 Algorithm"),
        (plain.initial(mac=0), "Psk 255 Algorithm"),
        (flipped(good, -1), "Psk 255 BadMac"),
        (peers_exchange(shared=octets_of("another", 16)).initial(), "Psk 255 BadMac"),
        (flipped(peers_exchange(now=0).initial(), -1), "Psk 255 BadMac"),
        (peers_exchange(keys=spi(b"\1", b"\1")).initial(), "Psk 255 KeyType"),
        (peers_exchange(keys=spi(b"\1", None)).initial(), "Psk 255 KeyType"),
        (peers_exchange(keys=spi(b"")).initial(), "Psk 255 KeyType"),
        (peers_exchange(keys=spi(b"\1", b"\1\2")).initial(), "Psk 255 KeyType"),
        (peers_exchange(keys=[(TGK[:15], None)]).initial(), "Psk 255 KeyType"),
        *((plain.initial(text=text), "Psk 255 KeyType") for text in (b"", key_data([(TGK, None)]) + b"\0", b"\0\x20\0\x10" + TGK)),
        (peers_exchange(entries=[(0, 0, 0)]).initial(), "Cs 255 CsCount"),
        (peers_exchange(entries=[(0, 0, 0)] * 4).initial(), "Cs 255 CsCount"),
        (peers_exchange(entries=[(0, 0, 0), (1, 0, 0)]).initial(), "Cs 255 PolicyMissing"),
        (peers_exchange(policies=()).initial(), "Cs 255 PolicyMissing"),
        (peers_exchange(policies=[(0, [(6, b"\1")])]).initial(), "Cs 255 PolicyValue"),
        (peers_exchange(policies=[(0, [(1, b"\x11")]), (0, DEFAULTS)]).initial(), "Cs 255 PolicyValue"),
    ):
        s.refused(offer(octets), cause)
    told = made(9), sdp(9, "plain", ALICE + ["m=audio 20002 RTP/AVP 0"])
    s.says(offer(good), *told)
    s.says("reject 9", "ended 9 0 1 rejected")
    s.refused(offer(good), "Psk 255 Repeated")
    return s


def cut_messages():
    """The gateway's own message, sent back to it and cut behind each octet; then whole, by a pair of mirrored names."""
    s = Script()
    s.says(psk())
    s.says(psk(PEER, GATEWAY))
    initial = own_exchange(COUNTING, [0]).initial()
    s.says(offer_mikey(9, PEER, plain_text()), made(9), sdp(9, "secure", plain_text(
        session=[message_line(initial)], media="m=audio 20000 RTP/SAVP 0")))
    s.says("bye 9", "ended 9 0 1 bye")
    sent = lambda octets: offer_secure(9, secure_text(session=[message_line(octets)]), None)
    for length in range(len(initial)):
        s.refused(sent(initial[:length]), f"Mikey 255 {length} Cut")
    s.says(sent(initial), made(9), sdp(9, "plain", ALICE + ["m=audio 20002 RTP/AVP 0"]))
    return s


def needed_messages():
    """Where a message stands anywhere, each active medium needs one: of its own, or in the session part."""
    s = Script()
    s.says(psk())
    s.tick(NOW)
    mine = key("mine")
    good = message_line(peers_exchange().initial())
    audio, idle, video = "m=audio 40000 RTP/SAVP 0", "m=audio 0 RTP/SAVP 0", "m=video 40020 RTP/SAVP 31"
    s.refused(offer_secure(9, ALICE + [audio, good, video, crypto(1, mine)]), "KeyMgmt 1")
    s.refused(offer_secure(9, ALICE + [audio, crypto(1, mine), idle, good]), "KeyMgmt 0")
    s.refused(offer_secure(9, ALICE + [audio, "a=key-mgmt:mikey", crypto(1, mine)]), "KeyMgmt 0")
    s.refused(offer_secure(9, ALICE + ["a=key-mgmt:mikey AAB", audio, good]), "KeyMgmt 255")
    s.refused(offer_secure(9, ALICE + ["a=key-mgmt:mikey ", audio, good]), "Mikey 255 0 Cut")
    other = lambda **given: peers_exchange(8, **given).initial()
    whole = other()
    for octets, cause in (
        (whole[:40], "Mikey 1 40 Cut"),
        (flipped(whole, -1), "Psk 1 BadMac"),
        (other(entries=[(0, 0, 0)] * 4), "Cs 1 CsCount"),
    ):
        s.refused(offer_secure(9, ALICE + [audio, good, video, message_line(octets)]), cause)
    s.refused(offer_secure(9, ALICE + [audio, message_line(other(policies=())), video]), "Cs 0 PolicyMissing")
    # the message of the first medium was not noted by the refused offers
    s.says(
        offer_secure(9, ALICE + [audio, "a=key-mgmt:mikeyx " + good, good, "a=key-mgmt:mikey ???"]), made(9),
        sdp(9, "plain", ALICE + ["m=audio 20002 RTP/AVP 0"]),
    )
    s.says(
        offer_secure(7, secure_text(crypto(1, mine), "a=key-mgmt:mikeyx AAAA")), made(7, 1),
        sdp(7, "plain", ALICE + ["m=audio 20018 RTP/AVP 0"]),
    )
    return s


def noted_once():
    """A message that two media carry is accepted, since the book is asked as it was before the offer."""
    s = Script()
    s.says(psk())
    s.tick(NOW)
    line = message_line(peers_exchange().initial())
    two = ALICE + ["m=audio 40000 RTP/SAVP 0", line, "m=audio 40010 RTP/SAVP 0", line]
    s.says(
        offer_secure(9, two), made(9, media=2),
        sdp(9, "plain", ALICE + ["m=audio 20002 RTP/AVP 0", "m=audio 20006 RTP/AVP 0"]),
    )
    s.refused(offer_secure(7, two), "Psk 0 Repeated")
    # both media have the same keys, which the ring refuses: the second medium's by the number of the first's
    reply = BOB + ["m=audio 41000 RTP/AVP 0", "m=audio 41010 RTP/AVP 0"]
    s.refused(answer(9, reply), "KeyReused 0")
    response = peers_exchange().response(GATEWAY.encode(), answered([(0, 0, 0)] * 2, [0]))
    told = BOB + ["m=audio 0 RTP/SAVP 0", "m=audio 20004 RTP/SAVP 0", message_line(response)]
    s.says(answer(9, BOB + ["m=audio 0 RTP/AVP 0", "m=audio 41010 RTP/AVP 0"]), sdp(9, "secure", told), "live 9")
    return s


# ---- a call by a message of the peer, and its bounds

CARRIED = ALICE + ["m=audio 20002 RTP/AVP 0"]
ENDED = "ended 9 0 1 bye"


def offer_by(exchange, drawn=COUNTING):
    """An offer of the secure side under the peer's message."""
    return offer_secure(9, secure_text(session=[message_line(exchange.initial())]), drawn)


def live_by(s, exchange):
    """A call under the peer's message, and the gateway's response to the octet."""
    s.says(offer_by(exchange), made(9), sdp(9, "plain", CARRIED))
    line = message_line(exchange.response(GATEWAY.encode(), answered(exchange.entries, [0])))
    s.says(answer(9, plain_text()), sdp(9, "secure", BOB + [line, "m=audio 20000 RTP/SAVP 0"]), "live 9")


def windows_of_messages():
    """By a message the gateway opens in a window of 64, whoever offers."""
    s = Script()
    s.says(psk())
    s.tick(NOW)
    exchange = peers_exchange()
    live_by(s, exchange)
    theirs = exchange.sessions(16)[0][0]
    edge_of(s, master(theirs), 3000, 64, 5)
    later = own_exchange(SHIFTED, [0], NOW)
    told = BOB + [message_line(later.initial()), "m=audio 20000 RTP/SAVP 0", PCMU]
    s.says(offer_mikey(9, PEER, BOB_ANSWERS, SHIFTED), sdp(9, "secure", told))
    reply = message_line(later.response(PEER.encode(), answered(later.entries, [0x11])))
    s.says(answer(9, secure_text(session=[reply])), sdp(9, "plain", CARRIED), "live 9")
    theirs = later.sessions(16)[1][0]
    edge_of(s, master(theirs), 3000, 64, 0x11)
    return s


def last_source():
    """The last SSRC, 2^32 - 1, is a source as any other."""
    s = Script()
    last = 2**32 - 1
    s.says(psk())
    exchange = own_exchange(COUNTING, [last])
    source = f"a=ssrc:{last} cname:x"
    told = BOB + [message_line(exchange.initial()), "m=audio 20000 RTP/SAVP 0", source]
    s.says(offer_mikey(9, PEER, plain_text(source)), made(9), sdp(9, "secure", told))
    reply = message_line(exchange.response(PEER.encode(), answered(exchange.entries, [last])))
    s.says(answer(9, secure_text(session=[reply])), sdp(9, "plain", CARRIED), "live 9")
    (own,), (theirs,) = exchange.sessions(16)
    s.dropped(20002, rtp(7), "SsrcUnknown")
    s.sealed(20002, master(own), rtp(7, ssrc=last), 7)
    s.opened(20000, master(theirs), rtp(7, ssrc=last), 7)
    return s


def bounds_of_message_keys():
    """Keys have 16 to 64 octets; SPIs 1 to 128 octets and a value below 2^128; a message has eight keys at most."""
    s = Script()
    s.says(psk())
    s.tick(NOW)
    numbers = iter(range(1, 99))
    message = lambda keys: peers_exchange(next(numbers), keys=keys)
    long = lambda length: (octets_of("a", 64) + b"x")[:length]
    under = lambda *spis: [(long(16 + n), spi) for n, spi in enumerate(spis)]
    largest = bytes(112) + b"\xff" * 16
    single = [bytes([n]) for n in range(9)]
    for keys in (
        [(long(16), None)], [(long(64), None)],
        *map(under, (b"\1", b"\0", bytes(128), largest, largest[112:])), under(*single[:8]),
    ):
        s.says(offer_by(message(keys)), made(9), sdp(9, "plain", CARRIED))
        s.says("bye 9", ENDED)
    for keys in (
        [(b"", None)], [(long(15), None)], [(long(65), None)],
        *map(under, (b"", bytes(129), b"\1" + bytes(16), bytes(111) + b"\1" + bytes(16), b"\xff" * 17, b"\2" + bytes(16))),
        under(*single),
    ):
        s.refused(offer_by(message(keys)), "Psk 255 KeyType")
    for spi in (b"\7", largest):
        exchange = message(under(spi))
        live_by(s, exchange)
        (theirs,), (own,) = exchange.sessions(16)
        s.opened(20000, master(theirs), rtp(7), 7, spi)
        s.sealed(20002, master(own), rtp(7), 7, spi)
        s.says("bye 9", ENDED)
    return s


def stamps_of_own_messages():
    """The stamp of the gateway's own message at moments of whole and of broken seconds, the last moment too."""
    s = Script()
    s.says(psk())
    last = 2_085_978_495_999
    for now in (0, 1, 999, 1000, 1001, 1002, 1999, 2000, 59_999, NOW + 2, 1_234_567_891, last):
        s.tick(now)
        drawn = noise(f"stamp {now}")
        told = BOB + [message_line(own_exchange(drawn, [0], now).initial()), "m=audio 20000 RTP/SAVP 0", PCMU]
        s.says(offer_mikey(9, PEER, BOB_ANSWERS, drawn), made(9), sdp(9, "secure", told))
        s.says("bye 9", ENDED)
    return s


def skews_of_broken_seconds():
    """A stamp's fraction counts: at a half and at three quarters of a second, 300,000 ms off and 1 ms more, both ways."""
    s = Script()
    s.says(psk())
    numbers = iter(range(1, 99))
    for stamp in (NOW + 500, NOW + 10_000_750):
        offer = lambda: offer_by(peers_exchange(next(numbers), now=stamp))
        for now in (stamp - 300_001, stamp - 300_000, stamp + 300_000, stamp + 300_001):
            s.tick(now)
            if abs(now - stamp) > 300_000:
                s.refused(offer(), f"Psk 255 Skew {stamp} {now}")
            else:
                s.says(offer(), made(9), sdp(9, "plain", CARRIED))
                s.says("bye 9", ENDED)
    return s


ALL = (
    pairs, shared_key_behind_a_call, mikey_by_the_gateway, mikey_by_the_peer, first_source, messages_of_media, session_of_two_media,
    mikey_of_three_media, pair_of_a_message, skews, early_stamps, refused_messages, cut_messages, needed_messages,
    noted_once, windows_of_messages, last_source, bounds_of_message_keys, stamps_of_own_messages,
    skews_of_broken_seconds,
)
