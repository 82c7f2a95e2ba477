"""Rows of offers and answers by crypto lines, and of the media that they leave."""
from signals import (
    ALICE, ALICE_CARRIED, ALICE_KEYED, ALICE_OFFERS, BOB, BOBS_OFFER_CARRIED, BOB_ANSWERS, BOB_CARRIED, CM,
    CM256, CM32, COUNTING, MADE, MANUAL, ONE, OWN, PCMU, Script, alice_live, answer, at_slot, crypto, inline,
    key, made, noise, octets_of, offer_sdes, offer_secure, own_key, own_lines, plain_text, sdp, secure_text, SHIFTED,
    text,
)
from srtp import MasterKey, SMALL, rtcp, rtp

# ---- crypto lines

def offered_by_the_secure_side():
    """An offer and its answer to the octet, packets both ways, and which numbers the keys have."""
    s = Script()
    alice_live(s)
    for seq in (7, 8, 9):
        s.opened(20000, ALICE_KEYED, rtp(seq), seq, ONE)
    for seq in (7, 8, 9):
        s.sealed(20002, OWN, rtp(seq), seq)
    s.rtcp_opened(20001, ALICE_KEYED, rtcp(), 0, ONE)
    s.rtcp_sealed(20003, OWN, rtcp(), 0)
    s.dropped(20000, ALICE_KEYED.srtp(rtp(10), 10), "MkiUnknown")
    s.manual(9, ALICE_KEYED, key("other"), ["refused 9 KeyReused 0"])
    s.manual(9, OWN, key("other"), ["refused 9 KeyReused 1"])
    s.says("bye 7", "ended 7 0 1 bye")
    s.dropped(20000, ALICE_KEYED.srtp(rtp(11), 11, ONE), "PortUnused")
    return s


def offered_by_the_plain_side():
    """The gateway's two lines, and answers to the one and to the other, with and without closing pads."""
    s = Script()
    s.says(offer_sdes(8, BOB_ANSWERS), made(8), sdp(8, "secure", BOBS_OFFER_CARRIED))
    short = key("by the first line")
    s.says(
        answer(8, secure_text(PCMU, crypto(1, short))),
        sdp(8, "plain", ALICE + ["m=audio 20002 RTP/AVP 0", PCMU]), "live 8",
    )
    s.both_ways(short, OWN)
    drawn = noise("second")
    lines = own_lines(drawn)
    s.says(offer_sdes(8, BOB_ANSWERS, drawn), sdp(8, "secure", BOB + ["m=audio 20000 RTP/SAVP 0", PCMU] + lines))
    long = MasterKey(CM256, COUNTING[30:76])
    padded = BOBS_OFFER_CARRIED[-1]
    assert padded.endswith("==")
    s.refused(answer(8, secure_text(padded[:-1])), "Sdes 0 Key")
    s.says(answer(8, secure_text(padded[:-2])), sdp(8, "plain", ALICE + ["m=audio 20002 RTP/AVP 0"]), "live 8")
    s.both_ways(long, MasterKey(CM256, drawn[30:76]), ssrc=1)
    s.manual(1, long, key("other"), ["refused 1 KeyReused 2"])
    s.manual(1, MasterKey(CM256, drawn[30:76]), key("other", CM256), ["refused 1 KeyReused 3"])
    return s


def refused_lines():
    """An answer's line is refused by its first fault, and the offer stays open."""
    s = Script()
    s.says(offer_sdes(8, BOB_ANSWERS), made(8), sdp(8, "secure", BOBS_OFFER_CARRIED))
    mine = key("mine")
    for line, fault in (
        ("a=sendrecv", "NoLine"),
        (crypto(3, mine), "Tag"),
        (crypto("0000000001", mine), "Tag"),
        (crypto(1, mine).replace("a=crypto:1", "a=crypto: 1"), "Tag"),
        (f"a=crypto:1 F8_128_HMAC_SHA1_80 {inline(mine)}", "Suite"),
        (f"a=crypto:2 {CM} {inline(mine)}", "Suite"),
        (f"a=crypto:1 {CM32} {inline(mine)}", "Suite"),
        (f"a=crypto:1 {CM256} {inline(mine)}", "Key"),
        (crypto(1, mine, "|0"), "Lifetime"),
        (crypto(1, mine, "|2^49"), "Lifetime"),
        (crypto(1, mine, f"|{2**48 + 1}"), "Lifetime"),
        (crypto(1, mine, "|256:1"), "MkiValue"),
        (crypto(1, mine, "|1:129"), "MkiValue"),
        (crypto(1, mine, f"|1:1;{inline(key('two'))}|1:1"), "MkiValue"),
        (crypto(1, mine, f"|1:1;{inline(key('two'))}|2:2"), "MkiValue"),
        (crypto(1, mine, f";{inline(key('two'))}"), "MkiValue"),
        (crypto(1, mine, "".join(f"|{i}:1;{inline(key(str(i)))}" for i in range(1, 9)) + "|9:1"), "Key"),
        (crypto(1, mine, " KDR=1"), "Parameter"),
        (crypto(1, mine, " UNAUTHENTICATED_SRTP"), "Parameter"),
        (crypto(1, mine, " FEC_ORDER=SRTP_FEC"), "Parameter"),
        (crypto(1, mine, " FEC_KEY=" + inline(key("two"))), "Parameter"),
        (crypto(1, mine, " WSH=64 WSH=64"), "Parameter"),
        (crypto(1, mine, " FOO"), "Parameter"),
    ):
        s.refused(answer(8, secure_text(line)), f"Sdes 0 {fault}")
    # the first line of a medium is the peer's, whatever stands behind it
    s.refused(answer(8, secure_text(crypto(3, mine), crypto(1, mine))), "Sdes 0 Tag")
    accepted = crypto("000000001", mine, "|2^48 KDR=0 -FOO -FOO FEC_ORDER=FEC_SRTP")
    s.says(answer(8, secure_text(accepted)), sdp(8, "plain", ALICE + ["m=audio 20002 RTP/AVP 0"]), "live 8")
    s.both_ways(mine, OWN)
    return s


# The key of RFC 4568, 5.1, octets that count up, and octets of a long key; what stands there up to a key, and with what
# may stand behind it.
SEMCTL, COUNTED = "inline:WVNfX19zZW1jdGwgKCkgewkyMjA7fQp9CnVubGVz", "inline:AAECAwQFBgcICQoLDA0ODxAREhMUFRYXGBkaGxwd"
LONG = "inline:Hh8gISIjJCUmJygpKissLS4vMDEyMzQ1Njc4OTo7PD0+P0BBQkNERUZHSElKSw"
KEYED = f"1 {CM} {SEMCTL}"
STATED = KEYED + "|2^20|1:4 FEC_ORDER=FEC_SRTP"
GOOD_LINES = (
    f"1  {CM}   {SEMCTL}", f"000000000 {CM} {SEMCTL}", f"999999999 {CM} {SEMCTL}", f"000000001 {CM} {SEMCTL}",
    f"1 AES_CM_128_HMAC_SHA1_32 {SEMCTL}", f"1 AES_192_CM_HMAC_SHA1_80 {COUNTED}Hh8gISIjJCU=",
    f"1 AES_192_CM_HMAC_SHA1_32 {COUNTED}Hh8gISIjJCU", f"2 AES_256_CM_HMAC_SHA1_80 {LONG}==",
    f"2 AES_256_CM_HMAC_SHA1_80 {LONG}", f"2 AES_256_CM_HMAC_SHA1_32 {LONG}==",
    f"1 {CM} inline:+//7//v/+//7//v/+//7//v/+//7//v/+//7//v/",
    *(KEYED + rest for rest in (
        "|2^48", "|2^0", "|281474976710656", "|1", "|0:1", "|255:1", "|1:128",
        "|340282366920938463463374607431768211455:16", f"|2|1:1;{COUNTED}|2|2:1",
        "|1:1" + "".join(f";{SEMCTL}|{n}:1" for n in range(2, 9)),
        " WSH=0", " WSH=63 UNENCRYPTED_SRTP UNENCRYPTED_SRTCP", " WSH=999999999",
    )),
    *(STATED + rest for rest in ("", " -FOO", " -FOO -FOO", " KDR=0", "  KDR=0   -A", " WSH=64")),
)
BAD_LINES = {
    "Tag": ("", f"1\t{CM} {SEMCTL}|2^20|1:4 FEC_ORDER=FEC_SRTP"),
    "Suite": (
        "1", "1 ", f"1 aes_cm_128_hmac_sha1_80 {SEMCTL}", f"1 F8_128_HMAC_SHA1_80 {COUNTED}",
        "1 RAW80 inline:AAECAwQFBgcICQoLDA0ODxAREhM=", f"1 {CM}_ {SEMCTL}",
    ),
    "Key": (
        f"1 {CM}", f"1 {CM} ", f"1 {CM} WVNfX19zZW1jdGwgKCkgewkyMjA7fQp9CnVubGVz",
        f"1 {CM} Inline:WVNfX19zZW1jdGwgKCkgewkyMjA7fQp9CnVubGVz", f"1 {CM} inline:",
        f"2 AES_256_CM_HMAC_SHA1_80 {LONG}=", f"2 AES_256_CM_HMAC_SHA1_80 {LONG}===",
        "2 AES_256_CM_HMAC_SHA1_80 inline:Hh8gISIjJCUmJygpKissLS4vMDEyMzQ1Njc4OTo7PD0+P0BBQkNERUZHSElKSx==",
        "2 AES_256_CM_HMAC_SHA1_80 inline:Hh8gISIjJCUmJygpKissLS4vMDEyMzQ1Njc4OTo7PD0+P0BBQkNERUZHSElKSx",
        f"1 {CM} inline:-__7__v_-__7__v_-__7__v_-__7__v_-__7__v_",
        f"1 {CM} inline:AAECAwQFBgcICQoLDA0ODxAREhMUFRYXGBkaGxw=", f"1 {CM} {COUNTED}Hg==",
        f"1 {CM} {COUNTED}Hh8gISIjJCUmJygpKissLQ==", f"2 AES_256_CM_HMAC_SHA1_80 {SEMCTL}",
        f"1 {CM} inline:AAAAAAAAAAAAAAAAAAAAAAAAAAAAAAAAAAAAAAAAAAAAAAAAAAAAAAAAAAAAAAAAAAAA",
        f"1 {CM} inline:x|0|1:0",
    ),
}
BAD_BEHIND_KEYED = {
    "Key": (
        ";", "|1:4|2^20", "|2|3", "|2:1|3:1", "|2|1:4|",
        "|1:1" + "".join(f";{SEMCTL}|{n}:1" for n in range(2, 10)),
    ),
    "Lifetime": (
        "|0|1:4", "|", "|2^49", "|2^048", "|2^", "|281474976710657", "|01", "|3^2", "|0|1:0",
        "|0|1:1" + "".join(f";{SEMCTL}|0|{n}:1" for n in range(2, 10)),
        "|0;inline:x",
    ),
    "MkiValue": (
        "|256:1", "|2^20|256:1", "|0:0", "|1:129", "|1:04", "|01:4", "|340282366920938463463374607431768211456:17",
        "|1:4:4", "|:4", f";{COUNTED}", f"|1:1;{COUNTED}", f"|1:1;{COUNTED}|2:2", f"|1:1;{COUNTED}|1:1",
        f"|1:1;{COUNTED}|2:1;{SEMCTL}|1:1", f";{COUNTED} KDR=1",
    ),
    "Parameter": (
        " UNENCRYPTED_SRTP UNENCRYPTED_SRTP", " UNENCRYPTED_SRTCP UNENCRYPTED_SRTCP", " UNENCRYPTED_SRTP=1",
        " FEC_ORDER=SRTP_FEC", f" FEC_KEY={COUNTED}",
    ),
}
NO_PARAMETERS = (
    " KDR=1", " KDR=0 KDR=0", " ", " KDR=0  ", " FOO", " UNAUTHENTICATED_SRTP", " FEC_ORDER=FEC_SRTP", " WSH=", " WSH=1234567890", " WSH=64 WSH=64", " WSH=x", " wsh=64")
NO_TAGS = (" 1", "x1", "+1", "0000000001", "1234567890", "-1")


def values_of_lines():
    """Each part of a crypto line at its bounds and beyond, spelt in each way; a line is refused by its first fault."""
    s = Script()
    for value in GOOD_LINES:
        told = made(7), sdp(7, "plain", ALICE + ["m=audio 20002 RTP/AVP 0"])
        s.says(offer_secure(7, secure_text("a=crypto:" + value)), *told)
        s.says("bye 7", "ended 7 0 1 bye")
    s.says(offer_sdes(8, BOB_ANSWERS), made(8), sdp(8, "secure", BOBS_OFFER_CARRIED))
    faulty = [(value, fault) for fault, values in BAD_LINES.items() for value in values]
    faulty += [(KEYED + rest, fault) for fault, rests in BAD_BEHIND_KEYED.items() for rest in rests]
    faulty += [(STATED + rest, "Parameter") for rest in NO_PARAMETERS]
    faulty += [(tag + STATED[1:], "Tag") for tag in NO_TAGS]
    for value, fault in faulty:
        s.refused(answer(8, secure_text("a=crypto:" + value)), f"Sdes 0 {fault}")
    return s


def lines_of_the_second_medium():
    """Media are taken in their order, and a fault names its medium."""
    s = Script()
    one, two = key("one"), key("two")
    audio, idle, video = "m=audio 40000 RTP/SAVP 0", "m=audio 0 RTP/SAVP 0", "m=video 40020 RTP/SAVP 31"
    s.refused(offer_secure(7, ALICE + [audio, crypto(1, one), idle, video]), "Sdes 2 NoLine")
    s.refused(offer_secure(7, ALICE + [idle, video, audio]), "Sdes 1 NoLine")
    offer = BOB + ["m=audio 41000 RTP/AVP 0", "m=video 41020 RTP/AVP 31"]
    lines = [own_lines(COUNTING, medium) for medium in (0, 1)]
    told = BOB + ["m=audio 20000 RTP/SAVP 0", *lines[0], "m=video 20004 RTP/SAVP 31", *lines[1]]
    s.says(offer_sdes(7, offer), made(7, media=2), sdp(7, "secure", told))
    s.refused(answer(7, ALICE + [audio, crypto(1, one), video, crypto(3, two)]), "Sdes 1 Tag")
    s.refused(answer(7, ALICE + [audio, crypto(1, one, " FOO"), video, crypto(3, two)]), "Sdes 0 Parameter")
    s.refused(answer(7, ALICE + [audio, crypto(1, one), video, crypto(1, one)]), "KeyReused 0")
    second = MasterKey(CM256, octets_of("second", 46))
    told = ALICE + ["m=audio 20002 RTP/AVP 0", "m=video 20006 RTP/AVP 31"]
    s.says(answer(7, ALICE + [audio, crypto(1, one), video, crypto(2, second, "|1")]), sdp(7, "plain", told), "live 7")
    s.both_ways(one, OWN)
    s.opened(20004, second, rtp(7), 7, to="127.0.0.1:41020")
    s.dropped(20004, second.srtp(rtp(8), 8), "KeySpent 2 1")
    s.sealed(20006, MasterKey(CM256, COUNTING[106:152]), rtp(7), 7, to="127.0.0.1:40020")
    s.manual(1, second, key("other", CM256), ["refused 1 KeyReused 2"])
    return s


def lines_passed_over():
    """Of an offer the first line that can be read counts, and where there is none the offer is refused."""
    s = Script()
    mine = key("mine")
    bad = [crypto(1, key("bad"), " KDR=1"), f"a=crypto:2 {CM} inline:AAAA", crypto(3, key("bad"), "|0")]
    s.refused(offer_secure(7, secure_text(*bad)), "Sdes 0 NoLine")
    s.refused(offer_secure(7, secure_text()), "Sdes 0 NoLine")
    lines = [*bad, crypto("004", mine, " UNENCRYPTED_SRTCP"), crypto(5, key("later"))]
    s.says(offer_secure(7, secure_text(*lines)), made(7), sdp(7, "plain", ALICE + ["m=audio 20002 RTP/AVP 0"]))
    own = crypto(4, OWN, " UNENCRYPTED_SRTCP")
    s.says(answer(7, plain_text()), sdp(7, "secure", BOB + ["m=audio 20000 RTP/SAVP 0", own]), "live 7")
    s.both_ways(mine, OWN)
    s.rtcp_opened(20001, mine, rtcp(), 0, encrypts=False)
    s.rtcp_sealed(20003, OWN, rtcp(), 0, encrypts=False)
    return s


def lifetimes():
    """Two keys that serve two packets each, told apart by their MKIs; the count of SRTCP is its own."""
    s = Script()
    one, two = key("one"), key("two")
    line = crypto(1, one, f"|2|1:1;{inline(two)}|2|2:1")
    s.says(offer_secure(7, secure_text(line)), made(7), sdp(7, "plain", ALICE + ["m=audio 20002 RTP/AVP 0"]))
    s.says(answer(7, plain_text()), sdp(7, "secure", BOB + ["m=audio 20000 RTP/SAVP 0", crypto(1, OWN)]), "live 7")
    for seq, master, mki in ((1, one, b"\1"), (2, one, b"\1"), (3, two, b"\2"), (4, two, b"\2")):
        s.opened(20000, master, rtp(seq), seq, mki)
    s.dropped(20000, two.srtp(rtp(5), 5, b"\2"), "KeySpent 1 2")
    s.dropped(20000, one.srtp(rtp(5), 5, b"\1"), "KeySpent 0 2")
    s.dropped(20000, two.srtp(rtp(5), 5, b"\3"), "MkiUnknown")
    for index in (0, 1):
        s.rtcp_opened(20001, two, rtcp(), index, b"\2")
    s.dropped(20001, two.srtcp(rtcp(), 2, b"\2"), "KeySpent 1 2")
    s.rtcp_opened(20001, one, rtcp(), 2, b"\1")
    s.manual(1, one, key("other"), ["refused 1 KeyReused 0"])
    s.manual(1, two, key("other"), ["refused 1 KeyReused 1"])
    s.manual(1, OWN, key("other"), ["refused 1 KeyReused 2"])
    return s


def lifetimes_of_an_answer():
    """The keys of an answer's line; the gateway seals under the one of the line that was chosen, without an MKI."""
    s = Script()
    s.says(offer_sdes(8, BOB_ANSWERS), made(8), sdp(8, "secure", BOBS_OFFER_CARRIED))
    one, two = key("one", CM256), key("two", CM256)
    line = crypto(2, one, f"|2^1|256:2;{inline(two)}|1|65535:2")
    s.says(answer(8, secure_text(line)), sdp(8, "plain", ALICE + ["m=audio 20002 RTP/AVP 0"]), "live 8")
    first, second = b"\1\0", b"\xff\xff"
    s.opened(20000, two, rtp(1), 1, second)
    s.dropped(20000, two.srtp(rtp(2), 2, second), "KeySpent 1 1")
    s.opened(20000, one, rtp(2), 2, first)
    s.opened(20000, one, rtp(3), 3, first)
    s.dropped(20000, one.srtp(rtp(4), 4, first), "KeySpent 0 2")
    s.rtcp_opened(20001, two, rtcp(), 0, second)
    s.dropped(20001, two.srtcp(rtcp(), 1, second), "KeySpent 1 1")
    own = MasterKey(CM256, COUNTING[30:76])
    for seq in (1, 2, 3):
        s.sealed(20002, own, rtp(seq), seq)
    s.rtcp_sealed(20003, own, rtcp(), 0)
    return s


def windows():
    """The window of the peer's line is that in which the gateway opens, from either side; it seals in 1,024."""
    s = Script()
    mine = key("mine")
    s.says(
        offer_secure(7, secure_text(crypto(1, mine, " WSH=128"))), made(7),
        sdp(7, "plain", ALICE + ["m=audio 20002 RTP/AVP 0"]),
    )
    s.says(answer(7, plain_text()), sdp(7, "secure", BOB + ["m=audio 20000 RTP/SAVP 0", crypto(1, OWN)]), "live 7")
    for seq in (200, 73):
        s.opened(20000, mine, rtp(seq), seq)
    s.dropped(20000, mine.srtp(rtp(72), 72), "TooOld")
    s.sealed(20002, OWN, rtp(2000), 2000)
    s.sealed(20002, OWN, rtp(977), 977)
    s.dropped(20002, rtp(976), "TooOld")
    # an answer's line, and a window above the greatest
    for size, window, drawn in ((128, 128, noise("an answer")), (2000, 1024, noise("wide")), (1, 64, noise("narrow"))):
        theirs = key(f"theirs {size}")
        lines = own_lines(drawn)
        s.says(offer_sdes(7, plain_text(), drawn), sdp(7, "secure", BOB + ["m=audio 20000 RTP/SAVP 0"] + lines))
        s.says(
            answer(7, secure_text(crypto(1, theirs, f" WSH={size}"))),
            sdp(7, "plain", ALICE + ["m=audio 20002 RTP/AVP 0"]), "live 7",
        )
        s.opened(20000, theirs, rtp(3000, ssrc=size), 3000)
        s.opened(20000, theirs, rtp(3001 - window, ssrc=size), 3001 - window)
        s.dropped(20000, theirs.srtp(rtp(3000 - window, ssrc=size), 3000 - window), "TooOld")
    return s


def windows_at_bounds():
    """A window is at least 64 and at most 1,024, of an offer's line and of an answer's; without one it is 64."""
    s = Script()
    sizes = {None: 64, 0: 64, 63: 64, 64: 64, 65: 65, 1023: 1023, 1024: 1024, 1025: 1024, 999999999: 1024}
    for number, (size, window) in enumerate(sizes.items()):
        said = "" if size is None else f" WSH={size}"
        theirs, drawn = key(f"offered {size}"), noise(f"offered {size}")
        offer = offer_secure(7, secure_text(crypto(1, theirs, said)))
        told = sdp(7, "plain", ALICE + ["m=audio 20002 RTP/AVP 0"])
        s.says(offer, *([told] if number else [made(7), told]))
        own = sdp(7, "secure", BOB + ["m=audio 20000 RTP/SAVP 0", crypto(1, own_key(drawn))])
        s.says(answer(7, plain_text(), drawn), own, "live 7")
        edge_of(s, theirs, 3000, window, 2 * number + 1)
        theirs, drawn = key(f"answered {size}"), noise(f"answered {size}")
        lines = own_lines(drawn)
        s.says(offer_sdes(7, plain_text(), drawn), sdp(7, "secure", BOB + ["m=audio 20000 RTP/SAVP 0"] + lines))
        s.says(answer(7, secure_text(crypto(1, theirs, said))), told, "live 7")
        edge_of(s, theirs, 3000, window, 2 * number + 2)
    return s


def edge_of(s, theirs, highest, window, ssrc):
    """The last index that a window reaches, and the one behind it, of RTP and of RTCP."""
    packet = lambda index: theirs.srtp(rtp(index, ssrc=ssrc), index)
    s.opened(20000, theirs, rtp(highest, ssrc=ssrc), highest)
    s.dropped(20000, packet(highest - window), "TooOld")
    s.opened(20000, theirs, rtp(highest - window + 1, ssrc=ssrc), highest - window + 1)
    s.rtcp_opened(20001, theirs, rtcp(ssrc), highest)
    s.dropped(20001, theirs.srtcp(rtcp(ssrc), highest - window), "TooOld")
    s.rtcp_opened(20001, theirs, rtcp(ssrc), highest - window + 1)


def unencrypted():
    """The peer's marks hold for both directions: of an offer's line, and of an answer's."""
    s = Script()
    mine = key("mine", CM32)
    line = crypto(1, mine, " UNENCRYPTED_SRTCP UNENCRYPTED_SRTP")
    s.says(offer_secure(7, secure_text(line)), made(7), sdp(7, "plain", ALICE + ["m=audio 20002 RTP/AVP 0"]))
    own = MasterKey(CM32, OWN.octets)
    theirs = crypto(1, own, " UNENCRYPTED_SRTP UNENCRYPTED_SRTCP")
    s.says(answer(7, plain_text()), sdp(7, "secure", BOB + ["m=audio 20000 RTP/SAVP 0", theirs]), "live 7")
    s.opened(20000, mine, rtp(7), 7, encrypts=False)
    s.sealed(20002, own, rtp(7), 7, encrypts=False)
    s.rtcp_opened(20001, mine, rtcp(), 0, encrypts=False)
    s.rtcp_sealed(20003, own, rtcp(), 0, encrypts=False)
    drawn, other = noise("marked"), key("other")
    lines = own_lines(drawn)
    s.says(offer_sdes(7, plain_text(), drawn), sdp(7, "secure", BOB + ["m=audio 20000 RTP/SAVP 0"] + lines))
    s.says(
        answer(7, secure_text(crypto(1, other, " UNENCRYPTED_SRTP"))),
        sdp(7, "plain", ALICE + ["m=audio 20002 RTP/AVP 0"]), "live 7",
    )
    s.opened(20000, other, rtp(7, ssrc=3), 7, encrypts=False)
    s.sealed(20002, own_key(drawn), rtp(7), 7, encrypts=False)
    s.rtcp_opened(20001, other, rtcp(3), 0)
    s.rtcp_sealed(20003, own_key(drawn), rtcp(), 0)
    return s


def echoed_key():
    """An answer under the gateway's own key is refused by the number that the echo would have got."""
    s = Script()
    s.manual(1, SMALL, MasterKey(CM, bytes([1]) * 30), MANUAL)
    s.says(offer_sdes(8, BOB_ANSWERS), made(8, 1), sdp(8, "secure", at_slot(1, BOBS_OFFER_CARRIED)))
    s.refused(answer(8, secure_text(crypto(1, OWN))), "KeyReused 2")
    s.refused(answer(8, secure_text(crypto(1, SMALL))), "KeyReused 0")
    s.refused(answer(8, secure_text(crypto(1, MasterKey(CM, OWN.octets[:16] + bytes(14))))), "KeyReused 2")
    s.refused(offer_sdes(8, BOB_ANSWERS), "State")
    mine = key("mine")
    two = crypto(1, mine, f"|1:1;{inline(MasterKey(CM, mine.octets[:16] + bytes(14)))}|2:1")
    s.refused(answer(8, secure_text(two)), "KeyReused 2")
    s.says(answer(8, secure_text(crypto(1, mine))), sdp(8, "plain", ALICE + ["m=audio 20018 RTP/AVP 0"]), "live 8")
    s.opened(20016, mine, rtp(7), 7)
    s.manual(3, mine, key("other"), ["refused 3 KeyReused 2"])
    s.manual(3, OWN, key("other"), ["refused 3 KeyReused 3"])
    s.opened(20000, SMALL, rtp(7), 7)
    return s


# ---- media

def idle_media():
    """Media without a port or without a profile of their side are carried with port 0 and have no sessions."""
    s = Script()
    one, three = key("one"), key("three")
    offer = ALICE + [
        "m=audio 0 RTP/SAVP 0", crypto(1, key("idle")),
        "m=audio 40010 RTP/SAVP 0", crypto(1, one),
        "m=video 40020 RTP/AVP 31", crypto(1, key("of no profile")),
        "m=video 40030 RTP/SAVPF 31", "c=IN IP4 127.0.0.9", crypto(7, three),
    ]
    carried = ALICE + [
        "m=audio 0 RTP/AVP 0", "m=audio 20006 RTP/AVP 0", "m=video 0 RTP/SAVP 31",
        "m=video 20014 RTP/AVPF 31", "c=IN IP4 127.0.0.1",
    ]
    s.says(offer_secure(7, offer), made(7, media=4), sdp(7, "plain", carried))
    for port in (20000, 20002, 20004, 20006, 20008, 20015):
        s.dropped(port, b"", "NotLive")
    s.dropped(20016, b"", "PortUnused")
    reply = BOB + [
        "m=audio 41000 RTP/AVP 0", "m=audio 41010 RTP/AVP 0", "m=video 41020 RTP/AVP 31", "m=video 0 RTP/AVPF 31",
    ]
    told = BOB + [
        "m=audio 0 RTP/SAVP 0",
        "m=audio 20004 RTP/SAVP 0", crypto(1, own_key(COUNTING, 1)),
        "m=video 0 RTP/AVP 31", "m=video 0 RTP/SAVPF 31",
    ]
    s.says(answer(7, reply), sdp(7, "secure", told), "live 7")
    s.opened(20004, one, rtp(7), 7, to="127.0.0.1:41010")
    s.sealed(20006, own_key(COUNTING, 1), rtp(7), 7, to="127.0.0.1:40010")
    s.rtcp_opened(20005, one, rtcp(), 0, to="127.0.0.1:41011")
    for port in (20000, 20001, 20002, 20003, 20008, 20010, 20012, 20014):
        s.dropped(port, b"", "PortUnused")
    s.manual(1, own_key(COUNTING, 1), key("other"), ["refused 1 KeyReused 1"])
    s.manual(1, key("idle"), own_key(COUNTING), ["made 1 1 1", "live 1"])
    return s


def no_medium_is_left():
    """An answer may leave no medium: the call has a generation without sessions, and one of before still opens."""
    s = Script()
    one, other = key("one"), "m=application 9 UDP/DTLS/SCTP x"
    offer = ALICE + ["m=audio 40000 RTP/SAVP 0", crypto(1, one), "m=audio 0 RTP/SAVP 0", other]
    carried = ALICE + ["m=audio 20002 RTP/AVP 0", "m=audio 0 RTP/AVP 0", other.replace(" 9 ", " 0 ")]
    s.says(offer_secure(7, offer), made(7, media=3), sdp(7, "plain", carried))
    reply = BOB + ["m=audio 0 RTP/AVP 0", "m=audio 41010 RTP/AVP 0", "m=application 41020 RTP/AVP x"]
    told = BOB + ["m=audio 0 RTP/SAVP 0", "m=audio 0 RTP/SAVP 0", "m=application 0 RTP/AVP x"]
    s.says(answer(7, reply), sdp(7, "secure", told), "live 7")
    for port in (20000, 20002, 20004, 20008):
        s.dropped(port, b"", "PortUnused")
    # it goes on where its next offer is rejected
    s.says(offer_secure(7, offer), sdp(7, "plain", carried))
    s.says("reject 7")
    s.says(offer_secure(7, offer), sdp(7, "plain", carried))
    kept = BOB + ["m=audio 41000 RTP/AVP 0", "m=audio 0 RTP/AVP 0", "m=application 0 y/z x"]
    told = BOB + ["m=audio 20000 RTP/SAVP 0", crypto(1, OWN), "m=audio 0 RTP/SAVP 0", "m=application 0 y/z x"]
    s.says(answer(7, kept), sdp(7, "secure", told), "live 7")
    s.both_ways(one, OWN)
    s.says(offer_secure(7, offer), sdp(7, "plain", carried))
    told = BOB + ["m=audio 0 RTP/SAVP 0", "m=audio 0 RTP/SAVP 0", "m=application 0 RTP/AVP x"]
    s.says(answer(7, reply), sdp(7, "secure", told), "live 7")
    s.tick(1999)
    s.opened(20000, one, rtp(8), 8)
    s.dropped(20002, rtp(8), "PortUnused")
    s.tick(2000)
    s.dropped(20000, one.srtp(rtp(9), 9), "PortUnused")
    return s


def no_media():
    """No active medium comes before the number of media; a refused answer leaves the offer open."""
    s = Script()
    s.refused(offer_secure(7, ALICE), "NoMedia")
    s.refused(offer_secure(7, secure_text(crypto(1, key("one")), media="m=audio 0 RTP/SAVP 0")), "NoMedia")
    s.refused(offer_secure(7, secure_text(crypto(1, key("one")), media="m=audio 40000 RTP/AVP 0")), "NoMedia")
    s.refused(offer_sdes(7, plain_text(media="m=audio 41000 RTP/SAVP 0")), "NoMedia")
    s.says(offer_secure(7, ALICE_OFFERS), *MADE)
    two = plain_text("m=audio 0 RTP/AVP 0", media="m=audio 0 RTP/AVP 0")
    s.refused(answer(7, two), "NoMedia")
    s.refused(answer(7, plain_text("m=audio 0 RTP/AVP 0")), "MediaCount")
    s.refused(answer(7, BOB), "NoMedia")
    s.refused(answer(7, secure_text()), "NoMedia")
    s.says(answer(7, BOB_ANSWERS), sdp(7, "secure", BOB_CARRIED), "live 7")
    later = secure_text(crypto(1, key("two")), "m=audio 0 RTP/SAVP 0")
    s.refused(offer_secure(7, later), "MediaCount")
    s.opened(20000, ALICE_KEYED, rtp(7), 7, ONE)
    s.says("bye 7", "ended 7 0 1 bye")
    return s


def faulty_texts():
    """The first fault of a text, at its line."""
    s = Script()
    medium = ["m=audio 40000 RTP/SAVP 0", crypto(1, key("one"))]
    for lines, line, fault in (
        (["v=0", "s=-", "o=x"] + medium, 2, "Order"),
        (["v=1"] + ALICE[1:] + medium, 1, "Order"),
        (ALICE + ["x"], 6, "Form"),
        (ALICE + ["A=b"], 6, "Form"),
        (ALICE + ["m=audio 65536 RTP/SAVP 0"], 6, "Form"),
        (ALICE + ["m=audio 040 RTP/SAVP 0"], 6, "Form"),
        (ALICE + ["m=audio 40000 RTP/SAVP "], 6, "Form"),
        (ALICE + ["a=" + "x" * 2047], 6, "TooLong"),
        (ALICE + medium * 5, 14, "TooManyMedia"),
        (ALICE[:3] + ["c=IN IP6 ::1"] + medium, 4, "Address"),
        (ALICE[:3] + ["c=IN IP4 127.0.0.256"] + medium, 4, "Address"),
        (ALICE[:3] + ["t=0 0"] + medium, 5, "Address"),
        (ALICE[:3] + ["m=audio 0 RTP/SAVP 0", "c=IN IP4 127.0.0.1"] + medium, 6, "Address"),
        (ALICE + medium + ["a=" + "x" * 2044] * 8, 0, "TooLong"),
    ):
        s.refused(offer_secure(7, lines), f"Sdp {line} {fault}")
    bare = b"\n".join(line.encode() for line in ALICE + medium) + b"\n"
    s.says(offer_secure(7, bare), made(7), sdp(7, "plain", ALICE + ["m=audio 20002 RTP/AVP 0"]))
    s.refused(answer(7, BOB[:3] + ["m=audio 41000 RTP/AVP 0"]), "Sdp 4 Address")
    s.refused(answer(7, bare[:-1]), "Sdp 7 Form")
    return s


def cut_offers():
    """The known offer cut inside each line and behind it."""
    s = Script()
    whole = text(ALICE_OFFERS)
    ends = [n + 1 for n, octet in enumerate(whole) if octet == 10]
    starts = [0] + ends
    causes = ["Sdp 1 Order", "Sdp 2 Order", "Sdp 3 Order", "NoMedia", "NoMedia", "NoMedia"] + 3 * ["Sdes 0 NoLine"]
    for line, cause in enumerate(causes):
        s.refused(offer_secure(line + 1, whole[:starts[line]]), cause)
    for line, (start, end) in enumerate(zip(starts, ends), 1):
        for cut in (start + 1, (start + end) // 2, end - 1):
            s.refused(offer_secure(line, whole[:cut]), f"Sdp {line} Form")
    for slot, line in enumerate((9, 10, 11)):
        carried = at_slot(slot, ALICE_CARRIED[:-1] if line < 11 else ALICE_CARRIED)
        s.says(offer_secure(line, whole[:starts[line]]), made(line, slot), sdp(line, "plain", carried))
    return s


def cut_texts_of_the_plain_side():
    """The known answer, as an offer and as an answer, cut inside each line and behind it; the open offer stays open."""
    s = Script()
    whole = text(BOB_ANSWERS)
    ends = [n + 1 for n, octet in enumerate(whole) if octet == 10]
    starts = [0] + ends
    causes = ["Sdp 1 Order", "Sdp 2 Order", "Sdp 3 Order", "NoMedia", "NoMedia", "NoMedia"]
    cuts = [(start, cause) for start, cause in zip(starts, causes)]
    for line, (start, end) in enumerate(zip(starts, ends), 1):
        cuts += [(cut, f"Sdp {line} Form") for cut in (start + 1, (start + end) // 2, end - 1)]
    for cut, cause in cuts:
        s.refused(offer_sdes(8, whole[:cut]), cause)
    s.says(offer_secure(7, ALICE_OFFERS), *MADE)
    for cut, cause in cuts:
        s.refused(answer(7, whole[:cut]), cause)
    told = sdp(7, "secure", BOB + ["m=audio 20000 RTP/SAVP 0", BOB_CARRIED[-1]])
    s.says(answer(7, whole[:ends[5]]), told, "live 7")
    s.opened(20000, ALICE_KEYED, rtp(7), 7, ONE)
    s.sealed(20002, OWN, rtp(7), 7)
    told = BOB + ["m=audio 20016 RTP/SAVP 0", *own_lines(SHIFTED)]
    s.says(offer_sdes(8, whole[:ends[5]], SHIFTED), made(8, 1), sdp(8, "secure", told))
    return s


OF_ONE_SIDE = (
    "a=crypto:1 x inline:y", "a=key-mgmt:mikey AQ==", "a=rtcp:53020", "a=rtcp-mux",
    "a=candidate:1 1 UDP 1 10.0.0.1 9 typ host", "a=end-of-candidates", "a=remote-candidates:1 10.0.0.1 9",
    "a=ice-ufrag:x", "a=ice-pwd:x", "a=ice-options:trickle", "a=ice-lite", "a=fingerprint:sha-1 AA", "a=setup:actpass",
    "a=crypto", "a=crypto:", "a=rtcp-mux:x",
)
LIKE_THEM = (
    "a=rtcpx", "a=rtcpx:53020", "a=cryptos", "a=cryptos:1", "a=crypt:1", "a=crypto 1", "a=Crypto:1", "a= crypto:1",
    "a=rtcp-mux-only", "a=rtcp-fb:0 nack", "a=rtcp-rsize", "a=key-mgmt2:x", "a=candidates:1", "a=ice-pacing:50",
    "a=ice-", "a=setups", "a=x:crypto:1", "a=:crypto", "a=", "b=crypto:1", "k=crypto",
)


def carried_lines():
    """Attributes that hold for one side alone aren't carried, and every address becomes the gateway's."""
    s = Script()
    mine = key("mine")
    offer = [
        "v=0", "o=- 1 1 IN IP4 10.9.8.7", "s=-", "c=IN IP4 10.0.0.1", "a=ice-lite", "a=fingerprint:sha-1 00",
        "a=tool:x",
        "m=audio 65535 RTP/SAVPF 0", "c=IN IP4 10.0.0.2", "c=IN IP4 10.0.0.3", "b=AS:64", "a=rtcp:40001", "a=rtcp-mux",
        "a=rtcp-fb:0 nack", "a=candidate:1", "a=setup:actpass", "a=crypto", "a=ptime:20", crypto(12, mine),
    ]
    carried = [
        "v=0", "o=- 1 1 IN IP4 10.9.8.7", "s=-", "c=IN IP4 127.0.0.1", "a=tool:x", "m=audio 20002 RTP/AVPF 0",
        "c=IN IP4 127.0.0.1", "c=IN IP4 127.0.0.1", "b=AS:64", "a=rtcp-fb:0 nack", "a=ptime:20",
    ]
    s.says(offer_secure(7, offer), made(7), sdp(7, "plain", carried))
    # the answer's own profile isn't carried: it is that of the offer
    reply = plain_text("c=IN IP4 10.0.0.4", media="m=audio 41000 RTP/AVP 0")
    told = BOB + ["m=audio 20000 RTP/SAVPF 0", "c=IN IP4 127.0.0.1", crypto(12, OWN)]
    s.says(answer(7, reply), sdp(7, "secure", told), "live 7")
    s.opened(20000, mine, rtp(7), 7, to="10.0.0.4:41000")
    s.dropped(20002, rtp(7), "SourceUnknown")
    s.arrives(20002, rtp(7), f"out 20000 10.0.0.2:65535 {OWN.srtp(rtp(7), 7).hex()}", "10.0.0.4:9")
    # no port follows the peer's last one
    s.dropped(20001, mine.srtcp(rtcp(), 0), "PortUnused")
    s.dropped(20003, rtcp(), "PortUnused", "10.0.0.4:41001")
    # attributes of one side, and names that look like theirs, in both parts of a text
    offer = BOB + [*OF_ONE_SIDE, *LIKE_THEM, "m=audio 41000 RTP/AVP 0", *OF_ONE_SIDE, *LIKE_THEM]
    told = BOB + [*LIKE_THEM, "m=audio 20016 RTP/SAVP 0", *LIKE_THEM, *own_lines(COUNTING)]
    s.says(offer_sdes(8, offer), made(8, 1), sdp(8, "secure", told))
    return s


def profiles_with_feedback():
    """RTP/SAVPF and RTP/AVPF stand for each other as RTP/SAVP and RTP/AVP do, whoever offers."""
    s = Script()
    theirs, drawn = key("of a line"), noise("feedback")
    secure, plain = "m=audio 40000 RTP/SAVPF 0", "m=audio 41000 RTP/AVPF 0"
    towards_plain, towards_secure = ALICE + ["m=audio 20002 RTP/AVPF 0"], BOB + ["m=audio 20000 RTP/SAVPF 0"]
    s.says(offer_secure(7, secure_text(crypto(1, theirs), media=secure)), made(7), sdp(7, "plain", towards_plain))
    s.says(answer(7, plain_text(media=plain)), sdp(7, "secure", towards_secure + [crypto(1, OWN)]), "live 7")
    s.both_ways(theirs, OWN)
    s.says("bye 7", "ended 7 0 1 bye")
    told = sdp(8, "secure", towards_secure + own_lines(drawn))
    s.says(offer_sdes(8, plain_text(media=plain), drawn), made(8), told)
    other = key("of another line")
    s.says(answer(8, secure_text(crypto(1, other), media=secure)), sdp(8, "plain", towards_plain), "live 8")
    s.both_ways(other, own_key(drawn))
    return s


ALL = (
    offered_by_the_secure_side, offered_by_the_plain_side, refused_lines, values_of_lines,
    lines_of_the_second_medium,
    lines_passed_over, lifetimes, lifetimes_of_an_answer, windows, windows_at_bounds, unencrypted, echoed_key,
    idle_media, no_medium_is_left, no_media, faulty_texts, cut_offers, cut_texts_of_the_plain_side, carried_lines,
    profiles_with_feedback,
)
