"""Scripts of version 2, whose datagram lines have moments of their own, and scripts that `migrate` makes such of, with
what must be told of each; `interop/rows.py` writes them.
"""
import calls
from calls import KEY, ONES
from lives import NEW, NEW_OWN, renewed
from signals import (
    ALICE_KEYED, ALICE_OFFERS, BOB_ANSWERS, GATEWAY, MANUAL, MARK, ONE, PEER, SECURE, Script, alice_live, answer,
    offer_mikey, offer_sdes, offer_secure, psk,
)
from srtp import rtp

LAST_MOMENT = 2_085_978_495_999
NOTHING = b""


def refused(last):
    return f"refused - TickBack {last}"


def sealed_at(number, index, to="127.0.0.1:41000"):
    """A packet of the peer's under the known key, and what is told of it."""
    packet = rtp(number)
    return KEY.srtp(packet, index), f"out 20002 {to} {packet.hex()}"


# ---- replays of version 2

def moment_of_a_datagram_ends_a_call():
    """A datagram's moment is a tick before it: the call that it would go to has ended by then."""
    s = Script(2)
    s.manual(1, ONES, KEY, MANUAL)
    s.arrives_at(60000, 20000, NOTHING, "ended 1 0 1 idle", "drop 20000 PortUnused")
    return s


def moment_of_a_datagram_goes_back():
    """A moment before the last one is refused, and the datagram is handled at the last one."""
    s = moment_of_a_datagram_ends_a_call()
    s.arrives_at(59999, 20000, NOTHING, refused(60000), "drop 20000 PortUnused")
    return s


def moments_beside_ticks():
    """Ticks and datagrams have one clock. A moment that is the last one is taken; each refused one is told again."""
    s = Script(2)
    s.manual(1, KEY, ONES, MANUAL)
    s.tick(100)
    s.arrives_at(100, 20000, *sealed_at(7, 7))
    octets, told = sealed_at(8, 8)
    s.arrives_at(99, 20000, octets, refused(100), told)
    s.arrives_at(99, 20000, octets, refused(100), "drop 20000 Repeat")
    s.arrives_at(0, 20000, octets, refused(100), "drop 20000 Repeat")
    s.arrives_at(5000, 20000, *sealed_at(9, 9))
    s.tick(4999, refused(5000))
    s.tick(5000)
    s.arrives_at(64999, 20000, *sealed_at(10, 10))
    s.arrives_at(124998, 20002, rtp(3), f"out 20000 {SECURE} {ONES.srtp(rtp(3), 3).hex()}")
    s.arrives_at(184998, 20002, rtp(4), "ended 1 0 1 idle", "drop 20002 PortUnused")
    s.arrives_at(LAST_MOMENT, 65535, NOTHING, "drop 65535 PortUnused")
    s.tick(LAST_MOMENT - 1, refused(LAST_MOMENT))
    return s


def keys_of_before_by_datagrams_moments():
    """The keys of before open for 2,000 ms after the answer, by the moments of the datagrams."""
    s = Script(2)
    alice_live(s)
    s.tick(1000)
    renewed(s)
    packet = rtp(7)
    s.arrives_at(2999, 20000, ALICE_KEYED.srtp(packet, 7, ONE), f"out 20002 127.0.0.1:41000 {packet.hex()}")
    later, new = ALICE_KEYED.srtp(rtp(8), 8, ONE), rtp(7, ssrc=5)
    s.arrives_at(3000, 20000, later, "drop 20000 BadTag")
    s.arrives_at(2999, 20000, later, refused(3000), "drop 20000 BadTag")
    s.arrives_at(3000, 20000, NEW.srtp(new, 7), f"out 20002 127.0.0.1:41000 {new.hex()}")
    s.arrives_at(3000, 20002, packet, f"out 20000 {SECURE} {NEW_OWN.srtp(packet, 7).hex()}")
    return s


def header_of_version_2_alone():
    return Script(2)


def side_by_side(moment_of, command="replay", version=2):
    """64 datagrams that take turns at eight calls, with these moments; what is told where none goes back."""
    _, text, told = calls.side_by_side()
    s, lines, told = Script(version, command), text.splitlines()[1:], told.splitlines()
    s.lines += lines[:8]
    s.told += told[:16]
    last = 0
    for place, (line, outcome) in enumerate(zip(lines[8:], told[16:])):
        moment = moment_of(place)
        s.lines.append(line.replace("in ", f"in {moment} ", 1))
        s.told += [refused(last)] * (moment < last) + [outcome]
        last = max(last, moment)
    return s


def calls_side_by_side_at_one_moment():
    """The batch of `calls-side-by-side`, all at one moment."""
    return side_by_side(lambda place: 5000)


def calls_side_by_side_at_moments_of_their_own():
    """The same, each a millisecond behind the one before."""
    return side_by_side(lambda place: place + 1)


def calls_side_by_side_at_moments_that_go_back():
    """The same by fives of one moment, each third of which is of a moment that is past."""
    return side_by_side(lambda place: 1000 * (place // 5) if place // 5 % 3 < 2 else 1000 * (place // 5) - 1500)


def more_of_one_moment_than_a_batch_has():
    """600 datagrams of one moment, of which 256 are handled at once, and one of the next moment."""
    s = Script(2)
    s.manual(1, KEY, ONES, MANUAL)
    octets, told = sealed_at(7, 7)
    s.arrives_at(5, 20000, octets, told)
    for place in range(598):
        number = 8 + place // 2
        if place % 2:
            s.arrives_at(5, 20002, rtp(number), f"out 20000 {SECURE} {ONES.srtp(rtp(number), number).hex()}")
        else:
            s.arrives_at(5, 20000, *sealed_at(number, number))
    s.arrives_at(5, 20000, octets, "drop 20000 TooOld")
    s.arrives_at(6, 20000, octets, "drop 20000 TooOld")
    return s


def another_version():
    """There is no version 3."""
    s = Script(3)
    s.end = 2, "srtpgw: script line 1: Version\n"
    return s


# ---- migration

def migrated(line, moment=0):
    """A line of version 1 in version 2."""
    if line == "srtpgw 1":
        return "srtpgw 2"
    return line.replace("in ", f"in {moment} ", 1) if line.startswith("in ") else line


def migrating(lines, moments=()):
    """These lines, migrated; each datagram has the next of the moments."""
    s, moments = Script(1, "migrate"), iter(moments)
    s.lines += lines
    s.told = [migrated(line, next(moments) if line.startswith("in ") else 0) for line in s.lines]
    return s


def migrated_moments():
    """A datagram gets the moment of the tick before it."""
    return migrating(["tick 5", f"in 20000 {SECURE} -"], [5])


def migrated_moments_of_ticks_that_go_back():
    """Without a tick the moment is 0, and behind one that goes back it is the greatest."""
    came = f"in 20000 {SECURE} -"
    return migrating([came, came, "tick 60000", came, "tick 5", came, f"tick {LAST_MOMENT}", came],
                     [0, 0, 60000, 60000, LAST_MOMENT])


def migrated_lines_of_every_kind():
    """All lines but the header and those of datagrams stay as they are, whatever a run would tell of them; noise isn't
    drawn."""
    return migrating([
        psk(), f"manual 1 {SECURE} 127.0.0.1:41000 ffffffff 1024 {KEY.field()} {ONES.field()}",
        f"manual 4294967295 0.0.0.0:0 255.255.255.255:65535 00000000 64 {calls.RAW.field()} {calls.RAW_OTHER.field()}",
        offer_secure(7, ALICE_OFFERS), offer_secure(7, ALICE_OFFERS, None), answer(7, BOB_ANSWERS),
        offer_sdes(8, BOB_ANSWERS), offer_mikey(9, PEER, BOB_ANSWERS), "offer-plain 9 sdes - -",
        f"offer-plain 9 mikey {GATEWAY} - 00", "answer 7 - -", "reject 3", "tick 1000", MARK, "bye 1",
        "in 0 1.2.3.4:5 " + "ab" * 4352,
    ], [1000])


def migrated_nothing():
    """A script without lines stays one."""
    s = Script(1, "migrate")
    s.lines = []
    return s


def migrated_up_to_a_fault():
    """What comes before the first line outside the grammar is written."""
    s = migrating(["tick 7", f"in 20000 {SECURE} 80"], [7])
    s.lines += [f"in 7 20000 {SECURE} 80", "bye 1"]
    s.end = 2, "srtpgw: script line 4: Word\n"
    return s


def migrated_version_2():
    """A script that is of version 2 already has its fault in line 1."""
    s = Script(2, "migrate")
    s.lines.append("tick 7")
    s.end = 2, "srtpgw: script line 1: Version\n"
    return s


ALL = (
    moment_of_a_datagram_ends_a_call, moment_of_a_datagram_goes_back, moments_beside_ticks,
    keys_of_before_by_datagrams_moments, header_of_version_2_alone, calls_side_by_side_at_one_moment,
    calls_side_by_side_at_moments_of_their_own, calls_side_by_side_at_moments_that_go_back,
    more_of_one_moment_than_a_batch_has, another_version, migrated_moments, migrated_moments_of_ticks_that_go_back,
    migrated_lines_of_every_kind, migrated_nothing, migrated_up_to_a_fault, migrated_version_2,
)
