"""Scripts with a capture behind them, and what must be told of each; `interop/rows.py` writes them. Captures, records and
frames are put together here, field by field.
"""
from calls import KEY, ONES
from signals import MANUAL, PLAIN, SECURE, Script
from srtp import KNOWN, KNOWN_SEALED, rtp

CAPTURED_MOST = 262_144
LAST_MOMENT = 2_085_978_495_999
MICRO, NANO = 0xA1B2C3D4, 0xA1B23C4D
IPV4, ARP, IPV6, VLAN = 0x0800, 0x0806, 0x86DD, 0x8100
UDP, TCP = 17, 6
OUT = f"out 20002 {PLAIN} {KNOWN.hex()}"
# A capture of one frame, whose datagram is the known packet: header, record, Ethernet, IPv4, UDP.
KNOWN_CAPTURE = bytes.fromhex(
    "d4c3b2a1 0200 0400 00000000 00000000 ffff0000 01000000" "00000000 00000000 50000000 50000000"
    "000000000000 000000000000 0800" "45000042 00000000 40110000 7f000001 7f000001" "9c40 4e20 002e 0000"
) + KNOWN_SEALED


def header(magic=MICRO, order="little", link=1, major=2, minor=4):
    fields = (magic, 4), (major, 2), (minor, 2), (0, 4), (0, 4), (65535, 4), (link, 4)
    return b"".join(value.to_bytes(length, order) for value, length in fields)


def record(frame, seconds=0, fraction=0, order="little", original=None):
    fields = seconds, fraction, len(frame), len(frame) if original is None else original
    return b"".join(value.to_bytes(4, order) for value in fields) + frame


def ethernet(packet, kind=IPV4):
    return bytes(12) + kind.to_bytes(2, "big") + packet


def ipv4(payload, protocol=UDP, version=4, words=5, total=None, flags=0, host="127.0.0.1", options=b""):
    total = 20 + len(options) + len(payload) if total is None else total
    source = bytes(int(part) for part in host.split("."))
    head = bytes([16 * version + words, 0]) + total.to_bytes(2, "big") + bytes(2) + flags.to_bytes(2, "big")
    return head + bytes([64, protocol, 0, 0]) + source + bytes([127, 0, 0, 1]) + options + payload


def udp(octets, port=20000, source=40000, length=None):
    fields = source, port, 8 + len(octets) if length is None else length, 0
    return b"".join(field.to_bytes(2, "big") for field in fields) + octets


def frame(octets, port=20000, **other):
    """A frame of a whole datagram."""
    return ethernet(ipv4(udp(octets, port), **other))


class Captured(Script):
    """Such a script, which records are put behind."""

    def __init__(self, version=1, **form):
        super().__init__(version, "capture")
        self.capture, self.number = header(**form), 0
        self.order, self.per = form.get("order", "little"), 1_000_000 if form.get("magic") == NANO else 1_000

    def begins(self):
        """The lines end here."""
        self.lines.append("capture")
        return self

    def has(self, octets, *told, millis=0, more=0):
        """A record of a moment, with so many fractions of a millisecond more."""
        seconds, rest = divmod(millis, 1_000)
        self.capture += record(octets, seconds, rest * self.per + more, self.order)
        self.number += 1
        self.told += told

    def skips(self, octets, cause, *told, **moment):
        self.has(octets, *told, f"skip {self.number + 1} {cause}", **moment)

    def ends(self, octet, name):
        self.end = 10, f"srtpgw: capture octet {octet}: {name}\n"
        return self


def with_call(version=1, **form):
    s = Captured(version, **form)
    s.manual(1, KEY, ONES, MANUAL)
    return s.begins()


def of(capture, *told):
    """The call of the known packet's key, and this capture."""
    s = with_call()
    s.capture, s.told = capture, s.told + list(told)
    return s


def packet_at(number):
    """A frame with a packet of the peer's, and what is told of it."""
    return frame(KEY.srtp(rtp(number), number)), f"out 20002 {PLAIN} {rtp(number).hex()}"


# ---- the known packet

def captured_packet():
    return of(KNOWN_CAPTURE, OUT)


def captured_packet_in_version_2():
    """Behind lines with moments of their own."""
    s = Captured(2)
    s.manual(1, KEY, ONES, MANUAL)
    s.arrives_at(59_000, 20000, KEY.srtp(rtp(7), 7), f"out 20002 {PLAIN} {rtp(7).hex()}")
    s.begins().has(frame(KNOWN_SEALED), OUT, millis=7)
    s.has(frame(KNOWN_SEALED), "drop 20000 Repeat", millis=60_006)
    s.has(frame(KNOWN_SEALED), "ended 1 0 1 idle", "drop 20000 PortUnused", millis=60_007)
    return s


def captured_by_another_machine():
    """Numbers with their highest octet first, and moments in nanoseconds."""
    s = with_call(magic=NANO, order="big")
    s.has(frame(KNOWN_SEALED), OUT)
    s.has(frame(KNOWN_SEALED), "drop 20000 Repeat", millis=59_999, more=999_999)
    s.has(frame(KNOWN_SEALED), "ended 1 0 1 idle", "drop 20000 PortUnused", millis=60_000)
    return s


def captured_microseconds_with_the_highest_octet_first():
    s = with_call(order="big")
    s.has(frame(KNOWN_SEALED), OUT, millis=1_000)
    s.skips(frame(KNOWN_SEALED, flags=0x2000), "Fragment", millis=60_999, more=999)
    s.skips(frame(KNOWN_SEALED, flags=0x2000), "Fragment", "ended 1 0 1 idle", millis=61_000)
    return s


def captured_nanoseconds_with_the_lowest_octet_first():
    s = with_call(magic=NANO)
    s.has(frame(KNOWN_SEALED), OUT, millis=1_000, more=999_999)
    s.skips(frame(KNOWN_SEALED, flags=0x2000), "Fragment", millis=60_999, more=999_999)
    s.skips(frame(KNOWN_SEALED, flags=0x2000), "Fragment", "ended 1 0 1 idle", millis=61_000)
    return s


def captured_fragment():
    return of(KNOWN_CAPTURE.replace(bytes.fromhex("45000042 00000000"), bytes.fromhex("45000042 00002000")), "skip 1 Fragment")


def captured_frame_of_another_protocol():
    return of(KNOWN_CAPTURE.replace(bytes.fromhex("0800 45"), bytes.fromhex("0806 45")))


def captured_packet_that_is_cut():
    return of(KNOWN_CAPTURE[:119]).ends(119, "Cut")


def captured_under_another_magic():
    return of(b"\0" + KNOWN_CAPTURE[1:]).ends(0, "Magic")


def captured_in_another_major_version():
    return of(header(major=3) + KNOWN_CAPTURE[24:]).ends(4, "Version")


def captured_in_another_minor_version():
    return of(header(minor=3) + KNOWN_CAPTURE[24:]).ends(4, "Version")


def captured_at_another_link():
    return of(KNOWN_CAPTURE[:20] + b"\x65" + KNOWN_CAPTURE[21:]).ends(20, "LinkType")


def captured_no_octets():
    return of(b"").ends(0, "Cut")


def captured_no_frames():
    return of(header())


def captured_without_its_line():
    """Without such a line the run is that of a replay."""
    s = Script(1, "capture")
    s.manual(1, KEY, ONES, MANUAL)
    s.arrives(20000, KNOWN_SEALED, OUT)
    return s


def captured_behind_a_fault():
    """The lines end before the one that says that a capture follows."""
    s = Script(1, "capture")
    s.manual(1, KEY, ONES, MANUAL)
    s.lines += ["frob", "capture"]
    s.end = 2, "srtpgw: script line 3: Word\n"
    return s


# ---- moments

def captured_moments():
    """The first record's moment is that of the last tick; later ones are as much later as theirs are. A moment that is
    earlier is the last tick's, and no tick. A frame that is passed over or skipped has its moment, too."""
    s = Captured()
    s.tick(20_000)
    s.manual(1, KEY, ONES, MANUAL)
    s.begins()
    s.has(b"", millis=1_764_000_000_123)
    s.has(*packet_at(7), millis=1_764_000_059_122)
    s.has(*packet_at(8), millis=1_764_000_000_122)
    s.has(*packet_at(9))
    s.has(frame(b"", port=53), "drop 53 PortUnused", millis=1_764_000_119_121)
    s.has(ethernet(b"", ARP), "ended 1 0 1 idle", millis=1_764_000_119_122)
    s.has(packet_at(10)[0], "drop 20000 PortUnused", millis=1_764_000_119_122)
    return s


def captured_moments_back_and_on():
    """Records that go back, and on below the greatest moment, have no tick."""
    s = with_call()
    s.has(*packet_at(7), millis=1_000)
    s.has(*packet_at(8), millis=11_000)
    s.has(*packet_at(9), millis=6_000)
    s.has(*packet_at(10), millis=10_000)
    s.has(frame(b"", port=53), "drop 53 PortUnused", millis=70_999)
    s.has(ethernet(b"", ARP), "ended 1 0 1 idle", millis=71_000)
    return s


def captured_moments_up_to_the_last():
    """A moment is at most the last one that a tick can say."""
    s = Captured()
    s.tick(LAST_MOMENT - 70_000)
    s.manual(1, KEY, ONES, MANUAL)
    s.begins()
    s.has(*packet_at(7), millis=0)
    s.has(*packet_at(8), millis=59_999)
    s.has(*packet_at(9), millis=70_000)
    s.has(*packet_at(10), millis=200_000)
    s.has(*packet_at(11), millis=4_294_967_295_999)
    return s


def captured_fractions():
    """Fractions are divided, and may be more than a second has."""
    s = with_call()
    s.has(*packet_at(7), millis=0, more=999)
    s.has(*packet_at(8), more=59_999_999)
    s.skips(frame(b"", flags=1), "Fragment", more=119_998_999)
    s.skips(frame(b"", flags=1), "Fragment", "ended 1 0 1 idle", more=4_294_967_295)
    return s


# ---- frames

def captured_fragments():
    """More fragments or an offset make a fragment; the two other flags don't."""
    s = with_call()
    number = 7
    for flags in (0x0000, 0x4000, 0x8000, 0xC000):
        octets, told = KEY.srtp(rtp(number), number), f"out 20002 {PLAIN} {rtp(number).hex()}"
        s.has(frame(octets, flags=flags), told)
        number += 1
    for flags in (0x2000, 0x6000, 0xA000, 0x0001, 0x1FFF, 0x4001, 0x3FFF, 0x0100, 0x1000):
        s.skips(frame(KEY.srtp(rtp(number), number), flags=flags), "Fragment")
    return s


def captured_frames_of_other_kinds():
    """Frames that aren't of IPv4, and packets that aren't UDP, are passed over."""
    s = with_call()
    packet = ipv4(udp(KNOWN_SEALED))
    s.has(b"")
    s.has(ethernet(packet)[:13])
    s.has(ethernet(b"\0\0" + IPV4.to_bytes(2, "big") + packet, VLAN))
    s.has(ethernet(bytes([0x60]) + bytes(39) + udp(KNOWN_SEALED), IPV6))
    s.has(ethernet(packet, ARP))
    s.has(ethernet(packet, 0x0008))
    s.has(ethernet(packet, 0x0801))
    s.has(ethernet(ipv4(udp(KNOWN_SEALED), protocol=TCP)))
    s.has(ethernet(ipv4(udp(KNOWN_SEALED), protocol=TCP, flags=0x2000)))
    s.has(ethernet(ipv4(udp(KNOWN_SEALED), protocol=0)))
    s.has(ethernet(packet), OUT)
    return s


def captured_frames_that_are_cut():
    """The capture kept fewer octets than the packet has."""
    s = with_call()
    whole = frame(KNOWN_SEALED)
    for length in (14, 33, 34, 41, 42, len(whole) - 1):
        s.skips(whole[:length], "CutShort")
    s.skips(ethernet(ipv4(b"", words=15, total=60)), "CutShort")
    s.skips(ethernet(ipv4(udp(KNOWN_SEALED), total=65_535)), "CutShort")
    s.has(whole, OUT)
    s.has(whole + bytes(18), "drop 20000 Repeat")
    return s


def captured_frames_that_are_malformed():
    """Heads whose fields don't fit. Other protocols' payloads aren't looked at, and what is missing is told after."""
    s = with_call()
    whole = udp(KNOWN_SEALED)
    for other in ({"version": 6}, {"version": 0}, {"version": 15}, {"words": 4}, {"words": 0}, {"total": 19}, {"total": 0}):
        s.skips(ethernet(ipv4(whole, **other)), "Malformed")
    s.skips(ethernet(ipv4(whole, words=6, total=23)), "Malformed")
    s.skips(ethernet(ipv4(whole, version=6, protocol=TCP, flags=0x2000)), "Malformed")
    for total in (20, 27):
        s.skips(ethernet(ipv4(whole, total=total)), "Malformed")
    for length in (0, 7, 47, 65_535):
        s.skips(ethernet(ipv4(udp(KNOWN_SEALED, length=length))), "Malformed")
    s.has(ethernet(ipv4(udp(KNOWN_SEALED, length=46))), OUT)
    return s


def captured_datagrams():
    """What of a frame is the datagram: without the packet's options, what stands behind its length, and the frame's
    padding; from its own address, at whatever port."""
    s = with_call()
    s.has(ethernet(ipv4(udp(KNOWN_SEALED, length=45))), "drop 20000 BadTag")
    s.has(ethernet(ipv4(udp(KNOWN_SEALED), words=6, options=bytes(4))), OUT)
    s.has(ethernet(ipv4(udp(KNOWN_SEALED), words=15, options=bytes(40))), "drop 20000 Repeat")
    s.has(ethernet(ipv4(udp(KNOWN_SEALED, length=8))), "drop 20000 Short")
    s.has(frame(b"") + bytes(18), "drop 20000 Short")
    for port in (0, 40000, 41000, 65_535):
        s.has(frame(KNOWN_SEALED, port), f"drop {port} PortUnused")
    s.has(frame(rtp(5), 20002), f"out 20000 {SECURE} {ONES.srtp(rtp(5), 5).hex()}")
    s.has(frame(rtp(6), 20002, host="127.0.0.2"), "drop 20002 SourceUnknown")
    s.has(frame(KEY.srtp(rtp(0x1235), 0x1235), host="255.0.10.1"), f"out 20002 {PLAIN} {rtp(0x1235).hex()}")
    return s


def captured_long_datagrams():
    """Of a datagram above 4,352 octets the first 4,352 count, which are too many; 4,238 are the most."""
    s = with_call()
    longest = rtp(7, payload=b"\xab" * 4216)
    sealed = KEY.srtp(longest, 7)
    s.has(frame(sealed), f"out 20002 {PLAIN} {longest.hex()}")
    for length in (4239, 4352, 4353, 9001, 65_507):
        s.has(frame(sealed + bytes(length - len(sealed))), "drop 20000 TooLong")
    return s


def captured_longest_record():
    """A record may have 262,144 octets. Of one that says more the length is told, before any of its octets is there."""
    s = with_call()
    s.has(frame(KNOWN_SEALED).ljust(CAPTURED_MOST, b"\0"), OUT)
    s.capture += record(b"")[:8] + (CAPTURED_MOST + 1).to_bytes(4, "little")
    return s.ends(24 + 16 + CAPTURED_MOST + 8, "Length")


def captured_records_before_a_cut():
    """What the records before the fault tell is written."""
    s = with_call()
    s.has(frame(KNOWN_SEALED), OUT)
    s.skips(frame(KNOWN_SEALED, flags=1), "Fragment", millis=5)
    s.has(frame(KNOWN_SEALED), "drop 20000 Repeat", millis=5)
    s.capture += record(frame(KNOWN_SEALED))[:15]
    return s.ends(len(s.capture), "Cut")


ALL = (
    captured_packet, captured_packet_in_version_2, captured_by_another_machine,
    captured_microseconds_with_the_highest_octet_first, captured_nanoseconds_with_the_lowest_octet_first,
    captured_fragment, captured_frame_of_another_protocol, captured_packet_that_is_cut, captured_under_another_magic,
    captured_in_another_major_version, captured_in_another_minor_version, captured_at_another_link, captured_no_octets, captured_no_frames, captured_without_its_line, captured_behind_a_fault,
    captured_moments, captured_moments_back_and_on, captured_moments_up_to_the_last, captured_fractions, captured_fragments,
    captured_frames_of_other_kinds, captured_frames_that_are_cut, captured_frames_that_are_malformed, captured_datagrams,
    captured_long_datagrams, captured_longest_record, captured_records_before_a_cut,
)
