"""Captures of the classic pcap form: the UDP datagrams in one, and one of datagrams that are given.

A capture that is read may be in microseconds or nanoseconds and of either order of octets, with frames of Ethernet,
with VLAN tags or without, of Linux's `any` device (both forms), of the BSD loopback, or raw IP. One that is written is
of raw IPv4 in microseconds. Needs Python 3.8 alone.
"""

import collections
import ipaddress
import struct

# By link type (as tcpdump numbers them): where the number of the protocol stands, and where its octets begin.
LINKS = {1: (12, 14), 113: (14, 16), 276: (0, 20)}
IP_VERSION_4, VLAN, UDP = 0x0800, 0x8100, 17
RAW, LOOPBACK = 101, 0

# A moment in milliseconds; addresses are `HOST:PORT`.
Datagram = collections.namedtuple("Datagram", "moment source to octets")


class Fault(Exception):
    """What isn't a capture, or can't be one."""


# ---- read

def records(octets):
    """The link type, and then of each record its moment in milliseconds and its octets."""
    if len(octets) < 24:
        raise Fault("the capture has no header")
    forms = {b"\xa1\xb2\xc3\xd4": (">", 1_000), b"\xd4\xc3\xb2\xa1": ("<", 1_000),
             b"\xa1\xb2\x3c\x4d": (">", 1_000_000), b"\x4d\x3c\xb2\xa1": ("<", 1_000_000)}
    if octets[:4] not in forms:
        raise Fault("the capture isn't of the classic pcap form (`tcpdump -r FILE -w NEW` makes it of pcapng)")
    order, fraction = forms[octets[:4]]
    yield struct.unpack(order + "I", octets[20:24])[0] & 0xFFFFFFF
    at = 24
    while at < len(octets):
        if len(octets) < at + 16:
            raise Fault(f"the capture is cut at octet {at}")
        seconds, parts, kept, _ = struct.unpack(order + "IIII", octets[at:at + 16])
        if len(octets) < at + 16 + kept:
            raise Fault(f"the capture is cut at octet {at}")
        yield 1_000 * seconds + parts // fraction, octets[at + 16:at + 16 + kept]
        at += 16 + kept


def packet_of(link, frame):
    """The IPv4 packet of a frame, or a word why there is none."""
    if link in (RAW, LOOPBACK):
        packet = frame[4 * (link == LOOPBACK):]
    elif link in LINKS:
        named, begins = LINKS[link]
        while frame[named:named + 2] == struct.pack(">H", VLAN):
            named, begins = begins + 2, begins + 4
        if frame[named:named + 2] != struct.pack(">H", IP_VERSION_4):
            return "not IPv4"
        packet = frame[begins:]
    else:
        raise Fault(f"link type {link} isn't known")
    return packet if packet[:1] and packet[0] >> 4 == 4 else "not IPv4"


def datagram_of(moment, packet):
    """A packet's UDP datagram, or a word why there is none."""
    if len(packet) < 20:
        return "cut short"
    head, total, fragment = 4 * (packet[0] & 15), int.from_bytes(packet[2:4], "big"), int.from_bytes(packet[6:8], "big")
    if packet[9] != UDP:
        return "not UDP"
    if fragment & 0x3FFF:
        return "fragments"
    if len(packet) < total or total < head + 8:
        return "cut short"
    source, to, length = struct.unpack(">HHH", packet[head:head + 6])
    if head < 20 or length < 8 or head + length > total:
        return "malformed"
    hosts = (".".join(map(str, packet[at:at + 4])) for at in (12, 16))
    addresses = (f"{host}:{port}" for host, port in zip(hosts, (source, to)))
    return Datagram(moment, *addresses, packet[head + 8:head + length])


def datagrams(octets):
    """What a capture has, in order: a datagram, or a word why a record has none."""
    found = records(octets)
    link = next(found)
    for moment, frame in found:
        packet = packet_of(link, frame)
        yield packet if isinstance(packet, str) else datagram_of(moment, packet)


# ---- written

def checksum(octets):
    """The Internet checksum (RFC 1071) of an even number of octets."""
    total = sum(struct.unpack(f">{len(octets) // 2}H", octets))
    while total >> 16:
        total = (total & 0xFFFF) + (total >> 16)
    return total ^ 0xFFFF


def packet(source, to, octets):
    """An IPv4 packet of a UDP datagram, whose own checksum is left out (RFC 768: 0)."""
    (host, port), (far, far_port) = (address.rsplit(":", 1) for address in (source, to))
    length = 8 + len(octets)
    if 20 + length > 0xFFFF:
        raise Fault(f"a datagram of {len(octets)} octets doesn't fit in a packet")
    ends = ipaddress.IPv4Address(host).packed + ipaddress.IPv4Address(far).packed
    head = struct.pack(">BBHHHBBH", 0x45, 0, 20 + length, 0, 0x4000, 64, UDP, 0) + ends
    head = head[:10] + struct.pack(">H", checksum(head)) + head[12:]
    return head + struct.pack(">HHHH", int(port), int(far_port), length, 0) + octets


def written(given):
    """The octets of a capture of datagrams."""
    parts = [struct.pack("<IHHiIII", 0xA1B2C3D4, 2, 4, 0, 0, 65_535, RAW)]
    for datagram in given:
        octets = packet(datagram.source, datagram.to, datagram.octets)
        seconds, rest = divmod(datagram.moment, 1_000)
        parts += [struct.pack("<IIII", seconds, 1_000 * rest, len(octets), len(octets)), octets]
    return b"".join(parts)
