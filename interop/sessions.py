#!/usr/bin/env python3
"""Sealed packets of single sessions. Each line is a name, the plain packet and the datagram; the tests of
opening and sealing have these lines as tables."""
from srtp import SMALL, MasterKey, rtcp, rtp

OCTETS = {
    "small": SMALL.octets.hex(),
    "middle": "73edc66c4fa15776fb57f9505c17136550ffda71f3e8e5f1c8522f3acd4ce86d5add78edbb11",
    "large": "f0f04914b513f2763a1b1fa130f10e2998f6f6e43e4309d1e622a0e332b9f1b63b04803de51ee7c96423ab5b78d2",
}
CIPHERS = {"small": "AES_CM_128", "middle": "AES_192_CM", "large": "AES_256_CM"}
WHOLE = b"\xab" * 16


def key(name, tag=80):
    return MasterKey(f"{CIPHERS[name]}_HMAC_SHA1_{tag}", bytes.fromhex(OCTETS[name]))


def row(name, packet, datagram):
    print(name, packet.hex(), datagram.hex())


def seal(name, master, rollover, packet, mki="", **options):
    index = (rollover << 16) + int.from_bytes(packet[2:4], "big")
    row(name, packet, master.srtp(packet, index, bytes.fromhex(mki), **options))


def sides():
    """Packets and reports with and without an MKI, and a report that isn't encrypted."""
    report = rtcp(payload=bytes.fromhex("83d8b6e0") + b"\xcd" * 16)
    seal("small", key("small"), 0, rtp(0x1234, payload=WHOLE))
    seal("large4mki", key("large", 32), 2, rtp(0xFFFF, payload=WHOLE), "0102030405")
    row("rtcp_middle", report, key("middle").srtcp(report, 0, bytes.fromhex("00000001")))
    row("rtcp_clear", report, key("small").srtcp(report, 0, encrypts=False))


def peers():
    """The last index of all, and a tag of four octets."""
    seal("last", key("small"), 0xFFFFFFFF, rtp(0xFFFF, payload=WHOLE))
    seal("short", key("small", 32), 0, rtp(9, payload=WHOLE))


if __name__ == "__main__":
    sides()
    peers()
