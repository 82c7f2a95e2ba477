#!/usr/bin/env python3
"""Writes a script of calls, and what `srtpgw replay` must write for it.

    script.py COUNT open|seal|both SCRIPT OUTCOMES [CALLS [MEDIA [SIZE]]]

COUNT packets of SIZE octets (172), head included, under AES_CM_128_HMAC_SHA1_80: sealed ones that the gateway
opens, plain ones that it seals, or one after the other. They take turns at CALLS calls (1) of MEDIA media (1);
calls of one medium have manual keys, the others are offered by the secure side with crypto lines. Packets are
sealed by another implementation."""

import sys
from base64 import b64encode

from packets import MasterKey, packet

SUITE = "AES_CM_128_HMAC_SHA1_80"
SECURE = "127.0.0.1:40000"
PLAIN = "127.0.0.1:41000"


def octets(call, medium, end):
    """A key and salt that no other call, medium and end has."""
    return bytes([call, medium, end]) + bytes(range(27))


def text(first, port, step, proto, lines):
    """A session description with a medium for each of the lines."""
    said = ["v=0", f"o=- {first} 1 IN IP4 127.0.0.1", "s=-", "c=IN IP4 127.0.0.1", "t=0 0"]
    for medium, line in enumerate(lines):
        said += [f"m=audio {port + step * medium} {proto} 0"] + [line] * bool(line)
    return "".join(line + "\r\n" for line in said).encode().hex()


def crypto(key):
    return f"a=crypto:1 {SUITE} inline:{b64encode(key).decode()}"


class Call:
    """A call in the slot of its number, its keys, and the lines that make it."""

    def __init__(self, number, media):
        self.number, self.port = number, 20000 + 16 * number
        ends = [[octets(number, medium, end) for medium in range(media)] for end in (0, 1)]
        self.peer, self.gateway = ([MasterKey(SUITE, key) for key in keys] for keys in ends)
        if media == 1:
            keys = f"{self.peer[0].field()} {self.gateway[0].field()}"
            self.script = f"manual {number} {SECURE} {PLAIN} 00000000 64 {keys}\n"
            self.told = f"made {number} {number} 1\nlive {number}\n"
            return
        noise = b"".join(key.ljust(76, b"\0") for key in ends[1]).ljust(304, b"\0").hex()
        offered, own = ([crypto(key) for key in keys] for keys in ends)
        none = [None] * media
        self.script = f"offer-secure {number} {noise} {text(1, 40000, 2, 'RTP/SAVP', offered)}\n"
        self.script += f"answer {number} {noise} {text(2, 41000, 2, 'RTP/AVP', none)}\n"
        self.told = f"made {number} {number} {media}\nsdp {number} plain {text(1, self.port + 2, 4, 'RTP/AVP', none)}\n"
        self.told += f"sdp {number} secure {text(2, self.port, 4, 'RTP/SAVP', own)}\nlive {number}\n"


def main():
    count, ways = int(sys.argv[1]), sys.argv[2]
    calls, media, size = (int(word) for word in (sys.argv[5:] + ["1", "1", "172"][len(sys.argv[5:]) :]))
    with open(sys.argv[3], "w") as script, open(sys.argv[4], "w") as outcomes:
        made = [Call(number, media) for number in range(calls)]
        script.write("srtpgw 1\n" + "".join(call.script for call in made))
        outcomes.write("".join(call.told for call in made))
        for number in range(count):
            turn, place = divmod(number, calls * media)
            call, medium = made[place % calls], place // calls
            opens = ways == "open" or (ways == "both" and turn % 2 == 0)
            index = turn // 2 if ways == "both" else turn
            plain = packet(index, size)
            port = call.port + 4 * medium
            peer, other = f"127.0.0.1:{40000 + 2 * medium}", f"127.0.0.1:{41000 + 2 * medium}"
            if opens:
                script.write(f"in {port} {peer} {call.peer[medium].srtp(plain, index).hex()}\n")
                outcomes.write(f"out {port + 2} {other} {plain.hex()}\n")
            else:
                script.write(f"in {port + 2} {other} {plain.hex()}\n")
                outcomes.write(f"out {port} {peer} {call.gateway[medium].srtp(plain, index).hex()}\n")


if __name__ == "__main__":
    main()
