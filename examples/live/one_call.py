#!/usr/bin/env python3
"""One call over sockets: a sealed packet goes in on the secure leg, and the plain one comes out.

    python3 examples/live/one_call.py ./srtpgw

The packet is the one of examples/raw-key.script, sealed under the authentication key of RFC 3711, B.3. Needs
the UDP ports 20000 to 24095, which are the gateway's, 40000 and 41000 of 127.0.0.1.
"""

import socket
import sys
from pathlib import Path

sys.path.insert(0, str(Path(__file__).resolve().parents[2] / "tools"))

from gateway import Gateway  # noqa: E402

PEER, PLAIN = ("127.0.0.1", 40000), ("127.0.0.1", 41000)
KEYS = ("RAW80:cebe321f6ff7716b6fd4ab49af256a156d38baa4", "RAW80:" + "0b" * 20)
SEALED = bytes.fromhex("800f1234decafbadcafebabe4e55dc4ce79978d88ca4d215949d2402b78d6acc99ea179b8dbb")


def bound(address):
    end = socket.socket(socket.AF_INET, socket.SOCK_DGRAM)
    end.bind(address)
    end.settimeout(20)
    return end


def main(program):
    peer, plain = bound(PEER), bound(PLAIN)
    gateway = Gateway(program)
    gateway.tell("manual", "1", "%s:%d" % PEER, "%s:%d" % PLAIN, "00000000", "64", *KEYS)
    made, live = gateway.next(), gateway.next()
    print(" ".join(made), "|", " ".join(live))
    # The ports of the call are bound before `made` is written, so a packet may come at once.
    peer.sendto(SEALED, ("127.0.0.1", 20000))
    packet, source = plain.recvfrom(2048)
    print("plain from", source[1], packet.hex())
    # The same packet again is dropped, and that is told.
    peer.sendto(SEALED, ("127.0.0.1", 20000))
    print(" ".join(gateway.next()))
    gateway.tell("bye", "1")
    print(" ".join(gateway.next()))
    status = gateway.close()
    print("status", status)
    return status


if __name__ == "__main__":
    sys.exit(main(sys.argv[1] if len(sys.argv) > 1 else "./srtpgw"))
