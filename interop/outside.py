#!/usr/bin/env python3
"""Looks at what a live gateway takes of the system: the address at which it listens, its clock and its random source.

    interop/outside.py PROGRAM

What `main` hands to the proved call, and what the adapters make of it, no clause says. So this looks at it from outside,
by the texts that the gateway sends: its MIKEY messages have the clock's moment, and its crypto lines all of a draw.
"""
import base64
import socket
import time

from hostile_relay import HOST, Gateway, has_own_loopback
from mikey import ERA
from signals import BOB, BOB_ANSWERS, PEER, hexed, psk
from usage import words_or_usage

# How many messages are looked at, and how many draws.
MOMENTS, DRAWS = 4, 8
OTHER_ADDRESS = "127.0.0.2"


def is_free(address, port):
    with socket.socket(socket.AF_INET, socket.SOCK_DGRAM) as one:
        try:
            one.bind((address, port))
        except OSError:
            return False
    return True


def offered(gateway, call, line):
    """What the gateway offers the secure side for an offer from the plain one: the lines of its text."""
    before = len(gateway.lines)
    gateway.write(line)
    gateway.turns_until(before + 2, lambda: len(gateway.lines))
    made, sdp = (line.decode().split() for line in gateway.lines[before:before + 2])
    assert made[:2] == ["made", str(call)] and sdp[:3] == ["sdp", str(call), "secure"], made + sdp
    return bytes.fromhex(sdp[3]).decode().splitlines()


def values(lines, attribute):
    return [base64.b64decode(line.split()[-1].split(":")[-1]) for line in lines if line.startswith(attribute)]


def moment_of(message):
    """The moment of a message in milliseconds since 1970, from the time stamp behind its header (RFC 3830, 6.1, 6.6)."""
    stamp = message[10 + 9 * message[8] + 2:][:8]
    seconds, rest = int.from_bytes(stamp[:4], "big"), int.from_bytes(stamp[4:], "big")
    return 1000 * (seconds - ERA) + -(-1000 * rest >> 32)


# ---- the checks

def listens_at_one_address(gateway):
    """The four ports of a call are bound at 127.0.0.1, and free at another address of the loopback."""
    ports = range(20000, 20004)
    bound, free = ([port for port in ports if is_free(address, port)] for address in (HOST, OTHER_ADDRESS))
    assert bound == [] and free == list(ports), f"free: {bound} and {free}"
    return f"{len(ports)} ports at {HOST} alone"


def tells_the_systems_time(gateway):
    """The moment of each message lies between the system's time before and after."""
    gateway.write(psk())
    for call in range(100, 100 + MOMENTS):
        before = time.time_ns() // 1_000_000
        gateway.write(f"tick {int(1000 * (time.monotonic() - gateway.begun)) + 30}")
        lines = offered(gateway, call, f"offer-plain {call} mikey {PEER} - {hexed(BOB_ANSWERS)}")
        moment, after = moment_of(values(lines, "a=key-mgmt:mikey ")[0]), time.time_ns() // 1_000_000
        assert before <= moment <= after, f"{moment} isn't between {before} and {after}"
    return f"the moments of {MOMENTS} messages are the system's, to the millisecond"


def draws_every_octet(gateway):
    """No place of a draw has the same octet in each of them, and what is drawn doesn't repeat itself."""
    media = [f"m=audio {port} RTP/AVP 0" for port in range(41000, 41016, 4)]
    draws = []
    for call in range(200, 200 + DRAWS):
        lines = offered(gateway, call, f"offer-plain {call} sdes - {hexed(BOB + media)}")
        draws.append(b"".join(values(lines, "a=crypto:")))
    assert {len(drawn) for drawn in draws} == {304}, [len(drawn) for drawn in draws]
    stays = [place for place in range(304) if len({drawn[place] for drawn in draws}) == 1]
    assert stays == [], f"the same octet in each draw at {stays}"
    # Four octets that stand twice in all that is drawn are no chance: less than one run in a thousand has some.
    whole = b"".join(draws)
    fours = [whole[place:place + 4] for place in range(len(whole) - 3)]
    assert len(set(fours)) == len(fours), "the same four octets stand at two places of what was drawn"
    ones = [sum(octet >> bit & 1 for octet in whole) / len(whole) for bit in range(8)]
    assert all(0.4 < share < 0.6 for share in ones), f"bits that aren't set half of the time: {ones}"
    return f"each of 304 octets varies over {DRAWS} draws, no four stand twice, and each bit is set half of the time"


def main():
    has_own_loopback()
    gateway = Gateway(words_or_usage(__doc__)[0], 1)
    try:
        for check in (listens_at_one_address, tells_the_systems_time, draws_every_octet):
            print(f"{check.__name__}: {check(gateway)}", flush=True)
        gateway.ends()
    finally:
        gateway.run.kill()


if __name__ == "__main__":
    main()
