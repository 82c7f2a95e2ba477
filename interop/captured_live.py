#!/usr/bin/env python3
"""A live relay beside tcpdump: what the relay tells and sends, and what `capture` makes of what tcpdump wrote meanwhile,
which has to be what the model tells, too.

    interop/captured_live.py PROGRAM [PACKETS [CAPTURES]]

Three calls, two keyed by hand and one by crypto lines. Their telephones send sealed and plain packets of both kinds, some of
them twice, changed, cut, too long or from a stranger's address. A relay takes its sockets in turns, so what is compared is
what stands at one port, in order: each drop with its cause, and each packet with the port and the address that it goes to.
The captures are in microseconds and in nanoseconds, behind scripts of both versions, in turns. Needs tcpdump, the right to
capture (root), and the ports of the gateway, or a network of its own where the system gives one.
"""
import os
import random
import shutil
import socket
import subprocess
import sys
import tempfile
import time
from collections import defaultdict
from contextlib import ExitStack
from pathlib import Path

from loopback import has_own_loopback
from mixed import ended
from model import TOLD
from relayed import Relay
from signals import answer, crypto, key, noise, offer_secure, plain_text, secure_text
from srtp import rtcp, rtp
from usage import words_or_usage

PEERS = [key(f"peer {call}") for call in range(3)]
SECURE, PLAIN = (40000, 40010, 40020), (41000, 41010, 41020)
HOST, STRANGER = "127.0.0.1", "127.0.0.9"
TELEPHONES = [port + more for port in SECURE + PLAIN for more in (0, 1)]
# What an RTP packet carries at the borders of what is sealed and opened, of what is read, and beyond.
LONG = 4_083, 4_084, 4_085, 4_226, 4_227, 4_340, 4_341, 9_000
# How many packets are sent before the relay goes on.
AT_ONCE = 8


def lines(version):
    """The three calls, for the relay and for the capture."""
    yield f"srtpgw {version}"
    for call in 0, 1:
        fields = f"{HOST}:{SECURE[call]} {HOST}:{PLAIN[call]} 00000000 64"
        yield f"manual {call} {fields} {PEERS[call].field()} {key(f'gateway {call}').field()}"
    drawn = noise("captured live")
    yield offer_secure(2, secure_text(crypto(1, PEERS[2]), media=f"m=audio {SECURE[2]} RTP/SAVP 0"), drawn)
    yield answer(2, plain_text(media=f"m=audio {PLAIN[2]} RTP/AVP 0"), drawn)


def packets(count, dice):
    """What the telephones send, each with its own address and the gateway's port."""
    index = defaultdict(int)
    for _ in range(count):
        call, kind, secure = dice.randrange(3), dice.choice(("rtp", "rtp", "rtp", "rtcp")), dice.random() < 0.6
        first = index[call, kind, secure]
        index[call, kind, secure] += dice.choice((1, 1, 1, 2))
        length = dice.choice(LONG) if dice.random() < 0.05 else dice.randrange(1, 200)
        plain = rtp(first % 65536, payload=dice.randbytes(length)) if kind == "rtp" else rtcp(payload=dice.randbytes(20))
        octets = (PEERS[call].srtp if kind == "rtp" else PEERS[call].srtcp)(plain, first) if secure else plain
        change = dice.random()
        if change < 0.1:
            octets = octets[: dice.randrange(len(octets) + 1)]
        elif change < 0.2:
            at = dice.randrange(len(octets))
            octets = octets[:at] + bytes([octets[at] ^ 1 << dice.randrange(8)]) + octets[at + 1 :]
        control = 1 if kind == "rtcp" else 0
        own = STRANGER if 0.3 <= change < 0.36 else HOST, (SECURE if secure else PLAIN)[call] + control
        for _ in range(2 if 0.2 <= change < 0.3 else 1):
            yield own, 20000 + 16 * call + (0 if secure else 2) + control, octets


def relayed(program, script, sent, sockets):
    """The lines that a relay writes while the telephones send this. It waits for each few packets, so that it loses none,
    however slow it is; the moments for which it waits count from its start."""
    began = time.monotonic()
    until = lambda more: b"tick %d" % (1_000 * (time.monotonic() - began) + more)
    relay = Relay(program, ["relay", "--turns", "1000000"], os.environ)
    relay.says([*script.splitlines(), until(1)])
    for begun in range(0, len(sent), AT_ONCE):
        for own, port, octets in sent[begun : begun + AT_ONCE]:
            sockets[own].sendto(octets, (HOST, port))
        relay.says([until(10)])
    relay.says([until(1_000)])
    written, status, said = relay.ends()
    if status:
        sys.exit(f"the relay ended with status {status}: {said}")
    return written


def by_port(told):
    """The causes of drops by port, and what goes out by its address."""
    drops, outs = defaultdict(list), defaultdict(list)
    for line in told:
        words = line.split(" ")
        if words[0] == "drop":
            drops[words[1]].append(words[2:])
        elif words[0] == "out":
            outs[words[1], words[2]].append(words[3])
    return drops, outs


def opened(own):
    """A telephone's socket."""
    one = socket.socket(socket.AF_INET, socket.SOCK_DGRAM)
    one.setsockopt(socket.SOL_SOCKET, socket.SO_RCVBUF, 1 << 22)
    one.bind(own)
    one.setblocking(False)
    return one


def arrived(sockets):
    """What has come to the telephones, by the gateway's port and the telephone's address."""
    outs = defaultdict(list)
    for (host, port), one in sockets.items():
        while True:
            try:
                octets, (_, gate) = one.recvfrom(65_536)
            except BlockingIOError:
                break
            outs[str(gate), f"{host}:{port}"].append(octets.hex())
    return outs


def captured(program, script, sent, precision, sockets):
    """What a live relay tells, and what a capture of it tells."""
    with tempfile.TemporaryDirectory() as room:
        capture = Path(room, "call.pcap")
        words = ["tcpdump", "-i", "lo", "-U", "-B", "16384", "--time-stamp-precision", precision, "-w", str(capture)]
        watch = subprocess.Popen([*words, "udp dst portrange 20000-24095"], stderr=subprocess.DEVNULL)
        time.sleep(1)
        told = relayed(program, script, sent, sockets)
        time.sleep(1)
        watch.terminate()
        watch.wait()
        source = script + b"capture\n" + capture.read_bytes()
    run = subprocess.run([program, "capture"], input=source, capture_output=True, check=False)
    if (run.stdout, run.returncode, run.stderr) != ended(TOLD["capture"](source)):
        sys.exit(f"the capture ended with status {run.returncode} {run.stderr.decode()}, or tells something else than the model")
    return told, run.stdout.decode().splitlines()


def differences(told, of_capture, live_outs):
    """How many go out and are dropped by the capture, and where the relay did something else."""
    drops, outs = by_port(of_capture)
    live_drops, _ = by_port(told)
    wrong = [f"drops at {port}" for port in drops.keys() | live_drops.keys() if drops[port] != live_drops[port]]
    wrong += [f"packets from {leg}" for leg in outs.keys() | live_outs.keys() if outs[leg] != live_outs[leg]]
    return sum(map(len, outs.values())), sum(map(len, drops.values())), wrong


def main():
    program, *more = words_or_usage(__doc__)
    count, captures = (int(word) for word in (more + ["1000", "4"][len(more):])[:2])
    if shutil.which("tcpdump") is None:
        print("not run: captured_live: tcpdump isn't there (Debian's package tcpdump)")
        return 77
    has_own_loopback()
    bad = 0
    for number in range(captures):
        version, precision = 1 + number // 2 % 2, ("micro", "nano")[number % 2]
        script = "".join(line + "\n" for line in lines(version)).encode()
        sent = list(packets(count, random.Random(20261129 + number)))
        with ExitStack() as all_of_them:
            sockets = {(host, port): all_of_them.enter_context(opened((host, port))) for host in (HOST, STRANGER) for port in TELEPHONES}
            told, of_capture = captured(program, script, sent, precision, sockets)
            out, dropped, wrong = differences(told, of_capture, arrived(sockets))
        print(f"captured live, version {version}, {precision}: {len(sent)} datagrams, {out} out and {dropped} dropped by the "
              f"capture; {len(wrong)} legs with a difference", *wrong, sep="\n    ", flush=True)
        bad += bool(wrong)
    return bool(bad)


if __name__ == "__main__":
    sys.exit(main())
