"""Ends of calls for the programs of this folder: plain RTP over a socket at a telephone's pace, and the count of
what arrived. Of Python's standard library alone.
"""

import base64
import os
import random
import socket
import subprocess
import sys
import threading
import time
from pathlib import Path

TOP = Path(__file__).resolve().parents[2]
# The driver stands there; so a program of this folder imports from here before it imports the driver.
sys.path.insert(0, str(TOP / "tools"))
from gateway import taken_ports  # noqa: E402

# Where the ends of the call stand, and the gateway's ports of the first call.
SECURE, PLAIN = ("127.0.0.1", 40000), ("127.0.0.1", 41000)
SECURE_RTP, SECURE_RTCP, PLAIN_RTP, PLAIN_RTCP = range(20000, 20004)
# A packet of 20 ms of PCMU.
FRAME, PACE = 160, 0.02
# The first number of a stream: its 136th packet is the one behind the wrap.
NEAR_WRAP = 65_400
SSRC = 0x5EED


def program():
    """The gateway to try: what SRTPGW names, or the one at the top of the repository. That one is compiled first where
    SRTPGW_UNPROVED is set; where it isn't, and the program isn't built, this ends with 77."""
    if os.environ.get("SRTPGW"):
        return os.environ["SRTPGW"]
    own = TOP / "srtpgw"
    if os.environ.get("SRTPGW_UNPROVED"):
        # A driver doesn't wait so long for the first answer.
        if subprocess.run([own, "replay"], stdin=subprocess.DEVNULL, stdout=subprocess.DEVNULL).returncode:
            sys.exit("the unproved program can't be compiled")
    elif not (TOP / "crates/srtpgw/out/srtpgw").exists():
        print("not run: the program isn't built; `./srtpgw replay < /dev/null` builds it, in an hour or more, and with "
              "SRTPGW_UNPROVED=1 it is compiled without a proof, in minutes", file=sys.stderr)
        sys.exit(77)
    return str(own)


def speech(seconds, seed=1):
    """Octets of PCMU. Any octets are: these are random, so that none could be another's."""
    return random.Random(seed).randbytes(8_000 * seconds)


class Key:
    """A master key with its salt, made anew."""

    def __init__(self, suite):
        self.suite, self.octets = suite, os.urandom(46 if "256" in suite else 30)

    def field(self):
        """The key as a field of a `manual` line."""
        return f"{self.suite}:{self.octets.hex()}"

    def base64(self):
        return base64.b64encode(self.octets).decode()

    def hex(self):
        return self.octets.hex()


def packets_of(octets, seq=NEAR_WRAP, ssrc=SSRC, stamp=1_000):
    """The octets as RTP packets of PCMU, 20 ms each."""
    for place, start in enumerate(range(0, len(octets), FRAME)):
        numbers = ((seq + place) % 2**16).to_bytes(2, "big") + (stamp + start).to_bytes(4, "big")
        yield bytes([0x80, 0]) + numbers + ssrc.to_bytes(4, "big") + octets[start:start + FRAME]


class End:
    """A bound socket that keeps what arrives."""

    def __init__(self, address):
        self.socket = socket.socket(socket.AF_INET, socket.SOCK_DGRAM)
        self.socket.setsockopt(socket.SOL_SOCKET, socket.SO_RCVBUF, 1 << 20)
        self.socket.bind(address)
        self.socket.settimeout(0.2)
        self.packets, self.open = [], True
        self.thread = threading.Thread(target=self._gather, daemon=True)
        self.thread.start()

    def send(self, port, packets):
        """Sends packets to a port of the gateway, one each 20 ms."""
        began = time.monotonic()
        for place, packet in enumerate(packets):
            time.sleep(max(0, began + place * PACE - time.monotonic()))
            self.socket.sendto(packet, ("127.0.0.1", port))

    def close(self):
        self.open = False
        self.thread.join()
        self.socket.close()

    def _gather(self):
        while self.open:
            try:
                self.packets.append(self.socket.recv(65_536))
            except socket.timeout:
                pass


def numbers_of(packets):
    return [int.from_bytes(packet[2:4], "big") for packet in packets]


def payloads_of(packets):
    return b"".join(packet[12:] for packet in packets)


def is_bound(port):
    """Whether some process has bound the UDP port."""
    lines = Path("/proc/net/udp").read_text().splitlines()[1:]
    return any(int(line.split()[1].split(":")[1], 16) == port for line in lines)


def require_free(*more):
    """Ends the program with 77 where another one has a port that it needs: one of the gateway's, the ends' two with
    the next above, or one of `more`."""
    ends = [port + above for _, port in (SECURE, PLAIN) for above in (0, 1)]
    taken = [*taken_ports(), *(port for port in (*ends, *more) if is_bound(port))]
    if taken:
        print(f"not run: another program has UDP port {', '.join(map(str, taken))}", file=sys.stderr)
        sys.exit(77)


def wait_until(holds, seconds=10, what="something"):
    """Waits, and gives up with an error."""
    end = time.monotonic() + seconds
    while not holds():
        if time.monotonic() > end:
            raise TimeoutError(f"waited {seconds} seconds for {what}")
        time.sleep(0.02)


def told(name, sent, arrived, numbers=None):
    """Prints what arrived of what was sent, and says whether these are the same octets."""
    same = sent == arrived
    wraps = sum(later < earlier for earlier, later in zip(numbers, numbers[1:])) if numbers else 0
    steps = numbers is not None and all((b - a) % 2**16 == 1 for a, b in zip(numbers, numbers[1:]))
    over = f", {len(numbers)} packets, numbers {numbers[0]} to {numbers[-1]}" if numbers else ""
    over += f" over {wraps} wrap" if wraps else ""
    over += "" if not numbers or steps else ", with gaps"
    verdict = "the same" if same else "NOT THE SAME"
    print(f"{name}: {len(sent)} octets sent, {len(arrived)} arrived{over}: {verdict}", flush=True)
    return same and (numbers is None or steps)
