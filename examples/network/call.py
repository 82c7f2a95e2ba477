"""Calls between two networks. See call.sh, which runs this in the gateway's namespace."""

import os
import socket
import subprocess
import sys
import tempfile
import threading
import time
from pathlib import Path

TOP = Path(__file__).resolve().parents[2]
sys.path[:0] = [str(TOP / "examples/live"), str(TOP / "tools")]

from ends import packets_of, payloads_of, numbers_of, program, speech, told  # noqa: E402
from sealed import MasterKey, Opening, Sealing, crypto_line, crypto_of, lines  # noqa: E402
from captures import packet  # noqa: E402
from driver import Driver  # noqa: E402
from watch import Watch  # noqa: E402

NAME = os.environ["NAME"]
# A side's telephone, and the gateway's address on that side.
TELEPHONES = {"secure": ("10.1.0.2", 46_000), "plain": ("10.2.0.2", 47_000)}
GATEWAY = {"secure": "10.1.0.1", "plain": "10.2.0.1"}
SECURE_RTP, PLAIN_RTP = 20_000, 20_002
SECONDS, PACE, AFTER = 6, 0.02, 2.0
SUITE = "AES_CM_128_HMAC_SHA1_80"
# Any other service of the gateway's machine that listens at the loopback alone.
SERVICE = ("127.0.0.1", 9_999)
MAKES_A_SOCKET = """
import socket, sys
made = socket.socket({kind})
{bind}
socket.send_fds(socket.socket(fileno=0), [b"s"], [made.fileno()])
"""


def socket_in(side, kind, bind):
    """A socket that was made and bound in a side's namespace."""
    ours, theirs = socket.socketpair()
    with ours, theirs:
        text = MAKES_A_SOCKET.format(kind=kind, bind=bind)
        subprocess.run(["ip", "netns", "exec", f"{NAME}-{side}", sys.executable, "-c", text], stdin=theirs, check=True)
        number = socket.recv_fds(ours, 1, 1)[1][0]
    return socket.socket(fileno=number)


class Telephone:
    """A telephone that sends from the port at which it listens, and keeps what arrives with where it came from."""

    def __init__(self, side):
        self.side, self.sealing, self.opening = side, None, None
        self.socket = socket_in(side, "socket.AF_INET, socket.SOCK_DGRAM", f"made.bind({TELEPHONES[side]})")
        self.socket.settimeout(0.1)
        self.packets, self.sources, self.open = [], set(), True
        self.thread = threading.Thread(target=self._gather, daemon=True)
        self.thread.start()

    def text(self, *more):
        host, port = TELEPHONES[self.side]
        profile = "RTP/SAVP" if self.side == "secure" else "RTP/AVP"
        session = "v=0", f"o=- 1 1 IN IP4 {host}", "s=-", f"c=IN IP4 {host}", "t=0 0"
        return lines(*session, f"m=audio {port} {profile} 0", *more)

    def send(self, octets, first=65_400):
        """Sends packets to the gateway, one each 20 ms; over the wrap of their numbers."""
        to, began = (GATEWAY[self.side], SECURE_RTP if self.side == "secure" else PLAIN_RTP), time.monotonic()
        for place, one in enumerate(packets_of(octets, first)):
            time.sleep(max(0, began + place * PACE - time.monotonic()))
            self.socket.sendto(self.sealing.seal(one) if self.sealing else one, to)

    def heard(self):
        """What arrived since the last time, opened."""
        packets, self.packets = self.packets, []
        return [self.opening.open(one) or b"" for one in packets] if self.opening else packets

    def close(self):
        self.open = False
        self.thread.join()
        self.socket.close()

    def _gather(self):
        while self.open:
            try:
                octets, source = self.socket.recvfrom(65_536)
            except socket.timeout:
                continue
            self.packets.append(octets)
            self.sources.add(source)


def outside(text, side):
    """A text of the gateway with its address on a side: what the driver has to see to."""
    return text.replace(b"c=IN IP4 127.0.0.1", b"c=IN IP4 " + GATEWAY[side].encode())


def agree(driver, call, secure, plain, offering):
    """A call that a side offers; the secure telephone is handed its keys."""
    own = MasterKey(SUITE, os.urandom(30))
    secure_text = secure.text(crypto_line(1, own))
    if offering == "secure":
        to_plain = driver.offer_secure(call, secure_text)
        to_secure = driver.answer(call, plain.text())
    else:
        to_secure = driver.offer_plain(call, plain.text())
        to_plain = driver.answer(call, secure_text)
    to_secure, to_plain = outside(to_secure, "secure"), outside(to_plain, "plain")
    assert b"10.1.0.1" in to_secure and b"10.2.0.1" in to_plain and b"127.0.0.1" not in to_secure + to_plain
    secure.sealing, secure.opening = Sealing(own), Opening(crypto_of(to_secure.decode())["1"])


def both_ways(secure, plain, seed):
    """Octets both ways at once; where the plain side begins, the gateway is the first to send to the secure one."""
    there, back = speech(SECONDS, seed), speech(SECONDS, seed + 1)
    sends = [threading.Thread(target=plain.send, args=(back,)), threading.Thread(target=secure.send, args=(there,))]
    for send in sends[:: 1 if seed % 4 else -1]:
        send.start()
        time.sleep(0.1)
    for send in sends:
        send.join()
    time.sleep(0.5)
    at_plain, at_secure = plain.heard(), secure.heard()
    good = told("secure to plain", there, payloads_of(at_plain), numbers_of(at_plain))
    good &= told("plain to secure", back, payloads_of(at_secure), numbers_of(at_secure))
    return good & said("each packet came from the gateway's address and port",
                       secure.sources == {("10.1.0.1", SECURE_RTP)} and plain.sources == {("10.2.0.1", PLAIN_RTP)})


def said(what, holds):
    print(f"{what}: {'yes' if holds else 'NO'}", flush=True)
    return holds


def counted(watch, packets):
    """Whether the counters have every packet of a call: sealed ones have 182 octets, plain ones 172."""
    view = watch.look()
    legs = {leg["leg"]: leg for leg in view["calls"][0]["media"][0]["legs"]}
    found = [(legs[leg][way]["packets"], legs[leg][way]["octets"])
             for leg in ("secure RTP", "plain RTP") for way in ("arrived", "left")]
    print(f"watch.py counts {found}", flush=True)
    sealed, plain = (packets, 182 * packets), (packets, 172 * packets)
    return said("as many as were sent and arrived", found == [sealed, sealed, plain, plain])


# ---- the guard

def knock(to, source="10.1.0.2:5000"):
    """A datagram from the secure telephone's network to an address of the gateway's machine, as a frame: its own system
    wouldn't route it, or wouldn't let it have another's address."""
    frames = socket_in("secure", "socket.AF_PACKET, socket.SOCK_RAW", "made.bind(('telephone', 0))")
    gateway = bytes.fromhex(Path("/sys/class/net/secure/address").read_text().strip().replace(":", ""))
    head = gateway + frames.getsockname()[4] + b"\x08\x00"
    with frames:
        frames.send(head + packet(source, "%s:%d" % to, b"knock"))


def arrives(service, to):
    """Whether a datagram to an address arrives at a service."""
    knock(to)
    service.settimeout(0.5)
    try:
        return service.recv(100) == b"knock"
    except socket.timeout:
        return False


def guarded():
    """The guard rule, with it and without."""
    guard = ["chain", "ip", "srtpgw", "guard"]
    with socket.socket(socket.AF_INET, socket.SOCK_DGRAM) as service:
        service.bind(SERVICE)
        shut = arrives(service, SERVICE)
        kept = subprocess.run(["nft", "-s", "list", *guard], capture_output=True, check=True).stdout
        subprocess.run(["nft", "flush", *guard], check=True)
        wide = arrives(service, SERVICE)
        subprocess.run(["nft", "-f", "-"], input=kept, check=True)
        again = arrives(service, SERVICE)
    print(f"a datagram from the secure network to {SERVICE[0]}:{SERVICE[1]} arrives with the guard: {shut}, without it: "
          f"{wide}, with it again: {again}", flush=True)
    return said("the guard refuses it, and nothing else does", (shut, wide, again) == (False, True, False))


def wrong_side(watch):
    """A datagram from the secure network to a plain port, under the plain telephone's address, isn't handed to the
    gateway."""
    before = watch.look()["totals"]["arrived"].get("plain RTP", 0)
    knock(("10.1.0.1", PLAIN_RTP), "%s:%d" % TELEPHONES["plain"])
    time.sleep(0.2)
    return said("a plain port can't be reached from the secure network, under the plain telephone's address either",
                watch.look()["totals"]["arrived"].get("plain RTP", 0) == before)


# ---- what is told of audio that goes one way, or none

def says(watch, what, *wanted):
    """Whether watch.py says what is wanted, within some seconds: outcomes come when they come."""
    until = time.monotonic() + 10
    while True:
        words = watch.look()["calls"][0]["media"][0]["says"]
        found = any(all(part in one for part in wanted) for one in words)
        if found or time.monotonic() > until:
            print(f"{what}: watch.py says {words}", flush=True)
            return found
        time.sleep(0.2)


def told_of(watch, secure, plain):
    """One side that is silent, a wrong key, and both sides that are."""
    secure.send(speech(3, 91), 300)
    good = says(watch, "one side alone", "one-way: no packet from the plain side for ")
    secure.sealing = Sealing(MasterKey(SUITE, os.urandom(30)))
    secure.send(speech(3, 92), 500)
    good &= says(watch, "under a wrong key", "what the secure side sends isn't put out: 150 BadTag")
    time.sleep(AFTER + 1)
    return good & says(watch, "nobody", "silence: no packet from either side")


def one_call(driver, watch, call, offering, seed):
    print(f"the {offering} side offers, {SECONDS} seconds each way", flush=True)
    secure, plain = Telephone("secure"), Telephone("plain")
    try:
        agree(driver, call, secure, plain, offering)
        good = both_ways(secure, plain, seed) & counted(watch, 50 * SECONDS)
        if offering == "plain":
            good &= guarded() & wrong_side(watch) & told_of(watch, secure, plain)
        driver.bye(call)
        watch.look()
    finally:
        secure.close()
        plain.close()
    return good


def main():
    with tempfile.NamedTemporaryFile() as log, open(log.name, "wb") as outcomes:
        driver, watch = Driver(program(), log=outcomes), Watch(log.name, AFTER)
        good = [one_call(driver, watch, call, side, 2 * call) for call, side in ((1, "secure"), (2, "plain"))]
        status = driver.close()
    print(f"dropped {dict(driver.drops)}, unsent {dict(driver.unsent)}, status {status}")
    return 0 if all(good) and status == 0 else 1


if __name__ == "__main__":
    sys.exit(main())
