"""A call of two protected telephones by two gateways. See two_gateways.sh, which runs this in the first one's namespace."""

import os
import socket
import sys
import threading
import time
from pathlib import Path

TOP = Path(__file__).resolve().parents[2]
sys.path[:0] = [str(TOP / "examples/live"), str(TOP / "tools")]

import paced  # noqa: E402
from ends import PACE, numbers_of, packets_of, payloads_of, program, speech, told  # noqa: E402
from sealed import MasterKey, Opening, Sealing, crypto_line, crypto_of, lines  # noqa: E402
from driver import Driver, Program  # noqa: E402
from call import NAME, socket_in  # noqa: E402

# Each telephone, and the address of its gateway towards it; and the gateways' addresses towards each other.
TELEPHONES, GATEWAYS = (("10.1.0.2", 46_000), ("10.3.0.2", 47_000)), ("10.1.0.1", "10.3.0.1")
MIDDLE = "10.2.0.1", "10.2.0.2"
RTP, RTCP = 20_000, 20_001
SHORT, LONG = "AES_CM_128_HMAC_SHA1_80", "AES_256_CM_HMAC_SHA1_80"
SECONDS, REPORTS = 6, 12
# Where that is set, so many calls at once, of RTP alone, and how long a packet is under way.
CALLS = int(os.environ.get("CALLS", "0"))


class Telephone:
    """A protected telephone: RTP and RTCP, and what arrives of each."""

    def __init__(self, place, space):
        self.place, self.space, self.sealing, self.opening, self.open = place, space, None, None, True
        self.sockets = [self.bound(above) for above in (0, 1)]
        self.arrived = [], []
        self.threads = [threading.Thread(target=self.gather, args=(kind,), daemon=True) for kind in (0, 1)]
        for thread in self.threads:
            thread.start()

    def bound(self, above):
        host, port = TELEPHONES[self.place]
        one = socket_in(self.space, "socket.AF_INET, socket.SOCK_DGRAM", f"made.bind({(host, port + above)})")
        one.settimeout(0.1)
        return one

    def gather(self, kind):
        while self.open:
            try:
                self.arrived[kind].append(self.sockets[kind].recv(65_536))
            except socket.timeout:
                pass

    def text(self, *more):
        host, port = TELEPHONES[self.place]
        session = "v=0", f"o=- 1 1 IN IP4 {host}", "s=-", f"c=IN IP4 {host}", "t=0 0"
        return lines(*session, f"m=audio {port} RTP/SAVP 0", *more)

    def send(self, octets, reports):
        """Packets each 20 ms, and a report each half second."""
        to, began = GATEWAYS[self.place], time.monotonic()
        for place, packet in enumerate(packets_of(octets)):
            time.sleep(max(0, began + place * PACE - time.monotonic()))
            self.sockets[0].sendto(self.sealing.seal(packet), (to, RTP))
            if place % 25 == 0:
                self.sockets[1].sendto(self.sealing.seal_report(reports[place // 25]), (to, RTCP))

    def heard(self):
        """The packets and the reports that arrived, opened; what doesn't open is empty."""
        packets, reports = self.arrived
        return [self.opening.open(one) or b"" for one in packets], [self.opening.open_report(one) or b"" for one in reports]

    def close(self):
        self.open = False
        for thread in self.threads:
            thread.join()


class Bare:
    """One of many telephones: its socket, its keys, and where it sends."""

    def __init__(self, place, number, space):
        host, port = TELEPHONES[place]
        self.host, self.port, self.suite = host, port + 2 * number, (SHORT, LONG)[place]
        bound = socket_in(space, "socket.AF_INET, socket.SOCK_DGRAM", f"made.bind({(self.host, self.port)})")
        self.key, self.socket = MasterKey(self.suite, os.urandom((30, 46)[place])), paced.stamped(bound)

    def text(self, tag):
        session = "v=0", f"o=- 1 1 IN IP4 {self.host}", "s=-", f"c=IN IP4 {self.host}", "t=0 0"
        return lines(*session, f"m=audio {self.port} RTP/SAVP 0", crypto_line(tag, self.key))


def many(one, two):
    """Many calls at once, each by both gateways."""
    pairs, streams = [], []
    for number in range(CALLS):
        first, second = Bare(0, number, "first"), Bare(1, number, "second")
        pairs.append((first, second))
        to_first, to_second = through(one, two, first.text(1), second.text(2), number + 1)
        for place, (driver, near, far, opening) in enumerate(
                ((one, first, second, crypto_of(to_second)["2"]), (two, second, first, crypto_of(to_first)["1"]))):
            to = GATEWAYS[place], driver.ports(number + 1)[0]
            streams.append((far, paced.Stream(near.socket, to, speech(SECONDS, 2 * number + place), near.key, opening, 1_000)))
    os.sched_setscheduler(0, os.SCHED_RR, os.sched_param(5))
    paced.send([stream for _, stream in streams])
    time.sleep(1)
    for far, stream in streams:
        paced.take(far.socket, stream)
    return paced.told(f"{CALLS} calls by two gateways", [stream for _, stream in streams])


def at(text, address):
    """A gateway's text with the address that the far side reaches it at."""
    return text.replace(b"c=IN IP4 127.0.0.1", b"c=IN IP4 " + address.encode())


def through(one, two, offer, answer, call):
    """The first telephone offers: by its gateway to the second one as a plain side's offer, and by that to the second. What
    each telephone is told."""
    between = at(one.offer_secure(call, offer), MIDDLE[0])
    to_second = at(two.offer_plain(call, between), GATEWAYS[1])
    back = at(two.answer(call, answer), MIDDLE[1])
    to_first = at(one.answer(call, back), GATEWAYS[0])
    assert b"crypto" not in between + back
    return to_first.decode(), to_second.decode()


def agree(one, two, first, second):
    own, other = MasterKey(SHORT, os.urandom(30)), MasterKey(LONG, os.urandom(46))
    to_first, to_second = through(one, two, first.text(crypto_line(1, own)), second.text(crypto_line(2, other)), 1)
    first.sealing, first.opening = Sealing(own), Opening(crypto_of(to_first)["1"])
    second.sealing, second.opening = Sealing(other), Opening(crypto_of(to_second)["2"])


def reports_of(seed):
    return [bytes.fromhex("80c80006") + bytes([seed, place]) * 12 for place in range(REPORTS)]


def both_ways(first, second):
    there, back = speech(SECONDS, 1), speech(SECONDS, 2)
    sends = [threading.Thread(target=first.send, args=(there, reports_of(1))),
             threading.Thread(target=second.send, args=(back, reports_of(2)))]
    for send in sends:
        send.start()
    for send in sends:
        send.join()
    time.sleep(0.5)
    good = True
    for name, octets, seed, telephone in (("first to second", there, 1, second), ("second to first", back, 2, first)):
        packets, reports = telephone.heard()
        good &= told(name, octets, payloads_of(packets), numbers_of(packets))
        good &= told(f"{name}, {REPORTS} reports", b"".join(reports_of(seed)), b"".join(reports))
    return good


def one_call(one, two):
    first, second = Telephone(0, "first"), Telephone(1, "second")
    try:
        agree(one, two, first, second)
        return both_ways(first, second)
    finally:
        first.close(), second.close()


def main():
    prefix = ["chrt", "--rr", "10"] if CALLS else []
    one = Driver(Program([*prefix, program()]))
    two = Driver(Program(["ip", "netns", "exec", f"{NAME}-two", *prefix, program()]))
    print(f"{SHORT} with {LONG}, {SECONDS} seconds each way", flush=True)
    try:
        good = (many if CALLS else one_call)(one, two)
    finally:
        statuses = one.close(), two.close()
    print(f"dropped {dict(one.drops)} and {dict(two.drops)}, statuses {statuses}")
    return 0 if good and statuses == (0, 0) else 1


if __name__ == "__main__":
    sys.exit(main())
