"""Two telephones that encrypt, not alike, whose calls are joined. See pair.sh."""

import os
import sys
import threading
import time

from ends import (
    End, PLAIN, SECURE, numbers_of, packets_of, payloads_of, program, require_free, speech, told,
)
from driver import Driver, Program
from mikey_call import (
    GATEWAY, OWN_SSRC, PHONE, SHARED, accept, answered, line_of, masters, message_of, now, read_parts,
)
from sealed import MasterKey, Opening, Sealing, crypto_line, crypto_of, text_of

from mikey import DEFAULTS, Exchange
from ng.legs import inside
from srtp import rtcp

SECONDS, REPORTS = 5, 10
SHORT, LONG = "AES_CM_128_HMAC_SHA1_80", "AES_256_CM_HMAC_SHA1_80"
OTHER_SSRC = 0x07E2


class Telephone:
    """A telephone that encrypts: where it is, its source, and once it has agreed what it seals and opens with."""

    def __init__(self, address, ssrc):
        self.address, self.ssrc, self.ends = address, ssrc, [End((address[0], address[1] + above)) for above in (0, 1)]
        self.sealing = self.opening = None

    def text(self, *lines, session=()):
        media = f"m=audio {self.address[1]} RTP/SAVP 0", f"a=ssrc:{self.ssrc} cname:x"
        return text_of("user", *media, *lines, session=session).encode()

    def agrees(self, own, gateways):
        self.sealing, self.opening = Sealing(own), Opening(gateways)

    def begin(self, ports, octets, reports):
        """Begins to send, RTP and RTCP."""
        sealed = [self.sealing.seal(packet) for packet in packets_of(octets, ssrc=self.ssrc)]
        reports = [self.sealing.seal_report(report) for report in reports]
        threads = [threading.Thread(target=end.send, args=of) for end, of in zip(self.ends, zip(ports, (sealed, reports)))]
        for thread in threads:
            thread.start()
        return threads

    def heard(self):
        packets, reports = (end.packets for end in self.ends)
        return list(filter(None, map(self.opening.open, packets))), list(filter(None, map(self.opening.open_report, reports)))

    def close(self):
        for end in self.ends:
            end.close()


def by_lines(driver, one, other):
    """Crypto lines with AES-128 call crypto lines with AES-256"""
    own, far = MasterKey(SHORT, os.urandom(30)), MasterKey(LONG, os.urandom(46))
    offer, answer = one.text(crypto_line(1, own)), other.text(crypto_line(2, far))
    driver.offer_secure(1, offer)
    other.agrees(far, crypto_of(driver.offer_plain(2, inside(offer)).decode())["2"])
    one.agrees(own, crypto_of(driver.answer(1, inside(answer)).decode())["1"])
    driver.answer(2, answer, joins=1)


def to_mikey(driver, one, other):
    """Crypto lines with AES-128 call a telephone with MIKEY, to which the gateway is the initiator"""
    own = MasterKey(SHORT, os.urandom(30))
    offer = one.text(crypto_line(1, own))
    driver.offer_secure(1, offer)
    message = message_of(driver.offer_plain(2, inside(offer), peer=PHONE.decode()).decode())
    _, keys = accept(message, [(PHONE, GATEWAY, SHARED)], [], now())
    _, csb, entries, payloads = read_parts(message)
    exchange = Exchange(SHARED, 0, keys, entries, [], [GATEWAY, PHONE], csb=csb, random=payloads[1][1][1:])
    exchange.stamp = payloads[0][1][1:]
    answer = other.text(session=[line_of(exchange.response(PHONE, answered(entries, [other.ssrc])))])
    one.agrees(own, crypto_of(driver.answer(1, inside(answer)).decode())["1"])
    driver.answer(2, answer, joins=1)
    gateways, far = masters(exchange)
    other.agrees(far, gateways)


def from_mikey(driver, one, other):
    """A telephone with MIKEY, the initiator, calls crypto lines with AES-256"""
    far = MasterKey(LONG, os.urandom(46))
    exchange = Exchange(
        SHARED, now(), [(os.urandom(16), None)], [(0, one.ssrc, 0), (0, 0, 0)], [(0, DEFAULTS)], [PHONE, GATEWAY],
        csb=int.from_bytes(os.urandom(4), "big"), random=os.urandom(16))
    offer, answer = one.text(session=[line_of(exchange.initial())]), other.text(crypto_line(2, far))
    driver.offer_secure(1, offer)
    other.agrees(far, crypto_of(driver.offer_plain(2, inside(offer)).decode())["2"])
    response = message_of(driver.answer(1, inside(answer)).decode())
    if response != exchange.response(GATEWAY, answered(exchange.entries, [other.ssrc])):
        raise ValueError("the gateway's response isn't the expected one")
    driver.answer(2, answer, joins=1)
    one.agrees(*masters(exchange))


def talk(driver, one, other, seed):
    """Packets and reports each way at once; whether all arrived, octet for octet."""
    threads, sent = [], {}
    for call, telephone in ((1, one), (2, other)):
        sent[telephone] = speech(SECONDS, seed + call), [rtcp(telephone.ssrc, os.urandom(20)) for _ in range(REPORTS)]
        threads += telephone.begin(driver.ports(call), *sent[telephone])
    for thread in threads:
        thread.join()
    time.sleep(0.5)
    good = []
    for name, sender, taker in (("the caller", one, other), ("the called one", other, one)):
        (octets, reports), (packets, heard) = sent[sender], taker.heard()
        good.append(told(f"from {name}", octets, payloads_of(packets), numbers_of(packets)))
        good.append(told(f"from {name}, {REPORTS} reports", b"".join(reports), b"".join(heard)))
    return all(good)


def main():
    require_free()
    driver, good = Driver(Program(program(), bridges=True)), []
    driver.psk(GATEWAY.decode(), PHONE.decode(), SHARED)
    for seed, agree in enumerate((by_lines, to_mikey, from_mikey)):
        print(f"{agree.__doc__}; {SECONDS} seconds each way", flush=True)
        one, other = Telephone(SECURE, OWN_SSRC), Telephone(PLAIN, OTHER_SSRC)
        try:
            agree(driver, one, other)
            good.append(talk(driver, one, other, 10 * seed))
            driver.bye(1, 2)
        finally:
            one.close(), other.close()
    status = driver.close()
    print(f"dropped {dict(driver.drops)}, lost {dict(driver.lost)}, unsent {dict(driver.unsent)}, status {status}")
    return 0 if all(good) and status == 0 and not driver.lost else 1


if __name__ == "__main__":
    sys.exit(main())
