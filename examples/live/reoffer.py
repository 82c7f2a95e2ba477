"""New keys in the middle of a call. See reoffer.sh."""

import collections
import os
import sys
import threading
import time

from ends import (
    End, PLAIN, PLAIN_RTP, SECURE, SECURE_RTP, numbers_of, packets_of, payloads_of, program, require_free, speech, told,
)
from driver import Driver
from sealed import MasterKey, Opening, Sealing, crypto_line, crypto_of, text_of

SECONDS = 6
# The numbers pass 65535 under the third pair of keys, which began in the block before.
FIRST = 65_536 - 260
LATE = 0.5
CALL = 7
SMALL = "AES_CM_128_HMAC_SHA1_80"
SECURE_MEDIA, PLAIN_MEDIA = f"m=audio {SECURE[1]} RTP/SAVP 0", f"m=audio {PLAIN[1]} RTP/AVP 0"


class Telephone:
    """The protected end: seals under its latest key, and opens under any that the gateway has had."""

    def __init__(self):
        self.end = End(SECURE)
        self.sealing, self.opening, self.counts = None, [], collections.Counter()

    def agree(self, own, gateways, late=0.0):
        self.opening.insert(0, Opening(gateways))
        time.sleep(late)
        self.sealing = Sealing(own)

    def seals(self, packets):
        for packet in packets:
            yield self.sealing.seal(packet)

    def opens(self):
        """What arrived, in its order, and under which of the gateway's keys how much did."""
        for datagram in self.end.packets:
            for number, opening in zip(range(len(self.opening), 0, -1), self.opening):
                packet = opening.open(datagram)
                if packet:
                    self.counts[number] += 1
                    yield packet
                    break


def new_master():
    return MasterKey(SMALL, os.urandom(30))


def offered_by_the_telephone(driver, telephone, late=0.0):
    own = new_master()
    driver.offer_secure(CALL, text_of("alice", SECURE_MEDIA, crypto_line(1, own)))
    answer = driver.answer(CALL, text_of("bob", PLAIN_MEDIA))
    telephone.agree(own, crypto_of(answer.decode())["1"], late)


def offered_to_the_telephone(driver, telephone, late=0.0):
    own = new_master()
    offer = driver.offer_plain(CALL, text_of("bob", PLAIN_MEDIA))
    driver.answer(CALL, text_of("alice", SECURE_MEDIA, crypto_line(1, own)))
    telephone.agree(own, crypto_of(offer.decode())["1"], late)


def main():
    require_free()
    driver, telephone, plain = Driver(program()), Telephone(), End(PLAIN)
    there, back = speech(SECONDS, 71), speech(SECONDS, 72)
    offered_by_the_telephone(driver, telephone)
    sends = [
        threading.Thread(target=telephone.end.send, args=(SECURE_RTP, telephone.seals(packets_of(there, FIRST)))),
        threading.Thread(target=plain.send, args=(PLAIN_RTP, packets_of(back, FIRST))),
    ]
    for send in sends:
        send.start()
    time.sleep(2)
    offered_by_the_telephone(driver, telephone, LATE)
    time.sleep(2 - LATE)
    offered_to_the_telephone(driver, telephone, LATE)
    for send in sends:
        send.join()
    time.sleep(0.5)
    driver.bye(CALL)
    telephone.end.close()
    plain.close()
    status = driver.close()
    heard = list(telephone.opens())
    good = told("telephone to plain", there, payloads_of(plain.packets), numbers_of(plain.packets))
    good &= told("plain to telephone", back, payloads_of(heard), numbers_of(heard))
    print(f"under the gateway's keys in turn: {[telephone.counts[n] for n in (1, 2, 3)]} packets")
    print(f"dropped {dict(driver.drops)}, unsent {dict(driver.unsent)}, status {status}")
    return 0 if good and status == 0 else 1


if __name__ == "__main__":
    sys.exit(main())
