"""Calls keyed by MIKEY. See mikey_call.sh."""

import base64
import os
import sys
import threading
import time

from ends import (
    End, PLAIN, PLAIN_RTCP, PLAIN_RTP, SECURE, SECURE_RTCP, SECURE_RTP, numbers_of, packets_of, payloads_of, program,
    require_free, speech, told,
)
from driver import Driver
from sealed import MasterKey, Opening, Sealing, text_of

from mikey import DEFAULTS, Exchange, accept, answered, read_parts
from srtp import rtcp

SECONDS = 3
REPORTS = 3
GATEWAY, PHONE = b"sip:gateway@example.org", b"sip:phone@example.org"
SHARED = os.urandom(32)
OWN_SSRC, GATEWAYS_SSRC = 0x9407E, 0x6A7E
SECURE_MEDIA, PLAIN_MEDIA = f"m=audio {SECURE[1]} RTP/SAVP 0", f"m=audio {PLAIN[1]} RTP/AVP 0"
SSRC_LINE = f"a=ssrc:{GATEWAYS_SSRC} cname:x"


def now():
    return int(time.time() * 1000)


def line_of(message):
    return "a=key-mgmt:mikey " + base64.b64encode(message).decode()


def message_of(text):
    line = next(line for line in text.splitlines() if line.startswith("a=key-mgmt:mikey "))
    return base64.b64decode(line.split()[1])


def masters(exchange):
    """What the initiator and the responder seal with."""
    return [MasterKey("AES_CM_128_HMAC_SHA1_80", session[0]) for session in exchange.sessions(16)]


def offered_by_the_gateway(driver, call):
    """The plain side calls, and the gateway is the initiator."""
    offer = driver.offer_plain(call, text_of("bob", PLAIN_MEDIA, SSRC_LINE), peer=PHONE.decode())
    message = message_of(offer.decode())
    _, keys = accept(message, [(PHONE, GATEWAY, SHARED)], [], now())
    _, csb, entries, payloads = read_parts(message)
    exchange = Exchange(SHARED, 0, keys, entries, [], [GATEWAY, PHONE], csb=csb, random=payloads[1][1][1:])
    exchange.stamp = payloads[0][1][1:]
    response = exchange.response(PHONE, answered(entries, [OWN_SSRC]))
    driver.answer(call, text_of("alice", SECURE_MEDIA, session=[line_of(response)]))
    gateways, own = masters(exchange)
    print(f"the gateway's message of {len(message)} octets is authentic, its response has {len(response)}")
    return own, gateways


def offered_by_the_telephone(driver, call):
    """The secure side calls, and the telephone is the initiator."""
    exchange = Exchange(
        SHARED, now(), [(os.urandom(16), None)], [(0, OWN_SSRC, 0), (0, 0, 0)], [(0, DEFAULTS)], [PHONE, GATEWAY],
        csb=int.from_bytes(os.urandom(4), "big"), random=os.urandom(16))
    message = exchange.initial()
    driver.offer_secure(call, text_of("alice", SECURE_MEDIA, session=[line_of(message)]))
    text = driver.answer(call, text_of("bob", PLAIN_MEDIA, SSRC_LINE))
    expected = exchange.response(GATEWAY, answered(exchange.entries, [GATEWAYS_SSRC]))
    if message_of(text.decode()) != expected:
        raise ValueError("the gateway's response isn't the expected one")
    print(f"the telephone's message has {len(message)} octets, the gateway's response is as expected")
    own, gateways = masters(exchange)
    return own, gateways


def talk(own, gateways, call):
    """Media and reports each way; whether all arrived."""
    ends = [End((host, port + above)) for above in (0, 1) for host, port in (SECURE, PLAIN)]
    secure, plain, secure_reports, plain_reports = ends
    there, back = speech(SECONDS, 80 + call), speech(SECONDS, 90 + call)
    sealing, opening = Sealing(own), Opening(gateways)
    sealed = [sealing.seal(packet) for packet in packets_of(there, ssrc=OWN_SSRC)]
    sends = [
        threading.Thread(target=secure.send, args=(SECURE_RTP, sealed)),
        threading.Thread(target=plain.send, args=(PLAIN_RTP, packets_of(back, ssrc=GATEWAYS_SSRC))),
    ]
    for send in sends:
        send.start()
    reports = [[rtcp(ssrc, os.urandom(20)) for _ in range(REPORTS)] for ssrc in (OWN_SSRC, GATEWAYS_SSRC)]
    secure_reports.send(SECURE_RTCP, [sealing.seal_report(report) for report in reports[0]])
    plain_reports.send(PLAIN_RTCP, reports[1])
    for send in sends:
        send.join()
    time.sleep(0.5)
    for end in ends:
        end.close()
    heard = [packet for packet in map(opening.open, secure.packets) if packet]
    good = told("telephone to plain", there, payloads_of(plain.packets), numbers_of(plain.packets))
    good &= told("plain to telephone", back, payloads_of(heard), numbers_of(heard))
    good &= told("reports to plain", b"".join(reports[0]), b"".join(plain_reports.packets))
    told_back = [packet for packet in map(opening.open_report, secure_reports.packets) if packet]
    return good & told("reports to telephone", b"".join(reports[1]), b"".join(told_back))


def main():
    require_free()
    driver, good = Driver(program()), []
    driver.psk(GATEWAY.decode(), PHONE.decode(), SHARED)
    for call, keyed in enumerate((offered_by_the_gateway, offered_by_the_telephone), 1):
        print(keyed.__doc__)
        good.append(talk(*keyed(driver, call), call))
        driver.bye(call)
    status = driver.close()
    print(f"dropped {dict(driver.drops)}, unsent {dict(driver.unsent)}, status {status}")
    return 0 if all(good) and status == 0 else 1


if __name__ == "__main__":
    sys.exit(main())
