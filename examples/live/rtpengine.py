"""rtpengine as the far gateway. See rtpengine.sh."""

import itertools
import re
import socket
import subprocess
import sys
import tempfile
import threading
import time

from ends import (
    End, PLAIN, PLAIN_RTP, is_bound, numbers_of, packets_of, payloads_of, program, require_free,
    speech, told, wait_until,
)
from driver import Driver, Refused
from ng.bencode import encoded

SECONDS = 4
CONTROL, FAR = ("127.0.0.1", 22_222), ("127.0.0.1", 45_000)
OFFERED_HERE = ["AES_CM_128_HMAC_SHA1_80", "AES_256_CM_HMAC_SHA1_80"]
CIPHERS = ("AES_CM_128", "AES_192_CM", "AES_256_CM")
OFFERED_THERE = [f"{cipher}_HMAC_SHA1_{tag}" for cipher in CIPHERS for tag in (80, 32)]
# All suites of rtpengine.
KNOWN = OFFERED_THERE + [f"{name}_{tag}" for name in ("F8_128_HMAC_SHA1", "NULL_HMAC_SHA1") for tag in (80, 32)] + [
    "AEAD_AES_128_GCM", "AEAD_AES_256_GCM"]


class Far:
    """rtpengine, by its control protocol. By one thread, since of several each may overtake another."""

    def __init__(self, folder, last=30_200, threads=1):
        words = ["rtpengine", "--config-file=none", "-f", "-E", "-t", "-1", "-i", "127.0.0.1", "-L", "3",
                 "-n", "%s:%d" % CONTROL, "-m", "30000", "-M", str(last), f"--num-threads={threads}", "-p", f"{folder}/pid"]
        self.log = open(f"{folder}/log", "wb")
        self.process = subprocess.Popen(words, stdout=self.log, stderr=subprocess.STDOUT)
        self.socket = socket.socket(socket.AF_INET, socket.SOCK_DGRAM)
        self.socket.bind(("127.0.0.1", 0))
        self.socket.settimeout(5)
        self.numbers = itertools.count()
        wait_until(lambda: is_bound(CONTROL[1]), what="rtpengine")

    def ask(self, command, call, text=None, **more):
        """The session description that it gives, as octets, or None."""
        request = {"command": command, "call-id": f"call-{call}", "from-tag": "near", **more}
        if text is not None:
            request |= {"sdp": text, "replace": ["origin", "session-connection"], "ICE": "remove"}
        # It gives the same answer to a request of the same number again.
        self.socket.sendto(b"%d " % next(self.numbers) + encoded(request), CONTROL)
        answer = self.socket.recv(65_536)
        found = re.search(rb"3:sdp(\d+):", answer)
        if b"6:result2:ok" not in answer:
            raise RuntimeError(answer)
        return answer[found.end():found.end() + int(found[1])] if found else None

    def close(self):
        self.process.terminate()
        self.process.wait(timeout=10)
        self.socket.close()
        self.log.close()


def text_of(user, port, proto="RTP/AVP"):
    lines = ["v=0", f"o={user} 1 1 IN IP4 127.0.0.1", "s=-", "c=IN IP4 127.0.0.1", "t=0 0", f"m=audio {port} {proto} 0",
             "a=sendrecv"]
    return "".join(line + "\r\n" for line in lines)


def but(suite):
    """How rtpengine is told to pass over all suites but one."""
    return {"SDES": [f"no-{name}" for name in KNOWN if name != suite], "DTLS": "off"}


def offered_here(driver, far, call, suite):
    """srtpgw offers its two suites, and rtpengine answers with one."""
    offer = driver.offer_plain(call, text_of("near", PLAIN[1]))
    told_far = far.ask("offer", call, offer, **but(suite), **{"transport-protocol": "RTP/AVP"})
    answer = far.ask("answer", call, text_of("far", FAR[1]), **but(suite), **{"to-tag": "far"})
    driver.answer(call, answer)
    return port_of(told_far), answer


def offered_there(driver, far, call, suite):
    """rtpengine offers one suite, and srtpgw answers with it."""
    wish = {"from-tag": "far", "transport-protocol": "RTP/SAVP"}
    offer = far.ask("offer", call, text_of("far", FAR[1]), **but(suite), **wish)
    driver.offer_secure(call, offer)
    answer = driver.answer(call, text_of("near", PLAIN[1]))
    return port_of(far.ask("answer", call, answer, **{"from-tag": "far", "to-tag": "near"})), answer


def port_of(text):
    return int(re.search(rb"m=audio (\d+)", text)[1])


def suite_of(text):
    return re.search(rb"a=crypto:\d+ (\S+)", text)[1].decode()


def one_call(driver, far, call, keyed, suite):
    try:
        far_port, answer = keyed(driver, far, call, suite)
    except (RuntimeError, Refused) as refused:
        print(f"{suite}: NOT AGREED: {refused}", flush=True)
        return False
    near, other = End(PLAIN), End(FAR)
    there, back = speech(SECONDS, 40 + call), speech(SECONDS, 60 + call)
    sends = [
        threading.Thread(target=near.send, args=(PLAIN_RTP, packets_of(there))),
        threading.Thread(target=other.send, args=(far_port, packets_of(back, ssrc=0xFA5))),
    ]
    for send in sends:
        send.start()
    for send in sends:
        send.join()
    time.sleep(0.5)
    near.close(), other.close()
    far.ask("delete", call, **{"from-tag": "near" if keyed is offered_here else "far"})
    driver.bye(call)
    name = f"{suite_of(answer)}, {'srtpgw' if keyed is offered_here else 'rtpengine'} offered"
    good = told(f"{name}, to rtpengine", there, payloads_of(other.packets), numbers_of(other.packets))
    good &= told(f"{name}, from rtpengine", back, payloads_of(near.packets), numbers_of(near.packets))
    return good and suite_of(answer) == suite


def main():
    require_free(CONTROL[1], FAR[1])
    version = subprocess.run(["rtpengine", "--version"], stdout=subprocess.PIPE, stderr=subprocess.STDOUT, text=True)
    print("rtpengine", version.stdout.strip(), flush=True)
    driver, good = Driver(program()), []
    with tempfile.TemporaryDirectory() as folder:
        far = Far(folder)
        try:
            scenes = [(offered_here, suite) for suite in OFFERED_HERE]
            scenes += [(offered_there, suite) for suite in OFFERED_THERE]
            for call, (keyed, suite) in enumerate(scenes, 1):
                good.append(one_call(driver, far, call, keyed, suite))
        finally:
            far.close()
    status = driver.close()
    print(f"dropped {dict(driver.drops)}, unsent {dict(driver.unsent)}, status {status}")
    return 0 if all(good) and status == 0 else 1


if __name__ == "__main__":
    sys.exit(main())
