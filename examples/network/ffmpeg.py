"""Calls between two networks with ffmpeg as the protected telephone. See call.sh, which runs this in the gateway's
namespace."""

import base64
import signal
import subprocess
import sys
import tempfile
import threading
import time
from pathlib import Path

from call import (
    GATEWAY, NAME, SECONDS, SECURE_RTP, SUITE, TELEPHONES, Telephone, Watch, agree, counted, lines, numbers_of, payloads_of,
    program, speech, told,
)
from driver import Driver

FFMPEG = ["ip", "netns", "exec", f"{NAME}-secure", "ffmpeg", "-hide_banner", "-loglevel", "fatal", "-nostdin"]
HOST, PORT = TELEPHONES["secure"]


class Ffmpeg:
    """The protected telephone's two halves: one sends, and one writes what comes. `agree` hands it its keys."""

    side, text = "secure", Telephone.text
    sealing = opening = None

    def __init__(self, folder):
        self.sent, self.written, self.description = folder / "sent.ul", folder / "written.ul", folder / "secure.sdp"

    def listen(self):
        key = self.opening.master
        self.description.write_text(lines(
            "v=0", f"o=- 1 1 IN IP4 {HOST}", "s=-", f"c=IN IP4 {HOST}", "t=0 0", f"m=audio {PORT} RTP/SAVP 0",
            f"a=crypto:1 {SUITE} inline:{encoded(key)}"))
        return subprocess.Popen(
            [*FFMPEG, "-protocol_whitelist", "file,udp,rtp,srtp", "-localaddr", HOST, "-i", self.description, "-c:a", "copy",
             "-f", "mulaw", "-y", self.written], stdout=subprocess.DEVNULL)

    def send(self, octets):
        self.sent.write_bytes(octets)
        to = f"srtp://{GATEWAY['secure']}:{SECURE_RTP}?pkt_size=186&localaddr={HOST}"
        subprocess.run(
            [*FFMPEG, "-re", "-f", "mulaw", "-ar", "8000", "-ac", "1", "-i", self.sent, "-c:a", "copy", "-f", "rtp",
             "-payload_type", "0", "-seq", "65400", "-srtp_out_suite", SUITE, "-srtp_out_params",
             encoded(self.sealing.master), to], stdout=subprocess.DEVNULL, timeout=60, check=True)


def encoded(master):
    """A key as ffmpeg takes it: what stands behind `inline:`."""
    return base64.b64encode(master.octets).decode()


def one_call(driver, watch, call, offering, folder):
    print(f"the {offering} side offers, {SECONDS} seconds each way", flush=True)
    there, back, secure, plain = speech(SECONDS, 11), speech(SECONDS, 12), Ffmpeg(folder), Telephone("plain")
    agree(driver, call, secure, plain, offering)
    listening = secure.listen()
    try:
        time.sleep(2)
        sending = threading.Thread(target=secure.send, args=(there,))
        sending.start()
        plain.send(back)
        sending.join()
        time.sleep(1)
    finally:
        listening.send_signal(signal.SIGINT)
        listening.wait(timeout=20)
        heard = plain.heard()
        plain.close()
    good = told("ffmpeg to plain", there, payloads_of(heard), numbers_of(heard))
    good &= told("plain to ffmpeg", back, secure.written.read_bytes()) & counted(watch, 50 * SECONDS)
    driver.bye(call)
    watch.look()
    return good


def main():
    with tempfile.TemporaryDirectory() as name:
        folder = Path(name)
        log = folder / "outcomes.log"
        driver, watch = Driver(program(), log=log.open("wb")), Watch(log)
        # What is counted by now is of the calls before.
        watch.look()
        good = [one_call(driver, watch, call, side, folder) for call, side in ((1, "secure"), (2, "plain"))]
        status = driver.close()
    print(f"dropped {dict(driver.drops)}, unsent {dict(driver.unsent)}, status {status}")
    return 0 if all(good) and status == 0 else 1


if __name__ == "__main__":
    sys.exit(main())
