"""GStreamer as the telephone on the secure leg, whose RTP and RTCP share a port. See one_port.sh."""

import base64
import signal
import subprocess
import sys
import tempfile
import threading
import time
from pathlib import Path

from ends import (
    End, Key, NEAR_WRAP, PLAIN, PLAIN_RTCP, PLAIN_RTP, SECURE, SECURE_RTP, SSRC, is_bound, numbers_of, packets_of,
    payloads_of, program, require_free, speech, told, wait_until,
)
from descriptions import MUX
from driver import Driver, Program
from gstreamer import GSTREAMER, SUITES

SECONDS, REPORT_EACH = 12, 0.5
PARSED = "rawaudioparse use-sink-caps=false format=mulaw sample-rate=8000 num-channels=1"
PAYLOAD = f"rtppcmupay min-ptime=20000000 max-ptime=20000000 seqnum-offset={NEAR_WRAP} ssrc={SSRC}"
WRITTEN = "filesink async=false buffer-mode=unbuffered"


def text_of(address, profile, *lines):
    host, port = address
    lines = ["v=0", f"o=- 1 1 IN IP4 {host}", "s=-", f"c=IN IP4 {host}", "t=0 0", f"m=audio {port} {profile} 0", *lines]
    return "".join(line + "\r\n" for line in lines).encode()


def sender(audio, reports, key):
    """Sends RTP and RTCP to one port, and writes its reports as they are before they are sealed."""
    cipher, tag = SUITES[key.suite]
    keyed = f"key={key.hex()} rtp-cipher={cipher} rtp-auth={tag} rtcp-cipher={cipher} rtcp-auth=hmac-sha1-80"
    return [*GSTREAMER[:2], *f"""
        rtpbin name=rtp  srtpenc name=enc {keyed}
        funnel name=both ! udpsink host=127.0.0.1 port={SECURE_RTP} bind-address=127.0.0.1 async=false
        filesrc location={audio} ! {PARSED} ! {PAYLOAD} ! rtp.send_rtp_sink_0
        rtp.send_rtp_src_0 ! enc.rtp_sink_0  enc.rtp_src_0 ! both.
        rtp.send_rtcp_src_0 ! tee name=reports ! queue ! enc.rtcp_sink_0  enc.rtcp_src_0 ! both.
        reports. ! queue ! {WRITTEN} sync=false location={reports}
    """.split()]


def receiver(audio, reports, key):
    """Opens what comes to the one secure address, and writes the octets of PCMU, and those of reports."""
    cipher, tag = SUITES[key.suite]
    caps = ["application/x-srtp", "media=audio", "clock-rate=8000", "encoding-name=PCMU", "payload=0",
            f"ssrc=(uint){SSRC}", f"srtp-key=(buffer){key.hex()}", f"srtp-cipher={cipher}", f"srtp-auth={tag}",
            f"srtcp-cipher={cipher}", "srtcp-auth=hmac-sha1-80", "roc=(uint)0"]
    return [*GSTREAMER[:2], *f"""
        udpsrc address=127.0.0.1 port={SECURE[1]} caps={",".join(caps)} ! dec.rtp_sink  srtpdec name=dec
        dec.rtp_src ! rtppcmudepay ! {WRITTEN} location={audio}
        dec.rtcp_src ! {WRITTEN} sync=false location={reports}
    """.split()]


def agreed(driver, call, key):
    """The gateway's key of a call that the secure side offers with one port. The plain side is told of two."""
    offer = text_of(SECURE, "RTP/SAVP", f"a=crypto:1 {key.suite} inline:{key.base64()}", MUX.decode())
    assert MUX not in driver.offer_secure(call, offer).splitlines()
    lines = driver.answer(call, text_of(PLAIN, "RTP/AVP")).splitlines()
    assert lines[-1] == MUX, lines
    own = Key(key.suite)
    own.octets = base64.b64decode(next(line for line in lines if line.startswith(b"a=crypto:")).split(b"inline:")[1])
    return own


def report(number):
    """A sender report without blocks; its octets are of no other one."""
    return bytes.fromhex("80c80006") + SSRC.to_bytes(4, "big") + number.to_bytes(4, "big") * 5


def one_suite(driver, call, suite, folder):
    there, back = speech(SECONDS, 2 * call), speech(SECONDS, 2 * call + 1)
    sent, own_reports, heard, heard_reports = (folder / name for name in ("sent.ul", "sent.rtcp", "heard.ul", "heard.rtcp"))
    sent.write_bytes(there)
    key = Key(suite)
    own = agreed(driver, call, key)
    plain, control = End(PLAIN), End((PLAIN[0], PLAIN[1] + 1))
    reports = [report(number) for number in range(round(SECONDS / REPORT_EACH))]
    receiving = subprocess.Popen(receiver(heard, heard_reports, own), stdout=subprocess.DEVNULL)
    try:
        wait_until(lambda: is_bound(SECURE[1]), what="GStreamer's port")
        sending = subprocess.Popen(sender(sent, own_reports, key), stdout=subprocess.DEVNULL)
        reporting = threading.Thread(target=reports_each, args=(control, reports))
        reporting.start()
        plain.send(PLAIN_RTP, packets_of(back))
        reporting.join()
        ends(sending, 5)
        time.sleep(1)
    finally:
        ends(receiving, 0)
        plain.close()
        control.close()
    driver.bye(call)
    good = [
        told(f"{suite}, GStreamer to plain", there, payloads_of(plain.packets), numbers_of(plain.packets)),
        told(f"{suite}, plain to GStreamer", back, heard.read_bytes()),
        told(f"{suite}, GStreamer's {len(control.packets)} reports", own_reports.read_bytes(), b"".join(control.packets)),
        told(f"{suite}, {len(reports)} reports to GStreamer", b"".join(reports), heard_reports.read_bytes()),
    ]
    return all(good) and len(control.packets) > 0


def ends(process, seconds):
    """Ends a process, where it doesn't end by itself: that its reports are over doesn't always reach GStreamer's sink."""
    try:
        process.wait(timeout=seconds)
    except subprocess.TimeoutExpired:
        process.send_signal(signal.SIGINT)
        process.wait(timeout=20)


def reports_each(control, reports):
    for octets in reports:
        control.socket.sendto(octets, ("127.0.0.1", PLAIN_RTCP))
        time.sleep(REPORT_EACH)


def main():
    require_free()
    print(f"{SECONDS} seconds each way, RTP and RTCP at one port of the secure side", flush=True)
    driver = Driver(Program(program(), muxes=True))
    with tempfile.TemporaryDirectory() as folder:
        good = [one_suite(driver, call, suite, Path(folder)) for call, suite in enumerate(SUITES, 1)]
    status = driver.close()
    print(f"dropped {dict(driver.drops)}, unsent {dict(driver.unsent)}, status {status}")
    return 0 if all(good) and status == 0 else 1


if __name__ == "__main__":
    sys.exit(main())
