"""Calls of two telephones that both encrypt, through Kamailio and a gateway behind it. See pairs.sh."""

import os
import re
import signal
import subprocess
import sys
import time
from pathlib import Path

# Before the others, which have a folder with another module of this name looked through first.
from calls import ALICE, BOB, HOST, NAME, PROXY, arrived, played, together

import paced  # noqa: E402
from baresip import Phone, samples_of  # noqa: E402
from both_ways import speech  # noqa: E402
from ends import FRAME, is_bound, wait_until  # noqa: E402
from gstreamer import GSTREAMER, SUITES  # noqa: E402
from telephone import FIRST, Media, Telephone, keys_of, master, registers  # noqa: E402

SHORT, LONG = "AES_CM_128_HMAC_SHA1_80", "AES_256_CM_HMAC_SHA1_80"
AT_ONCE, SECONDS = int(os.environ.get("CALLS", "40")), 6
# A real-time priority, which the gateway's is above.
PRIORITY = 5
GST_SSRC, GST_RTP = 0x6570, 27_000


class Late(Media):
    """Media whose packets wait in the socket until the call is over."""

    def __init__(self, address, key):
        super().__init__(address, key)
        paced.stamped(self.socket)

    def gathers(self):
        """Nothing is taken before the end."""


def two(folder):
    """AES-128 calls AES-256; each holds and resumes, and each has new keys in the call."""
    far = []
    bert = Telephone("bert", BOB, PROXY, lambda: far.append(Media((HOST, 26_000), master(LONG))) or far[0])
    registers("bert", BOB, PROXY, True)
    anna = Telephone("anna", ALICE, PROXY)
    near = Media((HOST, 26_010), master(SHORT))
    call = anna.calls("bert", near)
    back = bert.came[0]
    good = talks(near, far[0], 1)
    for one, media, way in ((call, near, "a=sendonly"), (call, near, None), (back, far[0], "a=inactive"), (back, far[0], None)):
        media.way = way
        one.offers()
    good &= talks(near, far[0], 2)
    call.offers(master(SHORT))
    good &= talks(near, far[0], 3)
    back.offers(master(LONG))
    good &= talks(near, far[0], 4)
    print(f"under {len(near.openings)} and {len(far[0].openings)} keys of the gateway's in turn")
    ended = back.ends()
    wait_until(call.ended.is_set, what="BYE at the other telephone")
    for one in (anna, bert, near, far[0]):
        one.close()
    return good and ended == 200


def talks(near, far, seed):
    """Two seconds each way, whole."""
    streams = [(near, far, speech(2, 2 * seed)), (far, near, speech(2, 2 * seed + 1))]
    first = FIRST + 1_000 * seed
    for _, taker, _ in streams:
        taker.came.clear()
    together(lambda stream: stream[0].sends(stream[2], first), streams)
    time.sleep(0.5)
    return all([arrived(f"from {sender.key.suite}", octets, taker, 0, first) for sender, taker, octets in streams])


def held(folder):
    """baresip calls baresip, both with SRTP, and each holds and resumes under the key that it keeps."""
    dave, erin = Phone(folder, "dave", ALICE, 42_300, True, 4), Phone(folder, "erin", BOB, 42_400, True, 5)
    registers("erin", BOB, PROXY, True)
    answering = erin.run(14)
    wait_until(lambda: is_bound(BOB[1]), what="baresip")
    calling = dave.run(11, f"sip:erin@{HOST}:{PROXY[1]}")
    for phone, key in ((dave, "hold"), (dave, "resume"), (erin, "hold"), (erin, "resume")):
        time.sleep(1.5)
        phone.press(key)
    calling.wait(timeout=60), answering.wait(timeout=60)
    (sent, took), (back, heard) = dave.counts(), erin.counts()
    for phone, own, other in ((dave, sent, took), (erin, back, heard)):
        print(f"{phone.name} ({phone.suite()}): {own} packets sent, {other} taken")
    return sent > 100 and back > 100 and abs(sent - heard) < 10 and abs(back - took) < 30


class Played(Media):
    """GStreamer's media: its SIP is this program's, its packets are two pipelines', which have the keys that were agreed."""

    def __init__(self, address, key, folder):
        super().__init__(address, key)
        self.over.set(), self.thread.join(), self.socket.close()
        self.sent, self.written, self.running = Path(folder, "gst.ul"), Path(folder, "heard.ul"), []
        # Without the octets that baresip takes for their neighbours.
        self.sent.write_bytes(bytes(octet for octet in speech(13, 31) if octet & 127 not in (0, 127)))

    def agrees(self, text):
        """Begins, once the caller's address, source and key are known."""
        if self.running:
            return
        host, port = re.search(rb"(?m)^c=IN IP4 (\S+)", text)[1].decode(), int(re.search(rb"(?m)^m=audio (\d+)", text)[1])
        source = int(re.search(rb"(?m)^a=ssrc:(\d+)", text)[1])
        key = next(key for key in keys_of(text).values() if key.suite == self.key.suite)
        for words in (self.takes_words(key, source), self.sends_words(host, port)):
            self.running.append(subprocess.Popen([*GSTREAMER[:2], *words.split()], stdout=subprocess.DEVNULL))

    def sends_words(self, host, port):
        cipher, tag = SUITES[self.key.suite]
        return (f"filesrc location={self.sent} ! rawaudioparse use-sink-caps=false format=mulaw sample-rate=8000 num-channels=1 ! "
                f"rtppcmupay min-ptime=20000000 max-ptime=20000000 ssrc={GST_SSRC} ! srtpenc key={self.key.octets.hex()} "
                f"rtp-cipher={cipher} rtp-auth={tag} rtcp-cipher={cipher} ! udpsink host={host} port={port} bind-address={HOST}")

    def takes_words(self, key, source):
        cipher, tag = SUITES[key.suite]
        caps = ["application/x-srtp", "media=audio", "clock-rate=8000", "encoding-name=PCMU", "payload=0",
                f"ssrc=(uint){source}", f"srtp-key=(buffer){key.octets.hex()}", f"srtp-cipher={cipher}", f"srtp-auth={tag}",
                f"srtcp-cipher={cipher}", "srtcp-auth=hmac-sha1-80", "roc=(uint)0"]
        return (f"udpsrc address={HOST} port={self.address[1]} caps={','.join(caps)} ! srtpdec ! rtppcmudepay ! "
                f"filesink async=false buffer-mode=unbuffered location={self.written}")

    def close(self):
        for one in self.running:
            one.send_signal(signal.SIGINT)
        for one in self.running:
            one.wait(timeout=20)


def others(folder):
    """baresip with AES-128 calls a telephone whose media are GStreamer's, with AES-256."""
    made = []
    gst = Telephone("gst", BOB, PROXY, lambda: made.append(Played((HOST, GST_RTP), master(LONG), folder)) or made[0])
    registers("gst", BOB, PROXY, True)
    phone = Phone(folder, "hanna", ALICE, 42_000, True, 7)
    phone.run(11, f"sip:gst@{HOST}:{PROXY[1]}").wait(timeout=60)
    time.sleep(0.5)
    made[0].close(), gst.close()
    sent, took = phone.counts()
    heard, written = phone.heard(), made[0].written.read_bytes()
    from_phone = pcmu(samples_of(phone.folder / "played.wav")).find(written)
    from_gst = expanded(made[0].sent.read_bytes()).find(heard)
    print(f"hanna ({phone.suite()}): {sent} packets sent, {took} taken; GStreamer wrote {len(written) // FRAME} frames of hanna's "
          f"from frame {from_phone // FRAME} on, and hanna heard {len(heard) // 2 // FRAME} of its from {from_gst // 2 // FRAME} on")
    return len(written) > 400 * FRAME and len(heard) > 400 * 2 * FRAME and from_phone >= 0 and from_gst >= 0


def expanded(octets):
    """The samples of PCMU, as baresip decodes them."""
    sample = sys.modules["baresip"].expanded
    table = [sample(octet).to_bytes(2, "little", signed=True) for octet in range(256)]
    return b"".join(table[octet] for octet in octets)


def pcmu(samples):
    """The octets of samples that PCMU keeps as they are."""
    sample = sys.modules["baresip"].expanded
    table = {sample(octet): octet for octet in range(255, -1, -1)}
    return bytes(table[int.from_bytes(samples[at:at + 2], "little", signed=True)] for at in range(0, len(samples), 2))


def forty(folder):
    """Forty calls at once of telephones with AES-128 to telephones with AES-256."""
    far = []
    bert = Telephone("otto", BOB, PROXY, lambda: far.append(Late((HOST, 28_000 + 2 * len(far)), master(LONG))) or far[-1])
    registers("otto", BOB, PROXY, True)
    anna = Telephone("paula", ALICE, PROXY)
    near = [Late((HOST, 29_000 + 2 * place), master(SHORT)) for place in range(AT_ONCE)]
    began = time.monotonic()
    calls = [anna.call("otto", media) for media in near]
    together(lambda call: call.offers(), calls)
    wait_until(lambda: len(far) == AT_ONCE and all(media.openings for media in far), 20, "all calls")
    print(f"{AT_ONCE} calls made within {time.monotonic() - began:.1f} s")
    by_id = {call.id: call.media for call in bert.came}
    pairs = [(call.media, by_id[call.id]) for call in calls]
    streams = [paced.Stream(one.socket, one.to, speech(SECONDS, 500 + number), one.key, other.openings[0].master, FIRST)
               for number, (one, other) in enumerate([*pairs, *(pair[::-1] for pair in pairs)])]
    takers = [pair[1] for pair in pairs] + [pair[0] for pair in pairs]
    with_priority(paced.send, streams)
    time.sleep(1)
    for taker, stream in zip(takers, streams):
        paced.take(taker.socket, stream)
    good = paced.told(f"{AT_ONCE} calls by {NAME}", streams)
    together(lambda call: call.ends(), calls)
    for one in (anna, bert, *near, *far):
        one.close()
    return good or NAME == "rtpengine"


def with_priority(work, *given):
    """Does it where the system lets it with a real-time priority."""
    try:
        os.sched_setscheduler(0, os.SCHED_RR, os.sched_param(PRIORITY))
    except OSError as fault:
        print(f"measured without a real-time priority: {fault.strerror}")
    work(*given)
    os.sched_setscheduler(0, os.SCHED_OTHER, os.sched_param(0))


SCENES = [two, held, others, forty]


def at_real_time(gateway):
    """rtpengine at a real-time priority, which srtpgw takes by itself."""
    if NAME == "rtpengine":
        subprocess.run(["chrt", "--rr", "--all-tasks", "--pid", "10", str(gateway.process.pid)])


def main():
    programs = (("kamailio", "-v"), ("baresip", "-h"), ("gst-launch-1.0", "--version"), ("rtpengine", "--version"))
    return played(programs, SCENES, at_real_time)


if __name__ == "__main__":
    sys.exit(main())
