"""GStreamer as the telephone on the secure leg. See gstreamer.sh."""

import sys

from both_ways import both_ways
from ends import NEAR_WRAP, SECURE, SECURE_RTP, SSRC

# GStreamer's names of a suite's cipher and of its tag.
SUITES = {
    "AES_CM_128_HMAC_SHA1_80": ("aes-128-icm", "hmac-sha1-80"),
    "AES_CM_128_HMAC_SHA1_32": ("aes-128-icm", "hmac-sha1-32"),
    "AES_256_CM_HMAC_SHA1_80": ("aes-256-icm", "hmac-sha1-80"),
    "AES_256_CM_HMAC_SHA1_32": ("aes-256-icm", "hmac-sha1-32"),
}
GSTREAMER = ["gst-launch-1.0", "-q", "-e"]


def sender(audio, key):
    """Sends the octets of PCMU as they are, in packets of 20 ms."""
    cipher, tag = SUITES[key.suite]
    return [*GSTREAMER, "filesrc", f"location={audio}", "!",
            "rawaudioparse", "use-sink-caps=false", "format=mulaw", "sample-rate=8000", "num-channels=1", "!",
            "rtppcmupay", "min-ptime=20000000", "max-ptime=20000000", f"seqnum-offset={NEAR_WRAP}", f"ssrc={SSRC}", "!",
            "srtpenc", f"key={key.hex()}", f"rtp-cipher={cipher}", f"rtp-auth={tag}", f"rtcp-cipher={cipher}", "!",
            "udpsink", "host=127.0.0.1", f"port={SECURE_RTP}", "bind-address=127.0.0.1"]


def receiver(audio, key):
    """Opens what comes to the secure address, and writes the octets of PCMU."""
    cipher, tag = SUITES[key.suite]
    caps = ["application/x-srtp", "media=audio", "clock-rate=8000", "encoding-name=PCMU", "payload=0",
            f"ssrc=(uint){SSRC}", f"srtp-key=(buffer){key.hex()}", f"srtp-cipher={cipher}", f"srtp-auth={tag}",
            f"srtcp-cipher={cipher}", "srtcp-auth=hmac-sha1-80", "roc=(uint)0"]
    return [*GSTREAMER, "udpsrc", "address=127.0.0.1", f"port={SECURE[1]}", f"caps={','.join(caps)}", "!",
            "srtpdec", "!", "rtppcmudepay", "!", "filesink", f"location={audio}"]


if __name__ == "__main__":
    sys.exit(both_ways("GStreamer", SUITES, sender, receiver))
