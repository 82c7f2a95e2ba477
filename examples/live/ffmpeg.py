"""ffmpeg as the telephone on the secure leg, in each suite that it has. See ffmpeg.sh."""

import sys

from both_ways import both_ways
from ends import NEAR_WRAP, SECURE, SECURE_RTP

SUITES = ["AES_CM_128_HMAC_SHA1_80", "AES_CM_128_HMAC_SHA1_32"]
FFMPEG = ["ffmpeg", "-hide_banner", "-loglevel", "fatal", "-nostdin"]


def sender(audio, key):
    """Sends the octets of PCMU as they are, in packets of 160: with both heads and the tag these are 186."""
    return [*FFMPEG, "-re", "-f", "mulaw", "-ar", "8000", "-ac", "1", "-i", audio, "-c:a", "copy", "-f", "rtp",
            "-payload_type", "0", "-seq", str(NEAR_WRAP),
            "-srtp_out_suite", key.suite, "-srtp_out_params", key.base64(),
            f"srtp://127.0.0.1:{SECURE_RTP}?pkt_size=186&localaddr=127.0.0.1"]


def receiver(audio, key):
    """Opens what comes to the secure address, and writes the octets of PCMU."""
    text = ["v=0", "o=- 0 0 IN IP4 127.0.0.1", "s=-", "c=IN IP4 127.0.0.1", "t=0 0",
            f"m=audio {SECURE[1]} RTP/SAVP 0", f"a=crypto:1 {key.suite} inline:{key.base64()}", ""]
    description = audio.with_suffix(".sdp")
    description.write_text("\r\n".join(text))
    return [*FFMPEG, "-protocol_whitelist", "file,udp,rtp,srtp", "-localaddr", "127.0.0.1", "-i", description,
            "-c:a", "copy", "-f", "mulaw", "-y", audio]


if __name__ == "__main__":
    sys.exit(both_ways("ffmpeg", SUITES, sender, receiver))
