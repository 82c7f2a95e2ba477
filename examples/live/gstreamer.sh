#!/usr/bin/env bash
# GStreamer's srtpenc and srtpdec, which are libsrtp, as a telephone on the secure leg: eight seconds of PCMU
# each way at once through a call with keys by hand, over a wrap of sequence numbers, in the suites with AES of
# 128 and of 256 bits. It says what arrived, and ends with 0 where the octets are those that were sent.
#
#   examples/live/gstreamer.sh               with ./srtpgw, or with the program that SRTPGW names
. "$(dirname "$0")/needs.sh"
needs gst-launch-1.0 gstreamer1.0-tools
gst-inspect-1.0 srtpenc > /dev/null 2>&1 || { echo 'not run: srtpenc (gstreamer1.0-plugins-bad)' >&2; exit 77; }
gst-inspect-1.0 rtppcmupay > /dev/null 2>&1 || { echo 'not run: rtppcmupay (gstreamer1.0-plugins-good)' >&2; exit 77; }
gst-launch-1.0 --version | sed -n 2p
exec timeout -k 5 600 python3 "$here/gstreamer.py"
