#!/usr/bin/env bash
# GStreamer's srtpenc and srtpdec, which are libsrtp, as a telephone on the secure leg whose RTP and RTCP share a port
# (RFC 5761): twelve seconds of PCMU each way at once, with GStreamer's own reports and those of a plain end, through a
# call that is agreed by crypto lines and `a=rtcp-mux`, over a wrap of sequence numbers. It says what arrived, and ends
# with 0 where all octets are those that were sent, reports too.
#
#   examples/live/one_port.sh                with ./srtpgw, or with the program that SRTPGW names
. "$(dirname "$0")/needs.sh"
needs gst-launch-1.0 gstreamer1.0-tools
gst-inspect-1.0 srtpenc > /dev/null 2>&1 || { echo 'not run: srtpenc (gstreamer1.0-plugins-bad)' >&2; exit 77; }
gst-inspect-1.0 rtpbin > /dev/null 2>&1 || { echo 'not run: rtpbin (gstreamer1.0-plugins-good)' >&2; exit 77; }
gst-launch-1.0 --version | sed -n 2p
exec timeout -k 5 600 python3 "$here/one_port.py"
