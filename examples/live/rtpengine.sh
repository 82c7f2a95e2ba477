#!/usr/bin/env bash
# rtpengine as the far gateway: plain media, srtpgw, SRTP, rtpengine, plain media again, both ways at once. Keys
# are agreed by crypto lines, once offered by srtpgw and then by rtpengine, in each suite that it can be brought
# to. It starts an rtpengine of its own, without its kernel module and as the user who runs this. It says what
# arrived, and ends with 0 where all did.
#
#   examples/live/rtpengine.sh               with ./srtpgw, or with the program that SRTPGW names
. "$(dirname "$0")/needs.sh"
needs rtpengine rtpengine-daemon
exec timeout -k 5 600 python3 "$here/rtpengine.py"
