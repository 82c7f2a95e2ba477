#!/usr/bin/env bash
# Calls of two telephones that both encrypt, through Kamailio by kamailio.cfg and srtpgw-ng behind it, which joins them: two in
# Python, AES-128 with AES-256, which hold, resume and have new keys; baresip with baresip, which hold and resume, and with
# GStreamer; and forty at once, with what is lost and how long a packet is under way. All of it is in a network namespace of
# its own. It ends with 0 where all octets came.
#
#   examples/kamailio/pairs.sh               with ./srtpgw, or with the program that SRTPGW names
#   examples/kamailio/pairs.sh rtpengine     the same by rtpengine in the gateway's place
#   examples/kamailio/pairs.sh [..] SCENE..  some of its scenes: two, held, others, forty (CALLS=40 in the environment)
here=$(cd "$(dirname "${BASH_SOURCE[0]}")" && pwd)
. "$here/needs.sh"
needs kamailio kamailio
needs baresip baresip-core
needs gst-launch-1.0 gstreamer1.0-tools
[ "${1:-}" != rtpengine ] || needs rtpengine rtpengine-daemon
own_network timeout -k 5 300 "$python" "$here/pairs.py" "$@"
