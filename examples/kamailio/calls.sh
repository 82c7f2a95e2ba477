#!/usr/bin/env bash
# Calls through Kamailio, by kamailio.cfg, and srtpgw-ng behind it: baresip calls SIPp and baresip, either side
# encrypting, with hold and resume; telephones in Python offer new keys within a call, talk before they are picked up,
# cancel one, and make forty at once. It says what came where, and ends with 0 where all did. All of it is in a network namespace of its own.
#
#   examples/kamailio/calls.sh               with ./srtpgw, or with the program that SRTPGW names
#   examples/kamailio/calls.sh rtpengine     the same by rtpengine in the gateway's place
#   examples/kamailio/calls.sh [..] SCENE..  some of its scenes
#   STEP=0.02 examples/kamailio/calls.sh     with srtpgw-ng --step 0.02
here=$(cd "$(dirname "${BASH_SOURCE[0]}")" && pwd)
. "$here/needs.sh"
needs kamailio kamailio
needs baresip baresip-core
needs sipp sip-tester
[ "${1:-}" != rtpengine ] || needs rtpengine rtpengine-daemon
own_network timeout -k 5 600 "$python" "$here/calls.py" "$@"
