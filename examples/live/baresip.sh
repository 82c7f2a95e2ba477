#!/usr/bin/env bash
# Telephones that speak SIP, through a SIP server that drives the gateway (b2bua.py over driver.py):
#
#   1. baresip with `mediaenc=srtp-mand` calls SIPp, which knows no SRTP and sends back each RTP packet;
#   2. a baresip without SRTP calls one with `srtp-mand`, which answers by itself;
#   3. one with `srtp-mand` calls one without, and each holds and resumes in the middle of the call.
#
# Keys are agreed by crypto lines. It says what arrived where, and ends with 0 where each telephone heard the
# samples that the other one played, in their order and without a gap; in the third call, where each took the
# packets that the other one sent, but for at most three that were under way when it hung up.
#
# With `--mux` the telephones offer one port for RTP and RTCP, and the gateway takes it from the one that calls.
#
#   examples/live/baresip.sh [--mux]         with ./srtpgw, or with the program that SRTPGW names
. "$(dirname "$0")/needs.sh"
needs baresip baresip-core
needs sipp sip-tester
hostname -I | grep -q '\.' || { echo 'not run: baresip needs an IPv4 address besides the loopback' >&2; exit 77; }
exec timeout -k 5 600 python3 "$here/baresip.py" "$@"
