#!/usr/bin/env bash
# Two gateways in network namespaces of their own, in one set of Kamailio's, under calls all the time: one's gateway is
# killed, and one with its daemon; each is drained and begins anew; one begins anew by itself when its keys are spent. It
# says what became of the calls, and ends with 0 where it was as docs/kamailio.md says. It needs root, for the
# namespaces srtpgw-set, srtpgw-set-one and srtpgw-set-two, which it takes down again.
#
#   examples/kamailio/sets.sh                with ./srtpgw, or with the program that SRTPGW names
#   examples/kamailio/sets.sh SCENE..        some of its scenes
here=$(cd "$(dirname "${BASH_SOURCE[0]}")" && pwd)
. "$here/needs.sh"
needs kamailio kamailio
needs sipp sip-tester
needs nft nftables
[ "$(id -u)" = 0 ] || { echo "${0##*/}: not run: it needs root" >&2; exit 77; }
exec timeout -k 5 600 "$python" "$here/sets.py" "$@"
