#!/usr/bin/env bash
# Calls between two networks, through the gateway in a third one behind real (virtual) interfaces: it makes the three
# namespaces, offers a call by either side, compares every octet both ways and the counts of tools/watch.py, shows what
# the guard rule is for, and takes all down. The protected telephone is a program in Python, and then ffmpeg, where that
# is there. As root; it ends with 0 where all was as it should be.
#
#   examples/network/call.sh               with ./srtpgw, or with the program that SRTPGW names
here=$(cd "$(dirname "${BASH_SOURCE[0]}")" && pwd)
. "$here/../live/needs.sh"
needs ip iproute2
needs nft nftables
here=$(cd "$(dirname "${BASH_SOURCE[0]}")" && pwd)
if [ "$(id -u)" -ne 0 ]; then echo "${0##*/}: not run: namespaces are for root to make" >&2; exit 77; fi
export NAME=srtpgw-$$
trap '"$here/namespaces.sh" down' EXIT
"$here/namespaces.sh" up || exit 77
plays() { timeout -k 5 300 ip netns exec "$NAME-gateway" python3 "$here/$1"; }
plays call.py || exit
command -v ffmpeg > /dev/null || { echo "${0##*/}: without ffmpeg, which isn't there"; exit 0; }
plays ffmpeg.py
