#!/usr/bin/env bash
# Two protected telephones by two gateways back to back: each telephone is on the secure side of its own gateway, and the
# gateways are each other's plain side. One telephone has keys of 128 bits and the other of 256. It makes four namespaces,
# agrees a call, compares every octet both ways, reports too, and takes all down. As root; it ends with 0 where all was as
# it should be.
#
#   examples/network/two_gateways.sh             with ./srtpgw, or with the program that SRTPGW names
#   CALLS=40 examples/network/two_gateways.sh    so many at once, and how long a packet is under way; gateways and this at a
#                                                real-time priority
here=$(cd "$(dirname "${BASH_SOURCE[0]}")" && pwd)
. "$here/../live/needs.sh"
needs ip iproute2
needs nft nftables
here=$(cd "$(dirname "${BASH_SOURCE[0]}")" && pwd)
if [ "$(id -u)" -ne 0 ]; then echo "${0##*/}: not run: namespaces are for root to make" >&2; exit 77; fi
export NAME=srtpgw-$$

# A gateway's namespace with its addresses of the two sides, and its telephone's namespace behind the secure one.
gateway() {
  local space=$1 telephone=$2 secure=$3 plain=$4 behind=$5
  ip netns add "$NAME-$space" && ip netns add "$NAME-$telephone" &&
    ip -n "$NAME-$space" link set lo up &&
    ip -n "$NAME-$space" link add secure type veth peer name telephone netns "$NAME-$telephone" &&
    ip -n "$NAME-$space" addr add "$secure/24" dev secure && ip -n "$NAME-$space" link set secure up &&
    ip -n "$NAME-$telephone" addr add "$behind/24" dev telephone && ip -n "$NAME-$telephone" link set telephone up &&
    ip netns exec "$NAME-$space" sysctl -qw net.ipv4.conf.secure.route_localnet=1 &&
    sed -e "s/^define secure_address = .*/define secure_address = $secure/" \
      -e "s/^define plain_address = .*/define plain_address = $plain/" "$here/srtpgw.nft" |
    ip netns exec "$NAME-$space" nft -f -
}

# Its end of the wire between the gateways, which must not leave the machine: what passes there is plain.
middle() {
  ip -n "$NAME-$1" addr add "$2/24" dev plain && ip -n "$NAME-$1" link set plain up &&
    ip netns exec "$NAME-$1" sysctl -qw net.ipv4.conf.plain.route_localnet=1
}

down() {
  local space
  for space in one two first second; do
    [ ! -e "/run/netns/$NAME-$space" ] || ip netns delete "$NAME-$space"
  done
}

trap down EXIT
gateway one first 10.1.0.1 10.2.0.1 10.1.0.2 && gateway two second 10.3.0.1 10.2.0.2 10.3.0.2 &&
  ip -n "$NAME-one" link add plain type veth peer name plain netns "$NAME-two" &&
  middle one 10.2.0.1 && middle two 10.2.0.2 || exit 77
timeout -k 5 120 ip netns exec "$NAME-one" python3 "$here/two_gateways.py"
