#!/usr/bin/env bash
# Two telephones' networks and a gateway between them, on one machine: three network namespaces, which nothing else
# uses, joined by two pairs of virtual interfaces. Needs root (Debian's packages iproute2 and nftables).
#
#   examples/network/namespaces.sh up           makes NAME-gateway, NAME-secure and NAME-plain, NAME being srtpgw
#   ip netns exec srtpgw-gateway ./srtpgw relay --turns 1000000      the gateway between them
#   examples/network/namespaces.sh down         takes all of it down
#
# NAME in the environment is another name. What runs in a namespace has to be ended before it is taken down.
set -u
name=${NAME:-srtpgw}
here=$(cd "$(dirname "${BASH_SOURCE[0]}")" && pwd)

# A side's namespace with its telephone's address, joined to the gateway's.
side() {
  local side=$1 gateway=$2 telephone=$3
  ip netns add "$name-$side" &&
    ip -n "$name-$side" link set lo up &&
    ip -n "$name-gateway" link add "$side" type veth peer name telephone netns "$name-$side" &&
    ip -n "$name-gateway" addr add "$gateway/24" dev "$side" &&
    ip -n "$name-gateway" link set "$side" up &&
    ip -n "$name-$side" addr add "$telephone/24" dev telephone &&
    ip -n "$name-$side" link set telephone up &&
    ip -n "$name-$side" route add default via "$gateway" &&
    ip netns exec "$name-gateway" sysctl -qw "net.ipv4.conf.$side.route_localnet=1"
}

up() {
  ip netns add "$name-gateway" &&
    ip -n "$name-gateway" link set lo up &&
    ip netns exec "$name-gateway" nft -f "$here/srtpgw.nft" &&
    side secure 10.1.0.1 10.1.0.2 &&
    side plain 10.2.0.1 10.2.0.2 &&
    ip netns exec "$name-gateway" sysctl -qw net.ipv4.ip_local_reserved_ports=20000-24095
}

down() {
  local status=0 space
  for space in gateway secure plain; do
    [ ! -e "/run/netns/$name-$space" ] || ip netns delete "$name-$space" || status=1
  done
  return "$status"
}

case ${1:-} in
  up) up || { down; echo "${0##*/}: the namespaces couldn't be made" >&2; exit 1; } ;;
  down) down ;;
  *) echo "usage: ${0##*/} up | down" >&2; exit 2 ;;
esac
