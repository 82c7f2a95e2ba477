#!/usr/bin/env bash
# Calls of two telephones behind address translation that changes ports, each behind its own: by srtpgw-ng with --latch and
# without, with a telephone that moves, one that is held, and a stranger. It makes five namespaces and takes them down. As
# root; it takes most of a minute, and ends with 0 where all was as it should be.
#
#   examples/network/nat.sh                with ./srtpgw, or with the program that SRTPGW names
#
#   telephone 192.168.7.2 -- 10.1.0.2 and 10.1.0.3 | 10.1.0.1 gateway 10.2.0.1 | 10.2.0.2 -- 192.168.8.2 telephone
here=$(cd "$(dirname "${BASH_SOURCE[0]}")" && pwd)
. "$here/../live/needs.sh"
needs ip iproute2
needs nft nftables
here=$(cd "$(dirname "${BASH_SOURCE[0]}")" && pwd)
if [ "$(id -u)" -ne 0 ]; then echo "${0##*/}: not run: namespaces are for root to make" >&2; exit 77; fi
export NAME=srtpgw-$$

# Two interfaces that are joined: NAMESPACE INTERFACE ADDRESS of the one and of the other.
joined() {
  ip -n "$NAME-$1" link add "$2" type veth peer name "$5" netns "$NAME-$4" &&
    ip -n "$NAME-$1" addr add "$3/24" dev "$2" && ip -n "$NAME-$1" link set "$2" up &&
    ip -n "$NAME-$4" addr add "$6/24" dev "$5" && ip -n "$NAME-$4" link set "$5" up
}

# A side: the gateway's interface, the translator's two and the telephone's. What leaves gets another port each time.
side() {
  local side=$1 gateway=$2 outside=$3 inside=$4 telephone=$5
  joined gateway "$side" "$gateway" "$side-nat" outside "$outside" &&
    joined "$side-nat" inside "$inside" "$side" telephone "$telephone" &&
    ip -n "$NAME-$side" route add default via "$inside" &&
    ip netns exec "$NAME-$side-nat" sysctl -qw net.ipv4.ip_forward=1 &&
    ip netns exec "$NAME-gateway" sysctl -qw "net.ipv4.conf.$side.route_localnet=1" &&
    ip netns exec "$NAME-$side-nat" nft -f - << END
table ip translation {
  chain leaving {
    type nat hook postrouting priority srcnat
    oifname outside ip saddr $telephone snat to $outside random
  }
}
END
}

up() {
  local space
  for space in gateway secure-nat secure plain-nat plain; do
    ip netns add "$NAME-$space" && ip -n "$NAME-$space" link set lo up || return
  done
  ip netns exec "$NAME-gateway" nft -f "$here/srtpgw.nft" &&
    ip netns exec "$NAME-gateway" sysctl -qw net.ipv4.ip_local_reserved_ports=20000-24095 &&
    side secure 10.1.0.1 10.1.0.2 192.168.7.1 192.168.7.2 &&
    side plain 10.2.0.1 10.2.0.2 192.168.8.1 192.168.8.2 &&
    ip -n "$NAME-secure-nat" addr add 10.1.0.3/24 dev outside &&
    ip -n "$NAME-plain-nat" addr add 10.2.0.9/24 dev outside &&
    ip -n "$NAME-gateway" route add default via 10.2.0.2
}

down() {
  local space
  for space in gateway secure-nat secure plain-nat plain; do
    [ ! -e "/run/netns/$NAME-$space" ] || ip netns delete "$NAME-$space"
  done
}

trap down EXIT
up || { echo "${0##*/}: not run: the namespaces couldn't be made" >&2; exit 77; }
timeout -k 5 900 ip netns exec "$NAME-gateway" python3 "$here/nat.py"
