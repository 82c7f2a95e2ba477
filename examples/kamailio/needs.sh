# shellcheck shell=bash
# Read by the scripts beside it. `needs COMMAND PACKAGE` ends the script with 77 where the command isn't there.
needs() {
  command -v "$1" > /dev/null && return
  echo "${0##*/}: not run: $1 isn't there (Debian's package $2)" >&2
  exit 77
}
needs ip iproute2
needs unshare util-linux
for python in python3 /usr/bin/python3; do "$python" -c 'import cryptography' 2> /dev/null && break; done
"$python" -c 'import cryptography' 2> /dev/null || {
  echo "${0##*/}: not run: Python has no library cryptography (Debian's package python3-cryptography)" >&2
  exit 77
}
# Runs a command in a network of its own: a loopback, and one more address, without which baresip 1.0.0 has no media.
# Not root, it is root in a user namespace.
own_network() {
  local words=(unshare --net)
  [ "$(id -u)" = 0 ] || words+=(--user --map-root-user)
  # shellcheck disable=SC2016
  "${words[@]}" bash -c '
    ip link set lo up && ip link add a0 type veth peer name a1 && ip address add 10.99.0.1/24 dev a0 &&
    ip link set a0 up && ip link set a1 up || exit 77
    "$@"' own "$@"
}
