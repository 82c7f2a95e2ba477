#!/usr/bin/env bash
# Measures sg_bench, libsrtp and libre in turns, and prints a table of medians and ratios in Markdown.
#
#   bench/run.sh [ROUNDS] [--least] [--from-source] [--install]
#
# ROUNDS (5) is how often each program runs. With --least the least of a program's runs is taken in place of the
# median, for a machine that others use too. With --from-source Debian's source package of libsrtp is
# fetched too, and built over its own C and over OpenSSL. With --install Debian's packages that are wanting
# are installed; without it they are named, and nothing is done. Where the processor is of x86-64-v3,
# srtpgw is built for it, and for the default level beside it. Times are of the processor, so that other
# programs that run beside count little; a quiet machine is still better.
set -euo pipefail
top=$(cd "$(dirname "$(readlink -f "${BASH_SOURCE[0]}")")/.." && pwd)
work=${TMPDIR:-/tmp}/srtpgw-bench
rounds=5
chosen=medians
from_source=no
install=no
for word in "$@"; do
  case $word in
    --least) chosen=least ;;
    --from-source) from_source=yes ;;
    --install) install=yes ;;
    *[!0-9]* | '' | 0) sed -n '2,12s/^# \?//p' "${BASH_SOURCE[0]}" >&2; exit 1 ;;
    *) rounds=$word ;;
  esac
done
mkdir -p "$work"

# Wants the package that has this file, and installs it only where that was asked for, as root or by sudo.
want() {
  local file=$1 package=$2
  [ ! -e "$file" ] || return 0
  if [ "$install" = no ]; then
    echo "bench/run.sh: Debian's package $package is wanting; --install installs it" >&2
    exit 1
  fi
  if [ "$(id -u)" -eq 0 ]; then apt-get install -y "$package" >&2; else sudo apt-get install -y "$package" >&2; fi
}

# The packaged libsrtp.
build_packaged() {
  want /usr/include/srtp2/srtp.h libsrtp2-dev
  cc -O2 -Wall -Wextra -o "$work/libsrtp" "$top/bench/libsrtp.c" -lsrtp2
}

# The packaged libre.
build_libre() {
  want /usr/include/re/re.h libre-dev
  cc -O2 -Wall -Wextra -o "$work/libre" "$top/bench/libre.c" -lre
}

# Debian's source package, from where this machine has its packages, in a folder of its own and with lists of its own.
fetch_source() {
  local apt=(apt-get -o Dir::Etc::sourcelist=/dev/null -o "Dir::Etc::sourceparts=$work/sources"
    -o "Dir::State::lists=$work/lists" -o APT::Sandbox::User=root)
  mkdir -p "$work/lists/partial" "$work/sources"
  sed 's/^Types: deb$/Types: deb-src/' /etc/apt/sources.list.d/debian.sources > "$work/sources/debian.sources"
  (cd "$work" && "${apt[@]}" update >&2 && "${apt[@]}" source --download-only libsrtp2 >&2)
  rm -rf "$work/source"
  dpkg-source --no-check -x "$work"/libsrtp2_*.dsc "$work/source" >&2
}

# libsrtp from its source: a name, and then what configure is told.
build_from_source() {
  local name=$1 build=$work/build-$1
  shift
  rm -rf "$build"
  mkdir -p "$build/headers"
  (cd "$build" && "$work/source/configure" "$@" > configure.log 2>&1 && make libsrtp2.a > make.log 2>&1)
  ln -s "$work/source/include" "$build/headers/srtp2"
  cc -O2 -Wall -Wextra -I"$build/headers" -I"$work/source/crypto/include" -o "$work/$name" \
    "$top/bench/libsrtp.c" "$build/libsrtp2.a" -lcrypto
}

# sg_bench under a name: proved, built as `rt run` is told, and run once as the gate runs it.
build_bench() {
  local name=$1
  shift
  (cd "$top/crates/sg_bench" && rt run "$@") > "$work/digests"
  if ! cmp -s <(grep '^AES' "$work/digests") "$top/crates/sg_bench/stdout"; then
    echo 'bench/run.sh: sg_bench seals other octets than it must' >&2
    exit 1
  fi
  cp "$top/crates/sg_bench/out/sg_bench" "$work/$name"
}

# Runs sg_bench of that name; its lines name it, those of its parts too unless it is `srtpgw`.
run_bench() {
  local part="part $1-"
  [ "$1" != srtpgw ] || part='part '
  "$work/$1" time | sed "s/^srtpgw /$1 /; s/^part /$part/"
}

build_packaged
build_libre
programs=(libsrtp libre)
if [ "$from_source" = yes ]; then
  [ -d "$work/source" ] || fetch_source
  want /usr/include/openssl/evp.h libssl-dev
  build_from_source libsrtp-C
  build_from_source libsrtp-OpenSSL --enable-openssl
  programs+=(libsrtp-C libsrtp-OpenSSL)
fi
processor=$("$top/scripts/processor")
benches=(srtpgw)
build_bench srtpgw ${processor:+"$processor"}
if [ -n "$processor" ]; then
  build_bench srtpgw-default
  benches+=(srtpgw-default)
fi

: > "$work/times"
for ((round = 0; round < rounds; round++)); do
  for bench in "${benches[@]}"; do run_bench "$bench" >> "$work/times"; done
  for program in "${programs[@]}"; do "$work/$program" "$program" >> "$work/times" 2>> "$work/notes"; done
done
echo "$(lscpu | sed -n 's/^Model name: *//p'), $(nproc) processors, $(date -u '+%Y-%m-%d %H:%M UTC'), \
load average $(cut -d' ' -f1 /proc/loadavg), $rounds runs of each program in turns, ${chosen}; \
srtpgw built for ${processor:+x86-64-v3, srtpgw-default for }the default level, x86-64-v2"
echo
options=()
[ "$chosen" = medians ] || options+=(--least)
python3 "$top/bench/table.py" "${options[@]}" "${benches[@]:1}" "${programs[@]}" < "$work/times"
