#!/usr/bin/env bash
# New keys in the middle of a call, twice: by a re-offer of the secure side after two seconds and by one of the
# plain side after four, while packets go on both ways. A telephone needs a while to change over: this one seals
# under the key of before for half a second behind the answer. It says how many packets arrived under which key,
# and ends with 0 where none is lost.
#
#   examples/live/reoffer.sh                 with ./srtpgw, or with the program that SRTPGW names
. "$(dirname "$0")/needs.sh"
python3 -c 'import cryptography' 2> /dev/null || { echo 'not run: python3-cryptography is needed' >&2; exit 77; }
exec timeout -k 5 600 python3 "$here/reoffer.py"
