#!/usr/bin/env bash
# Two telephones in Python that both encrypt, and not alike: crypto lines with AES-128 and with AES-256, and crypto lines with
# MIKEY, either of them calling. Each has a call of its own, and the two are joined. It compares each octet of RTP and of
# RTCP both ways, and ends with 0 where all came as it was sent.
#
#   examples/live/pair.sh                    with ./srtpgw, or with the program that SRTPGW names
. "$(dirname "$0")/needs.sh"
for python in python3 /usr/bin/python3; do "$python" -c 'import cryptography' 2> /dev/null && break; done
"$python" -c 'import cryptography' 2> /dev/null || { echo 'not run: Python has no library cryptography (python3-cryptography)' >&2; exit 77; }
exec timeout -k 5 120 "$python" "$here/pair.py"
