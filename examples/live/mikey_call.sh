#!/usr/bin/env bash
# Calls keyed by MIKEY under a pre-shared key, with the writer and reader of interop/mikey.py as the far end: one
# that the plain side offers, where the gateway makes the message, and one that the telephone offers. Three
# seconds of PCMU and three RTCP reports go each way. It says what arrived, and ends with 0 where all did.
#
#   examples/live/mikey_call.sh              with ./srtpgw, or with the program that SRTPGW names
. "$(dirname "$0")/needs.sh"
python3 -c 'import cryptography' 2> /dev/null || { echo 'not run: python3-cryptography is needed' >&2; exit 77; }
exec timeout -k 5 600 python3 "$here/mikey_call.py"
