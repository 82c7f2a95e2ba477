#!/usr/bin/env bash
# ffmpeg as a telephone on the secure leg: eight seconds of PCMU each way at once through a call with keys by
# hand, over a wrap of sequence numbers, in AES_CM_128_HMAC_SHA1_80 and AES_CM_128_HMAC_SHA1_32 (ffmpeg has no
# other suite). It says what arrived, and ends with 0 where the octets are those that were sent.
#
#   examples/live/ffmpeg.sh                  with ./srtpgw, or with the program that SRTPGW names
. "$(dirname "$0")/needs.sh"
needs ffmpeg ffmpeg
ffmpeg -version | head -1
exec timeout -k 5 600 python3 "$here/ffmpeg.py"
