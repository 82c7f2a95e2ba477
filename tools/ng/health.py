#!/usr/bin/env python3
"""Whether the NG daemon is well: it is asked for its statistics, which the workers answer, and not only by a ping.

    python3 tools/ng/health.py [--at HOST:PORT]          # status 0 where it is, 1 where it isn't
"""

import os
import socket
import sys
from pathlib import Path

sys.path.insert(0, str(Path(__file__).resolve().parents[1]))

import words  # noqa: E402
from ng.bencode import Bad, decoded, encoded  # noqa: E402

TRIES = 3


def is_well(address, within):
    """Whether an answer comes in one of some tries, of `within` seconds all together."""
    cookie = os.urandom(8).hex().encode()
    with socket.socket(socket.AF_INET, socket.SOCK_DGRAM) as end:
        end.settimeout(within / TRIES)
        for _ in range(TRIES):
            try:
                end.connect(address)
                end.send(cookie + b" " + encoded({"command": "statistics"}))
                kept, _, body = end.recv(65_536).partition(b" ")
                return kept == cookie and decoded(body).get(b"result") == b"ok"
            except (OSError, Bad):
                continue
    return False


def main():
    parser = words.Parser(description="whether the NG daemon is well")
    parser.add_argument("--at", type=words.address, default=("127.0.0.1", 2223), metavar="HOST:PORT",
                        help="where it listens (127.0.0.1:2223)")
    parser.add_argument("--within", type=words.seconds(0.1, 60), default=3.0, metavar="SECONDS",
                        help="how long its answer may take (3)")
    given = parser.parse_args()
    return 0 if is_well(given.at, given.within) else 1


if __name__ == "__main__":
    sys.exit(main())
