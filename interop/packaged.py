#!/usr/bin/env python3
"""The NG daemon as a package has put it into a folder: each of its options stands in its manual page, and it begins, tells
that it is ready, is asked as its container asks it, and ends.

    interop/packaged.py FOLDER
"""
import gzip
import os
import re
import signal
import socket
import subprocess
import sys
import tempfile
from pathlib import Path

from loopback import has_own_loopback

ROOT = Path(sys.argv[1])
NG = ROOT / "usr/share/srtpgw/tools/ng"
BAD = []


def check(what, holds):
    if not holds:
        print(f"package: {what}: NO")
        BAD.append(what)


def options():
    told = subprocess.run([NG / "srtpgw-ng", "--help"], capture_output=True, text=True, timeout=60).stdout
    page = gzip.decompress((ROOT / "usr/share/man/man8/srtpgw-ng.8.gz").read_bytes()).decode().replace("\\-", "-")
    words = set(re.findall(r"(?<![\w-])--[a-z][a-z-]*", told)) - {"--help", "--mux)"}
    check("options", len(words) > 10)
    for word in sorted(words):
        check(f"the manual page has {word}", re.search(rf"{word}(?![\w-])", page))


def begins(folder):
    """As the unit starts it."""
    path = f"{folder}/notify"
    environ = {**os.environ, "NOTIFY_SOCKET": path, "SRTPGW": str(ROOT / "usr/bin/srtpgw"), "PYTHONDONTWRITEBYTECODE": "1"}
    with socket.socket(socket.AF_UNIX, socket.SOCK_DGRAM) as end:
        end.bind(path)
        end.settimeout(120)
        words = [NG / "srtpgw-ng", "--calls", f"{folder}/calls", "--metrics", "127.0.0.1:9123"]
        daemon = subprocess.Popen(words, env=environ, stdout=subprocess.DEVNULL)
        try:
            check("it tells that it is ready", end.recv(1_000).startswith(b"READY=1\n"))
            asked = subprocess.run([sys.executable, NG / "health.py"], capture_output=True, text=True, timeout=60)
            check(f"it is well: {asked.stdout}{asked.stderr}", asked.returncode == 0)
            daemon.send_signal(signal.SIGTERM)
            check("it ends with 0", daemon.wait(60) == 0)
            check("it tells that it ends", end.recv(1_000).startswith(b"STOPPING=1\n"))
        finally:
            daemon.kill()
    asked = subprocess.run([sys.executable, NG / "health.py", "--within", "1"], capture_output=True, timeout=60)
    check("and isn't well then", asked.returncode == 1)


def main():
    options()
    if not has_own_loopback():
        print("package: in this machine's own loopback")
    with tempfile.TemporaryDirectory() as folder:
        begins(folder)
    return bool(BAD)


if __name__ == "__main__":
    sys.exit(main())
