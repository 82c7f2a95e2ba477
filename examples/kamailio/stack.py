"""Kamailio, and behind it srtpgw-ng or rtpengine: each with its log in a folder, and in a network namespace if one is
named."""

import contextlib
import json
import os
import re
import signal
import socket
import subprocess
import sys
import time
import urllib.request
from pathlib import Path

HERE = Path(__file__).resolve().parent
TOP = HERE.parents[1]
sys.path[:0] = [str(HERE.parent / "live"), str(TOP / "tools")]

from ends import program, wait_until  # noqa: E402
from ng.bencode import decoded, encoded  # noqa: E402

CONFIG = HERE / "kamailio.cfg"


class Process:
    """A process that runs until it is ended."""

    def __init__(self, name, words, folder, space=None):
        self.name, self.path = name, Path(folder) / f"{name}.log"
        self.log = open(self.path, "ab")
        words = (["ip", "netns", "exec", space] if space else []) + [str(word) for word in words]
        self.process = subprocess.Popen(words, stdin=subprocess.DEVNULL, stdout=self.log, stderr=subprocess.STDOUT)

    def says(self, pattern, seconds=20):
        """Waits until its log has a line."""
        def found():
            if self.process.poll() is not None:
                raise ChildProcessError(f"{self.name} has ended: {self.text()[-2000:]}")
            return re.search(pattern, self.text())
        wait_until(found, seconds, f"{self.name} to say {pattern}")

    def text(self):
        return self.path.read_text(errors="replace")

    def ends(self, number=signal.SIGTERM, seconds=30):
        """Its status, behind a signal."""
        if self.process.poll() is None:
            self.process.send_signal(number)
        try:
            return self.process.wait(seconds)
        except subprocess.TimeoutExpired:
            self.process.kill()
            return self.process.wait()
        finally:
            self.log.close()


def ng(folder, listen=("127.0.0.1", 2223), space=None, name="ng", *words):
    """srtpgw-ng over the gateway."""
    words = ["python3", TOP / "tools" / "ng", "--listen", "%s:%d" % listen, "--program", program(), *words]
    started = Process(name, words, folder, space)
    started.says("answers NG requests")
    return started


def rtpengine(folder, listen=("127.0.0.1", 2223), address="127.0.0.1"):
    """rtpengine in the gateway's place, without its kernel module."""
    words = ["rtpengine", "--config-file=none", "-f", "-E", "-t", "-1", "-i", address, "-L", "4", "-m", "30000",
             "-M", "31000", "-d", "0", "-n", "%s:%d" % listen, "-p", f"{folder}/rtpengine.pid"]
    started = Process("rtpengine", words, folder)
    wait_until(lambda: asked(listen, "ping").get(b"result") == b"pong", what="rtpengine")
    return started


def kamailio(folder, space=None, **defined):
    """Kamailio by the page's configuration, with some of its names given."""
    words = [word for name, value in defined.items() for word in ("-A", f"{name}={value}")]
    started = Process("kamailio", ["kamailio", "-f", CONFIG, "-DD", "-E", "-Y", folder, *words], folder, space)
    started.says("Listening on")
    time.sleep(1)
    return started


def asked(address, command, **fields):
    """What is answered to an NG request, or nothing."""
    with socket.socket(socket.AF_INET, socket.SOCK_DGRAM) as own, contextlib.suppress(OSError):
        own.settimeout(1)
        own.connect(address)
        cookie = os.urandom(8).hex().encode()
        own.send(cookie + b" " + encoded({"command": command, **fields}))
        return decoded(own.recv(65_536).partition(b" ")[2])
    return {}


def dialogs(url="http://127.0.0.1:5071/RPC"):
    """How many dialogs Kamailio has."""
    body = json.dumps({"jsonrpc": "2.0", "id": 1, "method": "dlg.stats_active"}).encode()
    with urllib.request.urlopen(urllib.request.Request(url, body), timeout=5) as answer:
        return json.load(answer)["result"]["all"]


@contextlib.contextmanager
def running(*started):
    """Ends all of them behind its block, the last one first."""
    with contextlib.ExitStack() as kept:
        for one in started:
            kept.callback(one.ends)
        yield
