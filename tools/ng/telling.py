"""Tells Kamailio of calls that have ended without it, by JSON-RPC over HTTP: `dlg.terminate_dlg` of its module `dialog`
has it send BYE to both telephones. Other threads tell, so that no call waits for it. A file keeps the dialogs that
are there, or aren't told yet, so that where the daemon itself was killed the next one can tell.
"""

import collections
import http.client
import json
import os
import queue
import threading
import time
import urllib.request

# The seconds that the SIP server has for an answer, and how many dialogs it is told of at once.
PATIENCE, AT_ONCE = 5, 8

# A SIP dialog: its Call-ID, and the tags of the one who offered first and of the other side.
Dialog = collections.namedtuple("Dialog", "id near far")


def dialog(call):
    """The dialog of a call."""
    tags = list(call.tags.items())  # Another thread may add one meanwhile.
    near, own = tags[0] if tags else (b"", None)
    others = [tag for tag, side in tags if side != own]
    return Dialog(*(octets.decode("utf-8", "replace") for octets in (call.id, near, others[-1] if others else b"")))


class Telling:
    """Tells of dialogs at a URL, or of none where there is no URL."""

    def __init__(self, url, log=print):
        self.url, self.log = url, log
        # Those that are yet to be told, each with why it has ended.
        self.left, self.waiting = {}, queue.Queue()
        self.threads = [threading.Thread(target=self.work, daemon=True) for _ in range(AT_ONCE)]
        for thread in self.threads:
            thread.start()

    def tell(self, told, why):
        """Has a dialog ended."""
        if self.url:
            self.left[told] = why
            self.waiting.put(told)

    def close(self):
        """Waits until all are told, or some seconds."""
        until = time.monotonic() + 2 * PATIENCE
        for _ in self.threads:
            self.waiting.put(None)
        for thread in self.threads:
            thread.join(max(0, until - time.monotonic()))

    def work(self):
        for told in iter(self.waiting.get, None):
            try:
                self.ask(told)
            except (OSError, ValueError, http.client.HTTPException) as fault:
                self.log(f"the SIP server couldn't be told that {told.id[:128]!r} has ended ({self.left.get(told)}): {fault}")
            self.left.pop(told, None)

    def ask(self, told):
        body = {"jsonrpc": "2.0", "id": 1, "method": "dlg.terminate_dlg", "params": list(told)}
        request = urllib.request.Request(self.url, json.dumps(body).encode(), {"Content-Type": "application/json"})
        with urllib.request.urlopen(request, timeout=PATIENCE) as answer:
            said = json.load(answer)
        if not isinstance(said, dict) or "error" in said:
            raise ValueError(f"it answered {str(said)[:256]}")


class Kept:
    """The dialogs of the calls that are there, and those that aren't told yet, in a file; in none where there is no path.
    What a daemon before this one has left stays there until it is read."""

    def __init__(self, path, telling, log=print):
        self.path, self.telling, self.log, self.lock = path, telling, log, threading.Lock()
        self.is_read = False

    def left(self):
        """Those that a daemon before this one has left."""
        self.is_read = True
        try:
            with open(self.path, encoding="utf-8") as file:
                return [Dialog(*fields) for fields in json.load(file)]
        except (OSError, TypeError, ValueError):
            return []

    def keep(self, calls):
        """Has the file say which calls are there now, as `calls` answers."""
        if not self.path or not self.is_read:
            return
        try:
            with self.lock:
                told = [dialog(call) for call in calls() if call.live]
                with open(f"{self.path}.new", "w", encoding="utf-8") as file:
                    json.dump([*list(self.telling.left), *told], file)
                os.replace(f"{self.path}.new", self.path)
        except OSError as fault:
            self.log(f"the dialogs couldn't be kept: {fault}")
