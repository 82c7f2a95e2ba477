#!/usr/bin/env python3
"""Sends the NG daemon (tools/ng) hostile datagrams under each locale, with a log that is read at once, slowly, by nobody, by
somebody who goes away, or that is a full disk, and with full disks for its files; and looks whether it goes on.

    interop/ng_hostile.py PROGRAM [COUNT [SETTINGS]]     so many datagrams over so many of the settings; 100,000 over all

Each setting has a daemon of its own and a call, whose packets have to pass all the time. It needs what
interop/ng_protocol.py needs.
"""
import contextlib
import itertools
import os
import random
import signal
import socket
import subprocess
import sys
import tempfile
import threading
import time
from pathlib import Path

from loopback import has_own_loopback
from ng_protocol import (
    HOST, NG, Server, TOP, bencoded, call, cut, drawn, is_too_long, key, malformed, mistyped, plain, port_of, reason_of, secure,
    sockets,
)
from usage import words_or_usage

ALL_SECONDS, ENDING = 3_600, 60
# How the daemon's standard output is spelled: by its environment.
BARE = {"PYTHONUTF8": "0", "PYTHONCOERCECLOCALE": "0"}
LOCALES = [{"PYTHONIOENCODING": name} for name in ("utf-8", "latin-1", "ascii", "koi8-r", "shift_jis", "utf-16")]
LOCALES += [{"LC_ALL": name, **BARE} for name in ("C", "POSIX", "C.UTF-8")]
READERS = ("read at once", "read slowly", "read by nobody", "whose reader has gone", "on a full disk")
# Each locale with each reader, and every other time with a full disk for the daemon's files; the first nine have each locale.
SETTINGS = [
    (locale, READERS[(place + shift) % len(READERS)], (place + shift) % 2)
    for shift in range(len(READERS)) for place, locale in enumerate(LOCALES)]
NAMES = [b"a", b"\xff\xfe\x80", "\u20ac\u202e\x1b[2J".encode(), b"x" * 2_000, b"x" * 200, b"", b"\n\r\0", "\U0001f4de".encode()]
# A log that is read slowly has a line read so often.
SLOWLY = 0.01


def drawn_requests(count, seed):
    """Requests of any command in any order, with names that a log can't spell, texts of either side, and flags."""
    own = random.Random(seed)
    commands = ["offer", "offer", "answer", "delete", "query", "list", "statistics", "ping", "start recording", "\u20ac", ""]
    texts = [secure(), plain(), secure("a=sendonly"), plain("a=rtcp-mux"), secure(crypto=key()), "v=0\r\n", ""]
    for number in range(count):
        message = {
            "command": own.choice(commands), "call-id": own.choice(NAMES) + b"%d" % own.randrange(32),
            "from-tag": own.choice(NAMES[:5]), "to-tag": own.choice(NAMES[:5]), "sdp": own.choice(texts),
            "transport-protocol": own.choice(["RTP/SAVP", "RTP/AVP", "UDP/TLS/RTP/SAVP", "\u20ac"]),
            "via-branch": own.choice(NAMES[:2]), "flags": own.choice([[], ["trust-address"], [b"\xff"], [[]]])}
        octets = b"q%d " % number + bencoded(message)
        yield octets if own.randrange(4) else octets[:own.randrange(len(octets))]


def hostile(count, seed):
    """So many datagrams of all kinds."""
    known = [*cut(), *malformed(), *mistyped()]
    random.Random(seed).shuffle(known)
    half = max(0, count - len(known) // 2) // 2
    kinds = itertools.chain(known[:count - 2 * half], drawn(half, seed), drawn_requests(half, seed))
    return (datagram[:65_507] for datagram in kinds)


class Log:
    """The daemon's standard output, and what becomes of it."""

    def __init__(self, how):
        self.how, self.lines, self.over = how, [], threading.Event()
        ends = (None, os.open("/dev/full", os.O_WRONLY)) if how == READERS[4] else os.pipe()
        self.read_end, self.write_end = ends

    def begin(self):
        """Once the daemon has it."""
        os.close(self.write_end)
        if self.how == READERS[3]:
            os.close(self.read_end)
        elif self.how in READERS[:2]:
            self.reader = threading.Thread(target=self.read, daemon=True)
            self.reader.start()

    def read(self):
        with os.fdopen(self.read_end, "rb") as lines:
            for line in lines:
                self.lines.append(line)
                if self.how == READERS[1] and not self.over.is_set():
                    time.sleep(SLOWLY)

    def end(self):
        """All that was read of it."""
        self.over.set()
        if self.how in READERS[:2]:
            self.reader.join(ENDING)
        elif self.how == READERS[2]:
            os.close(self.read_end)
        return self.lines


@contextlib.contextmanager
def daemon_in(folder, program, locale, reader, full):
    """The daemon, once it answers, and what stands for its log."""
    log, files = Log(reader), [Path(folder, name) for name in ("outcomes", "calls.new")]
    if full:
        for path in files:
            path.symlink_to("/dev/full")
    words = [sys.executable, TOP / "tools/ng", "--listen", "%s:%d" % NG, "--program", program, "--outcomes", files[0],
             "--calls", Path(folder, "calls"), "--priority", "0"]
    with open(Path(folder, "errors"), "w+b") as errors:
        daemon = subprocess.Popen(words, stdout=log.write_end, stderr=errors, env={**os.environ, **locale})
        try:
            log.begin()
            wait_for(daemon)
            yield daemon, log
            daemon.send_signal(signal.SIGTERM)
            assert daemon.wait(ENDING) == 0, f"its status is {daemon.returncode}"
        finally:
            daemon.kill()
        errors.seek(0)
        assert not (said := errors.read()), said.decode(errors="replace")


def wait_for(daemon):
    """Until it answers."""
    until = time.monotonic() + ENDING
    while time.monotonic() < until and daemon.poll() is None:
        with contextlib.suppress(OSError):
            return Server().is_answered()
        time.sleep(0.1)
    raise AssertionError(f"it doesn't begin: {daemon.poll()}")


def most_resident(daemon):
    """The most memory that it had, in KiB."""
    return int(Path(f"/proc/{daemon.pid}/status").read_text().split("VmHWM:")[1].split()[0])


def played(program, count, seed, setting):
    """One setting: how much memory the daemon had at most."""
    with tempfile.TemporaryDirectory() as folder, sockets() as (at_secure, at_plain):
        with daemon_in(folder, program, *setting) as (daemon, log):
            server = Server()
            port = port_of(call(server, "kept")[0])
            for place, datagram in enumerate(hostile(count, seed)):
                server.sends(datagram)
                if place % 50 == 49:
                    assert answers(server), place
                    passes(at_plain, at_secure, port, place)
            for number in range(100):
                assert reason_of(server.asks("query", call_id=f"another {number}")) == "Unknown call-id"
            passes(at_plain, at_secure, port, count)
            memory = most_resident(daemon)
        for line in log.end():
            assert b"fault of the daemon's own" not in line and b"Traceback" not in line, line
        return memory


def passes(at_plain, at_secure, port, number):
    """A plain packet comes out sealed: its head, and ten octets more."""
    packet = bytes.fromhex("8000") + number.to_bytes(2, "big") + bytes.fromhex("00000020000000ab") + bytes(160)
    at_plain.sendto(packet, (HOST, port))
    sealed = at_secure.recv(2_048)
    assert sealed[:12] == packet[:12] and len(sealed) == len(packet) + 10, sealed


def answers(server):
    """Whether a ping is answered; more than once where the system threw it away, since more came than it keeps."""
    for _ in range(3):
        with contextlib.suppress(socket.timeout):
            return server.is_answered()
    return False


def main(program, count=100_000, settings=len(SETTINGS)):
    signal.signal(signal.SIGALRM, is_too_long)
    signal.alarm(ALL_SECONDS)
    has_own_loopback()
    chosen, begun, memory, sent = SETTINGS[:int(settings)], time.monotonic(), 0, 0
    for seed, setting in enumerate(chosen):
        each = int(count) // len(chosen) + (seed < int(count) % len(chosen))
        try:
            memory, sent = max(memory, played(program, each, seed, setting)), sent + each
        except (AssertionError, OSError, subprocess.TimeoutExpired) as fault:
            print(f"hostile: behind {sent} datagrams, {setting}: {type(fault).__name__}: {fault}")
            return 1
    print(f"hostile: {sent} datagrams in {len(chosen)} settings of locale, log and disk: each daemon answered, passed packets and "
          f"ended with 0; {memory / 1024:.0f} MiB at most; {time.monotonic() - begun:.0f} s")
    return 0


if __name__ == "__main__":
    sys.exit(main(*words_or_usage(__doc__)))
