"""Two gateways in one set of Kamailio's. See sets.sh."""

import contextlib
import ctypes
import http.client
import os
import re
import signal
import subprocess
import sys
import tempfile
import threading
import time
from pathlib import Path

from stack import HERE, TOP, asked, dialogs, kamailio, ng

from ends import speech, wait_until  # noqa: E402
from telephone import Media, Refused, Telephone, master  # noqa: E402

# Kamailio and the telephones are at this address; each gateway in a namespace of its own has another one.
PHONES, PROXY, RPC = "10.1.0.2", ("10.1.0.2", 5070), "http://10.1.0.2:5071/RPC"
GATEWAYS = {"one": ("10.1.0.1", "10.1.0.2"), "two": ("10.2.0.1", "10.2.0.2")}
SPACE = "srtpgw-set"
PORT = 2223


# ---- networks


def has_ended(words, **more):
    return subprocess.run(words, check=True, capture_output=True, text=True, **more)


def ip(*words):
    has_ended(["ip", *words])


@contextlib.contextmanager
def networks():
    """A namespace for the telephones, in which this goes on, and one for each gateway behind srtpgw.nft."""
    names = [SPACE, *(f"{SPACE}-{name}" for name in GATEWAYS)]
    try:
        for name in names:
            ip("netns", "add", name)
            ip("-n", name, "link", "set", "lo", "up")
        for name, (own, far) in GATEWAYS.items():
            joined(f"{SPACE}-{name}", name, own, far)
        with open(f"/run/netns/{SPACE}") as space:
            enters(space.fileno())
        yield
    finally:
        for name in names:
            subprocess.run(["ip", "netns", "delete", name], capture_output=True)


def enters(number):
    """Moves this thread, and what it starts, to the network namespace of a file."""
    if ctypes.CDLL(None, use_errno=True).setns(number, 0x40000000) != 0:
        raise OSError(ctypes.get_errno(), "setns")


def joined(space, name, own, far):
    """A gateway's namespace, with one pair of interfaces for both of its sides."""
    ip("-n", space, "link", "add", "phones", "type", "veth", "peer", "name", name, "netns", SPACE)
    ip("-n", space, "addr", "add", f"{own}/24", "dev", "phones")
    ip("-n", space, "link", "set", "phones", "up")
    ip("-n", SPACE, "addr", "add", f"{far}/24", "dev", name)
    ip("-n", SPACE, "link", "set", name, "up")
    ip("-n", space, "route", "add", "default", "via", far)
    rules = (TOP / "examples" / "network" / "srtpgw.nft").read_text()
    rules = re.sub(r'(?m)^define (secure|plain) = .*', r'define \1 = "phones"', rules)
    rules = re.sub(r"(?m)^define (secure|plain)_address = .*", rf"define \1_address = {own}", rules)
    rules = re.sub(r" udp dport & 2 == [02]", "", rules).replace("{ $secure, $plain }", "$secure")
    has_ended(["ip", "netns", "exec", space, "nft", "-f", "-"], input=rules)
    has_ended(["ip", "netns", "exec", space, "sysctl", "-qw", "net.ipv4.conf.phones.route_localnet=1"])


# ---- gateways and calls


class Gateway:
    """One NG daemon with its gateway. It is started anew where it has ended by itself, as a unit of systemd does."""

    def __init__(self, name, folder, *words):
        self.name, self.folder, self.words = name, folder, words
        self.address = (GATEWAYS[name][0], PORT)
        self.starts = 0
        self.begins()

    def begins(self):
        self.starts += 1
        own = self.address[0]
        self.process = ng(
            self.folder, self.address, f"{SPACE}-{self.name}", f"{self.name}{self.starts}",
            "--secure", own, "--plain", own, "--tell", RPC, "--calls", f"{self.folder}/{self.name}.calls", *self.words)

    def calls(self):
        return len(asked(self.address, "list", limit=1000).get(b"calls", []))

    def statistics(self):
        return asked(self.address, "statistics").get(b"statistics", {})

    def pids(self):
        """The daemon and its gateway."""
        daemon = self.process.process.pid
        children = Path(f"/proc/{daemon}/task/{daemon}/children").read_text().split()
        return daemon, [int(child) for child in children]

    def drains(self):
        """Takes no new call, ends with its last one, and begins anew."""
        self.process.process.send_signal(signal.SIGUSR1)
        status = self.process.process.wait(60)
        self.begins()
        return status


class Caller:
    """Calls side by side, from a telephone that encrypts to SIPp, which sends back what comes."""

    def __init__(self, phone):
        self.phone, self.lock = phone, threading.Lock()
        self.ports = iter(range(26_000, 32_000, 2))
        self.whole, self.broken, self.refused = [], [], []
        self.threads = []

    def begins(self, seconds):
        thread = threading.Thread(target=self.one, args=(seconds,))
        self.threads.append(thread)
        thread.start()

    def one(self, seconds):
        with self.lock:
            media = Media((PHONES, next(self.ports)), master())
        call = self.phone.call("echo", media)
        octets = speech(seconds, int(media.address[1]))
        try:
            call.offers()
            media.sends(octets)
            time.sleep(0.5)
            heard = media.heard()
            (self.whole if heard == octets else self.broken).append((media.to[0], len(heard), call.ended.is_set()))
            if not call.ended.is_set():
                call.ends()
        except Refused as fault:
            self.refused.append(fault.args[0])
        media.close()

    def ends(self):
        for thread in self.threads:
            thread.join()


def echo(folder):
    """SIPp, until it is ended."""
    words = ["sipp", "-sf", HERE / "echo.xml", "-i", PHONES, "-p", "5080", "-mi", PHONES, "-mp", "43000", "-ci",
             "127.0.0.1", "-rtp_echo", "-nostdin"]
    return subprocess.Popen(words, stdout=subprocess.DEVNULL, stderr=subprocess.DEVNULL, cwd=folder)


def by_gateway(calls):
    names = {own: name for name, (own, _) in GATEWAYS.items()}
    counts = {name: sum(names[own] == name for own, *_ in calls) for name in GATEWAYS}
    return ", ".join(f"{count} by {name}" for name, count in counts.items())


# ---- scenes


def killed(caller, one, two, which):
    """Of twelve calls over both gateways those of the killed one are told and end; the others go on, and new ones."""
    for _ in range(12):
        caller.begins(8)
        time.sleep(0.15)
    time.sleep(1.5)
    before = one.calls(), two.calls()
    print(f"calls before: {before[0]} by one, {before[1]} by two", flush=True)
    daemon, children = one.pids()
    for pid in children if which == "gateway" else [daemon, *children]:
        os.kill(pid, signal.SIGKILL)
    since = time.monotonic()
    calls = list(caller.phone.by_id.values())
    later = Caller(caller.phone)
    later.ports = caller.ports
    for _ in range(6):
        later.begins(3)
        time.sleep(0.3)
    if which == "daemon":
        one.process.process.wait()
        one.begins()
    wait_until(lambda: sum(call.ended.is_set() for call in calls) >= before[0], 10, "BYE")
    late = max(call.ended_at - since for call in calls if call.ended.is_set())
    print(f"each of its calls had BYE within {late:.1f} s")
    later.ends()
    caller.ends()
    print(f"whole: {len(caller.whole)} ({by_gateway(caller.whole)}); not whole: {len(caller.broken)}"
          f" ({by_gateway(caller.broken)}), of which {sum(ended for *_, ended in caller.broken)} had BYE")
    print(f"six new calls meanwhile: {len(later.whole)} whole ({by_gateway(later.whole)}), {len(later.broken)} not,"
          f" {len(later.refused)} refused")
    good = len(caller.whole) == before[1] and len(caller.broken) == before[0] and len(later.whole) == 6
    return good and not caller.refused and all(ended for *_, ended in caller.broken)


def kill_gateway(caller, one, two):
    return killed(caller, one, two, "gateway")


def kill_daemon(caller, one, two):
    return killed(caller, one, two, "daemon")


def rolls(caller, one, two):
    """Under calls all the time each of the two is drained and begins anew; no call is lost."""
    over = threading.Event()

    def goes_on():
        while not over.is_set():
            caller.begins(3)
            time.sleep(0.25)
    thread = threading.Thread(target=goes_on)
    thread.start()
    time.sleep(2)
    statuses = []
    for gateway in (one, two):
        since = time.monotonic()
        statuses.append(gateway.drains())
        print(f"{gateway.name} drained and began anew within {time.monotonic() - since:.1f} s", flush=True)
        time.sleep(3)
    over.set()
    thread.join()
    return no_call_lost(caller) and statuses == [0, 0]


def bounded(caller, one, two):
    """One that drains above ten keys does so by itself again and again, and begins anew; no call is lost."""
    for _ in range(60):
        caller.begins(2)
        time.sleep(0.25)
    good, drained = no_call_lost(caller), one.process.text().count("enough is spent")
    print(f"it drained {drained} times")
    return good and drained >= 2


def no_call_lost(caller):
    caller.ends()
    print(f"{len(caller.whole)} calls whole ({by_gateway(caller.whole)}), {len(caller.broken)} not whole,"
          f" {len(caller.refused)} refused", flush=True)
    return not caller.broken and not caller.refused and len(caller.whole) > 20


SCENES = {kill_gateway: [], kill_daemon: [], rolls: [], bounded: ["--bound", "keys=10"]}


def play(scene, words, phone, folder):
    """One scene, with gateways and a Kamailio of its own."""
    inner = Path(folder) / scene.__name__
    inner.mkdir()
    one, two = Gateway("one", inner, *words), Gateway("two", inner)
    set_of = " ".join(f"udp:{own}:{PORT}=1" for own, _ in GATEWAYS.values())
    proxy = kamailio(inner, SIP=f"udp:{PROXY[0]}:{PROXY[1]}", RPC=f"tcp:{PROXY[0]}:5071", NG=f'"{set_of}"',
                     ECHO=f'"sip:echo@{PHONES}:5080"')
    try:
        good = scene(Caller(phone), one, two)
        wait_until(lambda: one.calls() + two.calls() == 0, 10, "the gateways to have no call")
        with contextlib.suppress(OSError, http.client.HTTPException):
            print(f"left at the end: {one.calls()} and {two.calls()} calls, {dialogs(RPC)} dialogs")
        return good
    finally:
        proxy.ends()
        statuses = [gateway.process.ends() for gateway in (one, two)]
        print(f"ended with {statuses}")
        if os.environ.get("LOGS"):
            for path in sorted(inner.glob("*.log")):
                print(path.name, path.read_text(errors="replace"))


def main():
    wanted = [scene for scene in SCENES if scene.__name__ in sys.argv[1:]] or list(SCENES)
    good = []
    with tempfile.TemporaryDirectory() as folder, networks():
        sipp, phone = echo(folder), Telephone("alice", (PHONES, 5060), PROXY)
        try:
            for scene in wanted:
                print(f"{scene.__name__}: {scene.__doc__ or killed.__doc__}", flush=True)
                good.append(play(scene, SCENES[scene], phone, folder))
        finally:
            sipp.kill()
            phone.close()
    print(f"{sum(good)} of {len(wanted)} as they should be")
    return 0 if len(good) == len(wanted) and all(good) else 1


if __name__ == "__main__":
    sys.exit(main())
