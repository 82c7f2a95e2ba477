"""baresip and SIPp, through the gateway. See baresip.sh."""

import contextlib
import json
import random
import re
import socket
import subprocess
import sys
import tempfile
import threading
import time
import wave
from pathlib import Path

from b2bua import PORTS, Server
from ends import PLAIN_RTP, is_bound, program, require_free, wait_until
from driver import Driver, Program

# Whether telephones offer one port for RTP and RTCP, and the gateway takes it.
MUXES = "--mux" in sys.argv[1:]
SECONDS = 10
PHONE, PLAIN_PHONE, ECHO = ("127.0.0.1", 5060), ("127.0.0.1", 5062), ("127.0.0.1", 5080)
ECHO_RTP = 43_000
# How many packets one telephone may have under way when the other one takes its first, or hangs up.
UNDER_WAY = 3
# The samples of a frame of 20 ms.
FRAME = 160
CONFIG = """sip_listen {host}:{port}
audio_source aufile,{folder}/played.wav
audio_player aubridge,x
audio_alert aubridge,x
audio_channels 1
audio_srate 8000
ausrc_srate 8000
auplay_srate 8000
rtp_ports {rtp}-{last}
rtp_stats yes
rtcp_mux {mux}
snd_path {folder}
ctrl_tcp_listen {host}:{control}
module_path {modules}
module g711.so
module aufile.so
module aubridge.so
module sndfile.so
module srtp.so
module_app menu.so
module_app ctrl_tcp.so
module_app account.so
"""


def modules():
    """Where baresip's modules are."""
    found = (Path(root).rglob("baresip/modules/srtp.so") for root in ("/usr/lib", "/usr/local/lib"))
    return next(path.parent for paths in found for path in paths)


def expanded(octet):
    """The sample of an octet of PCMU (G.711)."""
    octet = ~octet & 255
    size = (((octet & 15) << 3) + 132 << (octet >> 4 & 7)) - 132
    return -size if octet & 128 else size


def played(path, seed):
    """A file of random samples that PCMU keeps as they are, in this telephone too: it takes the loudest two and 0
    for their neighbours."""
    samples = [expanded(octet) for octet in range(256) if octet & 127 not in (0, 127)]
    # Longer than any call, so that it doesn't end.
    chosen = random.Random(seed).choices(samples, k=8_000 * 2 * SECONDS)
    with wave.open(str(path), "wb") as out:
        out.setnchannels(1), out.setsampwidth(2), out.setframerate(8_000)
        out.writeframes(b"".join(sample.to_bytes(2, "little", signed=True) for sample in chosen))


def samples_of(path):
    with wave.open(str(path), "rb") as file:
        return file.readframes(file.getnframes())


class Phone:
    """A baresip in a folder of its own."""

    def __init__(self, folder, name, address, rtp, secure, seed):
        self.folder, self.name, self.control = Path(folder) / name, name, (address[0], address[1] + 100)
        self.folder.mkdir()
        played(self.folder / "played.wav", seed)
        host, port = address
        (self.folder / "config").write_text(
            CONFIG.format(
                host=host, port=port, control=self.control[1], folder=self.folder, modules=modules(), rtp=rtp,
                last=rtp + 20, mux="yes" if MUXES else "no"))
        keyed = ";mediaenc=srtp-mand" if secure else ""
        account = f"<sip:{name}@{host}>;regint=0;answermode=auto;audio_codecs=PCMU/8000/1{keyed}\n"
        (self.folder / "accounts").write_text(account)
        (self.folder / "contacts").touch()

    def run(self, seconds, dial=None):
        """Starts it; it ends by itself, and its call with it."""
        words = ["baresip", "-f", self.folder, "-t", str(seconds)] + (["-e", f"/dial {dial}"] if dial else [])
        self.log = open(self.folder / "log", "wb")
        return subprocess.Popen(words, stdin=subprocess.DEVNULL, stdout=self.log, stderr=subprocess.STDOUT)

    def press(self, key):
        """Has it do something in the middle of a call."""
        with socket.create_connection(self.control, timeout=5) as control:
            octets = json.dumps({"command": key}).encode()
            control.sendall(b"%d:%s," % (len(octets), octets))
            control.recv(4_096)

    def counts(self):
        """The packets that it sent and took, by its own count."""
        found = re.findall(r"packets:\s+(\d+)\s+(\d+)", (self.folder / "log").read_text(errors="replace"))
        return tuple(map(int, found[-1])) if found else (0, 0)

    def suite(self):
        found = re.findall(r"cryptosuite=(\w+)", (self.folder / "log").read_text(errors="replace"))
        return found[-1] if found else "no SRTP"

    def heard(self):
        """All that it decoded."""
        return b"".join(samples_of(path) for path in sorted(self.folder.glob("dump-*-dec.wav")))


def told(phone, source):
    """Prints what a telephone heard of what a source played."""
    heard, whole = phone.heard(), samples_of(source.folder / "played.wav")
    first = whole.find(heard[:2 * FRAME]) if heard else -1
    same = first >= 0 and first % (2 * FRAME) == 0 and whole[first:first + len(heard)] == heard
    sent, took = phone.counts()
    print(f"{phone.name} ({phone.suite()}): {sent} packets sent, {took} taken, {len(heard) // 2 // FRAME} frames heard"
          f" of {source.name}'s from frame {first // 2 // FRAME} on:",
          "the same samples" if same else "NOT THE SAME", flush=True)
    return same and len(heard) > 2 * FRAME * 25 * SECONDS


@contextlib.contextmanager
def serving(driver, peers):
    """A SIP server for the time being."""
    over = threading.Event()
    server = Server(driver, peers, muxes=MUXES)
    thread = threading.Thread(target=server.serve, args=(over.is_set,))
    thread.start()
    try:
        yield server
    finally:
        over.set()
        thread.join()
        server.close()


def calls_an_echo(driver, folder):
    """The telephone hears itself by SIPp's echo."""
    phone = Phone(folder, "alice", PHONE, 42_000, True, 1)
    words = ["sipp", "-sn", "uas", "-i", ECHO[0], "-p", str(ECHO[1]), "-mi", ECHO[0], "-mp", str(ECHO_RTP), "-ci", ECHO[0],
             "-rtp_echo", "-m", "1", "-timeout", "60", "-nostdin"]
    with open(Path(folder) / "sipp.log", "wb") as log, serving(driver, {"secure": PHONE, "plain": ECHO}):
        echo = subprocess.Popen(words, stdout=log, stderr=subprocess.STDOUT, cwd=folder)
        wait_until(lambda: is_bound(ECHO[1]), what="SIPp")
        phone.run(SECONDS + 1, f"sip:echo@127.0.0.1:{PORTS['secure']}").wait(timeout=60)
        ended = echo.wait(timeout=60)
    print(f"SIPp: ended with {ended}, 0 where its one call was whole")
    return told(phone, phone) and ended == 0


def is_called(driver, folder):
    """A plain telephone calls; the protected one answers."""
    alice = Phone(folder, "carol", PHONE, 42_100, True, 2)
    bob = Phone(folder, "bob", PLAIN_PHONE, 42_200, False, 3)
    with serving(driver, {"secure": PHONE, "plain": PLAIN_PHONE}):
        answering = alice.run(SECONDS + 4)
        wait_until(lambda: is_bound(PHONE[1]), what="baresip")
        bob.run(SECONDS + 1, f"sip:carol@127.0.0.1:{PORTS['plain']}").wait(timeout=60)
        answering.wait(timeout=60)
    return told(alice, bob) & told(bob, alice)


def is_held(driver, folder):
    """The protected telephone calls, holds and resumes, and the plain one too; their keys stay as they are."""
    dave, erin = Phone(folder, "dave", PHONE, 42_300, True, 4), Phone(folder, "erin", PLAIN_PHONE, 42_400, False, 5)
    early = driver.drops[PLAIN_RTP, "NotLive"]
    with serving(driver, {"secure": PHONE, "plain": PLAIN_PHONE}) as server:
        answering = erin.run(SECONDS + 4)
        wait_until(lambda: is_bound(PLAIN_PHONE[1]), what="baresip")
        calling = dave.run(SECONDS + 1, f"sip:erin@127.0.0.1:{PORTS['secure']}")
        for phone, key in ((dave, "hold"), (dave, "resume"), (erin, "hold"), (erin, "resume")):
            time.sleep(1.5)
            phone.press(key)
        calling.wait(timeout=60), answering.wait(timeout=60)
    print(f"offers: {server.log}")
    (sent, took), (back, heard) = dave.counts(), erin.counts()
    for phone, own, other in ((dave, sent, took), (erin, back, heard)):
        print(f"{phone.name} ({phone.suite()}): {own} packets sent, {other} taken")
    early = driver.drops[PLAIN_RTP, "NotLive"] - early
    print(f"of {erin.name}'s {early} came before its answer had gone through")
    held = sum("past" in line for line in server.log) == 4
    return held and 0 <= sent - heard <= UNDER_WAY and 0 <= back - early - took <= UNDER_WAY


def main():
    require_free(PHONE[1], PLAIN_PHONE[1], ECHO[1], *PORTS.values())
    print(subprocess.run(["baresip", "-h"], capture_output=True, text=True).stdout.splitlines()[0])
    print(subprocess.run(["sipp", "-v"], capture_output=True, text=True).stdout.strip().splitlines()[0])
    driver = Driver(Program(program(), muxes=MUXES))
    good = []
    with tempfile.TemporaryDirectory() as folder:
        for scene in (calls_an_echo, is_called, is_held):
            print(f"{scene.__doc__}", flush=True)
            good.append(scene(driver, folder))
    status = driver.close()
    print(f"dropped {dict(driver.drops)}, unsent {dict(driver.unsent)}, status {status}")
    return 0 if all(good) and status == 0 else 1


if __name__ == "__main__":
    sys.exit(main())
