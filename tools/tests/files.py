#!/usr/bin/env python3
"""What tools/script.py and tools/outcomes.py make of a call whose packets are known: a script from texts in Latin-1, a
capture and sound of what was opened, loss, order and jitter; keys stay covered up, and a tool that can't do what it was
asked for says so and fails.

    python3 tools/tests/files.py PROGRAM

The call is under `RAW80` keys, whose tag Python's own HMAC makes. G.711's values are those of ITU-T G.711, tables 1a to
2b; jitter is worked out by hand from RFC 3550, A.8.
"""

import hashlib
import hmac
import struct
import subprocess
import sys
import tempfile
import wave
from pathlib import Path

HERE = Path(__file__).resolve()
TOOLS = HERE.parent.parent
sys.path.insert(0, str(TOOLS))
import captures  # noqa: E402
import rtp  # noqa: E402

FROM, TO = bytes(range(20)), bytes(range(20, 40))
PEER, PLAIN = "10.0.0.1:4000", "10.0.0.2:5000"
SECURE_RTP, PLAIN_RTP = 20_000, 20_002
CLAIMS = []


def check(what, holds):
    CLAIMS.append((what, bool(holds)))


def tool(name, *given, stdin=b"", path=""):
    run = subprocess.run([sys.executable, TOOLS / name, *map(str, given)], input=stdin, capture_output=True, timeout=60,
                         env={"PYTHONPATH": path} if path else None)
    return run.returncode, run.stdout, run.stderr.decode()


# ---- script.py

LATIN = b"v=0\r\no=- 1 1 IN IP4 10.0.0.1\r\ns=caf\xe9 \x0b \x85\nc=IN IP4 10.0.0.1\r\nt=0 0\nm=audio 4000 RTP/AVP 0\r\n\r\n"


def texts(folder):
    sdp = folder / "latin.sdp"
    sdp.write_bytes(LATIN)
    wanted = LATIN.replace(b"\r\n", b"\n").rstrip(b"\n").replace(b"\n", b"\r\n") + b"\r\n"
    status, out, _ = tool("script.py", "--offer-plain", sdp)
    check("a text in Latin-1 goes into a script as it is, each line with both ends",
          (status, out) == (0, b"srtpgw 1\noffer-plain 1 sdes - " + wanted.hex().encode() + b"\n"))
    status, out, said = tool("script.py", "--offer-plain", sdp, "--answer", folder / "none.sdp")
    check("no half of a script", status == 1 and out == b"" and "none.sdp" in said)
    (folder / "no.pcap").write_bytes(captures.written([]) + b"cut")
    status, out, said = tool("script.py", "--manual", PEER, PLAIN, "K", "K", "--capture", folder / "no.pcap")
    check("a cut capture", (status, out) == (1, b"") and "cut at octet 24" in said)


# ---- a call

def packet(kind, seq, stamp, payload, source=0xCAFE):
    return struct.pack(">BBHII", 0x80, kind, seq, stamp, source) + payload


def sealed(octets):
    return octets + hmac.new(FROM, octets + bytes(4), hashlib.sha1).digest()[:10]


# What the secure side sends: number, moment in ms, payload of mu-law. 3 never comes, 5 and 4 are exchanged, 7 comes 16 ms
# late.
SPOKEN = [(1, 1000), (2, 1020), (5, 1080), (4, 1085), (6, 1100), (7, 1136), (8, 1140)]
# And the plain side, of A-law, at the same moments but for the last.
BACK = [(1, 1001), (2, 1021)]


def payload(number):
    return bytes([number, 0x00, 0x80, 0x7F]) * 40


def sent():
    """Datagrams in their order: the moment, where from, the gateway's port, the octets, and the packet in clear."""
    rows = []
    for number, moment in SPOKEN:
        clear = packet(rtp.MU_LAW, number, 160 * number, payload(number))
        rows.append((moment, PEER, SECURE_RTP, sealed(clear), clear))
    for number, moment in BACK:
        clear = packet(rtp.A_LAW, number, 160 * number, payload(number), 0xBEEF)
        rows.append((moment, "10.0.0.2:6000", PLAIN_RTP, clear, clear))
    rows.append((1150, PEER, 19_999, b"astray", None))
    rows.append((1150, PEER, SECURE_RTP, sealed(packet(0, 9, 9 * 160, payload(9)))[:-1] + b"\0", None))
    return sorted(rows, key=lambda row: row[0])


def call(program, folder):
    """The script by way of a capture, and its outcomes."""
    pcap, script, out = folder / "call.pcap", folder / "call.script", folder / "call.out"
    pcap.write_bytes(captures.written(
        captures.Datagram(moment, source, f"127.0.0.1:{port}", octets) for moment, source, port, octets, _ in sent()))
    keys = [f"RAW80:{key.hex()}" for key in (FROM, TO)]
    events = ["--manual", PEER, PLAIN, *keys, "--capture", pcap]
    status, text, said = tool("script.py", *events)
    check("a script from a capture", status == 0 and "1 other ports" in said)
    live = tool("script.py", "--live", *events, "--bye")
    check("--live leaves out what a relay has of itself",
          [line.split()[0] for line in live[1].decode().splitlines()] == ["srtpgw", "manual", "bye"])
    # The datagram to a port of nobody comes in by hand: a capture's are left out.
    text = text.replace(b"tick 1150\n", b"tick 1150\nin 5 10.0.0.1:4000 00\n")
    script.write_bytes(text)
    run = subprocess.run([program, "replay"], input=text, capture_output=True, timeout=60)
    out.write_bytes(run.stdout)
    check("the replay", run.returncode == 0 and run.stdout.count(b"out ") == len(SPOKEN) + len(BACK))
    return script, out


def with_moments(script):
    """A script of version 1 as one of version 2 that has no ticks."""
    now, made = b"0", []
    for line in script.split(b"\n")[1:]:
        if line.startswith(b"tick "):
            now = line[5:]
        else:
            made.append(line.replace(b"in ", b"in " + now + b" ", 1) if line.startswith(b"in ") else line)
    return b"\n".join([b"srtpgw 2", *made])


def row_of(lines, *begins):
    return next((line.split() for line in lines if line.split()[:len(begins)] == list(begins)), [])


def reports(script, out, folder):
    asked = "--pcap", folder / "clear.pcap", "--wav", folder / "w.wav"
    status, text, _ = tool("outcomes.py", out, "--script", script, *asked)
    lines = text.decode().splitlines()
    check("a drop at a port of nobody has no slot", status == 0 and "-     -       port 5      PortUnused  1" in lines)
    # Late by 0, 0, 0, 25, 0, 16 and 0 ms: the jitter is 0, 0, 0, 1.5625.., and so on.
    jitter = 0.0
    late = [moment - 1000 - 20 * (number - 1) for number, moment in SPOKEN]
    for before, now in zip(late, late[1:]):
        jitter += (abs(now - before) - jitter) / 16
    # 5 has 80 ms behind 1, 4 has 60 ms and comes at 85, 7 has 120 ms and comes at 136.
    assert late == [0, 0, 0, 25, 0, 16, 0]
    wanted = ["7", "1", "0", "1", f"{jitter:.1f}", "0", "25"]
    check("loss, order, jitter and lateness", row_of(lines, "0", "0", "plain", "RTP", "0000cafe")[5:] == wanted)
    timed = folder / "timed.script"
    timed.write_bytes(with_moments(script.read_bytes()))
    check("the same of a script of version 2", tool("outcomes.py", out, "--script", timed)[1] == tool("outcomes.py", out, "--script", script)[1])
    check("drops by second", "0       BadTag      1" in lines and "0       PortUnused  1" in lines)


def written(folder):
    """The capture by this folder's own reader, and the sound by Python's."""
    wanted = [captures.Datagram(moment, "127.0.0.1:20002" if port == SECURE_RTP else source,
                                PLAIN if port == SECURE_RTP else "127.0.0.1:20002", clear)
              for moment, source, port, _, clear in sent() if clear]
    found = list(captures.datagrams((folder / "clear.pcap").read_bytes()))
    check("the capture has what was opened and what came to be sealed, in clear", found == wanted)
    for name, kind, numbers, law in (("w-2.wav", "mu", 8, {0x00: -32124, 0x80: 32124, 0x7F: 0}),
                                     ("w-1.wav", "A", 2, {0x00: -5504, 0x80: 5504, 0x7F: -848})):
        with wave.open(str(folder / name)) as sound:
            check(f"a WAV file of {kind}-law", sound.getparams()[:4] == (1, 2, 8_000, 160 * numbers))
            samples = struct.unpack(f"<{160 * numbers}h", sound.readframes(160 * numbers))
        check(f"its samples of {kind}-law", [samples[1], samples[2], samples[3]] == list(law.values()))
        if numbers == 8:
            check("silence where number 3 never came", not any(samples[320:480]) and samples[481] == -32124)


def streams():
    """Jitter by hand, and numbers and time stamps over their turns."""
    stream = rtp.Stream(8_000)
    for seq, stamp, moment in ((65_534, 2**32 - 320, 0), (65_535, 2**32 - 160, 20), (0, 0, 56), (1, 160, 60)):
        stream.take(rtp.Packet(moment, 0, seq, stamp, 1, b""))
    check("a stream over its turns", (stream.expected(), stream.lost(), stream.disordered()) == (4, 0, 0))
    check("the interarrival jitter", stream.jitters() == [0, 0, 1.0, 1.0 + 15 / 16] and stream.lateness() == [0, 0, 16, 0])
    edges = {rtp.MU_LAW: {0xFF: 0, 0x7F: 0, 0x80: 32124, 0x00: -32124, 0xFE: 8},
             rtp.A_LAW: {0xD5: 8, 0x55: -8, 0xAA: 32256, 0x2A: -32256}}
    check("the ends of G.711's tables", all(struct.unpack("<h", rtp.DECODED[kind][octet])[0] == value
                                           for kind, table in edges.items() for octet, value in table.items()))


# ---- outcomes.py alone

SECRET = "WVNfX19zZW1jdGwgKCkgewkyMjA7fQp9CnVubGVz"
TEXT = "\r\n".join([
    "v=0", "o=- 1 1 IN IP4 1.2.3.4", "s=\x1b[2J", f"k=clear:{SECRET}", f"a=Crypto:1 AES_CM_128_HMAC_SHA1_80 INLINE:{SECRET}",
    f"a=crypto:2 X inline:{SECRET}|2^20", f"a=Key-Mgmt:mikey {SECRET}", f"a=ICE-pwd:{SECRET}", f"a=x inline:{SECRET}", ""])


def covered(folder):
    line = b"sdp 1 secure " + (TEXT.encode() + b"i=caf\xe9\r\n").hex().encode() + b"\n"
    status, out, _ = tool("outcomes.py", stdin=line)
    text = out.decode()
    check("all keys are covered up, whatever their letters",
          status == 0 and SECRET not in text and text.count("(covered)") == 6)
    check("octets that are no text are told by their numbers",
          "caf\\xe9" in text and "\\x1b[2J" in text and "\x1b" not in text)
    check("--keys shows them", tool("outcomes.py", "--keys", stdin=line)[1].decode().count(SECRET) == 6)
    pairs = b"joined 1 2\nlost 20018 TooLong\nparted 1 2\nunjoined 1 Joined 2\n"
    status, out, _ = tool("outcomes.py", stdin=pairs)
    told = b"1     2           joined", b"1     -           Joined 2", b"0       plain RTP  TooLong"
    check("pairs and what was lost between calls are told", status == 0 and all(line in out for line in told))
    status, out, _ = tool("outcomes.py", stdin=b"skip 3 Fragment\nskip 4 Fragment\nskip 9 CutShort\n")
    check("skipped records are counted", status == 0 and b"CutShort  1\nFragment  2\n" in out)
    for line in (b"made 1\n", b"\xff\n"):
        check(f"{line} is no outcome", tool("outcomes.py", stdin=line)[0] == 1)


def refused(script, out, folder):
    """What can't be done is said, and fails."""
    for option in ("plot", "pcap", "wav"):
        status, text, said = tool("outcomes.py", out, f"--{option}", folder / "x")
        check(f"--{option} without --script", status == 2 and text == b"" and "needs --script" in said)
    (folder / "matplotlib.py").write_text("raise ImportError\n")
    status, _, said = tool("outcomes.py", out, "--script", script, "--plot", folder / "x.png", path=str(folder))
    check("--plot without matplotlib", status == 1 and "matplotlib" in said and not (folder / "x.png").exists())
    check("a script of other outcomes", tool("outcomes.py", "--script", script, stdin=b"drop 5 PortUnused\n")[0] == 1)


def main():
    with tempfile.TemporaryDirectory() as name:
        folder = Path(name)
        texts(folder)
        script, out = call(sys.argv[1], folder)
        reports(script, out, folder)
        written(folder)
        streams()
        covered(folder)
        refused(script, out, folder)
    bad = [what for what, holds in CLAIMS if not holds]
    print(*(f"NOT SO: {what}" for what in bad), sep="\n", end="\n" * bool(bad))
    print(f"files: {len(CLAIMS)} looked at, {len(bad)} are otherwise")
    return bool(bad)


if __name__ == "__main__":
    sys.exit(main())
