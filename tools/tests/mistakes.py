#!/usr/bin/env python3
"""What tools/why.py says of mistakes in scripts and session descriptions, word for word; and that the gateway stops at
the same line for the same fault, or refuses for the same cause.

    python3 tools/tests/mistakes.py PROGRAM

Every refusal in `interop/rows/` and `examples/` whose cause a text alone has must be told, and no other.
"""

import subprocess
import sys
from pathlib import Path

HERE = Path(__file__).resolve()
sys.path.insert(0, str(HERE.parent.parent))
from why import Why  # noqa: E402

ROOT = HERE.parent.parent.parent
KEY, OTHER = "00112233445566778899aabbccddeeff" + "0102030405060708090a0b0c0d0e", "ff" * 30
SUITE = "AES_CM_128_HMAC_SHA1_80"
INLINE = "inline:ABEiM0RVZneImaq7zN3u/wECAwQFBgcICQoLDA0O"
HEAD = "v=0\r\no=- 1 1 IN IP4 10.0.0.1\r\ns=-\r\n"
SECURE = HEAD + f"c=IN IP4 10.0.0.1\r\nt=0 0\r\nm=audio 4000 RTP/SAVP 0\r\na=crypto:1 {SUITE} {INLINE}\r\n"
PLAIN = HEAD + "c=IN IP4 10.0.0.2\r\nt=0 0\r\nm=audio 5000 RTP/AVP 0\r\n"
SUITES = ("AES_CM_128_HMAC_SHA1_80, AES_CM_128_HMAC_SHA1_32, AES_192_CM_HMAC_SHA1_80, AES_192_CM_HMAC_SHA1_32, "
          "AES_256_CM_HMAC_SHA1_80, AES_256_CM_HMAC_SHA1_32")
HEX_HINT = "(octets are written as hexadecimal digits, not as they are)"


def manual(first=f"{SUITE}:{KEY}", second=f"{SUITE}:{OTHER}", secure="10.0.0.1:4000", rollover="00000000", window="64"):
    return f"manual 1 {secure} 10.0.0.2:5000 {rollover} {window} {first} {second}\n"


def offer(text, call=1):
    return f"offer-secure {call} - {text.encode().hex()}\n"


def answer(text, call=1):
    return f"answer {call} - {text.encode().hex()}\n"


# Faults of lines: name, script, line, column, fault, words.
FAULTS = [
    ("a key of 29 octets", manual(f"{SUITE}:{KEY[:-2]}"), 2, 74, "Length",
     f"field 6 of `manual`, KEY: Length: the key of {SUITE}, with its salt, has 29 octets; it has to have 30"),
    ("base64 for hexadecimal digits", manual(f"{SUITE}:{INLINE[7:]}"), 2, 74, "Hex",
     "field 6 of `manual`, KEY: Hex: a capital digit: hexadecimal digits are small letters here"),
    ("0x", manual(f"{SUITE}:0x{KEY}"), 2, 74, "Hex",
     "field 6 of `manual`, KEY: Hex: the digits begin with `0x`: they stand without it"),
    ("capital digits", manual(f"{SUITE}:{KEY.upper()}"), 2, 94, "Hex",
     "field 6 of `manual`, KEY: Hex: a capital digit: hexadecimal digits are small letters here"),
    ("an odd number of digits", manual(f"{SUITE}:{KEY[:-1]}"), 2, 133, "Hex",
     "field 6 of `manual`, KEY: Hex: an odd number of digits, 59: an octet has two"),
    ("a rollover of one digit", manual(rollover="0"), 2, 38, "Hex",
     "field 4 of `manual`, ROLLOVER: Hex: the rollover isn't 8 hexadecimal digits in small letters (here: 1 characters)"),
    ("an unknown suite", manual(f"F8_128_HMAC_SHA1_80:{KEY}"), 2, 50, "Word",
     f"field 6 of `manual`, KEY: Word: `F8_128_HMAC_SHA1_80` isn't one of the suites: RAW80, {SUITES}"),
    ("GCM", manual(f"AEAD_AES_128_GCM:{KEY}"), 2, 50, "Word",
     f"field 6 of `manual`, KEY: Word: `AEAD_AES_128_GCM` isn't one of the suites (GCM isn't served): RAW80, {SUITES}"),
    ("a suite in small letters", manual(f"{SUITE.lower()}:{KEY}"), 2, 50, "Word",
     f"field 6 of `manual`, KEY: Word: suites are written in capital letters: `{SUITE}`"),
    ("an offer-plain without sdes", f"offer-plain 1 - {PLAIN.encode().hex()}\n", 2, 15, "Word",
     "Word: behind the call's number stands `sdes` or `mikey`"),
    ("a comment", "# the second call\n", 2, 1, "Word", "Word: a comment: a script has none"),
    ("a capture's line", "capture\n", 2, 1, "Word",
     "Word: a capture follows: the command `capture` alone takes one (here: `--capture`)"),
    ("an empty line", "\n", 2, 1, "Word", "Word: the line is empty: a script has no empty lines"),
    ("two spaces", "bye  1\n", 2, 4, "Word", "Word: two spaces: fields are separated by one"),
    ("a space at the end", "bye 1 \n", 2, 6, "Word", "Word: a space behind the last field"),
    ("a tab", "bye\t1\n", 2, 4, "Word", "Word: a tab: fields are separated by one space"),
    ("capital letters", "BYE 1\n", 2, 1, "Word", "Word: words are small letters: `bye`"),
    ("a mistyped word", "offer-secur 1 - 00\n", 2, 1, "Word",
     "Word: `offer-secur` isn't a word of a script; perhaps `offer-secure`"),
    ("a field too many", "bye 1 2\n", 2, 7, "Word", "Word: `bye` has 1 field(s), CALL; here are 2"),
    ("a field too few", "tick\n", 2, 5, "Word", "Word: `tick` has 1 field(s), MOMENT; here are 0"),
    ("a host name", manual(secure="phone.example:4000"), 2, 10, "Number",
     "field 2 of `manual`, SECURE: Number: the address isn't four numbers joined by full stops (names aren't looked up)"),
    ("an address of IPv6", manual(secure="[::1]:4000"), 2, 10, "Number",
     "field 2 of `manual`, SECURE: Number: the address isn't four numbers, a colon and a port (IPv6 isn't served)"),
    ("an address without a port", manual(secure="10.0.0.1"), 2, 18, "Number",
     "field 2 of `manual`, SECURE: Number: the address has no port behind a colon"),
    ("a window of 32", manual(window="32"), 2, 47, "Number",
     "field 5 of `manual`, WINDOW: Number: the window isn't of 64 to 1024"),
    ("a zero in front", "bye 01\n", 2, 5, "Number",
     "field 1 of `bye`, CALL: Number: the call's number has a zero in front"),
    ("one key is RAW80", manual("RAW80:" + "11" * 20), 2, 97, "Word",
     "Word: one of the two keys is `RAW80`: both are, or neither"),
    ("a moment in version 1", "in 5 20000 10.0.0.1:4000 -\n", 2, 26, "Word", "Word: `in` has 3 field(s), PORT ADDRESS "
     "OCTETS; here are 4: a datagram has a moment in front of its port in version 2, which begins with `srtpgw 2`"),
    ("no line end", "bye 1", 2, 6, "Unended", "Unended: the last line has no line end"),
    ("a text in clear", "offer-secure 1 - v=0\n", 2, 18, "Hex",
     "field 3 of `offer-secure`, TEXT: Hex: `v` isn't a hexadecimal digit"),
    ("a key in clear", "psk sip:gw@a sip:bob@b our-shared-secret\n", 2, 24, "Hex",
     f"field 3 of `psk`, SECRET: Hex: `o` isn't a hexadecimal digit {HEX_HINT}"),
    ("a pre-shared key of one octet", "psk sip:gw@a sip:bob@b 00\n", 2, 24, "Length",
     "field 3 of `psk`, SECRET: Length: the pre-shared key has 1 octets; it has to have 16 to 64"),
    ("the longest line", "x" * 69_999 + "\n", 2, 1, "Word", f"Word: `{'x' * 40}` isn't a word of a script"),
    ("an octet more", "x" * 70_000 + "\n", 2, 70_001, "Length", "Length: the line has 70001 octets; 70000 are the most"),
    ("CRLF behind the header", "bye 1\r\n", 2, 6, "Number",
     "Number: the line ends with a carriage return (CRLF): lines end with a line feed alone"),
]
# The same in version 2.
FAULTS_OF_2 = [
    ("a datagram without a moment", "in 20000 10.0.0.1:4000 -\n", 2, 25, "Word", "Word: `in` has 4 field(s), MOMENT PORT "
     "ADDRESS OCTETS; here are 3: in version 2 a datagram has its moment in front of its port"),
    ("a moment above the last one", "in 2085978496000 20000 10.0.0.1:4000 -\n", 2, 4, "Number",
     "field 1 of `in`, MOMENT: Number: the moment isn't of 0 to 2085978495999"),
    ("the other header", "srtpgw 1\n", 2, 1, "Word", "Word: a header again: it stands in line 1 alone"),
]
# Whole files whose first line is the fault.
HEADS = [
    ("CRLF", b"srtpgw 1\r\nbye 1\r\n", 9, "Version: the header is right, but the line ends with a carriage return (CRLF): "
     "lines end with a line feed alone"),
    ("no header", b"bye 1\n", 1, "Version: the header is missing: line 1 is `srtpgw 1` or `srtpgw 2`"),
    ("version 3", b"srtpgw 3\n", 1,
     "Version: the header is `srtpgw 1` or `srtpgw 2`, to the letter; here is `srtpgw 3`"),
    ("a byte order mark", b"\xef\xbb\xbfsrtpgw 1\n", 1,
     "Version: the file begins with a byte order mark (UTF-8): save it without one"),
    ("UTF-16", "srtpgw 1\n".encode("utf-16"), 1, "Version: the file is UTF-16: save it as plain text"),
]


def sdes(said, column=0):
    """What is said of the crypto line, which is line 7 of its text."""
    return f"line 2: line 7 of its text{f', column {column}' if column else ''}: {said}"


# Refusals: name, lines, what is said of them but for the sentence of docs/refusals.md, the gateway's cause.
REFUSALS = [
    ("the same key both ways", manual(second=f"{SUITE}:{KEY}"),
     "line 2: the key of line 2, field 7 is that of line 2, field 6: KeyReused, a key serves once", "1 KeyReused 0"),
    ("the same key with another salt", manual(second=f"{SUITE}:{KEY[:32]}{'ff' * 14}"),
     "line 2: the key of line 2, field 7 is that of line 2, field 6: KeyReused, a key serves once", "1 KeyReused 0"),
    ("no last line end", offer(SECURE[:-2]), "line 2: line 7 of its text, column 83: the last line has no line end",
     "1 Sdp 7 Form"),
    ("no s=", offer(SECURE.replace("s=-\r\n", "")), "line 2: line 3 of its text, column 1: line 3 has to be an `s=` line",
     "1 Sdp 3 Order"),
    ("IPv6 in c=", offer(SECURE.replace("c=IN IP4 10.0.0.1", "c=IN IP6 ::1")),
     "line 2: line 4 of its text, column 6: IPv6 isn't served", "1 Sdp 4 Address"),
    ("a name in c=", offer(SECURE.replace("c=IN IP4 10.0.0.1", "c=IN IP4 phone.example")),
     "line 2: line 4 of its text, column 10: the address isn't four numbers of 0 to 255 (names aren't looked up)",
     "1 Sdp 4 Address"),
    ("no crypto line", offer(PLAIN.replace("RTP/AVP", "RTP/SAVP")),
     "line 2: line 6 of its text: medium 0 has no crypto line", "1 Sdes 0 NoLine"),
    ("GCM alone", offer(SECURE.replace(SUITE, "AEAD_AES_128_GCM")),
     sdes("this crypto line can't be read (Suite): `AEAD_AES_128_GCM` isn't served: GCM isn't, AES in counter mode with "
          "HMAC-SHA-1 is", 12), "1 Sdes 0 NoLine"),
    ("a short key", offer(SECURE.replace(INLINE, INLINE[:-2] + "==")),
     sdes(f"this crypto line can't be read (Key): the key and its salt have 28 octets; {SUITE} needs 30", 43),
     "1 Sdes 0 NoLine"),
    ("a base64 with a digit too many", offer(SECURE.replace(INLINE, INLINE + "A")),
     sdes("this crypto line can't be read (Key): the base64 is cut: a last group of one digit", 84), "1 Sdes 0 NoLine"),
    ("base64 of URLs", offer(SECURE.replace("/", "_").replace("RTP_SAVP", "RTP/SAVP")),
     sdes("this crypto line can't be read (Key): `_` isn't a digit of base64 (that of URLs has `-` and `_`)", 63),
     "1 Sdes 0 NoLine"),
    ("a=Crypto", offer(SECURE.replace("a=crypto", "a=Crypto")),
     sdes("this isn't a crypto line: it has to begin with `a=crypto:` in small letters", 1)
     + "\nline 2: line 6 of its text: medium 0 has no crypto line", "1 Sdes 0 NoLine"),
    ("DTLS", offer(SECURE.replace("RTP/SAVP", "UDP/TLS/RTP/SAVPF")),
     "line 2: line 6 of its text: medium 0 isn't active: its profile is UDP/TLS/RTP/SAVPF, where the secure side has "
     "RTP/SAVP or RTP/SAVPF: keys by DTLS aren't served", "1 NoMedia"),
    ("AVP with a crypto line", offer(SECURE.replace("RTP/SAVP", "RTP/AVP")),
     "line 2: line 6 of its text: medium 0 isn't active: its profile is RTP/AVP, where the secure side has RTP/SAVP or "
     "RTP/SAVPF: crypto lines under a plain profile (encryption if the other side can) count for nothing", "1 NoMedia"),
    ("a key management line that isn't base64", offer(SECURE + "a=key-mgmt:mikey AQ*A\r\n"),
     "line 2: line 8 of its text, column 20: this MIKEY line can't be read: `*` isn't a digit of base64", "1 KeyMgmt 0"),
    ("a MIKEY message by public keys", offer(SECURE + "a=key-mgmt:mikey AQIFAAAAAAAAAA==\r\n"),
     "line 2: line 8 of its text, column 18: this MIKEY message can't be read (DataType, octet 1): the message is of "
     "public keys, not of the pre-shared key exchange", "1 Mikey 0 1 DataType"),
    ("an unknown MIKEY peer", f"offer-plain 1 mikey sip:bob@b - {PLAIN.encode().hex()}\n", "", "1 Psk 255 IdUnknown"),
    ("an answer without an offer", answer(PLAIN), "", "1 CallUnknown"),
    ("bye twice", manual() + "bye 1\nbye 1\n", "", "1 CallUnknown"),
    ("a moment that goes back", "tick 1000\ntick 999\n", "", "- TickBack 1000"),
    ("an answer to an answer", offer(SECURE) + answer(PLAIN) + answer(PLAIN), "", "1 State"),
    ("an answer of another number of media", offer(SECURE) + answer(PLAIN + "m=video 5002 RTP/AVP 96\r\n"),
     "line 3: its text: the text has 2 media, the offer has 1", "1 MediaCount"),
    ("a tag that wasn't offered", f"offer-plain 1 sdes - {PLAIN.encode().hex()}\n" + answer(SECURE.replace(":1 ", ":7 ")),
     "line 3: line 7 of its text, column 10: tag 7 wasn't offered; 1 and 2 were", "1 Sdes 0 Tag"),
]
# What a text alone has; the other causes hang on keys, clocks and what came before.
OF_TEXTS = ("Sdp", "NoMedia", "MediaCount", "Sdes", "KeyMgmt", "Mikey", "TickBack")


def played(program, script):
    """The status, what stands on standard error, and the causes of refusals."""
    run = subprocess.run([program, "replay"], input=script, capture_output=True, timeout=60)
    lines = run.stdout.decode().splitlines()
    return run.returncode, run.stderr.decode().strip(), [line[8:] for line in lines if line.startswith("refused ")]


def check_fault(program, name, script, line, column, words):
    said = Why(script).lines()
    fault = words.split(": ")[1 if words.startswith("field") else 0]
    ending = f"The run ends here (`srtpgw: script line {line}: {fault}`)."
    joint = ", " if words.startswith("field") else ": "
    wanted = f"line {line}, column {column}{joint}{words}. {ending}"
    if said[:1] != [wanted]:
        return [f"{name}: says {said}, and not {wanted}"]
    status, text, _ = played(program, script)
    same = (status, text) == (2, f"srtpgw: script line {line}: {fault}")
    return [] if same else [f"{name}: the program says {status} {text}"]


def check_refusal(program, name, script, words, cause):
    why = Why(b"srtpgw 1\n" + script.encode())
    said = [line for line in why.lines() if ": refused (" not in line]
    if "\n".join(said) != words:
        return [f"{name}: says {said}"]
    told = [f"{call} {refused}" for _, call, refused in why.book.refused]
    if told not in ([cause], []) or not told and "KeyReused" not in cause:
        return [f"{name}: the refusal told is {told}"]
    causes = played(program, b"srtpgw 1\n" + script.encode())[2]
    return [] if causes == [cause] else [f"{name}: the program refuses {causes}"]


def check_captures():
    """A line `capture` behind line 1 ends a script for the command of that name; in line 1 it is a fault."""
    for script, said in ((b"srtpgw 2\nbye 1\ncapture\n\xd4\xc3", 1), (b"srtpgw 1\ncapture\n", 0), (b"capture\n", 1)):
        lines = Why(script, True).lines()
        if len(lines) != said or said and b"srtpgw" not in script and "Version" not in lines[0]:
            yield f"{script}: says {lines}"


def check_renewal():
    """Whether an answer by MIKEY is accepted hangs on its keys, so the offer behind it isn't told as refused."""
    script = (ROOT / "interop/rows/mikey-by-the-gateway.script").read_bytes()
    return [line for line in Why(script).lines() if "refused (State)" in line]


def check_rows():
    """Every script of a replay, with one port for RTP and RTCP or not, and of a bridge, whose outcomes are worked out by
    hand."""
    bad, count = [], 0
    for script in sorted([*ROOT.glob("interop/rows/*.script"), *ROOT.glob("examples/*.script")]):
        end, words = (script.with_suffix(suffix) for suffix in (".end", ".words"))
        command = words.read_text().split()[0] if words.exists() else "replay"
        if command not in ("replay", "bridge"):
            continue
        why = Why(script.read_bytes(), is_bridged=command == "bridge")
        told = [f"{call} {cause}" for _, call, cause in why.book.refused if cause.split()[0] in OF_TEXTS]
        lines = [line[8:] for line in script.with_suffix(".out").read_text().splitlines() if line.startswith("refused ")]
        wanted = [line for line in lines if line.split()[1] in OF_TEXTS]
        count += len(wanted)
        fault = f"2 srtpgw: script line {why.fault[0]}: {why.fault[1].name}\n" if why.fault else ""
        if told != wanted or fault != (end.read_text() if end.exists() else ""):
            bad.append(f"{script.name}: {told} and not {wanted}")
    return bad, count


def main():
    program = sys.argv[1]
    bad, count = check_rows()
    bad += check_captures()
    bad += check_renewal()
    for name, script, line, column, fault, words in FAULTS:
        assert f"{fault}: " in words
        bad += check_fault(program, name, b"srtpgw 1\n" + script.encode(), line, column, words)
    for name, script, line, column, fault, words in FAULTS_OF_2:
        bad += check_fault(program, name, b"srtpgw 2\n" + script.encode(), line, column, words)
    for name, script, column, words in HEADS:
        bad += check_fault(program, name, script, 1, column, words)
    for row in REFUSALS:
        bad += check_refusal(program, *row)
    print(*bad, sep="\n", end="\n" * bool(bad))
    rows = len(FAULTS) + len(FAULTS_OF_2) + len(HEADS) + len(REFUSALS)
    print(f"mistakes: {rows} told as they are, and {count} refusals of interop/rows and examples: {len(bad)} differ")
    return bool(bad)


if __name__ == "__main__":
    sys.exit(main())
