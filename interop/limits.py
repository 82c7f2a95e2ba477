#!/usr/bin/env python3
"""Plays scripts through the program that fill what is limited, or cut the known texts at each octet, and compares every
line with the model's.

    interop/limits.py PROGRAM [all]

They are too long to be kept as rows: 1,020 noted messages and more, 65,536 keys and more, 256 calls of four media. Each is
played by `replay`, and short ones by every other command that reads a script, too; with `all` each is, and by each relay. Of
each script that is handled to its end the most memory is told that was resident.
"""
import os
import resource
import subprocess
import sys
import tempfile
import threading
from pathlib import Path

from joined import SECOND_PLAIN
from loopback import has_own_loopback
from mikey import Exchange, answered
from mixed import difference, ended, ways
from model import TOLD
from relayed import OVER_LOOPBACK, holding, words_of
from signals import (
    ALICE, ALICE_OFFERS, BOB, BOB_ANSWERS, CM, COUNTING, NOW, PEER, SHARED, SHIFTED, TGK, answer, inline, key, message_line,
    noise, octets_of, offer_mikey, offer_sdes, offer_secure, own_exchange, peers_exchange, psk, secure_text, text,
)
from srtp import MasterKey, rtp
from usage import words_or_usage


def full_book():
    """1,020 messages are noted, four of an offer. Another offer finds four places free, and the next one three."""

    def message(number):
        given = [(TGK, None)], [(0, 0, 0)] * 2, [(0, [])], [PEER.encode()]
        return message_line(Exchange(SHARED, NOW, *given, csb=number, random=b"").initial())

    medium = "m=audio 40000 RTP/SAVP 0"
    yield from (psk(), f"tick {NOW}")
    for number in range(0, 1020, 4):
        yield offer_secure(9, ALICE + [line for each in range(4) for line in (medium, message(number + each))], None)
        yield "bye 9"
    yield offer_secure(9, ALICE + [medium, message(0)], None)
    for number in (1020, 1021, 1020):
        yield offer_secure(9, ALICE + [medium, message(number)], None)
        yield "bye 9"
    # by crypto lines there is no book to fill
    yield offer_secure(9, ALICE_OFFERS, None)


def full_ring():
    """65,536 keys, those of an answer at the end; what was there before is told before that there is no room."""
    raw = lambda number: MasterKey("RAW80", number.to_bytes(20, "big")).field()
    manual = lambda call, one, two: f"manual {call} 127.0.0.1:40000 127.0.0.1:41000 00000000 64 {one} {two}"
    for number in range(0, 65_534, 2):
        yield manual(1, raw(number), raw(number + 1))
        yield "bye 1"
    yield offer_sdes(8, BOB_ANSWERS)
    yield offer_secure(7, ALICE_OFFERS)
    yield manual(1, raw(65_534), raw(7))
    yield answer(7, BOB_ANSWERS)
    line = f"a=crypto:1 {CM} inline:" + 10 * "AQEB"
    yield answer(8, secure_text(line))
    yield manual(1, raw(70_000), raw(7))
    yield manual(1, raw(70_000), raw(70_001))
    yield "reject 8"
    yield offer_sdes(7, BOB_ANSWERS, SHIFTED)
    yield answer(7, secure_text(line), SHIFTED)


def full_table(generations=2):
    """256 calls of four media with eight keys each, renewed, and with one more offer open; and 64 pairs."""

    def offered(generation, call):
        lines = list(ALICE)
        for medium in range(4):
            keys = [inline(key(f"{generation} {call} {medium} {each}")) + f"|2^48|{each}:1" for each in range(8)]
            lines += [f"m=audio {40000 + medium * 2} RTP/SAVP 0", f"a=crypto:1 {CM} " + ";".join(keys)]
        return offer_secure(call, lines, None)

    answered = BOB + [f"m=audio {41000 + medium * 2} RTP/AVP 0" for medium in range(4)]
    for number in range(65):
        yield psk(peer=f"sip:{number}@b", shared=octets_of(str(number), 64))
    for generation in range(generations):
        for call in range(256):
            yield offered(generation, call)
            yield answer(call, answered, noise(f"{generation} {call}"))
    for call in range(257):
        yield offered(generations, call)


def cut_at_each_octet():
    """The known offers of both sides, and an answer that is still open, cut behind each octet."""
    yield offer_secure(1, ALICE_OFFERS)
    for known, sent in ((ALICE_OFFERS, offer_secure), (BOB_ANSWERS, lambda call, cut, _: offer_sdes(call, cut))):
        whole = text(known)
        for length in range(len(whole) + 1):
            yield sent(7, whole[:length], None)
            yield "bye 7"
    whole = text(BOB_ANSWERS)
    for length in range(len(whole) - len("a=rtpmap:0 PCMU/8000\r\n")):
        yield answer(1, whole[:length])
    yield answer(1, whole)


def changed_at_each_octet():
    """The known offer with a bit of each octet changed in turn."""
    for octets in changed(text(ALICE_OFFERS)):
        yield offer_secure(7, octets, None)
        yield "bye 7"


def changed(octets):
    """The octets with a bit of each changed in turn."""
    for place, octet in enumerate(octets):
        for bit in range(8):
            yield octets[:place] + bytes([octet ^ 1 << bit]) + octets[place + 1:]


def message_changed_at_each_octet():
    """A peer's message with a bit of each octet changed in turn, and then as it was."""
    yield from (psk(), f"tick {NOW}")
    good = peers_exchange().initial()
    for octets in (*changed(good), good):
        yield offer_secure(9, secure_text(session=[message_line(octets)]))
        yield "bye 9"


def response_at_each_octet():
    """The answer to the gateway's message: cut behind each octet, with a bit of each changed in turn, and then as it was."""
    yield psk()
    yield offer_mikey(9, PEER, BOB_ANSWERS)
    exchange = own_exchange(COUNTING, [0])
    good = exchange.response(PEER.encode(), answered(exchange.entries, [0x11]))
    for octets in (*(good[:length] for length in range(len(good))), *changed(good), good):
        yield answer(9, secure_text(session=[message_line(octets)]))


def longest_line():
    """A line of 70,000 octets is read to its end, and one of an octet more isn't."""
    yield "psk a b " + "00" * 16
    yield "x" * 69_999


def longer_line():
    yield "x" * 70_000


def longest_datagram():
    """A datagram of 4,352 octets is read, and one of an octet more isn't."""
    for count in 4352, 4353:
        yield "in 20000 127.0.0.1:40000 " + "80" * count


def full_bridge():
    """256 calls in 128 pairs, as they are joined from both ends of the table. Of the first pair 64 sources cross each way,
    and what the next one sends is told."""
    keys = lambda call: [key(f"{call} {way}") for way in ("opening", "sealing")]
    for call in range(257):
        fields = " ".join(it.field() for it in keys(call))
        yield f"manual {call} 127.0.0.1:40000 {SECOND_PLAIN} 00000000 1024 {fields}"
    for call in range(128):
        yield f"join {call} {255 - call}"
    for call in (0, 255):
        for source in range(65):
            sealed = keys(call)[0].srtp(rtp(7, ssrc=source), 7).hex()
            yield f"in {20000 + 16 * call} 127.0.0.1:40000 {sealed}"
    for call in (255, 3, 3, 252):
        yield f"bye {call}"


ALL = (full_book, full_ring, full_table, cut_at_each_octet, changed_at_each_octet, message_changed_at_each_octet,
       response_at_each_octet)
# Those that every command plays.
SHORT = longest_line, longer_line, longest_datagram, full_bridge
OTHERS = "replay --mux", "bridge", "capture", "migrate"


def relayed_otherwise(program, script, command):
    """What is wrong with a relay of a script without ticks, to which nothing comes at one moment; or None."""
    now = 1_764_000_000_123
    wanted = OVER_LOOPBACK[command](script, now)
    lift = lambda: resource.setrlimit(resource.RLIMIT_NOFILE, (8192, 8192))
    with tempfile.TemporaryDirectory() as room:
        how = {"timeout": 120, "preexec_fn": lift, "check": False, "env": holding(room, now)}
        run = subprocess.run([program, *words_of(command, 1)], input=script, capture_output=True, **how)
    return None if (run.stdout, run.returncode, run.stderr) == ended(wanted) else f"{run.returncode} {run.stderr[-200:]!r}"


def resident(program, script, told):
    """The most memory that was resident, in KiB, when all is written that is told of a script without datagrams."""
    with subprocess.Popen([program, "replay"], stdin=subprocess.PIPE, stdout=subprocess.PIPE) as run:
        writer = threading.Thread(target=lambda: (run.stdin.write(script), run.stdin.flush()))
        writer.start()
        run.stdout.read(told)
        writer.join()
        status = Path(f"/proc/{run.pid}/status").read_text()
        run.stdin.close()
    return int(status.split("VmHWM:")[1].split()[0])


def main():
    program, *rest = words_or_usage(__doc__)
    bad = played = 0
    is_all = rest == ["all"]
    is_own = is_all and has_own_loopback()
    for made in ALL + SHORT:
        lines = list(made())
        script = "".join(line + "\n" for line in ["srtpgw 1"] + lines).encode()
        for command in ("replay", *(OTHERS if is_all or made in SHORT else ())):
            told = TOLD[command](script)
            fault = difference(program, script, command, told)
            is_told = command == "replay" and told.status == 0 and not fault
            memory = f", {resident(program, script, len(told.octets()))} KiB" if is_told else ""
            bad, played = bad + bool(fault), played + len(ways(command))
            print(f"{made.__name__} by {command}: {len(lines)} lines, {fault or 'the same'}{memory}", flush=True)
        for command in OVER_LOOPBACK if is_own else ():
            still = b"".join(line for line in script.splitlines(keepends=True) if not line.startswith(b"tick "))
            fault = relayed_otherwise(program, still, command)
            bad, played = bad + bool(fault), played + 1
            print(f"{made.__name__} by {command}: {fault or 'the same'}", flush=True)
    print(f"limits: {len(ALL + SHORT)} scripts in {played} runs, {bad} with a difference, {sum(os.times()[:4]):.0f} s of processor")
    sys.exit(bool(bad))


if __name__ == "__main__":
    main()
