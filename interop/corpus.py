#!/usr/bin/env python3
"""Plays all of what a sample would miss through the program, and compares each run's octets, status and text with the
model's (`model/`), those of the borders with what is worked out by hand (`borders.py`).

    interop/corpus.py PROGRAM [--small] [--workers N] [PART..]

The parts, all where none is named:

captures    the known packet's capture in each of the four forms: each prefix, and each octet by each other value
records     three records at moments that show, in each form and both versions: each prefix, each bit, and each octet of
            the records' heads by each other value
fields      each value of each field of two octets of a frame, in captures of 65,536 records
bridges     all scripts of three lines over the alphabet of a bridge, behind six beginnings
shared      the same of ports that RTP and RTCP share, behind five
borders     scripts and captures that end at 2^30 octets, an octet before and an octet behind, by each command

`--small` plays some of captures, records, bridges and shared, in half a minute. The whole takes an hour of one processor at
the most; N processes (one) share each part. What makes a difference is kept in the folder of the call as
`PART-NUMBER.source`; a border, which is too long for that, is told.
"""
import itertools
import multiprocessing
import os
import signal
import sys
import time
from pathlib import Path

from borders import Border, borders, otherwise_by_model
from calls import KEY
from captured import LAST_MOMENT, MICRO, NANO, Captured, ethernet, frame, header, ipv4, record, udp
from joined import SECOND, SECOND_PLAIN, TWOS, first_call, second_call
from mixed import ended
from model import TOLD
from shared import ALICE_MUXES, MUX, report
from signals import (
    ALICE, ALICE_KEYED, BOB, BOB_ANSWERS, COUNTING, ONE, PLAIN, SECURE, SHIFTED, Script, answer, crypto, key, noise, offer_sdes,
    offer_secure, plain_text, secure_text,
)
from srtp import KNOWN_SEALED, MasterKey, rtcp, rtp
from usage import words_or_usage

FORMS = [{"magic": magic, "order": order} for magic in (MICRO, NANO) for order in ("little", "big")]
# When the first of three records was captured.
MOMENT = 1_764_000_000_000
# A run that takes longer doesn't end.
SECONDS = 60


def text(lines):
    return "".join(line + "\n" for line in lines).encode()


def begun(*lines):
    """The lines of the known packet's call, up to the capture."""
    s = Script()
    first_call(s)
    return text([*s.lines, *lines, "capture"])


# ---- captures

def captures():
    lines = begun()
    for form in FORMS:
        whole = header(**form) + record(frame(KNOWN_SEALED), order=form["order"])
        for length in range(len(whole) + 1):
            yield "capture", lines + whole[:length]
        for place in range(len(whole)):
            for other in changed(whole, place, range(256)):
                yield "capture", lines + other


def changed(octets, place, values):
    """The octets with each of these values at a place that isn't the one that is there."""
    return (octets[:place] + bytes([value]) + octets[place + 1:] for value in values if value != octets[place])


def three_records(form, version):
    """Each moves the end of a call: the second comes in the last fraction at which it is still there, the third in the first
    one at which it isn't. In version 2 that would be behind the last moment that there is, and the call is there."""
    s, began = Captured(version, **form), 0 if version == 1 else LAST_MOMENT - 100_000
    s.lines.append(f"tick {began}")
    first_call(s)
    if version == 2:
        s.arrives_at(began, 20000, KEY.srtp(rtp(7), 7))
    s.begins().has(frame(KNOWN_SEALED), millis=MOMENT)
    s.has(frame(rtp(8), 20002), millis=MOMENT + 59_999, more=s.per - 1)
    s.has(frame(KEY.srtcp(rtcp(), 0), 20001), millis=MOMENT + 119_999)
    return s.text(), s.capture


def heads(capture, order):
    """Where the octets of the records' heads stand."""
    at, found = len(header()), set()
    while at < len(capture):
        found |= set(range(at, at + 16))
        at += 16 + int.from_bytes(capture[at + 8:at + 12], order)
    return found


def records():
    for form, version in itertools.product(FORMS, (1, 2)):
        lines, capture = three_records(form, version)
        in_heads = heads(capture, form["order"])
        for length in range(len(capture) + 1):
            yield "capture", lines + capture[:length]
        for place, octet in enumerate(capture):
            bits = [octet ^ 1 << bit for bit in range(8)]
            for other in changed(capture, place, range(256) if place in in_heads else bits):
                yield "capture", lines + other


def fields():
    """Each record has a packet of its own, so that what is put out shows its octets."""
    packets = [ethernet(ipv4(udp(KEY.srtp(rtp(number), number)))) for number in range(65_536)]
    for place in range(12, len(ethernet(ipv4(udp(b"")))), 2):
        others = (it[:place] + value.to_bytes(2, "big") + it[place + 2:] for value, it in enumerate(packets))
        yield "capture", begun() + header() + b"".join(map(record, others))


# ---- scripts of three lines

def comes(version, port, octets, source=SECURE):
    return f"in {'5 ' * (version == 2)}{port} {source} {octets.hex()}"


def third_offers(name, drawn):
    return offer_secure(3, secure_text(crypto(1, key(name))), drawn)


def of_bridges(version):
    """The alphabet of a bridge: three calls, of which the third may be by hand or by crypto lines, and one of two media. What
    comes for the first call and for the second one's plain side has one number, so that the later one may be lost."""
    return [
        "join 1 2", "join 2 1", "join 1 3", "join 3 2", "join 3 3", "join 2 4", "part 1", "part 3",
        "bye 1", "bye 2", "reject 3", "tick 2000", "tick 60000",
        f"manual 3 {SECOND} {SECOND_PLAIN} 00000000 64 {key('three').field()} {key('four').field()}",
        third_offers("third", COUNTING), answer(3, plain_text(), noise("third")),
        comes(version, 20000, KEY.srtp(rtp(9), 9)), comes(version, 20016, TWOS.srtp(rtp(8), 8), SECOND),
        comes(version, 20001, KEY.srtcp(rtcp(), 0)), comes(version, 20018, rtp(9), SECOND_PLAIN),
    ]


def of_two_media():
    """The fourth call is live."""
    secure = [line for port in (40020, 40030) for line in (f"m=audio {port} RTP/SAVP 0", crypto(1, key(f"fourth {port}")))]
    return [offer_secure(4, ALICE + secure), answer(4, BOB + ["m=audio 41020 RTP/AVP 0", "m=audio 41030 RTP/AVP 0"])]


def beginnings_of_bridges():
    for version, more in (
        (1, None), (1, of_two_media()), (1, ["join 1 2"]), (1, ["join 1 2", third_offers("open", SHIFTED)]),
        (1, [third_offers("live", SHIFTED), answer(3, plain_text(), noise("live")), "join 1 3"]), (2, ["join 1 2"]),
    ):
        s = Script(version, "bridge")
        if more is not None:
            first_call(s), second_call(s)
        yield version, s.lines + (more or [])


def bridges():
    for version, lines in beginnings_of_bridges():
        for three in itertools.product(of_bridges(version), repeat=3):
            yield "bridge", text([*lines, *three])


# What the secure side has in front of its attributes.
MINE, OTHER = (crypto(1, key(name)) for name in ("mine", "another"))


def of_shared():
    """The alphabet of ports that are shared: a call that either side offers, with and without the line."""
    return [
        offer_secure(7, secure_text(MINE, MUX), noise("one")), offer_secure(7, secure_text(OTHER), noise("two")),
        offer_sdes(7, plain_text(MUX), noise("three")), offer_sdes(7, plain_text(), noise("four")),
        answer(7, plain_text(MUX), noise("five")), answer(7, plain_text(), noise("six")),
        answer(7, secure_text(crypto(1, key("told")), MUX), noise("seven")), answer(7, secure_text(crypto(2, key("more"))), noise("eight")),
        "reject 7", "bye 7", "tick 2000", "tick 60000",
        comes(1, 20000, key("mine").srtp(rtp(7), 7)), comes(1, 20000, key("mine").srtcp(rtcp(), 0)),
        comes(1, 20001, ALICE_KEYED.srtcp(rtcp(), 1, ONE)), comes(1, 20000, ALICE_KEYED.srtp(rtp(8, first="80c0"), 8, ONE)),
        comes(1, 20002, rtp(9), PLAIN), comes(1, 20002, report(0xDF), PLAIN), comes(1, 20003, rtcp(), PLAIN),
    ]


def beginnings_of_shared():
    alice, live = offer_secure(7, ALICE_MUXES), answer(7, BOB_ANSWERS)
    bob, back = offer_sdes(7, plain_text(MUX), SHIFTED), answer(7, secure_text(crypto(1, ALICE_KEYED), MUX), SHIFTED)
    return [], [alice], [alice, live], [bob, back], [alice, live, bob]


def shared():
    for lines in beginnings_of_shared():
        for three in itertools.product(of_shared(), repeat=3):
            yield "replay --mux", text(["srtpgw 1", *lines, *three])


# ---- playing

PARTS = {it.__name__: it for it in (captures, records, fields, bridges, shared, borders)}
# Of how many runs `--small` plays one: a prime number, so that each letter comes in each place.
STRIDES = {"captures": 97, "records": 397, "bridges": 47, "shared": 47}


class Player:
    """Runs of the program, whose three streams are files in memory that are used again."""

    def __init__(self, program):
        self.program, self.streams = program, [open(os.memfd_create("stream"), "r+b", buffering=0) for _ in range(3)]

    def played(self, command, source):
        """What is written, the status and what is said; a status of None where the run doesn't end."""
        for stream in self.streams:
            stream.seek(0), stream.truncate()
        written = 0
        while written < len(source):
            written += self.streams[0].write(memoryview(source)[written:])
        self.streams[0].seek(0)
        actions = [(os.POSIX_SPAWN_DUP2, stream.fileno(), number) for number, stream in enumerate(self.streams)]
        run = os.posix_spawn(self.program, [self.program, *command.split()], os.environ, file_actions=actions)
        status = self.status_of(run)
        for stream in self.streams:
            stream.seek(0)
        return self.streams[1].read(), status, self.streams[2].read()

    def status_of(self, run):
        signal.alarm(SECONDS)
        try:
            return os.waitstatus_to_exitcode(os.waitpid(run, 0)[1])
        except TimeoutError:
            os.kill(run, signal.SIGKILL), os.waitpid(run, 0)
            return None
        finally:
            signal.alarm(0)


def late(*_):
    raise TimeoutError


def differs(player, run):
    """Whether what comes of a run is something else than it has to be."""
    if isinstance(run, Border):
        return run.differs(player.program)
    command, source = run
    return player.played(command, source) != ended(TOLD[command](source))


def keep(part, number, run):
    if isinstance(run, Border):
        print(f"{part}-{number} by {run.command}: it has to end with {run.end}", flush=True)
    else:
        Path(f"{part}-{number}.source").write_bytes(run[1])


def share(job):
    """A worker's share of a part: how many runs, and the numbers of those with a difference."""
    program, part, place, stride, step = job
    signal.signal(signal.SIGALRM, late)
    player, count, bad = Player(program), 0, []
    for number, run in enumerate(PARTS[part]()):
        if number % stride or number // stride % step != place:
            continue
        count += 1
        if differs(player, run):
            bad.append(number)
            keep(part, number, run)
        if count % 500 == 0:
            # it keeps what it derived for each key of each run
            MasterKey.derived.cache_clear()
        if count % 5_000 == 0:
            print(f"{part}: {count} runs by worker {place}, {len(bad)} with a difference", flush=True)
    return count, bad


def options(words):
    """Whether it is small, how many workers there are, and the parts."""
    is_small, workers, parts = False, 1, []
    while words:
        word = words.pop(0)
        if word == "--small":
            is_small = True
        elif word == "--workers" and words and words[0].isdigit():
            workers = int(words.pop(0))
        elif word in PARTS:
            parts.append(word)
        else:
            sys.exit(f"corpus: {word} is no part")
    return is_small, max(workers, 1), parts or list(STRIDES if is_small else PARTS)


def main():
    program, *rest = words_or_usage(__doc__)
    is_small, workers, parts = options(rest)
    wrong, played = otherwise_by_model(), 0
    print(f"borders at a lower limit beside the model: {len(wrong)} with a difference {wrong or ''}", flush=True)
    differences = len(wrong)
    for part in parts:
        began, stride = time.monotonic(), STRIDES.get(part, 1) if is_small else 1
        jobs = [(os.path.abspath(program), part, place, stride, workers) for place in range(workers)]
        with multiprocessing.Pool(workers) as pool:
            shares = pool.map(share, jobs)
        count, bad = sum(it[0] for it in shares), sorted(number for it in shares for number in it[1])
        print(f"{part}: {count} runs, {len(bad)} with a difference {bad[:20] or ''}, {time.monotonic() - began:.0f} s", flush=True)
        played, differences = played + count, differences + len(bad)
    print(f"corpus: {played} runs, {differences} with a difference, {sum(os.times()[:4]):.0f} s of processor")
    sys.exit(bool(differences))


if __name__ == "__main__":
    main()
