#!/usr/bin/env python3
"""Seeks the script by which the program takes most of its stack, and says what the longest chain of its calls can take.

    interop/deepest.py PROGRAM [COUNT [SEED]]

By each command: all rows, the scripts of `limits.py`, COUNT (1,000) each of the grammars of `hostile.py`, `mixed.py` and
`mutated_captures.py`, and as many that are changed and spliced out of those that took most. `used_stack.c` tells what the
thread that took most had taken. The chain is that of the machine code: the sum of the frames below a command, whatever is
played. No call goes through a pointer, and no frame grows; what calls itself counts 16 times, and 8 KiB are for the C library.

No chain may take more than 256 KiB, and no script more than its chain or than the rows by more than 5 in 100; such a script
is kept in the folder of the call. This needs a C compiler, objdump and a network of its own.
"""
import os
import random
import re
import resource
import shutil
import signal
import subprocess
import sys
import tempfile
from pathlib import Path

import hostile
import limits
import mutated_captures
from corpus import Player, late
from loopback import has_own_loopback
from mixed import Mixer
from relayed import without_ticks
from usage import words_or_usage

TOP = Path(__file__).resolve().parent.parent
# With the function that a command begins with.
COMMANDS = {
    "replay --workers 1": "replay", "replay --workers 4": "replay", "replay --mux": "replay", "capture": "capture",
    "bridge": "bridge", "migrate": "migrate", "relay --turns 1": "relay", "relay --turns 1 --mux": "relay",
    "relay --turns 1 --bridge": "relay_joined", "demo 256 1": "demo", "demo 4 1 --workers 16": "demo",
}
MOST, LIBRARY, AGAIN, WITHIN, KEPT = 256 << 10, 8 << 10, 16, 1.05, 100
ROOM = re.compile(r"sub \$0x([0-9a-f]{1,8}),%(rsp|r11)")
EVEN = re.compile(r"push .*|and \$0xf{14}[c-f]0,%rsp")
GOES = re.compile(r"(?:call|j[a-z]+) [0-9a-f]+ <(.+?)(?:\+0x[0-9a-f]+)?>")
# What else changes where the stack ends, but for what gives room back.
ODD = re.compile(r"call \*.*|(?!cmp |add \$0x[0-9a-f]{1,8},|mov %rbp,|lea -0x[0-9a-f]+\(%rbp\),)[a-z]+ .*,%rsp")


def frames(program):
    """Of each function its frame in octets, with the address that it returns to, and what it calls or goes on in."""
    code = subprocess.run(["objdump", "-d", "--no-show-raw-insn", program], capture_output=True, text=True, check=True).stdout
    found, name, is_probed = {}, "", False
    for line in code.splitlines():
        head, said = re.fullmatch(r"[0-9a-f]+ <(.+)>:", line), " ".join(line.split()[1:])
        room, goes = ROOM.fullmatch(said), GOES.fullmatch(said)
        if head:
            name = head[1]
            found[name] = [8, set()]
        elif room:
            # a large frame is taken in a loop, up to the place that r11 has
            found[name][0] += 0 if is_probed and room[2] == "rsp" else int(room[1], 16)
            is_probed = room[2] == "r11"
        elif goes and (goes[1] != name or said.startswith("call")):
            found[name][1].add(goes[1])
        elif EVEN.fullmatch(said):
            found[name][0] += 8 if said.startswith("push") else 64
        elif ODD.fullmatch(said) and name not in ("_start", "_init", "main"):
            sys.exit(f"deepest: no chain can be told: {name} has {said}")
    return found


def chains(program):
    """The longest chain in octets by each command's function, from the beginning of its thread."""
    found, again, depths = frames(program), set(), {}

    def depth(name, behind=()):
        if name in behind:
            again.update(behind[behind.index(name):])
            return 0
        if name not in depths:
            frame, calls = found.get(name, (0, ()))
            below = max((depth(it, (*behind, name)) for it in calls), default=0)
            depths[name] = frame * (AGAIN if name in again else 1) + below
        return depths[name]

    def above(name):
        """What those take that call it, up to the thread's own function."""
        return max((frame + above(it) for it, (frame, calls) in found.items() if name in calls and it != name), default=0)

    # the compiler may have put it into the function of the thread
    begins = next(name for name, (_, calls) in found.items() if any(it.startswith("sg_migrate::migrating::") for it in calls))
    depth(begins)
    # once more, since it is known now what calls itself
    depths.clear()
    depth(begins)
    word = lambda name: name.split("::<")[0].split("::")[-1]
    room = above(begins) + found[begins][0] + LIBRARY
    return {word(it): room + depths[it] for it in found[begins][1] if it.startswith("sg_")}


class Meter(Player):
    """Runs of the program, and what the thread that took most of its stack had taken, in octets."""

    def __init__(self, program, room):
        super().__init__(os.path.abspath(program))
        shim, self.told, self.runs = f"{room}/used.so", Path(room, "told"), 0
        subprocess.run(["cc", "-O2", "-shared", "-fPIC", "-o", shim, TOP / "interop/used_stack.c"], check=True)
        os.environ.update(LD_PRELOAD=shim, STACK_TOLD=str(self.told))

    def used(self, command, source=b""):
        self.runs += 1
        self.told.write_bytes(b"")
        _, status, said = self.played(command, without_ticks(source) if command.startswith("relay") else source)
        told = self.told.read_text().split()
        if not told or status is None or status < 0:
            sys.exit(f"deepest: {command} ends with {status}: {said[-200:]!r}")
        return max(map(int, told)), source


def rows():
    for path in sorted([*TOP.glob("interop/rows/*.script"), *TOP.glob("examples/*.script")]):
        capture = path.with_suffix(".pcap")
        yield path.read_bytes() + (capture.read_bytes() if capture.exists() else b"")


def made(count, seed):
    for lines in limits.ALL + limits.SHORT:
        yield "".join(line + "\n" for line in ["srtpgw 1", *lines()]).encode()
    for of in hostile, mutated_captures:
        yield from (source for _, source in of.cases(count, seed))
    for number in range(count):
        mixer = Mixer(f"{seed} {number}", 1 + number % 2, ("replay", "replay --mux", "bridge")[number % 3])
        mixer.mixed(30)
        yield mixer.script()


def deepest(meter, command, sources, count, dice):
    """The most by the rows and by all, and the source by which it is."""
    if command.startswith("demo"):
        return meter.used(command)[0], *meter.used(command)
    by_rows = [meter.used(command, row) for row in rows()]
    best = sorted([*by_rows, *(meter.used(command, it) for it in sources)], key=lambda it: (-it[0], len(it[1])))[:KEPT]
    for _ in range(count):
        source = dice.choice(best)[1]
        for _ in range(dice.choice((1, 2, 3))):
            source = hostile.changed(dice, source, dice.choice(sources))
        found = meter.used(command, source[:400_000])
        if found[0] >= best[-1][0]:
            best[0 if found[0] > best[0][0] else dice.randrange(len(best) // 2, len(best))] = found
    return max(most for most, _ in by_rows), *best[0]


def main():
    program, *rest = words_or_usage(__doc__)
    count, seed = (rest + ["1000", "1"][len(rest):])[:2]
    missing = [it for it in ("cc", "objdump") if not shutil.which(it)]
    if missing or not has_own_loopback():
        print(f"not run: deepest: it needs {' and '.join(missing) or 'a network of its own'}")
        return 77
    resource.setrlimit(resource.RLIMIT_NOFILE, (8192, 8192))
    signal.signal(signal.SIGALRM, late)
    chain, sources, bad = chains(program), list(made(int(count), seed)), 0
    with tempfile.TemporaryDirectory() as room:
        meter = Meter(program, room)
        for command, function in COMMANDS.items():
            by_rows, most, source = deepest(meter, command, sources, int(count), random.Random(seed))
            is_bad = most > min(by_rows * WITHIN, chain[function]) or chain[function] > MOST
            if is_bad:
                Path(f"deepest-{command.replace(' ', '-')}.source").write_bytes(source)
            bad += is_bad
            by_rows, most, longest = (it / 1024 for it in (by_rows, most, chain[function]))
            print(f"{command}: {by_rows:.1f} KiB by the rows, {most:.1f} by all, the chain {longest:.1f}", flush=True)
    print(f"deepest: {meter.runs} runs, {bad} commands that take more than they may, {sum(os.times()[:4]):.0f} s of processor")
    return bool(bad)


if __name__ == "__main__":
    sys.exit(main())
