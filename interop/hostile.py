#!/usr/bin/env python3
"""Plays scripts that were cut, mixed up and changed through the program, and compares each run with the model's.

    interop/hostile.py PROGRAM [COUNT [SEED [COMMAND]]]

Each is made of a script of `interop/rows/`, of `examples/` or of the grammar of `mixed.py`. One in five is cut at an
octet, at each in turn; the others have one to three changes: a bit, an octet, a digit, a field or a line changed,
dropped, doubled or exchanged with another's, a number made larger or smaller, or a cut. Of each run:

- it ends by itself, within 20 seconds and 32 MiB of data, with the status that the model tells and its text;
- what is written is what the model tells, to the octet. Where a line asks for noise to be drawn, what is written begins
  with what the model tells of the lines before, the rest is outcomes of their grammar, and the status is 0 or 2.

One run in eight has two workers and what memory it likes; its octets are the same. One in eight is a migration, one is
played with `--mux`, and one by `bridge`. COMMAND is the one by which all are, a replay by one worker, two and sixteen.
"""
import os
import random
import re
import resource
import subprocess
import sys
from collections import Counter
from pathlib import Path

from mixed import COMMANDS, Mixer, ways
from model import TOLD
from usage import words_or_usage

TOP = Path(__file__).resolve().parent.parent
MEMORY = 32 << 20
SECONDS = 20

DIGITS = [b"%x" % digit for digit in range(16)]
STATUS = re.compile(rb"srtpgw: script line [1-9][0-9]*: (Word|Number|Hex|Length|Version|Unended)\n")
ADDRESS = rb"\d+\.\d+\.\d+\.\d+:\d+"
OUTCOME = re.compile(
    rb"made \d+ \d+ \d+|live \d+|sdp \d+ (secure|plain) ([0-9a-f]+|-)|refused (\d+|-) [A-Za-z]+( [A-Za-z0-9-]+)*"
    rb"|ended \d+ \d+ \d+ (bye|idle|rejected)|out \d+ " + ADDRESS + rb" ([0-9a-f]+|-)|(drop|lost) \d+ [A-Za-z]+( \d+)*"
    rb"|unsent \d+ " + ADDRESS + rb"|(joined|parted) \d+ \d+|unjoined \d+ [A-Za-z]+( \d+)?"
)


def corpus(seed):
    """Scripts of the folders, and as many again of the grammar."""
    paths = [path for folder in ("interop/rows", "examples") for path in sorted((TOP / folder).glob("*.script"))]
    scripts = [(path.stem, path.read_bytes()) for path in paths]
    for number in range(len(paths)):
        mixer = Mixer(f"hostile {seed} {number}", 1 + number % 2, ("replay", *COMMANDS)[number % 4])
        mixer.mixed(20)
        scripts.append((f"mixed {number}", mixer.script()))
    return scripts


def some_line(dice, text):
    """The bounds of a line, with its end."""
    at = dice.randrange(len(text)) if text else 0
    start = text.rfind(b"\n", 0, at) + 1
    end = text.find(b"\n", at)
    return start, (len(text) if end < 0 else end + 1)


def some_field(dice, text):
    """The bounds of a field of a line."""
    start, end = some_line(dice, text)
    fields = list(re.finditer(rb"[^ \n]+", text[start:end]))
    if not fields:
        return start, end
    field = dice.choice(fields)
    return start + field.start(), start + field.end()


def changed(dice, text, other):
    """One change."""
    kind = dice.randrange(16)
    at = dice.randrange(len(text)) if text else 0
    if kind == 0 and text:
        return text[:at] + bytes([text[at] ^ (1 << dice.randrange(8))]) + text[at + 1:]
    if kind == 1 and text:
        return text[:at] + bytes([dice.randrange(256)]) + text[at + 1:]
    if kind == 2:
        return text[:at]
    if kind == 3:
        return text[:at] + text[at + 1:]
    if kind > 10:
        # a digit for a digit mostly leaves the line within the grammar
        digits = [place.start() for place in re.finditer(b"[0-9a-f]", text)]
        at = dice.choice(digits or [len(text)])
        return text[:at] + dice.choice(DIGITS) + text[at + 1:]
    start, end = some_line(dice, text)
    if kind == 4:
        return text[:start] + text[end:]
    if kind == 5:
        return text[:end] + text[start:end] + text[end:]
    if kind == 6:
        first, last = some_line(dice, other)
        return text[:start] + other[first:last] + text[start:]
    start, end = some_field(dice, text)
    if kind == 7:
        return text[:start] + text[end:]
    if kind == 8:
        first, last = some_field(dice, other)
        return text[:start] + other[first:last] + text[end:]
    if kind == 9:
        numbers = [b"0", b"1", b"256", b"65536", b"4294967296", b"18446744073709551616", b"-1", b"01", b"-"]
        return text[:start] + dice.choice(numbers) + text[end:]
    return text[:end] + dice.choice(DIGITS) * dice.choice([2, 200, 9000, 80000]) + text[end:]


def cases(count, seed):
    """A name and a script each."""
    dice, scripts = random.Random(seed), corpus(seed)
    in_turn = dice.sample(scripts, len(scripts))
    cut = ((name, script[:length]) for name, script in in_turn for length in range(len(script)))
    for number in range(count):
        if number % 5 == 0:
            name, script = next(cut)
        else:
            name, script = dice.choice(scripts)
            for _ in range(dice.choice([1, 1, 2, 3])):
                script = changed(dice, script, dice.choice(scripts)[1])
        yield f"{number} ({name})", script


def words_of(number):
    """The words that play a script."""
    others = {1: ["replay", "--mux"], 3: ["migrate"], 5: ["bridge"], 7: ["replay", "--workers", "2"]}
    return others.get(number % 8, ["replay"])


def played(program, script, words):
    """Status, standard output and standard error. The bound on memory is there before the script is."""
    pipes = {"stdin": subprocess.PIPE, "stdout": subprocess.PIPE, "stderr": subprocess.PIPE}
    with subprocess.Popen([program, *words], **pipes) as run:
        if words[-1] not in ("2", "16"):
            resource.prlimit(run.pid, resource.RLIMIT_DATA, (MEMORY, MEMORY))
        try:
            written, said = run.communicate(script, SECONDS)
        except subprocess.TimeoutExpired:
            run.kill()
            return "late", b"", b""
    return run.returncode, written, said


def fault(run, wanted):
    """What is wrong with a run; None where all is as it must be."""
    status, written, said = run
    if wanted.status is not None:
        if (status, said) != (wanted.status, wanted.said):
            return f"ends with {status} {said[-200:]!r}, the model with {wanted.status} {wanted.said!r}"
        return None if written == wanted.octets() else "writes other outcomes than the model"
    if status not in (0, 2) or not (STATUS.fullmatch(said) if status else said == b""):
        return f"ends with {status} and {said[-200:]!r}"
    if not written.startswith(wanted.octets()):
        return "writes other outcomes than the model, before noise is drawn"
    *lines, rest = written.split(b"\n")
    if rest or not all(OUTCOME.fullmatch(line) for line in lines):
        return "writes what is no outcome"
    return None


def main():
    program, *rest = words_or_usage(__doc__)
    count, seed, only = (rest + ["20000", "1", None][len(rest):])[:3]
    ends, bad = Counter(), 0
    for number, (name, script) in enumerate(cases(int(count), seed)):
        if number and number % 1000 == 0:
            print(f"{number} played, {bad} bad, {sum(os.times()[:4]):.0f} s of processor", flush=True)
        runs = [way.split() for way in ways(only)] if only else [words_of(number)]
        wanted = TOLD["replay --mux" if "--mux" in runs[0] else runs[0][0]](script)
        ends[{0: "done", 2: "not in the grammar", None: "noise drawn"}[wanted.status]] += 1
        for words in runs:
            told = fault(played(program, script, words), wanted)
            if told:
                print(f"{name} by {' '.join(words)}: {told}", flush=True)
                Path(f"hostile-{number}.script").write_bytes(script)
                bad += 1
    print(f"hostile scripts: {count} played, {bad} bad, {sum(os.times()[:4]):.0f} s of processor; {dict(ends)}")
    sys.exit(bool(bad))


if __name__ == "__main__":
    main()
