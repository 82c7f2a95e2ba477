#!/usr/bin/env python3
"""Plays changed definitions: each strength/definitions/NAME.edit must be refused by what its first line names.

  interop/changed.py TREE [NAME..]     all of them, or these; in TREE, a worktree of the repository, whose files it changes

"script NAME": the definitions, computed by interop/definitions.py, tell something else than interop/rows/NAME.out. "relay NAME":
those of a relay do, to which the script's datagrams come over the network. "law NAME": the check of that law fails in the crate
that has it. "law NAME (by reading), script NAME": the crate of the definition is refused before the law is reached, so the
script is played. Prints a line for each, and ends with 1 where one isn't refused, can't be applied or can't be played.
"""
import functools
import re
import subprocess
import sys
from pathlib import Path

TOP = Path(__file__).resolve().parent.parent
HEAD = re.compile(r"refused by: (?:law \S+ \(by reading\), )?(law|script|relay) (\S+)")
SCRIPT_SECONDS = 600
LAW_SECONDS = 3600
# the relay that tells what these words do
RELAYS = {"replay": "relay", "replay --mux": "relay --mux", "bridge": "relay --bridge"}


class Stuck(Exception):
    """An edit that can't be played, with the reason."""


def texts_after(edit, tree):
    """The files that an edit changes, as it leaves them; pairs apply one behind another."""
    texts, path, old = {}, None, None
    for line in edit.split("\n")[1:]:
        if line.startswith("file: "):
            path = tree / line[6:]
        elif line.startswith("old: "):
            old = line[5:]
        elif line.startswith("new: "):
            text = texts.get(path) or path.read_text()
            if text.count(old) != 1:
                raise Stuck(f"an old text stands {text.count(old)} times in {path.relative_to(tree)}")
            texts[path] = text.replace(old, line[5:])
    return texts


def told_by(crates, row, kind):
    """The lines that a row's script, with its capture behind it, tells by these crates' definitions, played as its words say, or by a relay."""
    words = row.with_suffix(".words")
    played = words.read_text().strip() if words.is_file() else "replay"
    capture = row.with_suffix(".pcap")
    source = row.with_suffix(".script").read_bytes() + (capture.read_bytes() if capture.is_file() else b"")
    command = [sys.executable, str(TOP / "interop" / "definitions.py"), "/dev/stdin", str(crates), RELAYS[played] if kind == "relay" else played]
    ran = subprocess.run(command, input=source, capture_output=True, timeout=SCRIPT_SECONDS)
    if ran.returncode:
        raise Stuck("the definitions can't be computed: " + ran.stderr.decode().strip().split("\n")[-1])
    return ran.stdout.split(b"\n")


@functools.cache
def lines_of(row, kind):
    """The lines of a row, which the definitions as they are have to tell."""
    lines = row.with_suffix(".out").read_bytes().split(b"\n")
    if told_by(TOP / "crates", row, kind) != lines:
        raise Stuck(f"the definitions as they are tell something else than {row.name}.out")
    return lines


def refused_by_script(tree, name, kind):
    """Where the definitions tell something else than the row, or None."""
    row = TOP / "interop" / "rows" / name
    lines = lines_of(row, kind)
    told = told_by(tree / "crates", row, kind)
    if told == lines:
        return None
    at = next(i for i in range(max(len(told), len(lines))) if told[i:i + 1] != lines[i:i + 1])
    return f"line {at + 1} of its outcomes"


def crate_of_law(tree, name):
    laws = [it for it in tree.glob("crates/*/src/laws.rt") if f"pub fn {name}()" in it.read_text()]
    if len(laws) != 1:
        raise Stuck(f"{len(laws)} crates have a law {name}")
    return laws[0].parent.parent


def refused_by_check(tree, name, _kind):
    """Where the check of a law fails, or None."""
    crate = crate_of_law(tree, name)
    ran = subprocess.run(["rt", "check", "--only", f"laws::{name}"], cwd=crate, capture_output=True, text=True, timeout=LAW_SECONDS)
    said = ran.stdout + ran.stderr
    if ran.returncode == 0:
        return None
    faults = re.findall(r"(?m)^(?:\./)?(\S+\.(?:antt|rt)):\d+:\d+: error", said)
    if not faults:
        raise Stuck("the check ended without a refusal: " + said.strip().split("\n")[-1])
    return f"in {crate.name}, at " + ", ".join(sorted(set(faults))[:3])


def play(edit, tree):
    """By what an edit is refused, or None."""
    text = edit.read_text()
    head = HEAD.fullmatch(text.split("\n")[0])
    if not head:
        raise Stuck("its first line names no law, script or relay")
    kind, name = head.groups()
    texts = texts_after(text, tree)
    before = {path: path.read_text() for path in texts}
    how = refused_by_check if kind == "law" else refused_by_script
    try:
        for path, changed in texts.items():
            path.write_text(changed)
        found = how(tree, name, kind)
    except subprocess.TimeoutExpired:
        raise Stuck("no answer in time") from None
    finally:
        for path, was in before.items():
            path.write_text(was)
    return found and f"{kind} {name}: {found}"


def main(words):
    if not words or words[0].startswith("-"):
        print(__doc__, file=sys.stderr)
        return 2
    tree, names = Path(words[0]).resolve(), words[1:]
    edits = [it for it in sorted((tree / "strength" / "definitions").glob("*.edit")) if not names or it.stem in names]
    refused = 0
    for edit in edits:
        try:
            found = play(edit, tree)
        except Stuck as why:
            print(f"{edit.stem}: NOT PLAYED, {why}", flush=True)
            continue
        refused += bool(found)
        print(f"{edit.stem}: " + (f"refused by {found}" if found else "NOT REFUSED"), flush=True)
    print(f"definitions: {refused} of {len(edits)} changes refused")
    return int(refused != len(edits) or not edits)


if __name__ == "__main__":
    sys.exit(main(sys.argv[1:]))
