#!/usr/bin/env python3
"""Plays changed tools: each strength/tools/NAME.edit must be refused by the check that its first line names.

    interop/changed_tools.py TREE PROGRAM [NAME..]     all of them, or these; in TREE, a copy of the repository, whose files
                                                       it changes and changes back

A check is a program of the repository, with the words that stand behind it; it is handed PROGRAM where it asks for one. It
has to pass before anything is changed, and to end with 1 where the edit is in. Prints a line for each, and ends with 1 where
one isn't refused, can't be applied or can't be played.
"""

import os
import signal
import subprocess
import sys
from pathlib import Path

from changed import Stuck, texts_after
from usage import words_or_usage

EDITS = Path(__file__).resolve().parent.parent / "strength" / "tools"
HEAD = "refused by: "
SECONDS = 300


def ended(tree, program, check):
    """The status of a check, and the last line that it wrote; 124 where it doesn't end."""
    path, *names = check.split(" ")
    words = [path] if path.startswith(".ci/") else [sys.executable, path, program, *names]
    how = {"cwd": tree, "stdin": subprocess.DEVNULL, "stdout": subprocess.PIPE, "stderr": subprocess.STDOUT}
    # Whatever is changed, no check begins to build the program.
    more = {**os.environ, "FIRST_RUN_SECONDS": str(SECONDS - 30), "SRTPGW": program}
    with subprocess.Popen(words, start_new_session=True, env=more, **how) as run:
        try:
            said = run.communicate(timeout=SECONDS)[0]
        except subprocess.TimeoutExpired:
            os.killpg(run.pid, signal.SIGKILL)
            return 124, "it doesn't end"
    lines = said.decode(errors="replace").strip().splitlines()
    return run.returncode, lines[-1][:160] if lines else ""


def played(tree, program, edit, passed):
    """What becomes of one, in words; raises Stuck where nothing can be said."""
    text = edit.read_text()
    if not text.startswith(HEAD):
        raise Stuck("its first line names no check")
    check = text.split("\n")[0][len(HEAD):]
    if check not in passed:
        passed[check] = ended(tree, program, check)
    if passed[check][0] != 0:
        raise Stuck(f"{check} doesn't pass as it is: {passed[check]}")
    kept = {path: path.read_text() for path in texts_after(text, tree)}
    try:
        for path, changed in texts_after(text, tree).items():
            path.write_text(changed)
        status, said = ended(tree, program, check)
    finally:
        for path, before in kept.items():
            path.write_text(before)
    if status in (0, 77):
        raise Stuck(f"{check} passes, or isn't run")
    return f"refused by {check}: {said}"


def main(tree, program, *names):
    edits = [EDITS / f"{name}.edit" for name in names] or sorted(EDITS.glob("*.edit"))
    bad, passed = 0, {}
    for edit in edits:
        try:
            print(f"{edit.stem}: {played(Path(tree), program, edit, passed)}", flush=True)
        except (OSError, Stuck) as fault:
            bad += 1
            print(f"{edit.stem}: NOT REFUSED: {fault}", flush=True)
    print(f"strength: {len(edits) - bad} of {len(edits)} changed tools refused")
    return bool(bad)


if __name__ == "__main__":
    sys.exit(main(*words_or_usage(__doc__)))
