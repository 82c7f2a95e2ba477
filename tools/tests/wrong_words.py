#!/usr/bin/env python3
"""Words that a tool can't take are told in one line on standard error, with status 2 and no trace of Python's.

    python3 tools/tests/wrong_words.py
"""

import concurrent.futures
import os
import subprocess
import sys
import tempfile
from pathlib import Path

TOP = Path(__file__).resolve().parents[2]
sys.path[:0] = [str(TOP / "tools"), str(TOP / "examples" / "live")]
from counters import Calls  # noqa: E402
import ends  # noqa: E402
from outcome_log import OutcomeLog  # noqa: E402

KEY = "RAW80:" + "00" * 20
OTHER = "RAW80:" + "11" * 20
PSK = "00" * 16
NG, SCRIPT, WATCH, LATCH = "tools/ng/__main__.py", "tools/script.py", "tools/watch.py", "tools/latch.py"
WRONG = [
    (NG, "--listen 127.0.0.1:99999"), (NG, "--listen 127.0.0.1:-1"), (NG, "--listen x"), (NG, "--step nan"), (NG, "--step 0"),
    (NG, "--step -1"), (NG, "--step 1000"), (NG, "--tell foo"), (NG, "--tell http://"), (NG, "--tell ftp://a/b"),
    (NG, "--counters"), (NG, "--secure ::1"), (NG, "--plain a"), (NG, "--interface a=b"), (NG, "--bound x=1"),
    (NG, "--bound keys=-1"), (NG, "--calls nowhere/x"), (NG, "--outcomes nowhere/x"), (NG, "--outcomes-most 0"),
    (NG, "--priority 100"), (NG, "--hold inf"), (NG, "--frob"),
    (WATCH, "--to nowhere/x --prometheus"), (WATCH, "--every nan"), (WATCH, "--every 0"), (WATCH, "--looks 0"),
    (WATCH, "--after -1"),
    (LATCH, "follow 20000 10.1.0.2 46000 --seconds nan"), (LATCH, "follow 20000 10.1.0.2 46000 --seconds inf"),
    (LATCH, "follow 20000 10.1.0.2 0"), (LATCH, "follow 19999 10.1.0.2 46000"), (LATCH, "leave"),
    (SCRIPT, "--call -1 --bye"), (SCRIPT, "--call 4294967296 --bye"), (SCRIPT, "--call 01x --bye"), (SCRIPT, "--tick -5"),
    (SCRIPT, "--tick 2085978496000"), (SCRIPT, "--manual a b c d"), (SCRIPT, f"--manual 1.2.3.4:5 1.2.3.4:65536 {KEY} {OTHER}"),
    (SCRIPT, f"--manual 1.2.3.4:5 1.2.3.4:6 {KEY} {OTHER[:-2]}"),
    (SCRIPT, f"--window 63 --manual 1.2.3.4:5 1.2.3.4:6 {KEY} {OTHER}"),
    (SCRIPT, "--psk own peer 00"), (SCRIPT, f"--psk own \x7f {PSK}"), (SCRIPT, f"--psk own \udcff {PSK}"),
    (SCRIPT, f"--psk own peer {PSK.replace('0', 'A')}"), (SCRIPT, "--noise 00 --offer-secure TEXT"),
    (SCRIPT, "--offer-mikey b\xe9 TEXT"), (SCRIPT, "--port 1"), (SCRIPT, "--port 5=6"),
]
RIGHT = [
    "--call 4294967295 --bye", "--tick 2085978495999", f"--manual 1.2.3.4:0 255.255.255.255:65535 {KEY} {OTHER}",
    f"--psk own peer {PSK}", f"--noise {'00' * 304} --offer-secure TEXT", "--offer-mikey bob TEXT",
]
CLAIMS = []


def check(what, holds):
    CLAIMS.append((what, bool(holds)))


def ran(tool, given, text):
    words = [str(text) if word == "TEXT" else word for word in given.split(" ")]
    # A daemon that takes them finds no gateway, and doesn't begin to build one.
    how = {"stdin": subprocess.DEVNULL, "capture_output": True, "timeout": 60, "env": {**os.environ, "SRTPGW": "false"}}
    return subprocess.run([sys.executable, TOP / tool, *words], **how)


def told(text):
    with concurrent.futures.ThreadPoolExecutor(4) as pool:
        runs = list(pool.map(lambda row: ran(*row, text), WRONG))
    for (tool, given), run in zip(WRONG, runs):
        said = run.stderr.decode(errors="replace").splitlines()
        check(f"{tool} {given!a}: {run.returncode}, {said}", (run.returncode, run.stdout, len(said)) == (2, b"", 1))
    for given in RIGHT:
        check(f"script.py {given[:40]}", ran(SCRIPT, given, text).returncode == 0)


# ---- which program the examples take

STANDS_IN = "#!/bin/sh\necho \"$@ ${SRTPGW_UNPROVED:-proved}\" >> played\n"


def programs(folder):
    """Where SRTPGW_UNPROVED is set, the program is compiled before anybody waits for its first answer."""
    (folder / "srtpgw").write_text(STANDS_IN)
    (folder / "srtpgw").chmod(0o755)
    kept, ends.TOP = ends.TOP, folder
    here = os.getcwd()
    os.chdir(folder)
    try:
        os.environ.pop("SRTPGW", None)
        os.environ["SRTPGW_UNPROVED"] = "1"
        check("an unproved program", status_of(ends.program) == 0 and ends.program() == str(folder / "srtpgw"))
        check("it is compiled first", (folder / "played").read_text() == 2 * "replay 1\n")
        del os.environ["SRTPGW_UNPROVED"]
        check("one that isn't built", status_of(ends.program) == 77)
        os.environ["SRTPGW"] = "another"
        check("another one", ends.program() == "another")
    finally:
        os.chdir(here)
        ends.TOP = kept


def status_of(work):
    sys.stderr.flush()
    kept, sys.stderr = sys.stderr, open(os.devnull, "w")
    try:
        work()
    except SystemExit as end:
        return end.code
    finally:
        sys.stderr = kept
    return 0


# ---- a log of outcomes with a bound

def bounded(folder):
    """It goes on in another file, which a reader goes on in without counting anything twice."""
    path = folder / "outcomes"
    log, calls = OutcomeLog(path, most=60), Calls()
    lines = ["srtpgw 1", "made 1 0 1", "made 2 1 1", "live 1", "drop 20000 Short", "drop 20000 Short", "ended 2 1 1 bye",
             "live 3"]
    for line in lines:
        log.write(f"{line}\n".encode())
    before, now = (folder / "outcomes.1").read_text().splitlines(), path.read_text().splitlines()
    check("a log that was full goes on in another", before == lines[:6])
    check("with the calls that are there", now == ["there 1 0 1 live", "there 2 1 1 offered", *lines[6:]])
    for place, line in enumerate([*before, *now]):
        calls.take(line, place)
    one = calls.by_slot.get(0)
    check("a reader counts each once", (calls.made, sum(calls.drops.values()), dict(calls.ended)) == (2, 2, {"bye": 1}))
    check("and keeps what it knows of a call", one and (one.made, one.live, sum(one.drops.values())) == (1, 3, 2))
    later = Calls()
    for line in now:
        later.take(line, 0)
    check("one that comes later knows the call", list(later.by_slot) == [0] and later.by_slot[0].live == 0)


def cut(folder):
    """Where it can't be moved it is cut, and its bound is kept; what another daemon writes stays until it has a line itself."""
    path, said = folder / "stays", []
    (folder / "stays.1").mkdir()
    log = OutcomeLog(path, 60, said.append)
    log.write(b"made 1 0 1\n")
    for _ in range(100):
        log.write(b"drop 20000 Short\n")
    lines = path.read_text().splitlines()
    check("one that can't be moved is cut", lines[0] == "there 1 0 1 offered" and len(lines) < 5)
    check("and told once", len(said) == 1 and "can't be moved" in said[0])
    second = OutcomeLog(path)
    check("one without a line leaves it", path.read_text().splitlines() == lines)
    second.write(b"srtpgw 1\n")
    check("and begins it with its first", path.read_text() == "srtpgw 1\n")


# ---- a file that can't be written

def unwritten(folder):
    """A look that can't be written is told in one line, and the next one is looked at all the same."""
    words = f"--prometheus --every 0.1 --looks 2 --to {folder}/look"
    run = ran(WATCH, words, None)
    check("looks that are written", (run.returncode, run.stderr) == (0, b"") and (folder / "look").exists())
    (folder / "look.new").mkdir()
    run = ran(WATCH, words, None)
    said = run.stderr.decode().splitlines()
    check(f"looks that aren't: {run.returncode}, {said}", run.returncode == 1 and len(said) == 2
          and all(line.startswith(f"watch.py: {folder}/look isn't written: ") for line in said))


def main():
    with tempfile.TemporaryDirectory() as name:
        folder = Path(name)
        text = folder / "text.sdp"
        text.write_text("v=0\n")
        told(text)
        programs(folder)
        bounded(folder)
        cut(folder)
        unwritten(folder)
    bad = [what for what, holds in CLAIMS if not holds]
    print(*(f"NOT SO: {what}" for what in bad), sep="\n", end="\n" * bool(bad))
    print(f"wrong words: {len(CLAIMS)} looked at, {len(bad)} are otherwise")
    return bool(bad)


if __name__ == "__main__":
    sys.exit(main())
