#!/usr/bin/env python3
"""Stands between a gateway and its driver, for interop/driving.py: the driver starts this in place of the program.

    slowed.py first MILLISECONDS PROGRAM ..     hands the first outcome on so much later
    slowed.py drops 0 PROGRAM ..                hands `drop` lines on when the program has ended, and says how many
"""

import subprocess
import sys
import time

from usage import words_or_usage


def main(what, milliseconds, *words):
    write, held, first = sys.stdout.buffer, [], what == "first"
    with subprocess.Popen(words, stdout=subprocess.PIPE) as run:
        for line in run.stdout:
            if first:
                time.sleep(int(milliseconds) / 1000)
                first = False
            if what == "drops" and line.startswith(b"drop "):
                held.append(line)
            else:
                write.write(line)
                write.flush()
    write.writelines(held)
    write.flush()
    print(f"{len(held)} drops held back", file=sys.stderr)
    return run.returncode


if __name__ == "__main__":
    sys.exit(main(*words_or_usage(__doc__)))
