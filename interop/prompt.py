#!/usr/bin/env python3
"""prompt.py PROGRAM: what a line or a record tells is written before the next is waited for, by each command that plays a script
and by a relay; and where many lines come at once to one that isn't a relay there are no more writes than reads. Input that
has nothing and output that has no room are asked again once a millisecond, where they don't block."""
import fcntl
import os
import select
import subprocess
import sys
import termios
import time

from loopback import has_own_loopback

PATIENCE = 20.0
# The header of a capture, and a frame: Ethernet, IPv4, UDP to port 20000, and two octets.
CAPTURE = bytes.fromhex("d4c3b2a1 02000400 00000000 00000000 ffff0000 01000000")
FRAME = bytes(12) + bytes.fromhex("0800 4500001e 00000000 40110000 7f000001 7f000001 9c404e20 000a0000 8000")
RELAYS = "relay --turns 1", "relay --turns 1 --mux", "relay --turns 1 --bridge"


def call(number, key=None):
    """A call under raw keys, its own or others', whose outcomes are two lines."""
    keys = [("RAW80:" + f"{(key or number) * 2 + side:04x}" + 18 * "ab") for side in (0, 1)]
    return f"manual {number} 203.0.113.9:{40000 + number} 198.51.100.7:{30000 + number} 00000000 64 {keys[0]} {keys[1]}\n"


def begin(program, command):
    return subprocess.Popen([program, *command.split()], stdin=subprocess.PIPE, stdout=subprocess.PIPE)


def read_until(process, size):
    """What the process writes, up to so many octets, or as long as it takes."""
    said, until = b"", time.monotonic() + PATIENCE
    while len(said) < size and time.monotonic() < until:
        if select.select([process.stdout], [], [], 0.1)[0]:
            part = os.read(process.stdout.fileno(), 65536)
            if not part:
                break
            said += part
    return said


def ask(process, line, wanted):
    os.write(process.stdin.fileno(), line.encode())
    said = read_until(process, len(wanted))
    return [] if said == wanted.encode() else [f"{line.strip()[:40]!r} is answered {said[:80]!r}"]


def script(command, version):
    """Lines, and what each is answered."""
    yield f"srtpgw {version}\n", ""
    yield call(1), "made 1 0 1\nlive 1\n"
    yield call(1), "refused 1 CallKnown\n"
    yield "bye 1\n", "ended 1 0 1 bye\n"
    if command.endswith("bridge"):
        yield call(1, key=3), "made 1 0 1\nlive 1\n"
        yield call(2), "made 2 1 1\nlive 2\n"
        yield "join 1 2\n", "joined 1 2\n"
        yield "join 2 1\n", "unjoined 2 Joined 1\n"
        yield f"in {'0 ' * (version - 1)}20002 198.51.100.7:30001 8000\n", "drop 20002 PortUnused\n"
        yield "part 2\n", "parted 1 2\n"


def answers(program, command, version):
    """The lines of a script, one by one, each once the one before is answered."""
    process, bad = begin(program, command), []
    for line, told in script(command, version):
        bad += ask(process, line, line.replace("srtpgw 1", "srtpgw 2") if command == "migrate" else told)
    process.stdin.close()
    bad += [] if process.wait(PATIENCE) == 0 else ["it failed"]
    return bad


def records(program):
    """What a record of a capture tells is written before the record behind the next is waited for: the next one's moment is later."""
    process, wanted = begin(program, "capture"), b"drop 20000 PortUnused\n"
    os.write(process.stdin.fileno(), b"srtpgw 2\ncapture\n" + CAPTURE)
    for second in (1, 2):
        os.write(process.stdin.fileno(), second.to_bytes(4, "little") + bytes(4) + 2 * len(FRAME).to_bytes(4, "little") + FRAME)
    said = read_until(process, len(wanted))
    process.stdin.close()
    return ([] if said == wanted else [f"a record is answered {said!r}"]) + ([] if process.wait(PATIENCE) == 0 else ["it failed"])


def asked(process):
    """How many reads and writes a process has asked the system for."""
    with open(f"/proc/{process.pid}/io") as it:
        seen = dict(line.split(": ") for line in it.read().splitlines())
    return int(seen["syscr"]), int(seen["syscw"])


def counts(program, command):
    """Of lines that come at once all is written, by no more writes than there are reads."""
    process = begin(program, command)
    lines = "srtpgw 2\n" + "".join(f"in {k} 20000 203.0.113.9:40000 8000\n" for k in range(20000)) + "tick 20000\n"
    wanted = 20000 * len("drop 20000 PortUnused\n")
    writer = os.fork()
    if not writer:
        with open(process.stdin.fileno(), "wb", closefd=False) as sink:
            sink.write(lines.encode())
        os._exit(0)
    size = len(read_until(process, wanted))
    os.waitpid(writer, 0)
    reads, writes = asked(process)
    process.stdin.close()
    process.wait(PATIENCE)
    bad = [] if size == wanted else [f"{size} octets are written of {wanted}"]
    return bad + ([] if writes <= reads else [f"{writes} writes and {reads} reads"])


def held(pipe):
    """The octets of it that nobody has read."""
    return int.from_bytes(fcntl.ioctl(pipe, termios.FIONREAD, bytes(4)), sys.byteorder)


def waits(program, command):
    """Input that has nothing at first, then output that has no room, and neither blocks: all is written in the end, and no call
    was made again before a millisecond was over."""
    (source, to), (back, sink) = os.pipe(), os.pipe()
    os.set_blocking(source, False)
    os.set_blocking(sink, False)
    fcntl.fcntl(sink, fcntl.F_SETPIPE_SZ, 4096)
    begun, count = time.monotonic(), 600
    with subprocess.Popen([program, *command.split()], stdin=source, stdout=sink) as process, open(to, "wb") as lines, open(back, "rb") as told:
        os.close(source)
        os.close(sink)
        time.sleep(0.1)
        lines.write(b"srtpgw 1\n" + count * b"bye 1\n")
        lines.flush()
        while time.monotonic() < begun + PATIENCE and held(told) < 4070:
            time.sleep(0.01)
        time.sleep(0.1)
        calls, millis = sum(asked(process)), 1000 * (time.monotonic() - begun)
        lines.close()
        said = told.read()
    bad = [] if said == count * b"refused 1 CallUnknown\n" else [f"{len(said)} octets are written late"]
    return bad + ([] if calls < millis + 500 else [f"{calls} reads and writes in {millis:.0f} milliseconds, in which it waits"])


def main():
    program, bad = sys.argv[1], []
    has_own_loopback()
    for command in ("replay", "capture", "bridge", "migrate", *RELAYS):
        for version in (1,) if command == "migrate" else (1, 2):
            bad += [f"{command}, version {version}: {it}" for it in answers(program, command, version)]
    bad += [f"capture: {it}" for it in records(program)]
    for command in ("replay", "capture", "bridge"):
        bad += [f"{command}: {it}" for it in counts(program, command)]
    for command in ("replay", "relay --turns 1"):
        bad += [f"{command}: {it}" for it in waits(program, command)]
    print("\n".join(f"prompt: {it}" for it in bad) or "prompt: each line is answered before the next, by no more writes than reads")
    return 1 if bad else 0


if __name__ == "__main__":
    sys.exit(main())
