#!/usr/bin/env python3
"""Measures `srtpgw relay`, and rtpengine in the same rounds where it is installed: what a packet takes of the processor,
how long it takes to come out, how many come out, also beyond the limit, and after it.

    bench/relay.py                                       with ./srtpgw, or with the program that SRTPGW names
    bench/relay.py --beside FILE --rounds 10             another program in turns, as one of an earlier version
    bench/relay.py --rows 1:1000,256:60000+150000 --way both --no-rtpengine
    bench/relay.py --rows 1:20000+400000+20000           few packets, far too many, and few again

A row CALLS:RATE+RATE.. has so many calls, over which the rates follow one another, in packets a second. The packets
have 172 octets in plain and keys of AES_CM_128_HMAC_SHA1_80; libsrtp seals them beforehand (load.c). It prints a table
in Markdown, takes some minutes, and ends by itself. Needs a C compiler and libsrtp's headers (Debian: gcc,
libsrtp2-dev); the load, the gateway and what drives it take three processors.
"""

import argparse
import base64
import contextlib
import os
import re
import shutil
import statistics
import subprocess
import sys
import tempfile
import time
from concurrent.futures import ThreadPoolExecutor
from pathlib import Path

BENCH = Path(__file__).resolve().parent
sys.path.insert(0, str(BENCH.parent / "examples/live"))

from ends import PLAIN, SECURE, program, require_free  # noqa: E402
from driver import Driver  # noqa: E402
from rtpengine import Far, port_of, text_of  # noqa: E402

SUITE = "AES_CM_128_HMAC_SHA1_80"
ROWS = "1:1000+20000+60000,100:20000+60000,256:60000+100000+150000"
WAYS = {"open": "SRTP to RTP", "seal": "RTP to SRTP", "both": "each way in turns"}


class Step:
    """What one line of the load says."""

    def __init__(self, line):
        (self.rate, self.sent, sending, until, self.good, self.other, self.again, self.thrown, self.missed, cost,
         *delays) = (int(word) for word in line.split())
        # Microseconds that half of the packets stayed below, and 99 in 100 of them.
        self.half, self.most = (delay / 1_000 for delay in delays)
        self.lost = self.sent - self.good
        self.good_a_second = self.good / max(sending, until) * 1e6
        # Microseconds a packet, and processors.
        self.cost = cost / 1_000 / max(1, self.good)
        self.busy = cost / 1_000 / max(sending, until)


class Srtpgw:
    def __init__(self, folder, path):
        self.driver = Driver(path)
        self.pid = self.driver.gateway.pid

    def call(self, number):
        """The secure and the plain port of a new call, and its two keys."""
        keys = [os.urandom(30).hex() for _ in range(2)]
        self.driver.manual(number, SECURE, PLAIN, *(f"{SUITE}:{key}" for key in keys))
        ports = self.driver.ports(number)
        return ports[0], ports[2], *keys

    def calls(self, count):
        """So many calls, made side by side, since each line waits for the ticks before it."""
        with ThreadPoolExecutor(16) as pool:
            return list(pool.map(self.call, range(1, count + 1)))

    def close(self):
        drops, unsent, status = dict(self.driver.drops), sum(self.driver.unsent.values()), self.driver.close()
        if drops or unsent or status:
            print(f"\nsrtpgw told of drops: {drops}; of packets that it couldn't send: {unsent}; its status: {status}\n")


def key_of(text):
    """The key of a text's crypto line."""
    return base64.b64decode(re.search(rb"a=crypto:1 \S+ inline:([A-Za-z0-9+/=]+)", text)[1]).hex()


class Rtpengine:
    def __init__(self, folder, threads):
        self.far = Far(folder, last=34_000, threads=threads)
        self.pid = self.far.process.pid

    def call(self, number):
        own = os.urandom(30)
        line = f"a=crypto:1 {SUITE} inline:{base64.b64encode(own).decode()}\r\n"
        to_plain = self.far.ask("offer", number, text_of("peer", SECURE[1], "RTP/SAVP") + line,
                                **{"transport-protocol": "RTP/AVP"})
        to_secure = self.far.ask("answer", number, text_of("end", PLAIN[1]), **{"to-tag": "end"})
        return port_of(to_secure), port_of(to_plain), own.hex(), key_of(to_secure)

    def calls(self, count):
        return [self.call(number) for number in range(1, count + 1)]

    def close(self):
        self.far.close()


def steps_of(load, gateway, count, way, plan):
    """Runs the load over so many calls of a gateway; a `Step` for each pair of rate and seconds, as it ends."""
    lines = [f"{secure} {plain} {'-' if way == 'seal' else theirs} {'-' if way == 'open' else ours}\n"
             for secure, plain, theirs, ours in gateway.calls(count)]
    words = [load, str(gateway.pid), str(SECURE[1]), str(PLAIN[1]), *(f"{rate}:{seconds}" for rate, seconds in plan)]
    with subprocess.Popen(words, stdin=subprocess.PIPE, stdout=subprocess.PIPE, text=True) as running:
        try:
            running.stdin.write("".join(lines))
            running.stdin.close()
            for line in running.stdout:
                yield Step(line)
        finally:
            running.kill()


def row(cells):
    print("| " + " | ".join(map(str, cells)) + " |", flush=True)


def head(given):
    row(["calls", "sent a second", "gateway", "us of the processor a packet", "p50, us", "p99, us", "put out a second",
         "lost", f"of packets, {given.rounds * given.each} times"])
    row(["---:", "---:", "---", *["---:"] * 6])


def least(values, digits=0):
    """The least of all times, and their median."""
    values = list(values)
    return f"{min(values):,.{digits}f}, {statistics.median(values):,.{digits}f}"


def told(count, name, steps):
    """A row over all times. Of what is put out the most stands first, and of the rest the least; then the median.
    Packets that come out changed or twice are told, and those that come when the next ones are sent already."""
    out = [step.good_a_second for step in steps]
    wrong = sum(step.other + step.again for step in steps)
    row([count, f"{steps[0].rate:,}", name, least((step.cost for step in steps), 1), least(step.half for step in steps),
         least(step.most for step in steps), f"{max(out):,.0f}, {statistics.median(out):,.0f}",
         least(step.lost for step in steps), f"{steps[0].sent:,}" + (f", {wrong:,} late, changed or twice" if wrong else "")])


def rows_of(text):
    """The rows of a word: how many calls, and the rates that follow one another over them."""
    return [(int(count), [int(rate) for rate in rates.split("+")])
            for count, rates in (word.split(":") for word in text.split(","))]


def words():
    parser = argparse.ArgumentParser(description="packets a second through `srtpgw relay`")
    parser.add_argument("--rows", type=rows_of, default=rows_of(ROWS), help=f"CALLS:RATE+RATE.., .. ({ROWS})")
    parser.add_argument("--way", choices=WAYS, default="open", help="which way packets go (open)")
    parser.add_argument("--seconds", type=float, default=2, help="of each time that a rate is sent, 0.2 too (2)")
    parser.add_argument("--rounds", type=int, default=3, help="how often all gateways take their turn (3)")
    parser.add_argument("--each", type=int, default=1, help="how often each rate is sent in a round (1)")
    parser.add_argument("--beside", metavar="FILE", action="append", default=[], help="another program, in turns")
    parser.add_argument("--threads", default="1", help="of rtpengine, one gateway each (1)")
    parser.add_argument("--no-rtpengine", action="store_true")
    return parser.parse_args()


def machine():
    model = next(line for line in Path("/proc/cpuinfo").read_text().splitlines() if line.startswith("model name"))
    return f"{model.split(': ')[1]}, {os.cpu_count()} processors, {time.strftime('%Y-%m-%d %H:%M UTC', time.gmtime())}"


def gateways(given):
    """Each with how it is made in a folder."""
    found = {"srtpgw": lambda folder, path=program(): Srtpgw(folder, path)}
    for path in given.beside:
        found[Path(path).name] = lambda folder, path=os.path.abspath(path): Srtpgw(folder, path)
    for threads in [] if given.no_rtpengine else map(int, given.threads.split(",")):
        name = f"rtpengine, {threads} thread{'s' * (threads > 1)}"
        found[name] = lambda folder, threads=threads: Rtpengine(folder, threads)
    return found


def measure(load, made, count, rates, given):
    """So many rounds over so many calls: in each all gateways take their turn. The steps of each rate and gateway."""
    found = [{name: [] for name in made} for _ in rates]
    for _ in range(given.rounds):
        for name, make in made.items():
            with tempfile.TemporaryDirectory() as folder, contextlib.closing(make(folder)) as gateway:
                plan = [(rate, given.seconds) for rate in rates for _ in range(given.each)]
                for place, step in enumerate(steps_of(load, gateway, count, given.way, plan)):
                    found[place // given.each][name].append(step)
    return found


def is_there(given):
    """Whether what it needs is there; without rtpengine the relay is measured alone."""
    for command, package in (("cc", "gcc"), *([] if given.no_rtpengine else [("rtpengine", "rtpengine-daemon")])):
        if not shutil.which(command):
            print(f"bench/relay.py: {command} isn't there (Debian's package {package})", file=sys.stderr)
            if command == "cc":
                return False
            given.no_rtpengine = True
    if not Path("/usr/include/srtp2/srtp.h").exists():
        print("bench/relay.py: libsrtp's headers aren't there (Debian's package libsrtp2-dev)", file=sys.stderr)
        return False
    return True


def main():
    given = words()
    if not is_there(given):
        return 77
    require_free()
    made = gateways(given)
    with tempfile.TemporaryDirectory() as folder:
        load = f"{folder}/load"
        subprocess.run(["cc", "-O2", "-Wall", "-Wextra", "-o", load, BENCH / "load.c", "-lsrtp2", "-lpthread"], check=True)
        averages = "/".join(f"{average:.1f}" for average in os.getloadavg())
        print(f"{machine()}, load average {averages} at the beginning; {WAYS[given.way]}, {given.seconds:g} seconds each time; "
              "the least of all times and their median, of what is put out the most and the median\n")
        head(given)
        for count, rates in given.rows:
            for steps in measure(load, made, count, rates, given):
                for name, each in steps.items():
                    told(count, name, each)
    print(f"\nload average {os.getloadavg()[0]:.1f} at the end, the load's own part in it")
    return 0


if __name__ == "__main__":
    sys.exit(main())
