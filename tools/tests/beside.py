#!/usr/bin/env python3
"""What stands beside the NG daemon's calls: Prometheus's text format (also by promtool, where that is there), names in the
board and the alarms, readiness for systemd, and the rules that tools/latch.py has nft make.

    python3 tools/tests/beside.py
"""

import collections
import contextlib
import json
import os
import re
import shutil
import socket
import subprocess
import sys
import tempfile
import time
import types
import urllib.error
import urllib.request
from pathlib import Path

TOOLS = Path(__file__).resolve().parent.parent
sys.path.insert(0, str(TOOLS))
from counters import Fault  # noqa: E402
from driver import Bounds  # noqa: E402
from latch import Latch, Leg, RULES, TRIES  # noqa: E402
from metrics import Histogram, Metrics  # noqa: E402
from ng import beside, metrics, ready  # noqa: E402
from ng.following import legs_of  # noqa: E402

TOP = TOOLS.parent
ALARMS = TOP / "examples/prometheus/alarms.yml"
LABEL = r'[a-z_]+="(?:[^"\\\n]|\\["\\n])*"'
SAMPLE = re.compile(rf"([a-z_]+)(?:\{{{LABEL}(?:,{LABEL})*\}})? (-?[0-9.]+(?:e[+-][0-9]+)?)")
CLAIMS = []


def check(what, holds):
    CLAIMS.append((what, bool(holds)))


def formats():
    rows, histogram = Metrics(), Histogram(1, 2)
    for value in (0.5, 1, 1.5, 9):
        histogram.take(value)
    rows.histogram("a_seconds", "says", histogram, of="x")
    check("a histogram", rows.lines()[2:] == [
        'a_seconds_bucket{of="x",le="1"} 2', 'a_seconds_bucket{of="x",le="2"} 3', 'a_seconds_bucket{of="x",le="+Inf"} 4',
        'a_seconds_sum{of="x"} 12.0', 'a_seconds_count{of="x"} 4'])
    rows = Metrics()
    rows.counter("b_total", "says", 1, of='a"b\\c\nd')
    check("a label", rows.lines()[2] == 'b_total{of="a\\"b\\\\c\\nd"} 1')


def a_book(calls):
    """What the metrics look at of a book with so many calls."""
    gateway = types.SimpleNamespace(started=1e9, began=2e9, octets=100, turns=1_000, worst=0.01, turns_taken=lambda: 7)
    drops = collections.Counter({(20_000 + 16 * slot, "BadTag"): 1 for slot in range(calls)})
    driver = types.SimpleNamespace(
        gone=None, draining=False, gateway=gateway, drops=drops, unsent=collections.Counter({20_002: 2}), late=0.02,
        lost=collections.Counter({(20_018, "TooLong"): 2}), joined={1: 2, 2: 1}, overflows=collections.Counter(),
        spent=collections.Counter(keys=5), bounds=Bounds(), waiting={20_000: 512})
    legs = types.SimpleNamespace(numbers=(1, 2))
    all_of_them = [types.SimpleNamespace(live=True, made=time.time(), legs=legs,
                                         ports={20_000 + 16 * slot: (0, "secure", "RTP")}) for slot in range(calls)]
    return types.SimpleNamespace(
        driver=driver, all=lambda: all_of_them, counts=collections.Counter(managed=calls),
        arrived=lambda ports: {port: (3, 600) for port in ports},
        report=lambda call: types.SimpleNamespace(dropped={(20_000, "BadTag"): 4}))


def metrics_of(calls):
    book = a_book(calls)
    meter = metrics.Meter(book)
    for call in book.all():
        meter.left(call)
    for command in ("offer", "answer"):
        meter.asked(command, "ok", 0.03)
    return metrics.text_of(book, meter, {"offer": 1})


def told():
    text = metrics_of(3)
    lines = [line for line in text.splitlines() if not line.startswith("#")]
    check("samples", lines and all(SAMPLE.fullmatch(line) for line in lines))
    check("as many series with many calls as with few", len(metrics_of(200).splitlines()) == len(text.splitlines()))
    for wanted in ('srtpgw_drops_total{leg="secure RTP",cause="BadTag"} 3', 'srtpgw_spent{of="keys"} 5',
                   'srtpgw_call_drops_bucket{le="5"} 3', 'srtpgw_requests_total{command="offer",result="ok"} 1',
                   'srtpgw_arrived_octets{leg="secure RTP"} 1800', "srtpgw_late_seconds 0.02",
                   "srtpgw_process_start_seconds 1000000000.0", 'srtpgw_calls{state="live"} 6', "srtpgw_pairs 1",
                   'srtpgw_lost_total{cause="TooLong"} 2'):
        check(wanted, wanted in lines)
    promtool = shutil.which("promtool")
    if promtool:
        ran = subprocess.run([promtool, "check", "metrics"], input=text, capture_output=True, text=True, timeout=60)
        check(f"promtool: {ran.stdout}{ran.stderr}", ran.returncode == 0 and not ran.stdout + ran.stderr)
        ran = subprocess.run([promtool, "check", "rules", ALARMS], capture_output=True, text=True, timeout=60)
        check(f"promtool on the alarms: {ran.stderr}", ran.returncode == 0)
        alarmed(promtool)
    return {re.sub("_(bucket|sum|count)$", "", SAMPLE.fullmatch(line)[1]) for line in lines}


# By alarm the samples at which it is raised, one a minute and as promtool has them: `1x9` is ten times 1, `0+9x20` grows by 9.
AT = {"instance": "gateway:9123", "job": "srtpgw"}
RAISED = {
    "GatewayGone": {"srtpgw_up": "0x20"},
    "GatewayBeganAnew": {"srtpgw_process_start_seconds": "1x9 2x10", 'srtpgw_calls_ended_total{why="gone"}': "0x9 3x10"},
    "Full": {'srtpgw_calls{state="live"}': "200x20", 'srtpgw_calls{state="offered"}': "40x20", "srtpgw_calls_most": "256x20"},
    "Refusing": {'srtpgw_requests_total{command="offer",result="error"}': "0+9x20",
                 'srtpgw_requests_total{command="offer",result="ok"}': "0+9x20"},
    "BoundNear": {'srtpgw_spent{of="keys"}': "9x20", 'srtpgw_drains_above{of="keys"}': "10x20"},
}


def at_a_gateway(series):
    """A series with the labels that Prometheus gives it."""
    name, _, labels = series.rstrip("}").partition("{")
    labels = [*filter(None, [labels]), *(f'{key}="{value}"' for key, value in AT.items())]
    return f"{name}{{{','.join(labels)}}}"


def alarmed(promtool):
    """Each alarm that compares metrics is raised where they are so: their labels have to fit."""
    for alarm, samples in RAISED.items():
        asked = [{"expr": f'count(ALERTS{{alertname="{alarm}",alertstate="firing"}}) > bool 0', "eval_time": "15m",
                  "exp_samples": [{"labels": "{}", "value": 1}]}]
        series = [{"series": at_a_gateway(name), "values": values} for name, values in samples.items()]
        plays = {"rule_files": [str(ALARMS)], "evaluation_interval": "1m",
                 "tests": [{"interval": "1m", "input_series": series, "promql_expr_test": asked}]}
        with tempfile.NamedTemporaryFile("w", suffix=".yml") as file:
            json.dump(plays, file)
            file.flush()
            ran = subprocess.run([promtool, "test", "rules", file.name], capture_output=True, text=True, timeout=60)
        check(f"{alarm} is raised: {ran.stdout}{ran.stderr}", ran.returncode == 0)


def named(names):
    """Each metric has its words, and what the files name is there."""
    page = (TOP / "docs/alarms.md").read_text(encoding="utf-8")
    board = json.loads((TOP / "examples/prometheus/board.json").read_text(encoding="utf-8"))
    asked = json.dumps([target["expr"] for panel in board["panels"] for target in panel["targets"]])
    rules = ALARMS.read_text(encoding="utf-8")
    for where, text in (("the board", asked), ("the alarms", rules)):
        used = {re.sub("_(bucket|sum|count)$", "", name) for name in re.findall(r"srtpgw_[a-z_]+", text)}
        check(f"{where}: no metric is called {sorted(used - names)}", used and used <= names)
    check("docs/alarms.md has each metric", all(f"`{name}`" in page for name in names))
    check("docs/alarms.md has each alarm", all(name in page for name in re.findall(r"alert: (\w+)", rules)))


def by_http():
    said = []
    site = metrics.Site(("127.0.0.1", 0), lambda: metrics_of(1), said.append)
    try:
        at = "http://127.0.0.1:%d" % site.server_port
        with urllib.request.urlopen(f"{at}/metrics", timeout=30) as answer:
            check("by HTTP", answer.read().decode().startswith("# HELP srtpgw_up")
                  and answer.headers["Content-Type"].startswith("text/plain; version=0.0.4"))
        try:
            urllib.request.urlopen(f"{at}/other", timeout=30)
            check("another path", False)
        except urllib.error.HTTPError as fault:
            check("another path", fault.code == 404)
        # One who connects and says nothing keeps nobody from it for long.
        with socket.create_connection(("127.0.0.1", site.server_port)):
            with urllib.request.urlopen(f"{at}/metrics", timeout=30) as answer:
                check("beside a silent client", answer.status == 200)
    finally:
        site.close()


def slow_clients():
    """Clients that take their time: one too many is let go, and the others keep nobody from it, nor the site from its end."""
    kept, metrics.Page.timeout = metrics.Page.timeout, 300
    site = metrics.Site(("127.0.0.1", 0), lambda: "a 1\n", print)
    at = "127.0.0.1", site.server_port
    ends = [socket.create_connection(at, 30) for _ in range(metrics.CLIENTS_MOST + 1)]
    check("one too many is let go", until(lambda: [is_let_go(end) for end in ends].count(True) == 1))
    next(end for end in ends if not is_let_go(end)).close()
    check("beside slow clients", until(lambda: is_answered("http://%s:%d/metrics" % at)))
    began = time.monotonic()
    site.close()
    check("the end waits for none", time.monotonic() - began < 10)
    for end in ends:
        end.close()
    metrics.Page.timeout = kept


def is_let_go(end):
    end.setblocking(False)
    try:
        return end.recv(1) == b""
    except BlockingIOError:
        return False


def is_answered(url):
    with contextlib.suppress(OSError), urllib.request.urlopen(url, timeout=30) as answer:
        return answer.status == 200


def a_taken_port():
    """Where the port of the metrics is taken the daemon doesn't begin, and no rules are loaded, which nobody would take away."""
    loaded, kept = [], beside.Latch
    beside.Latch = lambda *words: loaded.append(words)
    try:
        with socket.create_server(("127.0.0.1", 0)) as end:
            given = types.SimpleNamespace(latch="port", latch_seconds=1, metrics=end.getsockname())
            beside.Beside(given, a_book(0), types.SimpleNamespace(refused={}), print)
            check("a port that is taken", False)
    except OSError:
        check("no rules where a port is taken", not loaded)
    finally:
        beside.Latch = kept


def is_ready(folder):
    path = f"{folder}/notify"
    with socket.socket(socket.AF_UNIX, socket.SOCK_DGRAM) as end:
        end.bind(path)
        end.settimeout(30)
        os.environ["NOTIFY_SOCKET"] = path
        ready.tell(READY=1, STATUS="takes calls")
        check("systemd is told", end.recv(100) == b"READY=1\nSTATUS=takes calls\n")
    ready.tell(READY=1)
    del os.environ["NOTIFY_SOCKET"]
    ready.tell(READY=1)


# ---- the rules

class Nft:
    """Takes what nft is told, and answers sets as they are put in."""

    def __init__(self):
        self.told, self.sets, self.fails, self.is_lost = [], collections.defaultdict(list), 0, False

    def __call__(self, text, *words):
        if self.is_lost and text != RULES:
            raise Fault("nft: no such table")
        self.is_lost = False
        if words:
            objects = [{"set": {"name": name, "elem": self.sets[name]}} for name in (
                "window", "wide", "settled", "known", "elsewhere", "to_address", "to_port", "said")]
            return json.dumps({"nftables": [{"metainfo": {}}, *objects]})
        if self.fails:
            self.fails -= 1
            raise Fault("nft: something came between")
        self.told.append(text)
        return ""


def until(holds):
    end = time.monotonic() + 60
    while not holds():
        if time.monotonic() > end:
            return False
        time.sleep(0.02)
    return True


def latched():
    nft, said = Nft(), []
    latch = Latch(said.append, 5, run=nft)
    leg = Leg(20_002, "10.2.0.2", 47_000, "call 1 (a): plain RTP of medium 0")
    latch.follow([leg])
    check("a window", until(lambda: len(nft.told) == 3)
          and nft.told[2] == "add element ip srtpgw_latch window { 20002 . 10.2.0.2 timeout 5000ms }\n"
                             "add element ip srtpgw_latch followed { 20002 }\n")
    nft.sets.update(to_address=[[20_002, "10.2.0.2"]], to_port=[[20_002, 61_000]], settled=[20_002],
                    known=[{"concat": [20_002, "10.2.0.2", 61_000]}],
                    elsewhere=[{"elem": {"val": {"concat": [20_002, "10.2.0.9", 5]}, "expires": 50}}])
    check("what is told", until(lambda: len(said) == 2) and said == [
        "call 1 (a): plain RTP of medium 0 is at 10.2.0.2:61000, and not at 10.2.0.2:47000 as its text says: media go there",
        "call 1 (a): plain RTP of medium 0: packets come from 10.2.0.9:5, too, and media go on to 10.2.0.2:61000"])
    nft.told.clear()
    nft.fails = 1
    latch.follow([leg])
    check("behind an answer that changes nothing, media go on",
          until(lambda: len(nft.told) >= 2) and "delete element ip srtpgw_latch settled" in nft.told[-1]
          and "to_address" not in nft.told[-1])
    nft.told.clear()
    latch.leave([20_002])
    check("a call that is over", until(lambda: len(nft.told) >= 2) and all(
        f"delete element ip srtpgw_latch {name}" in nft.told[-1] for name in ("to_address", "to_port", "settled", "known")))
    latch.close()
    check("the end", "delete table" in nft.told[-1])
    wide = Latch(said.append, 5, wide=True, run=nft)
    nft.sets.clear()
    wide.follow([leg])
    check("any address", until(lambda: "wide { 20002 timeout 5000ms }" in nft.told[-1])
          and "said { 20002 : 10.2.0.2 }" in nft.told[-1])
    wide.close()


def lost():
    """A change that fails, and a table that is lost, as where the system's own rules are loaded anew: the table is there again,
    with all that was followed."""
    nft, said = Nft(), []
    latch = Latch(said.append, 5, run=nft)
    legs = [Leg(port, "10.2.0.2", 47_000, "call 1 (a): plain RTP of medium 0") for port in (20_002, 20_006)]

    def learns(*ports):
        """Whether these ports learn, behind rules that were loaded since somebody asked."""
        told = "".join(nft.told)
        return RULES in told and all(f"window {{ {port} ." in told.split(RULES)[-1] for port in ports)
    nft.told.clear()
    nft.fails = TRIES
    latch.follow(legs[:1])
    check("what couldn't be changed is behind that", until(lambda: learns(20_002)))
    nft.told.clear()
    nft.is_lost = True
    check("a table that is lost is loaded", until(lambda: learns(20_002)))
    nft.told.clear()
    nft.is_lost = True
    latch.follow(legs[1:])
    check("with what was wanted meanwhile", until(lambda: learns(20_002, 20_006)))
    latch.close()
    check("each time is told", said and all(line.startswith("what telephones send from isn't learnt: nft: ") for line in said))


def followed():
    text = b"v=0\r\nc=IN IP4 10.1.0.2\r\nm=audio 4000 RTP/AVP 0\r\nm=video 0 RTP/AVP 9\r\nm=audio 5000 RTP/AVP 0\r\nc=IN IP4 10.1.0.3\r\n"
    ports = {20_000: (0, "secure", "RTP"), 20_001: (0, "secure", "RTCP"), 20_004: (1, "secure", "RTP"),
             20_008: (2, "secure", "RTP"), 20_002: (0, "plain", "RTP"), 20_018: (0, "inside", "RTP")}
    call = types.SimpleNamespace(ports=ports, said={"secure": text}, name=lambda: "call 1 (a)")
    check("the legs of a call", [leg[:3] for leg in legs_of(call)] == [
        (20_000, "10.1.0.2", 4_000), (20_001, "10.1.0.2", 4_001), (20_008, "10.1.0.3", 5_000)])


def main():
    formats()
    named(told())
    by_http()
    slow_clients()
    a_taken_port()
    with tempfile.TemporaryDirectory() as folder:
        is_ready(folder)
    latched()
    lost()
    followed()
    bad = [what for what, holds in CLAIMS if not holds]
    print(*(f"NOT SO: {what}" for what in bad), sep="\n", end="\n" * bool(bad))
    print(f"beside: {len(CLAIMS)} looked at, {len(bad)} are otherwise")
    return bool(bad)


if __name__ == "__main__":
    sys.exit(main())
