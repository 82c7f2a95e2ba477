#!/usr/bin/env python3
"""What tools/watch.py reads of nftables (an answer that nft 1.0.6 wrote), of /proc/net/udp (of Linux 6.18) and of a log of
outcomes, and what it says of calls by it.

    python3 tools/tests/watching.py
"""

import concurrent.futures
import json
import re
import sys
import tempfile
import time
from pathlib import Path

sys.path.insert(0, str(Path(__file__).resolve().parent.parent))
from counters import Calls, Count, Fault, Socket, counts, sockets  # noqa: E402
from outcome_log import OutcomeLog  # noqa: E402
from watch import Arrived, Watch, prometheus, screen  # noqa: E402

# Three datagrams of two octets came to port 20000, and three of six and one of five left it; three seconds ago.
RECORDED = """{"nftables": [{"metainfo": {"version": "1.0.6", "release_name": "Lester Gooch #5", "json_schema_version": 1}},
{"table": {"family": "ip", "name": "srtpgw", "handle": 2}},
{"set": {"family": "ip", "name": "arrived", "table": "srtpgw", "type": "inet_service", "handle": 7, "size": 8192,
 "flags": ["timeout"], "timeout": 86400, "elem": [{"elem": {"val": 20000, "expires": 86396, "counter": {"packets": 3,
 "bytes": 90}}}], "stmt": [{"counter": null}]}},
{"set": {"family": "ip", "name": "left", "table": "srtpgw", "type": "inet_service", "handle": 8, "size": 8192,
 "flags": ["timeout"], "timeout": 86400, "elem": [{"elem": {"val": 20000, "expires": 86396, "counter": {"packets": 4,
 "bytes": 135}}}], "stmt": [{"counter": null}]}},
{"set": {"family": "ip", "name": "empty", "table": "srtpgw", "type": "inet_service", "handle": 9, "size": 8192}},
{"chain": {"family": "ip", "table": "srtpgw", "name": "guard", "handle": 1, "type": "filter", "hook": "prerouting",
 "prio": -310, "policy": "accept"}}]}"""
# 400 datagrams of 172 octets went to port 20002, and nobody read them.
UDP = """\
   sl  local_address rem_address   st tx_queue rx_queue tr tm->when retrnsmt   uid  timeout inode ref pointer drops
 1685: 0100007F:4E22 00000000:0000 07 00000000:00034000 00:00000000 00000000     0        0 549599 2 00000000f493dcc2 144
 7831: 00000000:A624 00000000:0000 07 00000000:00000000 00:00000000 00000000     0        0 549600 2 00000000dcce1bfd 0
"""
SAMPLE = re.compile(r'[a-z_]+(\{[a-z]+="[^"\n]*"(,[a-z]+="[^"\n]*")*\})? -?[0-9.]+')
CLAIMS = []


def check(what, holds):
    CLAIMS.append((what, bool(holds)))


def read():
    wanted = {"arrived": {20_000: Count(3, 6, 4)}, "left": {20_000: Count(4, 23, 4)}, "empty": {}}
    check("an answer of nft", counts(RECORDED) == wanted)
    check("sockets", sockets(UDP) == {20_002: Socket(0x34000, 144)})
    cut = '{"nftables": [{"set": {"name": "a", "elem": [{"elem": {"counter": {}}}]}}]}'
    for text in ("", "{}", '{"nftables": [{"set": {}}]}', cut):
        try:
            counts(text)
            check(f"no answer of nft: {text}", False)
        except Fault:
            pass


class World:
    """What a Watch sees: a log, sets and sockets that the test changes, and a clock."""

    def __init__(self, folder):
        self.log, self.now, self.seen, self.ends = folder / "outcomes.log", 1000.0, {"arrived": {}, "left": {}}, {}
        self.log.write_text("")
        self.watch = Watch(self.log, 5.0, lambda: self.seen, lambda: self.ends, lambda: self.now)

    def tell(self, *lines):
        with self.log.open("a") as log:
            log.writelines(line + "\n" for line in lines)

    def count(self, **ways):
        for way, ports in ways.items():
            self.seen = {**self.seen, way: {**self.seen[way], **{port: Count(*count) for port, count in ports.items()}}}

    def look(self, seconds=0):
        self.now += seconds
        return self.watch.look()

    def says(self, seconds=0):
        return self.look(seconds)["calls"][0]["media"][0]["says"]


def leg(view, name, call=0):
    return next(leg for leg in view["calls"][call]["media"][0]["legs"] if leg["leg"] == name)


def one_call(world):
    """A call whose telephones fall silent one behind the other."""
    world.tell("made 7 0 1", "live 7")
    world.count(arrived={20_000: (100, 18_200, 0), 20_002: (90, 15_480, 0)},
                left={20_002: (100, 17_200, 0), 20_000: (90, 16_380, 0)})
    view = world.look()
    came = {"packets": 100, "octets": 18_200, "quiet": 0, "rate": None}
    check("packets and octets by leg",
          leg(view, "secure RTP")["arrived"] == came and leg(view, "plain RTP")["left"]["packets"] == 100)
    check("nothing is said of a call that has just become live", view["calls"][0]["media"][0]["says"] == [])
    world.count(arrived={20_000: (600, 109_200, 0)}, left={20_002: (600, 103_200, 0)})
    view = world.look(10)
    check("a rate", leg(view, "secure RTP")["arrived"]["rate"] == 50.0)
    world.count(arrived={20_002: (90, 15_480, 10)})
    check("one way", world.says() == ["one-way: no packet from the plain side for 10 s"])
    world.count(arrived={20_000: (600, 109_200, 6)})
    check("silence", world.says() == ["silence: no packet from either side for 6 s"])
    world.tell("drop 20000 BadTag", "drop 20000 BadTag", "drop 20000 KeySpent 3 9", "drop 20001 Short")
    world.count(arrived={20_000: (603, 1, 0), 20_002: (91, 1, 0)}, left={20_002: (600, 1, 9), 20_000: (91, 1, 0)})
    said = world.says()
    check("what comes and doesn't go out", len(said) == 1 and said[0].startswith(
        "what the secure side sends isn't put out: 2 BadTag, the tag isn't the one that the key gives"))
    check("drops by leg", leg(world.look(), "secure RTP")["drops"] == {"BadTag": 2, "KeySpent": 1})
    world.ends = {20_000: Socket(4096, 12)}
    check("a full socket", "12 datagrams were lost in front of the full socket of secure RTP" in world.says())


def from_elsewhere(folder):
    """Packets that come from another place than they go to."""
    world = World(folder)
    world.tell("made 1 0 1", "live 1")
    world.look()
    world.count(arrived={20_000: (9, 1, 0), 20_002: (9, 1, 0)}, left={20_000: (9, 1, 0), 20_002: (9, 1, 0)})
    here, there, old = {20_000: {"10.1.0.2:4": 0}}, {20_000: {"10.1.0.2:8": 1}}, {20_000: {"10.1.0.2:8": 1, "10.1.0.2:4": 9}}
    for targets, wanted in ((here, 0), (there, 1), (old, 1), ({}, 0)):
        world.seen = {**world.seen, "sources": here, "targets": targets}
        said = [one for one in world.says(6) if "come from 10.1.0.2:4, and media go to 10.1.0.2:8" in one]
        check(f"from elsewhere: {targets}", len(said) == wanted)
    check("and for Prometheus", 'srtpgw_troubled_media{trouble="elsewhere"} 0' in prometheus(world.look()))
    listed = {"name": "sources", "type": ["inet_service", "ipv4_addr", "inet_service"], "timeout": 60,
              "elem": [{"elem": {"val": {"concat": [20_000, "10.1.0.2", 4]}, "expires": 58}}]}
    check("places that nft lists", counts(json.dumps({"nftables": [{"set": listed}]})) == {
        "sources": {20_000: {"10.1.0.2:4": 2}}})


def late_look(folder):
    """What was counted before a log began is no call's of it."""
    world = World(folder)
    world.count(arrived={20_000: (50, 1, 9)})
    world.look()
    world.tell("made 1 0 1")
    world.count(arrived={20_000: (60, 1, 0)})
    check("counts from before the log", leg(world.look(), "secure RTP")["arrived"]["packets"] == 10)


def next_call(world):
    """The counters of a port go on; those of the next call in a slot begin anew."""
    world.tell("ended 7 0 1 bye", "made 8 0 1")
    check("the next call in a slot", leg(world.look(), "secure RTP")["arrived"]["packets"] == 0)
    world.count(arrived={20_000: (613, 1, 0)})
    check("counts of its own", leg(world.look(), "secure RTP")["arrived"]["packets"] == 10)
    world.seen = {"arrived": {20_000: Count(3, 3, 0)}, "left": {}}
    check("sets that were loaded anew", leg(world.look(), "secure RTP")["arrived"]["packets"] == 3)
    world.tell("refused 9 Sdes 0 NoLine", "refused 9 KeyReused 3", "unsent 20002 1.2.3.4:5", "drop 5 PortUnused")
    with world.log.open("a") as log:
        log.write("ended 8 0 1")
    totals = world.look()["totals"]
    check("totals", totals["refused"] == {"Sdes NoLine": 1, "KeyReused": 1} and totals["unsent"] == 1
          and totals["ended"] == {"bye": 1})
    world.tell(" idle")
    view = world.look()
    check("a line that came in two pieces", view["calls"] == [] and view["totals"]["ended"] == {"bye": 1, "idle": 1})
    world.tell("made 3 2 1", "srtpgw 1")
    view = world.look()
    check("calls of a process that has ended", view["calls"] == [] and view["totals"]["ended"]["gone"] == 1)
    world.log.write_text("made 1 1 1\nlive 1\n")
    check("a log that was begun anew", [call["call"] for call in world.look()["calls"]] == ["1"])
    world.tell("drop 20016 BadTag")
    world.log.rename(world.log.with_suffix(".1"))
    world.log.write_text("there 1 1 1 live\ndrop 20016 BadTag\n")
    view = world.look()
    check("a log that was moved away", [(call["call"], call["state"]) for call in view["calls"]] == [("1", "live")]
          and leg(view, "secure RTP")["drops"] == {"BadTag": 2} and view["totals"]["made"] == 4)


def shapes(world):
    """The three shapes of one look."""
    view = world.look()
    lines = prometheus(view)
    samples = [line for line in lines if not line.startswith("#")]
    check("Prometheus's samples", samples and all(SAMPLE.fullmatch(line) for line in samples))
    heads = [line.split()[2] for line in lines if line.startswith("# TYPE")]
    named = {re.split("[{ ]", line)[0] for line in samples}
    check("each metric once", len(heads) == len(set(heads)) and named == set(heads))
    check("JSON", json.loads(json.dumps(view)) == view)
    check("a screen", any(line.startswith("call 1, slot 1, live") for line in screen(view)))

    def fails():
        raise Fault("nft: not here")

    world.watch.sets = fails
    view = world.look()
    check("no counters", view["fault"] == "nft: not here" and "srtpgw_counters_up 0" in prometheus(view)
          and "nft: not here" in screen(view)[1])


def joined_calls(folder):
    """Of two calls that are joined the ways are between their secure sides; their plain ones are silent."""
    world = World(folder)
    world.tell("made 1 0 1", "made 2 1 1", "live 1", "live 2", "joined 1 2", "unjoined 1 Joined 2")
    world.look()
    world.count(arrived={20_000: (500, 1, 0), 20_016: (500, 1, 0)}, left={20_000: (500, 1, 0), 20_016: (500, 1, 0)})
    view = world.look(10)
    check("nothing is said of two that hear each other", [call["media"][0]["says"] for call in view["calls"]] == [[], []])
    check("which call is joined with which", [call["joined"] for call in view["calls"]] == ["2", "1"]
          and any(line.endswith("joined with call 2") for line in screen(view)))
    check("pairs, and calls that couldn't be joined", view["totals"]["pairs"] == 1 and "srtpgw_pairs 1" in prometheus(view)
          and 'srtpgw_unjoined_total{cause="Joined"} 1' in prometheus(view))
    world.count(arrived={20_016: (500, 1, 9)}, left={20_000: (500, 1, 9)})
    said = [call["media"][0]["says"] for call in world.look()["calls"]]
    check("one way of a pair", said == [["one-way: no packet from the joined call 2's side for 9 s"],
                                        ["one-way: no packet from the secure side for 9 s"]])
    world.tell("lost 20018 SsrcUnknown", "lost 20018 SsrcUnknown")
    world.count(arrived={20_016: (501, 1, 0)}, left={20_000: (501, 1, 0), 20_016: (500, 1, 9)})
    view = world.look()
    said = view["calls"][0]["media"][0]["says"]
    check("what is lost between two", len(said) == 1 and said[0].startswith(
        "what the secure side sends isn't put out: 2 SsrcUnknown, the session admits one source"))
    check("lost by leg", leg(view, "plain RTP", 1)["lost"] == {"SsrcUnknown": 2} and any(
        line == "lost between joined calls: 2 SsrcUnknown at plain RTP" for line in screen(view))
        and 'srtpgw_lost_total{leg="plain RTP",cause="SsrcUnknown"} 2' in prometheus(view))
    world.tell("ended 2 1 1 bye", "parted 1 2")
    view = world.look()
    check("a pair that is parted", view["calls"][0]["joined"] is None and view["totals"]["pairs"] == 0)
    check("and its call's own ways", "no packet from the plain side" in view["calls"][0]["media"][0]["says"][0])


def a_log_begun_anew(folder):
    """A log that is begun anew has the pairs that are there."""
    path = folder / "anew.log"
    log = OutcomeLog(path)
    for line in (b"made 1 0 1", b"made 2 1 1", b"made 3 2 1", b"made 4 3 1", b"live 1", b"live 2", b"live 3", b"live 4",
                 b"joined 2 1", b"joined 3 4", b"parted 3 4"):
        log.write(line + b"\n")
    log.begin_anew()
    calls = Calls()
    for line in path.read_text().splitlines():
        calls.take(line, 1.0)
    there = {call.number: call.joined for call in calls.by_slot.values()}
    check("pairs in a log that was begun anew", there == {"1": "2", "2": "1", "3": None, "4": None})


def read_once():
    """Of many that ask at once what has arrived, one reads."""
    reads = []

    def sets():
        reads.append(1)
        time.sleep(0.2)
        return {"arrived": {20_000: Count(3, 6, 0)}}
    arrived = Arrived(sets)
    arrived.AGE = 60
    with concurrent.futures.ThreadPoolExecutor(8) as pool:
        found = list(pool.map(arrived, [[20_000, 20_001]] * 8))
    check("one reading for many", len(reads) == 1 and found == [{20_000: (3, 6)}] * 8)


def main():
    read()
    read_once()
    with tempfile.TemporaryDirectory() as folder:
        world = World(Path(folder))
        one_call(world)
        next_call(world)
        shapes(world)
        late_look(Path(folder))
        from_elsewhere(Path(folder))
        joined_calls(Path(folder))
        a_log_begun_anew(Path(folder))
    bad = [what for what, holds in CLAIMS if not holds]
    print(*(f"NOT SO: {what}" for what in bad), sep="\n", end="\n" * bool(bad))
    print(f"watching: {len(CLAIMS)} looked at, {len(bad)} are otherwise")
    return bool(bad)


if __name__ == "__main__":
    sys.exit(main())
