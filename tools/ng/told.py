"""What `query`, `delete` and `statistics` tell, in the dictionaries that rtpengine tells it in.

rtpengine's `errors` are the datagrams that the gateway dropped; `drops` has them by cause, and `lost` what was lost between
two calls that are joined. The gateway tells of no
packet that it put out, so packets and octets are 0 where nothing beside it counts them.
"""

import collections
import time

from descriptions import parts
from ng.request import Bad
from ng.texts import CONNECTION

KINDS = ("RTP", "RTCP")


def stats(report, ports):
    """Packets, octets and errors that came to some ports."""
    arrived = [report.arrived.get(port, (0, 0)) for port in ports]
    errors = sum(count for (port, _), count in report.dropped.items() if port in ports)
    return {"packets": sum(packets for packets, _ in arrived), "bytes": sum(octets for _, octets in arrived),
            "errors": errors}


def summed(all_stats):
    total = collections.Counter({"packets": 0, "bytes": 0, "errors": 0})
    for one in all_stats:
        total.update(one)
    return dict(total)


def totals_of(reports):
    """By kind what came to all ports of some calls."""
    def of(report, kind):
        return stats(report, [port for port, known in report.call.ports.items() if known[2] == kind])
    return {kind: summed(of(report, kind) for report in reports) for kind in KINDS}


def drops_of(reports):
    """By cause how many datagrams were dropped."""
    return by_cause(report.dropped for report in reports)


def lost_of(reports):
    """By cause how many packets were lost between calls that are joined."""
    return by_cause(report.lost for report in reports)


def by_cause(all_of_them):
    causes = collections.Counter()
    for counts in all_of_them:
        for (_, cause), count in counts.items():
            causes[cause] += count
    return dict(causes)


def query_of(book, call_id):
    reports = [book.report(call) for call in list(book.by_id.get(call_id, []))]
    if not reports:
        raise Bad("Unknown call-id")
    tags = {tag: tag_of(report, tag) for report in reports for tag in report.call.tags}
    return {"created": int(min(report.call.made for report in reports)),
            "last signal": int(max(report.call.told for report in reports)),
            "tags": tags, "totals": totals_of(reports), "drops": drops_of(reports), "lost": lost_of(reports)}


def tag_of(report, tag):
    call = report.call
    side = call.tags[tag]
    others = [other for other, its in call.tags.items() if its != side]
    told = {"tag": tag, "created": int(call.made), "side": side, "medias": media_of(report, side)}
    if call.branch:
        told["via-branch"] = call.branch
    return {**told, "in dialogue with": others[-1]} if others else told


def media_of(report, side):
    """The media of one side, each with its two streams."""
    call = report.call
    text = call.said.get(side) or (call.open.text if call.open and call.open.side == side else b"")
    return [medium_of(report, side, index, part, parts(text)[0]) for index, part in enumerate(parts(text)[1:])]


def medium_of(report, side, index, part, session):
    words = part[0].split(b" ")
    told = {"index": index + 1, "type": words[0][2:], "streams": []}
    if len(words) > 2:
        told["protocol"] = words[2]
        address = next((match[1] for match in map(CONNECTION.fullmatch, part + session) if match), b"")
        told["streams"] = [stream_of(report, (index, side, kind), address, words[1], above)
                           for above, kind in enumerate(KINDS)]
    return told


def stream_of(report, place, address, port, above):
    own = [number for number, known in report.call.ports.items() if known == place]
    endpoint = {"family": "IPv4", "address": address, "port": int(port) + above if port.isdigit() else 0}
    return {"local port": own[0] if own else 0, "endpoint": endpoint, "flags": [place[2]], "stats": stats(report, own)}


def statistics_of(book, refused, began):
    """rtpengine's names, as far as the gateway has what they name; `refused` and `drops` are its own."""
    calls, counts = book.all(), book.counts
    dropped, arrived = by_cause([book.driver.drops.copy()]), summed(stats(book.report(call), call.ports) for call in calls)
    return {
        "currentstatistics": {"sessionsown": len(calls), "sessionsforeign": 0, "sessionstotal": len(calls)},
        "totalstatistics": {
            "uptime": int(time.time() - began), "managedsessions": counts["managed"],
            "rejectedsessions": counts["full"], "timeoutsessions": counts["idle"],
            "regularterminatedsessions": counts["deleted"], "forcedterminatedsessions": counts["gone"],
            "relayedpackets": arrived["packets"], "relayedpacketerrors": sum(dropped.values())},
        "refused": dict(refused), "drops": dropped, "lost": by_cause([book.driver.lost.copy()]),
        "pairs": len(book.driver.joined) // 2, "draining": book.driver.draining,
        "late milliseconds": round(1000 * book.driver.late), "waiting octets": sum(book.driver.waiting.values())}
