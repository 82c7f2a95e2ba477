"""What the daemon and its gateway did, for Prometheus: totals, histograms and what is spent of each bound. No label is a
call's, so there are as many series on the last day as on the first. docs/alarms.md says what each number means.
"""

import collections
import contextlib
import http.server
import threading
import time

from counters import LEGS, SLOTS, is_port, place_of
from driver import Bounds
from metrics import CONTENT, Histogram, Metrics

SECONDS = 0.005, 0.01, 0.02, 0.05, 0.1, 0.2, 0.5, 1, 2, 5, 10
LENGTHS = 1, 10, 30, 60, 120, 300, 600, 1_800, 3_600, 7_200, 14_400
DROPS = 0, 1, 5, 10, 50, 100, 1_000, 10_000
# The seconds that a client has for each part of its request, and how many may be there at once.
PATIENCE, CLIENTS_MOST = 2, 16
# A leg's name where a port is none of the gateway's.
NONE = "none"


def leg_of(port):
    return place_of(port)[2] if is_port(port) else NONE


class Meter:
    """Keeps what is counted of requests and of calls that have ended."""

    def __init__(self, book):
        self.book, self.lock = book, threading.Lock()
        self.requests = collections.Counter()
        self.waits = collections.defaultdict(lambda: Histogram(*SECONDS))
        self.lengths, self.drops = Histogram(*LENGTHS), Histogram(*DROPS)

    def asked(self, command, result, seconds):
        """A request has been answered."""
        with self.lock:
            self.requests[command, result] += 1
            self.waits[command].take(seconds)

    def left(self, call):
        """A call is there no more."""
        if call.live:
            self.lengths.take(time.time() - call.made)
            self.drops.take(sum(self.book.report(call).dropped.values()))


def text_of(book, meter, refused):
    """All of it, in Prometheus's text format."""
    rows = Metrics()
    add_state(rows, book)
    add_calls(rows, book, meter)
    add_requests(rows, meter, refused)
    add_datagrams(rows, book)
    add_spent(rows, book.driver)
    return rows.text()


def add_state(rows, book):
    driver = book.driver
    rows.gauge("srtpgw_up", "Whether the gateway's process is there", int(driver.gone is None))
    rows.gauge("srtpgw_draining", "Whether new calls are refused until the last one has ended", int(driver.draining))
    rows.gauge("srtpgw_process_start_seconds", "When the gateway's process began, since 1970; it changes where another one does",
               round(driver.gateway.started, 3))
    rows.gauge("srtpgw_late_seconds", "By how much turns of the gateway ran late, the most of the latest some seconds",
               round(max(driver.late, driver.gateway.worst), 4))


def add_calls(rows, book, meter):
    calls, counts = book.all(), book.counts
    states = collections.Counter()
    for call in calls:
        states["live" if call.live else "offered"] += len(call.legs.numbers)
    for state in ("live", "offered"):
        rows.gauge("srtpgw_calls", "Calls that are there", states[state], state=state)
    rows.gauge("srtpgw_pairs", "Pairs of calls that are joined, of two telephones that encrypt", len(book.driver.joined) // 2)
    rows.gauge("srtpgw_calls_most", "Calls that can be there at once", SLOTS)
    rows.counter("srtpgw_calls_made_total", "Calls that were made", counts["managed"])
    rows.counter("srtpgw_calls_full_total", "Offers that another gateway was to take", counts["full"])
    for why in ("deleted", "idle", "gone"):
        rows.counter("srtpgw_calls_ended_total", "Calls that have ended: by the server, without packets, with the process",
                     counts[why], why=why)
    rows.histogram("srtpgw_call_seconds", "How long calls were there that had been live", meter.lengths)
    rows.histogram("srtpgw_call_drops", "Dropped datagrams of a call that had been live", meter.drops)


def add_requests(rows, meter, refused):
    with meter.lock:
        requests, waits = sorted(meter.requests.items()), sorted(meter.waits.items())
    for (command, result), count in requests:
        rows.counter("srtpgw_requests_total", "Requests by command and by what was answered", count, command=command,
                     result=result)
    for command, histogram in waits:
        rows.histogram("srtpgw_request_seconds", "From a worker's taking a request until its answer", histogram,
                       command=command)
    for command, count in sorted(refused.items()):
        rows.counter("srtpgw_refused_total", "Refused requests", count, command=command)


def add_datagrams(rows, book):
    driver = book.driver
    drops = collections.Counter({(leg, cause): 0 for leg in LEGS for cause in ("BadTag",)})
    for (port, cause), count in list(driver.drops.items()):
        drops[leg_of(port), cause.split(" ")[0]] += count
    for (leg, cause), count in sorted(drops.items()):
        rows.counter("srtpgw_drops_total", "Dropped datagrams", count, leg=leg, cause=cause)
    lost = collections.Counter({"SsrcUnknown": 0})
    for (_, cause), count in list(driver.lost.items()):
        lost[cause.split(" ")[0]] += count
    for cause, count in sorted(lost.items()):
        rows.counter("srtpgw_lost_total", "Packets that were opened in one call and couldn't be sealed in the joined one", count,
                     cause=cause)
    for name, says, by_port in (
            ("srtpgw_unsent_total", "Packets that the system didn't send", driver.unsent),
            ("srtpgw_overflows_total", "Datagrams that were lost in front of full sockets", driver.overflows)):
        for leg, count in by_leg(by_port).items():
            rows.counter(name, says, count, leg=leg)
    waiting = driver.waiting
    for leg, octets in by_leg(waiting).items():
        rows.gauge("srtpgw_waiting_octets", "Octets that wait in sockets", octets, leg=leg)
    rows.gauge("srtpgw_waiting_octets_most", "Octets that wait in the fullest socket", max(waiting.values(), default=0))
    add_arrived(rows, book)


def by_leg(by_port):
    legs = dict.fromkeys(LEGS, 0)
    for port, count in list(by_port.items()):
        legs[leg_of(port)] = legs.get(leg_of(port), 0) + count
    return legs


def add_arrived(rows, book):
    """What came to the ports of the calls that are there, where nftables counts it (--counters)."""
    every = [port for call in book.all() for port in call.ports]
    arrived = book.arrived(every)
    for place, what in enumerate(("packets", "octets")):
        for leg, count in by_leg({port: counts[place] for port, counts in arrived.items()}).items() if arrived else ():
            rows.gauge(f"srtpgw_arrived_{what}", f"{what.capitalize()} that came to the ports of the calls that are there",
                       count, leg=leg)


def add_spent(rows, driver):
    gateway = driver.gateway
    spent = Bounds(driver.spent["keys"], gateway.octets, driver.spent["messages"], gateway.turns_taken())
    bounds = driver.bounds._replace(turns=driver.bounds.turns or gateway.turns * 7 // 8)
    for name in Bounds._fields:
        rows.gauge("srtpgw_spent", "What the process has spent for good, at most", getattr(spent, name), of=name)
    for name in Bounds._fields:
        rows.gauge("srtpgw_drains_above", "What may be spent before it drains by itself", getattr(bounds, name), of=name)


class Site(http.server.ThreadingHTTPServer):
    """Answers GET /metrics at an address by what `text()` answers. No client waits for another one, and the end for none;
    where too many are there, a further one is let go."""

    allow_reuse_address = daemon_threads = True
    block_on_close = False

    def __init__(self, address, text, log):
        self.text, self.log, self.room = text, log, threading.BoundedSemaphore(CLIENTS_MOST)
        super().__init__(address, Page)
        self.thread = threading.Thread(target=self.serve_forever, daemon=True)
        self.thread.start()

    def server_bind(self):
        # The library's own looks its host's name up, which may take its time.
        self.socket.setsockopt(http.server.socketserver.socket.SOL_SOCKET, http.server.socketserver.socket.SO_REUSEADDR, 1)
        self.socket.bind(self.server_address)
        self.server_name, self.server_port = self.socket.getsockname()

    def process_request(self, request, client_address):
        if self.room.acquire(blocking=False):
            super().process_request(request, client_address)
        else:
            self.shutdown_request(request)

    def process_request_thread(self, request, client_address):
        try:
            super().process_request_thread(request, client_address)
        finally:
            self.room.release()

    def handle_error(self, request, client_address):
        pass  # A client that goes before its answer is nobody's concern.

    def close(self):
        self.shutdown()
        self.server_close()


class Page(http.server.BaseHTTPRequestHandler):
    timeout = PATIENCE
    server_version, sys_version = "srtpgw-ng", ""

    def do_GET(self):
        if self.path.split("?")[0] != "/metrics":
            return self.send_error(404)
        try:
            body = self.server.text().encode()
        except Exception as fault:
            self.server.log(f"the metrics can't be told: {type(fault).__name__}: {fault}")
            return self.send_error(500)
        self.send_response(200)
        self.send_header("Content-Type", CONTENT)
        self.send_header("Content-Length", str(len(body)))
        self.end_headers()
        with contextlib.suppress(OSError):
            self.wfile.write(body)

    def log_message(self, *words):
        pass
