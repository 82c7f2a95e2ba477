"""srtpgw-ng: a gateway for SIP servers that speak rtpengine's NG protocol, as Kamailio and OpenSIPS do.

    tools/ng/srtpgw-ng --listen 127.0.0.1:2223 --secure 10.1.0.1 --plain 10.2.0.1

docs/kamailio.md says how it is used. Needs Python 3.8 and nothing else.
"""

import concurrent.futures
import os
import signal
import sys
import threading
from pathlib import Path

sys.path.insert(0, str(Path(__file__).resolve().parents[1]))

import sentences  # noqa: E402
import words  # noqa: E402
from ng import beside, ready  # noqa: E402
from ng.calls import Book, DRAINING, HOLD  # noqa: E402
from ng.log import Log, SHAPES  # noqa: E402
from driver import Bounds, Driver, Gone, Program, Taken  # noqa: E402
from gateway import STEP  # noqa: E402
from ng.server import Server, WORKERS  # noqa: E402
from ng.telling import Kept, Telling, dialog  # noqa: E402
from outcome_log import OCTETS_MOST, OutcomeLog  # noqa: E402
from watch import Arrived, Fault, read_sets  # noqa: E402

TOP = Path(__file__).resolve().parents[2]
# The real-time priority that it asks for: of 99, so what the system's own threads need comes before it.
PRIORITY = 10


def main():
    given = read_words()
    log = Log(shape=SHAPES[given.log_format])
    try:
        return run(given, log)
    finally:
        log.close()


def run(given, log):
    take_priority(given.priority, log)
    telling = Telling(given.tell, log)
    kept = Kept(given.calls, telling, log)
    try:
        outcomes = OutcomeLog(given.outcomes, given.outcomes_most, log) if given.outcomes else None
        book = begun(given, log, telling, kept, outcomes)
        server = Server(book, given.listen, log)
        take_signals(server, book, outcomes, log)
        stands = beside.Beside(given, book, server, log)
    except (Gone, Taken, Fault, OSError) as fault:
        log(f"it can't begin: {fault}")
        # What the daemon before it has left may have to be told yet.
        tell_the_rest(telling, kept, log)
        return 1
    log(f"answers NG requests at {given.listen[0]}:{given.listen[1]}")
    ready.tell(READY=1, STATUS="takes calls")
    server.serve(book.driver.drained.is_set)
    ready.tell(STOPPING=1, STATUS="ends")
    try:
        return ended(book, telling, kept, log)
    finally:
        stands.close()


def take_signals(server, book, outcomes, log):
    """Has the system's signals do what they are for, from now on."""
    for number in (signal.SIGTERM, signal.SIGINT):
        signal.signal(number, lambda *_: server.close())
    aside(signal.SIGUSR1, drain, book, log)
    aside(signal.SIGHUP, begin_anew, outcomes, log)


def aside(number, work, *given):
    """Has a signal done by a thread of its own, since a handler may stand in the middle of anything."""
    signal.signal(number, lambda *_: threading.Thread(target=work, args=given).start())


def take_priority(priority, log):
    """Has this process and those that it starts run before all that has no real-time priority."""
    if not priority or os.sched_getscheduler(0) in (os.SCHED_FIFO, os.SCHED_RR):
        return
    try:
        os.sched_setscheduler(0, os.SCHED_RR, os.sched_param(priority))
    except OSError as fault:
        log(f"it has no real-time priority ({fault.strerror}): where all processors are busy, media will be late, and lost; "
            "CPUSchedulingPolicy=rr or LimitRTPRIO= of a unit gives it one")


def begun(given, log, telling, kept, outcomes):
    """The book of a gateway that has been started, and which tells of what a daemon before it has left."""
    program = Program(given.program, muxes=given.mux, bridges=not given.mux)
    driver = Driver(program, restarts=True, warn=log, bounds=Bounds(**dict(given.bound)), log=outcomes, step=given.step)
    for told in kept.left():
        log(f"{told.id[:128]!r} has ended with the daemon before this one")
        telling.tell(told, "gone")
    kept.keep(lambda: [])
    places = {"secure": given.secure, "plain": given.plain}
    book = Book(driver, places, dict(given.interface), log, given.mux, given.hold)
    book.tell, book.keep = lambda call, why: telling.tell(dialog(call), why), kept.keep
    if given.counters:
        book.arrived = Arrived()
    driver.on_end = book.gone
    return book


def begin_anew(outcomes, log):
    """Goes on in a new log of outcomes, once the old one was moved away."""
    if outcomes is None:
        return log("SIGHUP: there is no log of outcomes to begin anew")
    try:
        outcomes.begin_anew()
    except OSError as fault:
        return log(f"the log of outcomes can't be begun anew, and goes on in the old one: {fault}")
    log("the log of outcomes is begun anew")


def drain(book, log):
    """Takes no new calls from now on; `drained` is set behind the last one."""
    log(f"{DRAINING}; {len(book.all())} are there")
    book.driver.restarts = False
    book.driver.drain()


def ended(book, telling, kept, log):
    """Ends the calls that are left, and tells of them; 0 where all went well."""
    left = book.all()
    with concurrent.futures.ThreadPoolExecutor(WORKERS) as pool:
        list(pool.map(lambda call: book.ended(call, "ended with the daemon"), left))
    for call in left:
        telling.tell(dialog(call), "stopped")
    tell_the_rest(telling, kept, log)
    status = book.driver.close()
    log(sentences.status(status) if status is not None else "the gateway has ended")
    return 0 if status == 0 else 1


def tell_the_rest(telling, kept, log):
    """Waits until the SIP server is told of all calls that have ended, or some seconds; what is left is kept."""
    telling.close()
    kept.keep(lambda: [])
    if telling.left:
        more = ", which the next daemon tells of" if kept.path else ""
        log(f"the SIP server hasn't been told of {len(telling.left)} calls that have ended{more}")


def read_words():
    """What was asked for. Ends with 2 and one line where it can't be had."""
    parser = words_of()
    given = parser.parse_args()
    if given.counters:
        try:
            read_sets()
        except Fault as fault:
            parser.error(f"--counters: the sets of examples/network/srtpgw.nft aren't here: {fault}")
    return given


def words_of():
    given = words.Parser(
        prog="srtpgw-ng", description="rtpengine's NG protocol for srtpgw; SIGUSR1 drains it, SIGTERM ends it, SIGHUP begins "
        "the log of outcomes anew")
    given.add_argument("--listen", type=words.address, default=("127.0.0.1", 2223), metavar="HOST:PORT",
                       help="where NG requests come (127.0.0.1:2223); whoever reaches it has the gateway obey")
    given.add_argument("--secure", type=words.host, default=b"127.0.0.1", metavar="ADDRESS",
                       help="the address at which telephones of the secure side reach the gateway (127.0.0.1)")
    given.add_argument("--plain", type=words.host, default=b"127.0.0.1", metavar="ADDRESS",
                       help="and those of the plain side (127.0.0.1)")
    given.add_argument("--interface", type=named, action="append", default=[], metavar="NAME=ADDRESS",
                       help="an address by the name that the flag `direction` gives it")
    given.add_argument("--mux", action="store_true",
                       help="a telephone that offers one port for RTP and RTCP gets it (relay --mux); two telephones that "
                       "encrypt have no call then, which else are joined (relay --bridge)")
    given.add_argument("--tell", type=words.url, metavar="URL",
                       help="Kamailio's JSON-RPC over HTTP, which is told of calls that have ended by themselves")
    given.add_argument("--calls", type=words.file_in_a_folder, metavar="FILE",
                       help="keeps the dialogs that are there: where this daemon is killed, the next one tells of them")
    given.add_argument("--bound", type=bound, action="append", default=[], metavar="WHAT=NUMBER",
                       help=f"how much may be spent before it drains and begins anew: {', '.join(Bounds._fields)}")
    given.add_argument("--hold", type=words.seconds(0, 86_400), default=HOLD, metavar="SECONDS",
                       help=f"how long a call that is held stays though nothing of it comes ({HOLD:g})")
    given.add_argument("--step", type=words.seconds(0.001, 1.0), default=STEP, metavar="SECONDS",
                       help=f"how often the gateway is told to go on while no signal waits ({STEP})")
    given.add_argument("--priority", type=words.number(0, 99), default=PRIORITY, metavar="NUMBER",
                       help=f"the real-time priority that it takes where it may ({PRIORITY}; 0 is none)")
    given.add_argument("--counters", action="store_true",
                       help="what `query` tells of packets is what nftables counts (docs/network.md); as root")
    given.add_argument("--outcomes", type=words.file_in_a_folder, metavar="FILE",
                       help="a log of outcomes for tools/watch.py, begun anew")
    given.add_argument("--outcomes-most", type=words.number(1, 2**63), default=OCTETS_MOST, metavar="OCTETS",
                       help=f"how long it may grow; then it is moved to FILE.1, and begun anew ({OCTETS_MOST})")
    given.add_argument("--program", default=os.environ.get("SRTPGW") or str(TOP / "srtpgw"),
                       help="the gateway (the environment's SRTPGW, or srtpgw at the top of the repository)")
    given.add_argument("--log-format", choices=sorted(SHAPES), default="text", help="an object of JSON a line, or text")
    beside.add_words(given)
    return given


def bound(text):
    name, _, most = text.partition("=")
    words.require(name in Bounds._fields, f"{name!r} is none of {', '.join(Bounds._fields)}")
    return name, words.number(1, 2**63)(most)


def named(text):
    name, _, place = text.partition("=")
    return name, words.host(place)


if __name__ == "__main__":
    sys.exit(main())
