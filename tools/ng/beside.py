"""What stands beside the daemon's calls where its words ask for it: metrics for Prometheus, and addresses that are learnt in
front of the gateway.
"""

import words
from latch import Latch, SECONDS
from ng import metrics
from ng.following import Following


def add_words(given):
    given.add_argument("--metrics", type=words.address, metavar="HOST:PORT",
                       help="answers GET /metrics for Prometheus there (docs/alarms.md)")
    given.add_argument("--latch", choices=("port", "any"),
                       help="media go to the port that a telephone sends from, or to any address; by nftables, as root or "
                            "with CAP_NET_ADMIN (docs/network.md)")
    given.add_argument("--latch-seconds", type=words.seconds(0.1, 3_600), default=SECONDS, metavar="SECONDS",
                       help=f"for how long behind an answer that is learnt ({SECONDS:g})")


class Beside:
    """Begins what the words ask for, over a book and its server. Raises Fault of counters.py or OSError where it can't."""

    def __init__(self, given, book, server, log):
        self.meter, self.latch, self.follows, self.site = metrics.Meter(book), None, None, None
        book.left, server.answered = self.left, self.meter.asked
        # Before the rules, which would stay where its port is taken.
        if given.metrics:
            self.site = metrics.Site(given.metrics, lambda: metrics.text_of(book, self.meter, server.refused), log)
        if given.latch:
            self.latch = Latch(log, given.latch_seconds, given.latch == "any")
            self.follows = Following(self.latch)
            book.settled = self.follows.settled

    def left(self, call):
        self.meter.left(call)
        if self.follows:
            self.follows.left(call)

    def close(self):
        for one in (self.latch, self.site):
            if one:
                one.close()
