"""Prometheus's text format, version 0.0.4: samples by metric, and histograms. Needs Python 3.8 alone."""

import bisect
import threading

CONTENT = "text/plain; version=0.0.4; charset=utf-8"


def escaped(text):
    return str(text).replace("\\", r"\\").replace('"', r"\"").replace("\n", r"\n")


def sample(name, value, labels):
    inner = ",".join(f'{key}="{escaped(text)}"' for key, text in labels.items())
    return f"{name}{{{inner}}} {value}" if inner else f"{name} {value}"


class Metrics:
    """Samples by metric, in the order in which the metrics were first added."""

    def __init__(self):
        self.heads, self.samples = {}, {}

    def head(self, name, kind, says):
        self.heads[name] = [f"# HELP {name} {says}", f"# TYPE {name} {kind}"]
        return self.samples.setdefault(name, [])

    def gauge(self, name, says, value, **labels):
        self.head(name, "gauge", says).append(sample(name, value, labels))

    def counter(self, name, says, value, **labels):
        self.head(name, "counter", says).append(sample(name, value, labels))

    def histogram(self, name, says, histogram, **labels):
        rows = self.head(name, "histogram", says)
        for most, count in histogram.cumulative():
            rows.append(sample(f"{name}_bucket", count, {**labels, "le": most}))
        rows.append(sample(f"{name}_sum", round(histogram.sum, 6), labels))
        rows.append(sample(f"{name}_count", histogram.count, labels))

    def lines(self):
        return [line for name, head in self.heads.items() for line in [*head, *self.samples[name]]]

    def text(self):
        return "".join(line + "\n" for line in self.lines())


class Histogram:
    """How many values were at most each of some bounds."""

    def __init__(self, *bounds):
        self.bounds, self.counts, self.sum, self.lock = bounds, [0] * (len(bounds) + 1), 0.0, threading.Lock()

    def take(self, value):
        with self.lock:
            self.counts[bisect.bisect_left(self.bounds, value)] += 1
            self.sum += value

    @property
    def count(self):
        return sum(self.counts)

    def cumulative(self):
        total = 0
        for most, count in zip((*self.bounds, "+Inf"), list(self.counts)):
            total += count
            yield most, total
