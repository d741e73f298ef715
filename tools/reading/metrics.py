"""Counts of a running proxy: a file in Prometheus' text format, read by its names and labels, whatever these are."""

import os
import re
from collections import defaultdict, namedtuple

from reading.captures import Bad
from reading.messages import shown_text

PREFIX = "coap_proxyd_"
SAMPLE = re.compile(r"([a-zA-Z_:][\w:]*)(?:\{(.*)\})?\s+(\S+)(?:\s+-?\d+)?")
LABEL = re.compile(r'\s*([a-zA-Z_]\w*)\s*=\s*"((?:[^"\\]|\\.)*)"\s*,?')
ESCAPES = {"n": "\n"}

# A sample: the name of its metric without the prefix, its labels, and its value.
Sample = namedtuple("Sample", "name labels value")


def labels_of(text):
    """The labels of a sample. What they hold may come from peers."""
    unescape = lambda value: re.sub(r"\\(.)", lambda found: ESCAPES.get(found[1], found[1]), value)
    return {name: shown_text(unescape(value)) for name, value in LABEL.findall(text or "")}


def samples_of(text):
    """The samples of a file's text."""
    for line in text.splitlines():
        found = SAMPLE.fullmatch(line.strip())
        if not found or line.startswith("#"):
            continue
        try:
            value = float(found[3])
        except ValueError:
            continue
        yield Sample(found[1][len(PREFIX) :] if found[1].startswith(PREFIX) else found[1], labels_of(found[2]), value)


class Metrics:
    """The samples of a file at a moment."""

    def __init__(self, text, at):
        self.samples, self.at = list(samples_of(text)), at
        self.by_name = defaultdict(list)
        for it in self.samples:
            self.by_name[it.name].append(it)

    def total(self, name, **labels):
        """The sum of a metric, over all labels but those that are given."""
        return sum(it.value for it in self.whole(name) if labels.items() <= it.labels.items())

    def greatest(self, name):
        """The greatest value of a metric, of several instances that of the oldest."""
        return max((it.value for it in self.by_name.get(name, [])), default=0)

    def whole(self, name):
        """The samples that count all of a metric: those of no map and no origin, or, if there are none, all."""
        samples = self.by_name.get(name, [])
        return [it for it in samples if not {"map", "origin"} & it.labels.keys()] or samples

    def by(self, name, label):
        """The sums of a metric by the values of a label, in the order in which they come."""
        out = {}
        for it in self.whole(name):
            if label in it.labels:
                out[it.labels[label]] = out.get(it.labels[label], 0) + it.value
        return out

    def groups(self, label):
        """For each value of a label the sums of all metrics that have it: by the name of the metric, and of what its
        other labels say but where it listens."""
        out = defaultdict(lambda: defaultdict(float))
        for it in self.samples:
            if label in it.labels and "le" not in it.labels:
                others = tuple(value for name, value in sorted(it.labels.items()) if name not in (label, "listen"))
                out[it.labels[label]][(it.name, *others)] += it.value
        return out


def read_metrics(path):
    """The samples of a file, with the moment when it was written."""
    try:
        with open(path, encoding="utf-8", errors="surrogateescape") as file:
            text, at = file.read(), os.fstat(file.fileno()).st_mtime
    except OSError as fault:
        raise Bad(f"{path}: {fault.strerror}") from None
    return Metrics(text, at)
