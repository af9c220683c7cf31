#!/usr/bin/env python3
"""Compares what the server of this folder says of itself with what a client counted.

usage: compare.py document COUNTS HEADERS DOCUMENT SCRAPERS     a document and its headers, as curl received them
       compare.py prometheus COUNTS DOCUMENT PORT NOT_BEFORE    what a Prometheus on this port has, after a time since 1970

COUNTS is what client.py printed. SCRAPERS is alone if nobody else scraped meanwhile. Each comparison prints a line, and the
status is 1 where one differs.
"""

import json
import os
import re
import sys
import time
import urllib.parse
import urllib.request

HERE = os.path.dirname(os.path.abspath(__file__))
DOCUMENT_TYPE = "application/openmetrics-text; version=1.0.0; charset=utf-8"
SAMPLE = re.compile(r"(\w+)(?:\{(.*)\})? (\S+)")
LABEL = re.compile(r'(\w+)="([^"]*)"')
# The family, its type, its unit and its labels.
METADATA = [
    ("example_build", "info", "", ["version"]),
    ("example_start_time_seconds", "gauge", "seconds", []),
    ("example_connections", "counter", "", []),
    ("example_jobs", "counter", "", []),
    ("example_in_flight", "gauge", "", []),
    ("example_requests", "counter", "", ["code", "method"]),
    ("example_latency_seconds", "histogram", "seconds", ["path"]),
]
# What the names of a type's samples end with, and the labels that the sample has beside those of its family.
SUFFIXES = {
    "counter": {"_total": []},
    "gauge": {"": []},
    "histogram": {"_bucket": ["le"], "_count": [], "_sum": []},
    "info": {"_info": []},
}
# The names of all samples, and their labels.
SAMPLE_LABELS = {
    name + suffix: sorted(labels + more)
    for name, kind, _, labels in METADATA
    for suffix, more in SUFFIXES[kind].items()
}
differing = 0


def compare(what, wanted, got):
    """Prints a line, and remembers a difference. Numbers with a fraction may differ by a billionth of themselves."""
    global differing
    same = wanted == got
    if isinstance(wanted, float) and isinstance(got, float):
        same = abs(wanted - got) <= 1e-9 * abs(wanted)
    if not same:
        differing += 1
    print(f"equal: {what}: {got}" if same else f"DIFFERS: {what}: {got} in place of {wanted}")


def compare_between(what, least, most, got):
    """The same for a number that has to lie between two others."""
    compare(what, got if got is not None and least <= got <= most else f"{least} to {most}", got)


def status():
    """The status of a script that compares."""
    return 1 if differing else 0


def read_counts(file):
    """How many responses came, by method, status code and path."""
    counts = {}
    with open(file) as lines:
        for line in lines:
            method, code, path, number = line.split()
            counts[method, code, path] = int(number)
    return counts


def samples_of(lines):
    """The values of a document's samples, by name and labels."""
    values = {}
    for line in lines:
        if not line.startswith("#"):
            name, labels, value = SAMPLE.fullmatch(line.strip()).groups()
            values[name, frozenset(LABEL.findall(labels or ""))] = float(value)
    return values


def read_document(file):
    """The same of a document in a file."""
    with open(file) as lines:
        return samples_of(lines)


def by_labels(counts):
    """The totals of each member of the families of requests and of latencies, as the client counted them."""
    wanted = {}
    for (method, code, path), number in counts.items():
        of_requests = "example_requests_total", frozenset([("method", method), ("code", code)])
        of_latencies = "example_latency_seconds_count", frozenset([("path", path)])
        for key in (of_requests, of_latencies):
            wanted[key] = wanted.get(key, 0) + number
    jobs = counts["GET", "200", "/work"]
    wanted["example_jobs_total", frozenset()] = jobs
    return wanted


# The two members that each scrape changes.
SCRAPED = [
    ("example_requests_total", frozenset([("method", "GET"), ("code", "200")])),
    ("example_latency_seconds_count", frozenset([("path", "/metrics")])),
]


def text(key):
    """The name and the labels of a sample, as a query has them."""
    name, labels = key
    pairs = ",".join(f'{label}="{value}"' for label, value in sorted(labels))
    return f"{name}{{{pairs}}}" if pairs else name


def quantile(q, document):
    """The quantile of the times to work, interpolated within a bucket as Prometheus does it."""
    buckets = []
    for (name, labels), count in document.items():
        if name == "example_latency_seconds_bucket" and ("path", "/work") in labels:
            buckets.append((float(dict(labels)["le"]), count))
    buckets.sort()
    rank = q * buckets[-1][1]
    at = next(k for k, (_, count) in enumerate(buckets) if count >= rank)
    bound, count = buckets[at]
    below, before = buckets[at - 1] if at else (0.0, 0.0)
    if bound == float("inf"):
        return below
    return below + (bound - below) * (rank - before) / (count - before)


def compare_names(document):
    """Compares the names of samples and of their labels with the table."""
    labels_of = {}
    for name, labels in document:
        names = sorted(label for label, _ in labels)
        if names not in labels_of.setdefault(name, []):
            labels_of[name].append(names)
    for name in sorted(SAMPLE_LABELS.keys() | labels_of.keys()):
        wanted = [SAMPLE_LABELS[name]] if name in SAMPLE_LABELS else []
        compare(f"labels of {name}", wanted, labels_of.get(name, []))


def compare_document(counts, headers, file, alone):
    """Compares a document that curl received."""
    with open(headers) as lines:
        said = dict(line.strip().split(": ", 1) for line in lines if ": " in line)
    with open(file, "rb") as document:
        body = document.read()
    compare("content type", DOCUMENT_TYPE, said.get("Content-Type"))
    compare("content length", str(len(body)), said.get("Content-Length"))
    compare("last line", b"# EOF\n", body.splitlines(keepends=True)[-1])
    document, wanted = read_document(file), by_labels(counts)
    compare_names(document)
    for key in wanted:
        if key not in SCRAPED:
            compare(text(key), wanted[key], int(document.get(key, -1)))
    if alone:
        # The script asked once whether the server was there.
        for key in SCRAPED:
            compare(text(key), wanted[key] + 1, int(document[key]))
        requests = sum(value for (name, _), value in document.items() if name == "example_requests_total")
        connections = document["example_connections_total", frozenset()]
        compare("connections that aren't counted as requests yet", 1, int(connections - requests))


class Prometheus:
    """A Prometheus, asked what it has at one moment."""

    def __init__(self, port):
        self.port = port
        self.moment = None

    def get(self, path, **words):
        query = urllib.parse.urlencode(words)
        with urllib.request.urlopen(f"http://127.0.0.1:{self.port}/api/v1/{path}?{query}", timeout=30) as response:
            return json.load(response)["data"]

    def samples(self, query):
        at = {} if self.moment is None else {"time": self.moment}
        return self.get("query", query=query, **at)["result"]

    def value(self, query):
        found = self.samples(query)
        return float(found[0]["value"][1]) if len(found) == 1 else None

    def whole(self, query):
        value = self.value(query)
        return None if value is None else int(value)

    def wait_after(self, not_before):
        """Waits for a scrape that began after a time and succeeded as those before it, and asks about its moment from then on."""
        self.moment = None
        for _ in range(240):
            found = self.samples("timestamp(up) and min_over_time(up[3s]) == 1")
            if found and float(found[0]["value"][1]) > not_before:
                self.moment = found[0]["value"][1]
                return
            time.sleep(0.25)
        sys.exit("FAILED: Prometheus doesn't scrape")


def scrapes_of(prometheus):
    """How many scrapes began, and how many succeeded."""
    return prometheus.whole("count_over_time(up[1h])"), prometheus.whole("sum_over_time(up[1h])")


def compare_totals(prometheus, counts):
    """Compares the totals with what the client counted."""
    wanted = by_labels(counts)
    for key in wanted:
        if key not in SCRAPED:
            compare(text(key), wanted[key], prometheus.whole(text(key)))
    # Those before the last, that of curl, and that of the script when it asked whether the server was there. One that lasted
    # longer than a second failed, whether or not the server came to it.
    begun, succeeded = scrapes_of(prometheus)
    for key in SCRAPED:
        least, most = (wanted[key] + number - 1 + 2 for number in (succeeded, begun))
        compare_between(text(key), least, most, prometheus.whole(text(key)))
    uncounted = "sum(example_connections_total) - sum(example_requests_total)"
    compare("connections that aren't counted as requests yet", 1, prometheus.whole(uncounted))
    compare("requests that are served now", 1, prometheus.whole("example_in_flight"))


def compare_shown(prometheus):
    """Compares what the dashboard and the alerts find: each expression of a panel gives samples, and each alert is evaluated."""
    with open(os.path.join(HERE, "dashboard.json")) as file:
        panels = json.load(file)["panels"]
    # A rate is of two scrapes at least.
    prometheus.wait_after(float(prometheus.moment) + 2)
    for query in (target["expr"] for panel in panels for target in panel["targets"]):
        query = query.replace("$__rate_interval", "1m")
        compare(f"there are samples of {query}", True, bool(prometheus.samples(query)))
    with open(os.path.join(HERE, "alerts.yml")) as file:
        alerts = re.findall(r"- alert: (\w+)", file.read())
    rules = [rule for group in prometheus.get("rules")["groups"] for rule in group["rules"]]
    compare("alerts that are evaluated", alerts, [rule["name"] for rule in rules if rule["health"] == "ok"])


def compare_prometheus(counts, file, port, not_before):
    """Compares what a Prometheus has of the last scrape."""
    prometheus, document = Prometheus(port), read_document(file)
    # Two seconds later no thread of the server has anything to do with curl any more.
    prometheus.wait_after(not_before + 2)
    begun, succeeded = scrapes_of(prometheus)
    compare("target up", 1, prometheus.whole("up"))
    compare_between("scrapes that succeeded", begun // 2, begun, succeeded)
    compare("samples of a scrape", len(document), prometheus.whole("scrape_samples_scraped"))
    compare_totals(prometheus, counts)
    compare("version", 1, prometheus.whole('example_build_info{version="1.0"}'))
    start = document["example_start_time_seconds", frozenset()]
    compare("example_start_time_seconds", start, prometheus.value("example_start_time_seconds"))
    for q in (0.1, 0.5, 0.9, 0.99):
        query = f'histogram_quantile({q}, example_latency_seconds_bucket{{path="/work"}})'
        compare(query, quantile(q, document), prometheus.value(query))
    total = "example_latency_seconds_sum", frozenset([("path", "/work")])
    compare(text(total), document[total], prometheus.value(text(total)))
    metadata = prometheus.get("metadata")
    for name, kind, unit, _ in METADATA:
        found = [(it["type"], it["unit"]) for it in metadata.get(name, [])]
        compare(f"type and unit of {name}", [(kind, unit)], found)
    compare_shown(prometheus)
    print(f"scrapes by Prometheus: {begun}, of which {succeeded} succeeded")


def main():
    what, counts = sys.argv[1], read_counts(sys.argv[2])
    if what == "document":
        headers, document, scrapers = sys.argv[3:]
        compare_document(counts, headers, document, scrapers == "alone")
    else:
        document, port, not_before = sys.argv[3:]
        compare_prometheus(counts, document, int(port), float(not_before))
    return status()


if __name__ == "__main__":
    sys.exit(main())
