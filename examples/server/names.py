#!/usr/bin/env python3
"""Tests that alerts.yml and dashboard.json name what METADATA of compare.py has. If promtool is installed, it reads them too."""

import json
import re
import shutil
import subprocess
import sys
from pathlib import Path

from client import MISSING, POSTED, RARE, SCRAPE, WORK
from compare import METADATA, SAMPLE_LABELS, SUFFIXES

HERE = Path(__file__).resolve().parent
CONFIG, ALERTS, CASES = ((HERE / it).read_text() for it in ("prometheus.yml", "alerts.yml", "alerts_test.yml"))
BOARD = json.loads((HERE / "dashboard.json").read_text())
EXPRESSIONS = [it["expr"] for panel in BOARD["panels"] for it in panel["targets"]]
# What Prometheus has: the server's samples and its own `up`, with the labels of what is scraped; and values of labels.
LABELS = {name: {"instance", "job", *labels} for name, labels in {**SAMPLE_LABELS, "up": []}.items()}
VALUES = {*re.findall(r"job_name: (\S+)", CONFIG)}.union(*(it[1:] for it in [WORK, SCRAPE, MISSING, POSTED, *RARE]))
GROUPING = re.compile(r" ?\b(?:by|on|group_left) \(([^)]*)\) ?")
# The function that takes samples, their name, what stands in braces, and whether a time follows.
NAME = re.compile(r"(?:\b(\w+)\()?\b([a-zA-Z_]\w*)\b(?:{([^}]*)})?(\[])?(?![\w(])")
outcomes = []


def check(what, faults):
    """Prints a line, and remembers whether there were faults."""
    outcomes.append(not faults)
    print(f"FAILED: {what}: {'; '.join(faults)}" if faults else f"passed: {what}")


def faults_of(expr, legend=""):
    """What is wrong with an expression, and with the legend of what it gives."""
    grouped = set(re.findall(r"\w+", " ".join(GROUPING.findall(expr))))
    bare = re.sub(r"\[[^]]+]", "[]", GROUPING.sub("", expr))
    found, labels = [], set()
    for function, name, matchers, time in NAME.findall(bare):
        own = LABELS.get(name, set())
        labels |= own
        found += [] if own else [f"there is no {name}"]
        found += [f"{name} has no label {it}" for it in re.findall(r"(\w+) *[=!]", matchers) if it not in own]
        is_total = name.endswith(("_total", "_bucket", "_count", "_sum"))
        if {is_total} != {function in ("rate", "increase"), bool(time)}:
            found.append(f"{name} has no rate, or wants one")
    found += [f"nothing has the label {it}" for it in sorted(grouped - labels)]
    found += [f"no {it} for the legend" for it in re.findall(r"{{ *(\w+)", legend) if it not in (grouped or labels)]
    found += [f"no label has the value {it}" for _, it in re.findall(r"""(["'])(.*?)\1""", bare) if it not in VALUES]
    quantiles = re.findall(r"_quantile\((0\.\d+), sum\(rate\(\w+_bucket\b", bare) if "le" in grouped else []
    if len(quantiles) != bare.count("_quantile") or any(legend not in ("", it) for it in quantiles):
        found.append("no quantile of buckets by le, or not that of the legend")
    return found if labels and bare.count("(") == bare.count(")") else [*found, "it isn't whole"]


def check_alert(rule):
    """An alert has what it needs, a case in which it fires, and one in which it doesn't."""
    name, keys = rule.split()[0], dict(re.findall(r"^ *(\w+): (.+)$", rule, re.M))
    found = [f"no {it}" for it in ("for", "severity", "summary") if it not in keys]
    found += [f"no case {it.strip()}" for it in (f"- alertname: {name}\n", f"- {{alertname: {name},") if it not in CASES]
    check(f"alert {name}", found + faults_of(keys.get("expr", "")))


def check_panel(panel, sources, taken):
    """A panel shows what is there, from the Prometheus that is chosen, under an id and in a place of its own."""
    x, y, w, h = (panel["gridPos"][it] for it in "xywh")
    own = {panel["id"], *((column, row) for column in range(x, x + w) for row in range(y, y + h))}
    is_placed = len(own) > 1 and not own & taken and 0 <= x <= 24 - w and y >= 0
    found = [] if is_placed else ["another has its id or covers it, or it lies outside"]
    found += [] if len({it["refId"] for it in panel["targets"]}) == len(panel["targets"]) else ["two targets have one refId"]
    found += [] if panel["datasource"]["uid"] in sources else ["its data source can't be chosen"]
    check(f"panel {panel['title']}", sum((faults_of(it["expr"], it["legendFormat"]) for it in panel["targets"]), found))
    taken |= own


def ask_promtool():
    """Has promtool read the files and the panels' expressions, and try the alerts' cases."""
    rules = [{"record": f"panel:{at}", "expr": it.replace("$__rate_interval", "1m")} for at, it in enumerate(EXPRESSIONS)]
    panels = json.dumps({"groups": [{"name": "panels", "rules": rules}]})
    for words in "check config prometheus.yml", "check rules alerts.yml", "check rules /dev/stdin", "test rules alerts_test.yml":
        ran = subprocess.run(["promtool", *words.split()], cwd=HERE, input=panels, capture_output=True, text=True)
        check(f"promtool {words}", [ran.stdout + ran.stderr] if ran.returncode else [])


def main():
    for rule in ALERTS.split("- alert: ")[1:]:
        check_alert(rule)
    sources, taken = [f"${{{it['name']}}}" for it in BOARD["templating"]["list"] if it["type"] == "datasource"], set()
    for panel in BOARD["panels"]:
        check_panel(panel, sources, taken)
    for name, kind, _, _ in METADATA:
        is_shown = any(re.search(rf"\b{name}{suffix}\b", expr) for suffix in SUFFIXES[kind] for expr in EXPRESSIONS)
        check(f"family {name}", [] if is_shown else ["no panel shows it"])
    ask_promtool() if shutil.which("promtool") else print("SKIP: no promtool is installed (apt-get install prometheus)")
    print(f"{sum(outcomes)} passed, {outcomes.count(False)} failed")
    return 0 if all(outcomes) else 1


if __name__ == "__main__":
    sys.exit(main())
