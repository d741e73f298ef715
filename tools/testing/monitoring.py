"""What must hold of the examples for Prometheus and Grafana: they ask for what is written, and each alert fires."""

import json
import os
import re
import shutil
import subprocess
import tempfile

from testing.network import Failed, Skipped, expect
from testing.script import TOP, read
from testing.statistics import metrics, run_a_turn

RULES = os.path.join(TOP, "examples", "coap-proxyd.rules.yml")
DASHBOARD = os.path.join(TOP, "examples", "coap-proxyd.dashboard.json")
ALERTS = os.path.join(TOP, "tools", "testing", "alerts.yml")
METRIC = re.compile(r"\bcoap_proxyd_[a-z_]+")
# The line of a metric's type, and what ends the names of a histogram's numbers.
TYPE = re.compile(r"^# TYPE (\w+) (\w+)$", re.MULTILINE)
ENDINGS = {"histogram": ("_bucket", "_sum", "_count")}
# What a query wants of a label whose values the program chooses.
WANTED = re.compile(r'\b(outcome|storing|what)=(~?)"([^"]*)"')
# What Grafana puts in the place of variables.
VARIABLES = {"$__rate_interval": "5m", "$instance": ".*", "$listen": ".*"}


def dashboard_queries():
    """The queries of the dashboard, with values for its variables."""
    board = json.loads(read(DASHBOARD))
    queries = [target["expr"] for panel in board["panels"] for target in panel["targets"]]
    for name, value in VARIABLES.items():
        queries = [query.replace(name, value) for query in queries]
    return queries


def written_metrics(program):
    """The names of the metrics that a program writes, also of those that have no number yet, and the values of their
    labels."""
    with tempfile.TemporaryDirectory(prefix="coap-proxyd-test-") as folder:
        path = os.path.join(folder, "counts.prom")
        run_a_turn(program, "--stats-file", path)
        series, types = list(metrics(path)), TYPE.findall(read(path))
    labels = {label for it in series for label in re.findall(r'(\w+)="([^"]*)"', it)}
    return {name + end for name, kind in types for end in ENDINGS.get(kind, ("",))}, labels


def promtool(folder, *words):
    """Has Prometheus's tool pass something in a folder."""
    found = shutil.which("promtool")
    if found is None:
        raise Skipped("there is no promtool (Debian's package prometheus)")
    done = subprocess.run(
        [found, *words], cwd=folder, stdin=subprocess.DEVNULL, stdout=subprocess.PIPE, stderr=subprocess.STDOUT, timeout=50
    )
    if done.returncode:
        raise Failed(f"promtool {' '.join(words)}: {done.stdout.decode()}")


def queries_ask_for_what_is_written(program):
    names, labels = written_metrics(program)
    for text in (*dashboard_queries(), read(RULES)):
        expect("metrics that nobody writes", set(), set(METRIC.findall(text)) - names)
        for label, is_pattern, wanted in WANTED.findall(text):
            values = wanted.split("|") if is_pattern else [wanted]
            for value in values:
                found = any(key == label and re.fullmatch(value, written) for key, written in labels)
                expect(f"whether {label} is {value} somewhere", True, found)


def queries_are_understood(_):
    with tempfile.TemporaryDirectory(prefix="coap-proxyd-test-") as folder:
        rules = [{"record": f"query{n}", "expr": query} for n, query in enumerate(dashboard_queries())]
        with open(os.path.join(folder, "queries.yml"), "w") as file:
            json.dump({"groups": [{"name": "queries", "rules": rules}]}, file)
        promtool(folder, "check", "rules", "queries.yml")


def each_alert_fires(_):
    fired = re.findall(r"- alertname: (\w+)\n +eval_time: .*\n +exp_alerts:\n", read(ALERTS))
    expect("the alerts that fire", sorted(re.findall(r"- alert: (\w+)", read(RULES))), sorted(fired))
    with tempfile.TemporaryDirectory(prefix="coap-proxyd-test-") as folder:
        shutil.copy(RULES, folder)
        shutil.copy(ALERTS, folder)
        promtool(folder, "test", "rules", os.path.basename(ALERTS))


CASES = (queries_ask_for_what_is_written, queries_are_understood, each_alert_fires)
