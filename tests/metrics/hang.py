#!/usr/bin/env python3
"""Plays a hang in real time to a real Prometheus and its Alertmanager, and looks at what they say of it.

Six tasks run on one thread for four seconds. Then `report-1` holds the thread, and the others wait. While it does, the rates of what tasks waited and of
whom they waited for aren't 0, and of the alerts of docs/alerts.yml that are not inhibited only the culprit's is active, with its name and place. So that this takes half a
minute, the times of the alerts are shortened.

Usage: hang.py PROGRAM FOLDER    PROGRAM is taskscope, and FOLDER is empty. It needs prometheus, prometheus-alertmanager and prometheus-node-exporter.
"""
import json
import re
import socket
import subprocess
import sys
import time
import urllib.error
import urllib.parse
import urllib.request
from pathlib import Path

ROOT = Path(__file__).resolve().parents[2]
MS = 10**6
STEP = 500 * MS
HOLDS_FROM = 4000 * MS
END = 20_000 * MS
# In the order in which they are looked for. What stays is not a time of the alerts.
SHORTENED = (("for: 15s", "for: 3s"), ("for: 1m", "for: 4s"), ("for: 3m", "for: 4s"), ("for: 5m", "for: 4s"), ("[5m]", "[4s]"), ("[2m]", "[4s]"))


def script():
    yield "waits"
    for number in range(1, 7):
        yield f"task 0 spawn conn-{number}"
        yield f"clone {number}"
    yield "task 0 spawn report-1"
    for moment in range(STEP, HOLDS_FROM, STEP):
        for number in range(1, 7):
            at = moment + number * 10 * MS
            # The first polls of all start by themselves.
            if moment > STEP:
                yield f"wakeref {number} {at}"
            yield f"start {number} {at + MS}"
            yield f"end {number} {at + 3 * MS}"
        yield f"publish {moment + STEP - MS}"
    yield f"start 7 {HOLDS_FROM}"
    for number in range(1, 7):
        yield f"wakeref {number} {HOLDS_FROM + number * MS}"
    for moment in range(HOLDS_FROM + STEP, END + 1, STEP):
        yield f"publish {moment}"


def free_port():
    with socket.socket() as server:
        server.bind(("127.0.0.1", 0))
        return server.getsockname()[1]


def asked(address, query=None):
    """The answer of a server, as JSON, or None while it has none."""
    try:
        with urllib.request.urlopen(address + ("?" + urllib.parse.urlencode(query) if query else ""), timeout=5) as answer:
            return json.load(answer)
    except (OSError, urllib.error.URLError):
        return None


class Servers:
    def __init__(self, folder):
        self.folder = folder
        self.running = []
        (folder / "collected").mkdir()
        alerts = (ROOT / "docs/alerts.yml").read_text(encoding="utf-8")
        for long, short in SHORTENED:
            alerts = alerts.replace(long, short)
        (folder / "alerts.yml").write_text(alerts, encoding="utf-8")
        self.exporter, self.alertmanager, self.prometheus = (free_port() for _ in range(3))

    def start(self):
        inhibit = re.search(r"```yaml\n(inhibit_rules:.*?)```", (ROOT / "docs/formats/metrics.md").read_text(encoding="utf-8"), re.S)[1]
        (self.folder / "alertmanager.yml").write_text(f"route: {{ receiver: none }}\nreceivers: [{{ name: none }}]\n{inhibit}", encoding="utf-8")
        (self.folder / "prometheus.yml").write_text(
            f"""global: {{ scrape_interval: 1s, evaluation_interval: 1s }}
rule_files: [alerts.yml]
alerting: {{ alertmanagers: [{{ static_configs: [{{ targets: ["127.0.0.1:{self.alertmanager}"] }}] }}] }}
scrape_configs: [{{ job_name: node, static_configs: [{{ targets: ["127.0.0.1:{self.exporter}"] }}] }}]
""",
            encoding="utf-8",
        )
        self.run("prometheus-node-exporter", "--collector.disable-defaults", "--collector.textfile",
                 f"--collector.textfile.directory={self.folder}/collected", f"--web.listen-address=127.0.0.1:{self.exporter}")
        self.run("prometheus-alertmanager", f"--config.file={self.folder}/alertmanager.yml", f"--storage.path={self.folder}/alertmanager",
                 f"--web.listen-address=127.0.0.1:{self.alertmanager}", "--cluster.listen-address=")
        self.run("prometheus", f"--config.file={self.folder}/prometheus.yml", f"--storage.tsdb.path={self.folder}/data",
                 f"--web.listen-address=127.0.0.1:{self.prometheus}")
        for _ in range(60):
            if asked(f"http://127.0.0.1:{self.prometheus}/api/v1/status/buildinfo") and asked(f"http://127.0.0.1:{self.alertmanager}/api/v2/status"):
                return
            time.sleep(0.5)
        sys.exit("the servers don't answer")

    def run(self, *words):
        said = open(self.folder / (words[0] + ".said"), "wb")
        self.running.append(subprocess.Popen(words, stdout=said, stderr=said))

    def stop(self):
        for server in self.running:
            server.kill()
            server.wait()

    def value(self, query):
        answer = asked(f"http://127.0.0.1:{self.prometheus}/api/v1/query", {"query": query})
        result = answer["data"]["result"] if answer else []
        return float(result[0]["value"][1]) if result else None

    def firing(self):
        """The labels of the alerts that fire, by Prometheus."""
        answer = asked(f"http://127.0.0.1:{self.prometheus}/api/v1/alerts")
        return [alert["labels"] for alert in answer["data"]["alerts"] if alert["state"] == "firing"] if answer else []

    def let_through(self):
        """The labels of the alerts of which somebody would hear."""
        answer = asked(f"http://127.0.0.1:{self.alertmanager}/api/v2/alerts", {"active": "true", "inhibited": "false", "silenced": "false"})
        return [alert["labels"] for alert in answer or []]


def play(program, folder, lines, look):
    """Gives each line to the program at its moment, and looks at the end, while the last lines come."""
    numbers = folder / "collected/tasks.prom"
    reader = subprocess.Popen([program, "metrics", "--by", "place", "--every", "0", "--to", numbers], stdin=subprocess.PIPE)
    began = time.monotonic()
    for line in lines:
        wanted = json.loads(line)["now"] / 10**9
        time.sleep(max(0, began + wanted - time.monotonic()))
        reader.stdin.write(line)
        reader.stdin.flush()
    look()
    reader.stdin.close()
    if reader.wait() != 0:
        sys.exit("the program failed")


def main():
    program, folder = sys.argv[1], Path(sys.argv[2])
    stream = subprocess.run([program, "run"], input="\n".join(script()).encode() + b"\n", stdout=subprocess.PIPE, check=True).stdout
    servers = Servers(folder)
    seen = []

    def look():
        for what in ("waited", "held_up"):
            rate = servers.value(f"sum(rate(taskscope_{what}_seconds_total[5s]))")
            print(f"{what}, seconds by the second: {rate}")
            if rate is None or not 4.8 <= rate <= 7.5:
                seen.append(f"the rate of {what}")
        firing, through = servers.firing(), servers.let_through()
        print("fire:", firing)
        print("let through:", through)
        if "TasksNeverPolled" not in {alert["alertname"] for alert in firing}:
            seen.append("no victim's alert fires, so nothing is inhibited")
        if {(alert["alertname"], alert.get("place")) for alert in through} != {("TaskHoldsItsThread", "spawn at script:14:1 name report-#")}:
            seen.append("the alerts that are let through")

    try:
        servers.start()
        play(program, folder, stream.splitlines(keepends=True), look)
    finally:
        servers.stop()
    if seen:
        sys.exit("not as it should be: " + "; ".join(seen))


main()
