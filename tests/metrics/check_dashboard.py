#!/usr/bin/env python3
"""Whether a dashboard has what Grafana needs of one, and whether a Prometheus takes each of its queries.

Usage: check_dashboard.py DASHBOARD [http://HOST:PORT]

Each query speaks of families that tests/metrics/plain_metrics.py reckons. Without a server no query is asked.
"""
import json
import os
import re
import sys
import urllib.error
import urllib.parse
import urllib.request

KEYS = {"title": str, "uid": str, "schemaVersion": int, "version": int, "time": dict, "templating": dict, "annotations": dict, "panels": list}
PANEL_KEYS = {"id": int, "type": str, "title": str, "description": str, "gridPos": dict, "datasource": dict, "fieldConfig": dict, "options": dict, "targets": list}
TARGET_KEYS = {"refId": str, "expr": str, "datasource": dict}
PANEL_TYPES = {"heatmap", "stat", "table", "timeseries"}


def need(holds, text):
    if not holds:
        sys.exit(text)


def has_keys(thing, keys, name):
    for key, kind in keys.items():
        need(isinstance(thing.get(key), kind), f"{name}: {key} is no {kind.__name__}")


def cells(place):
    return {(x, y) for x in range(place["x"], place["x"] + place["w"]) for y in range(place["y"], place["y"] + place["h"])}


def known_families():
    with open(os.path.join(os.path.dirname(os.path.abspath(__file__)), "plain_metrics.py"), encoding="ascii") as source:
        return set(re.findall(r"\btaskscope_\w+", source.read()))


def families_in(query):
    return {re.sub(r"_(bucket|sum|count)$", "", name) for name in re.findall(r"\btaskscope_\w+", query)}


def variables_in(text):
    return set(re.findall(r"\$\{?(\w+)\}?", text))


def is_taken(server, query):
    for variable, value in (("$__rate_interval", "5m"), ("$instance", ".*")):
        query = query.replace(variable, value)
    address = server + "/api/v1/query?" + urllib.parse.urlencode({"query": query})
    try:
        with urllib.request.urlopen(address, timeout=10) as answer:
            return json.load(answer)["status"] == "success"
    except urllib.error.HTTPError as error:
        print(error.read().decode(), file=sys.stderr)
        return False


def check(dashboard, server):
    has_keys(dashboard, KEYS, "the dashboard")
    need(dashboard["schemaVersion"] >= 36, "the dashboard has a schema from before 2022")
    variables = {variable["name"] for variable in dashboard["templating"]["list"]} | {"__rate_interval", "__all"}
    need(variables_in(json.dumps(dashboard)) <= variables, "a variable is used that there is not")
    ids, taken, families, queries = set(), set(), known_families(), 0
    for panel in dashboard["panels"]:
        name = f"panel {panel.get('title')}"
        has_keys(panel, PANEL_KEYS, name)
        need(panel["type"] in PANEL_TYPES, f"{name}: its type is {panel['type']}")
        need(panel["id"] not in ids, f"{name}: another one has its id")
        ids.add(panel["id"])
        here = cells(panel["gridPos"])
        need(all(x < 24 for x, _ in here) and not here & taken, f"{name}: there is no room where it stands")
        taken |= here
        need(panel["targets"], f"{name} asks nothing")
        for target in panel["targets"]:
            has_keys(target, TARGET_KEYS, name)
            need(families_in(target["expr"]) and families_in(target["expr"]) <= families, f"{name} asks for a family that there is not")
            need(server is None or is_taken(server, target["expr"]), f"{name}: Prometheus doesn't take {target['expr']}")
            queries += 1
    print(f"{len(ids)} panels, {queries} queries")


with open(sys.argv[1], encoding="ascii") as text:
    check(json.load(text), sys.argv[2] if len(sys.argv) > 2 else None)
