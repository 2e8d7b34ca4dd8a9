#!/usr/bin/env python3
"""What a Prometheus answers to a query, as one number: it is asked again for up to 40 seconds, until it has an answer.

Usage: ask.py http://HOST:PORT QUERY
"""
import json
import sys
import time
import urllib.error
import urllib.parse
import urllib.request

server, query = sys.argv[1:]
address = server + "/api/v1/query?" + urllib.parse.urlencode({"query": query})
for _ in range(80):
    try:
        with urllib.request.urlopen(address, timeout=5) as answer:
            result = json.load(answer)["data"]["result"]
    except (OSError, urllib.error.URLError):
        result = []
    if result:
        print(result[0]["value"][1])
        sys.exit(0)
    time.sleep(0.5)
sys.exit(f"no answer to {query}")
