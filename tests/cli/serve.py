#!/usr/bin/env python3
"""Asks `PROGRAM serve` for pages over HTTP, while a service runs, has ended, and was started anew: serve.py PROGRAM STREAM OTHER

The service is this script, at a socket in a folder of its own: it sends STREAM, and OTHER once it was started anew. What is answered must be what
the program's own commands write of that stream. The last line is `N passed, M failed`, and the status 1 if M isn't 0.
"""

import http.client
import os
import socket
import subprocess
import sys
import tempfile
import time

SECONDS = 20
# A page has the address for a title.
COMMANDS = {"/": ["page", "--title", "ADDRESS"], "/report": ["view"], "/lint": ["lint"], "/metrics": ["metrics"]}


class Service:
    """A service at a socket, with one reader."""

    def __init__(self, path, stream):
        self.listener = socket.socket(socket.AF_UNIX)
        self.listener.bind(path)
        self.listener.listen(2)
        self.listener.settimeout(SECONDS)
        self.path, self.stream, self.connection = path, stream, None

    def send(self):
        self.connection, _ = self.listener.accept()
        with open(self.stream, "rb") as file:
            self.connection.sendall(file.read())

    def end(self):
        os.unlink(self.path)
        self.listener.close()
        self.connection.close()


class Gateway:
    """The program, as it serves a service."""

    def __init__(self, program, address):
        self.address = address
        self.run = subprocess.Popen([program, "serve", address, "--at", "127.0.0.1:0"], stdout=subprocess.PIPE, text=True)

    def read_place(self):
        self.place = self.run.stdout.readline().strip().removeprefix("http://").rstrip("/")

    def ask(self, path, host=None):
        connection = http.client.HTTPConnection(self.place, timeout=SECONDS)
        connection.request("GET", path, headers={"Host": host or self.place})
        response = connection.getresponse()
        return response.status, response.read()

    def end(self):
        self.run.terminate()
        self.run.wait(SECONDS)


def written_by(program, words, stream):
    return subprocess.run([program, *words, stream], capture_output=True, check=False).stdout


def await_stream(gateway, stream):
    """Waits until the gateway has all lines of a stream."""
    with open(stream, "rb") as file:
        given = file.read()
    end = time.monotonic() + SECONDS
    while gateway.ask("/stream") != (200, given):
        assert time.monotonic() < end, f"{stream} isn't what is kept"
        time.sleep(0.1)


def answers_as_commands(gateway, program, stream):
    for path, words in COMMANDS.items():
        words = [gateway.address if word == "ADDRESS" else word for word in words]
        status, body = gateway.ask(path)
        assert status == 200, f"{path} has status {status}"
        assert body == written_by(program, words, stream), f"{path} isn't what {words} writes"


def refuses_others(gateway):
    for host, expected in [("evil.example", 403), ("127.0.0.1.evil.example:80", 403), ("localhost", 200), ("[::1]:80", 200)]:
        status, _ = gateway.ask("/report", host)
        assert status == expected, f"host {host} has status {status}"
    status, _ = gateway.ask("/none")
    assert status == 404, f"/none has status {status}"


def main(program, stream, other):
    passed = failed = 0
    with tempfile.TemporaryDirectory() as folder:
        path = os.path.join(folder, "socket")
        service = Service(path, stream)
        gateway = Gateway(program, f"unix:{path}")
        service.send()
        gateway.read_place()

        def starts_anew():
            nonlocal service
            service = Service(path, other)
            service.send()
            await_stream(gateway, other)
            answers_as_commands(gateway, program, other)

        cases = [
            ("all lines are kept", lambda: await_stream(gateway, stream)),
            ("answers are what commands write", lambda: answers_as_commands(gateway, program, stream)),
            ("others are refused", lambda: refuses_others(gateway)),
            ("the end of the service", service.end),
            ("what came stays when the service has ended", lambda: answers_as_commands(gateway, program, stream)),
            ("a service that starts anew is shown", starts_anew),
        ]
        for name, case in cases:
            try:
                case()
                passed += 1
                print(f"ok: {name}")
            except (AssertionError, OSError) as error:
                failed += 1
                print(f"FAILED: {name}: {error}")
        gateway.end()
    print(f"{passed} passed, {failed} failed")
    return failed > 0


if len(sys.argv) != 4:
    sys.exit(__doc__)
sys.exit(main(os.path.abspath(sys.argv[1]), sys.argv[2], sys.argv[3]))
