"""The web listener, played by web sockets of others: the libraries `websockets` and `autobahn` of Debian.

Autobahn's test suite, of some five hundred cases, is in no package of Debian 12. The tries of harness/web.py are ours.
"""
import contextlib
import select
import subprocess
import time

from harness.inputs import tests_file
from harness.parts import Skipped, part
from harness.web import WebServer

PYTHON = "/usr/bin/python3"
LIBRARIES = ("websockets", "autobahn")
SECONDS = 20
GREETED = "text Welcome. Type: connect NAME"
COMES, CAME = "text connect Ann", "text [1] welcome #2"


class Foreign:
    """A web socket of a library, at a server."""

    def __init__(self, library, server):
        url = f"ws://127.0.0.1:{server.web_port}/play"
        words = [PYTHON, tests_file("sockets/foreign.py"), library, url, server.origin]
        self.process = subprocess.Popen(words, stdin=subprocess.PIPE, stdout=subprocess.PIPE, bufsize=0)
        self.kept = b""

    def does(self, command):
        self.process.stdin.write(f"{command}\n".encode())

    def line(self):
        """Returns the next event; nothing at the end, or if it takes too long."""
        until = time.monotonic() + SECONDS
        while b"\n" not in self.kept:
            if not select.select([self.process.stdout], [], [], max(0, until - time.monotonic()))[0]:
                return "nothing"
            if not (some := self.process.stdout.read(65_536)):
                return ""
            self.kept += some
        line, _, self.kept = self.kept.partition(b"\n")
        return line.decode().rstrip()

    def close(self):
        self.process.kill()
        self.process.communicate()


# The tries and their events by docs/WEB.md: the name of a try, and its steps. A step that begins with a mark is an
# action, and any other is an event.
TRIES = [
    ("plays and quits", [GREETED, f"> {COMES}", CAME, "> text say Hello", "text [2] said", "> text quit",
                         "text [2] bye", "closed 1000"]),
    ("a message in two fragments", [GREETED, f"> {COMES}", CAME, "> parts say Hello, all of you", "text [2] said"]),
    ("a ping", [GREETED, "> ping are you there", "pong are you there", f"> {COMES}", CAME]),
    ("a message of 4,096 bytes", [GREETED, f"> text {'a' * 4096}", "text (line too long)"]),
    ("a message of 4,097 bytes", [GREETED, f"> text {'a' * 4097}", "closed 1009"]),
    ("a message with letters past ASCII", [GREETED, f"> {COMES}", CAME, "> text say gr\u00fcn", "text [2] said"]),
    ("closes", [GREETED, "> close", "closed 1000"]),
    ("the server stops", [GREETED, f"> {COMES}", CAME, "> stop", "text (server stops)", "closed 1001"]),
]


def why_not(library, steps):
    """Returns the first different event; nothing if all are as written."""
    with WebServer(console=True) as server, contextlib.closing(Foreign(library, server)) as socket:
        for step in steps:
            if step == "> stop":
                server.type(b"stop\n")
            elif step.startswith("> "):
                socket.does(step[2:])
            elif not (line := socket.line()).startswith(step):
                return f"{line!r}, and not {step!r}"
        return ""


@part("foreign-sockets", "web sockets of others play: Debian's python3-websockets and python3-autobahn", True)
def foreign_sockets(count):
    for library in LIBRARIES:
        ran = subprocess.run([PYTHON, "-c", f"import {library}"], capture_output=True)
        if ran.returncode != 0:
            raise Skipped(f"{PYTHON} has no {library}")
        for name, steps in TRIES:
            count.tries(f"{library}: {name}", why_not, library, steps)
