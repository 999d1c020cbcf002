"""A server with everything that a host has: a console at a socket, a log, a file of bans, and metrics."""
import contextlib
import http.client
import os
import socket
import tempfile

from harness.guests import is_soon
from harness.programs import program
from harness.server import HOST, LOGGED, Client, Server

SECONDS = 10


class Console:
    """A console at a Unix socket."""

    def __init__(self, path):
        self.socket = socket.socket(socket.AF_UNIX)
        self.socket.settimeout(SECONDS)
        self.socket.connect(path)
        self.kept = b""

    def send(self, line):
        self.socket.sendall(line.encode() + b"\n")

    def answer(self):
        """Returns the lines of the next answer, up to `ok` or `error ..`."""
        lines = []
        while not lines or not (lines[-1] == "ok" or lines[-1].startswith("error ")):
            while b"\n" not in self.kept:
                some = self.socket.recv(65_536)
                if not some:
                    return [*lines, None]
                self.kept += some
            line, _, self.kept = self.kept.partition(b"\n")
            lines.append(line.decode())
        return lines

    def ask(self, line):
        self.send(line)
        return self.answer()

    def status(self):
        """Returns the lines of `status`, by name."""
        return dict(line.split(" ", 1) for line in self.ask("status")[:-1])

    def close(self):
        self.socket.close()

    def __enter__(self):
        return self

    def __exit__(self, *_):
        self.close()


class Hosted:
    """A server with a folder for its control socket, log and bans, and a port for metrics. `kind` makes the server."""

    def __init__(self, *words, kind=None, **how):
        self.folder = tempfile.TemporaryDirectory()
        self.path = lambda name: os.path.join(self.folder.name, name)
        own = ["--control", self.path("control"), "--log", self.path("log"), "--bans", self.path("bans")]
        own += ["--status-port", "0", *words]
        self.server = kind(*own, **how) if kind else Server(program("mud_serve"), own, **how)

    def log(self):
        """Returns the lines of its log, without their times."""
        with open(self.path("log"), "rb") as file:
            return [line.decode() for line in LOGGED.findall(file.read())]

    def console(self):
        return Console(self.path("control"))

    def status_port(self):
        """Returns the port of its metrics, as the log says."""
        is_soon(lambda: any(line.startswith("status port=") for line in self.log()))
        return int(next(line.partition("port=")[2] for line in self.log() if line.startswith("status port=")))

    def get(self, target, method="GET"):
        """Returns the status, the fields and the body of the answer to an HTTP request."""
        connection = http.client.HTTPConnection(HOST, self.status_port(), timeout=SECONDS)
        connection.request(method, target)
        answer = connection.getresponse()
        with contextlib.closing(connection):
            return answer.status, dict(answer.getheaders()), answer.read().decode()

    def stop(self):
        """Stops it at its control socket. Returns its status and its output."""
        with self.console() as console:
            console.ask("stop")
        return self.server.end()

    def __enter__(self):
        return self

    def __exit__(self, *_):
        self.server.kill()
        self.folder.cleanup()


def come(port, name):
    """Returns a client that has connected by this name."""
    client = Client(port)
    client.line()
    client.send(b"connect " + name)
    client.line()
    return client


def lines_until(client, last):
    """Returns the lines that a client reads up to this one."""
    lines = []
    while not lines or lines[-1] not in (last, None):
        lines.append(client.line())
    return lines


def mute(port):
    """Returns a client that has sent lines until the server took no more, and reads nothing."""
    client = Client(port, seconds=1)
    client.socket.setsockopt(socket.SOL_SOCKET, socket.SO_RCVBUF, 4_096)
    client.send(b"connect Wizard")
    with contextlib.suppress(OSError):
        while True:
            client.give(b"look\r\n" * 10_000)
    client.socket.settimeout(SECONDS)
    return client
