"""How a server ends sessions that read too little of its answers, and no others. It ends a session that reads nothing
once it could write nothing for a minute, by Telnet and on the web. It also ends one that reads a byte a second.
Meanwhile another session reads a little now and then, and two talk. Buffers between server and client may hold a little
more, so the test lasts up to three and a half minutes."""
import re
import time
from concurrent.futures import ThreadPoolExecutor

from harness.parts import part
from harness.server import Client
from harness.visit import Visit
from harness.web import WebServer

MINUTE, LATEST = 60, 200


class Watched:
    """A client with its address, so that the server's log shows how its session ends."""

    def __init__(self, server, client):
        self.server, self.client = server, client
        host, port = self.client.socket.getsockname()
        self.end = re.compile(rf"end session=[0-9]+ from={re.escape(host)}:{port} why=(\S+)")
        self.began = time.monotonic()

    def has_ended(self):
        return bool(self.word())

    def word(self):
        """Returns the end reason in the log."""
        found = next(filter(None, map(self.end.match, self.server.logged())), None)
        return found and found[1]

    def take_byte(self):
        """Reads one byte."""
        try:
            self.client.socket.recv(1)
        except OSError:
            pass

    def after(self, longest, meanwhile):
        """Returns the seconds until its session ended, or None. Calls `meanwhile` each second."""
        while time.monotonic() < self.began + longest:
            if self.has_ended():
                return time.monotonic() - self.began
            meanwhile()
            time.sleep(1)
        return None

    def fill(self):
        """Sends lines until the server takes no more, and reads nothing."""
        self.client.socket.settimeout(1)
        try:
            while True:
                self.client.send_all([b"look"] * 10_000)
        except TimeoutError:
            self.began = time.monotonic()


class Stuck:
    """A server with two clients that read nothing, one of them on the web, one that reads a byte now and then, one that
    reads, and two that talk."""

    def __init__(self, server):
        self.deaf, self.miser, self.slow = (Watched(server, Client(server.port)) for _ in range(3))
        self.browser = Watched(server, server.dial())
        self.one, self.other = Visit(server.port), Visit(server.port)
        self.one.ask("connect Ann")
        self.other.ask("connect Bob")
        self.waits = []

    def fill(self):
        """Makes them send lines until the server takes no more."""
        with ThreadPoolExecutor() as threads:
            list(threads.map(Watched.fill, (self.deaf, self.browser, self.miser, self.slow)))

    def talk(self):
        """Two talk and get their answers; the slow one reads a little, and the miser a byte."""
        began = time.monotonic()
        self.one.ask("say hello")
        self.other.ask("look")
        self.waits.append(time.monotonic() - began)
        self.slow.client.take(40_000)
        self.miser.take_byte()


def count_stuck(count):
    """Counts what happens to the clients that read nothing or next to nothing, and to the one that reads now and
    then."""
    with WebServer() as server:
        stuck = Stuck(server)
        stuck.fill()
        took, took_on_web = (one.after(LATEST, stuck.talk) for one in (stuck.deaf, stuck.browser))
        later = stuck.miser.after(LATEST, stuck.talk)
        words = [one.word() for one in (stuck.deaf, stuck.browser, stuck.miser)]
        goes_on = not stuck.slow.has_ended()
    print(f"timeouts: the longest wait of others was {max(stuck.waits)} s", flush=True)
    count("timeouts: the session that takes nothing ends", took is not None and MINUTE - 5 < took, f"after {took} s")
    count("timeouts: so does the one on the web", took_on_web is not None, f"after {took_on_web} s")
    count("timeouts: the session that takes a byte a second ends", later is not None, f"after {later} s")
    count("timeouts: the log says why", words == ["write-timeout"] * 3, words)
    count("timeouts: the one that reads now and then goes on", goes_on)


@part("timeouts", "a session ends that takes nothing, or next to nothing, of what is answered", True)
def timeouts(count):
    count_stuck(count)
