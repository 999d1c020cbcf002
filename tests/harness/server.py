"""A server on a free port of this machine, and its clients. Nothing here waits longer than SECONDS for one line."""
import os
import re
import socket
import struct
import subprocess
import tempfile

HOST = "127.0.0.1"
SECONDS = 10
# A line of the log: its time (RFC 3339, in UTC), and what it says.
LOGGED = re.compile(rb"^[0-9]{4}-[0-9]{2}-[0-9]{2}T[0-9]{2}:[0-9]{2}:[0-9]{2}\.[0-9]{3}Z (.*)\n", re.MULTILINE)
# A server that reads as fast as its clients send: tests of limits say otherwise.
NO_LIMITS = ["--lines-per-second", "0", "--changes-per-minute", "0", "--work-per-second", "0"]


def received(connection):
    """Returns what came on a connection, or nothing at the end or after a reset."""
    try:
        return connection.recv(65_536)
    except ConnectionError:
        return b""


class Server:
    """`PROGRAM listen WORD..` on a free port, which is its `port`, or None if it ended before it said so. With a
    console, lines can be typed at it. Its errors go to a file, unless the caller says where else. It has no limits but
    those of its words, unless it is `limited`. Another program may start it: `by` has its words, which come first.
    """

    def __init__(self, program, words=(), environment=None, console=False, errors=None, limited=False, by=(), **how):
        self.errors = errors or tempfile.TemporaryFile()
        command = [*by, program, "listen", "--port", "0", *words, *["--console"] * console]
        command += [] if "--address" in words else ["--address", HOST]
        command += [] if limited else NO_LIMITS
        how |= {"stdin": subprocess.PIPE if console else subprocess.DEVNULL}
        how |= {"stdout": subprocess.PIPE, "stderr": self.errors, "bufsize": 0}
        self.process = subprocess.Popen(command, env={**os.environ, **(environment or {})}, **how)
        first = self.process.stdout.readline()
        self.port = int(first.removeprefix(b"listening on ")) if first.endswith(b"\n") else None

    def end(self, seconds=SECONDS):
        """Waits until the program ends by itself. Returns its status and what it printed after its first line."""
        try:
            printed, _ = self.process.communicate(timeout=seconds)
        finally:
            self.kill()
        return self.process.returncode, printed

    def type(self, text):
        """Types this at its console."""
        self.process.stdin.write(text)

    def said(self):
        """Returns what it has written to standard error, without the lines of its log."""
        return LOGGED.sub(b"", self.written())

    def logged(self):
        """Returns the lines of its log, without their times and line ends."""
        return [line.decode() for line in LOGGED.findall(self.written())]

    def written(self):
        """Returns all that it has written to standard error. The program writes at the offset of that file, so this
        leaves the offset where it is.
        """
        return os.pread(self.errors.fileno(), os.fstat(self.errors.fileno()).st_size, 0)

    def most_memory(self):
        """Returns the most memory that it has used, in bytes."""
        with open(f"/proc/{self.process.pid}/status") as file:
            return next(int(line.split()[1]) * 1024 for line in file if line.startswith("VmHWM"))

    def __enter__(self):
        return self

    def __exit__(self, *_):
        self.kill()

    def kill(self):
        """Kills the program if it still runs."""
        if self.process.poll() is None:
            self.process.kill()
            self.process.wait()


class Client:
    """A connection to a server: it sends and reads lines without their CR LF, as bytes."""

    def __init__(self, port, seconds=SECONDS):
        if port is None:
            raise ConnectionRefusedError("the server does not listen")
        self.socket = socket.create_connection((HOST, port), timeout=seconds)
        self.kept = b""

    def send(self, line):
        self.give(line + b"\r\n")

    def send_all(self, lines):
        """Sends lines in one piece."""
        self.give(b"".join(line + b"\r\n" for line in lines))

    def give(self, some):
        """Sends these bytes as they are."""
        self.socket.sendall(some)

    def more(self):
        """Reads more and returns whether any came: false at the end or after a reset."""
        some = received(self.socket)
        self.kept += some
        return bool(some)

    def line(self):
        """Returns the next complete line. At the end returns None, and `kept` is then a prefix of a line, or
        nothing."""
        while b"\r\n" not in self.kept:
            if not self.more():
                return None
        line, _, self.kept = self.kept.partition(b"\r\n")
        return line

    def take(self, count):
        """Returns the next `count` bytes, or fewer at the end."""
        while len(self.kept) < count and self.more():
            pass
        some, self.kept = self.kept[:count], self.kept[count:]
        return some

    def close(self):
        self.socket.close()

    def close_half(self):
        """Closes the sending side."""
        self.socket.shutdown(socket.SHUT_WR)

    def reset(self):
        """Resets the connection, without a word to the other side."""
        self.socket.setsockopt(socket.SOL_SOCKET, socket.SO_LINGER, struct.pack("ii", 1, 0))
        self.socket.close()
