"""A visit to a server: one session. It keeps everything that it sends and reads for the judge."""
import time

from harness.server import Client
from harness.session import FULL, LACKING, Session

SERVER_FULL = "(server full)"
QUICK = 0.01


class Visit:
    """A session that was greeted. It tries again while the server is full. `dial` makes its client."""

    def __init__(self, port, dial=Client):
        self.session = Session()
        self.client = dial(port)
        while self.read_line() == SERVER_FULL:
            self.session.read.clear()
            self.client.close()
            time.sleep(QUICK)
            self.client = dial(port)

    def read_line(self):
        """Returns the next line, which must come."""
        line = self.client.line()
        if line is None:
            raise ConnectionError("the end came too early")
        self.session.read.append(line.decode())
        return self.session.read[-1]

    def ask(self, line):
        """Sends a line, reads up to the first line of its answer, and returns that line."""
        self.session.sent.append(line)
        self.client.send(line.encode())
        while True:
            text = self.read_line()
            if text.startswith("[") or text in (FULL, LACKING):
                return text

    def end(self):
        """Leaves, even if the server is out of memory at first, and reads everything that is left."""
        while self.ask("quit") == LACKING:
            pass
        self.read_rest()
        self.client.close()

    def read_rest(self):
        """Reads up to the end."""
        while (line := self.client.line()) is not None:
            self.session.read.append(line.decode())
