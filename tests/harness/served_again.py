"""Two people play at one server, once for each of its calls: requests for memory, calls that read or write, or thread
starts. The library refuses or fails that call, or starts no thread. The clients send a line again if the server had no
memory for it. A player whose session is cut off comes again, as a guest at first. An earlier run refuses nothing, and
each call that reads or writes moves one byte at most.

Each run must end with status 0 and a whole history, which judges everything that the players read. Or it ends with the
program's own words, and its printed output is then a prefix of such a text.
"""
import contextlib
import itertools
import re
import subprocess
import tempfile
import time

from harness.inputs import read
from harness.journal import Place
from harness.judge import judge
from harness.parts import part
from harness.preload import LIBRARIES, library
from harness.programs import program
from harness.server import Client, Server
from harness.session import LACKING
from harness.visit import QUICK, Visit
from harness.web import WebServer

TOTAL, TRIES, LONGEST, WRONG = 8, 50, 2000, 5
LINES = [
    ("Ann", "@dig north|south to Library"), ("Ann", "@create coin"), ("Bob", "look"), ("Ann", "give coin to Bob"),
    ("Bob", "say Thank you."), ("Ann", "@lock north with coin || !me"), ("Bob", "north"), ("Ann", "north"),
    ("Bob", "proof route to the hall"), ("Ann", "proof meet me, Bob"), ("Ann", "@unlock north"),
    ("Ann", "meet me, Bob"), ("Bob", ":waves."), ("Ann", "@key north"), ("Bob", "south"), ("Ann", "inventory"),
    ("Bob", "drop coin"),
]
HISTORY = re.compile(rb"(mud history 2\n([1-9][0-9]* [1-9][0-9]? [a-z]+ .*\n)*(end [0-9]+\n)?)?")
WORDS = ("out of memory", "write fault", "journal fault", "cannot open journal: file")


class Play:
    """One run: the server, both clients, and all their sessions."""

    def __init__(self, environment, words=()):
        self.server = self.served(["--total", str(TOTAL), *words], environment)
        self.visits, self.sessions, self.lacked = {}, [], 0

    def served(self, words, environment):
        return Server(program("mud_serve"), words, environment)

    def dial(self, _name):
        """Connects a player."""
        return Client

    def visit(self, name=None):
        """Begins another session. A client that connects just as the program ends may never learn of it: some systems
        do not say."""
        try:
            return Visit(self.server.port, self.dial(name))
        except TimeoutError:
            if self.server.process.poll() is None:
                raise
            raise ConnectionError("the program has ended") from None

    def arrive(self, name):
        """Begins another session: as a guest, and then as a player. The server refuses a guest's `look`."""
        visit = self.visits[name] = self.visit(name)
        self.sessions.append(visit.session)
        self.ask(visit, "look")
        self.ask(visit, f"connect {name}")

    def ask(self, visit, line):
        """Sends a line again and again, while the server has no memory for it."""
        for _ in range(TRIES):
            if visit.ask(line) != LACKING:
                return
            self.lacked += 1
        raise TimeoutError(f"{line!r} is not answered")

    def send(self, name, line):
        """Sends a line, and connects its player first if the player is gone."""
        if name not in self.visits:
            self.arrive(name)
        if line == "quit":
            self.visits[name].end()
        else:
            self.ask(self.visits[name], line)

    def insist(self, name, line):
        """Sends a line until it is answered, and connects again as needed."""
        for _ in range(TRIES):
            try:
                self.send(name, line)
                return
            except ConnectionError:
                self.cut_off(name)
                if self.server.process.poll() is not None:
                    raise
        raise TimeoutError(f"{name} is not served")

    def cut_off(self, name):
        """Notes that a session has broken off."""
        self.lacked += 1
        visit = self.visits.pop(name, None)
        if visit:
            visit.session.is_broken = True
        time.sleep(QUICK)

    def use_up(self):
        """Makes sessions until the program ends."""
        while self.server.process.poll() is None:
            with contextlib.suppress(ConnectionError):
                self.visit().end()

    def played(self):
        """Plays all lines and returns what went wrong, as texts."""
        if self.server.port is None:
            return []
        try:
            for name, line in [("Ann", "l"), ("Bob", "l"), *LINES, ("Ann", "quit"), ("Bob", "quit")]:
                self.insist(name, line)
            self.use_up()
        except ConnectionError:
            pass
        except (TimeoutError, ValueError) as error:
            return [repr(error)]
        return []

    def judged(self):
        """Returns what is wrong with this run, as texts."""
        faults = self.played()
        try:
            status, printed = self.server.end()
        except subprocess.TimeoutExpired:
            return [*faults, "it does not end"]
        if status == 0:
            return faults + judge(printed.decode(), self.sessions)[0]
        return faults + self.broken_off(status, printed)

    def broken_off(self, status, printed):
        """Returns what is wrong if the program ended with an error, as texts."""
        faults, said = [], self.server.said().decode().splitlines()
        words = [word for word in WORDS if any(line.startswith(f"mud_serve: {word}") for line in said)]
        if status not in (3, 4) or len(words) != 1 or (status == 4) != (words == ["out of memory"]):
            faults.append(f"status {status}, {said[-1:]}")
        whole, _, rest = printed.rpartition(b"\n")
        if not HISTORY.fullmatch(whole + b"\n" if whole else b""):
            faults.append(f"printed is {printed[-100:]}")
        return faults

    def is_felt(self):
        """Returns whether any client saw that a call failed."""
        return self.lacked > 0 or self.server.process.returncode != 0


class WebPlay(Play):
    """A run in which Bob plays on the web."""

    def served(self, words, environment):
        return WebServer(*words, environment=environment)

    def dial(self, name):
        return self.server.come if name == "Bob" else Client


def play(environment, call, words=(), kind=Play):
    """Runs with this call failing. Returns whether a client felt it, and what is wrong, as texts."""
    chosen = {"FAILED_CALL": str(call), "MOVED_BYTES": str(int(call == 0))}
    one = kind({**environment, **chosen}, words)
    with one.server:
        faults = one.judged()
    if call == 0 and one.is_felt():
        faults.append("something is felt, though nothing was refused")
    return one.is_felt(), [f"call {call}: {fault}"[:400] for fault in faults[:3]]


def play_kept(environment, call):
    """Does as `play` does, over a new journal."""
    with Place() as place:
        return play(environment, call, ["--journal", place.path])


def play_on_web(environment, call):
    """Does as `play` does, with one of the players on the web."""
    return play(environment, call, kind=WebPlay)


def play_in_turn(name, played=play):
    """Makes a run for each call. Returns the number of runs, how many were felt, and what is wrong, by calls."""
    counted = tempfile.NamedTemporaryFile()
    environment = {"LD_PRELOAD": library(name), "CALLS_FILE": counted.name}
    felt, wrong = 0, []
    for call in itertools.count():
        counted.truncate(0)
        is_felt, faults = played(environment, call)
        felt += is_felt
        wrong += [faults] if faults else []
        made = int((read(counted.name).split() or [0])[0])
        if made < call or call == LONGEST or len(wrong) == WRONG:
            return call, felt, wrong


def count_all(count, played):
    """Counts the results of failing calls of each kind."""
    for name in LIBRARIES:
        calls, felt, wrong = play_in_turn(name, played)
        print(f"served again: {name}: {calls} runs, {felt} felt, {len(wrong)} answered wrongly", flush=True)
        count(f"served again: {name}", felt and not wrong, wrong or "no failed call is felt")


@part("served-again", "two people are served while each call of their server fails in turn")
def served_again(count):
    count_all(count, play)


@part("served-again-web", "the same where one of them plays on the web", on_demand=True)
def served_again_web(count):
    count_all(count, play_on_web)


@part("served-again-journal", "the same where the server has a journal", on_demand=True)
def served_again_journal(count):
    count_all(count, play_kept)
