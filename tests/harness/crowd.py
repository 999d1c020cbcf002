"""Many clients play at once with one server, each at its own pace. The printed history judges the output of each, and
some of the certificates that they got are checked.

Each client sends lines at random: it looks, talks, walks, digs, makes, gives, locks, asks for the way. After each of
them it leaves with a chance of one in a hundred, and comes again. With 64 clients, one more is sent away.
"""
import random
import time
from concurrent.futures import ThreadPoolExecutor

from harness.journal import Place, ended
from harness.judge import judge
from harness.parts import part
from harness.programs import program
from harness.proofs import refused
from harness.server import Client, Server
from harness.shrinking import tell_small
from harness.visit import SERVER_FULL, Visit
from harness.web import WebServer

NAMES = [f"{first}{last}" for first in ("An", "Bo", "Ce", "Da", "El", "Fy", "Ga", "Hu") for last in "nbcdefgh"]
THINGS = ["lamp", "brass key", "red ball", "red box", "chest", "bag"]
WAYS = ["north", "south", "east", "west", "up", "down"]
PLACES = ["Library", "Vault", "Attic", "Garden", "Long Hall"]
LONGEST = 20
BAD = ["xyzzy", "take", "put lamp", "drop #999999999", "route", "proof look", "@lock me with (", "go #1"]
# The number of proofs checked, of clients that a server admits, and of faults shown.
PROOFS, MOST, SHOWN_FAULTS = 100, 64, 5


class Talker:
    """A named player that gives lines at random and guesses the numbers of objects."""

    def __init__(self, seed):
        self.random = random.Random(seed)
        self.one = self.random.choice
        self.name = NAMES[seed % len(NAMES)]
        self.names = NAMES[: seed + 2]

    def number(self):
        return f"#{self.one([*range(40), self.random.randrange(400)])}"

    def thing(self):
        return self.one([*THINGS, self.number(), self.number(), "red", "b"])

    def atom(self):
        return self.one([self.number(), f"!{self.number()}", f"?{self.number()}", "me", "brass key"])

    def key(self):
        one, other = self.atom(), self.atom()
        return self.one([one, f"{one} || me", f"{one} && {other}", f"!({one} || {other})"])

    def line(self):
        """Returns a random line; the number before each kind is its weight."""
        one, way, thing, number, name = self.one, self.one(WAYS), self.thing(), self.number(), self.one(self.names)
        kinds = [
            (12, ["look", "l", f"look {thing}", "look at me", f"look {number}", "look here"]),
            (12, ["say Hello there.", '"What is that?', ":waves.", "emote sits down.", "say"]),
            (20, [way, way, f"go {way}", f"go {number}"]),
            (6, ["inventory", "i", "@version"]),
            (8, [f"@create {one(THINGS)}"]),
            (10, [f"take {thing}", f"drop {thing}", f"get {thing}", f"put {thing} in {self.thing()}"]),
            (8, [f"give {thing} to {name}"]),
            (2, [f"@dig {way}|{one(WAYS)} to {one(PLACES)}"]),
            (4, [f"@lock {thing} with {self.key()}", f"@lock {way} with {self.key()}", f"@unlock {number}"]),
            (3, [f"@key {thing}", f"@cost {way} is {self.random.randrange(12)}", "@cost here is 3"]),
            (8, [f"route to {number}", f"route to {one(PLACES)}", f"proof route to {number}"]),
            (4, [f"meet me, {name}", f"proof meet me, {name}, {one(self.names)}"]),
            (2, [f"@rename {thing} to {one(THINGS)},{one(WAYS)}", f"@rename me to {name}", f"@recycle {number}"]),
            (1, [f"@dig {way} to {number}", f"@dig {way}|{one(WAYS)} to here", f"@recycle {thing}"]),
            (1, [f"connect {name}"]),
            (2, BAD),
        ]
        return one(self.random.choices([lines for _, lines in kinds], [weight for weight, _ in kinds])[0])


class Crowd:
    """Clients of one server, and their sessions. They alternate between the ways of `dials`."""

    def __init__(self, server, seconds, pace, dials=(Client,)):
        self.server, self.pace, self.dials = server, pace, dials
        self.until = time.monotonic() + seconds
        self.sessions = []

    def visit(self, talker, dial):
        """Plays one visit: a player connects, sends lines, and leaves by chance or when the time is over."""
        visit = Visit(self.server.port, dial)
        self.sessions.append(visit.session)
        visit.ask(f"connect {talker.name}")
        is_leaving = False
        while not is_leaving:
            time.sleep(talker.random.expovariate(self.pace))
            visit.ask(talker.line())
            is_leaving = time.monotonic() > self.until or talker.random.random() < 0.01
        visit.end()

    def play(self, seed):
        """Plays one visit after another until the time is over. Returns what went wrong, as texts."""
        talker = Talker(seed)
        try:
            while time.monotonic() < self.until:
                self.visit(talker, self.dials[seed % len(self.dials)])
        except (OSError, ValueError) as error:
            return [f"client {seed}: {error!r}"]
        return []

    def play_all(self, count):
        """Plays all clients at once. Returns what went wrong, as texts, and whether one more client is sent away."""
        with ThreadPoolExecutor(count) as threads:
            playing = [threads.submit(self.play, seed) for seed in range(count)]
            time.sleep(min(1, (self.until - time.monotonic()) / 2))
            is_full = count < MOST or self.is_sent_away()
            return [fault for one in playing for fault in one.result()], is_full

    def is_sent_away(self):
        """Returns whether a client beyond the limit is told so."""
        client = Client(self.server.port)
        return client.line() == SERVER_FULL.encode() and client.line() is None

    def finish(self, total):
        """Makes sessions until the server ends by itself. Returns its status and its output."""
        for _ in range(len(self.sessions), total):
            Visit(self.server.port).end()
        return self.server.end(60)


def judge_crowd(count, sessions, history):
    """Counts the output of the sessions, and the certificates that they got."""
    faults, proofs = judge(history, sessions)
    some = random.Random(0).sample(proofs, min(PROOFS, len(proofs)))
    wrong = refused(history.encode(), [proof.encode() for proof in some])
    answers, changes = sum(len(session.sent) for session in sessions), len(history.splitlines()) - 2
    print(f"crowd: {len(sessions)} sessions, {answers} answers, {changes} changes, {len(some)} of {len(proofs)} proofs "
          f"checked, {len(faults)} faults", flush=True)
    count("crowd: what all sessions read", not faults, "; ".join(faults[:SHOWN_FAULTS]))
    count("crowd: the proofs that they read", not wrong, wrong[:SHOWN_FAULTS])
    if faults:
        tell_small(sessions, history)


def count_crowd(count, clients, seconds, pace, words=(), is_on_web=False):
    """Makes a crowd play, every second client on the web if asked, and counts the results. Returns the printed
    history."""
    total = clients * LONGEST
    words = ["--total", str(total), *words]
    with WebServer(*words) if is_on_web else Server(program("mud_serve"), words) as server:
        crowd = Crowd(server, seconds, pace, [Client, server.come] if is_on_web else [Client])
        faults, is_full = crowd.play_all(clients)
        status, printed = crowd.finish(total)
    count("crowd: all clients are served", not faults, "; ".join(faults[:SHOWN_FAULTS]))
    count("crowd: one more client is sent away", is_full)
    count("crowd: the server ends with status 0", status == 0, status)
    judge_crowd(count, crowd.sessions, printed.decode())
    return printed


@part("crowd", "clients play at once, and what each reads is judged", words="[CLIENTS [SECONDS [PACE]]]")
def small_crowd(count, clients="16", seconds="5", pace="20"):
    count_crowd(count, int(clients), float(seconds), float(pace))


@part("web-crowd", "the crowd by Telnet and on the web", words="[CLIENTS [SECONDS [PACE]]]")
def web_crowd(count, clients="16", seconds="5", pace="20"):
    count_crowd(count, int(clients), float(seconds), float(pace), is_on_web=True)


@part("big-crowd", "the crowd of as many clients as a server takes, for a minute", on_demand=True)
def big_crowd(count):
    count_crowd(count, MOST, 60, 20)


@part("crowd-with-a-journal", "the crowd at a server that keeps a journal", words="[CLIENTS [SECONDS [PACE]]]")
def crowd_with_a_journal(count, clients="16", seconds="5", pace="20"):
    with Place() as place:
        printed = count_crowd(count, int(clients), float(seconds), float(pace), ["--journal", place.path])
        count("crowd with a journal: it is what is printed", ended(place.text()) == printed)
