"""A server with a journal is killed while many play, by Telnet and on the web, again and again. In every second round
the bytes after the synced part are then cut at any byte and get holes of zeros, as a crash of the system may leave
them. Every version that a client read about must then be in the journal, with its text. The next server continues the
journal."""
import os
import random
import re
import threading
import time

from harness.inputs import read
from harness.journal import Place, ended
from harness.parts import part
from harness.preload import library
from harness.server import Client
from harness.web import WebServer

REPLY = re.compile(rb"\[(\d+)\] said")
HEARD = re.compile(rb'\((\d+)\) \w+ says, "(.*)"')
NAMED = re.compile(rb"[\[(](\d+)[\])] ")
# The length of a round in seconds; the number of lines that a client sends at once.
ROUND_SECONDS, BURSTS = (0.3, 1.0), (1, 3)
# The length of a hole that a crash leaves, and the number of zeros at the end.
HOLE_BYTES, ZEROS = 8, (0, 0, 100, 5000)


class Told:
    """The versions that clients read about, each with its text, or None if no text was read."""

    def __init__(self):
        self.texts, self.lock = {}, threading.Lock()

    def add(self, version, text=None):
        with self.lock:
            self.texts[version] = text or self.texts.get(version)

    def lost(self, entries):
        """Returns the versions that the entries lack, or have with another text."""
        return [version for version, text in self.texts.items() if not stands(entries, version, text)]


def stands(entries, version, text):
    """Returns whether there is such a version, with this text if one was read."""
    if version > len(entries):
        return False
    number, _, kind, *rest = entries[version - 1].split(b" ", 4)
    return int(number) == version and (text is None or (kind, rest[1:]) == (b"say", [text]))


class Player(threading.Thread):
    """A client that says things, some at once, and notes what it reads, until its connection ends."""

    def __init__(self, client, name, told):
        super().__init__(daemon=True)
        self.client, self.name_said, self.told = client, name, told
        self.unanswered, self.count = [], 0

    def say(self):
        """Says something, once or a few times at once."""
        texts = [b"%s %d" % (self.name_said, self.count + at) for at in range(random.choice(BURSTS))]
        self.count += len(texts)
        self.unanswered += texts
        self.client.send_all([b"say %s" % text for text in texts])

    def note(self, line):
        """Notes the version in a line."""
        if reply := REPLY.fullmatch(line):
            self.told.add(int(reply[1]), self.unanswered.pop(0))
        elif heard := HEARD.fullmatch(line):
            self.told.add(int(heard[1]), heard[2])
        elif named := NAMED.match(line):
            self.told.add(int(named[1]))

    def run(self):
        try:
            self.client.send(b"connect %s" % self.name_said)
            while (line := self.client.line()) is not None:
                self.note(line)
                if line.startswith(b"[") and not self.unanswered:
                    self.say()
        except OSError:
            pass
        self.client.close()


def entries_of(text):
    """Returns the complete lines of a journal's entries, before the first zero byte."""
    return text.partition(b"\0")[0].split(b"\n")[1:-1]


def play_and_kill(place, clients, told, environment):
    """Plays a round: a server continues the journal, the clients play, every second one on the web, and it is killed.
    Returns why it did not start, or nothing."""
    with WebServer("--journal", place.path, environment=environment) as server:
        if server.port is None:
            return f"it does not start: {server.said()}"
        dial = [Client, server.come]
        players = [Player(dial[number % 2](server.port), b"P%d" % number, told) for number in range(clients)]
        for player in players:
            player.start()
        time.sleep(random.uniform(*ROUND_SECONDS))
        server.kill()
        for player in players:
            player.join()
    return ""


def cut(place, note):
    """Cuts the journal at any byte after the synced part, replaces some bytes there by zeros, and appends some."""
    synced, text = int(read(note) or 0), place.text()
    left = bytearray(text[:random.randint(synced, len(text))] + bytes(random.choice(ZEROS)))
    for at in range(synced, len(left), HOLE_BYTES):
        if random.random() < 0.5:
            left[at:at + HOLE_BYTES] = bytes(len(left[at:at + HOLE_BYTES]))
    with open(place.path, "wb") as file:
        file.write(left)


def why_lost(place, at, clients, told):
    """Returns what went wrong in a round, or nothing if every version that was read is there."""
    note = os.path.join(place.folder.name, "note")
    environment = {"LD_PRELOAD": library("note_syncs"), "SYNC_NOTE": note} if at % 2 else {}
    if why := play_and_kill(place, clients, told, environment):
        return why
    if environment:
        cut(place, note)
    lost = told.lost(entries_of(place.text()))
    return f"lost: {sorted(lost)[:5]} of {len(told.texts)}" if lost else ""


def why_no_end(place):
    """Returns what went wrong if the last server is stopped, or nothing if it prints its journal."""
    with place.server(console=True) as server:
        server.type(b"stop\n")
        given = server.end()
    return "" if given == (0, ended(place.text())) else f"status {given[0]}, {given[1][-200:]}"


def crashes(count, rounds, clients):
    """Plays this many rounds over one journal, and ends in order."""
    told = Told()
    with Place() as place:
        for at in range(rounds):
            why = why_lost(place, at, clients, told)
            count(f"crash: round {at + 1}", not why, why)
        why = why_no_end(place)
        count("crash: the last server is stopped", not why, why)
    count("crash: as many versions were told as there were rounds", len(told.texts) >= rounds, f"{len(told.texts)}")


@part("crash", "what anybody was told stands in the journal of a killed server", words="[ROUNDS [CLIENTS]]")
def crash(count, rounds="4", clients="8"):
    crashes(count, int(rounds), int(clients))


@part("crash-everywhere", "crash in 60 rounds with 16 clients", on_demand=True)
def crash_everywhere(count):
    crashes(count, 60, 16)
