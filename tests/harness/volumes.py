"""A server with a journal turns to its next volume while many play, by Telnet and on the web. Nobody is dropped, each
line is answered once and in order, and each notice is heard once and in order. Each version that anybody read about
stands in the file of its volume. The expected numbers are those of the lines that the clients sent.

docs/SERVER.md, "Volumes", has the rule for versions: one belongs to the volume that was told last on its connection.
"""
import collections
import os
import random
import re
import subprocess
import tempfile
import threading
import time
from concurrent.futures import ThreadPoolExecutor

from harness.crash import entries_of, stands
from harness.guests import is_soon
from harness.inputs import read
from harness.journal import Place, ended, refused
from harness.keep import kept
from harness.parts import part
from harness.preload import library
from harness.recipes import blocks
from harness.server import Client
from harness.web import WebServer

VOLUME = re.compile(rb"\(volume (\d+)\)")
REPLY = re.compile(rb"\[(\d+)\] said")
HEARD = re.compile(rb'\((\d+)\) P(\d+) says, "(\d+)"')
TURN = re.compile(r"turn volume=(\d+) changes=(\d+) was=(\d+) sessions=(\d+) pause-ms=(\d+)")
GOES_ON = re.compile(rb"goes on at version (\d+)\n")
# The longest time for a line, in seconds: a plain program turns slowly.
SECONDS = 60
BATCH = 5
# The length of a round before a kill, in seconds.
ROUND_SECONDS = (0.5, 3)
# The messages of a server that does not start, or whose journal has failed.
FAULTS = re.compile(rb"(ok\n)*mud_serve: (cannot open journal: .*|journal fault.*)\n(ok\n)*")
# The trouble with a call for a file, and its sentence.
KINDS = (("FAILED_CALL", "each call of a turn fails"), ("ENDING_CALL", "killed before each call of a turn"),
         ("POWER", "the power fails before each call of a turn"))


class Told:
    """The versions of each volume that clients read about, each with its text, or None if no text was read."""

    def __init__(self):
        self.texts, self.lock = {}, threading.Lock()

    def add(self, place, text=None):
        with self.lock:
            self.texts[place] = text or self.texts.get(place)

    def lost(self, entries):
        """Returns the volumes and versions that the entries of the volumes lack, or have with another text."""
        return [place for place, text in self.texts.items()
                if not stands(entries.get(place[0], []), place[1], text)]


class Player(threading.Thread):
    """A client that says numbers, some at once, and notes what it reads, until it has read all that it wants: an answer
    to each of its lines, and this many notices of others."""

    def __init__(self, client, number, lines, wanted, told):
        super().__init__(daemon=True)
        self.client, self.number, self.lines, self.wanted, self.told = client, number, lines, wanted, told
        self.volume, self.last, self.volumes = 1, 0, []
        self.said, self.answered, self.heard, self.faults, self.longest = 0, 0, {}, [], 0.0
        self.others = []

    def connect(self):
        """Connects by its name, and waits until it is let in."""
        self.client.send(b"connect P%d" % self.number)
        while (line := self.client.line()) is not None and b"welcome" not in line:
            self.note(line)

    def say(self):
        """Says the next numbers at once; by Telnet the batch is cut within a line."""
        numbers = range(self.said, min(self.said + BATCH, self.lines))
        self.said = numbers.stop
        lines = [b"say %d" % number for number in numbers]
        self.sent = time.monotonic()
        if not isinstance(self.client, Client):
            self.client.send_all(lines)
            return
        text = b"".join(line + b"\r\n" for line in lines)
        at = random.randrange(len(text))
        self.client.give(text[:at])
        self.client.give(text[at:])

    def is_next(self, version):
        """Notes that a version comes after those that were told before."""
        if version <= self.last:
            self.faults.append(f"version {version} of volume {self.volume} after {self.last}")
        self.last = version

    def note(self, line):
        """Notes what a line tells."""
        if volume := VOLUME.fullmatch(line):
            self.volumes.append(int(volume[1]))
            self.volume, self.last = int(volume[1]), 0
        elif reply := REPLY.fullmatch(line):
            self.is_next(int(reply[1]))
            self.told.add((self.volume, int(reply[1])), b"%d" % self.answered)
            self.answered += 1
            self.longest = max(self.longest, time.monotonic() - self.sent)
        elif heard := HEARD.fullmatch(line):
            self.is_next(int(heard[1]))
            self.told.add((self.volume, int(heard[1])), heard[3])
            self.heard.setdefault(int(heard[2]), []).append(int(heard[3]))
        else:
            self.others.append(line)

    def has_all(self):
        return self.answered == self.lines and sum(map(len, self.heard.values())) >= self.wanted

    def run(self):
        try:
            while not self.has_all():
                if self.answered == self.said < self.lines:
                    self.say()
                line = self.client.line()
                if line is None:
                    self.faults.append("the connection ended")
                    return
                self.note(line)
        except OSError as error:
            self.faults.append(f"{error!r}")

    def why(self, players):
        """Returns what is wrong with what it read, or nothing."""
        faults = list(self.faults[:3])
        if self.answered != self.lines:
            faults.append(f"{self.answered} of {self.lines} lines answered")
        for other in players:
            wanted = list(range(other.lines)) if other is not self else []
            if (got := self.heard.get(other.number, [])) != wanted:
                faults.append(f"of P{other.number} heard {len(got)} of {len(wanted)}, in order: {got == sorted(got)}")
        if self.volumes != list(range(2, 2 + len(self.volumes))):
            faults.append(f"volumes {self.volumes}")
        return f"P{self.number}: {'; '.join(faults[:4])}" if faults else ""


class Comer(Player):
    """A player who connects in its own thread, and plays until its connection ends."""

    def run(self):
        try:
            self.connect()
        except OSError:
            return
        super().run()


class Shelf(Place):
    """A folder with a journal and its volumes."""

    def files(self):
        """Returns the paths of the volumes, by number."""
        names = {1: self.path}
        for name in os.listdir(self.folder.name):
            front, _, number = name.rpartition(".")
            if front == os.path.basename(self.path) and number.isdecimal():
                names[int(number)] = os.path.join(self.folder.name, name)
        return {number: names[number] for number in sorted(names) if os.path.exists(names[number])}

    def entries(self):
        """Returns the entries of each volume."""
        return {number: entries_of(read(path)) for number, path in self.files().items()}

    def names(self):
        return sorted(os.listdir(self.folder.name))

    def web_server(self, *words, **how):
        return WebServer("--journal", self.path, *words, **how)


def play(server, clients, lines, told, silent=1):
    """Plays: each of this many clients says this many lines, every second one on the web, and silent ones listen.
    Returns the players, who have ended."""
    dial = [lambda port: Client(port, SECONDS), lambda _: server.dial(seconds=SECONDS)]
    wanted = clients * lines
    players = [Player(dial[number % 2](server.port), number, lines, wanted - lines, told)
               for number in range(clients)]
    players += [Player(dial[number % 2](server.port), clients + number, 0, wanted, told) for number in range(silent)]
    for player in players:
        player.connect()
    for player in players:
        player.start()
    for player in players:
        player.join()
    return players


def why_no_chain(files):
    """Returns what is wrong with volumes, or nothing if each continues the one before it."""
    for number in list(files)[1:]:
        status, told, errors = kept("chain", read(files[number - 1]), "--journal", "-", files[number])
        if status != 0 or not GOES_ON.fullmatch(told):
            return f"volume {number}: {status} {told} {errors}"
    return ""


def why_lost_in_play(clients, lines, capacity, turns):
    """Returns what went wrong if clients play over turns, or nothing."""
    told = Told()
    with Shelf() as shelf:
        with shelf.web_server("--capacity", str(capacity), console=True) as server:
            players = play(server, clients, lines, told)
            faults = [why for player in players if (why := player.why(players))]
            found = [TURN.fullmatch(line) for line in server.logged()]
            for player in players:
                player.client.close()
            server.type(b"stop\n")
            given = server.end(SECONDS)
        made = [int(turn[1]) for turn in found if turn]
        files = shelf.files()
        if made != list(range(2, 2 + len(made))) or len(made) < turns or list(files) != [1, *made]:
            faults.append(f"turns {made}, files {shelf.names()}")
        if given != (0, ended(read(list(files.values())[-1]))):
            faults.append(f"status {given[0]}, printed {len(given[1])} bytes")
        if lost := told.lost(shelf.entries()):
            faults.append(f"lost: {lost[:5]} of {len(told.texts)}")
        if why := why_no_chain(files):
            faults.append(why)
    return "; ".join(faults[:6])



# ---- one client, and the host's word


class Ann(Client):
    """A client that plays as Ann, says things, and notes the versions that it reads."""

    def __init__(self, server, told, volume=1):
        super().__init__(server.port, SECONDS)
        self.told, self.volume, self.count, self.read = told, volume, 0, []

    def line(self):
        line = super().line()
        self.read.append(line)
        if line is not None and (volume := VOLUME.fullmatch(line)):
            self.volume = int(volume[1])
        return line

    def last(self):
        """Returns the last line that was read."""
        return next((line for line in reversed(self.read) if line is not None), None)

    def connect(self):
        """Connects. Returns the last line."""
        self.send(b"connect Ann")
        return self.until(re.compile(rb".*(welcome|fault).*"))

    def until(self, wanted):
        """Reads to a line that matches, or to the end. Returns it."""
        while (line := self.line()) is not None and not wanted.fullmatch(line):
            pass
        return line

    def say(self, count, more=b""):
        """Says things, one after the other. Returns the last line, or None at the end."""
        line = b""
        for _ in range(count):
            text, self.count = b"thing %d%s" % (self.count, more), self.count + 1
            self.send(b"say " + text)
            line = self.until(re.compile(rb"\[.*|\(.*fault\)|\(history full\)"))
            if line is None or not (reply := REPLY.fullmatch(line)):
                return line
            self.told.add((self.volume, int(reply[1])), text)
        return line


def is_turned(server, seconds=SECONDS):
    """Waits until the last request for a volume was done or called off. Returns the line of the log about it."""
    end = time.monotonic() + seconds
    while time.monotonic() < end and server.process.poll() is None:
        for line in server.logged():
            if line.startswith(("turn ", "same ", "no-turn", "large-world")):
                return line
        time.sleep(0.02)
    return None


def is_logged(server, front):
    """Waits until the log has a line with this beginning. Returns whether it has."""
    return is_soon(lambda: any(each.startswith(front) for each in server.logged()), seconds=SECONDS)


def turn(server):
    """Types the word at the console, and waits for the turn. Returns the line of the log."""
    try:
        server.type(b"volume\n")
    except OSError:
        return None
    return is_turned(server)


def why_half_typed():
    """A line that is half typed at a turn is finished after it, and what waits for its rate is answered in order."""
    told = Told()
    with Shelf() as shelf, shelf.server("--lines-per-second", "4", console=True, limited=True) as server:
        ann = Ann(server, told)
        ann.connect()
        ann.send_all([b"say %d" % number for number in range(60)])
        ann.give(b"say ha")
        while len(ann.read) < 20:
            ann.line()
        turn(server)
        ann.give(b"lf\r\n")
        while sum(1 for line in ann.read if REPLY.fullmatch(line or b"")) < 61:
            if ann.line() is None:
                return f"the connection ended after {len(ann.read)} lines"
        server.type(b"stop\n")
        server.end(SECONDS)
        logged = server.logged()
        entries, begun = shelf.entries(), next(int(found[2]) for line in logged if (found := TURN.fullmatch(line)))
        said = [entry.split(b" ", 4)[4] for entry in [*entries[1], *entries[2][begun:]] if b" say " in entry]
        right = [b"%d" % number for number in range(60)] + [b"half"]
        return "" if said == right and ann.read.count(b"(volume 2)") == 1 else f"{said}, {ann.read[-3:]}"


def why_newcomer():
    """A newcomer reads the number of a later volume after the greeting, and in the first volume nothing."""
    with Shelf() as shelf:
        with shelf.web_server(console=True) as server:
            for volume in (1, 2):
                for client in (Client(server.port, SECONDS), server.dial(seconds=SECONDS)):
                    client.send(b"look")
                    lines = [client.line() for _ in range(volume + 1)]
                    if lines[1:-1] != [b"(volume 2)"][:volume - 1] or not lines[-1].startswith(b"[0] "):
                        return f"in volume {volume}: {lines}"
                    client.close()
                if volume == 1 and not (turn(server) or "").startswith("turn volume=2"):
                    return f"no turn: {server.logged()}"
        with shelf.server() as server:
            client = Client(server.port)
            client.send(b"look")
            lines = [client.line() for _ in range(2)]
            client.close()
            return "" if lines[1] == b"(volume 2)" else f"after a start: {lines}"


def why_slow_reader(by_web):
    """A player who reads nothing holds up no turn, and then reads all of it, whole and in order."""
    told = Told()
    with Shelf() as shelf, shelf.web_server(console=True) as server:
        ann, mute = Ann(server, told), server.dial(seconds=SECONDS) if by_web else Client(server.port, SECONDS)
        ann.connect()
        ann.say(200, b"x" * 700)
        asked = 100
        mute.send(b"connect Mute")
        mute.send_all([b"@history"] * asked)
        time.sleep(1)
        began = time.monotonic()
        line = turn(server)
        ann.say(1)
        took = time.monotonic() - began
        whole, volume, lines = 0, 1, []
        while whole < asked:
            line_read = mute.line()
            if line_read is None:
                return f"the connection ended after {whole} histories"
            if line_read == b"(volume 2)":
                volume += 1
            elif line_read.startswith(b"end "):
                whole += 1
            lines.append(line_read)
        is_right = volume == 2 and (line or "").startswith("turn volume=2") and took < 20
        return "" if is_right else f"{line}, {took:.1f} s, volume {volume}"


def why_large():
    """If a world takes most of a volume by itself, the log and the status say so, the log once, and the server does not
    turn."""
    with Shelf() as shelf, shelf.server("--capacity", "32", console=True) as server:
        ann = Ann(server, Told())
        ann.connect()
        for number in range(40):
            ann.send(b"@create box%d" % number)
            if ann.until(re.compile(rb"\[.*|\(history full\)")) == b"(history full)":
                break
        else:
            return "the history is never full"
        server.type(b"status\n")
        ann.say(1)
        time.sleep(0.5)
        logged = server.logged()
        large = [line for line in logged if line.startswith("large-world")]
        turns = [line for line in logged if line.startswith("turn ")]
        status = server.said()
        is_right = len(large) == 1 and not turns and re.search(rb"^changes_taken [1-9]", status, re.M)
        return "" if is_right and list(shelf.files()) == [1] else f"{large}, {turns}, {status}, {shelf.names()}"


# ---- crashes and faults


def played(server, told, volume):
    """Plays with a turn in the middle: a client says things, the host requests the next volume, and the client says
    more. Returns the line of the log about the turn, and the client's last line."""
    ann, line = Ann(server, told, volume), None
    if ann.connect() is not None and ann.say(4) is not None:
        line = turn(server)
        ann.say(4)
    ann.close()
    return line, ann.last()


def why_not_continued(shelf, told):
    """Returns what went wrong if another server continues, or nothing if it has all that was told, and turns."""
    if lost := told.lost(shelf.entries()):
        return f"lost: {lost} of {sorted(told.texts)}, {shelf.names()}"
    before = max(shelf.files(), default=1)
    with shelf.server(console=True) as server:
        if server.port is None:
            return f"the next does not start: {server.said()}"
        if any(name.endswith(".new") for name in shelf.names()):
            return f"the next leaves {shelf.names()}"
        line, last = played(server, told, before)
        server.type(b"stop\n")
        status, _ = server.end(SECONDS)
    if not (line or "").startswith(f"turn volume={before + 1} ") or status or not REPLY.fullmatch(last or b""):
        return f"the next one: {line}, {last}, status {status}"
    if lost := told.lost(shelf.entries()):
        return f"lost by the next one: {lost}"
    return why_no_chain(shelf.files())


def trial(shelf, told, environment, is_turning=True):
    """Runs a server with this environment, and a turn unless `is_turning` is false. Returns its status, its message,
    the line of the log about the turn, and the last line of its player."""
    with shelf.server(console=True, environment=environment) as server:
        line, last = None, None
        if server.port is not None and is_turning:
            line, last = played(server, told, 1)
        elif server.port is not None:
            ann = Ann(server, told)
            ann.connect()
            ann.say(4)
            last = ann.last()
            ann.close()
        try:
            server.type(b"stop\n")
        except OSError:
            pass
        status, _ = server.end(SECONDS)
        return status, server.said(), line, last


def calls_of(is_turning):
    """Returns the number of calls for files of a run, with a turn or without one."""
    with tempfile.NamedTemporaryFile() as counted, Shelf() as shelf:
        trial(shelf, Told(), {"LD_PRELOAD": library("fail_files"), "CALLS_FILE": counted.name}, is_turning)
        return int(read(counted.name).split()[0])


def why_not_told(status, said, line, last):
    """Returns what went wrong after a failed call, or nothing. The server goes on, in the same volume or in the next
    one, or its journal has failed. Then it says so, also to its player."""
    if status == 0:
        return "" if REPLY.fullmatch(last or b"") else f"status 0, told last {last}, {line}"
    if b"cannot open journal" in said:
        wanted = None
    else:  # the second `ok` is for the stop, when the player has left
        wanted = last if said.count(b"ok\n") == 2 else b"(journal fault)"
    right = status == 3 and FAULTS.fullmatch(said) and last == wanted
    return "" if right else f"status {status}, {said}, told last {last}, {line}"


def why_call_matters(kind, call):
    """Returns what goes wrong if this call fails, or is the one before which the server is killed or the power fails,
    or nothing."""
    told = Told()
    with Shelf() as shelf:
        environment = {"LD_PRELOAD": library("fail_files"), kind: str(call)}
        note = os.path.join(shelf.folder.name, "note")
        if kind == "POWER":
            libraries = f"{library('fail_files')}:{library('lose_pages')}"
            environment = {"LD_PRELOAD": libraries, "ENDING_CALL": str(call), "PAGES_NOTE": note}
        given = trial(shelf, told, environment)
        if kind == "FAILED_CALL" and (why := why_not_told(*given)):
            return why
        if os.path.exists(note):
            lose_power(shelf, note)
        return why_not_continued(shelf, told)


def each_call(count, kind, what, first, last):
    """Has each of these calls for files fail, or has the server killed before it."""
    wrong = [f"call {call}: {why}" for call in range(first, last + 1) if (why := why_call_matters(kind, call))]
    print(f"volumes: {what}: {last + 1 - first} runs, {len(wrong)} wrongly", flush=True)
    count(f"volumes: {what}", not wrong and first < last, "; ".join(wrong[:4]))


def why_called_off():
    """A turn that can't be made is called off, and players are told nothing; once it can be made, it is. A folder has
    the name of the file for the next volume, so that file can't be made."""
    told = Told()
    with Shelf() as shelf:
        with shelf.server(console=True) as server:
            os.mkdir(shelf.path + ".new")
            ann = Ann(server, told)
            ann.connect()
            ann.say(4)
            first = turn(server) and is_logged(server, "same volume=1 changes=5 ")
            last = ann.say(4)
            right = [b"[%d] said" % version for version in range(2, 10)]
            if not first or last != right[-1] or ann.read[2:] != right or list(shelf.files()) != [1]:
                return f"{server.logged()}, {ann.read}, {shelf.names()}"
            os.rmdir(shelf.path + ".new")
            server.type(b"volume\n")
            if not is_logged(server, "turn volume=2 "):
                return f"no turn later: {server.logged()}"
            ann.say(1)
            server.type(b"stop\n")
            server.end(SECONDS)
        if ann.volume != 2 or len([line for line in server.logged() if line.startswith("no-turn volume=1")]) != 1:
            return f"{ann.read}, {server.logged()}"
        return why_not_continued(shelf, told)


# ---- a second server


def why_second_server():
    """Another server over the same journal is refused while one runs, also if it finds a volume before a turn, and gets
    its lock after it."""
    right = 3, b"", b"mud_serve: cannot open journal: in use\n"
    told = Told()
    with Shelf() as shelf, tempfile.TemporaryDirectory() as folder:
        now, waits = f"{folder}/now", f"{folder}/waits"
        late = {"LD_PRELOAD": library("late_lock"), "LOCK_AFTER": now, "LOCK_WAITS": waits}
        with shelf.server(console=True) as server, ThreadPoolExecutor() as threads:
            other = threads.submit(refused, shelf.path, environment=late, seconds=SECONDS)
            if not is_soon(lambda: os.path.exists(waits), seconds=SECONDS):
                return "the other one locks nothing"
            line, _ = played(server, told, 1)
            at_once = refused(shelf.path)
            with open(now, "wb"):
                later = other.result()
            server.type(b"stop\n")
            server.end(SECONDS)
        if (at_once, later) != (right, right) or not (line or "").startswith("turn volume=2 "):
            return f"{at_once}, {later}, {line}"
        return why_not_continued(shelf, told)


# ---- kills at random moments


def synced_of(note):
    """Returns the synced parts of each file, and the files whose names are not on the disk, by the note of the library
    `lose_pages`."""
    written, kept, unnamed = collections.defaultdict(list), collections.defaultdict(list), set()
    for word, *numbers in (line.split() for line in read(note).decode().splitlines()):
        inode, *span = map(int, numbers or [0])
        if word == "made":
            written[inode], kept[inode] = [], []
        elif word == "write":
            written[inode].append(span)
        elif word == "sync":
            kept[inode] += written.pop(inode, [])
        elif word == "name":
            unnamed.add(inode)
        elif word == "folder":
            unnamed.clear()
    return kept, unnamed


def lose_power(shelf, note):
    """Leaves of each volume what a power failure may leave: the synced bytes, and zeros for some of the others. A
    volume whose name is not on the disk is gone. Volumes of earlier rounds stay as they are."""
    kept, unnamed = synced_of(note)
    for path in shelf.files().values():
        inode, text = os.stat(path).st_ino, read(path)
        if inode in unnamed:
            os.remove(path)
            continue
        if inode not in kept:
            continue
        left = bytearray(random.randint(max([0, *(end for _, end in kept[inode])]), len(text)))
        for begin, end in kept[inode]:
            left[begin:end] = text[begin:end]
        with open(path, "wb") as file:
            file.write(left)
    os.remove(note)


def play_and_kill(shelf, clients, told, capacity, environment):
    """Plays a round over turns: a server continues the last volume, the clients play, every second one on the web, and
    it is killed. Returns why it did not start, or nothing."""
    with shelf.web_server("--capacity", str(capacity), environment=environment) as server:
        if server.port is None:
            return f"it does not start: {server.said()}"
        volume = max(shelf.files(), default=1)
        dial = [lambda port: Client(port, SECONDS), lambda _: server.dial(seconds=SECONDS)]
        players = [Comer(dial[number % 2](server.port), number, 10**6, 0, told) for number in range(clients)]
        for player in players:
            player.volume = volume
            player.start()
        time.sleep(random.uniform(*ROUND_SECONDS))
        server.kill()
        for player in players:
            player.join()
            player.client.close()
    return ""


def crashes(count, rounds, clients, capacity):
    """Plays this many rounds over the volumes of one journal. After every second one the power fails."""
    told = Told()
    with Shelf() as shelf:
        note = os.path.join(shelf.folder.name, "note")
        for at in range(rounds):
            environment = {"LD_PRELOAD": library("lose_pages"), "PAGES_NOTE": note} if at % 2 else {}
            why = play_and_kill(shelf, clients, told, capacity, environment)
            if environment and not why:
                lose_power(shelf, note)
            if not why and (lost := told.lost(shelf.entries())):
                why = f"lost: {lost[:5]} of {len(told.texts)}"
            count(f"volumes: kill {at + 1}", not why, why)
        count("volumes: the chain after kills", not (why := why_no_chain(shelf.files())), why)
        print(f"volumes: {len(shelf.files())} volumes, {len(told.texts)} versions told", flush=True)


# ---- copies


def why_copied():
    """The command of docs/HOSTING.md copies and syncs each volume, the oldest first, and no other file."""
    volumes = ["world.journal", "world.journal.2", "world.journal.10"]
    with tempfile.TemporaryDirectory() as folder:
        os.mkdir(f"{folder}/backup")
        for name in (*volumes, "world.journal.3.gz", "world.journal.new", "sync"):
            with open(f"{folder}/{name}", "w", encoding="ascii") as file:
                file.write('#!/bin/sh\necho "$1" >>synced\n' if name == "sync" else name)
        os.chmod(f"{folder}/sync", 0o700)
        environment = {**os.environ, "PATH": f"{folder}:{os.environ['PATH']}"}
        subprocess.run(["sh", "-c", blocks()["volumes"]], cwd=folder, env=environment, check=True)
        synced = read(f"{folder}/synced").decode().split()
        copied = {name: read(f"{folder}/backup/{name}").decode() for name in os.listdir(f"{folder}/backup")}
        right = synced == [f"backup/{name}" for name in volumes] and copied == {name: name for name in volumes}
        return "" if right else f"{synced} {copied}"


@part("volumes", "a server turns to its next volume, and nobody is dropped or misses anything")
def volumes(count):
    for name, why in (("half a line, and lines that wait", why_half_typed), ("newcomers", why_newcomer),
                      ("a large world", why_large), ("a turn that is called off", why_called_off),
                      ("a second server", why_second_server), ("a copy of all", why_copied)):
        count.tries(f"volumes: {name}", why)
    for entrance, by_web in (("Telnet", False), ("web", True)):
        count.tries(f"volumes: a player who does not read, by {entrance}", why_slow_reader, by_web)
    count.tries("volumes: 24 play over turns", why_lost_in_play, 24, 60, 300, 2)
    before, after = calls_of(False), calls_of(True)
    for kind, what in KINDS:
        each_call(count, kind, what, before - 1, after - 4)
    crashes(count, 4, 6, 100)


@part("volumes-long", "volumes with more clients, each call of a run, and more kills", on_demand=True,
      words="[ROUNDS [CLIENTS [LINES]]]")
def volumes_long(count, rounds="40", clients="30", lines="400"):
    turns = int(clients) * int(lines) // 3_000
    count.tries("volumes: many play over turns", why_lost_in_play, int(clients), int(lines), 3_000, turns)
    for kind, what in KINDS:
        each_call(count, kind, what, 1, calls_of(True))
    crashes(count, int(rounds), 16, 300)
