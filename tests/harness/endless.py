"""A world without an end: clients play over many volumes of one journal, half of them on the web, and the server is
killed at random moments. Most of them say things, each in a room of its own, and ask for certificates. The others are
players of the crowd. Afterwards the volumes are a chain, each version that a client read about is in its volume, the
judge has gone through each volume, and each certificate is accepted with its volume.
"""
import multiprocessing
import os
import random
import re
import threading
import time
from collections import defaultdict
from concurrent.futures import ProcessPoolExecutor, ThreadPoolExecutor

from harness.crash import entries_of
from harness.crowd import Talker
from harness.inputs import read
from harness.journal import ended
from harness.judge import judge
from harness.keep import kept
from harness.parts import part
from harness.proofs import refused
from harness.server import Client
from harness.session import WELCOME, Session
from harness.visit import Visit
from harness.volumes import GOES_ON, SECONDS, TURN, VOLUME, Shelf, why_no_chain
from harness.web_client import WebClient

CLIENTS, TALKERS, IN_ONE = 64, 8, 7
# The number of lines that a client sends at once, and of those after which it asks for a certificate.
BATCH, ASKS = 50, 400
# The seconds of a round before a kill, and between two lines of a player of the crowd.
ROUND_SECONDS, PAUSE = (20, 60), 0.2
SAID = re.compile(rb"\[(\d+)\] said")
PROOF = re.compile(rb"\[(\d+)\] proof")
IN = re.compile(rb"\[\d+\] welcome #(\d+)")
# The judge's words about a change of a client that it does not know.
SOMEBODY = re.compile(r'\d+ \((?:player #\d+ "S\d+"|[a-z]+ #(\d+) .*)\) was answered to nobody')
SHOWN = 4


# ---- those who say things


class Sayer(threading.Thread):
    """A client that says things in its own room until its connection ends. It notes what it was told."""

    def __init__(self, client, number, volume):
        super().__init__(daemon=True)
        self.client, self.number, self.volume, self.last = client, number, volume, 0
        self.told, self.proofs, self.faults, self.count, self.player = [], [], [], 0, None

    def line(self):
        """Returns the next line. Notes the number of a volume, and does not return it."""
        while (line := self.client.line()) is not None:
            found = VOLUME.fullmatch(line)
            if not found:
                return line
            self.volume, self.last = int(found[1]), 0
        raise ConnectionError("the end")

    def answer(self):
        """Returns the first line of the next answer."""
        while not (line := self.line()).startswith((b"[", b"(history full)")):
            pass
        return line

    def ask(self, line):
        self.client.send(line)
        return self.answer()

    def settle(self):
        """Connects, and goes to its room, which it digs if there is none."""
        self.player = int(IN.fullmatch(self.ask(b"connect S%d" % self.number))[1])
        if b"Den%d" % self.number in self.ask(b"look"):
            return
        if not self.ask(b"go den%d" % self.number).endswith(b"Den%d" % self.number):
            self.ask(b"@dig den%d|out to Den%d" % (self.number, self.number))
            self.ask(b"go den%d" % self.number)

    def say(self):
        """Says things at once, and notes the version of each."""
        texts = [b"%d" % at for at in range(self.count, self.count + BATCH)]
        self.count += BATCH
        self.client.send_all([b"say " + text for text in texts])
        for text in texts:
            line = self.answer()
            if not (said := SAID.fullmatch(line)) or int(said[1]) <= self.last:
                self.faults.append(f"S{self.number}: {line} after version {self.last}")
                continue
            self.last = int(said[1])
            self.told.append((self.volume, self.last, text))

    def prove(self):
        """Asks for a way to another's room, and keeps its certificate."""
        line = self.ask(b"proof route to Den%d" % random.randrange(CLIENTS - TALKERS))
        volume, lines = self.volume, []
        if not PROOF.fullmatch(line):
            return
        while lines[-1:] != [b"end"]:
            lines.append(self.line())
        self.proofs.append((volume, b"".join(line + b"\n" for line in lines)))

    def run(self):
        try:
            self.settle()
            while True:
                self.say()
                if self.count % ASKS == 0:
                    self.prove()
        except OSError:
            self.client.close()


def lost_of(told, path):
    """Returns what of the told versions of a volume its file lacks."""
    entries = entries_of(read(path)) if path else []
    return [(version, text) for version, text in told
            if version > len(entries) or not entries[version - 1].endswith(b" " + text)]


def why_lost(sayers, files):
    """Returns what clients were told that the files of the volumes lack."""
    told = defaultdict(list)
    for volume, version, text in (it for sayer in sayers for it in sayer.told):
        told[volume].append((version, text))
    lost = {volume: found for volume, some in told.items() if (found := lost_of(some, files.get(volume)))}
    return [f"volume {volume} lacks {found[:SHOWN]} of {len(found)}" for volume, found in lost.items()]


def say_all(first, volume, port, web, ended_round, files_of, results):
    """Runs some clients in a process of their own until the server ends, every second one on the web."""
    dials = [lambda: Client(port, SECONDS), lambda: WebClient(*web, seconds=SECONDS)]
    sayers = [Sayer(dials[number % 2](), number, volume) for number in range(first, first + IN_ONE)]
    for sayer in sayers:
        sayer.start()
    for sayer in sayers:
        sayer.join()
    ended_round.wait()
    faults = [fault for sayer in sayers for fault in sayer.faults] + why_lost(sayers, files_of())
    proofs = [proof for sayer in sayers for proof in sayer.proofs]
    results.put((sum(len(sayer.told) for sayer in sayers), faults, proofs, {sayer.player for sayer in sayers}))


# ---- players of the crowd


class Wanderer(threading.Thread):
    """A player of the crowd, who plays until the connection ends."""

    def __init__(self, port, dial, seed, volume):
        super().__init__(daemon=True)
        self.visit, self.talker, self.volume = Visit(port, dial), Talker(seed), volume
        self.talker.name = f"{self.talker.name}x"

    def run(self):
        try:
            self.visit.ask(f"connect {self.talker.name}")
            while True:
                time.sleep(self.talker.random.expovariate(1 / PAUSE))
                self.visit.ask(self.talker.line())
        except (OSError, ValueError):
            self.visit.client.close()
        self.visit.session.is_broken = True


def pieces_of(session, volume, begun):
    """Returns the session's part in each volume, by volume. `begun` has the number of changes with which each began."""
    found, piece, rest = {}, Session(), list(session.sent)
    lines = session.read
    if lines[1:2] == [f"(volume {volume})"]:
        lines = [lines[0], *lines[2:]]
    player = None
    for line in lines:
        if turned := VOLUME.fullmatch(line.encode()):
            found[volume], volume = piece, int(turned[1])
            piece = Session(player, begun[volume])
            continue
        piece.read.append(line)
        if line.startswith(("[", "(history full)", "(out of memory)")) and rest:
            piece.sent.append(rest.pop(0))
            welcome = WELCOME.fullmatch(line.partition("] ")[2])
            player = int(welcome[1]) if welcome and piece.sent[-1].startswith("connect") else player
    piece.sent += rest
    piece.is_broken = session.is_broken
    return {**found, volume: piece}


# ---- rounds


class Endless:
    """The rounds of one journal, and their results."""

    def __init__(self, shelf):
        self.shelf, self.changes, self.faults, self.pauses = shelf, 0, [], []
        self.proofs, self.sessions, self.sayers = defaultdict(list), [], set()

    def play(self, seconds):
        """Plays a round, and kills the server after this time."""
        volume = max(self.shelf.files(), default=1)
        results, ended_round = multiprocessing.Queue(), multiprocessing.Event()
        with self.shelf.web_server("--capacity", "65536") as server:
            if server.port is None:
                raise ConnectionError(f"it does not start: {server.said()}")
            web = server.web_port, server.origin
            given = volume, server.port, web, ended_round, self.shelf.files, results
            crowd = [multiprocessing.Process(target=say_all, args=(first, *given))
                     for first in range(0, CLIENTS - TALKERS, IN_ONE)]
            for process in crowd:
                process.start()
            dials = [Client, server.come]
            wanderers = [Wanderer(server.port, dials[seed % 2], seed, volume) for seed in range(TALKERS)]
            for wanderer in wanderers:
                wanderer.start()
            time.sleep(seconds)
            server.kill()
            logged = server.logged()
        self.end(crowd, wanderers, logged, results, ended_round)

    def end(self, crowd, wanderers, logged, results, ended_round):
        """Takes the results of a round."""
        ended_round.set()
        for wanderer in wanderers:
            wanderer.join()
        self.sessions += [(wanderer.visit.session, wanderer.volume) for wanderer in wanderers]
        for _ in crowd:
            changes, faults, proofs, players = results.get(timeout=10 * SECONDS)
            self.changes += changes
            self.faults += faults
            self.sayers |= players
            for volume, proof in proofs:
                self.proofs[volume].append(proof)
        for process in crowd:
            process.join()
        self.pauses += [int(turn[5]) for line in logged if (turn := TURN.fullmatch(line))]


def talk_copied(old, new, version):
    """Returns how many of the last entries of a volume the next one has after this version. The chain goes on at the
    first version with the same world, and talk leaves a world as it is."""
    old, new = ([line.split(b" ", 1)[1] for line in entries_of(read(path))] for path in (old, new))
    after = new[version:]
    begins = (at for at, line in enumerate(old) if [line] == after[:1] and old[at:] == after[:len(old) - at])
    return len(old) - next(begins, len(old))


def begun_of(files):
    """Returns the number of changes with which each volume began."""
    def begun(number):
        old, new = files[number - 1], files[number]
        version = int(GOES_ON.fullmatch(kept("chain", read(old), "--journal", "-", new)[1])[1])
        return number, version + talk_copied(old, new, version)
    with ThreadPoolExecutor(os.cpu_count()) as threads:
        return {1: 0, **dict(threads.map(begun, list(files)[1:]))}


def is_said(fault, sayers):
    """Returns whether the fault is a change of a client that says things, which the judge does not know."""
    found = SOMEBODY.fullmatch(fault)
    return bool(found) and (found[1] is None or int(found[1]) in sayers)


def judged(path, sessions, begun, sayers):
    """Returns the faults that the judge finds in a volume, and the certificates of its players."""
    faults, proofs = judge(ended(read(path)).decode(), sessions, loaded=begun)
    return [fault for fault in faults if not is_said(fault, sayers)], [proof.encode() for proof in proofs]


def refused_of(path, proofs):
    """Returns the certificates that the checker refuses with the text of this volume."""
    return refused(ended(read(path)), proofs)


def judge_all(count, endless):
    """Judges all volumes and certificates."""
    files = endless.shelf.files()
    begun, pieces = begun_of(files), defaultdict(list)
    for session, volume in endless.sessions:
        for at, piece in pieces_of(session, volume, begun).items():
            pieces[at].append(piece)
    with ProcessPoolExecutor() as pool:
        found = {at: pool.submit(judged, files[at], some, begun[at], endless.sayers) for at, some in pieces.items()}
        faults = [f"volume {at}: {fault}" for at, one in found.items() for fault in one.result()[0]]
        for at, one in found.items():
            endless.proofs[at] += one.result()[1]
        checked = [pool.submit(refused_of, files[at], proofs) for at, proofs in endless.proofs.items()]
        wrong = [proof for one in checked for proof in one.result()]
    answers = sum(len(session.sent) for session, _ in endless.sessions)
    print(f"endless: {answers} answers judged, {sum(map(len, endless.proofs.values()))} certificates", flush=True)
    count("endless: what the players of the crowd read", not faults, "; ".join(faults[:SHOWN]))
    count("endless: each certificate is accepted with its volume", not wrong, wrong[:SHOWN])


@part("endless", "64 clients, 5,000,000 changes over 100 volumes, and kills", on_demand=True, words="[TURNS [CHANGES]]")
def endless(count, turns="100", changes="5000000"):
    with Shelf() as shelf:
        run, began = Endless(shelf), time.monotonic()
        while len(shelf.files()) <= int(turns) or run.changes < int(changes):
            run.play(random.uniform(*ROUND_SECONDS))
            print(f"endless: {len(shelf.files())} volumes, {run.changes} changes told, {len(run.faults)} faults, "
                  f"{time.monotonic() - began:.0f} s", flush=True)
        pauses = sorted(run.pauses)
        print(f"endless: {len(pauses)} turns told, a half within {pauses[len(pauses) // 2]} ms, all within "
              f"{pauses[-1]} ms", flush=True)
        count("endless: what was told is kept, in order", not run.faults, "; ".join(run.faults[:SHOWN]))
        count("endless: the chain of volumes", not (why := why_no_chain(shelf.files())), why)
        judge_all(count, run)
