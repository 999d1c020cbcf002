"""Judges the output of one server's clients by the printed history, and by docs/ (plain_world.py).

Each reply is right in the world of the version that it names. Each entry of the history is the accepted line of one
session, and was answered once. Each session reads the notices that its player hears, each once, in order, and misses
none.
"""
import re
from collections import defaultdict

from harness.plain_world import REFUSALS, Unknown, World, decide
from harness.session import FULL, WELCOME, Reading

QUESTIONS = ("look", "l", "inventory", "inv", "i", "@key", "route", "meet", "proof", "@version", "quit")


def entries_of(history):
    """Returns the desk and the change of each entry of a history's text, or None if it is not whole."""
    lines = history.split("\n")
    found = [re.fullmatch(r"([0-9]+) ([0-9]+) (.*)", line) for line in lines[1:-2]]
    if lines[0] != "mud history 2" or lines[-2:] != [f"end {len(found)}", ""] or not all(found):
        return None
    if [int(it[1]) for it in found] != list(range(1, len(found) + 1)):
        return None
    return [(int(it[2]), it[3]) for it in found]


class Judge:
    """Goes through a history once, and compares each answer with the world of its version."""

    def __init__(self, entries, sessions, capacity=65_536, loaded=0):
        self.entries, self.capacity, self.loaded = entries, capacity, loaded
        self.readings = [Reading(session) for session in sessions]
        self.faults = [f"session {at}: {it}" for at, one in enumerate(self.readings, 1) for it in one.faults]
        self.claims, self.answers = {}, defaultdict(list)
        # the versions from which and up to which a session hears as a player; the next one to begin is last
        spans = ((*span, reading) for reading in self.readings for span in reading.spans)
        self.to_come, self.hearing = sorted(spans, key=lambda span: -span[0]), []
        self.sort_out()
        self.judge_desks()
        self.go_through()

    def fault(self, reading, text):
        self.faults.append(f"session {self.readings.index(reading) + 1}: {text}")

    def sort_out(self):
        """Separates the replies that accept an entry from the answers in a world."""
        arrivals = []
        for reply in (it for reading in self.readings for it in reading.replies):
            text, version = reply.lines[0], reply.version
            if version is None:
                if text == FULL:
                    self.answers[self.capacity].append(reply)
            elif not self.loaded < version <= len(self.entries) or text in REFUSALS.values() or self.asks(reply.line):
                self.answers[version].append(reply)
            elif WELCOME.fullmatch(text):
                arrivals.append(reply)
            else:
                self.claim(reply)
        self.sort_out_arrivals(arrivals)

    def sort_out_arrivals(self, arrivals):
        """Finds the welcome of a new player. It may belong to a session that connected with this very change, at
        another desk."""
        for reply in sorted(arrivals, key=lambda it: it.session.desk is None):
            desk, change = self.entries[reply.version - 1]
            is_new = change.startswith("player ") and reply.lines[0] == f"welcome {change.split(' ')[1]}"
            if is_new and reply.version not in self.claims and reply.session.desk in (None, desk):
                self.claim(reply)
            else:
                self.answers[reply.version].append(reply)

    @staticmethod
    def asks(line):
        """Returns whether the line is a question."""
        return line.split(" ", 1)[0].lower() in QUESTIONS

    def claim(self, reply):
        """Claims an entry as the accepted line of this session."""
        if reply.version in self.claims:
            self.fault(reply.session, f"{reply.line!r} is accepted as {reply.version}, and so is another line")
        self.claims[reply.version] = reply
        desk = self.entries[reply.version - 1][0]
        if reply.session.desk not in (None, desk):
            self.fault(reply.session, f"{reply.version} is at desk {desk}, and not {reply.session.desk}")
        reply.session.desk = desk

    def judge_desks(self):
        """Checks that of two sessions at one desk, one is over before the other's first change."""
        spans = defaultdict(list)
        for reading in self.readings:
            own = [version for version, reply in self.claims.items() if reply.session is reading]
            if own:
                spans[reading.desk].append((min(own), max(own)))
        sorted_spans = {desk: sorted(found) for desk, found in spans.items()}
        self.faults += [
            f"desk {desk} had two sessions at once" for desk, found in sorted_spans.items()
            if any(one[1] > other[0] for one, other in zip(found, found[1:]))
        ]

    def go_through(self):
        """Goes through the worlds of the history, in order."""
        world = World()
        for version, (_, change) in enumerate(self.entries):
            self.judge_answers(world, version)
            self.judge_change(world, version + 1)
            world.apply(change)
        self.judge_answers(world, len(self.entries))
        self.judge_rest()

    def judge_rest(self):
        """Judges the answers in no world of the history."""
        for reply in (it for replies in self.answers.values() for it in replies):
            self.fault(reply.session, f"{reply.line!r} is answered at {reply.version}, beyond the history")

    def judge_answers(self, world, version):
        """Judges all answers in this world."""
        for reply in self.answers.pop(version, []):
            self.judge_answer(world, reply)

    def judge_answer(self, world, reply):
        """Judges an answer in this world."""
        kind, what = decide(world, reply.player, reply.line)
        wanted = {
            "change": [FULL],
            "become": [f"welcome #{what}"],
            "asked": what,
            "refused": [what],
        }[kind]
        given = reply.lines[:1] if wanted == ["proof"] else reply.lines
        if given != wanted and not (reply.is_cut() and given == wanted[: len(given)]):
            self.fault(reply.session, f"{reply.line!r} is answered {given} at {reply.version}, and not {wanted}")

    def judge_change(self, world, version):
        """Judges the change of this version before it is made: its reply, and its notices."""
        change = self.entries[version - 1][1]
        self.judge_claim(world, version, change)
        self.judge_notices(world, version, change)

    def judge_claim(self, world, version, change):
        """Judges the reply."""
        reply = self.claims.get(version)
        if reply is not None:
            decided = decide(world, reply.player, reply.line)
            if decided != ("change", change) or reply.lines != [world.reply(change)]:
                self.fault(reply.session, f"{reply.line!r} is answered {reply.lines} at {version}: {change}")
        elif version > self.loaded and not self.is_of_a_broken(world, change):
            self.faults.append(f"{version} ({change}) was answered to nobody")

    def judge_notices(self, world, version, change):
        """Judges the notices."""
        reply = self.claims.get(version)
        self.hearing = self.hearing_at(version)
        for _, _, player, reading in self.hearing:
            is_own = reply is not None and reply.session is reading
            wanted = None if is_own else world.heard(change, player)
            if reading.heard.get(version) != wanted:
                self.fault(reading, f"of {version} it hears {reading.heard.get(version)!r}, and not {wanted!r}")

    def hearing_at(self, version):
        """Returns the sessions that hear of this version: those with the same player before it and at it."""
        while self.to_come and self.to_come[-1][0] < version:
            self.hearing.append(self.to_come.pop())
        return [span for span in self.hearing if version <= span[1]]

    def is_of_a_broken(self, world, change):
        """Returns whether the change belongs to a line whose answer was lost with its session; each such line counts
        once."""
        for reading in self.readings:
            if self.may_change(world, reading) and decide(world, reading.player, reading.left) == ("change", change):
                reading.left = None
                return True
        return False

    def may_change(self, world, reading):
        """Returns whether the line whose answer was lost with its session may make a change in this world."""
        is_lost = reading.left is not None and reading.session.is_broken and not self.asks(reading.left)
        return is_lost and (reading.player is None or reading.player in world.all)


def judge(history, sessions, **more):
    """Returns the faults, as texts; a line of an unknown kind is one too."""
    entries = entries_of(history)
    if entries is None:
        return ["what was printed is no whole history"], []
    try:
        found = Judge(entries, sessions, **more)
    except Unknown as unknown:
        return [f"not known here: {unknown}"], []
    return found.faults, [proof for reading in found.readings for proof in reading.proofs()]
