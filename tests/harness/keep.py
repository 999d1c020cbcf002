"""mud_keep over random histories of all kinds of change, judged by the plain world. Its table is the world, and the
history recovered from a cut journal has the complete lines. A shorter history is legal, no longer, without talk, and of
the same world. A map has the rooms and exits."""
import random
import re
import resource
import shutil
import subprocess
import tempfile
import time

from harness.inputs import read
from harness.parts import Skipped, part
from harness.plain_world import LAST, World, key_of, objects, printed, spelled
from harness.programs import TOP, program
from harness.server import Server
from harness.visit import Visit

SECONDS = 120
SEEDS = 40
CHANGES = 300
MOST = 65536
# The memory that it may use while it shortens.
MEMORY = 200_000_000
WORDS = ("ada", "box", "cup", "den", "elm", "fig", "gem", "hat", "ink", "jar")


def numbers_of(rest):
    """Returns the numbers of the objects in a change, except those in names."""
    return [int(it) for it in re.findall(r"#([0-9]+)", "".join(rest.split('"')[::2]))]


class Kept(World):
    """A world that knows each kind of change, and whether one is legal."""

    def owns(self, actor, number):
        return number in self.all and (actor == 1 or self.all[number].owner == actor)

    def is_kind(self, number, *kinds):
        return number in self.all and self.all[number].kind in kinds

    def is_free(self, names, other=None):
        taken = {name.lower() for it in self.players if it != other for name in self.all[it].names}
        return not taken & {name.lower() for name in names}

    def fits(self, change):
        """Returns whether the change is legal."""
        word, actor, rest = change.split(" ", 2)
        actor, numbers = int(actor[1:]), numbers_of(rest) if word not in ("say", "emote") else []
        if word == "player":
            return actor == self.next <= LAST and self.is_free([rest.strip('"')])
        return self.is_kind(actor, "player") and getattr(self, f"fits_{word}")(actor, rest, numbers)

    def fits_say(self, *_):
        return True

    fits_emote = fits_say

    def fits_dig(self, _, rest, numbers):
        count = rest.count('"') // 2
        return self.next + count <= LAST + 1 and (rest.startswith("new") or self.is_kind(numbers[0], "room"))

    def fits_make(self, *_):
        return self.next <= LAST

    def fits_lock(self, actor, rest, numbers):
        object_, key = numbers[0], key_of(rest.split(" ", 1)[1], lambda it: int(it[1:]))
        if not self.is_kind(object_, "room", "exit", "thing") or not self.owns(actor, object_):
            return False
        keys = {it: one.key for it, one in self.all.items() if one.key} | {object_: key}
        known = all(number in self.all for _, number in objects(key))
        return known and all(self.nests(it, 3, keys) for it in keys)

    def fits_unlock(self, actor, _, numbers):
        return self.is_kind(numbers[0], "room", "exit", "thing") and self.owns(actor, numbers[0])

    def fits_move(self, actor, _, numbers):
        thing, to = numbers
        if not self.is_kind(thing, "thing") or not self.is_kind(to, "room", "thing", "player"):
            return False
        here = self.all[actor].place
        if not self.in_reach(actor, thing) or self.all[thing].place == to:
            return False
        near = self.is_kind(to, "player") and self.all[to].place == here
        if not (to in (actor, here) or near or (self.is_kind(to, "thing") and self.in_reach(actor, to))):
            return False
        return not self.within(to, thing) and self.unlocked(to, thing) and self.unlocked(thing, to)

    def fits_walk(self, actor, _, numbers):
        exit_ = numbers[0]
        if not self.is_kind(exit_, "exit") or self.all[exit_].source != self.all[actor].place:
            return False
        return self.unlocked(exit_, actor) and self.unlocked(self.all[exit_].to, actor)

    def fits_cost(self, actor, _, numbers):
        return self.is_kind(numbers[0], "exit") and self.owns(actor, numbers[0])

    def fits_rename(self, actor, rest, numbers):
        names = rest.split('"')[1].split(",")
        is_taken = self.is_kind(numbers[0], "player") and not self.is_free(names, numbers[0])
        return self.owns(actor, numbers[0]) and not is_taken

    def fits_recycle(self, actor, _, numbers):
        number = numbers[0]
        if number == 0 or not self.owns(actor, number) or self.is_kind(number, "player"):
            return False
        ends = any(number in (one.source, one.to) for one in self.all.values() if one.kind == "exit")
        return not ends and not self.all[number].contents

    def table(self):
        """Returns the world as a table, as docs/KEEPING.md defines it."""
        rows = [self.row(self.all[number]) for number in sorted(self.all)]
        return "".join(f"{row}\n" for row in [*rows, f"next #{self.next}"])

    def row(self, one):
        where = f" in #{one.place}" if one.place is not None else ""
        if one.kind == "exit":
            where = f" from #{one.source} to #{one.to} cost {one.cost}"
        key = f" key {printed(one.key)}" if one.key else ""
        return f"#{one.number} {one.kind} {spelled(one.names)} owner #{one.owner}{where}{key}"


class Author:
    """Writes a random legal history of all kinds of change."""

    def __init__(self, seed):
        self.chance, self.world, self.lines = random.Random(seed), Kept(), []

    def names(self):
        chosen = self.chance.sample(WORDS, self.chance.choice((1, 1, 1, 2, 3)))
        return spelled([f"{word} {self.chance.randrange(30)}" for word in chosen])

    def number(self, *kinds):
        """Returns the number of an object of these kinds, and now and then any number."""
        among = [it for it, one in self.world.all.items() if one.kind in kinds]
        return self.chance.choice(among or [0])

    def key(self):
        first = self.chance.choice(("#", "?#", "!#")) + str(self.number("thing", "room", "player"))
        if self.chance.random() < 0.6:
            return first
        return f"{first} {self.chance.choice(('&&', '||'))} #{self.number('player', 'thing')}"

    def near(self, actor):
        """Returns a place to which the actor may give a thing."""
        here = self.world.all[actor].place
        return self.chance.choice([actor, here, *self.world.all[here].contents, *self.world.all[actor].contents])

    def change(self):
        """Returns a change that may be legal."""
        chance, actor = self.chance, self.number("player")
        word = chance.choice(
            ["walk"] * 6 + ["move"] * 6 + ["say", "emote", "make", "make", "dig", "old", "lock", "unlock"]
            + ["cost", "rename", "recycle", "player"])
        if word == "player":
            return f'player #{self.world.next} "{chance.choice(WORDS)} {chance.randrange(99)}"'
        texts = {
            "walk": lambda: f"#{self.chance.choice(self.world.all[self.world.all[actor].place].leaving or [0])}",
            "move": lambda: f"#{self.number('thing')} #{self.near(actor)}",
            "say": lambda: "hello there", "emote": lambda: "waves", "make": self.names,
            "dig": lambda: chance.choice(("new {}", "new {} out {}", "new {} out {} back {}")),
            "old": lambda: f"old #{self.number('room')} out " + chance.choice(("{}", "{} back {}")),
            "lock": lambda: f"#{self.number('room', 'exit', 'thing')} {self.key()}",
            "unlock": lambda: f"#{self.number('room', 'exit', 'thing')}",
            "cost": lambda: f"#{self.number('exit')} {chance.choice((0, 1, 7, 10000))}",
            "rename": lambda: f"#{self.number('room', 'exit', 'thing', 'player')} {self.names()}",
            "recycle": lambda: f"#{self.number('room', 'exit', 'thing')}",
        }
        rest = texts[word]()
        while "{}" in rest:
            rest = rest.replace("{}", self.names(), 1)
        if word == "lock" or (word == "recycle" and chance.random() < 0.5):
            actor = 1
        return f"{'dig' if word == 'old' else word} #{actor} {rest}"

    def write(self, count):
        """Returns the text of a history of this many changes, each legal."""
        while len(self.lines) < count:
            change = self.change()
            if self.world.fits(change):
                self.world.apply(change)
                self.lines.append(f"{len(self.lines) + 1} {self.chance.randint(1, 64)} {change}\n")
        return history_of(self.lines)


def history_of(lines):
    return "".join(["mud history 2\n", *lines, f"end {len(lines)}\n"]).encode()


def kept(wish, text, *words):
    """Returns the result of mud_keep: its status, its text, and its notes."""
    command = [program("mud_keep"), wish, *(words or ["-"])]
    ran = subprocess.run(command, input=text, capture_output=True, timeout=SECONDS, check=False)
    return ran.returncode, ran.stdout, ran.stderr


def world_of(text):
    """Returns the world of a history whose changes must all be legal, and its changes."""
    lines = text.decode().splitlines()
    assert lines[0] == "mud history 2" and lines[-1] == f"end {len(lines) - 2}", "no history"
    world, changes = Kept(), []
    for version, line in enumerate(lines[1:-1], 1):
        number, desk, change = line.split(" ", 2)
        assert int(number) == version and 1 <= int(desk) <= 64, line
        assert world.fits(change), f"not legal: {line}"
        world.apply(change)
        changes.append(change)
    return world, changes


def fault_of_shorter(text, world, count):
    """Returns what is wrong with the shorter history of this world and this many changes, if anything is."""
    status, shorter, told = kept("shorten", text)
    if status != 0:
        return f"status {status}: {told}"
    other, changes = world_of(shorter)
    if other.table() != world.table():
        return "another world"
    if len(changes) > count or any(it.split()[0] in ("say", "emote") for it in changes):
        return f"{len(changes)} changes"
    wanted = f"changes: {count} before, {len(changes)} after\n".encode()
    if not told.startswith(wanted):
        return f"told {told}"
    again = kept("shorten", shorter)[1]
    return "" if again == shorter else "another text when it is shortened again"


@part("keep", "mud_keep recovers, shortens and shows random histories, and tells what it can't read")
def keep(count):
    left = []
    for seed in range(SEEDS):
        author = Author(seed)
        text = author.write(CHANGES)
        given = kept("show", text)
        count(f"show {seed}", given == (0, author.world.table().encode(), b""), given)
        fault = fault_of_shorter(text, author.world, CHANGES)
        count(f"shorten {seed}", not fault, fault)
        left.append(world_of(kept("shorten", text)[1])[1])
    whole = sum(map(len, left))
    count("shorten: by how much", whole <= SEEDS * CHANGES * 3 // 4, f"{whole} of {SEEDS * CHANGES} are left")
    recovers(count)
    zeros(count)
    fronts(count)
    line_ends(count)
    cut_histories(count)
    gone(count)
    bad_texts(count)
    maps(count)
    count("shorten: a server goes on", *goes_on())


def journal_of(changes):
    """Returns a random journal of this many changes."""
    return Author(0).write(changes).rsplit(b"end ", 1)[0]


def whole_lines(journal):
    """Returns the history of the complete lines of a cut journal, and the number of their bytes."""
    whole = journal[: journal.rfind(b"\n") + 1]
    return history_of([it.decode() for it in whole.splitlines(keepends=True)[1:]]), len(whole)


def recovers(count):
    """Counts a journal cut at each of its bytes. Inside its first line it is not a world."""
    journal = journal_of(6)
    first, faults = journal.find(b"\n"), []
    for text in (*(journal[:cut] for cut in range(1, first + 1)), bytes(14), bytes(600) + b"x\n"):
        for words in (["recover"], ["recover", "--front"], ["shorten", "--journal"], ["show", "--journal"]):
            given = kept(words[0], text, *words[1:], *(["-"] if words[1:] else []))
            if given != (2, b"", b"unreadable: not a history\n"):
                faults.append(f"{words} of {text[:20]}: {given}")
    count("no whole first line", not faults, "; ".join(faults[:3]))
    faults = []
    for cut in range(first + 1, len(journal) + 1):
        front = journal[:cut]
        wanted, whole = whole_lines(front)
        told = f"torn off: {cut - whole} bytes\n".encode()
        given = kept("recover", front)
        if given != (0, wanted, told):
            faults.append(f"{cut}: {given}")
        if kept("show", front, "--journal", "-") != (0, kept("show", wanted)[1], told):
            faults.append(f"{cut}: another world is shown")
    count("recover at each byte", not faults, "; ".join(faults[:3]))


def zeros(count):
    """Counts a journal after which a disk left zeros, and lines after those."""
    journal = journal_of(6)
    history, whole = whole_lines(journal)
    for name, behind in (("zeros", bytes(40)), ("a torn line", b"7 1 sa\0\0"), ("a line", b"\0" + b"7 1 say #1 hi\n")):
        told = f"torn off: {len(behind)} bytes\n".encode()
        given = kept("recover", journal + behind)
        count(f"recover before {name}", given == (0, history, told), given)
        given = kept("shorten", journal + behind, "--journal", "-")
        wanted = kept("shorten", history)
        count(f"shorten before {name}", given == (0, wanted[1], told + wanted[2]), given)


def saved(lines, behind):
    """Returns the answer if these lines of a journal are right, and this follows them."""
    told = f"left out: {len(behind)} bytes from line {len(lines) + 1} on\n".encode()
    return 0, history_of([line.decode() for line in lines[1:]]), told


def fronts(count):
    """Counts a journal with a bad line at each place: everything before it is saved, and the rest is reported."""
    lines = journal_of(6).splitlines(keepends=True)
    for bad in (b"no line\n", b"\xff\0\n", lines[1], b"end 6\n", b"\r\n", b"torn"):
        faults = []
        for at in range(1, len(lines) + 1):
            behind = b"".join([bad, *lines[at:]])
            given = kept("recover", b"".join(lines[:at]) + behind, "--front", "-")
            if given != saved(lines[:at], behind) and lines[at:at + 1] != [bad]:
                faults.append(f"{at}: {given}")
        count(f"front before {bad}", not faults, "; ".join(faults[:3]))
    for name, text in (("a torn first line", b"mud hist"), ("other bytes", b"more\n")):
        given = kept("recover", text, "--front", "-")
        count(f"front of {name}", given == (2, b"", b"unreadable: not a history\n"), given)
    given = kept("recover", b"".join(lines), "--front", "-")
    count("front of a whole journal", given == saved(lines, b""), given)


def line_ends(count):
    """Counts histories and certificates whose lines end with CR LF, and a journal, in which a CR belongs to no line."""
    text = Author(2).write(20)
    returned = text.replace(b"\n", b"\r\n")
    for wish in ("shorten", "show", "map"):
        given = kept(wish, returned)
        count(f"{wish}: CR LF", given == kept(wish, text) and given[0] == 0, given)
    history, proof = read(example("history")), read(example("proof"))
    with tempfile.NamedTemporaryFile() as file:
        file.write(proof.replace(b"\n", b"\r\n"))
        file.flush()
        given = kept("map", history.replace(b"\n", b"\r\n"), "-", file.name)
    count("map: a certificate with CR LF", given == (0, read(example("dot")), b""), given)
    given = kept("recover", returned)
    count("recover: CR LF", given == (2, b"", b"unreadable: not a history\n"), given)


def cut_histories(count):
    """Counts a history cut at each byte of its last two lines, and an empty one: neither is a smaller world."""
    text = Author(3).write(8)
    start = text.rindex(b"\n8 ")
    for wish in ("shorten", "show", "map"):
        given = {kept(wish, text[:cut]) for cut in range(start, len(text))}
        count(f"{wish}: a cut history", given == {(2, b"", b"unreadable: history without end\n")}, given)
    for words in (["shorten"], ["show"], ["map"], ["show", "--journal"], ["recover"], ["recover", "--front"]):
        given = kept(words[0], b"", *words[1:], "-")
        count(f"{' '.join(words)}: no bytes", given == (2, b"", b"unreadable: empty file\n"), given)


def gone(count):
    """Counts things that were made and recycled, and rooms with exits: one change takes three numbers."""
    for number in (1, 2, 3, 9, 10):
        lines = [f'{2 * it + 1} 1 make #1 "a"\n{2 * it + 2} 1 recycle #1 #{it + 2}\n' for it in range(number)]
        text = "".join(["mud history 2\n", *lines, f"end {2 * number}\n"]).encode()
        fewest = number + (number + 2) // 3
        world, changes = world_of(kept("shorten", text)[1])
        count(f"{number} things are gone", (len(changes), world.next) == (fewest, number + 2), changes)
    kept_dig = history_of([
        '1 1 dig #1 new "Mill"\n', '2 1 make #1 "a"\n', '3 1 make #1 "b"\n', "4 1 recycle #1 #3\n",
        "5 1 recycle #1 #4\n", '6 1 make #1 "cup"\n',
    ])
    world, changes = world_of(kept("shorten", kept_dig)[1])
    count("gone behind a dig", len(changes) == 4 and world.table() == world_of(kept_dig)[0].table(), changes)
    tunnel = history_of([
        '1 1 dig #1 new "Far"\n', '2 1 make #1 "cup"\n', '3 1 dig #1 old #2 out "hole"\n', "4 1 walk #1 #4\n",
        "5 1 recycle #1 #4\n", '6 1 make #1 "a"\n', "7 1 recycle #1 #5\n",
    ])
    world, changes = world_of(kept("shorten", tunnel)[1])
    same = world.table() == world_of(tunnel)[0].table()
    count("through an exit that is gone", len(changes) == 6 and same, changes)


def bad_texts(count):
    """Counts unreadable texts of each kind, and the empty history."""
    hello = b"mud history 2\n1 1 say #1 hello\n"
    cases = (
        ("not a history", b"mud histories 2\n"),
        ("history line 2", b"mud history 2\n1 65 say #1 hi\nend 1\n"),
        ("history line 3", hello + b"end 2\n"),
        ("history line 4", hello + b"end 1\nmore\n"),
        ("history change 2", hello + b"2 1 walk #1 #3\nend 2\n"),
    )
    for fault, text in cases:
        for wish in ("shorten", "show"):
            given = kept(wish, text)
            count(f"{wish}: {fault}", given == (2, b"", f"unreadable: {fault}\n".encode()), given)
    for fault, text in cases[:3]:
        given = kept("show", text, "--journal", "-")
        count(f"show --journal: {fault}", given == (2, b"", f"unreadable: {fault}\n".encode()), given)
    given = kept("recover", hello + b"end 1\n")
    count("recover: a whole history", given == (2, b"", b"unreadable: history line 3\n"), given)
    given = kept("show", b"", "/nowhere/at/all")
    count("show: no file", given == (2, b"", b"unreadable: file /nowhere/at/all\n"), given)
    given = kept("show", b"mud history 1\nend 0\n")
    count("show: the empty history", given == (0, Kept().table().encode(), b""), given)
    given = kept("shorten", b"mud history 1\nend 0\n")
    count("shorten: the empty history", given[:2] == (0, b"mud history 2\nend 0\n"), given)


def example(name):
    """Returns the path of a file of the example."""
    return f"{TOP}/examples/journeys.{name}"


def maps(count):
    """Counts the map of the example, with its certificate and without, and the messages if there is none."""
    history, proof, wanted = (read(example(name)) for name in ("history", "proof", "dot"))
    given = kept("map", b"", example("history"), example("proof"))
    count("map: with a certificate", given == (0, wanted, b""), given)
    bare = re.sub(rb"(\\n#\d+: \d+)| peripheries=2| color=red penwidth=2", b"", wanted)
    given = kept("map", history)
    count("map: without", given == (0, bare, b""), given)
    lines = history.splitlines(keepends=True)
    cases = (
        ("proof version 14, the history has 9 changes", b"".join(lines[:10]) + b"end 9\n", proof),
        ("proof line 1", history, b""),
        ("proof line 4", history, proof[:50]),
        ("history line 3", lines[0] + lines[1] + b"more\n", b""),
        ("history change 1", lines[0] + b"1 1 walk #1 #3\nend 1\n", b""),
        ("not a history", b"\n", b"\n"),
    )
    for fault, text, other in cases:
        with tempfile.NamedTemporaryFile() as file:
            file.write(other)
            file.flush()
            given = kept("map", text, "-", file.name)
            count(f"map: {fault}", given == (2, b"", f"unreadable: {fault}\n".encode()), given)
    given = kept("map", history, "-", "/nowhere/at/all")
    count("map: no file", given == (2, b"", b"unreadable: file /nowhere/at/all\n"), given)


def goes_on():
    """Returns whether a server continues a shortened history, and its output."""
    shorter = kept("shorten", Author(1).write(CHANGES))[1]
    lines = shorter.splitlines(keepends=True)[1:-1]
    number = world_of(shorter)[0].next
    with tempfile.NamedTemporaryFile() as file:
        file.write(shorter)
        file.flush()
        with Server(program("mud_serve"), ["--load", file.name], console=True) as server:
            Visit(server.port).ask("connect Newcomer")
            server.type(b"stop\n")
            status, printed_text = server.end()
    wanted = history_of([*(line.decode() for line in lines), f'{len(lines) + 1} 1 player #{number} "Newcomer"\n'])
    return status == 0 and printed_text == wanted, printed_text[-200:]


class Crowd:
    """Writes a history of 64 players who walk, talk and carry at random, in a world in which each exit has one back."""

    def __init__(self, seed, rooms=40, things=200):
        self.chance, self.lines = random.Random(seed), []
        self.place, self.leaving, self.to, self.holder = {1: 0}, {0: []}, {}, {}
        first = 2 + 3 * (rooms - 1)
        for room in range(2, first, 3):
            self.dig(room)
            self.walk(1)
        for player in range(first, first + 63):
            self.add(f'player #{player} "P{player}"')
            self.place[player] = 0
        for thing in range(first + 63, first + 63 + things):
            self.holder[thing] = self.chance.choice(list(self.place))
            self.add(f'make #{self.holder[thing]} "thing {thing}"')

    def add(self, change):
        self.lines.append(f"{len(self.lines) + 1} {self.chance.randint(1, 64)} {change}\n")

    def dig(self, room):
        here = self.place[1]
        self.add(f'dig #1 new "Room {room}" out "out {room}" back "back {room}"')
        self.leaving[room] = [room + 2]
        self.leaving[here].append(room + 1)
        self.to[room + 1], self.to[room + 2] = room, here

    def walk(self, player):
        way = self.chance.choice(self.leaving[self.place[player]])
        self.add(f"walk #{player} #{way}")
        self.place[player] = self.to[way]

    def carry(self, player):
        here = self.place[player]
        near = [it for it, one in self.holder.items() if one in (player, here)]
        if not near:
            return
        thing = self.chance.choice(near)
        beside = [player, here, *(it for it, room in self.place.items() if room == here)]
        goal = self.chance.choice(beside)
        if goal != self.holder[thing]:
            self.add(f"move #{player} #{thing} #{goal}")
            self.holder[thing] = goal

    def write(self, count):
        """Returns the text of a history of this many changes, each legal."""
        while len(self.lines) < count:
            player, kind = self.chance.choice(list(self.place)), self.chance.random()
            if kind < 0.45:
                self.walk(player)
            elif kind < 0.75:
                self.add(f"say #{player} I have seen {len(self.lines)} changes")
            else:
                self.carry(player)
        return history_of(self.lines)


def built(changes):
    """Returns a history of a world that was only built: no walk, and nothing done twice."""
    crowd = Crowd(changes, rooms=1, things=0)
    for room in range(65, 65 + 3 * changes, 3):
        crowd.dig(room)
    return history_of(crowd.lines), len(crowd.lines)


def shortened_within(text):
    """Returns the result of mud_keep with 200 MB, and the seconds that it took."""
    began = time.monotonic()
    ran = subprocess.run(
        [program("mud_keep"), "shorten", "-"], input=text, capture_output=True, timeout=SECONDS, check=False,
        preexec_fn=lambda: resource.setrlimit(resource.RLIMIT_AS, (MEMORY, MEMORY)),
    )
    return ran.returncode, ran.stdout, time.monotonic() - began


@part("keep-full", "mud_keep shortens and shows long histories of a crowd, up to 65,536 changes", on_demand=True)
def keep_full(count):
    for changes in (60000, MOST):
        text = Crowd(changes).write(changes)
        status, shorter, seconds = shortened_within(text)
        lines = shorter.count(b"\n") - 2
        count(f"{changes} changes: a tenth", status == 0 and lines <= changes // 10, f"{status}, {lines} are left")
        count(f"{changes} changes: ten seconds", seconds <= 10, f"{seconds:.1f} s")
        count(f"{changes} changes: the same world", kept("show", text) == kept("show", shorter))
        count(f"{changes} changes: again", kept("shorten", shorter)[1] == shorter)
        print(f"{changes} changes: {lines} are left, {seconds:.1f} s", flush=True)
    text, changes = built(2600)
    _, shorter, seconds = shortened_within(text)
    lines = shorter.count(b"\n") - 2
    count("a world that was only built", changes - 3 <= lines <= changes, f"{lines} of {changes} are left")


def drawn(text):
    """Returns the numbers of nodes and edges that Graphviz finds in a graph."""
    ran = subprocess.run(["dot", "-Tplain"], input=text, capture_output=True, timeout=SECONDS, check=True)
    words = [line.split(b" ", 1)[0] for line in ran.stdout.splitlines()]
    return words.count(b"node"), words.count(b"edge")


@part("keep-dot", "Graphviz reads the maps of random worlds, and finds each room and each exit", on_demand=True)
def keep_dot(count):
    if shutil.which("dot") is None:
        raise Skipped("there is no dot: it is Debian's package graphviz")
    for seed in range(SEEDS):
        author = Author(seed)
        text = author.write(CHANGES)
        status, graph, told = kept("map", text)
        kinds = [one.kind for one in author.world.all.values()]
        wanted = kinds.count("room"), kinds.count("exit")
        count(f"map {seed}", (status, told) == (0, b"") and drawn(graph) == wanted, f"{status} {told} {wanted}")
