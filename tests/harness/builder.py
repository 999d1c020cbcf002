"""The builder's commands of mud_keep over random histories of all kinds of change, judged by the plain world: surveys,
differences of worlds, histories without some changes, and lines that build a world.
"""
import glob
import json
import os
import random
import re
import shutil
import subprocess
import tempfile

from harness.keep import Author, Kept, history_of, kept, world_of
from harness.parts import part
from harness.plain_world import objects, printed, spelled
from harness.programs import TOP, program

SECONDS = 120
SEEDS = 24
CHANGES = 160
# The number of certified ways of each world, and of choices of changes for each history.
PROOFS, CHOICES = 6, 8
NEW_VERSIONS = b"versions begin anew: check older certificates with the older history\n"


def rooms_of(world):
    """Returns the rooms of a world, by number."""
    return [it for it, one in sorted(world.all.items()) if one.kind == "room"]


class Surveyed:
    """The findings in a world for some players."""

    def __init__(self, world, players):
        self.world, self.players = world, players
        found = {it: world.labels(it) for it in players}
        self.comes = {it: set(labels) for it, (labels, _) in found.items()}
        self.passed = {exit_ for _, opened in found.values() for exit_ in opened}

    def numbers(self, *kinds):
        return [it for it, one in sorted(self.world.all.items()) if one.kind in kinds]

    def rooms(self):
        reached = set().union(*self.comes.values())
        return [it for it in self.numbers("room") if it not in reached]

    def exits(self):
        return [it for it in self.numbers("exit") if it not in self.passed]

    def one_way(self):
        ends = {(one.source, one.to) for one in self.world.all.values() if one.kind == "exit"}
        return [it for it in self.numbers("exit") if (self.world.all[it].to, self.world.all[it].source) not in ends]

    def has_way(self, player, room):
        """Returns whether a walk of the player leads from the room to #0."""
        seen, waiting = {room}, [room]
        while waiting:
            for it in self.world.all[waiting.pop()].leaving:
                to = self.world.all[it].to
                if to not in seen and self.world.is_open(it, player):
                    seen.add(to)
                    waiting.append(to)
        return 0 in seen

    def no_way_back(self):
        return [(player, room) for player in self.players for room in sorted(self.comes[player])
                if not self.has_way(player, room)]

    def gone(self, number):
        """Returns the objects that the key names and that are gone, as often as it names them."""
        key = self.world.all[number].key
        return [it for _, it in objects(key) if it not in self.world.all] if key else []

    def keys(self):
        return [it for it in self.numbers("room", "exit", "thing") if self.gone(it)]

    def gets(self, player, thing):
        at = self.world.all[thing].place
        while self.world.all[at].kind == "thing":
            at = self.world.all[at].place
        return at == player or at in self.comes[player]

    def things(self):
        return [it for it in self.numbers("thing") if not any(self.gets(player, it) for player in self.players)]

    def json(self, version):
        return {
            "version": version, "players": self.players, "rooms": self.rooms(), "exits": self.exits(),
            "one_way": self.one_way(), "keys": self.keys(), "things": self.things(),
            "no_way_back": [{"player": player, "room": room} for player, room in self.no_way_back()],
        }

    def title(self, number):
        return f"#{number} {spelled(self.world.all[number].names)}"

    def way(self, number):
        one = self.world.all[number]
        ends = f" from {self.title(one.source)} to {self.title(one.to)}" if one.kind == "exit" else ""
        return self.title(number) + ends

    def table(self):
        """Returns the table, as docs/KEEPING.md defines it."""
        back = "no way back to #0 from room {} for player {}"
        rows = [
            *(f"nobody comes to room {self.way(it)}" for it in self.rooms()),
            *(f"nobody passes exit {self.way(it)}" for it in self.exits()),
            *(f"no exit leads back from exit {self.way(it)}" for it in self.one_way()),
            *(back.format(self.title(room), self.title(player)) for player, room in self.no_way_back()),
            *(f"what is gone is named in the key of {self.way(it)}:" + "".join(f" #{one}" for one in self.gone(it))
              for it in self.keys()),
            *(f"nobody gets thing {self.way(it)}" for it in self.things()),
        ]
        return "".join(f"{row}\n" for row in rows) or "nothing found\n"


def is_accepted(history, proof):
    """Returns whether mud_check accepts the proof, and its output."""
    with tempfile.NamedTemporaryFile() as one, tempfile.NamedTemporaryFile() as other:
        for file, text in ((one, history), (other, proof)):
            file.write(text)
            file.flush()
        command = [program("mud_check"), one.name, other.name]
        ran = subprocess.run(command, capture_output=True, timeout=SECONDS, check=False)
    return (ran.returncode, ran.stdout) == (0, b"accepted\n"), ran.stdout


def word_for(chance, world, player):
    """Returns a word that means the player: a number or a name."""
    name = chance.choice(world.all[player].names)
    return chance.choice((f"#{player}", name, name.upper()))


def surveys(count, seed, author, text):
    """The survey of a world for all players and for some, as a table and in JSON, with some of its certificates."""
    chance, world = random.Random(seed), author.world
    everybody = sorted(world.players)
    some = sorted(chance.sample(everybody, min(len(everybody), 2)))
    for name, players, words in (("all", everybody, []), ("some", some, [word_for(chance, world, it) for it in some])):
        wanted = Surveyed(world, players)
        given = kept("survey", text, "-", *words)
        count(f"survey {seed}: {name}", given == (0, wanted.table().encode(), b""), (words, given, wanted.table()))
        status, answer, told = kept("survey", text, "--json", "-", *words)
        same = status == 0 and told == b"" and answer.endswith(b"}\n") and json.loads(answer) == wanted.json(CHANGES)
        count(f"survey {seed}: {name} in JSON", same, (words, answer, wanted.json(CHANGES)))
    for _ in range(PROOFS):
        player, room = chance.choice(everybody), chance.choice(rooms_of(world))
        status, proof, told = kept("survey", text, "--proof", f"#{room}", "-", f"#{player}")
        ends = b"no way" if room not in Surveyed(world, [player]).comes[player] else b"cost"
        fits = status == 0 and told == b"" and f"route #{room} ".encode() + ends in proof
        accepted, said = is_accepted(text, proof)
        count(f"survey {seed}: the way of #{player} to #{room}", fits and accepted, (proof, said))


# ---- diff


def shown(number, prefix="#"):
    return "nothing" if number is None else f"{prefix}{number}"


def values(one):
    """Returns the values of an object by field, in the order of the rows."""
    is_exit = one.kind == "exit"
    return {
        "names": spelled(one.names), "owner": f"#{one.owner}", "kind": one.kind, "place": shown(one.place),
        "from": shown(one.source), "to": shown(one.to), "cost": shown(one.cost if is_exit else None, ""),
        "key": printed(one.key) if one.key else "nothing",
    }


def rows_of(number, old, new):
    if old is None or new is None:
        one, word = (new, "added") if old is None else (old, "removed")
        return [f"#{number} {word} {one.kind} {spelled(one.names)}"]
    before, after = values(old), values(new)
    return [f"#{number} {field} {before[field]} -> {after[field]}" for field in before if before[field] != after[field]]


def diff_of(old, new):
    """Returns the differences of two worlds, as docs/KEEPING.md defines them."""
    numbers = sorted({*old.all, *new.all})
    rows = [row for number in numbers for row in rows_of(number, old.all.get(number), new.all.get(number))]
    if old.next != new.next:
        rows.append(f"next #{old.next} -> #{new.next}")
    return "".join(f"{row}\n" for row in rows) or "the worlds are the same\n"


def paired(command, old, new, *words):
    """Returns the result of this command of mud_keep for two histories."""
    with tempfile.NamedTemporaryFile() as file:
        file.write(new)
        file.flush()
        return kept(command, old, *words, "-", file.name)


def diffed(old, new, *words):
    return paired("diff", old, new, *words)


def world_after(lines):
    world = Kept()
    for line in lines:
        world.apply(line.rstrip("\n").split(" ", 2)[2])
    return world


def diffs(count, seed, author, text):
    """Compares a history with a prefix of itself, with one of another author, and with itself."""
    lines, chance = author.lines, random.Random(seed)
    fewer = lines[: chance.randrange(len(lines))]
    other = Author(seed + 1000)
    other.write(CHANGES)
    cases = (("a beginning", fewer), ("another", other.lines), ("itself", lines))
    for name, others in cases:
        wanted = diff_of(author.world, world_after(others))
        status = 0 if wanted == "the worlds are the same\n" else 1
        given = diffed(text, history_of(others))
        count(f"diff {seed}: {name}", given == (status, wanted.encode(), b""), (given, wanted))
        given = diffed(history_of(others), text)
        wanted = diff_of(world_after(others), author.world)
        count(f"diff {seed}: {name}, the other way", given == (status, wanted.encode(), b""), (given, wanted))


# ---- chain


def versions_anew(lines):
    """Returns the entries with the versions of their places."""
    return [f"{version} {line.split(' ', 1)[1]}" for version, line in enumerate(lines, 1)]


def continued(lines, others):
    """Returns the answer for two histories, as docs/KEEPING.md defines it."""
    end, world = world_after(lines), Kept()
    for version in range(min(len(lines), len(others)) + 1):
        if version:
            world.apply(others[version - 1].rstrip("\n").split(" ", 2)[2])
        if diff_of(end, world) == "the worlds are the same\n":
            return 0, f"goes on at version {version}\n".encode(), b""
    return 1, b"does not go on\n", b""


def chains(count, seed, author):
    """Shortens a prefix of a history, appends the rest, and asks whether the result continues the prefix."""
    lines, chance = author.lines, random.Random(seed)
    cut = chance.randrange(1, len(lines))
    status, shorter, _ = kept("shorten", history_of(lines[:cut]))
    begun = shorter.decode().splitlines(keepends=True)[1:-1]
    volume = versions_anew([*begun, *lines[cut:]])
    count(f"chain {seed}: a shorter beginning", status == 0 and len(begun) <= cut, (status, len(begun), cut))
    other = Author(seed + 1000)
    other.write(CHANGES)
    gone = volume[: len(begun)][: chance.randrange(len(begun) or 1)]
    cases = (
        ("the next volume", lines[:cut], volume), ("a beginning alone", lines[:cut], begun),
        ("a beginning that was cut", lines[:cut], gone), ("a later end", lines, volume), ("itself", lines, lines),
        ("another world", lines[:cut], other.lines), ("the old volume", volume, lines[:cut]),
    )
    for name, old, new in cases:
        given, wanted = paired("chain", history_of(old), history_of(new)), continued(old, new)
        count(f"chain {seed}: {name}", given == wanted, (given, wanted))
    wanted = f"goes on at version {continued(lines[:cut], volume)[1].split()[-1].decode()}\n".encode()
    torn = history_of(lines[:cut]).rsplit(b"end", 1)[0], history_of(volume).rsplit(b"end", 1)[0] + b"99 1 sa"
    given = paired("chain", *torn, "--journal")
    count(f"chain {seed}: journals", given == (0, wanted, b"torn off: 0 bytes\ntorn off: 7 bytes\n"), given)


# ---- without


def count_made(change):
    """Returns how many objects a change makes."""
    word, _, rest = change.split(" ", 2)
    if word in ("make", "player"):
        return 1
    return rest.count('"') // 2 if word == "dig" else 0


def undone(lines, is_chosen):
    """Returns the lines without the chosen changes, or the first change that is illegal then."""
    left, world, number = [], Kept(), 2
    for version, line in enumerate(lines, 1):
        _, desk, change = line.rstrip("\n").split(" ", 2)
        made = range(number, number + count_made(change))
        number += len(made)
        part_ = [(desk, change)]
        if is_chosen(version, change):
            part_ = [("1", it) for one in made for it in ('make #1 "gone"', f"recycle #1 #{one}")]
        for desk, one in part_:
            if not world.fits(one):
                return version
            world.apply(one)
            left.append(f"{len(left) + 1} {desk} {one}\n")
    return left


def is_told(given, lines, wanted):
    """Returns whether the result is as expected: a history, or the first illegal change."""
    if isinstance(wanted, int):
        told = f"refused: change {wanted}, line {wanted + 1}, needs a change that is left out\n"
        return given == (2, b"", told.encode())
    told = f"changes: {len(lines)} before, {len(wanted)} after\n".encode() + NEW_VERSIONS
    return given == (0, history_of(wanted), told + diff_of(world_after(lines), world_after(wanted)).encode())


def actor_of(change):
    return int(re.match(r"\w+ #(\d+)", change)[1])


def withouts(count, seed, author, text):
    """Leaves out some changes, those of a player, and all from a version on."""
    lines, chance, kinds = author.lines, random.Random(seed), set()
    for turn in range(CHOICES):
        versions = chance.sample(range(1, len(lines) + 1), chance.choice((1, 1, 2, 5)))
        wanted = undone(lines, lambda version, _: version in versions)
        kinds.add(type(wanted))
        given = kept("without", text, "-", *map(str, versions))
        count(f"without {seed}: {turn}", is_told(given, lines, wanted), (versions, given[2], wanted))
    for first in (1, 20, CHANGES - 30, CHANGES - 5):
        player = chance.choice(sorted(author.world.players))
        wanted = undone(lines, lambda version, change: version >= first and actor_of(change) == player)
        word = word_for(chance, author.world, player)
        given = kept("without", text, "--since", str(first), "--by", word, "-")
        count(f"without {seed}: by {word} since {first}", is_told(given, lines, wanted), (given[2], wanted))
        wanted = undone(lines, lambda version, _: version >= first)
        given = kept("without", text, "--since", str(first), "-")
        count(f"without {seed}: since {first}", is_told(given, lines, wanted), (given[2], wanted))
    player = chance.choice(sorted(author.world.players))
    wanted = undone(lines, lambda _, change: actor_of(change) == player)
    given = kept("without", text, "--by", f"#{player}", "-")
    count(f"without {seed}: by #{player}", is_told(given, lines, wanted), (given[2], wanted))
    return kinds


# ---- lines


def played(lines):
    """Returns the world that #1 makes with these lines in a new world, and whether each line was accepted."""
    command = [program("mud_serve"), "script"]
    ran = subprocess.run(command, input=lines + b"@history\n", capture_output=True, timeout=SECONDS, check=True)
    replies, _, history = ran.stdout.replace(b"\r\n", b"\n").rpartition(b"] history\n")
    fits = all(re.match(rb"\[\d+\] (?!That |There |Which |I |It |The )", it) for it in replies.splitlines()[:-1])
    return world_of(history)[0], fits


class Part:
    """The objects of some rooms of a world, and their looks without their numbers."""

    def __init__(self, world, rooms):
        self.world, self.rooms = world, rooms
        self.numbers = {it for it, one in world.all.items() if self.is_here(one)}
        while more := self.named() - self.numbers:
            self.numbers |= more

    def is_here(self, one):
        """Returns whether it is in the rooms, at any depth."""
        if one.kind == "exit":
            return one.source in self.rooms and one.to in self.rooms
        while one.kind == "thing":
            one = self.world.all[one.place]
        return one.number in self.rooms

    def named(self):
        """Returns the things that keys of the part name."""
        keys = [self.world.all[it].key for it in self.numbers]
        named = {number for key in keys if key for _, number in objects(key)}
        return {it for it in named if it in self.world.all and self.world.all[it].kind == "thing"}

    def stranger(self):
        """Returns whether a key of the part names an object that can't be built."""
        for number in sorted(self.numbers):
            one = self.world.all[number]
            for _, named in objects(one.key) if one.key else ():
                if named in self.world.all and named not in self.numbers and named != one.owner:
                    return True
                if named in self.numbers or named not in self.world.all or self.world.all[named].kind == "player":
                    continue
                return True
        return False

    def key(self, one, key, looks):
        if key[0] in "#?":
            named = key[1]
            return key[0], looks.get(named, "me" if named in self.world.all else "gone")
        return key[0], *(self.key(one, it, looks) for it in key[1:])

    def looks(self):
        """Returns the looks of the objects: each one's kind and values, with the looks of the objects that it names."""
        looks = {it: self.world.all[it].kind for it in self.numbers}
        for _ in range(6):
            looks = {it: hash(self.look(self.world.all[it], looks)) for it in self.numbers}
        return sorted(looks.values())

    def look(self, one, looks):
        ends = (looks[one.source], looks[one.to], one.cost) if one.kind == "exit" else ()
        place = "" if one.kind != "thing" else looks[one.place] if self.is_here(one) else "me"
        return one.kind, tuple(one.names), ends, place, self.key(one, one.key, looks) if one.key else ""


def lines_of(count, seed, author, text):
    """Builds the whole world by lines, and some rooms, in a new world and in another one."""
    chance, world = random.Random(seed), author.world
    status, lines, told = kept("lines", text)
    if (status, lines, told) != (2, b"", b"refused: no lines are found\n"):
        other, fits = played(lines)
        count(f"lines {seed}", (status, told, fits) == (0, b"", True) and other.table() == world.table(), (told, lines))
    for turn in range(3):
        rooms = chance.sample(rooms_of(world), min(len(rooms_of(world)), chance.choice((1, 2, 4))))
        part_ = Part(world, rooms)
        given = kept("lines", text, "-", *(f"#{it}" for it in rooms))
        if part_.stranger():
            told = re.fullmatch(rb"refused: the key of #\d+ names #\d+, which is not built\n", given[2])
            fits = given[:2] == (2, b"") and told
            count(f"lines {seed}: a stranger {turn}", bool(fits), given)
            continue
        other, fits = played(given[1])
        copy = Part(other, rooms_of(other))
        copy.numbers |= {it for it, one in other.all.items() if one.kind == "thing"}
        same = given[0] == 0 and fits and copy.looks() == part_.looks()
        count(f"lines {seed}: {len(rooms)} rooms", same, (rooms, given))
        elsewhere(count, f"lines {seed}: {len(rooms)} rooms elsewhere", text, rooms, part_)
    return status


def rows_but(number, world, old):
    """Returns the rows of a world for the objects of the old world, without this number."""
    rows = {int(re.search(r"#(\d+)", row)[1]): row for row in world.table().splitlines()[:-1]}
    return {it: row for it, row in rows.items() if it in old.all and it != number}


def elsewhere(count, name, text, rooms, part_):
    """Builds some rooms by lines in another world, where nothing else changes."""
    before = b'@dig door|out to "Yard"\n@create box #9\ngo door\n@dig hole to #0\n'
    old, _ = played(before)
    words = ["--here", "2", "--next", str(old.next), "-", *(f"#{it}" for it in rooms)]
    status, lines, told = kept("lines", text, *words)
    new, fits = played(before + lines)
    stays = rows_but(2, old, old) == rows_but(2, new, old)
    copy = Part(new, [it for it in rooms_of(new) if it == 2 or it >= old.next])
    copy.numbers = {it for it, one in new.all.items() if it == 2 or (it >= old.next and one.kind != "player")}
    count(name, (status, told, fits, stays) == (0, b"", True, True) and copy.looks() == part_.looks(), (told, lines))


# ---- docs/BUILDING.md


def commands_of(page):
    """Returns the commands of a page, each with its output."""
    blocks = re.findall(r"^```console\n(.*?)^```$", page, re.M | re.S)
    parts = [one for block in blocks for one in re.split(r"^\$ ", block, flags=re.M)[1:]]
    return [one.split("\n", 1) for one in parts]


def tutorial(count):
    """Plays docs/BUILDING.md: each command has the output of the page."""
    with open(f"{TOP}/docs/BUILDING.md", encoding="utf-8") as file:
        commands = commands_of(file.read())
    with tempfile.TemporaryDirectory() as folder:
        for name in ("mud_serve", "mud_keep", "mud_check"):
            os.symlink(program(name), f"{folder}/{name}")
        for lines in glob.glob(f"{TOP}/examples/building/*.in"):
            shutil.copy(lines, folder)
        path = {**os.environ, "PATH": f"{folder}:{os.environ['PATH']}"}
        for command, wanted in commands:
            ran = subprocess.run(["sh", "-c", f"({command}) 2>&1"], capture_output=True, timeout=SECONDS, check=False,
                                 cwd=folder, env=path)
            shown = ran.stdout.decode().replace("\r\n", "\n")
            count(f"docs/BUILDING.md: {command}", shown == wanted, shown)
    count("docs/BUILDING.md: commands", len(commands) > 15, len(commands))


# ---- bad input


def house():
    """Returns a world with a vault behind a door that is locked with a key, and a pit that nobody leaves."""
    return [
        '1 1 dig #1 new "Vault" out "door" back "out"\n', '2 1 make #1 "key"\n', "3 1 lock #1 #3 #5\n",
        '4 2 player #6 "Ann"\n', '5 1 dig #1 new "Pit" out "hole"\n', '6 2 make #6 "cup"\n', "7 1 lock #1 #7 !#9\n",
        "8 2 recycle #6 #9\n", '9 1 make #1 "coin"\n', "10 1 walk #1 #3\n", "11 1 move #1 #10 #2\n",
    ]


def worked(count):
    """Surveys a house by hand: a room behind a locked door, a pit, a key that names an object that is gone."""
    text = history_of(house())
    table = (
        'nobody comes to room #2 "Vault"\n'
        'nobody passes exit #3 "door" from #0 "The Hall" to #2 "Vault"\n'
        'nobody passes exit #4 "out" from #2 "Vault" to #0 "The Hall"\n'
        'no exit leads back from exit #8 "hole" from #0 "The Hall" to #7 "Pit"\n'
        'no way back to #0 from room #7 "Pit" for player #6 "Ann"\n'
        'what is gone is named in the key of #7 "Pit": #9\n'
        'nobody gets thing #5 "key"\n'
        'nobody gets thing #10 "coin"\n'
    )
    given = kept("survey", text, "-", "Ann")
    count("survey: a house", given == (0, table.encode(), b""), given)
    given = kept("survey", text, "--proof", "Vault", "-", "ann")
    proof = b"mud proof 2\nversion 11\nmember #6 from #0\nlabels #0:0/0 #7:1/1\nwalk none\nroute #2 no way\nend\n"
    count("survey: no way to the vault", given == (0, proof, b"") and is_accepted(text, proof)[0], given)
    given = kept("survey", text, "--journal", "-", "Ann")
    count("survey: a journal that has ended", given == (2, b"", b"unreadable: history line 13\n"), given)
    given = kept("survey", text.rsplit(b"end", 1)[0] + b"12 1 sa", "--journal", "-", "Ann")
    count("survey: a journal", given == (0, table.encode(), b"torn off: 7 bytes\n"), given)
    given = kept("survey", b"mud history 2\nend 0\n")
    count("survey: the opening world", given == (0, b"nothing found\n", b""), given)


def refused(count):
    """Asks for players, rooms and changes that are not there: each has a word, status 2 and no output."""
    text = history_of(house())
    cases = (
        (["survey", "-", "Bob"], "refused: no such player: Bob\n"),
        (["survey", "-", "Ann", "#2"], "refused: no such player: #2\n"),
        (["survey", "--proof", "Cellar", "-", "Ann"], "refused: no such room: Cellar\n"),
        (["survey", "--proof", "#5", "-", "Ann"], "refused: no such room: #5\n"),
        (["survey", "--proof", "#2", "-", "Bob"], "refused: no such player: Bob\n"),
        (["without", "-", "12"], "refused: no change 12, the history has 11\n"),
        (["without", "-", "0"], "refused: no change 0, the history has 11\n"),
        (["without", "--by", "Bob", "-"], "refused: no such player: Bob\n"),
        (["without", "-", "2"], "refused: change 3, line 4, needs a change that is left out\n"),
        (["without", "--by", "Ann", "-"], "refused: change 7, line 8, needs a change that is left out\n"),
    )
    for words, told in cases:
        given = kept(words[0], text, *words[1:])
        count(f"refused: {' '.join(words)}", given == (2, b"", told.encode()), given)
    words_alone = (
        ["survey", "--proof", "#2", "-"], ["survey", "--proof", "#2", "-", "Ann", "Wizard"],
        ["survey", "--json", "--proof", "#2", "-", "Ann"], ["without", "-"], ["without", "--by", "Ann", "-", "3"],
        ["without", "-", "three"], ["without", "--since", "x", "-"], ["diff", "-"], ["chain", "-"], ["survey"],
    )
    for words in words_alone:
        status, answer, told = kept(words[0], text, *(words[1:] or ["--nothing"]))
        fits = (status, answer) == (2, b"") and told.startswith(b"error: ") and told.count(b"\n") > 1
        count(f"no wish: {' '.join(words)}", fits, (status, answer, told))
    bad = b"mud history 2\n1 1 walk #1 #3\nend 1\n"
    for words in (["survey"], ["without", "-", "1"]):
        given = kept(words[0], bad, *words[1:])
        count(f"{words[0]}: a bad history", given == (2, b"", b"unreadable: history change 1\n"), given)
    given = diffed(bad, text)
    count("diff: a bad old history", given == (2, b"", b"unreadable: -: history change 1\n"), given)
    status, answer, told = diffed(text, bad)
    fits = (status, answer) == (2, b"") and re.fullmatch(rb"unreadable: /.*: history change 1\n", told)
    count("diff: a bad new history", bool(fits), told)
    given = paired("chain", bad, text)
    count("chain: a bad old history", given == (2, b"", b"unreadable: -: history change 1\n"), given)
    for word, new in ((b"history change 1", bad), (b"empty file", b""), (b"history without end", text[:-6])):
        status, answer, told = paired("chain", text, new)
        fits = (status, answer) == (2, b"") and re.fullmatch(rb"unreadable: /.*: " + word + b"\n", told)
        count(f"chain: a bad new history: {word.decode()}", bool(fits), told)
    for command in ("diff", "chain"):
        given = kept(command, text, "-", "/nowhere/at/all")
        count(f"{command}: no file", given == (2, b"", b"unreadable: file /nowhere/at/all\n"), given)


@part("builder", "mud_keep surveys, compares and leaves changes out of random histories")
def builder(count):
    kinds, built = set(), []
    for seed in range(SEEDS):
        author = Author(seed)
        text = author.write(CHANGES)
        surveys(count, seed, author, text)
        diffs(count, seed, author, text)
        chains(count, seed, author)
        kinds |= withouts(count, seed, author, text)
        built.append(lines_of(count, seed, author, text))
    count("lines: most worlds can be built", built.count(0) >= len(built) // 2, built)
    count("without: both answers come", kinds == {int, list}, kinds)
    worked(count)
    tutorial(count)
    refused(count)
