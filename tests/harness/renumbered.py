"""mud_keep gives the objects of random histories new numbers, judged by the plain world. The new history is legal and
no longer, and leads to the same world but for its numbers. These rise in the old order. A server's answers about both
worlds are the same but for the numbers."""
import random
import re
import subprocess
import tempfile
import time

from harness.builder import NEW_VERSIONS
from harness.keep import Author, history_of, kept, world_of
from harness.parts import part
from harness.plain_world import objects, printed
from harness.programs import program
from harness.shorter import KINDS, Scribe, Size, gone

SECONDS = 60
# The random histories of each author, and their changes.
SEEDS, CHANGES, SIZE = 12, 200, Size(400, things=20)


def map_of(text):
    """Returns the new number of each old one in the lines of `--map`."""
    lines = [re.fullmatch(r"#([0-9]+) #([0-9]+)", line) for line in text.decode().splitlines()]
    assert all(lines), text
    return [(int(line[1]), int(line[2])) for line in lines]


def fields(one):
    """Returns the fields of an object other than its number, and those that are numbers of objects."""
    return (one.kind, one.names, one.cost, one.key is None), (one.owner, one.place, one.source, one.to)


def fault_of_key(key, other, new, world, renumbered):
    """Returns what is wrong with the new key of an object, if anything is: its form stays, and each name of an object.
    A name of what is gone becomes a name of what is gone."""
    if re.sub("[0-9]+", "", printed(key)) != re.sub("[0-9]+", "", printed(other)):
        return f"{printed(other)} for {printed(key)}"
    for (_, old), (_, number) in zip(objects(key), objects(other)):
        if old in world.all and number != new[old]:
            return f"#{number} for #{old}"
        if old not in world.all and (number in renumbered.all or number >= renumbered.next):
            return f"#{number}, which is not gone, for #{old}"
    return ""


def fault_of_worlds(world, renumbered, pairs):
    """Returns why the second world is not the first one under these numbers, if it is not."""
    new = dict(pairs)
    if [old for old, _ in pairs] != sorted(world.all) or [number for _, number in pairs] != sorted(renumbered.all):
        return f"the numbers {pairs}"
    if renumbered.next > world.next:
        return f"{renumbered.next} numbers"
    for old, number in pairs:
        one, other = world.all[old], renumbered.all[number]
        (same, moved), (others, places) = fields(one), fields(other)
        if same != others or tuple(it if it is None else new[it] for it in moved) != places:
            return f"#{number}: {other} for #{old}: {one}"
        fault = one.key and fault_of_key(one.key, other.key, new, world, renumbered)
        if fault:
            return f"the key of #{number}: {fault}"
    return ""


def compacted(text):
    """Returns the new history, its world, the numbers, and what is wrong with the answers, if anything is."""
    status, answer, told = kept("compact", text)
    mapped = kept("compact", text, "--map", "-")
    if status != 0 or mapped[0] != 0 or mapped[2]:
        return None, None, [], f"{(status, told)}, {mapped}"
    world, changes = world_of(text)
    renumbered, others = world_of(answer)
    pairs = map_of(mapped[1])
    fault = fault_of_worlds(world, renumbered, pairs)
    if len(others) > len(changes):
        fault = f"{len(others)} changes for {len(changes)}"
    if told != f"numbers: {world.next} before, {renumbered.next} after\n".encode() + NEW_VERSIONS:
        fault = f"{told}"
    return answer, renumbered, pairs, fault


def scripted(text, lines):
    """Returns the answers of a script of #1 on a history."""
    with tempfile.NamedTemporaryFile() as file:
        file.write(text)
        file.flush()
        command = [program("mud_serve"), "script", "--load", file.name]
        ran = subprocess.run(command, input=lines.encode(), capture_output=True, timeout=SECONDS, check=False)
    return ran.stdout.decode()


def answers(text, world, new):
    """Returns the answers of #1 about each object of a world, without versions. Each number is the new one."""
    rooms = [it for it in world.all if world.all[it].kind == "room"]
    asked = [f"look #{new[it]}" for it in sorted(world.all)] + [f"route to #{new[it]}" for it in sorted(rooms)]
    given = scripted(text, "".join(f"{line}\n" for line in ["look", "inventory", *asked]))
    return re.sub(r"(?m)^\[[0-9]+\]", "[]", given)


def why_other_answers(text, answer, world, pairs):
    """Returns where the answers about the two worlds differ by more than numbers, if they do."""
    new = dict(pairs)
    before = answers(text, world, {it: it for it in new})
    wanted = re.sub(r"#([0-9]+)", lambda it: f"#{new[int(it[1])]}", before)
    given = answers(answer, world, new)
    return "" if given == wanted else f"{[it for it in zip(wanted.splitlines(), given.splitlines()) if it[0] != it[1]]}"


def why_not(text, most=None, has_answers=True):
    """Returns what is wrong with the new history, if anything is. It gives at most `most` numbers."""
    answer, renumbered, pairs, fault = compacted(text)
    if fault:
        return fault
    if most is not None and renumbered.next > most:
        return f"{renumbered.next} numbers, and not {most}"
    return why_other_answers(text, answer, world_of(text)[0], pairs) if has_answers else ""


def written(*changes):
    return history_of([f"{version} 1 {change}\n" for version, change in enumerate(changes, 1)])


# Histories by hand, with the number of numbers that the new one gives.
BY_HAND = {
    "nothing": (written(), 2),
    "nothing is gone": (written('make #1 "box"', 'dig #1 new "Den" out "in" back "out"'), 6),
    "a thing is gone": (written('make #1 "box"', 'make #1 "cup"', "recycle #1 #2"), 3),
    "a room is gone": (
        written('dig #1 new "Den" out "in" back "out"', 'make #1 "cup"', "recycle #1 #3", "recycle #1 #4",
                "recycle #1 #2"), 3),
    "an exit back is gone": (
        written('dig #1 new "Den" out "in" back "out"', 'make #1 "cup"', "recycle #1 #4", "lock #1 #3 #5"), 5),
    # One number is lost for all that is gone and named.
    "keys name what is gone": (
        written('make #1 "box"', 'make #1 "cup"', 'make #1 "hat"', 'make #1 "ink"', "lock #1 #5 #2 || !#3 && ?#4",
                "lock #1 #0 #5", "recycle #1 #2", "recycle #1 #3", "recycle #1 #4"), 4),
    "a key names itself": (written('make #1 "box"', 'make #1 "cup"', "recycle #1 #2", "lock #1 #3 ?#0 && #3"), 3),
    "players are renamed": (
        written('player #2 "Ann"', 'make #2 "box"', 'player #4 "Bob"', "recycle #2 #3", 'make #4 "cup"',
                "rename #4 #4 \"Rob,Bob\"", 'dig #2 new "Den" out "in"', "cost #2 #7 7", "lock #2 #7 #4"), 7),
    # Ann is in a room to which no exit leads any more: the exit is needed, and its number is lost.
    "a room that nobody reaches": (
        written('player #2 "Ann"', 'make #1 "box"', "recycle #1 #3", 'dig #1 new "Cell" out "in"', "walk #2 #5",
                "recycle #1 #5"), 5),
    "things in things": (
        written('make #1 "sack"', 'make #1 "bag"', "recycle #1 #2", 'make #1 "cup"', "move #1 #4 #3", 'make #1 "gem"',
                "move #1 #5 #4", "move #1 #3 #0"), 5),
    # No shorter history is found, and Ann needs the pass for a walk: its number is lost.
    "a pass that is gone": (
        written('player #2 "Ann"', 'make #1 "box"', 'dig #1 new "Den" out "in" back "out"', 'make #2 "pass"',
                "recycle #1 #3", "lock #1 #5 #7", "walk #2 #5", "recycle #1 #7"), 7),
    "a lock on the way": (
        written('make #1 "box"', "recycle #1 #2", 'dig #1 new "Den" out "in" back "out"', 'make #1 "pass"',
                "lock #1 #4 #6", "walk #1 #4", "unlock #1 #4", "recycle #1 #6"), 5),
}


def refused(count):
    """Counts bad texts, words that do not fit, and a torn journal."""
    bad = written("walk #1 #3")
    faults = {b"": "empty file", b"no\n": "not a history", bad: "history change 1", bad[:-6]: "history without end"}
    for text, told in faults.items():
        for words in ((), ("--map", "-")):
            given = kept("compact", text, *words)
            count(f"compact {told} {words}", given == (2, b"", f"unreadable: {told}\n".encode()), given)
    status, answer, told = kept("compact", b"", "--nothing")
    count("compact --nothing", (status, answer) == (2, b"") and told.startswith(b"error: "), told)
    text, most = BY_HAND["a thing is gone"]
    journal = text[: text.index(b"end ")] + b"4 1 sa"
    given, wanted = kept("compact", journal, "--journal", "-"), kept("compact", text)
    count("compact --journal", given == (0, wanted[1], b"torn off: 6 bytes\n" + wanted[2]), given)
    given = kept("compact", journal, "--journal", "--map", "-")
    count("compact --journal --map", given == (0, b"#0 #0\n#1 #1\n#3 #2\n", b"torn off: 6 bytes\n"), given)


def again(text):
    """Returns what is wrong if a new history gets new numbers again: no further number is saved, and none moves."""
    answer = kept("compact", text)[1]
    pairs = map_of(kept("compact", answer, "--map", "-")[1])
    return "" if all(old == number for old, number in pairs) else f"{pairs}"


@part("renumbered", "mud_keep gives objects new numbers, and leads to the same world but for these", words="[SEED]")
def renumbered(count, seed=""):
    for name, (text, most) in BY_HAND.items():
        count.tries(name, why_not, text, most)
    count.tries("a new history again", again, BY_HAND["keys name what is gone"][0])
    refused(count)
    first = int(seed or time.time_ns() % 1_000_000)
    for number in range(SEEDS):
        author = Author(first + number)
        count.tries(f"all kinds of change {first + number}", why_not, author.write(CHANGES))
    for number, kind in enumerate(KINDS):
        scribe = Scribe(random.Random(first + number), SIZE)
        kind(scribe)
        most = scribe.world.next // 2 if kind is gone else None
        count.tries(f"{kind.__name__} {first + number}", why_not, scribe.text(), most)
