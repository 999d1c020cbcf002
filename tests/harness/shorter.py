"""mud_keep shortens histories that nobody has seen: each run draws new ones. The plain world judges the result. It is
legal and of the same world, has at most a few changes for each object, and comes soon."""
import random
import re
import resource
import subprocess
import time
from dataclasses import dataclass

from harness.keep import Kept, history_of, kept, world_of
from harness.parts import part
from harness.programs import program

SECONDS = 600
# The most changes of a shorter history for each object; where doors are locked and some lead one way; and where no way
# leads back. Seven of 512 mazes had 5 to 6.
MULTIPLE, LOCKED, ONE_WAY = 5, 8, 12
# How many times the processor time of `show`, which reads and replays once, `shorten` may take, and by how many seconds
# two runs of a program may differ.
TIMES, NOISE = 5, 0.05


@dataclass
class Size:
    """How large a history is drawn: its changes, players, rooms and things."""

    changes: int
    players: int = 8
    rooms: int = 12
    things: int = 40


class Scribe:
    """Writes a legal history: the plain world judges each change before it is written."""

    def __init__(self, chance, size):
        self.chance, self.size, self.world, self.lines = chance, size, Kept(), []
        self.rooms, self.players, self.things, self.exits = [0], [1], [], []

    def tells(self, change):
        """Writes a change, if it is legal. Returns whether it is."""
        if not self.world.fits(change):
            return False
        self.world.apply(change)
        self.lines.append(f"{len(self.lines) + 1} {self.chance.randint(1, 64)} {change}\n")
        return True

    def is_full(self):
        return len(self.lines) >= self.size.changes

    def place(self, number):
        return self.world.all[number].place

    def make(self, player):
        """Has the player make a thing. Returns its number."""
        number = self.world.next
        assert self.tells(f'make #{player} "thing {number}"'), "the world is full"
        self.things.append(number)
        return number

    def meet(self):
        """Has a new player come. Returns their number."""
        number = self.world.next
        assert self.tells(f'player #{number} "P{number}"'), "the world is full"
        self.players.append(number)
        return number

    def dig(self, player, doors=2):
        """Has the player dig a room with exits there and back, or only one there. Returns its number."""
        number = self.world.next
        back = f' back "back {number}"' * (doors > 1)
        assert self.tells(f'dig #{player} new "Room {number}" out "out {number}"{back}'), "the world is full"
        self.rooms.append(number)
        self.exits += range(number + 1, number + 1 + doors)
        return number

    def join(self, player, room):
        """Has the player dig an exit to an old room."""
        number = self.world.next
        if self.tells(f'dig #{player} old #{room} out "way {number}"'):
            self.exits.append(number)

    def walk(self, player):
        leaving = self.world.all[self.place(player)].leaving
        return bool(leaving) and self.tells(f"walk #{player} #{self.chance.choice(leaving)}")

    def move(self, player, thing, to):
        return self.tells(f"move #{player} #{thing} #{to}")

    def carry(self, player):
        """Has the player move a thing in reach to a place in reach."""
        near = [*self.world.all[self.place(player)].contents, *self.world.all[player].contents]
        things = [it for it in near if self.world.all[it].kind == "thing"]
        if not things:
            return False
        thing = self.chance.choice(things)
        inner = [it for it in self.world.all[thing].contents if self.world.all[it].kind == "thing"]
        if inner and self.chance.random() < 0.3:
            thing = self.chance.choice(inner)
        return self.move(player, thing, self.chance.choice([player, player, self.place(player), *near]))

    def say(self, player):
        return self.tells(f"say #{player} I have seen {len(self.lines)} changes")

    def lock(self, number, key):
        return self.tells(f"lock #1 #{number} {key}")

    def recycle(self, number):
        return self.tells(f"recycle #1 #{number}")

    def does(self, **chances):
        """Has players do these until the history is long enough: each name is a method, by how often it is called."""
        names, weights = list(chances), list(chances.values())
        for _ in range(40 * self.size.changes):
            if self.is_full():
                return
            name = self.chance.choices(names, weights)[0]
            getattr(self, name)(self.chance.choice(self.players))

    def text(self):
        return history_of(self.lines)

    # ---- what players do in some kinds of worlds

    def retake(self, _):
        """Has a player take or drop the sack."""
        sack, player = self.things[0], self.chance.choice(self.players[:2])
        here, holder = self.place(player), self.place(sack)
        self.move(holder if holder in self.players else player, sack, here if holder in self.players else player)

    def swap(self, player):
        """Has the player give a thing to a player in the same room."""
        here = [it for it in self.world.all[self.place(player)].contents if it in self.world.players]
        things = [it for it in self.world.all[player].contents if self.world.all[it].kind == "thing"]
        if things:
            self.move(player, self.chance.choice(things), self.chance.choice(here))

    def use_up(self, player):
        """Has the player make a thing, show it about, and throw it away, or another."""
        if self.world.next < 8000:
            thing = self.make(player)
            self.move(player, thing, self.place(player))
            self.recycle(self.chance.choice([thing, thing, thing, self.chance.choice(self.things)]))

    def open_up(self, player):
        """Has the player dig a room, visit it, and maybe fill it in again."""
        if self.world.next > 8000:
            return
        room = self.dig(player)
        self.tells(f"walk #{player} #{room + 1}")
        self.tells(f"walk #{player} #{room + 2}")
        if self.chance.random() < 0.8:
            for number in (room + 1, room + 2, room):
                self.recycle(number)
            self.rooms = [it for it in self.rooms if it in self.world.all]
            self.exits = [it for it in self.exits if it in self.world.all]

    def relock(self, _):
        """Has the wizard lock an exit or a thing, for players with another thing or without it, or unlock it."""
        number, key = self.chance.choice(self.exits + self.things[:9]), self.chance.choice(self.things)
        words = self.chance.choice([f"lock #1 #{number} #{key}", f"lock #1 #{number} !#{key}", f"unlock #1 #{number}"])
        self.tells(words)

    def dig_on(self, player):
        if len(self.rooms) < self.size.rooms and self.world.next < 8000:
            self.dig(player, self.chance.choice([1, 2, 2]))
        elif self.world.next < 8000 and len(self.exits) < 3 * self.size.rooms:
            self.join(player, self.chance.choice(self.rooms))

    def make_one(self, player):
        if len(self.things) < self.size.things and self.world.next < 8000:
            self.make(player)

    def come(self, _):
        if len(self.players) < self.size.players:
            self.meet()


def sack(scribe):
    """A sack of things that two players take and drop all the time."""
    bag = scribe.make(1)
    for _ in range(scribe.size.things):
        scribe.move(1, scribe.make(1), bag)
    scribe.meet()
    scribe.does(retake=1)


def bags(scribe):
    """Bags in bags, of several makers, that are carried, emptied and filled in some rooms."""
    for _ in range(scribe.size.players - 1):
        scribe.meet()
    for _ in range(scribe.size.rooms):
        scribe.dig(1)
    scribe.does(make_one=2, carry=20, walk=10)


def hands(scribe):
    """Things that go from hand to hand."""
    for _ in range(scribe.size.players - 1):
        scribe.meet()
    scribe.dig(1)
    scribe.does(make_one=2, swap=20, walk=2)


def gone(scribe):
    """Rooms and things that are made and mostly removed again."""
    scribe.meet()
    scribe.does(use_up=6, open_up=3, walk=3, carry=3, come=1)


def line(scribe):
    """Rooms in a row, in which players walk and make things."""
    for _ in range(scribe.size.rooms):
        scribe.tells(f"walk #1 #{scribe.dig(1) + 1}")
    scribe.does(come=1, make_one=2, walk=40, carry=4)


def maze(scribe):
    """Rooms with many exits, some of one way, that are locked and unlocked while players dig and carry."""
    scribe.make(1)
    scribe.dig(1)
    scribe.does(dig_on=4, make_one=3, relock=2, walk=30, carry=12, come=2)


def pit(scribe):
    """Rooms through which no way leads back, and #1 in the last one: others carry things on."""
    for _ in range(scribe.size.players - 1):
        scribe.meet()
    for _ in range(scribe.size.rooms):
        scribe.tells(f"walk #1 #{scribe.dig(1, doors=1) + 1}")
    scribe.players = scribe.players[1:]
    scribe.does(make_one=2, carry=60, walk=1)


def busy(scribe):
    """A busy world: talk, walks and things."""
    for _ in range(scribe.size.rooms):
        scribe.dig(1)
        scribe.walk(1)
    scribe.does(come=1, make_one=3, say=30, walk=40, carry=20)


KINDS = (sack, bags, hands, gone, line, maze, pit, busy)
# The histories of the gate, and those on demand: of each kind a size.
SMALL = dict.fromkeys(KINDS, Size(12000, 16, 30, 300)) | {sack: Size(12000, things=100)}
LARGE = {
    sack: Size(45202, things=100), bags: Size(45000, 64, 100, 1500), hands: Size(45000, 64, 2, 1500),
    gone: Size(30000), line: Size(45000, 64, 600, 1500), maze: Size(45000, 64, 600, 1000),
    pit: Size(45000, 64, 60, 1500), busy: Size(65536, 64, 150, 2000),
}


def drawn(kind, size, seed):
    """Returns a random history of this kind and size, and its world."""
    scribe = Scribe(random.Random(seed), size)
    kind(scribe)
    return scribe.text(), scribe.world


def seconds_of(wish, text):
    """Returns the result of mud_keep, its notes, and the processor seconds that it took."""
    def used():
        spent = resource.getrusage(resource.RUSAGE_CHILDREN)
        return spent.ru_utime + spent.ru_stime

    before = used()
    ran = subprocess.run(
        [program("mud_keep"), wish, "-"], input=text, capture_output=True, timeout=SECONDS, check=False)
    return ran.stdout, ran.stderr, used() - before


def why_not(kind, size, seed, shown=False):
    """Returns what is wrong with the shorter history of a random one, if anything is."""
    text, world = drawn(kind, size, seed)
    shorter, told, took = seconds_of("shorten", text)
    count = shorter.count(b"\n") - 2
    replayed = seconds_of("show", text)[2]
    before = text.count(b"\n") - 2
    if shown:
        print(f"{kind.__name__} {seed}: {before} changes, {world.next} objects, {count} left, {took:.2f} s, "
              f"show {replayed:.2f} s", flush=True)
    if re.match(rb"unreadable|mud_keep", told) or not shorter:
        return f"{told}"
    if world_of(shorter)[0].table() != world.table():
        return "another world"
    if count > {maze: LOCKED, pit: ONE_WAY}.get(kind, MULTIPLE) * world.next:
        return f"{count} of {before} changes are left, with {world.next} objects"
    if kept("shorten", shorter)[1] != shorter:
        return "another text when it is shortened again"
    return "" if took <= TIMES * replayed + NOISE else f"{took:.1f} s, and {replayed:.1f} s to show"


@part("shorter", "mud_keep shortens random histories to a few changes an object, soon (words: [SEED])", words="[SEED]")
def shorter(count, seed=""):
    first = int(seed or time.time_ns() % 1_000_000)
    for number, kind in enumerate(KINDS):
        count.tries(f"{kind.__name__} {first + number}", why_not, kind, SMALL[kind], first + number)


@part("shorter-full", "the same with histories of up to 65,536 changes", on_demand=True, words="[SEED]")
def shorter_full(count, seed=""):
    first = int(seed or time.time_ns() % 1_000_000)
    for number, kind in enumerate(KINDS):
        count.tries(f"{kind.__name__} {first + number}", why_not, kind, LARGE[kind], first + number, True)
    many = Size(65536, things=7000)
    count.tries(f"sack of 7,000 {first}", why_not, sack, many, first, True)
