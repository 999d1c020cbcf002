#!/usr/bin/env python3
"""check.py HISTORY PROOF: prints mud_check's line for the two files, and has its statuses.
check.py: does so for standard input.

A checker for tests, written from docs/ alone: CHECKER, HISTORY, WORLD, KEYS, ROADS and CERTIFICATES. Each rule follows
the words of its page, and nothing is made quick. `verdict` is the whole checker.
"""
import re
import sys
from dataclasses import dataclass

NUMBER = r"(?:0|[1-9][0-9]{0,8})"
SHARP = rf"#{NUMBER}"
LAST = 8191
MOST_ENTRIES, MOST_DESK, MOST_COST, MOST_SAID = 65536, 64, 10000, 900
MOST_NAMES, MOST_ATOMS, MOST_NOTS, LONGEST_KEY, MOST_NESTING = 4, 16, 64, 300, 3
STATUS = {"accepted": 0, "refused": 1, "unreadable": 2}


class Found(Exception):
    """The line that says what was found."""


def need(holds, line):
    if not holds:
        raise Found(line)


# ---- names and keys (docs/KEYS.md)


def is_name(text):
    signs = re.fullmatch(r"[ -~]{1,60}", text) and not set(text) & set('"\\,|&!?()')
    return bool(signs) and text[0] not in "# " and text[-1] != " " and "  " not in text


class NoKey(Exception):
    """A text is no key of numbers."""


class KeyText:
    """Reads a key text whose objects are all `#n`, by the grammar. A key is a tuple of a sign and what it joins."""

    def __init__(self, text):
        self.tokens = re.findall(r"&&|\|\||[!?()]|#[0-9]{1,9}|[^ ]", text)

    def read(self):
        key = self.chain()
        if self.tokens:
            raise NoKey
        return key

    def take(self, *wanted):
        if self.tokens and self.tokens[0] in wanted:
            return self.tokens.pop(0)
        return None

    def chain(self):
        key = self.unary()
        while sign := self.take("&&", "||"):
            key = (sign, key, self.unary())
        return key

    def unary(self):
        if self.take("!"):
            return ("!", self.unary())
        if self.take("("):
            key = self.chain()
            if not self.take(")"):
                raise NoKey
            return key
        sign = "?" if self.take("?") else "#"
        if not self.tokens or self.tokens[0][0] != "#" or len(self.tokens[0]) == 1:
            raise NoKey
        return (sign, int(self.tokens.pop(0)[1:]))


def printed(key):
    sign, *of = key
    if sign in "?#":
        return f"{sign.removesuffix('#')}#{of[0]}"
    if sign == "!":
        return "!" + beside(of[0])
    return f"{printed(of[0])} {sign} {beside(of[1])}"


def beside(key):
    """Returns a key as it is printed behind `!` or on the right of an operator."""
    return f"({printed(key)})" if key[0] in ("&&", "||") else printed(key)


def atoms(key):
    """Returns the objects of a key, each with its sign, as often as they occur."""
    sign, *of = key
    return [key] if sign in "?#" else [atom for one in of for atom in atoms(one)]


def key_of(text):
    """Returns the key that is printed so, or None if there is no such key."""
    try:
        key = KeyText(text).read() if len(text) <= LONGEST_KEY else None
    except NoKey:
        return None
    if key is None or printed(key) != text or len(atoms(key)) > MOST_ATOMS or text.count("!") > MOST_NOTS:
        return None
    return key if all(number <= LAST for _, number in atoms(key)) else None


# ---- histories (docs/HISTORY.md)

QUOTED = '"([^"]*)"'
DUG = "names object names names"
# For each kind of change: the form of its line behind the actor, and the types of its parts.
CHANGES = {
    "dig": (rf"(?:new {QUOTED}|old ({SHARP})(?= out ))(?: out {QUOTED}(?: back {QUOTED})?)?", DUG),
    "make": (QUOTED, "names"),
    "player": (QUOTED, "name"),
    "lock": (rf"({SHARP}) (.+)", "object key"),
    "unlock": (rf"({SHARP})", "object"),
    "move": (rf"({SHARP}) ({SHARP})", "object object"),
    "walk": (rf"({SHARP})", "object"),
    "cost": (rf"({SHARP}) ({NUMBER})", "object cost"),
    "rename": (rf"({SHARP}) {QUOTED}", "object names"),
    "recycle": (rf"({SHARP})", "object"),
    "say": (r"([ -~]+)", "said"),
    "emote": (r"([ -~]+)", "said"),
}


@dataclass
class Change:
    kind: str
    actor: int
    parts: list


def object_of(sharp):
    """Returns the object of `#n`, or None if its number is too great."""
    number = int(sharp[1:])
    return number if number <= LAST else None


def names_of(text, most=MOST_NAMES):
    names = text.split(",")
    return names if len(names) <= most and all(map(is_name, names)) else None


def cost_of(text):
    return int(text) if int(text) <= MOST_COST else None


def said_of(text):
    return text if len(text) <= MOST_SAID and text == text.strip(" ") else None


MEANT = {"object": object_of, "names": names_of, "name": lambda text: names_of(text, 1), "key": key_of}
MEANT |= {"cost": cost_of, "said": said_of}


def change_of(kind, actor, rest):
    """Returns the change that a line spells behind its desk, or None if it spells no change."""
    pattern, meant = CHANGES.get(kind, ("(?!)", ""))
    match = re.fullmatch(pattern, rest)
    if not match or object_of(actor) is None:
        return None
    parts = [part and MEANT[word](part) for word, part in zip(meant.split(), match.groups())]
    spelled = [bool(part is not None) for part in match.groups()]
    if "" in match.groups() or spelled != [part is not None for part in parts]:
        return None
    return Change(kind, object_of(actor), parts)


def lines_of(text):
    """Returns the lines that line feeds end, and the text after the last of them."""
    *lines, rest = text.replace("\r\n", "\n").split("\n")
    return lines, rest


def changes_of(text):
    """Returns the changes of a history's text. Raises Found if it has a fault."""
    lines, rest = lines_of(text)
    need(lines and lines[0] in ("mud history 1", "mud history 2"), "unreadable: not a history")
    least_cost = 1 if lines[0].endswith("1") else 0
    changes = []
    for at, line in enumerate(lines[1:], 2):
        if line == f"end {len(changes)}":
            need(at == len(lines) and not rest, f"unreadable: history line {at + 1}")
            return changes
        match = re.fullmatch(rf"({NUMBER}) ({NUMBER}) ([a-z]+) ({SHARP}) (.*)", line)
        change = match and change_of(match[3], match[4], match[5])
        good = change and int(match[1]) == len(changes) + 1 and 1 <= int(match[2]) <= MOST_DESK
        good = good and (change.kind != "cost" or change.parts[1] >= least_cost)
        need(good, f"unreadable: history line {at}")
        need(len(changes) < MOST_ENTRIES, "unreadable: history too long")
        changes.append(change)
    raise Found("unreadable: history without end")


# ---- the world (docs/WORLD.md)


@dataclass
class Object:
    kind: str
    owner: int
    names: list
    place: int = None
    source: int = None
    to: int = None
    cost: int = 1
    key: tuple = None


class Illegal(Exception):
    """The world refuses a change."""


def legal(holds):
    if not holds:
        raise Illegal


class World:
    """The objects that exist, by their numbers."""

    def __init__(self):
        hall, wizard = Object("room", 1, ["The Hall"]), Object("player", 1, ["Wizard"], place=0)
        self.objects = {0: hall, 1: wizard}
        self.next = 2

    def change(self, change):
        """Makes a change. Raises Illegal if its condition doesn't hold."""
        legal(change.kind == "player" or self.is_kind(change.actor, "player"))
        getattr(self, change.kind)(change.actor, *change.parts)

    def is_kind(self, number, kind):
        return number in self.objects and self.objects[number].kind == kind

    def add(self, *made):
        legal(self.next + len(made) - 1 <= LAST)
        for one in made:
            self.objects[self.next] = one
            self.next += 1

    # -- places

    def places(self, number):
        """Returns the object itself, and all objects to which following places leads."""
        while number is not None:
            yield number
            number = self.objects[number].place

    def is_within(self, number, other):
        return number in self.objects and other in self.places(number)

    def is_in_reach(self, actor, number):
        for at in self.places(number):
            if at in (actor, self.objects[actor].place):
                return True
            if self.objects[at].kind != "thing":
                return False
        return False

    # -- keys

    def is_unlocked(self, number, candidate):
        if number not in self.objects:
            return False
        key = self.objects[number].key
        return key is None or self.is_true(key, candidate)

    def is_true(self, key, candidate):
        sign, *of = key
        if sign == "#":
            return self.is_within(of[0], candidate)
        if sign == "?":
            return self.is_unlocked(of[0], candidate)
        if sign == "!":
            return not self.is_true(of[0], candidate)
        return (all if sign == "&&" else any)(self.is_true(one, candidate) for one in of)

    def nests(self, key, most):
        """Returns whether at most `most` questions lead on from a key, one after the other."""
        asked = {number for sign, number in atoms(key) if sign == "?"} if key else set()
        keys = [self.objects[number].key if number in self.objects else None for number in asked]
        return not asked or (most > 0 and all(self.nests(one, most - 1) for one in keys))

    # -- what more than one kind of change asks

    def owned(self, actor, number):
        legal(number in self.objects and (actor == 1 or self.objects[number].owner == actor))
        return self.objects[number]

    def owned_not_player(self, actor, number):
        one = self.owned(actor, number)
        legal(one.kind != "player")
        return one

    def need_free(self, names, player):
        taken = {name.lower() for number, one in self.objects.items() for name in one.names
                 if one.kind == "player" and number != player}
        legal(not taken & {name.lower() for name in names})

    # -- the kinds

    def dig(self, actor, room, old, out, back):
        here = self.objects[actor].place
        there = self.next if old is None else old
        legal(old is None or self.is_kind(old, "room"))
        made = [] if old is not None else [Object("room", actor, room)]
        made += [] if out is None else [Object("exit", actor, out, source=here, to=there)]
        made += [] if back is None else [Object("exit", actor, back, source=there, to=here)]
        self.add(*made)

    def make(self, actor, names):
        self.add(Object("thing", actor, names, place=actor))

    def player(self, actor, name):
        legal(actor == self.next)
        self.need_free(name, actor)
        self.add(Object("player", actor, name, place=0))

    def lock(self, actor, number, key):
        one = self.owned_not_player(actor, number)
        legal(all(atom in self.objects for _, atom in atoms(key)))
        before, one.key = one.key, key
        if not all(self.nests(other.key, MOST_NESTING) for other in self.objects.values() if other.key):
            one.key = before
            raise Illegal

    def unlock(self, actor, number):
        self.owned_not_player(actor, number).key = None

    def move(self, actor, thing, to):
        here = self.objects[actor].place
        legal(self.is_kind(thing, "thing") and to in self.objects and self.objects[to].kind != "exit")
        legal(self.is_in_reach(actor, thing) and self.objects[thing].place != to)
        is_near = self.is_kind(to, "thing") and self.is_in_reach(actor, to)
        is_near = is_near or (self.is_kind(to, "player") and self.objects[to].place == here)
        legal(to in (actor, here) or is_near)
        legal(not self.is_within(to, thing))
        legal(self.is_unlocked(to, thing) and self.is_unlocked(thing, to))
        self.objects[thing].place = to

    def walk(self, actor, number):
        legal(self.is_kind(number, "exit") and self.objects[number].source == self.objects[actor].place)
        legal(self.is_open(number, actor))
        self.objects[actor].place = self.objects[number].to

    def is_open(self, number, player):
        """Returns whether an exit is open to a player (docs/ROADS.md)."""
        return self.is_unlocked(number, player) and self.is_unlocked(self.objects[number].to, player)

    def cost(self, actor, number, cost):
        one = self.owned(actor, number)
        legal(one.kind == "exit")
        one.cost = cost

    def rename(self, actor, number, names):
        one = self.owned(actor, number)
        if one.kind == "player":
            self.need_free(names, number)
        one.names = names

    def recycle(self, actor, number):
        self.owned_not_player(actor, number)
        legal(number != 0)
        legal(not any(number in (one.place, one.source, one.to) for one in self.objects.values()))
        del self.objects[number]

    def say(self, actor, text):
        pass

    emote = say


def world_of(changes):
    """Returns the world after some changes. Raises Found if one isn't legal."""
    world = World()
    for at, change in enumerate(changes, 1):
        try:
            world.change(change)
        except Illegal:
            raise Found(f"unreadable: history change {at}") from None
    return world


# ---- certificates (docs/CERTIFICATES.md)


@dataclass
class Member:
    player: int
    start: int
    labels: dict
    walk: list


@dataclass
class Certificate:
    form: int
    version: int
    members: list
    room: int = None
    cost: int = None


class BadLine(Exception):
    """A line can't stand there."""


def taken(pattern, line):
    match = re.fullmatch(pattern, line)
    if not match:
        raise BadLine
    return match.groups()


def objects_in(words):
    """Returns the objects of words that are all `#n`."""
    for word in words:
        taken(SHARP, word)
    numbers = [object_of(word) for word in words]
    if None in numbers:
        raise BadLine
    return numbers


class ProofText:
    """The lines of a certificate's text, taken one by one."""

    def __init__(self, text):
        self.lines, self.rest = lines_of(text)
        self.at = 0

    def line(self):
        self.at += 1
        if self.at > len(self.lines):
            raise BadLine
        return self.lines[self.at - 1]

    def certificate(self):
        form = int(taken("mud proof ([12])", self.line())[0])
        certificate = Certificate(form, int(taken(f"version ({NUMBER})", self.line())[0]), [])
        line = self.line()
        while line.startswith("member ") and len(certificate.members) < 8:
            player, start = objects_in(taken(f"member ({SHARP}) from ({SHARP})", line))
            certificate.members.append(Member(player, start, self.labels(form), self.walk()))
            line = self.line()
        conclude(certificate, line)
        taken("end", self.line())
        self.at += 1
        if self.at <= len(self.lines) or self.rest:
            raise BadLine
        return certificate

    def labels(self, form):
        first, *words = self.line().split(" ")
        taken("labels", first)
        labels = {}
        for word in words:
            room, cost, exits = taken(f"({SHARP}):({NUMBER})" + (f"/({NUMBER})" if form == 2 else "()"), word)
            [room] = objects_in([room])
            if labels and room <= max(labels):
                raise BadLine
            labels[room] = (int(cost), int(exits or 0))
        return labels

    def walk(self):
        first, *words = self.line().split(" ")
        taken("walk", first)
        if words == ["none"]:
            return None
        if not words:
            raise BadLine
        return [] if words == ["nothing"] else objects_in(words)


def conclude(certificate, line):
    """Reads the conclusion."""
    count = len(certificate.members)
    if count > 1 and line == "meet none":
        return
    if count == 1 and line.endswith(" no way"):
        [certificate.room] = objects_in(taken(f"route ({SHARP}) no way", line))
        return
    room, cost = taken(f"{'meet' if count > 1 else 'route'} ({SHARP}) cost ({NUMBER})", line)
    [certificate.room], certificate.cost = objects_in([room]), int(cost)
    if count == 0:
        raise BadLine


def certificate_of(text):
    """Returns the certificate of a text. Raises Found with the bad line if there is none."""
    proof = ProofText(text)
    try:
        return proof.certificate()
    except BadLine:
        raise Found(f"unreadable: proof line {proof.at}") from None


# ---- the doubts


def plus(label, cost, form):
    return (label[0] + cost, label[1] + (1 if form == 2 else 0))


def doubt_member(world, certificate, at):
    """Raises the doubts 1 to 7 of one member."""
    member, form = certificate.members[at], certificate.form
    player, labels = member.player, member.labels
    earlier = [one.player for one in certificate.members[:at]]
    need(world.is_kind(player, "player") and player not in earlier, f"refused: no such player #{player}")
    need(world.objects[player].place == member.start, f"refused: wrong start #{player}")
    rooms = all(world.is_kind(room, "room") for room in labels)
    need(rooms and labels.get(member.start) == (0, 0), f"refused: start label #{player}")
    for number, exit in sorted(world.objects.items()):
        if exit.kind == "exit" and exit.source in labels and world.is_open(number, player):
            most = plus(labels[exit.source], exit.cost, form)
            need(exit.to in labels and labels[exit.to] <= most, f"refused: arc #{number} of #{player}")
    if member.walk is None:
        return
    end, label = member.start, (0, 0)
    for place, number in enumerate(member.walk, 1):
        leaves = world.is_kind(number, "exit") and world.objects[number].source == end
        need(leaves, f"refused: walk broken at {place} of #{player}")
        end, label = world.objects[number].to, plus(label, world.objects[number].cost, form)
    for place, number in enumerate(member.walk, 1):
        need(world.is_open(number, player), f"refused: walk locked at {place} of #{player}")
    need(labels.get(end) == label, f"refused: walk cost of #{player}")


def end_of(world, member):
    """Returns where a walk that is not broken ends, or None without a walk."""
    if member.walk is None:
        return None
    return world.objects[member.walk[-1]].to if member.walk else member.start


def agrees(world, certificate):
    """Returns whether the conclusion agrees with the walks and the labels: doubt 8."""
    members, room, cost = certificate.members, certificate.room, certificate.cost
    common = set.intersection(*(set(member.labels) for member in members))
    if cost is None:
        if any(member.walk is not None for member in members):
            return False
        return not common if len(members) > 1 else world.is_kind(room, "room") and room not in common
    if not world.is_kind(room, "room") or any(end_of(world, member) != room for member in members):
        return False
    if cost != max(sum(world.objects[number].cost for number in member.walk) for member in members):
        return False
    best = min((max(member.labels[one][0] for member in members), one) for one in common)
    return len(members) == 1 or best == (cost, room)


def judge(history, proof):
    """Raises what is found, if the certificate isn't accepted."""
    changes = changes_of(history)
    world_of(changes)
    certificate = certificate_of(proof)
    need(certificate.version <= len(changes), f"refused: version {certificate.version}")
    world = world_of(changes[: certificate.version])
    for at in range(len(certificate.members)):
        doubt_member(world, certificate, at)
    need(agrees(world, certificate), "refused: conclusion")


def verdict(history, proof):
    """Returns the checker's line for the bytes of a history and a certificate."""
    try:
        judge(history.decode("latin-1"), proof.decode("latin-1"))
    except Found as found:
        return str(found)
    return "accepted"


def split(text):
    """Returns the contents of standard input: the bytes of the history, and those of the certificate."""
    match = re.search(rb"^end [^\n]*(?:\n|$)", text, re.M)
    end = match.end() if match else len(text)
    return text[:end], text[end:]


def bytes_of(name):
    try:
        with open(name, "rb") as file:
            return file.read()
    except OSError:
        raise Found(f"unreadable: file {name}") from None


def main(words):
    if len(words) not in (0, 2) or any(word.startswith("-") and word != "-" for word in words):
        print(__doc__, file=sys.stderr)
        return 2
    try:
        line = verdict(*([bytes_of(word) for word in words] or split(sys.stdin.buffer.read())))
    except Found as found:
        line = str(found)
    print(line)
    return STATUS[line.split(":")[0]]


if __name__ == "__main__":
    sys.exit(main(sys.argv[1:]))
