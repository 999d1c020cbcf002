"""Random histories with certificates, right ones and spoiled ones, to compare checkers with.

A history is made change by change: the legal ones are kept, and the last one may be any. The certificate comes from a
search for least labels in the world of one of its versions. Then it may be spoiled, or bytes of one of the texts may
be. Nothing here says which pairs are right: the checkers do.
"""
import contextlib
import functools
import random
import re
from dataclasses import dataclass, field

import check

NAMES = ["hall", "Yard", "a b", "x", "~", "Bob", "AL", "c#d", "The old well", 60 * "y"]
NO_NAMES = ["a  b", " a", "a ", "#a", "", "what?", 61 * "x"]
BYTES = b"#0123456789 \",:/\n\r!?&|()abcdef-\x7f\xff"
# Words of both formats, inserted where they may not occur.
WORDS = ["member", "labels", "walk", "walk none", "walk nothing", "route", "meet none", "no way", "cost 1", "#0"]
WORDS += ["#1:1", "end", "end 1", "version 1", "mud proof 1", "mud history 2", "1 1 say #1 hi", 'out "x"', 'back "x"']
WORDS += ["!#1", "?#0", "&& #1"]


@dataclass
class Pair:
    """The bytes of a history and of a certificate."""

    history: bytes
    proof: bytes


@dataclass
class Tale:
    """A history that grows, and its world."""

    draw: random.Random
    world: check.World = field(default_factory=check.World)
    lines: list = field(default_factory=list)

    def any_of(self, kind):
        """Returns the number of an object, mostly of this kind, and otherwise of any or of none."""
        found = [number for number, one in self.world.objects.items() if one.kind in kind]
        if found and self.draw.random() < 0.95:
            return self.draw.choice(found)
        return self.draw.randrange(self.world.next + 1)

    def name(self):
        """Returns a name, and now and then that of a player in other letters, or none."""
        draw = self.draw.random()
        if draw < 0.01:
            return self.draw.choice(NO_NAMES)
        if draw < 0.2:
            players = [one for one in self.world.objects.values() if one.kind == "player"]
            return self.draw.choice(self.draw.choice(players).names).swapcase()
        return self.draw.choice(NAMES)

    def names(self, most=2):
        return '"' + ",".join(self.name() for _ in range(self.draw.randint(1, most))) + '"'

    def key(self, size):
        """Returns the text of a key, not always as it is printed."""
        if size <= 1 or self.draw.random() < 0.4:
            locked = [number for number, one in self.world.objects.items() if one.key]
            if locked and self.draw.random() < 0.4:
                return f"?#{self.draw.choice(locked)}"
            return self.draw.choice(["", "", "?"]) + f"#{self.any_of(['thing', 'player', 'exit', 'room'])}"
        if self.draw.random() < 0.3:
            return f"!{self.beside(size - 1)}"
        sign = self.draw.choice(["&&", "||"])
        return f"{self.key(size // 2)} {sign} {self.beside(size // 2)}"

    def beside(self, size):
        key = self.key(size)
        bare = " " not in key
        return key if bare or self.draw.random() < 0.02 else f"({key})"

    def drawn(self, is_last=False):
        """Returns a change that may be legal, as in a history's line after the desk. Changes that make a world are the
        most frequent, and as the last one those that may be refused for many reasons."""
        actor = self.any_of(["player"])
        weights = [REASONS.get(kind, 1) if is_last else weight for kind, (weight, _) in KINDS.items()]
        kind = self.draw.choices([*KINDS], weights)[0]
        return f"{kind} #{actor if kind != 'player' else self.any_next()} {KINDS[kind][1](self)}"

    def any_lockable(self):
        return self.any_of([self.draw.choice(["exit", "room", "thing"])])

    def any_next(self):
        return self.world.next + (self.draw.random() < 0.03)

    def dug(self):
        room = f"new {self.names()}" if self.draw.random() < 0.55 else f"old #{self.any_of(['room'])}"
        out = f" out {self.names()}" if self.draw.random() < 0.95 else ""
        return room + out + (f" back {self.names()}" if out and self.draw.random() < 0.5 else "")

    def grow(self):
        """Draws a change, and adds it if it is legal."""
        text = self.drawn()
        kind, actor, rest = text.split(" ", 2)
        change = check.change_of(kind, actor, rest)
        with contextlib.suppress(check.Illegal):
            check.legal(change is not None)
            self.world.change(change)
            self.lines.append(text)

    def text(self, more=()):
        """Returns the history's text, followed by more changes."""
        draw, form = self.draw, 1 if self.draw.random() < 0.2 else 2
        lines = [f"{at} {draw.choice([1, 1, 1, 2, 64])} {line}" for at, line in enumerate([*self.lines, *more], 1)]
        return "\n".join([f"mud history {form}", *lines, f"end {len(lines)}", ""])


KINDS = {
    "dig": (8, Tale.dug),
    "make": (3, lambda tale: tale.names(4)),
    "player": (3, lambda tale: f'"{tale.name()}{tale.draw.choice(["", "1", "2"])}"'),
    "lock": (4, lambda tale: f"#{tale.any_lockable()} {tale.key(tale.draw.choice([1, 2, 4, 9]))}"),
    "unlock": (1, lambda tale: f"#{tale.any_lockable()}"),
    "move": (5, lambda tale: f"#{tale.any_of(['thing'])} #{tale.any_of(['room', 'thing', 'player'])}"),
    "walk": (6, lambda tale: f"#{tale.any_of(['exit'])}"),
    "cost": (4, lambda tale: f"#{tale.any_of(['exit'])} {tale.draw.choice([0, 0, 1, 2, 3, 5, 10000, 10001])}"),
    "rename": (1, lambda tale: f"#{tale.any_of(['room', 'player', 'thing'])} {tale.names()}"),
    "recycle": (1, lambda tale: f"#{tale.any_of(['exit', 'thing', 'room'])}"),
    "say": (1, lambda tale: tale.draw.choice(["hi", "a  b", "  hi", 'end 3 "', "x" * 900, "x" * 901])),
    "emote": (1, lambda tale: "waves."),
}
REASONS = {"move": 6, "lock": 3, "recycle": 3, "walk": 2, "rename": 2, "player": 2}

# ---- certificates


def least_labels(world, player, form):
    """Returns the least label of each room that a player reaches, with the exit by which it is reached."""
    start = world.objects[player].place
    labels, waiting = {}, [((0, 0), start, None)]
    while waiting:
        label, room, by = min(waiting, key=lambda it: it[:2])
        waiting.remove((label, room, by))
        if room in labels:
            continue
        labels[room] = (label, by)
        for number, one in world.objects.items():
            if one.kind == "exit" and one.source == room and one.to not in labels and world.is_open(number, player):
                waiting.append((check.plus(label, one.cost, form), one.to, number))
    return labels


def walk_to(world, labels, room):
    """Returns the exits by which a room has its label."""
    walk = []
    while labels[room][1] is not None:
        walk.insert(0, labels[room][1])
        room = world.objects[walk[0]].source
    return walk


def claimed(world, version, draw):
    """Returns a certificate that holds in a world."""
    players = [number for number, one in world.objects.items() if one.kind == "player"]
    count = draw.choice([1, 1, 2, 2, 3, 8])
    party = draw.sample(players, min(count, len(players)))
    form = draw.choice([1, 2])
    reached = [least_labels(world, player, form) for player in party]
    members = [
        check.Member(player, world.objects[player].place, {room: label for room, (label, _) in labels.items()}, None)
        for player, labels in zip(party, reached)
    ]
    certificate = check.Certificate(form, version, members)
    rooms = [number for number, one in world.objects.items() if one.kind == "room"]
    if len(members) == 1:
        certificate.room = draw.choice(rooms)
        common = {certificate.room} & set(reached[0])
    else:
        common = set.intersection(*(set(labels) for labels in reached))
    if common:
        prices = {room: max(labels[room][0][0] for labels in reached) for room in common}
        certificate.cost, certificate.room = min((price, room) for room, price in prices.items())
        for member, labels in zip(members, reached):
            member.walk = walk_to(world, labels, certificate.room)
    return certificate


def text_of(certificate):
    """Returns the text of a certificate, whether or not it can be one."""
    form, sharps = certificate.form, lambda numbers: " ".join(f"#{number}" for number in numbers)
    lines = [f"mud proof {form}", f"version {certificate.version}"]
    for member in certificate.members:
        exits = (lambda label: f"/{label[1]}") if form == 2 else (lambda label: "")
        labels = [f" #{room}:{label[0]}{exits(label)}" for room, label in sorted(member.labels.items())]
        walk = "none" if member.walk is None else sharps(member.walk) or "nothing"
        lines += [f"member #{member.player} from #{member.start}", "labels" + "".join(labels), f"walk {walk}"]
    word, room, cost = "route" if len(certificate.members) == 1 else "meet", certificate.room, certificate.cost
    if word == "meet" and room is None:
        lines.append("meet none")
    else:
        lines.append(f"{word} #{room} " + ("no way" if cost is None else f"cost {cost}"))
    return "\n".join([*lines, "end", ""])


# ---- spoiling a certificate: each function takes it, its world, and the source of random choices


def any_number(world, draw):
    return draw.choice([*world.objects, world.next, draw.randrange(check.LAST + 1)])


def any_exit(world, draw):
    exits = [number for number, one in world.objects.items() if one.kind == "exit"]
    return draw.choice(exits) if exits else any_number(world, draw)


def any_room(world, draw):
    return draw.choice([number for number, one in world.objects.items() if one.kind == "room"])


def another_player(certificate, world, draw):
    draw.choice(certificate.members).player = any_number(world, draw)


def one_twice(certificate, world, draw):
    members = certificate.members
    members.append(draw.choice(members))
    del members[9:]


def another_start(certificate, world, draw):
    draw.choice(certificate.members).start = any_number(world, draw)


def another_label(certificate, world, draw):
    labels = draw.choice(certificate.members).labels
    room = draw.choice([*labels] or [0])
    cost, exits = labels.get(room, (0, 0))
    exits += draw.choice([-1, 0, 0, 1]) * (certificate.form - 1)
    labels[room] = (max(0, cost + draw.choice([-1, 0, 1, 3])), max(0, exits))


def one_label_more(certificate, world, draw):
    number = any_room(world, draw) if draw.random() < 0.7 else any_number(world, draw)
    draw.choice(certificate.members).labels[number] = (draw.randrange(4), draw.randrange(3) * (certificate.form - 1))


def one_label_less(certificate, world, draw):
    labels = draw.choice(certificate.members).labels
    labels.pop(draw.choice([*labels] or [0]), None)


def lower_labels(certificate, world, draw):
    """Labels stay valid if each is the least of two valid ones; a walk shows that they are too low."""
    member = draw.choice(certificate.members)
    member.labels = {room: (0, 0) for room in member.labels}


def other_exits(certificate, world, draw):
    member = draw.choice(certificate.members)
    walk = [*(member.walk or [])]
    at = draw.randint(0, len(walk))
    walk[at : at + draw.randrange(2)] = [any_exit(world, draw) for _ in range(draw.randrange(3))]
    member.walk = walk


def strolled(certificate, world, draw):
    """A walk that asks for no key, by exits that leave the room where it has arrived."""
    member = draw.choice(certificate.members)
    at, walk = member.start, []
    for _ in range(draw.randrange(6)):
        leaving = [number for number, one in world.objects.items() if one.kind == "exit" and one.source == at]
        if leaving:
            walk.append(draw.choice(leaving))
            at = world.objects[walk[-1]].to
    member.walk = walk


def by_locked_exit(certificate, world, draw):
    """A walk that ends with an exit that is not open."""
    member = draw.choice(certificate.members)
    if not world.is_kind(member.player, "player"):
        return
    labels = least_labels(world, member.player, certificate.form)
    exits = [(number, one) for number, one in world.objects.items() if one.kind == "exit" and one.source in labels]
    locked = [(number, one) for number, one in exits if not world.is_open(number, member.player)]
    if locked:
        number, one = draw.choice(locked)
        member.walk = [*walk_to(world, labels, one.source), number]


def no_walk(certificate, world, draw):
    draw.choice(certificate.members).walk = None


def another_cost(certificate, world, draw):
    certificate.cost = max(0, (certificate.cost or 0) + draw.choice([-1, 1, 1]))
    certificate.room = certificate.room or 0


def another_room(certificate, world, draw):
    """The conclusion names another room, with walks that lead there."""
    common = set.intersection(*(set(member.labels) for member in certificate.members))
    certificate.room = any_room(world, draw) if draw.random() < 0.8 else any_number(world, draw)
    if common and draw.random() < 0.6:
        certificate.room = draw.choice(sorted(common))
    if draw.random() < 0.3 or certificate.cost is None:
        return
    prices = []
    for member in certificate.members:
        if not world.is_kind(member.player, "player"):
            return
        labels = least_labels(world, member.player, certificate.form)
        if certificate.room not in labels:
            return
        member.walk = walk_to(world, labels, certificate.room)
        prices.append(labels[certificate.room][0][0])
    certificate.cost = max(prices)


def another_best_room(certificate, world, draw):
    """A meeting in another room at the least greatest cost, if there is one."""
    members, form = certificate.members, certificate.form
    if certificate.cost is None or not all(world.is_kind(member.player, "player") for member in members):
        return
    reached = [least_labels(world, member.player, form) for member in members]
    common = set.intersection(*(set(labels) for labels in reached))
    best = [room for room in common if max(labels[room][0][0] for labels in reached) == certificate.cost]
    if best:
        certificate.room = draw.choice(best)
        for member, labels in zip(members, reached):
            member.walk = walk_to(world, labels, certificate.room)


def nothing_concluded(certificate, world, draw):
    certificate.cost = None
    if len(certificate.members) > 1:
        certificate.room = None
    if draw.random() < 0.7:
        for member in certificate.members:
            member.walk = None


def another_version(certificate, world, draw):
    certificate.version = max(0, certificate.version + draw.choice([-2, -1, 1, 2, 5]))


def other_form(certificate, world, draw):
    certificate.form = 3 - certificate.form


SPOILERS = [another_player, one_twice, another_start, another_label, one_label_more, one_label_less, lower_labels]
SPOILERS += [other_exits, strolled, strolled, by_locked_exit, no_walk, another_cost, another_room, another_room]
SPOILERS += [nothing_concluded, another_best_room, another_version, other_form]


# ---- spoiling a text


def other_number(text, draw):
    numbers = list(re.finditer(rb"[0-9]+", text))
    if not numbers:
        return text
    one = draw.choice(numbers)
    other = draw.choice([b"0", b"1", b"2", b"01", b"8191", b"8192", b"1000000000", b"99999999999999999999", b"10001"])
    if draw.random() < 0.6:
        other = b"%d" % (int(one[0]) + 1)
    return text[: one.start()] + other + text[one.end() :]


def other_byte(text, draw):
    at = draw.randrange(len(text) + 1)
    put = bytes([draw.choice(BYTES)]) if draw.random() < 0.7 else b""
    return text[:at] + put + text[at + draw.randrange(2) :]


def other_lines(text, draw):
    lines = text.split(b"\n")
    at, to = draw.randrange(len(lines)), draw.randrange(len(lines))
    how = draw.randrange(4)
    if how == 0:
        del lines[at]
    elif how == 1:
        lines.insert(to, lines[at])
    elif how == 2:
        lines[at], lines[to] = lines[to], lines[at]
    else:
        lines.insert(at, draw.choice(WORDS).encode())
    return b"\n".join(lines)


def other_word(text, draw):
    words = re.split(rb"( |\n)", text)
    at = draw.randrange(0, len(words), 2)
    word = draw.choice(WORDS).encode() if draw.random() < 0.6 else draw.choice(words[::2])
    words[at] = draw.choice([word, words[at] + b" " + word, word + b" " + words[at], b""])
    return b"".join(words)


def with_returns(text, draw):
    return text.replace(b"\n", b"\r\n", draw.choice([-1, 1, 2]))


def cut(text, draw):
    return text[: draw.choice([len(text) - 1, draw.randrange(len(text) + 1)])]


TEXT_SPOILERS = [other_number, other_number, other_byte, other_lines, other_word, other_word, with_returns, cut]


# ---- pairs


def tale_of(draw):
    """Returns a history of at most as many changes as are drawn."""
    tale = Tale(draw)
    length = draw.choice([2, 8, 20, 30, 40])
    for _ in range(2 * length):
        tale.grow()
    return tale


def pairs_of(seed, most):
    """Returns this many pairs with one history, after which a further change may come, legal or not."""
    draw = random.Random(seed)
    tale = tale_of(draw)
    changes = check.changes_of(tale.text().replace("mud history 1", "mud history 2"))
    world_at = functools.cache(lambda version: check.world_of(changes[:version]))
    for _ in range(most):
        history = tale.text([tale.drawn(is_last=True)] if draw.random() < 0.5 else [])
        version = len(changes) if draw.random() < 0.6 else draw.randint(0, len(changes))
        world = world_at(version)
        certificate = claimed(world, version, draw)
        for _ in range(draw.choice([0, 1, 1, 1, 2])):
            draw.choice(SPOILERS)(certificate, world, draw)
        texts = [history.encode(), text_of(certificate).encode()]
        for _ in range(draw.choice([0, 0, 0, 0, 0, 1, 1, 2])):
            which = draw.choice([0, 1, 1])
            texts[which] = draw.choice(TEXT_SPOILERS)(texts[which], draw)
        yield Pair(*texts)
