"""A plain world, written from docs/ only. It knows what the lines of a history make of it (docs/WORLD.md,
docs/HISTORY.md), the result of a player's line (docs/COMMANDS.md), routes (docs/ROADS.md), and the notices of others.

It judges a server's answers and is slow. It does not know `@history`. It writes a change as a history does, without the
version and the desk.
"""
import heapq
import re
from dataclasses import dataclass, field

REFUSALS = {
    1: "I couldn't understand that.",
    2: "There is no such thing.",
    3: "Which one do you mean?",
    4: "That is the wrong kind of thing.",
    5: "That is not here.",
    6: "That is not yours.",
    7: "That text is not allowed.",
    8: "That name is taken.",
    9: "That key is not understood.",
    10: "That key nests too deep.",
    11: "That cost is not allowed.",
    12: "It can't hold itself.",
    13: "That exit is locked.",
    14: "That place is locked.",
    15: "That thing is locked.",
    16: "That is in use.",
    17: "The world is full.",
    18: "That party is not allowed.",
}
PREPOSITIONS = [
    ["with", "using"], ["at", "to"], ["in front of"], ["in", "inside", "into"], ["on top of", "on", "onto", "upon"],
    ["out of", "from inside", "from"], ["over"], ["through"], ["under", "underneath", "beneath"], ["behind"],
    ["beside"], ["for", "about"], ["is"], ["as"], ["off", "off of"],
]
PHRASES = {tuple(phrase.split()): phrases[0] for phrases in PREPOSITIONS for phrase in phrases}
NAME = re.compile(r"(?!#)[^\"\\,|&!?()]{1,60}")
LAST = 8191


class Refused(Exception):
    """A line is refused with this number."""


class Unknown(Exception):
    """A line or a change of a kind that this module does not know."""


def need(holds, number):
    """Refuses with this number unless the condition holds."""
    if not holds:
        raise Refused(number)


def is_name(text):
    return bool(NAME.fullmatch(text)) and text == " ".join(text.split(" ")).strip(" ") and "  " not in text


def names_of(text):
    """Returns the names in a names text."""
    names = [part.strip(" ") for part in text.split(",")]
    need(len(names) <= 4 and all(map(is_name, names)), 7)
    return names


def spelled(names):
    return '"' + ",".join(names) + '"'


@dataclass
class Thing:
    """An object of any kind."""

    number: int
    kind: str
    names: list
    owner: int
    place: int = None
    source: int = None
    to: int = None
    cost: int = 1
    key: tuple = None
    contents: list = field(default_factory=list)
    leaving: list = field(default_factory=list)

    def __str__(self):
        return f"{self.names[0]} #{self.number}"


def listed(things):
    return ", ".join(map(str, sorted(things, key=lambda it: it.number)))


def key_of(text, meant):
    """Returns the key that a key text spells; `meant` gives the number of each object's text."""
    tokens = [token.strip(" ") for token in re.findall(r"&&|\|\||[!?()]|[^!?()&|]+|[&|]", text)]
    tokens = [token for token in tokens if token]
    key, rest = chain(tokens, meant)
    need(not rest and len(list(objects(key))) <= 16 and tokens.count("!") <= 64, 9)
    return key


def chain(tokens, meant):
    """Returns a chain of joins, grouped from the left, and the tokens after it."""
    key, tokens = unary(tokens, meant)
    while tokens and tokens[0] in ("&&", "||"):
        other, rest = unary(tokens[1:], meant)
        key, tokens = (tokens[0], key, other), rest
    return key, tokens


def unary(tokens, meant):
    need(tokens, 9)
    first, rest = tokens[0], tokens[1:]
    if first == "!":
        key, rest = unary(rest, meant)
        return ("!", key), rest
    if first == "(":
        key, rest = chain(rest, meant)
        need(rest[:1] == [")"], 9)
        return key, rest[1:]
    if first == "?":
        need(rest and rest[0] not in ("!", "(", ")", "?", "&", "|", "&&", "||"), 9)
        return ("?", meant(rest[0])), rest[1:]
    need(first not in (")", "&", "|", "&&", "||"), 9)
    return ("#", meant(first)), rest


def objects(key):
    """Returns the kinds and numbers of a key's objects."""
    if key[0] in "#?":
        yield key
    else:
        for part in key[1:]:
            yield from objects(part)


def printed(key):
    """Returns a key as text with the fewest parentheses."""
    if key[0] in ("#", "?"):
        return f"{'?' if key[0] == '?' else ''}#{key[1]}"
    if key[0] == "!":
        return "!" + enclosed(key[1])
    return f"{printed(key[1])} {key[0]} {enclosed(key[2])}"


def enclosed(key):
    return f"({printed(key)})" if key[0] in ("&&", "||") else printed(key)


class World:
    """The objects by number."""

    def __init__(self):
        self.all = {}
        self.next = 0
        self.players = set()
        self.version = 0
        self.add("room", ["The Hall"], 1)
        self.add("player", ["Wizard"], 1, place=0)

    def add(self, kind, names, owner, **more):
        """Adds an object with the next number and returns it."""
        number, self.next = self.next, self.next + 1
        thing = self.all[number] = Thing(number, kind, names, owner, **more)
        if thing.place is not None:
            self.all[thing.place].contents.append(number)
        if thing.source is not None:
            self.all[thing.source].leaving.append(number)
        if kind == "player":
            self.players.add(number)
        return number

    # Predicates on objects.

    def within(self, thing, holder):
        """Returns whether following places from one object leads to the other."""
        while thing is not None:
            if thing == holder:
                return True
            thing = self.all[thing].place if thing in self.all else None
        return False

    def true(self, key, candidate):
        kind = key[0]
        if kind == "#":
            return key[1] in self.all and self.within(key[1], candidate)
        if kind == "?":
            return self.unlocked(key[1], candidate)
        if kind == "!":
            return not self.true(key[1], candidate)
        parts = [self.true(part, candidate) for part in key[1:]]
        return all(parts) if kind == "&&" else any(parts)

    def unlocked(self, number, candidate):
        if number not in self.all:
            return False
        key = self.all[number].key
        return key is None or self.true(key, candidate)

    def nests(self, number, left, keys):
        """Returns whether the key of an object nests at most this deep, with `keys` in place of some keys."""
        key = keys.get(number) or (self.all[number].key if number in self.all else None)
        asked = {it for kind, it in objects(key) if kind == "?"} if key else set()
        return not asked or (left > 0 and all(self.nests(it, left - 1, keys) for it in asked))

    def carries(self, player, number):
        """Returns whether the player carries the thing at any depth."""
        return number != player and self.within(number, player)

    def in_reach(self, player, number):
        """Returns whether following places from a thing, through things alone, reaches the player or the player's
        room."""
        place = self.all[number].place
        while place is not None and self.all[place].kind == "thing":
            place = self.all[place].place
        return place in (player, self.all[player].place)

    # The meaning of texts.

    def meant(self, player, text, candidates=None):
        """Returns the number of the object that a text means."""
        need(text, 1)
        low = text.lower()
        if re.fullmatch(r"#[0-9]{1,9}", text):
            need(int(text[1:]) in self.all, 2)
            return int(text[1:])
        me = self.all[player]
        if low in ("me", "here"):
            return player if low == "me" else me.place
        if candidates is None:
            room = self.all[me.place]
            candidates = [*me.contents, *room.contents, *room.leaving]
        named = {it: [name.lower() for name in self.all[it].names] for it in candidates}
        found = [it for it, names in named.items() if low in names]
        found = found or [it for it, names in named.items() if any(name.startswith(low) for name in names)]
        need(found, 2)
        need(len(found) == 1, 3)
        return found[0]

    def room_meant(self, player, text):
        number = self.meant(player, text, [it for it, thing in self.all.items() if thing.kind == "room"])
        need(self.all[number].kind == "room", 4)
        return number

    def both(self, player, direct, indirect):
        """Returns the two objects of a line, or raises the lower number of their refusals."""
        found, numbers = [], []
        for text in (direct, indirect):
            try:
                found.append(self.meant(player, text))
            except Refused as refused:
                numbers.append(refused.args[0])
        need(not numbers, min(numbers, default=0))
        return found

    def player_named(self, name):
        for number in self.players:
            if name.lower() in (it.lower() for it in self.all[number].names):
                return number
        return None

    # Routes.

    def is_open(self, exit_number, player):
        return self.unlocked(exit_number, player) and self.unlocked(self.all[exit_number].to, player)

    def labels(self, player):
        """Returns the least cost and the least number of exits to each room that the player reaches."""
        labels, waiting, opened = {}, [(0, 0, self.all[player].place)], []
        while waiting:
            cost, exits, room = heapq.heappop(waiting)
            if room in labels:
                continue
            labels[room] = cost, exits
            leaving = [number for number in self.all[room].leaving if self.is_open(number, player)]
            opened += leaving
            for it in (self.all[number] for number in leaving):
                heapq.heappush(waiting, (cost + it.cost, exits + 1, it.to))
        return labels, opened

    def way(self, player, room, labels, opened):
        """Returns the canonical route, exit by exit."""
        walk = []
        while labels[room] != (0, 0):
            cost, exits = labels[room]
            last = min(
                number for number in opened
                if self.all[number].to == room
                and labels[self.all[number].source] == (cost - self.all[number].cost, exits - 1)
            )
            walk, room = [last, *walk], self.all[last].source
        return walk

    def priced_way(self, player, room):
        """Returns the cost of the player's route to a room and its exits, or None if there is no route."""
        labels, opened = self.labels(player)
        if room not in labels:
            return None
        walk = " ".join(f"#{it}" for it in self.way(player, room, labels, opened)) or "nothing"
        return labels[room][0], walk

    def route(self, player, room):
        start, way = self.all[player].place, self.priced_way(player, room)
        end = "no way" if way is None else f"cost {way[0]} by {way[1]}"
        return [f"route #{start} to #{room} {end}"]

    def meet(self, party):
        """Returns where the party meets."""
        first = "meet " + " ".join(f"#{it}" for it in party)
        labels = [self.labels(it)[0] for it in party]
        rooms = set.intersection(*map(set, labels))
        if not rooms:
            return [first + " no meeting"]
        cost, room = min((max(it[room][0] for it in labels), room) for room in rooms)
        ways = [(it, self.all[it].place, *self.priced_way(it, room)) for it in party]
        members = [f"  #{it} from #{at} cost {own} by {by}" for it, at, own, by in ways]
        return [f"{first} at #{room} cost {cost}", *members]

    # The changes of a history.

    def apply(self, change):
        """Makes a change, which must be legal."""
        word, actor, rest = re.fullmatch(r"([a-z]+) #([0-9]+) ?(.*)", change).groups()
        numbers = [int(it) for it in re.findall(r"#([0-9]+)", rest)] if word not in ("say", "emote") else []
        make = getattr(self, f"do_{word}", None)
        if make is None:
            raise Unknown(change)
        make(int(actor), rest, numbers)
        self.version += 1

    def do_dig(self, actor, rest, numbers):
        names = [it.split(",") for it in rest.split('"')[1::2]]
        here, is_new = self.all[actor].place, rest.startswith("new")
        room = self.add("room", names.pop(0), actor) if is_new else numbers[0]
        if names:
            self.add("exit", names[0], actor, source=here, to=room)
        if len(names) > 1:
            self.add("exit", names[1], actor, source=room, to=here)

    def do_make(self, actor, rest, _):
        self.add("thing", rest.strip('"').split(","), actor, place=actor)

    def do_player(self, actor, rest, _):
        self.add("player", [rest.strip('"')], actor, place=0)

    def do_lock(self, _, rest, numbers):
        text = rest.split(" ", 1)[1]
        self.all[numbers[0]].key = key_of(text, lambda it: int(it[1:]))

    def do_unlock(self, _, __, numbers):
        self.all[numbers[0]].key = None

    def do_move(self, _, __, numbers):
        self.put(*numbers)

    def do_walk(self, actor, _, numbers):
        self.put(actor, self.all[numbers[0]].to)

    def do_cost(self, _, rest, numbers):
        self.all[numbers[0]].cost = int(rest.split()[1])

    def do_rename(self, _, rest, numbers):
        self.all[numbers[0]].names = rest.split('"')[1].split(",")

    def do_recycle(self, _, __, numbers):
        thing = self.all.pop(numbers[0])
        if thing.place is not None:
            self.all[thing.place].contents.remove(thing.number)
        if thing.source is not None:
            self.all[thing.source].leaving.remove(thing.number)

    def do_say(self, *_):
        pass

    do_emote = do_say

    def put(self, number, to):
        """Changes the place of a thing or a player."""
        thing = self.all[number]
        self.all[thing.place].contents.remove(number)
        thing.place = to
        self.all[to].contents.append(number)

    def heard(self, change, player):
        """Returns what a player hears of a change before it is made, or None."""
        word, actor, rest = change.split(" ", 2)
        if word not in ("say", "emote", "walk", "move", "player") or actor == f"#{player}":
            return None
        listener = self.all[player]
        if word == "player":
            return f"{rest.strip(chr(34))} arrives." if listener.place == 0 else None
        doer = self.all[int(actor[1:])]
        name = doer.names[0]
        if word == "walk":
            way = self.all[int(rest[1:])]
            if listener.place == doer.place:
                return f"{name} leaves by {way.names[0]}."
            return f"{name} arrives." if listener.place == way.to else None
        if listener.place != doer.place:
            return None
        if word == "say":
            return f'{name} says, "{rest}"'
        return f"{name} {rest}" if word == "emote" else self.heard_move(doer, rest, player)

    def heard_move(self, doer, rest, player):
        thing, to = (self.all[int(it[1:])] for it in rest.split())
        name = f"{doer.names[0]}", f"{thing.names[0]}"
        if to is doer:
            return f"{name[0]} takes {name[1]}."
        if to.number == doer.place:
            return f"{name[0]} drops {name[1]}."
        if to.kind == "thing":
            return f"{name[0]} puts {name[1]} in {to.names[0]}."
        return f"{name[0]} gives {name[1]} to {'you' if to.number == player else to.names[0]}."

    def reply(self, change):
        """Returns the actor's reply to a change before it is made."""
        word, actor, rest = change.split(" ", 2)
        words = rest.split(" ")
        if word == "dig":
            first, count = words[0] == "old", rest.count('"') // 2
            new = ["room", "exit", "exit back"][first : first + count]
            return "dug " + ", ".join(f"{it} #{self.next + at}" for at, it in enumerate(new))
        if word == "move":
            return self.reply_to_move(int(actor[1:]), words)
        plain = {
            "make": f"made #{self.next}",
            "player": f"welcome #{self.next}",
            "lock": f"locked {words[0]} with {' '.join(words[1:])}",
            "unlock": f"unlocked {words[0]}",
            "cost": f"cost of {words[0]} is {words[-1]}",
            "rename": f"renamed {words[0]}",
            "recycle": f"recycled {words[0]}",
            "say": "said",
            "emote": "done",
        }
        return plain[word] if word != "walk" else f"went by {rest} to #{self.all[int(rest[1:])].to}"

    def reply_to_move(self, actor, words):
        thing, to = words
        number = int(to[1:])
        if number == actor:
            return f"taken {thing}"
        if number == self.all[actor].place:
            return f"dropped {thing}"
        return f"put {thing} in {to}" if self.all[number].kind == "thing" else f"gave {thing} to {to}"


def words_of(text):
    """Returns the words of a text, and the length of its prefix up to the end of the first."""
    words, word, first, is_quoted, is_plain = [], None, len(text), False, False
    for at, sign in enumerate(text + " "):
        if is_plain and at < len(text):
            word, is_plain = word + sign, False
        elif sign == " " and (not is_quoted or at == len(text)):
            if word is not None:
                first = first if words else at
                words.append(word)
            word = None
        elif sign == "\\":
            word, is_plain = word or "", True
        elif sign == '"':
            word, is_quoted = word or "", not is_quoted
        else:
            word = (word or "") + sign
    return words, first


class Line:
    """A line taken apart: its verb, the text after the verb, and the texts on both sides of a preposition."""

    def __init__(self, text):
        text = text.lstrip(" ")
        for sign, verb in (('"', "say "), (":", "emote "), (";", "eval ")):
            text = verb + text[1:] if text.startswith(sign) else text
        (verb, *self.words), first = words_of(text)
        self.text, self.whole = text, " ".join([verb, *self.words])
        self.verb = verb.lower()
        self.rest = text[first:].strip(" ")
        self.all = " ".join(self.words)
        self.direct, self.preposition, self.indirect = self.all, None, ""
        self.find_preposition([it.lower() for it in self.words])

    def find_preposition(self, low):
        """Splits the words at the first preposition, taking the longest preposition there."""
        for at in range(len(low)):
            found = [phrase for phrase in PHRASES if tuple(low[at : at + len(phrase)]) == phrase]
            if found:
                phrase = max(found, key=len)
                self.preposition = PHRASES[phrase]
                self.direct, self.indirect = " ".join(self.words[:at]), " ".join(self.words[at + len(phrase) :])
                break


class Decision:
    """The result of a line of a player, or of a guest (None): one of `change`, `become` and `asked` is set."""

    def __init__(self, world, player, text):
        self.world, self.player, self.line = world, player, Line(text)
        self.change = self.become = self.asked = None
        need(player is not None or self.line.verb in ("connect", "quit"), 1)
        VERBS.get(self.line.verb, Decision.other)(self)

    def thing(self, text=None):
        return self.world.meant(self.player, self.line.all if text is None else text)

    def changes(self, word, rest):
        self.change = f"{word} #{self.player} {rest}"

    def kind(self, number):
        return self.world.all[number].kind

    def here(self):
        return self.world.all[self.player].place

    def on_connect(self):
        need(self.line.words and self.line.words[0], 1)
        name = self.line.words[0]
        need(is_name(name), 7)
        self.become = self.world.player_named(name)
        if self.become is None:
            need(self.world.next <= LAST, 17)
            self.change = f"player #{self.world.next} {spelled([name])}"

    def on_look(self):
        words = self.line.words
        if words[:1] and words[0].lower() == "at" and len(words) > 1:
            words = words[1:]
        number = self.thing(" ".join(words)) if words else self.here()
        self.asked = self.look(self.world.all[number])

    def look(self, thing):
        world, lines = self.world, [str(thing)]
        contents = [world.all[it] for it in thing.contents if it != self.player]
        if contents:
            lines.append("  contents " + listed(contents))
        if thing.kind == "room" and thing.leaving:
            lines.append("  exits " + listed(world.all[it] for it in thing.leaving))
        if thing.kind == "exit":
            lines.append(f"  from #{thing.source} to #{thing.to} cost {thing.cost}")
        return lines

    def on_inventory(self):
        need(not self.line.words, 1)
        held = [self.world.all[it] for it in self.world.all[self.player].contents]
        self.asked = ["inventory " + (listed(held) or "nothing")]

    def walk(self, number):
        world = self.world
        need(self.kind(number) == "exit", 4)
        need(world.all[number].source == self.here(), 5)
        need(world.unlocked(number, self.player), 13)
        need(world.unlocked(world.all[number].to, self.player), 14)
        self.changes("walk", f"#{number}")

    def on_go(self):
        self.walk(self.thing())

    def other(self):
        whole = self.line.whole.lower()
        exits = [it for it in self.world.all[self.here()].leaving
                 if whole in (name.lower() for name in self.world.all[it].names)]
        need(exits, 1)
        need(len(exits) == 1, 3)
        self.walk(exits[0])

    def move(self, number, to):
        """Returns the change that moves a thing in reach."""
        world = self.world
        here = self.here()
        need(self.kind(to) != "exit", 4)
        need(world.in_reach(self.player, number) and world.all[number].place != to, 5)
        kind = self.kind(to)
        need(to in (self.player, here) or (kind == "thing" and world.in_reach(self.player, to))
             or (kind == "player" and world.all[to].place == here), 5)
        need(not world.within(to, number), 12)
        need(world.unlocked(to, number), 14)
        need(world.unlocked(number, to), 15)
        self.changes("move", f"#{number} #{to}")

    def on_take(self):
        number = self.thing()
        need(self.kind(number) == "thing", 4)
        self.move(number, self.player)

    def on_drop(self):
        number = self.thing()
        need(self.kind(number) == "thing", 4)
        need(self.world.carries(self.player, number), 5)
        self.move(number, self.here())

    def on_put(self):
        need(self.line.preposition == "in", 1)
        number, to = self.world.both(self.player, self.line.direct, self.line.indirect)
        need(self.kind(number) == self.kind(to) == "thing", 4)
        need(self.world.in_reach(self.player, number) and self.world.in_reach(self.player, to), 5)
        self.move(number, to)

    def on_give(self):
        need(self.line.preposition == "at", 1)
        number, to = self.world.both(self.player, self.line.direct, self.line.indirect)
        need(self.kind(number) == "thing" and self.kind(to) == "player", 4)
        need(self.world.carries(self.player, number) and self.world.all[to].place == self.here(), 5)
        self.move(number, to)

    def on_say(self):
        need(1 <= len(self.line.rest) <= 900, 7)
        self.changes(self.line.verb, self.line.rest)

    on_emote = on_say

    def on_dig(self):
        line = self.line
        if line.preposition is None:
            need(line.all, 1)
            self.changes("dig", f"new {spelled(names_of(line.all))}")
            need(self.world.next <= LAST, 17)
            return
        sides = line.direct.split("|")
        need(line.preposition == "at" and all(sides) and line.indirect, 1)
        old = re.fullmatch("#[0-9]{1,9}", line.indirect)
        if old:
            need(self.kind(self.thing(line.indirect)) == "room", 4)
        need(len(sides) <= 2, 7)
        names = [spelled(names_of(side)) for side in sides]
        target = f"old #{int(line.indirect[1:])}" if old else f"new {spelled(names_of(line.indirect))}"
        need(self.world.next + len(sides) - bool(old) <= LAST, 17)
        self.changes("dig", f"{target} out " + " back ".join(names))

    def on_create(self):
        need(self.line.all, 1)
        names = names_of(self.line.all)
        need(self.world.next <= LAST, 17)
        self.changes("make", spelled(names))

    def owns(self, number):
        need(self.player in (1, self.world.all[number].owner), 6)

    def on_lock(self):
        need(self.line.preposition == "with" and self.line.direct and self.line.indirect, 1)
        number = self.thing(self.line.direct)
        need(self.kind(number) != "player", 4)
        self.owns(number)
        try:
            key = key_of(self.line.indirect, self.thing)
        except Refused:
            raise Refused(9) from None
        need(all(self.world.nests(it, 3, {number: key}) for it in self.world.all), 10)
        self.changes("lock", f"#{number} {printed(key)}")

    def on_unlock(self):
        number = self.thing()
        need(self.kind(number) != "player", 4)
        self.owns(number)
        self.changes("unlock", f"#{number}")

    def on_key(self):
        number = self.thing()
        key = self.world.all[number].key
        self.asked = [f"key of #{number} is {printed(key) if key else 'nothing'}"]

    def on_cost(self):
        need(self.line.preposition == "is" and self.line.direct and self.line.indirect, 1)
        number = self.thing(self.line.direct)
        need(self.kind(number) == "exit", 4)
        self.owns(number)
        need(re.fullmatch("[0-9]{1,9}", self.line.indirect) and int(self.line.indirect) <= 10_000, 11)
        self.changes("cost", f"#{number} {int(self.line.indirect)}")

    def on_rename(self):
        need(self.line.preposition == "at" and self.line.direct and self.line.indirect, 1)
        number = self.thing(self.line.direct)
        self.owns(number)
        names = names_of(self.line.indirect)
        others = (self.world.player_named(name) for name in names)
        need(self.kind(number) != "player" or all(other in (None, number) for other in others), 8)
        self.changes("rename", f"#{number} {spelled(names)}")

    def on_recycle(self):
        number = self.thing()
        need(self.kind(number) != "player", 4)
        self.owns(number)
        ends = (one for one in self.world.all.values() if number in (one.source, one.to))
        need(number != 0 and not self.world.all[number].contents and not any(ends), 16)
        self.changes("recycle", f"#{number}")

    def on_route(self):
        need(self.line.preposition == "at" and not self.line.direct and self.line.indirect, 1)
        self.asked = self.world.route(self.player, self.world.room_meant(self.player, self.line.indirect))

    def on_meet(self):
        need(self.line.all, 1)
        numbers, party = [], []
        for part in self.line.all.split(","):
            try:
                need(part.strip(" "), 2)
                party.append(self.world.meant(self.player, part.strip(" "), self.world.players))
            except Refused as refused:
                numbers.append(refused.args[0])
        need(not numbers, min(numbers, default=0))
        need(all(self.kind(it) == "player" for it in party), 4)
        need(2 <= len(party) <= 8 and len(set(party)) == len(party), 18)
        self.asked = self.world.meet(party)

    def on_proof(self):
        inner = Line(self.line.rest) if self.line.rest else None
        need(inner and inner.verb in ("route", "meet"), 1)
        Decision(self.world, self.player, self.line.rest)
        self.asked = ["proof"]

    def on_version(self):
        need(not self.line.words, 1)
        self.asked = ["version"]

    def on_quit(self):
        need(not self.line.words, 1)
        self.asked = ["bye"]

    def on_another(self):
        raise Unknown(self.line.text)


VERBS = {
    "connect": Decision.on_connect, "look": Decision.on_look, "l": Decision.on_look, "go": Decision.on_go,
    "inventory": Decision.on_inventory, "inv": Decision.on_inventory, "i": Decision.on_inventory,
    "take": Decision.on_take, "get": Decision.on_take, "drop": Decision.on_drop, "put": Decision.on_put,
    "give": Decision.on_give, "say": Decision.on_say, "emote": Decision.on_emote, "@dig": Decision.on_dig,
    "@create": Decision.on_create, "@lock": Decision.on_lock, "@unlock": Decision.on_unlock, "@key": Decision.on_key,
    "@cost": Decision.on_cost, "route": Decision.on_route, "meet": Decision.on_meet, "proof": Decision.on_proof,
    "@version": Decision.on_version, "quit": Decision.on_quit, "@rename": Decision.on_rename,
    "@recycle": Decision.on_recycle, "@history": Decision.on_another,
}


def decide(world, player, text):
    """Returns the result of a line: its kind (`change`, `become`, `asked`, `refused`), and what goes with the kind."""
    try:
        decision = Decision(world, player, text)
    except Refused as refused:
        return "refused", REFUSALS[refused.args[0]]
    for kind in ("change", "become", "asked"):
        if getattr(decision, kind) is not None:
            return kind, getattr(decision, kind)
    raise Unknown(text)
