"""The definitions themselves are run: the prover computes what they give for random lines.

tests/definitions/Played.txt plays lines by the definitions of words, verdicts, replies and worlds. This module writes
equations: lines played from this world by this player give these replies and this world. The plain world gives both
sides, and the prover accepts an equation only if the definitions compute to it. `mud_serve` answers the lines too.

The answer about a route or a meeting is defined by a relation, and nothing computes it. The equation states only what
such a line asks for.
"""
import os
import random
import re
import shutil
import subprocess
import tempfile

from harness import prover
from harness.crowd import Talker
from harness.parts import part
from harness.plain_world import Unknown, World, decide
from harness.programs import TOP, program

# The lines of an equation, and the equations of a module, whose lines begin in a new world.
AT_ONCE, IN_MODULE = 10, 20
IN_GATE, ON_DEMAND = 400, 10_000
CRATE = "mud_played"
# The definitions that the prover unfolds only if they are named.
OPAQUE = {
    "mud_words.specs.Parse": ["parse_of"], "mud_words.specs.Words": ["words"],
    "mud_words.specs.Prepositions": ["phrase_at", "preposition_of"],
    "mud_key.specs.Finds": ["names_in", "name_in", "key_in"], "mud_world.specs.Legal": ["refusal"],
    "mud_rules.specs.Table": ["verb_named", "decision"], "mud_rules.specs.Outcome": ["outcome"],
    "mud_rules.specs.Journeys": ["meeting"], "core.specs.Fmt": ["digits"],
}
USES = "".join(f"use Rattle.{place}.{{{', '.join(names)}}}\n" for place, names in {
    "std.specs.Prelude": ["refl", "◌≡◌", "[]", "◌∷◌", "codes", "Some", "None"],
    "mud_key.specs.Tree": ["Has", "Asks", "Not", "Join"],
    "mud_key.specs.declared.operator.Operator.TheVariants": ["And", "Or"],
    "mud_world.specs.declared.record.Kind.TheVariants": ["Room", "Exit", "Thing", "Player"],
    f"{CRATE}.specs.Played": ["played"], **OPAQUE,
}.items())
FILES = {
    "src/lib.rt": "//! Lines that the definitions play.\n#![tactic(auto)]\n\npub mod laws;\n",
    "src/laws.rt": f"""//! The equations of the proofs.

ghost use Rattle.{CRATE}.specs.Law.{{Law}};

/// It is proved only if each equation is.
pub fn lines()
    ensures {{ Law }}
{{
}}
""",
    "specs/Lib.antt": "pub mod Played\npub mod Law\n",
    "specs/Law.antt": """-- A statement that holds anyway.
use Rattle.std.specs.Prelude.{◌≡◌, ℕ}

abbrev pub Law : Type 0
Law = (n : ℕ) → n ≡ n
""",
}
REPLY = re.compile(r"^\[[0-9]+\] ", re.M)


class Table(World):
    """A plain world that answers a journey by what it asks for."""

    def route(self, player, room):
        return [f"ask to #{room}"]

    def meet(self, party):
        return ["ask party" + "".join(f" #{it}" for it in party)]


def chars(text):
    """Returns a text as antt writes it."""
    return 'codes "' + text.replace("\\", "\\\\").replace('"', '\\"').replace("\n", "\\n") + '"'


def listing(items):
    return "".join(f"{it} ∷ " for it in items) + "[]"


def option(player):
    return "None" if player is None else f"(Some {player})"


def tree(key):
    """Returns a key as the tree of its definition."""
    sign, *parts = key
    if sign in ("#", "?"):
        return f"({'Has' if sign == '#' else 'Asks'} {parts[0]})"
    if sign == "!":
        return f"(Not {tree(parts[0])})"
    return f"(Join {'And' if sign == '&&' else 'Or'} {tree(parts[0])} {tree(parts[1])})"


def kind(thing):
    if thing.kind == "exit":
        return f"Exit (record {{ source = {thing.source}; destination = {thing.to}; cost = {thing.cost} }})"
    return {"room": "Room", "thing": f"Thing {thing.place}", "player": f"Player {thing.place}"}[thing.kind]


def record(thing):
    names, key = listing(map(chars, thing.names)), f"Some {tree(thing.key)}" if thing.key else "None"
    return f"({thing.number}, record {{ names = {names}; owner = {thing.owner}; kind = {kind(thing)}; key = {key} }})"


def table(world):
    """Returns a world as the table of its records."""
    objects = listing(record(world.all[number]) for number in sorted(world.all))
    return f"record {{ objects = {objects}; next = {world.next} }}"


class Play:
    """A session in a new world that types random lines, as three players in turn."""

    def __init__(self, seed):
        self.talkers = [Talker(3 * seed + at) for at in range(3)]
        self.world, self.player, self.chance, self.turns = Table(), None, random.Random(seed), []

    def line(self):
        """Returns a random line that the plain world knows, and its result."""
        while True:
            talker = self.chance.choice(self.talkers)
            is_coming = self.player is None or self.chance.random() < 0.05
            line = f"connect {talker.name}" if is_coming else talker.line()
            try:
                return line, *decide(self.world, self.player, line)
            except Unknown:
                pass

    def asked(self, line, lines):
        """Returns the reply to a question."""
        if not line.startswith("proof "):
            return "\n".join(lines)
        _, (asked,) = decide(self.world, self.player, line[len("proof "):])
        return asked.replace("ask", "proof", 1)

    def changed(self, change):
        """Makes a change, and returns its reply."""
        text = self.world.reply(change)
        self.player = self.world.next if change.startswith("player ") else self.player
        self.world.apply(change)
        return text

    def turn(self):
        """Plays a line, and returns it with its reply."""
        line, sort, result = self.line()
        if sort == "become":
            self.player, result = result, f"welcome #{result}"
        elif sort != "refused":
            result = self.asked(line, result) if sort == "asked" else self.changed(result)
        self.turns.append((line, result))
        return line, result

    def equation(self, name):
        """Plays the next lines, and returns their equation and its proof."""
        start = f"({table(self.world)}) {option(self.player)}"
        lines, texts = (listing(map(chars, it)) for it in zip(*(self.turn() for _ in range(AT_ONCE))))
        end = f"record {{ world = {table(self.world)}; player = {option(self.player)}; texts = {texts} }}"
        opaque = " ".join(it for names in OPAQUE.values() for it in names)
        return f"pub {name} : played {start} ({lines}) ≡ {end}\nunfolding {opaque}\n{name} = refl\n"

    def why_not_answered(self):
        """Returns why `mud_serve` does not answer the lines so far with the same replies, or nothing."""
        typed = "".join(f"{line}\n" for line, _ in self.turns).encode()
        ran = subprocess.run([program("mud_serve"), "script"], input=typed, stdout=subprocess.PIPE, check=False)
        replies = REPLY.split(ran.stdout.decode().replace("\r\n", "\n"))[1:]
        told = [(line, text, reply.rstrip("\n")) for (line, text), reply in zip(self.turns, replies)]
        wrong = [it for it in told if not it[1].startswith(("ask ", "proof ")) and it[1] != it[2]]
        return f"{len(replies)} replies" if len(replies) != len(self.turns) else (wrong and str(wrong[0]))


def write_files(folder, files):
    for path, text in files.items():
        os.makedirs(os.path.dirname(f"{folder}/{path}"), exist_ok=True)
        with open(f"{folder}/{path}", "w", encoding="utf-8") as file:
            file.write(text)


def files_of(modules):
    """Returns the files of a crate with these modules of equations, each with its number of equations."""
    names = {f"Lines{at}": [f"lines_{at}_{one}" for one in range(count)] for at, (_, count) in enumerate(modules)}
    uses = "".join(f"use Rattle.{CRATE}.proofs.{module}.{{{', '.join(all_)}}}\n" for module, all_ in names.items())
    lets = "".join(f"    let e = {it} in\n" for all_ in names.values() for it in all_)
    answers = f"use Rattle.std.specs.Prelude.{{refl}}\n{uses}use Rattle.{CRATE}.proofs.laws.lines.Goals as goal\n\n"
    answers += f"pub returns : goal.returns\nreturns c =\n{lets}    λ n. refl\n"
    files = {f"proofs/{name}.antt": f"{USES}\n{text}" for name, (text, _) in zip(names, modules)}
    library = "".join(f"mod {name}\n" for name in names)
    return {**FILES, **files, "proofs/Lib.antt": library, "proofs/laws/lines/Answers.antt": answers}


def why_not_computed(modules):
    """Returns why the prover does not accept the equations of the modules, or nothing."""
    with tempfile.TemporaryDirectory() as folder:
        write_files(folder, files_of(modules))
        shutil.copy(f"{TOP}/tests/definitions/Played.txt", f"{folder}/specs/Played.antt")
        said = prover.check_own(CRATE, "mud_hall", "laws::lines", folder)
        return None if said.is_proved() else said.shown()


def count_wrong(count, play):
    """Counts whether the prover refuses an equation with a wrong reply."""
    right = play.equation("lines_0_0")
    at = right.rindex('codes "')
    wrong = right[:at] + 'codes "no such reply" ∷ ' + right[at:]
    count("a wrong reply is refused", why_not_computed([(wrong, 1)]) is not None, "it is accepted")


def play_all(count, total, first=1):
    """Plays random lines in new worlds, and counts the answers of the definitions and of the program."""
    modules, plays = [], [Play(first + at) for at in range(total // (AT_ONCE * IN_MODULE))]
    for at, play in enumerate(plays):
        text = "\n".join(play.equation(f"lines_{at}_{one}") for one in range(IN_MODULE))
        modules.append((text, IN_MODULE))
    count.tries(f"the definitions compute the replies to {total} lines", why_not_computed, modules)
    for at, play in enumerate(plays, first):
        count.tries(f"mud_serve answers the lines of world {at}", play.why_not_answered)


@part("definitions-run", "the prover computes the definitions for random lines as a plain world does", wants_proof=True)
def definitions_run(count):
    play_all(count, IN_GATE)


@part("more-definitions-run", "the prover computes ten thousand lines, and a thousand tables of worlds", True,
      "[LINES [SEED]]", wants_proof=True)
def more_definitions_run(count, lines=ON_DEMAND, seed=1_000):
    play_all(count, int(lines), int(seed))
    count_wrong(count, Play(int(seed)))
