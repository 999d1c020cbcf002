"""Scripts of `mud_serve script` on copies of random histories, judged by the plain world: the history that a script
leaves is the loaded one with its own entries, and bad input leaves nothing.
"""
import os
import random
import subprocess
import tempfile

from harness.keep import Author, history_of, world_of
from harness.parts import part
from harness.programs import program

SECONDS = 60
SEEDS = 12
CHANGES = 120


class Played:
    """The result of a script on a file: its status, its answers, its notes, and the file that it made."""

    def __init__(self, text, lines, *words):
        with tempfile.TemporaryDirectory() as folder:
            old, out = f"{folder}/old", f"{folder}/out"
            with open(old, "wb") as file:
                file.write(text)
            command = [program("mud_serve"), "script", "--load", old, "--history", out, *words]
            ran = subprocess.run(command, input=lines, capture_output=True, timeout=SECONDS, check=False)
            self.status, self.answers, self.told, self.made = ran.returncode, ran.stdout, ran.stderr, None
            if os.path.exists(out):
                with open(out, "rb") as file:
                    self.made = file.read()
            with open(old, "rb") as file:
                self.is_kept = file.read() == text

    def is_refused(self, told):
        """Returns whether the script wrote nothing but this."""
        fits = (self.status, self.answers, self.told) == (2, b"", f"mud_serve: {told}\n".encode())
        return fits and self.made is None and self.is_kept


def word_for(chance, world, player):
    """Returns a word that means the player."""
    name = chance.choice(world.all[player].names)
    return chance.choice((f"#{player}", name, name.upper()))


def typed(world, player):
    """Returns lines of the player, and the changes that they make."""
    changes = [f'make #{player} "zebra crossing"', f"say #{player} hello", f"emote #{player} waves"]
    lines = b"@create zebra crossing\nsay hello\nemote waves\n"
    for change in changes:
        world.apply(change)
    drop = f"move #{player} #{world.next - 1} #{world.all[player].place}"
    if world.fits(drop):
        return lines + b"drop zebra crossing\n", [*changes, drop]
    return lines, changes


def played(count, seed):
    """Plays lines on the copy of a random history, as each of some players, and on a torn journal's."""
    author, chance = Author(seed), random.Random(seed)
    text = author.write(CHANGES)
    torn = text.rsplit(b"end", 1)[0] + f"{CHANGES + 1} 1 say #1".encode()
    for player in chance.sample(sorted(author.world.players), min(3, len(author.world.players))):
        world, _ = world_of(text)
        word = word_for(chance, world, player)
        lines, changes = typed(world, player)
        entries = [f"{CHANGES + n} 1 {change}\n" for n, change in enumerate(changes, 1)]
        wanted = history_of([*author.lines, *entries])
        one = Played(text, lines, "--as", word)
        fits = (one.status, one.told, one.made, one.is_kept) == (0, b"", wanted, True)
        begins = one.answers.startswith(f"[{CHANGES + 1}] ".encode())
        count(f"copy {seed}: {word}", fits and begins, (one.status, one.told, one.answers, one.made))
        other = Played(torn, lines, "--as", word, "--recover")
        told = f"mud_serve: torn off: {len(torn) - len(text.rsplit(b'end', 1)[0])} bytes\n".encode()
        fits = (other.status, other.told, other.made) == (0, told, wanted) and other.answers == one.answers
        count(f"copy {seed}: a torn journal", fits, (other.status, other.told, other.made))


def refused(count):
    """Asks for scripts that can't begin: each has a word, status 2, and leaves nothing."""
    text = history_of(['1 1 player #2 "Ann"\n', '2 1 player #3 "Anton"\n', "3 1 say #1 hi\n"])
    bad = b"mud history 2\n1 1 walk #1 #3\nend 1\n"
    cases = (
        (text, ["--as", "Bob"], "no such player"), (text, ["--as", "An"], "no such player"),
        (text, ["--as", "#0"], "no such player"), (text, ["--capacity", "2"], "cannot load: over capacity"),
        (bad, [], "cannot load: history change 1"), (b"", [], "cannot load: not a history"),
        (text[:-6], [], "cannot load: history without end"), (text, ["--recover"], "cannot load: history line 5"),
        (b"", ["--recover"], "cannot load: not a history"), (text + b"x", [], "cannot load: history line 6"),
    )
    for old, words, told in cases:
        one = Played(old, b"say hello\n", *words)
        count(f"copy: {told} {words}", one.is_refused(told), (one.status, one.told, one.answers, one.made))
    one = Played(text, b"", "--load", "/nowhere/at/all")
    count("copy: two files", one.status == 2 and one.made is None, one.told)
    with tempfile.NamedTemporaryFile() as there:
        one = Played(text, b"say hello\n", "--history", there.name)
        count("copy: two files to make", one.status == 2 and one.made is None, one.told)
        command = [program("mud_serve"), "script", "--history", there.name]
        ran = subprocess.run(command, input=b"say hello\n", capture_output=True, timeout=SECONDS, check=False)
        wanted = (2, b"", b"mud_serve: cannot make history: file exists\n")
        count("copy: a file that exists", (ran.returncode, ran.stdout, ran.stderr) == wanted, ran)


def fresh(count):
    """Plays in a new world, and makes its history. A full history ends with the last change that it holds."""
    with tempfile.TemporaryDirectory() as folder:
        command = [program("mud_serve"), "script", "--history", f"{folder}/out"]
        lines = b"say hi\nquit\nsay ho\n"
        ran = subprocess.run(command, input=lines, capture_output=True, timeout=SECONDS, check=False)
        with open(f"{folder}/out", "rb") as file:
            made = file.read()
        count("copy: a new world", ran.returncode == 0 and made == history_of(["1 1 say #1 hi\n"]), (ran, made))
        missing = [program("mud_serve"), "script", "--history", f"{folder}/no/out"]
        ran = subprocess.run(missing, input=b"say hi\n", capture_output=True, timeout=SECONDS, check=False)
        wanted = (3, b"mud_serve: cannot make history\n")
        count("copy: no folder", (ran.returncode, ran.stderr) == wanted, ran)
    text = history_of(["1 1 say #1 hi\n"])
    one = Played(text, b"say one\nsay two\n", "--capacity", "2")
    fits = one.status == 0 and b"(history full)" in one.answers
    count("copy: a full history", fits and one.made == history_of(["1 1 say #1 hi\n", "2 1 say #1 one\n"]), one.answers)


@part("copies", "mud_serve script plays on copies of random histories, and makes the histories that it leaves")
def copies(count):
    for seed in range(SEEDS):
        played(count, seed)
    refused(count)
    fresh(count)
