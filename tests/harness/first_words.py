"""The first commands of a newcomer: the block of README that two players type, and help and the version of each
program."""
import os
import re
import shlex
import subprocess
import tempfile

from harness.inputs import read
from harness.parts import part
from harness.programs import TOP, is_unproved, program
from harness.server import Client, Server

SECONDS = 10
# The command of README that starts a server, and its two players; typed text is at the left of a column.
START = re.compile(r"^\./run --unproved mud_serve listen --port 4000 --address 127\.0\.0\.1 (.*)$", re.M)
BLOCK = re.compile(r"^```\nAnn( +)Bob\n(.*?)^```$", re.M | re.S)
SET_IN, GREETING = "  ", b"Welcome. Type: connect NAME"
NUMBER = re.compile(r"^## (\d+\.\d+\.\d+)$", re.M)
KIT = re.compile(r"rattle-kit-\w+ logic [0-9a-f]{16}")
# The words of each program that have help of their own, and its status if help can't be written.
FORMS = {
    "mud_serve": (["", "script", "listen"], 3),
    "mud_explain": (["", "units", "words", "parse", "names", "key", "hall"], 3),
    "mud_check": ([""], 2),
    "mud_keep": (
        ["", "recover", "shorten", "compact", "show", "map", "survey", "diff", "chain", "without", "lines"], 2),
}


def text_of(path):
    return read(f"{TOP}/{path}").decode()


def steps_of(text):
    """Returns the steps of README's block: the player, whether it is typed, and the line."""
    gap, rows = BLOCK.search(text).groups()
    width = len("Ann") + len(gap)
    for row in rows.splitlines():
        for who, cell in (("Ann", row[:width].rstrip()), ("Bob", row[width:].rstrip())):
            if cell:
                yield who, not cell.startswith(SET_IN), cell.strip()


def play(server, steps):
    """Returns the difference from the steps, as a text, or the empty text."""
    players = {who: Client(server.port) for who in ("Ann", "Bob")}
    steps = [*((who, False, GREETING) for who in players), *((who, typed, line.encode()) for who, typed, line in steps)]
    for who, is_typed, line in steps:
        if is_typed:
            players[who].send(line)
        elif (given := players[who].line()) != line:
            return f"{who} reads {given}, and not {line}"
    for who, player in players.items():
        player.send(b"quit")
        if not (player.line() or b"").endswith(b" bye") or player.line() is not None:
            return f"{who} is told more"
    return ""


@part("first-words", "what README has two players type is answered as it says, in a new journal")
def first_words(count):
    readme = text_of("README.md")
    words, steps = shlex.split(START.search(readme)[1]), list(steps_of(readme))
    with tempfile.TemporaryDirectory() as folder:
        words = [f"{folder}/{word}" if word.endswith(".journal") else word for word in words if word != "--console"]
        with Server(program("mud_serve"), words, console=True) as server:
            why = play(server, steps)
            server.type(b"stop\n")
            status, printed = server.end()
    count("README: two players", steps and not why, why)
    count("README: stop", status == 0 and printed.startswith(b"mud history 2\n"), f"{status} {printed}")


def given(name, words, **how):
    """Returns the result of a program with these words: its status, its output and its errors."""
    how = {"stdin": subprocess.DEVNULL, "stdout": subprocess.PIPE, **how}
    how |= {"stderr": subprocess.PIPE, "timeout": SECONDS, "text": True}
    ran = subprocess.run([program(name), *words], check=False, **how)
    return ran.returncode, ran.stdout, ran.stderr


def count_help(count, name, form):
    """Counts that two options print help, to standard output only."""
    for option in ("--help", "-h"):
        status, output, errors = given(name, [*form.split(), option])
        usage = f"\nUsage: {' '.join([name, *form.split()])}"
        count(f"{name} {form} {option}", (status, errors) == (0, "") and usage in output, f"{status} {output} {errors}")


def count_version(count, name, number, kit):
    """Counts that the version is that of CHANGELOG.md, and says whether the program was proved."""
    wanted = f"{name} {number}, {'unproved' if is_unproved() else f'proved with {kit}'}\n"
    for option in ("--version", "-V"):
        answer = given(name, [option])
        count(f"{name} {option}", answer == (0, wanted, ""), f"{answer}, and not {wanted!r}")


@part("help", "each program tells its help and its version on standard output")
def help_and_version(count):
    number, kit = NUMBER.search(text_of("CHANGELOG.md"))[1], KIT.search(text_of("README.md"))[0]
    for name, (forms, unwritten) in FORMS.items():
        count_version(count, name, number, kit)
        for form in forms:
            count_help(count, name, form)
        with open("/dev/full", "w") as full:
            status, _, _ = given(name, ["--help"], stdout=full)
        count(f"{name} --help, a full disk", status == unwritten, f"status {status}")


@part("no-proof-claimed", "one place says with what the programs are proved, and `./run --unproved` knows it")
def no_proof_claimed(count):
    folders = [f"{TOP}/crates/{name}/src" for name in os.listdir(f"{TOP}/crates")]
    paths = [f"{folder}/{file}" for folder in folders if os.path.isdir(folder) for file in os.listdir(folder)]
    naming = [os.path.relpath(path, TOP) for path in paths if KIT.search(read(path).decode())]
    count("one file names the kit", naming == ["crates/mud_cli/src/build.rt"], naming)
