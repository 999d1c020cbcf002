"""Dialogues: the input and the output of several clients of one server, and the output of the server at its end. The
certificates that clients read are checked against the printed history.

Each line of a dialogue is a step. It begins with the name of a client, any word:

    Ann opens             connects as one more client
    Ann > TEXT            sends TEXT and a line end
    Ann < TEXT            reads TEXT and a line end
    Ann sends FF F6       sends these bytes
    Ann reads FF FC 03    reads these bytes
    Ann ends              reads the end of all that is sent to her
    Ann closes            closes her connection, with nothing left to read as far as that is known
    listens WORD..        words for `mud_serve listen`; comes before all others
    prints                the server ends with status 0; it has printed the lines after this one, and no other

Blank lines and lines that begin with `#` are not steps.
"""
import os
import re
import tempfile

from harness.inputs import read, tests_file
from harness.parts import part
from harness.programs import TOP, program
from harness.proofs import refused
from harness.server import Client, Server

PROOF = re.compile(rb"\[[0-9]+\] proof")
# Dialogues at a server that continues a history, with its name.
GOING_ON = [("format-one-goes-on", "format-one"), ("as-long-as-there-is-room", "ten")]


class Differs(Exception):
    """Something differed from the dialogue."""


class Player:
    """A client, and the proofs that it read."""

    def __init__(self, port, proofs):
        self.client = Client(port)
        self.proofs = proofs
        self.proof = None

    def reads(self, wanted):
        """Reads a line, and keeps the lines of a proof."""
        given = self.client.line()
        if given != wanted:
            raise Differs(f"reads {given}, and not {wanted}")
        if self.proof is not None:
            self.proof.append(given)
            if given == b"end":
                self.proofs.append(b"".join(line + b"\n" for line in self.proof))
                self.proof = None
        elif PROOF.fullmatch(given):
            self.proof = []

    def reads_bytes(self, wanted):
        given = self.client.take(len(wanted))
        if given != wanted:
            raise Differs(f"reads {given}, and not {wanted}")

    def ends(self):
        given = self.client.line() or self.client.kept
        if given:
            raise Differs(f"reads {given}, and not the end")
        self.client.close()


class Stage:
    """The server, and the clients that have not ended."""

    def __init__(self, server):
        self.server = server
        self.players = {}
        self.proofs = []

    def play(self, name, what, text):
        """Plays one step."""
        if what == "opens":
            self.players[name] = Player(self.server.port, self.proofs)
            return
        player = self.players[name]
        steps = {
            ">": lambda: player.client.send(text.encode()),
            "<": lambda: player.reads(text.encode()),
            "sends": lambda: player.client.give(bytes.fromhex(text)),
            "reads": lambda: player.reads_bytes(bytes.fromhex(text)),
            "ends": player.ends,
            "closes": player.client.close,
        }
        steps[what]()
        if what in ("ends", "closes"):
            del self.players[name]

    def prints(self, wanted):
        """Checks the output, when the program has ended by itself."""
        if self.players:
            raise Differs(f"these have not ended: {', '.join(self.players)}")
        status, printed = self.server.end()
        if (status, printed) != (0, wanted):
            raise Differs(f"ends with status {status}, and has printed {printed.decode()!r}")
        return printed


def steps_of(text):
    """Returns the words for the program, the steps with their line numbers, and the expected output."""
    steps, _, printed = text.partition("\nprints\n")
    lines = [(at, line.split(" ", 2)) for at, line in enumerate(steps.splitlines(), 1) if line[:1] not in ("", "#")]
    words = lines.pop(0)[1][1:] if lines[0][1][0] == "listens" else []
    return " ".join(words).split(), [(at, [*parts, ""][:3]) for at, parts in lines], printed.encode()


def play(path, *more):
    """Plays a dialogue, with further words for its server. Returns the printed history and the proofs that were read. A
    difference is raised with the number of the line."""
    words, steps, wanted = steps_of(read(path).decode())
    server = Server(program("mud_serve"), [*words, *more])
    stage, at = Stage(server), 0
    try:
        for at, step in steps:
            stage.play(*step)
        at = "at the end"
        return stage.prints(wanted), stage.proofs
    except (Differs, OSError, KeyError) as error:
        raise Differs(f"line {at}: {error!r}") from error
    finally:
        server.kill()


def count_dialogue(count, path, *more):
    """Counts a dialogue and the proofs that were read. Returns the history, or None if the dialogue differs."""
    name = os.path.relpath(path, TOP)
    try:
        history, proofs = play(path, *more)
    except Differs as error:
        count(name, False, error)
        return None
    faults = refused(history, proofs)
    count(name, True)
    count(f"{name}: its proofs", proofs and not faults, "; ".join(faults) or "there is none")
    return history


@part("dialogues", "two people play at one server, and other servers go on from histories")
def dialogues(count):
    count_dialogue(count, f"{TOP}/examples/two-players.talk")
    for name, history in GOING_ON:
        count_dialogue(count, tests_file(f"dialogues/{name}.talk"), "--load", tests_file(f"halls/{history}.history"))
    history = count_dialogue(count, tests_file("dialogues/two-players.talk"))
    with tempfile.TemporaryDirectory() as folder:
        path = os.path.join(folder, "history")
        with open(path, "wb") as file:
            file.write(history or b"")
        count_dialogue(count, tests_file("dialogues/two-players-go-on.talk"), "--load", path)
