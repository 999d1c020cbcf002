"""The prover, run over the libraries as they were last proved."""
import functools
import importlib.machinery
import importlib.util
import itertools
import os
import re
import subprocess
from dataclasses import dataclass

from harness.programs import TOP, NotBuilt

# The folders below a crate where `rt ci` and `rt check`, and where `./run`, leave a proved library.
PLACES = ("out/rlib", "out/stated")
# How the prover reports an unproved function and its place, and a proof that names something that no longer exists.
PLACE = r"(?:\./)?(?:src|specs|proofs)/\S+:\d+:\d+: "
REASON = re.compile(rf"note: {PLACE}|{PLACE}error")
GONE = re.compile(r"has no field|has no `|is not in scope|was not admitted")


@functools.cache
def run():
    """Returns `./run` as a module: it knows the crates, and the arguments for the kit's compiler."""
    loader = importlib.machinery.SourceFileLoader("run", f"{TOP}/run")
    module = importlib.util.module_from_spec(importlib.util.spec_from_loader("run", loader))
    loader.exec_module(module)
    return module


@functools.cache
def crates():
    return run().Crates()


def rlib_at(place, name):
    return f"{TOP}/crates/{name}/{place}/{name}.rlib"


@functools.cache
def place_below(crate):
    """Returns the folder that holds all libraries below a crate."""
    below = crates().below(crate)
    for place in PLACES:
        if all(os.path.exists(rlib_at(place, low)) for low in below):
            return place
    raise NotBuilt(f"what {crate} stands on is not there: `rt ci` or `./run` proves it")


@dataclass
class Said:
    """The prover's report on one function of a crate: the status, all lines, and the lines about this function."""

    function: str
    status: int
    lines: list
    own: list

    def of_function(self):
        """Returns the verdict at the end of the function's line, such as `proved`, or an empty text if there is no such
        line."""
        found = (line_of(self.function, line) for line in self.lines)
        return next((one["verdict"] for one in found if one), "")

    def is_proved(self):
        return self.status == 0 and self.of_function().startswith("proved")

    def finds_no_proof(self):
        """Returns whether it read everything and found no proof of the function, for more reason than a missing
        name."""
        read_all = self.status == 1 and re.match(r"only=\d+ proved=\d+$", self.lines[-1])
        reasons = [line for line in self.own if REASON.match(line) and not GONE.search(line)]
        return bool(read_all and reasons and re.match(r"not proved|no proof", self.of_function()))

    def shown(self):
        """Returns what to show if it says something else than expected."""
        reasons = [line for line in self.lines if REASON.match(line) or " error" in line]
        return f"status {self.status}: {'; '.join(line[:200] for line in [*reasons[:2], self.lines[-1]])}"


def line_of(function, line):
    """Returns the parts of a line with the verdict on a function: its path in the crate, and the verdict."""
    return re.fullmatch(rf"fn \w+::(?P<path>(?:\w+::)*{re.escape(function)}): (?P<verdict>.*)", line)


def lines_about(function, lines):
    """Returns the lines that are about a function alone: those about the files of its proof, and the notes before the
    line with its verdict."""
    at, found = next(((at, one) for at, one in enumerate(line_of(function, line) for line in lines) if one), (0, None))
    if not found:
        return []
    files = f"proofs/{found['path'].replace('::', '/')}/"
    before = itertools.takewhile(lambda line: not line.startswith("fn "), reversed(lines[:at]))
    notes = (line for line in before if line.startswith("note: "))
    return [*notes, *(line for line in lines if line.removeprefix("./").startswith(files))]


def check_functions(crate, names, folder, kept):
    """Returns the prover's reports on functions of a crate whose files are in this folder, checked with the functions
    that they call there. It begins with what earlier checks of the crate left in the folder `kept`, and adds to it."""
    words = run().words_over(crates(), crate, functools.partial(rlib_at, place_below(crate)))
    status, lines = checked([*words, "--incremental", kept], names, folder)
    return [Said(name, status, lines, lines_about(name, lines) if len(names) > 1 else lines) for name in names]


def check_own(name, like, function, folder):
    """Returns the prover's report on a function of a crate of this name that depends on the kit's core, and on the
    crates of another one."""
    words = run().words_over(crates(), like, functools.partial(rlib_at, place_below(like)))
    words = [name if it == like else it for it in words]
    status, lines = checked([*words, "--extern", f"core={run().kit()}/rlibs/core.rlib"], [function], folder)
    return Said(function, status, lines, lines)


def checked(words, names, folder):
    """Checks these functions of the crate in this folder. Returns the prover's status and its lines."""
    words = [f"{run().kit()}/bin/rattle", "check", *words, *(word for name in names for word in ("--only", name))]
    how = {"stdin": subprocess.DEVNULL, "stdout": subprocess.PIPE, "stderr": subprocess.STDOUT, "errors": "replace"}
    ran = subprocess.run(words, cwd=folder, check=False, **how)
    return ran.returncode, ran.stdout.strip().split("\n")
