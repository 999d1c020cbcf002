#!/usr/bin/env python3
"""workspace.py: proves the programs of bench/crates over the present libraries. The status is 0 if all are proved.
`bench/hall/run` and `bench/workers/run` build theirs by it.

`rt ci` refuses code outside of the crates of the repository, so these files end in .txt. The script copies them to a
temporary folder under their own names, beside the libraries: a repository of its own, which `rt ci` proves. `rt ci`
reuses earlier proofs of the libraries on this machine, also those of the gate.
"""
import contextlib
import os
import shutil
import subprocess
import sys
import tempfile

BENCH = os.path.dirname(os.path.realpath(__file__))
TOP = os.path.dirname(BENCH)
OF_LIBRARY = ("src", "specs", "proofs")
# The last output of the programs if they get no arguments, as from rt.
OF_NO_WORDS = "2\n"


def lines_of(path):
    """Returns the lines of crates: each name with its dependencies."""
    with open(path, encoding="ascii") as file:
        lines = [line.partition("#")[0].partition(":") for line in file]
    return {name.strip(): stands_on.split() for name, _, stands_on in lines if name.strip()}


PROGRAMS = lines_of(f"{BENCH}/crates/lines.txt")


def below(libraries, names):
    """Returns the libraries of the repository on which these crates depend, with all below them."""
    found = set()
    left = [*names]
    while left:
        name = left.pop()
        if name in libraries and name not in found:
            found.add(name)
            left += libraries[name]
    return found


def lay_out_program(name, folder):
    """Copies a program's files, without the ending .txt."""
    for at, _, files in os.walk(f"{BENCH}/crates/{name}"):
        place = os.path.join(folder, "crates", os.path.relpath(at, f"{BENCH}/crates"))
        os.makedirs(place)
        for file in files:
            shutil.copy(f"{at}/{file}", f"{place}/{file.removesuffix('.txt')}")
    with open(f"{folder}/crates/{name}/status", "w", encoding="ascii") as file:
        file.write(OF_NO_WORDS)


@contextlib.contextmanager
def laid_out(*names):
    """Makes a folder with these programs and their libraries, as a repository, and yields it."""
    libraries = lines_of(f"{TOP}/crates.txt")
    crates = {it: libraries[it] for it in below(libraries, [low for name in names for low in PROGRAMS[name]])}
    with tempfile.TemporaryDirectory() as folder:
        for name in crates:
            for part in filter(lambda part: os.path.isdir(f"{TOP}/crates/{name}/{part}"), OF_LIBRARY):
                shutil.copytree(f"{TOP}/crates/{name}/{part}", f"{folder}/crates/{name}/{part}")
        for name in names:
            lay_out_program(name, folder)
        shutil.copy(f"{TOP}/HANDLES", folder)
        with open(f"{folder}/crates.txt", "w", encoding="ascii") as file:
            file.writelines(f"{name}: {' '.join(lows)}\n" for name, lows in [*crates.items(), *map(program, names)])
        yield folder


def program(name):
    return name, PROGRAMS[name]


def prove(folder):
    """Returns the status of the proof of the copy."""
    return subprocess.run(["rt", "ci"], cwd=folder, stdin=subprocess.DEVNULL, stdout=sys.stderr, check=False).returncode


@contextlib.contextmanager
def built(name):
    """Returns the path of a proved and built program."""
    with laid_out(name) as folder:
        if prove(folder):
            sys.exit(f"{name} is not proved, or not built")
        yield f"{folder}/crates/{name}/out/{name}"


def main():
    with laid_out(*PROGRAMS) as folder:
        return prove(folder)


if __name__ == "__main__":
    sys.exit(main())
