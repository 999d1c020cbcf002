"""The texts that the tests give to programs: NAME.in, with NAME.out, the expected output, and NAME.args, the words.

Only this module knows the folder of each kind of text.
"""
import glob
import os

from harness.programs import TOP

# The greatest length of a short text, which is given byte by byte, and of a small one, for which each call fails in
# turn.
SHORT, SMALL = 4096, 2048


class Input:
    """A text, by its path without `.in`."""

    def __init__(self, path):
        self.path, self.name = path, os.path.basename(path)
        self.text = read(f"{path}.in")
        has_words = os.path.exists(f"{path}.args")
        self.words = read(f"{path}.args").decode().splitlines() if has_words else []

    def wanted(self):
        """Returns the expected output."""
        return read(f"{self.path}.out")

    def is_small(self, most=SMALL):
        """Returns whether it is not empty, and has at most this many bytes."""
        return 0 < len(self.text) <= most


def read(path):
    """Returns the bytes of a file."""
    with open(path, "rb") as file:
        return file.read()


def found(*patterns):
    """Returns the inputs that these patterns name, from the top of the repository."""
    paths = sorted(path for pattern in patterns for path in glob.glob(f"{TOP}/{pattern}"))
    return [Input(path.removesuffix(".in")) for path in paths]


def sessions():
    """Returns all sessions: those by subject, and the examples."""
    return found("tests/sessions/*/*.in", "examples/*.in")


def session(name):
    """Returns the session with this name, whatever its subject."""
    return next(one for one in sessions() if one.name == name)


def explained():
    """Returns the explained texts, each with its word."""
    return [(os.path.basename(os.path.dirname(one.path)), one) for one in found("tests/explained/*/*.in")]


def halls():
    """Returns the tables of halls."""
    return found("tests/halls/*.in")


def tests_file(name):
    """Returns the path of a file of the tests: `tests_file("halls/ten.history")`."""
    return f"{TOP}/tests/{name}"
