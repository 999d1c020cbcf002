"""The parts of tests/run: each is a function with a name and a sentence, and counts its tests.

    @part("prepositions", "each preposition is found in a line")
    def prepositions(count):
        count("with", found("put coin with lamp") == "with", "another word is found")

A test may count itself, so that its work is left out if its name is not wanted:

        count.tries("without an object", why_wrong, "put in lamp")

Tests that mostly wait run side by side, unless they measure how busy the machine is:

        count.tries_at_once([("a silent client", why_silent), ("two at once", why_two)])

A part on demand runs only if it is named. A part with words gets the words after its name. A part that wants a proof is
about proofs, or about the costs of a proved program: without names `tests/run --unproved` leaves it out.
"""
import time
import traceback
from concurrent.futures import ThreadPoolExecutor
from dataclasses import dataclass
from typing import Callable

PARTS = {}
SHOWN_LENGTH, SHOWN_CALLS = 2000, 6
# The number of tests that run at once, of those that mostly wait.
AT_ONCE = 8


class Skipped(Exception):
    """A part can't run here, for this reason, and that is not a fault."""


@dataclass
class Part:
    """A function that counts tests, and its description for a reader."""

    name: str
    sentence: str
    run: Callable
    on_demand: bool
    words: str
    wants_proof: bool

    def line(self):
        """Returns its line of `--list`."""
        notes = ["on demand"] * self.on_demand + ["wants a proof"] * self.wants_proof
        notes += [f"words: {self.words}"] * bool(self.words)
        return f"{self.name:<26} {self.sentence}" + (f" ({'; '.join(notes)})" if notes else "")


def reason(why_not, *given, **how):
    """Returns what `why_not` returns, or the text of the exception that it raises, with its last calls."""
    try:
        return why_not(*given, **how)
    except Skipped:
        raise
    except Exception:
        return traceback.format_exc(limit=-SHOWN_CALLS)


class Count:
    """Counts tests: called with a test's name, whether it passed, and why not. With `only`, some texts, it counts those
    tests whose names have one of the texts."""

    def __init__(self, only=()):
        self.only = only
        self.passed = self.failed = 0

    def wants(self, name):
        """Returns whether a test of this name counts."""
        return not self.only or any(text in name for text in self.only)

    def __call__(self, name, passed, why=""):
        if not self.wants(name):
            return
        if passed:
            self.passed += 1
        else:
            self.failed += 1
            print(f"FAILED: {name}{f': {why}' if why else ''}"[:SHOWN_LENGTH], flush=True)

    def tries(self, name, why_not, *given, **how):
        """Counts a test that passes if `why_not`, called with the rest, returns no reason. If the test doesn't count,
        `why_not` isn't called. If it raises an exception, that is the reason, with its last calls."""
        if self.wants(name):
            why = reason(why_not, *given, **how)
            self(name, not why, why)

    def tries_at_once(self, rows):
        """Counts such tests, each a name and its `why_not`, in their order, and runs several at once."""
        with ThreadPoolExecutor(AT_ONCE) as threads:
            running = [(name, threads.submit(reason, why_not)) for name, why_not in rows if self.wants(name)]
            for name, one in running:
                why = one.result()
                self(name, not why, why)

    def __str__(self):
        return f"{self.passed} passed, {self.failed} failed"


def part(name, sentence, on_demand=False, words="", wants_proof=False):
    """Registers a function as a part of tests/run. `words` describes the words that it takes, if any."""

    def register(run):
        if name in PARTS:
            raise ValueError(f"two parts are named {name}")
        PARTS[name] = Part(name, sentence, run, on_demand, words, wants_proof)
        return run

    return register


def run_part(one, words, total):
    """Runs a part and adds its counts. Words for a part that takes none name its tests. An exception counts as one
    failed test."""
    words, only = (words, ()) if one.words else ((), words)
    count, began = Count(only), time.monotonic()
    try:
        one.run(count, *words)
    except Skipped as reason:
        print(f"{one.name}: skipped: {reason}", flush=True)
        return
    except Exception:
        count.failed += 1
        print(f"FAILED: {one.name} breaks off\n{traceback.format_exc()}", end="", flush=True)
    total.passed += count.passed
    total.failed += count.failed
    if only and not count.passed + count.failed:
        print(f"{one.name}: no test has {' or '.join(only)} in its name", flush=True)
    print(f"{one.name}: {count} ({time.monotonic() - began:.0f} s)", flush=True)
