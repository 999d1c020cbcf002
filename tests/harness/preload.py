"""The libraries of tests/preload. Each is preloaded into a program, counts its calls of one kind, and fails one of
them, delays them, or records what was synced.

The harness compiles them once a run, into a folder that it removes at the end.
"""
import functools
import shutil
import subprocess
import tempfile

from harness.parts import Skipped, part
from harness.programs import TOP

# The libraries that suit any program, call by call, and those that suit only a server.
LIBRARIES = ("refuse", "fail_ends", "fail_threads")
SERVER_LIBRARIES = ("fail_files", "note_syncs", "lose_pages", "fail_accept", "ceiling", "short_hour", "late_lock",
                    "slow_sync")
COMPILERS = ("cc", "gcc", "clang")


class NotCompiled(Exception):
    """A library does not compile."""


@functools.cache
def folder():
    return tempfile.TemporaryDirectory(prefix="preload-")


def compiler():
    """Returns the C compiler. Where there is none, tests that need one are skipped."""
    for name in COMPILERS:
        if shutil.which(name):
            return name
    raise Skipped("there is no C compiler here")


@functools.cache
def library(name):
    """Returns the path of a compiled library: `library("refuse")`."""
    path = f"{folder().name}/{name}.so"
    command = [compiler(), "-O2", "-Wall", "-shared", "-fPIC", "-o", path, f"{TOP}/tests/preload/{name}.c"]
    ran = subprocess.run(command, capture_output=True, text=True, check=False)
    if ran.returncode or ran.stderr:
        raise NotCompiled(f"tests/preload/{name}.c: {ran.stderr.strip()}")
    return path


@part("preload", "the libraries that make calls fail are compiled without a warning")
def preload(count):
    for name in (*LIBRARIES, *SERVER_LIBRARIES):
        try:
            count(f"{name}.c", bool(library(name)))
        except NotCompiled as error:
            count(f"{name}.c", False, error)
