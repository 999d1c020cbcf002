"""The programs that the tests run: the ones built last in the folders of their crates, or the ones built before any
proof."""
import os
import subprocess

TOP = os.path.dirname(os.path.dirname(os.path.dirname(os.path.realpath(__file__))))


# Below a crate's folder: the last build, and the build before any proof.
LAST, UNPROVED = "out", "out/unproved"
# The folders with the programs that the tests run.
places = [LAST]


class NotBuilt(Exception):
    """The program has not been built."""


def use_unproved():
    """Makes the tests run programs that were built before any proof."""
    places[:] = [UNPROVED]


def are_built():
    """Returns whether the programs under test exist. Builds unproved programs and the tests in Rattle first."""
    return not is_unproved() or subprocess.run([f"{TOP}/run", "--unproved", "--all"], check=False).returncode == 0


def is_unproved():
    """Returns whether the tests run programs that were built before any proof."""
    return places == [UNPROVED]


def program(name):
    """Returns the path of a built program: `program("mud_serve")`."""
    return built(name, name, f"`rt ci` or `./run {name}`")


def tests_of(name):
    """Returns the path of the built tests of a crate: `tests_of("mud_tests")`."""
    return built(name, f"{name}_tests", "`rt ci`")


def built(crate, name, builder):
    """Returns the path of a built file of a crate."""
    path = f"crates/{crate}/{places[0]}/{name}"
    if not os.access(f"{TOP}/{path}", os.X_OK):
        raise NotBuilt(f"{path} is not there: {builder} builds it")
    return f"{TOP}/{path}"
