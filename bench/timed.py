"""Runs a program over a file, and tells what that took."""
import os
import statistics
import sys

HERE = os.path.dirname(os.path.realpath(__file__))
SERVE = f"{HERE}/../crates/mud_serve/out/mud_serve"


def used_by(command, given, said):
    """Returns the processor time of a run, user and system, in milliseconds: that of the started process alone. It
    reads the file `given` and writes the file `said`. Its greatest memory is not told: the system counts the memory of
    the program that starts it, too."""
    source = os.open(given, os.O_RDONLY)
    target = os.open(said, os.O_WRONLY | os.O_CREAT | os.O_TRUNC, 0o600)
    ends = [(os.POSIX_SPAWN_DUP2, source, 0), (os.POSIX_SPAWN_DUP2, target, 1)]
    started = os.posix_spawn(command[0], command, os.environ, file_actions=ends)
    _, status, used = os.wait4(started, 0)
    os.close(source)
    os.close(target)
    if status != 0:
        sys.exit(f"{command[0]}: status {status}")
    return 1000 * (used.ru_utime + used.ru_stime)


def in_turn(sides, times):
    """Returns what the calls of `sides` return, by name. They run in turn, this many times."""
    found = {name: [] for name in sides}
    for _ in range(times):
        for name, call in sides.items():
            found[name].append(call())
    return found


def spread(numbers):
    """Returns the least and the greatest of some numbers, and their median."""
    return f"{min(numbers):.2f} to {max(numbers):.2f}, {statistics.median(numbers):.2f}"


def write(path, text):
    with open(path, "w", encoding="ascii") as file:
        file.write(text)


def content(path):
    with open(path, "rb") as file:
        return file.read()


def tell(*cells):
    """Prints a row of a table."""
    print(f"| {' | '.join(cells)} |", flush=True)


def tell_head(*cells):
    """Prints the head of a table."""
    tell(*cells)
    tell(*["---"] * len(cells))
