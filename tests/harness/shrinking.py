"""A crowd that was answered wrongly, made small: its lines one after the other at a new server, and of them as few as
are still answered wrongly.

    1: connect Ann
    2: connect Bo
    1: @create lamp
    2: take lamp
    session 2: 'take lamp' is answered ['taken'] at 4, and not ['There is no such thing.']

The first word of each line is its session. If all answers are right one after the other, the fault needs threads, and
the part says so.
"""
import heapq
import time
from contextlib import ExitStack, closing
from typing import NamedTuple

from harness.judge import Judge, entries_of, judge
from harness.programs import program
from harness.server import Server
from harness.visit import Visit

SECONDS, SHOWN_STEPS, SHOWN_FAULTS, PLACES = 120, 40, 3, 64


class Step(NamedTuple):
    """A line, and the session that sends it."""

    session: int
    line: str


def steps_of(number, reading, claims):
    """Returns the lines of a session, each with its place among those of others: by version, changes first."""
    at = (0, 0)
    for reply in reading.replies:
        if reply.version is not None:
            at = max(at, (reply.version, claims.get(reply.version) is not reply))
        yield (*at, number), Step(number, reply.line)


def in_order(sessions, history):
    """Returns the lines of all sessions in a possible order; none if the history can't be read."""
    if (entries := entries_of(history)) is None:
        return []
    judged = Judge(entries, sessions)
    rows = [steps_of(at, reading, judged.claims) for at, reading in enumerate(judged.readings, 1)]
    return [step for _, step in heapq.merge(*rows, key=lambda row: row[0])]


def played(steps):
    """Plays lines one after the other at a new server. Returns the faults of the answers."""
    visits, last = {}, {step.session: at for at, step in enumerate(steps)}
    with ExitStack() as stack, Server(program("mud_serve"), console=True) as server:
        for at, step in enumerate(steps):
            if step.session not in visits:
                visits[step.session] = Visit(server.port)
                stack.enter_context(closing(visits[step.session].client))
            if step.line != "quit":
                visits[step.session].ask(step.line)
            if at == last[step.session]:
                visits[step.session].end()
        server.type(b"stop\n")
        _, printed = server.end()
    return judge(printed.decode(), [visit.session for visit in visits.values()])[0]


def faults_of(steps):
    """Returns the faults when these lines are played, as texts. It does not try too many sessions at once."""
    begun = {step.session for step in steps}
    if len(begun) > PLACES:
        return []
    try:
        return played(steps)
    except (OSError, ValueError) as error:
        return [repr(error)]


def fewer(steps, groups, is_wrong, until):
    """Leaves out groups of steps, many at once and then fewer, as long as it stays wrong and there is time."""
    size = max(1, len(groups) // 2)
    while size and groups:
        at = 0
        while at < len(groups) and time.monotonic() < until:
            left = {id(step) for group in groups[at : at + size] for step in group}
            some = [step for step in steps if id(step) not in left]
            if is_wrong(some):
                steps, groups = some, groups[:at] + groups[at + size :]
            else:
                at += size
        size //= 2
    return steps


def shrunk(steps, is_wrong, seconds=SECONDS):
    """Returns as few of the steps as are still wrong, within some seconds. It leaves out whole sessions first, and then
    lines, until it can spare no line.
    """
    until, count = time.monotonic() + seconds, None
    steps = [Step(*step) for step in steps]
    sessions = {step.session: [] for step in steps}
    for step in steps:
        sessions[step.session].append(step)
    steps = fewer(steps, list(sessions.values()), is_wrong, until)
    while len(steps) != count and time.monotonic() < until:
        count = len(steps)
        steps = fewer(steps, [[step] for step in steps], is_wrong, until)
    return steps


def tell_small(sessions, history):
    """Prints a crowd that was answered wrongly, as few lines."""
    steps = in_order(sessions, history)
    if not faults_of(steps):
        print(f"crowd: its {len(steps)} lines one after the other are answered rightly", flush=True)
        return
    small = shrunk(steps, faults_of)
    print(f"crowd: of {len(steps)} lines these are answered wrongly, one after the other:")
    numbers = {session: at for at, session in enumerate(dict.fromkeys(step.session for step in small), 1)}
    print(*(f"    {numbers[step.session]}: {step.line}" for step in small[:SHOWN_STEPS]), sep="\n")
    print(*(f"    {fault}" for fault in faults_of(small)[:SHOWN_FAULTS]), sep="\n", flush=True)
