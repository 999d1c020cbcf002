"""The cost of a player's line: the number of instructions that callgrind counts for it. A program gets a script with
some lines, and one with more of them; the difference is divided by their number, so the lines that build the world
don't count. Three lines have a bound here; `bench/lines` has more of them, beside a plain program."""
import functools
import re
import shutil
import subprocess
import tempfile
from itertools import cycle, islice
from typing import NamedTuple

from harness.inputs import read
from harness.parts import Skipped, part
from harness.programs import program

SECONDS = 600
# The tolerance of a bound: compilers differ a little.
SLACK = 1.3
TOTAL = re.compile(rb"^totals: (\d+)", re.M)
# The number of rooms in the ring, and how far its chords lead.
ROOMS, FURTHER = 1200, 35


class NotCounted(Exception):
    """Callgrind gives no count of a program."""


class Line(NamedTuple):
    """The case; the lines that build the world; the counted lines, which take turns; their number in the shorter
    script, and the further ones in the longer script."""

    what: str
    world: list
    asked: list
    fewer: int = 200
    more: int = 1000

    def script(self, times):
        """Returns the input of a script with this many of the counted lines."""
        lines = [*self.world, *islice(cycle(self.asked), times)]
        return "".join(f"{line}\n" for line in lines).encode()


def needs_valgrind():
    """Returns whether callgrind is missing."""
    return not shutil.which("valgrind")


def counted(command, text):
    """Returns the number of instructions of a program for an input, and its output."""
    with tempfile.TemporaryDirectory() as folder:
        report = f"{folder}/report"
        valgrind = ["valgrind", "--tool=callgrind", f"--callgrind-out-file={report}", *command]
        done = subprocess.run(valgrind, input=text, capture_output=True, timeout=SECONDS)
        totals = TOTAL.findall(read(report))
    if done.returncode != 0 or not totals:
        raise NotCounted(f"{command[0]}: callgrind has no count, as of a program that isn't proved")
    return int(totals[-1]), done.stdout


def cost_of(command, line):
    """Returns the number of instructions of one more line, and the output of the longer script."""
    fewer, _ = counted(command, line.script(line.fewer))
    all_of_them, told = counted(command, line.script(line.fewer + line.more))
    return (all_of_them - fewer) / line.more, told


def ring():
    """Returns the lines that build a ring of rooms: from each an exit leads to the next, and a chord to one further on.
    Room n is object 2n, the first is the hall, and the player is there at the end."""
    lines = [line for room in range(1, ROOMS) for line in (f'@dig next to "R{room}"', "go next")]
    lines += ["@dig next to #0", "go next"]
    chords = (f"@dig chord to #{2 * ((room + FURTHER) % ROOMS)}" for room in range(ROOMS))
    return lines + [line for chord in chords for line in (chord, "go next")]


def ring_routes():
    """Returns routes to rooms here and there in the ring."""
    return [f"route to #{2 * (977 * turn % ROOMS)}" for turn in range(1, ROOMS)]


SAY = Line("say hello there everybody", [], ["say hello there everybody"])
GO = Line("go X, there and back", ['@dig there|back to "Another room"'], ["go there", "go back"])
RING = Line("route in a ring with chords", ring(), ring_routes(), fewer=5, more=20)
# Lines that open and close nothing for the player, who has an axe. They take turns, one before each route.
KEEPING = {
    "talk": ["say hi"],
    "a walk": ["go next"],
    "a thing is made": ["@create bow"],
    "a room is dug": ['@dig "Cellar"'],
    "an exit is dug": ["@dig stair to #2"],
    "a cost is set": ["@cost #3 is 2"],
    "a name is set": ["@rename #0 to \"The Hall\""],
    "a key is set": ["@lock #3 with #1"],
    "a thing is moved": ["drop axe", "take axe"],
    "an object is recycled": ["@create bow", "@recycle bow"],
}
# These routes, all after a recycling.
AFTER_RECYCLING = RING._replace(what="route after a recycling", world=[*RING.world, "@create axe", "@recycle axe"])
# How many times the usual cost such a route may take.
TIMES_USUAL = 1.1
# A line, its greatest number of instructions, and the beginning of its answer.
BOUNDS = [
    (SAY, 4_600, "said"),
    (GO, 4_600, "went by #"),
    (RING, 660_000, "route #0 to #"),
]


def why_dear(line, bound, right):
    """Returns why a line has a wrong answer or costs too much, or nothing."""
    cost, told = cost_of([program("mud_serve"), "script"], line)
    answer = told.decode().splitlines()[-1].partition(" ")[2]
    if not answer.startswith(right):
        return f"{answer}, and not {right}"
    return f"{cost:,.0f} instructions, and the bound is {bound:,}" if cost > SLACK * bound else ""


@functools.cache
def usual_cost():
    """Returns the number of instructions of a route in the ring."""
    return cost_of([program("mud_serve"), "script"], RING)[0]


def why_dearer(line, alone=None):
    """Returns why the routes of a line are not all answered, or cost more than they may beside the usual ones, or
    nothing. `alone` are the lines between them, whose own cost doesn't count."""
    serve, least = [program("mud_serve"), "script"], usual_cost()
    cost, told = cost_of(serve, line)
    cost -= cost_of(serve, alone)[0] if alone else 0
    answered = sum(answer.partition(" ")[2].startswith("route #") for answer in told.decode().splitlines())
    if answered != line.fewer + line.more:
        return f"{answered} routes"
    return f"{cost:,.0f} instructions, and usually {least:,.0f}" if cost > TIMES_USUAL * least else ""


@part("line-costs", "what is said, a walk and a route take no more instructions than they did", wants_proof=True)
def line_costs(count):
    if needs_valgrind():
        raise Skipped("valgrind is not there")
    for line, bound, right in BOUNDS:
        count.tries(f"line costs: {line.what}", why_dear, line, bound, right)
    count.tries(f"line costs: {AFTER_RECYCLING.what}", why_dearer, AFTER_RECYCLING)
    world = [*RING.world, "@create axe"]
    for what, lines in KEEPING.items():
        after = RING._replace(world=world, asked=[f"{line}\n{route}" for line, route in zip(cycle(lines), RING.asked)])
        count.tries(f"line costs: route after {what}", why_dearer, after, RING._replace(world=world, asked=lines))
