"""The most expensive steps known in the largest worlds: none delays the others for long. The lines of one player build
a world. Then one line is repeated many times, and the added processor time of the script is divided by their number."""
import resource
import subprocess
from typing import Callable, NamedTuple

from harness.parts import part
from harness.programs import program

# The number of things in a world, the seconds that a script may take, and the most attempts for a row.
THINGS, SECONDS, TRIES = 7_990, 60, 3
# The beginning of long names; a name has at most 60 bytes.
STEM = "a" * 58

THING = "@create t"


def text_of(lines):
    """Returns the input of a script."""
    return "".join(f"{line}\n" for line in lines).encode()


def sixteen(atom, last=""):
    """Returns a key with as many atoms as possible."""
    return " && ".join([atom] * 15 + [last or atom])


def many_things():
    """Builds many carried things with one name: #2, #3 and so on."""
    return [THING] * THINGS


def in_one_another():
    """Builds nested things whose outermost is carried: the first is #2, in #3, which is in #4, and so on."""
    return many_things() + [f"put #{n} in #{n + 1}" for n in range(2, THINGS + 1)]


def locked_by_questions():
    """Builds an exit whose key asks sixteen times for a thing, whose key asks sixteen times for one, whose key asks
    sixteen times for the innermost thing. The key of the room behind it does so too, but its last question is not
    met."""
    room, way, thing = THINGS + 2, THINGS + 3, THINGS + 4
    asked = f"?#{thing + 2}"
    return in_one_another() + [
        '@dig e to "X"',
        *[THING] * 3,
        f"@lock #{thing} with {sixteen('#2')}",
        f"@lock #{thing + 1} with {sixteen(f'?#{thing}')}",
        f"@lock #{thing + 2} with {sixteen(f'?#{thing + 1}')}",
        f"@lock #{way} with {sixteen(asked)}",
        f"@lock #{room} with {sixteen(asked, last='!' + asked)}",
    ]


def asked_by_all():
    """Builds a thing, #2, for which the keys of all others ask, sixteen times each."""
    return many_things() + [f"@lock #{n} with {sixteen('?#2')}" for n in range(3, THINGS + 2)]


def asked_in_a_row():
    """Builds a thing, #2, for which one key asks, while all other keys ask for the object of that key."""
    first = [f"@lock #3 with {sixteen('?#2')}"]
    return many_things() + first + [f"@lock #{n} with {sixteen('?#3')}" for n in range(4, THINGS + 2)]


def asked_by_sixteen():
    """Builds a thing, #2, for which the keys of sixteen things ask. The keys of all others ask for each of these."""
    middle = range(3, 19)
    first = [f"@lock #{n} with ?#2" for n in middle]
    key = " && ".join(f"?#{n}" for n in middle)
    return many_things() + first + [f"@lock #{n} with {key}" for n in range(19, THINGS + 2)]


def named(end):
    """Builds many things with four long names each, which differ in the byte before this end. The last thing's names
    have another byte there, and one more after it."""
    names = ",".join(STEM + last + end for last in "wxyz")
    return [f"@create {names}"] * (THINGS - 1) + [f"@create {STEM}bc"]


def long_names():
    """Builds names as long as the text that is looked up, except the last thing's."""
    return named("")


def longer_names():
    """Builds names one byte longer than the text that is looked up."""
    return named("c")


def many_exits():
    """Builds a room with many exits of one name."""
    return ['@dig e to "X"'] + ["@dig e to #2"] * (THINGS - 10)


class Row(NamedTuple):
    """The case; its world; the repeated line and its answer; the most processor time it may take, in seconds, which is
    several times that on an idle machine; and the number of repetitions."""

    what: str
    world: Callable
    step: str
    right: str
    most: float = 0.05
    steps: int = 20


LOCK, LOCKED = f"@lock #2 with {sixteen('me')}", f"locked #2 with {sixteen('#1')}"
NAMED, MEANT = "&&".join([STEM + "b"] * 16), sixteen(f"#{THINGS + 1}")
ROWS = [
    Row("keys that ask at three levels", locked_by_questions, f"go #{THINGS + 3}", "That place is locked."),
    Row("a lock for which all keys ask", asked_by_all, LOCK, LOCKED),
    Row("its unlocking", asked_by_all, "@unlock #2", "unlocked #2"),
    Row("a question too deep", asked_in_a_row, f"@lock #2 with {sixteen('?#4')}", "That key nests too deep."),
    Row("a lock two levels down", asked_in_a_row, LOCK, LOCKED),
    Row("a lock below sixteen keys", asked_by_sixteen, "@lock #2 with ?me", "locked #2 with ?#1"),
    Row("a thing that would hold itself", in_one_another, f"put #{THINGS + 1} in #2", "It can't hold itself."),
    Row("a recycling", in_one_another, f"@recycle #{THINGS + 1}", "That is in use."),
    Row("a name of many things", many_things, "drop t", "Which one do you mean?"),
    Row("a name of many exits", many_exits, "go e", "Which one do you mean?"),
    # Each name is compared with all others, and with none of them twice: whole if they have equal lengths, and
    # otherwise as a prefix of the longer one.
    Row("sixteen long names", long_names, f"@lock #2 with {NAMED}", f"locked #2 with {MEANT}"),
    Row("sixteen beginnings of names", longer_names, f"@lock #2 with {NAMED}", f"locked #2 with {MEANT}"),
]


def played(lines):
    """Returns the last line of a script's output, and its processor time."""
    before = resource.getrusage(resource.RUSAGE_CHILDREN)
    command = [program("mud_serve"), "script"]
    told = subprocess.run(command, input=text_of(lines), stdout=subprocess.PIPE, timeout=SECONDS, check=True).stdout
    after = resource.getrusage(resource.RUSAGE_CHILDREN)
    return told.decode().splitlines()[-1], after.ru_utime + after.ru_stime - before.ru_utime - before.ru_stime


def why_wrong(row):
    """Returns why a step has a wrong answer or takes too long, or nothing. A step that takes too long is tried again,
    because a busy machine charges a program for the work of others."""
    world = row.world()
    for _ in range(TRIES):
        _, alone = played(world)
        told, together = played(world + [row.step] * row.steps)
        took = (together - alone) / row.steps
        if told.partition(" ")[2] != row.right:
            return f"{told}, and not {row.right}"
        if took <= row.most:
            return ""
    return f"{took} s"


@part("dear-steps", "the dearest steps that were found in the largest worlds take little time", wants_proof=True)
def dear_steps(count):
    for row in ROWS:
        count.tries(f"dear steps: {row.what}", why_wrong, row)
