"""Sessions: the lines of a player, and everything that a script answers. The checker accepts each proof in the
answers."""
import difflib
import os
import re
import subprocess
from concurrent.futures import ThreadPoolExecutor

from harness import inputs
from harness.parts import part
from harness.programs import TOP, program
from harness.proofs import refused

PROOF = re.compile(rb"^\[[0-9]+\] proof\n(.*?^end\n)", re.MULTILINE | re.DOTALL)
HISTORY = re.compile(rb"^\[[0-9]+\] history\n(.*?^end [0-9]+\n)", re.MULTILINE | re.DOTALL)


def answer(command, text):
    """Returns the status of a program and its output for a text on standard input."""
    done = subprocess.run(command, input=text, stdout=subprocess.PIPE, stderr=subprocess.DEVNULL, cwd=TOP)
    return done.returncode, done.stdout


def shown_lines(text):
    """The lines of bytes, each with what can't be seen spelled out. A last line without an end says so."""
    *lines, last = (repr(line)[2:-1] for line in text.split(b"\n"))
    return lines + [f"{last} (no line end)"] * bool(last)


def difference(printed, wanted):
    """Returns how a text differs from the expected one, as `diff -u` shows it, or nothing if they are equal."""
    if printed == wanted:
        return ""
    lines = difflib.unified_diff(shown_lines(wanted), shown_lines(printed), "wanted", "printed", n=2, lineterm="")
    return "\n".join(["it differs", *lines])


def misanswered(command, one):
    """Returns how a program's answer to an input differs from the expected one, or nothing if it does not."""
    status, printed = answer([*command, *one.words], one.text)
    return f"the status is {status}" if status != 0 else difference(printed, one.wanted())


def count_each(count, why_not, tests):
    """Counts tests, each a name and its input; a test passes if `why_not` returns no reason. Several run at once."""
    wanted = [(name, tried) for name, tried in tests if count.wants(name)]
    with ThreadPoolExecutor(os.cpu_count()) as threads:
        running = [(name, threads.submit(why_not, tried)) for name, tried in wanted]
        for name, one in running:
            count.tries(name, one.result)


def named(found):
    """Returns inputs with their names: their paths from the top of the repository."""
    return [(os.path.relpath(one.path, TOP), one) for one in found]


def without_returns(text):
    """Returns lines that end with CR LF as lines that end with LF, as the checker reads them."""
    return text.replace(b"\r", b"")


def rejected(one):
    """Returns what the checker says of the proofs of a session that it doesn't accept, or nothing if it accepts all.

    The session is played without `quit`, and asks for the history at its end.
    """
    lines = [line for line in one.text.removesuffix(b"\n").split(b"\n") if line != b"quit"]
    asked = b"\n".join([*lines, b"@history\n"])
    _, printed = answer([program("mud_serve"), "script", *one.words], asked)
    printed = without_returns(printed)
    proofs = PROOF.findall(printed)
    return "; ".join(refused(HISTORY.findall(printed)[-1], proofs)) if proofs else "no proof is printed"


@part("sessions", "the lines of each session are answered as is written beside them")
def play_sessions(count):
    script = [program("mud_serve"), "script"]
    count_each(count, lambda one: misanswered(script, one), named(inputs.sessions()))


@part("proofs", "the checker accepts each proof that a session prints, by the history at its end")
def check_proofs(count):
    proving = [one for one in inputs.sessions() if PROOF.search(without_returns(one.wanted()))]
    count_each(count, rejected, named(proving))
