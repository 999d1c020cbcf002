"""Each call by which a program reads or writes fails in turn. A run must give the output of a run without failures, or
a prefix of it and the program's message:

mud_serve, mud_explain    `PROGRAM: read fault` or `PROGRAM: write fault`, as the call was, and status 3; where it is a
                          file of `--load` that can't be read, `PROGRAM: cannot load: file`
mud_check                 for a read `unreadable: file ` and the name, and nothing else; for a write a prefix of its
                          line; status 2
mud_keep                  for a read `unreadable: file ` and the name on standard error; for a write a prefix of its
                          text, and `unreadable: standard output` on standard error; status 2

If each call moves one byte, the whole output must be given.
"""
import subprocess
import tempfile

from harness import runs
from harness.inputs import read, tests_file
from harness.parts import part
from harness.preload import library
from harness.programs import program
from harness.trial import Trial, shown, tell

ENDLESS_SECONDS = 600
# The greatest number of reads of a script (docs/PROVED.md), and its message beyond that.
MOST_READS, TOO_MANY = 16_777_216, b"mud_serve: too many reads\n"


class FailedCalls(Trial):
    """A trial whose calls are those that read or write."""

    def __init__(self, run):
        super().__init__(run, "fail_ends")

    def says(self, kind):
        """Returns the possible answers of the program if a call of this kind fails: its status, and its texts after a
        prefix."""
        name, words = self.run.program, self.run.words
        if name == "mud_check":
            unread = [(b"unreadable: file %s\n" % it.encode(), b"") for it in words or ["-"]]
            return 2, unread if kind == "read" else [(b"", b"")]
        if name == "mud_keep":
            unread = [(b"", b"unreadable: file %s\n" % it.encode()) for it in words[1:]]
            return 2, unread if kind == "read" else [(b"", b"unreadable: standard output\n")]
        texts = [f"{kind} fault", *(["cannot load: file"] if kind == "read" and "--load" in words else [])]
        return 3, [(b"", f"{name}: {text}\n".encode()) for text in texts]

    def is_right(self, given, _):
        """Returns whether a call failed, and the program answered as it should."""
        kind = self.failed_kind()
        if given == self.whole:
            return kind != "none"
        status, texts = self.says(kind)
        for output, errors in texts if kind != "none" else []:
            front = given[1].removesuffix(output)
            if given == (status, front + output, errors) and self.whole[1].startswith(front):
                return front == b"" or output == b""
        return False


def failed_in_turn(count, run):
    """Fails each call of a run in turn, and then gives one byte per call."""
    trial = FailedCalls(run)
    felt, faults = trial.in_turn(trial.is_right)
    by_bytes = trial.given(MOVED_BYTES=1)
    if by_bytes != trial.whole:
        faults.append(shown("byte by byte", by_bytes))
    if not felt:
        faults.append("no failed call is felt")
    tell(count, "failed calls", trial, felt, faults)


def read_endlessly():
    """Runs a script that gets a line end from each read, until it has read as often as it may. Returns its status, its
    errors, and the number of its reads: each byte of its output is a call."""
    environment = {"LD_PRELOAD": library("fail_ends"), "MOVED_BYTES": "1"}
    with tempfile.NamedTemporaryFile() as calls, subprocess.Popen(["yes", ""], stdout=subprocess.PIPE) as lines:
        environment["CALLS_FILE"] = calls.name
        how = {"stdin": lines.stdout, "capture_output": True, "timeout": ENDLESS_SECONDS, "env": environment}
        ran = subprocess.run([program("mud_serve"), "script"], check=False, **how)
        lines.stdout.close()
        lines.terminate()
        said, called = ran.stdout + ran.stderr, int(read(calls.name).split()[0])
    return ran.returncode, said, called - len(said)


@part("failed-calls", "each call that reads or writes fails in turn, or moves one byte")
def failed_calls(count):
    hall = runs.hall("two-desks", "--load", tests_file("halls/ten.history"))
    kept = [runs.keep("show", *runs.LOCKED), runs.drawn()]
    for run in [*runs.few_scripts(), runs.check(*runs.FREE_EXITS), *kept, hall]:
        failed_in_turn(count, run)
    given = read_endlessly()
    count("failed calls: too many reads", given == (3, TOO_MANY, MOST_READS), given)


@part("failed-calls-everywhere", "failed-calls over all small inputs", on_demand=True)
def failed_calls_everywhere(count):
    for run in runs.small_runs():
        failed_in_turn(count, run)
