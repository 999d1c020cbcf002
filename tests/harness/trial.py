"""A trial: a program runs on one input again and again, and each time another of its calls fails."""
import itertools
import os
import subprocess
import tempfile

from harness.preload import library
from harness.programs import TOP, program

SECONDS = 20
NO_END = (None, b"", b"(no end)")
SHOWN_FAULTS, SHOWN_LENGTH = 5, 300


class Trial:
    """A run of a program, and `whole`, its result if no call fails: its status, its output and its errors. A preloaded
    library counts the program's calls, and fails one of them."""

    def __init__(self, run, failing, path=None):
        self.run, self.library = run, library(failing)
        self.command = [path or program(run.program), *run.words]
        self.counted = tempfile.NamedTemporaryFile()
        self.whole = self.given()
        self.calls = self.calls_made()

    def given(self, text=None, **chosen):
        """Returns the status, the output and the errors for the run's input, or for another text. `chosen` goes to the
        library's environment: `FAILED_CALL=3`."""
        self.counted.truncate(0)
        chosen = {name: str(value) for name, value in chosen.items()}
        environment = {**os.environ, "LD_PRELOAD": self.library, "CALLS_FILE": self.counted.name, **chosen}
        text = self.run.text if text is None else text
        how = {"input": text, "capture_output": True, "timeout": SECONDS, "env": environment, "cwd": TOP}
        ran = subprocess.run(self.command, check=False, **how)
        return ran.returncode, ran.stdout, ran.stderr

    def given_if_it_ends(self, **chosen):
        """Returns the result of `given`, or `NO_END` if the program runs for too long."""
        try:
            return self.given(**chosen)
        except subprocess.TimeoutExpired:
            return NO_END

    def counted_words(self):
        """Returns the library's report at the end of the last run."""
        with open(self.counted.name, encoding="ascii") as file:
            return file.read().split()

    def calls_made(self):
        """Returns how many calls the last run made: none if it did not end by itself."""
        return int((self.counted_words() or ["0"])[0])

    def failed_kind(self):
        """Returns the kind of the call that failed in the last run: `read`, `write` or `none`."""
        return (self.counted_words()[1:] or ["none"])[0]

    def in_turn(self, is_right, ways=("FAILED_CALL",)):
        """Fails each call in turn, in each of the ways. Returns how many runs gave something else than the whole, and
        what is wrong, as texts. `is_right` judges a run by its result and the number of the call."""
        felt, faults = 0, []
        for call, way in itertools.product(range(1, self.calls + 1), ways):
            given = self.given_if_it_ends(**{way: call})
            felt += given != self.whole
            if not is_right(given, call):
                faults.append(shown(f"{way}={call}", given))
        return felt, faults


def shown(how, given):
    """Returns a run as a text of limited length."""
    return f"{how}: {given}"[:SHOWN_LENGTH]


def tell(count, name, trial, felt, faults):
    """Counts a trial as one test, and prints its result."""
    what = f"{name}: {trial.run.program}, {trial.run.name}"
    print(f"{what}: {trial.calls} calls failed in turn, {felt} felt, {len(faults)} answered wrongly", flush=True)
    count(what, not faults, "; ".join(faults[:SHOWN_FAULTS]))
