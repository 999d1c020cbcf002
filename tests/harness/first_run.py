"""Proofs by `./run`, and when it makes them, in a small repository of its own: two libraries, a program above both, and
an unrelated library."""
import contextlib
import os
import shutil
import subprocess
import tempfile
from concurrent.futures import ThreadPoolExecutor

from harness.parts import part
from harness.programs import TOP

SECONDS = 300
LINES = """# The crates.
low:
high: low
other: low
tells: high
"""
LOW = """//! A number.
#![tactic(auto)]

/// The number.
pub fn number() -> u32
    ensures { result ≡ 7 }
{
    7
}
"""
HIGH = """//! The number after it.
#![tactic(auto)]

use low::number;

/// The next number.
pub fn next() -> u32
    ensures { result ≡ 8 }
{
    number() + 1
}
"""
TELLS = """//! Writes a number.
#![tactic(auto)]

use high::next;
use std::io::Print;
use std::process::ExitCode;

fn main(rt: HostRuntime) -> ExitCode {
    match println!(rt; "{}", next()) {
        Ok(()) => ExitCode::from(3),
        Err(_) => ExitCode::from(1),
    }
}
"""
CLAUSES = "ghost use Rattle.std.specs.Prelude.{◌≡◌};\n"


def with_clauses(text):
    """Returns the code, with the names in its clauses."""
    return text.replace("#![tactic(auto)]\n", f"#![tactic(auto)]\n\n{CLAUSES}", 1)


FILES = {
    "crates.txt": LINES,
    "crates/low/src/lib.rt": with_clauses(LOW),
    "crates/high/src/lib.rt": with_clauses(HIGH),
    "crates/tells/src/main.rt": TELLS,
    "crates/other/src/lib.rt": "no code",
}


class Repository:
    """A repository in a folder, with `run` in it."""

    def __init__(self, folder):
        self.folder = folder
        shutil.copy(f"{TOP}/run", folder)
        for path, text in FILES.items():
            self.write(path, text)

    def write(self, path, text):
        os.makedirs(os.path.dirname(f"{self.folder}/{path}"), exist_ok=True)
        with open(f"{self.folder}/{path}", "w", encoding="utf-8") as file:
            file.write(text)

    def run(self, *words):
        """Returns the result of `./run` with these words: the status, its output, and its messages about proofs."""
        environment = {**os.environ, "XDG_CACHE_HOME": f"{self.folder}/cache"}
        how = {"cwd": self.folder, "env": environment, "capture_output": True, "text": True, "timeout": SECONDS}
        ran = subprocess.run(["./run", *words], stdin=subprocess.DEVNULL, check=False, **how)
        return ran.returncode, ran.stdout, ran.stderr


@contextlib.contextmanager
def repository():
    with tempfile.TemporaryDirectory() as folder:
        yield Repository(folder)


def ends(said, wanted):
    """Returns whether the last message contains this."""
    return wanted in (said.splitlines() or [""])[-1]


@part("first-run", "what `./run` proves first and after a change, and how it fails, on small crates", wants_proof=True)
def first_run(count):
    with repository() as small:
        first = small.run("tells")
        count("first run", first[:2] == (3, "8\n") and ends(first[2], "tells and 2 libraries, all"), str(first))
        again = small.run("tells")
        count("run again", again == (3, "8\n", ""), str(again))
        count("a copy for the tests", os.path.samefile(*names_of(small, "tells")))
        small.write("crates/high/src/lib.rt", FILES["crates/high/src/lib.rt"].replace("after it", "behind it"))
        changed = small.run("tells")
        count("a library changed", changed[:2] == (3, "8\n") and ends(changed[2], "and 1 library, all"), str(changed))
        small.write("crates/low/src/lib.rt", FILES["crates/low/src/lib.rt"].replace("7", "9"))
        wrong = small.run("tells")
        count("another promise below", wrong[:2] == (1, "") and ends(wrong[2], "run: high is not proved"), str(wrong))
        small.write("crates/low/src/lib.rt", FILES["crates/low/src/lib.rt"])
        mended = small.run("tells")
        count("mended", mended == (3, "8\n", ""), str(mended))


def names_of(small, program):
    """Returns the two names of a program: the one with its sum, and the one by which tests know it."""
    out = f"{small.folder}/crates/{program}/out"
    (proved,) = [name for name in os.listdir(out) if name.startswith(f"{program}-proved-")]
    return f"{out}/{proved}", f"{out}/{program}"


@part("run-words", "what `./run` says to words that name no program, and for help")
def run_words(count):
    with repository() as small:
        for words in ((), ("--unproved",)):
            status, written, said = small.run(*words)
            count(f"run {' '.join(words)}", (status, written) == (2, "") and said.startswith("run PROGRAM"), said)
        for before, name in (((), "low"), ((), "nothing"), (("--unproved",), "low"), (("--unproved",), "tell")):
            answer = small.run(*before, name, "--help")
            said = f"run: there is no program {name}; programs: tells\n"
            count(f"run {' '.join([*before, name])}", answer == (2, "", said), str(answer))
        for words in (("--help",), ("-h",), ("--unproved", "--help")):
            status, written, said = small.run(*words)
            count(f"run {' '.join(words)}", status == 0 and "PROGRAM: tells." in written and not said, written)


@part("run-unproved", "what `./run --unproved` builds, and two of them at once, on small crates", on_demand=True)
def run_unproved(count):
    with repository() as small, ThreadPoolExecutor() as pool:
        both = [pool.submit(small.run, "--unproved", "tells") for _ in range(2)]
        answers = sorted((one.result() for one in both), key=lambda answer: answer[2].count("\n"))
        told = [[line.split(":")[1] for line in said.splitlines()] for _, _, said in answers]
        count("both run it", [answer[:2] for answer in answers] == [(3, "8\n")] * 2, answers)
        count("one builds it", [len(lines) for lines in told] == [2, 3], told)
        count("the other waits", "waiting for another run" in answers[0][2], answers[0][2])
        count("each says once that nothing is proved", all(said.count("is proved") == 1 for _, _, said in answers))
        small.write("crates/low/src/lib.rt", FILES["crates/low/src/lib.rt"].replace("    7\n", "    seven\n"))
        status, written, said = small.run("--unproved", "tells")
        wrong = f"{os.path.realpath(small.folder)}/crates/low/src/lib.rt:"
        count("what can't be read", (status, written) == (1, "") and wrong in said, said)
