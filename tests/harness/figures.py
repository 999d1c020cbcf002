"""The figures of bench/README.md that are kept as files: its tables use them, and each file names its run."""
import glob
import importlib.machinery
import importlib.util
import os
import re
import subprocess

from harness.inputs import read
from harness.parts import part
from harness.programs import TOP

TOLD = ["command", "commit", "programs", "machine", "time", "load before"]
PRINTED = """a sync of /tmp: half within 0.1 ms

| line | here | |
|---|---|---|
| say a, b | 1,200 | x |
| look | | |

| clients |
| --- |
| 1 |
and that is all
"""
TABLES = [[["line", "here", ""], ["say a, b", "1,200", "x"], ["look", "", ""]], [["clients"], ["1"]]]
# The end of a run of the gate.
GATE = """   11 rt: mud_words is kept: an earlier run on this machine proved the same files
  121 rt: mud_index proved
  150 fn mud_index::lists::list_of: proved
 1800 wrong-bodies: 65 passed, 1 failed (900 s)
 1860 212 processor minutes
10450 passed, 2 failed
"""
GATES = [
    ["processor minutes", "212"],
    ["minutes by the clock", "31"],
    ["crates proved in the run", "1"],
    ["crates proved by an earlier run", "1"],
    ["wrong bodies refused, and failed", "65, 1"],
    ["tests passed in all, and failed", "10450, 2"],
]


def script(name):
    """Returns a program of bench/ as a module."""
    loader = importlib.machinery.SourceFileLoader(name, f"{TOP}/bench/{name}")
    module = importlib.util.module_from_spec(importlib.util.spec_from_loader(name, loader))
    loader.exec_module(module)
    return module


def why_untold(path):
    """Returns the facts about its run that a file leaves out; nothing if it has all."""
    head, *tables = read(path).decode().split("\n\n")
    told = dict(re.findall(r"^# ([^:]+): (.+)$", head, re.M))
    if list(told) != TOLD or not tables:
        return f"it says {list(told)}, and has {len(tables)} tables"
    if told["commit"] == "not noted":
        return ""
    known = subprocess.run(["git", "-C", TOP, "cat-file", "-e", f"{told['commit']}^{{commit}}"], capture_output=True)
    return "" if known.returncode == 0 else f"there is no commit {told['commit']}"


@part("figures", "the tables of bench/README.md are made of the files of bench/results, which say of what run they are")
def figures(count):
    checked = subprocess.run([f"{TOP}/bench/tables", "--check"], capture_output=True)
    count("figures: the tables of bench/README.md", checked.returncode == 0, "`bench/tables` makes others")
    for path in sorted(glob.glob(f"{TOP}/bench/results/*")):
        why = why_untold(path)
        count(f"figures: {os.path.basename(path)}", not why, why)
    found = script("record").tables_in(PRINTED.splitlines(keepends=True))
    count("figures: what is kept of what was printed", found == TABLES, found)
    rows = "".join(map(script("tables").row, TABLES[0]))
    count("figures: a table again", rows == "| line | here | |\n| say a, b | 1,200 | x |\n| look | | |\n", rows)
    whole, proofs = script("gate").rows(GATE)
    count("figures: a run of the gate", (whole, proofs) == (GATES, [["mud_index", "2.0"]]), (whole, proofs))
