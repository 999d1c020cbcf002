"""Wrong bodies that the prover must refuse: tests/wrong-bodies/CRATE. A line `function: ` names the function that must
lose its proof, by its name as the prover prints it, or the end of that. A try checks only that function and the
functions of its crate that it calls, so it costs a fraction of the crate. Wrong bodies of several functions of a crate
are tried at once, unless they change more than code: each has to lose its proof for reasons of its own. `tried: ` says
when to try it: `in the gate`, or `on demand`. Each change has a line `file: `, and the old and the new text."""
import functools
import glob
import itertools
import os
import re
import shutil
import tempfile
import time
from concurrent.futures import ThreadPoolExecutor
from dataclasses import dataclass, field

from harness.parts import Skipped, part
from harness.programs import TOP, NotBuilt
from harness.prover import check_functions, crates, run

FOLDER = f"{TOP}/tests/wrong-bodies"
IN_GATE, ON_DEMAND = "in the gate", "on demand"
# The crate of the theorems about many sessions.
THEOREMS = "mud_theorems"
# Words of clauses, and of items that are no functions: proofs of other functions may rest on them.
SHARED = re.compile(r"\b(?:ghost|requires|ensures|const|static|struct|enum|trait|impl)\b")
# The output of a running `rt ci`, if the wrong bodies are tried beside it: how it names a crate that is proved, and its
# last line. They are tried once at most `FEW` crates are left to prove.
SAID = os.environ.get("RT_CI_SAID")
IS_PROVED, HAS_ENDED, FEW = re.compile(r"^rt: (\w+) (?:proved\b|is kept:)", re.M), "rt ci has ended", 8


@dataclass
class Edit:
    """A wrong body: its crate, the lines of its file, and the changes, each a file, an old text and a new one."""

    path: str
    function: str = ""
    tried: str = ""
    changes: list = field(default_factory=list)

    def crate(self):
        return os.path.basename(os.path.dirname(self.path))

    def name(self):
        return os.path.relpath(self.path, FOLDER)

    def changes_code_alone(self):
        """Returns whether it changes only code of functions, so that no other function can lose its proof by it, but
        for those that call one of these."""
        return all(file.startswith("src/") and not SHARED.search(old + new) for file, old, new in self.changes)

    def texts(self, others=None):
        """Returns the texts of the files that it or others change, by their paths in the crate, and the changes that
        can't be made. `others` has the texts that other edits made."""
        texts, faults = dict(others or {}), [] if self.changes else ["it changes nothing"]
        for file, old, new in self.changes:
            text = texts.get(file) or file_text(f"{TOP}/crates/{self.crate()}/{file}")
            faults += [] if text.count(old) == 1 else [f"not once in its file: {old}"]
            texts[file] = text.replace(old, new)
        return texts, faults


def edits():
    """Returns all edits."""
    return [read(path) for path in sorted(glob.glob(f"{FOLDER}/*/*.edit"))]


def read(path):
    edit, file, old = Edit(path), "", ""
    for line in file_text(path).split("\n"):
        word, _, rest = line.partition(": ")
        if word == "function":
            edit.function = rest
        elif word == "tried":
            edit.tried = rest
        elif word == "file":
            file = rest.strip()
        elif word == "old":
            old = rest
        elif line.startswith("new:"):
            edit.changes.append((file, old, line.removeprefix("new:").removeprefix(" ")))
    return edit


@functools.cache
def file_text(path):
    with open(path, encoding="utf-8") as file:
        return file.read()


@functools.cache
def code_of(crate):
    """Returns all code of a crate."""
    paths = glob.glob(f"{TOP}/crates/{crate}/src/**/*.rt", recursive=True)
    return "\n".join(map(file_text, paths))


# ---- can it be planted


def faults_of(edit):
    """Returns why an edit can't be planted, or can't be tried."""
    _, faults = edit.texts()
    name = edit.function.rpartition("::")[2]
    faults += [] if re.search(rf"fn {name}\b", code_of(edit.crate())) else [f"no such function: {edit.function}"]
    return faults + ([] if edit.tried in (IN_GATE, ON_DEMAND) else [f"not known when it is tried: {edit.tried}"])


def promises(crate):
    """Returns whether a contract of the crate says what a call returns or leaves."""
    return "ensures" in code_of(crate)


def in_gate():
    return [edit for edit in edits() if edit.tried == IN_GATE]


def why_untried(crate):
    """Returns what the wrong bodies of a crate lack, or an empty text. A crate that promises something has one. If the
    theorems rest on it, the gate plants one. The crate of the tests needs none, since no crate calls it."""
    if crate == "mud_tests" or not promises(crate):
        return ""
    if crate in {THEOREMS, *crates().below(THEOREMS)}:
        return "" if crate in {edit.crate() for edit in in_gate()} else "the gate plants no wrong body of it"
    return "" if crate in {edit.crate() for edit in edits()} else "it has no wrong body"


@part("plantable", "each wrong body can be planted, and each crate that promises something has one")
def plantable(count):
    for crate in sorted(os.listdir(f"{TOP}/crates")):
        why = why_untried(crate)
        count(f"plantable: {crate}", not why, why)
    for edit in edits():
        faults = faults_of(edit)
        count(f"plantable: {edit.name()}", not faults, "; ".join(faults))


# ---- is it refused


def tried(batch, texts, kept):
    """Returns the prover's reports on the functions of edits of a crate, with these texts in place of the crate's. It
    begins with what earlier tries of the crate left in the folder `kept`."""
    crate = batch[0].crate()
    with tempfile.TemporaryDirectory(prefix="wrong-body-") as folder:
        for one in filter(lambda one: os.path.isdir(f"{TOP}/crates/{crate}/{one}"), run().PARTS):
            shutil.copytree(f"{TOP}/crates/{crate}/{one}", f"{folder}/{one}")
        for file, text in texts.items():
            with open(f"{folder}/{file}", "w", encoding="utf-8") as planted:
                planted.write(text)
        return check_functions(crate, [edit.function for edit in batch], folder, kept)


def batches(group):
    """Returns the edits of a crate in batches, each with the texts that its edits make together. No batch has two edits
    of one function. An edit that changes more than code is alone."""
    found = []
    for edit in filter(Edit.changes_code_alone, group):
        for batch, texts in found:
            more, faults = edit.texts(texts)
            if not faults and edit.function not in [one.function for one in batch]:
                batch.append(edit)
                texts.update(more)
                break
        else:
            found.append(([edit], edit.texts()[0]))
    return [*found, *(([edit], edit.texts()[0]) for edit in group if not edit.changes_code_alone())]


def left_of(names):
    """Returns those of some crates that a running `rt ci` has yet to prove, if there is one."""
    if not SAID:
        return set()
    with open(SAID, encoding="utf-8", errors="replace") as file:
        said = file.read()
    return set() if HAS_ENDED in said else set(names) - set(IS_PROVED.findall(said))


def wait_until_few(names, few):
    """Waits until at most `few` of these crates are left to prove for a running `rt ci`."""
    while len(left_of(names)) > few:
        time.sleep(1)


def planted(group):
    """Returns the reports on the edits of a crate, once the libraries below it are proved. Batches are tried one after
    the other: they have most of a check in common. An edit that others may have hidden is tried again, alone."""
    wait_until_few(crates().below(group[0].crate()), 0)
    found = []
    with tempfile.TemporaryDirectory(prefix="kept-checks-") as kept:
        for batch, texts in batches(group):
            for edit, said in zip(batch, tried(batch, texts, kept)):
                is_hidden = len(batch) > 1 and not said.finds_no_proof()
                found.append((edit, tried([edit], edit.texts()[0], kept)[0] if is_hidden else said))
    return found


def right(edit):
    """Returns the prover's report on the function of an edit as it stands, after a try of the edit."""
    with tempfile.TemporaryDirectory(prefix="kept-checks-") as kept:
        tried([edit], edit.texts()[0], kept)
        return tried([edit], {}, kept)[0]


def count_refusals(count, chosen):
    """Counts a test for each edit, and one for the first edit's function as it stands, which the same words must
    prove. The crates with the most edits begin, so that none of them is tried alone at the end; beside an `rt ci` those
    with the fewest libraries to wait for."""
    groups = [list(group) for _, group in itertools.groupby(chosen, Edit.crate)]
    groups.sort(key=lambda group: (len(left_of(crates().below(group[0].crate()))), -len(group)))
    with ThreadPoolExecutor(run().lanes()) as threads:
        as_it_stands = threads.submit(right, chosen[0])
        for edit, said in itertools.chain.from_iterable(threads.map(planted, groups)):
            count(f"wrong body: {edit.name()}", said.finds_no_proof(), said.shown())
        said = as_it_stands.result()
        count(f"as it stands: {chosen[0].function}", said.is_proved(), said.shown())


@part("wrong-bodies", "the prover refuses each wrong body that is tried in the gate", wants_proof=True)
def wrong_bodies(count):
    wait_until_few(crates().lows, FEW)
    try:
        count_refusals(count, in_gate())
    except NotBuilt as error:
        # outside of the gate the libraries may be missing
        if "IN_GATE" in os.environ:
            raise
        raise Skipped(error) from None


@part("more-wrong-bodies", "the same for each of these crates, those on demand too, or of all", True, "[CRATE..]")
def more_wrong_bodies(count, *crates):
    count_refusals(count, [edit for edit in edits() if not crates or edit.crate() in crates])
