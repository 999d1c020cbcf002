"""Three checkers, one answer: `mud_check`, page/check.js and tests/check.py, which share no code.

Each judges the tables of tests/certificates, the pairs of examples/checker and many random pairs (harness/pairs.py). A
part fails if two of them differ, or if no random pair gives a line of some kind, because the pairs are then too poor.
"""
import os
import re
import shutil
import subprocess
import sys
import tempfile
from concurrent.futures import ProcessPoolExecutor
from pathlib import Path

import check
from harness import certificates
from harness.pairs import Pair, pairs_of
from harness.parts import Skipped, part
from harness.programs import TOP, program
from harness.sessions import count_each

NODE = ["node", f"{TOP}/page/check.js"]
EXAMPLES = Path(TOP, "examples", "checker")
BY_HISTORY, IN_GATE, MANY, BATCH = 4, 1000, 1_000_000, 2000
MOST_ROUNDS, LONGEST_TOLD, DEPTH = 12, 1000, 1500
DOUBTS = ["no such player #N", "wrong start #N", "start label #N", "arc #N of #N", "walk broken at N of #N"]
DOUBTS += ["walk locked at N of #N", "walk cost of #N", "conclusion", "version N"]
FAULTS = ["not a history", "history line N", "history change N", "history without end", "proof line N"]
WANTED = {"accepted", *(f"refused: {doubt}" for doubt in DOUBTS), *(f"unreadable: {fault}" for fault in FAULTS)}


def written(folder, at, pair):
    """Writes a pair, and returns the words by which a shell makes `mud_check` read it: from standard input if that is
    split between the two texts, and otherwise from two files."""
    given = pair.history + pair.proof
    is_one = check.split(given) == (pair.history, pair.proof)
    texts = {f"{at}": given} if is_one else {f"{at}.history": pair.history, f"{at}.proof": pair.proof}
    for name, text in texts.items():
        with open(f"{folder}/{name}", "wb") as file:
            file.write(text)
    return f"< {at}" if is_one else " ".join(texts)


def proved(pairs):
    """Returns the lines of `mud_check`, each with its status if that is not the line's. A shell starts it for each
    pair, in half the time that Python needs."""
    with tempfile.TemporaryDirectory() as folder:
        runs = [f'"$1" {written(folder, at, pair)}; echo "= $?"\n' for at, pair in enumerate(pairs)]
        Path(folder, "runs").write_text("".join(runs))
        done = subprocess.run(["sh", "runs", program("mud_check")], cwd=folder, capture_output=True)
    found = re.findall(r"(.*?)\n?= ([0-9]+)\n", done.stdout.decode(), re.S)
    is_right = [check.STATUS.get(line.split(":")[0]) == int(status) for line, status in found]
    return [line if right else f"{line} (status {status})" for right, (line, status) in zip(is_right, found)]


def in_page(pairs):
    """Returns the lines of page/check.js."""
    given = b"".join(b"%d %d\n%b%b" % (len(it.history), len(it.proof), it.history, it.proof) for it in pairs)
    done = subprocess.run([*NODE, "--many"], input=given, capture_output=True)
    if done.stderr:
        raise RuntimeError(done.stderr.decode())
    return done.stdout.decode().splitlines()


def plain(pair):
    """Returns the line of tests/check.py."""
    return check.verdict(pair.history, pair.proof)


def as_read(given):
    """Returns the pair in standard input."""
    return Pair(*check.split(given))


def answers(pairs):
    """Returns the verdicts of all three on each pair."""
    return list(zip(proved(pairs), in_page(pairs), map(plain, pairs), strict=True))


def random_pairs(first, last):
    """Returns the pairs of some seeds."""
    return [pair for seed in range(first, last) for pair in pairs_of(seed, BY_HISTORY)]


def kind_of(line):
    return re.sub("[0-9]+", "N", line)


# ---- the shortest pair that shows a difference


def without_entries(history, first, last):
    """Returns a history without some of its entries; the others are renumbered."""
    lines = history.split(b"\n")
    del lines[first:last]
    entries = [re.sub(rb"^[0-9]+", b"%d" % version, line) for version, line in enumerate(lines[1:-2], 1)]
    return b"\n".join([lines[0], *entries, *(re.sub(rb"[0-9]+", b"%d" % len(entries), line) for line in lines[-2:])])


def shorter(pair):
    """Returns shorter pairs, the shortest first."""
    count = pair.history.count(b"\n") - 2
    for size in (32, 8, 2, 1):
        for at in range(1, count - size + 2, size):
            yield Pair(without_entries(pair.history, at, at + size), pair.proof)
    lines = pair.proof.split(b"\n")
    for at in range(2, len(lines) - 5, 3):  # a member, labels and a walk
        yield Pair(pair.history, b"\n".join(lines[:at] + lines[at + 3 :]))
    words = re.split(rb"( |\n)", pair.proof)
    for at in range(0, len(words), 2):
        yield Pair(pair.history, b"".join(words[:at] + words[at + 2 :]))


def shrunk(pair):
    """Returns a smaller pair on which the checkers still differ."""
    for _ in range(MOST_ROUNDS):
        tried = [*shorter(pair)]
        differing = (one for one, lines in zip(tried, answers(tried)) if len(set(lines)) > 1)
        found = next(differing, None)
        if not found:
            break
        pair = found
    return pair


# ---- parts


def need_node():
    if not shutil.which("node"):
        raise Skipped("node is not there")


def told(lines, pair):
    return f"mud_check, the page and check.py say {lines} of {pair.history[:LONGEST_TOLD] + pair.proof}"


def count_wanted(count, name, pair, verdict, lines):
    """Tests a pair whose verdict is known."""
    count(name, set(lines) == {verdict}, f"the verdict is {verdict}; {told(lines, pair)}")


def known(count):
    """Returns the pairs whose verdicts are known, each with a name and its verdict."""
    for name, case in certificates.named_cases(count):
        yield name, as_read(case.given), case.verdict
    for line in (EXAMPLES / "verdicts.txt").read_text().splitlines():
        name, verdict = line.split(" ", 1)
        yield f"examples/checker/{name}", as_read((EXAMPLES / name).read_bytes()), verdict


def count_random(count, name, pairs, met):
    """Tests that the checkers agree on random pairs. Adds the kinds of lines that they gave."""
    found = answers(pairs)
    met.update(kind_of(line) for _, _, line in found)
    differing = [pair for pair, lines in zip(pairs, found) if len(set(lines)) > 1]
    short = shrunk(differing[0]) if differing else None
    count(name, not differing, short and f"{len(differing)} differ; {told(answers([short])[0], short)}")


@part("checkers", "the proved checker, the page's and a plain one say the same of tables, examples and random pairs")
def compare(count):
    need_node()
    names, pairs, verdicts = zip(*known(count))
    for name, pair, verdict, lines in zip(names, pairs, verdicts, answers(pairs)):
        count_wanted(count, name, pair, verdict, lines)
    met = set()
    pairs = random_pairs(0, IN_GATE // BY_HISTORY)
    count_random(count, f"{len(pairs)} random pairs", pairs, met)
    count("each kind of line is met", met >= WANTED, f"not met: {', '.join(sorted(WANTED - met))}")
    count("no other line is met", met <= WANTED, f"met: {', '.join(sorted(met - WANTED))}")


# ---- many pairs, and large ones


def of_changes(*changes):
    """Returns a history of these changes, with a certificate of the first player's place at its end."""
    lines = [f"{at} 1 {change}" for at, change in enumerate(changes, 1)]
    history = "\n".join(["mud history 2", *lines, f"end {len(lines)}", ""])
    proof = ["mud proof 2", f"version {len(lines)}", "member #1 from #0", "labels #0:0/0", "walk nothing"]
    return Pair(history.encode(), "\n".join([*proof, "route #0 cost 0", "end", ""]).encode())


def full_worlds():
    """Returns histories that end with a change for which there is just enough room, or just too little."""
    for left in range(4):
        things = ['make #1 "x"'] * (check.LAST - 1 - left)
        both = 'dig #1 new "x" out "x" back "x"'
        for count, change in enumerate(['make #1 "x"', 'dig #1 old #0 out "x" back "x"', both], 1):
            fits = f"refused: arc #{check.LAST - 1} of #1" if count == 3 else "accepted"
            verdict = fits if count <= left else f"unreadable: history change {len(things) + 1}"
            yield f"{count} more where {left} have room", of_changes(*things, change), verdict


def large():
    """Returns pairs at the limits of a world and of a history, with their verdicts."""
    yield from full_worlds()
    said = ["say #1 hi"] * check.MOST_ENTRIES
    yield "as many changes as there may be", of_changes(*said), "accepted"
    yield "one change more", of_changes(*said, "say #1 hi"), "unreadable: history too long"
    things = ['make #1 "x"'] * DEPTH
    deep = [*things, *(f"move #1 #{at} #{at - 1}" for at in range(3, DEPTH + 2)), 'dig #1 old #0 out "x"']
    deep += [f"lock #1 #{DEPTH + 2} #{DEPTH + 1}", f"walk #1 #{DEPTH + 2}"]
    yield "a key deep within", of_changes(*deep), "accepted"
    round_ = of_changes(*deep, f"move #1 #2 #{DEPTH + 1}")
    yield "a box into what it holds", round_, f"unreadable: history change {len(deep) + 1}"


def batch(first, last):
    """Judges the pairs of some seeds. Returns their number, those that differ, and the kinds of lines that they
    gave."""
    pairs = random_pairs(first, last)
    found = answers(pairs)
    differing = [pair for pair, lines in zip(pairs, found) if len(set(lines)) > 1]
    return len(pairs), differing, {kind_of(line) for _, _, line in found}


def batches(first, last):
    """Returns the result of each batch of the seeds, several at once."""
    step = BATCH // BY_HISTORY
    begins = range(first, last, step)
    with ProcessPoolExecutor() as several:
        yield from several.map(batch, begins, (min(last, begin + step) for begin in begins))


@part("more-checkers", "the three checkers agree on large worlds and on a million random pairs", True, "[PAIRS [SEED]]")
def compare_many(count, pairs=MANY, seed=IN_GATE):
    need_node()
    for name, pair, verdict in large():
        count_wanted(count, name, pair, verdict, answers([pair])[0])
    met, total = set(), 0
    for judged, differing, kinds in batches(int(seed), int(seed) + int(pairs) // BY_HISTORY):
        total += judged
        met |= kinds
        for short in map(shrunk, differing):
            count("a random pair", False, told(answers([short])[0], short))
    count(f"{total} random pairs", total > 0)
    count("each kind of line is met", met >= WANTED, f"not met: {', '.join(sorted(WANTED - met))}")


@part("another-checker", "a program of yours says what the three say", on_demand=True, words="COMMAND [WORD..]")
def judge_another(count, *command):
    """Judges with another checker, which reads a pair from standard input; its line and its status are compared."""

    def fault_of(one):
        pair, verdict = one
        done = subprocess.run(command, input=pair.history + pair.proof, capture_output=True)
        wanted = (check.STATUS[verdict.split(":")[0]], f"{verdict}\n".encode())
        found = (done.returncode, done.stdout)
        return "" if found == wanted else f"{found}, not {wanted}, of {pair.history + pair.proof}"

    count_each(count, fault_of, [(name, (pair, verdict)) for name, pair, verdict in known(count)])
    pairs = [as_read(it.history + it.proof) for it in random_pairs(0, IN_GATE // BY_HISTORY)]
    count_each(count, fault_of, [(f"random pair {at}", (pair, plain(pair))) for at, pair in enumerate(pairs)])


# ---- how they are run


def runs(words, given=b""):
    """Returns the output and the status of each of the three programs, by their words."""
    programs = [[program("mud_check")], NODE, [sys.executable, f"{TOP}/tests/check.py"]]
    done = [subprocess.run([*one, *words], input=given, capture_output=True) for one in programs]
    return {(it.returncode, it.stdout) for it in done}


CUT = """awk '{ print > ("part" n + 0) } /^end/ { n++ }' record.txt
for proof in part[1-9]*; do "$0" part0 "$proof"; done
"""


def count_record(count, folder):
    """Tests a record with several certificates, cut for `mud_check` as docs/CHECKER.md says, and read by node."""
    given = (EXAMPLES / "01-route.txt").read_bytes()
    _, proof = check.split(given)
    record = os.path.join(folder, "record.txt")
    Path(record).write_bytes(given + proof.replace(b"#3", b"#4") + proof.replace(b"version 1", b"version 2"))
    wanted = b"accepted\nrefused: walk broken at 1 of #1\nrefused: version 2\n"
    cut = subprocess.run(["sh", "-c", CUT, program("mud_check")], cwd=folder, capture_output=True)
    count("a record that is cut", cut.stdout == wanted, f"{cut.stdout} {cut.stderr}")
    read = subprocess.run([*NODE, "--record", record], capture_output=True)
    count("a record by node", (read.returncode, read.stdout) == (1, wanted), f"{read.stdout} {read.stderr}")


def count_page(count):
    """Tests that docs/CHECKER.md shows that way to cut a record, and each example with its line."""
    page = Path(TOP, "docs", "CHECKER.md").read_text()
    missing = [line for line in CUT.replace('"$0"', "mud_check").splitlines() if line not in page]
    count("the recipe of docs/CHECKER.md", not missing, f"it has not {missing}")
    rows = set(re.findall(r"^\| `(\S+\.txt)` \|.*\| `(.*)` \|$", page, re.M))
    lines = {tuple(line.split(" ", 1)) for line in (EXAMPLES / "verdicts.txt").read_text().splitlines()}
    count("the examples of docs/CHECKER.md", rows == lines, f"{rows ^ lines}")


@part("checkers-run", "the three checkers read files and standard input, with one status")
def run_checkers(count):
    need_node()
    count_page(count)
    with tempfile.TemporaryDirectory() as folder:
        files = [os.path.join(folder, name) for name in ("history", "proof")]
        for name in ("01-route.txt", "02-room-left-out.txt", "10-circle-of-keys.txt"):
            given = (EXAMPLES / name).read_bytes()
            for path, text in zip(files, check.split(given)):
                Path(path).write_bytes(text)
            found = runs([], given) | runs(files)
            count(name, len(found) == 1, f"{found}")
        for why, words in {"one file": files[:1], "three files": [*files, files[0]]}.items():
            count(why, runs(words) == {(2, b"")}, f"{runs(words)}")
        count_record(count, folder)
        gone = os.path.join(folder, "gone")
        for words in ([gone, files[1]], [files[0], gone]):
            line = f"unreadable: file {gone}\n".encode()
            count("a file that is not there", runs(words) == {(2, line)}, f"{runs(words)}")
