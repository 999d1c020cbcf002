"""The pages of the repository, compared with the repository: everything that they quote and name is there. README has
room for a reader, no line is too long, and no row of a table is on two pages."""
import glob
import os
import re
import subprocess

from harness.parts import PARTS, part
from harness.programs import TOP

LONGEST_LINE, README_LINES = 120, 110
# The files that people read: pages, scripts, sources and specs. Of proofs only the lines are checked.
SOURCES = ["crates/*/src/**/*.rt", "crates/*/specs/**/*.antt"]
PROOFS = ["crates/*/proofs/**/*.antt"]
# The entries of the folder of a crate: its parts, the input and output of its program, and what is built.
OF_CRATE = {"src", "specs", "proofs", "must-fail", "args", "stdin", "stdout", "status", "data", "out"}
SCRIPTS = ["run", ".ci/run", "tests/run", "tests/*/*.py", "tests/*/*.c", "bench/*", "bench/*/*", "packaging/*"]
PAGES = ["*.md", "docs/*", "bench/*.md", "tests/*.md"]
# The pages whose names between backquotes are all of the crates, or of parts of tests/run.
NAMING = ["PROVED", "THEOREM", "DEFINITIONS", "WORDS", "COMMANDS", "WORLD", "KEEPING", "HISTORY", "ROADS", "GUIDE"]
NAMING += ["HALL", "CHECKER", "CERTIFICATES", "EXPLAIN", "TELNET", "ARCHITECTURE", "SERVER"]
WRITTEN = [*PAGES, *SCRIPTS, *SOURCES]
QUOTE = re.compile(r"^<!-- (\S+) -->\n```\w*\n(.*?)\n```$", re.M | re.S)
FOLDERS = r"(?:crates|docs|examples|tests|bench|\.ci)"
PATH = re.compile(rf"(?<![\w./-]){FOLDERS}/[\w./*{{}},-]*[\w/*}}]|(?<![\w/-])[\w/-]+\.(?:md|rt|antt|py|edit)\b")
SPAN = re.compile(r"`([^`\n]+)`")
WORD = re.compile(r"\w+")
NAME = re.compile(r"[A-Za-z_]\w*(?:::\w+)*")
RULE = re.compile(r"^\|[ :|-]+$")
# A step of a path through the crates: a crate, and the first name after it.
STEP = re.compile(r"^\d+\. `(mud_\w+)`: .*?`([A-Za-z_]\w*(?:::\w+)*)`", re.M)
# The claims whose definitions README counts, and the crates without proofs: the tests, and the text of the page.
BELIEVED = ("the theorems about the guide", "the verdict of the checker", "the journal")
WITHOUT_PROOFS = ("crates/mud_tests/", "crates/mud_page/")
NUMBER = re.compile(r"\b\d[\d,]*\b")
FUNCTION = re.compile(r"\bfn (\w+)")
PLACEHOLDER = re.compile(r"\b(?:NAME|CRATE|SUBJECT|DOUBT|PROGRAM)\b")
LOGIC = re.compile(r"logic ([0-9a-f]{8,})")
# A section of docs/FAULTS.md, and the entries of a section: the fault, and the parts of its entry, in this order. The
# second part may be given for a whole section, before its entries.
SECTION, ENTRY = re.compile(r"^## (.+)\n", re.M), re.compile(r"^- \*\*(.+?)\*\*((?:.*\n)(?:  .*\n)*)", re.M)
FOUND, WHY, NOW = "*Found by:*", "*Why no contract:*", "*Now:*"
SAID_LINES = re.compile(r"\d+ lines of the [\d,]+")
HYPHENED = re.compile(r"[a-z0-9]+(?:-[a-z0-9]+)+")


def text_of(path):
    """Returns the text of a file, by its path below the top."""
    with open(f"{TOP}/{path}", encoding="utf-8") as file:
        return file.read()


def files(patterns):
    """Returns the files that match one of the patterns."""
    found = {name for pattern in patterns for name in glob.glob(f"{TOP}/{pattern}", recursive=True)}
    return sorted(os.path.relpath(name, TOP) for name in found if os.path.isfile(name))


def pages():
    """Returns README and all pages, by their paths."""
    return files(PAGES)


def rows_of(page):
    """Returns the rows of a page's tables, each as its cells, without heads and the rules below them."""
    lines = page.split("\n")
    rows = [line for line, below in zip(lines, [*lines[1:], ""]) if line.startswith("|") and not RULE.match(below)]
    return [[cell.strip() for cell in re.split(r"(?<!\\)\|", row)[1:-1]] for row in rows if not RULE.match(row)]


# ---- quotes


def quotes_of(page):
    """Returns the quotes of a page: the file and the text of each block after a line that names a file."""
    return QUOTE.findall(page)


def stands_in(quote, path):
    """Returns whether the file contains the text as whole lines."""
    return os.path.isfile(f"{TOP}/{path}") and f"\n{quote}\n" in f"\n{text_of(path)}\n"


def count_quotes(count, page):
    """Tests each quote of a page, and that each block of definitions has the name of its file."""
    text = text_of(page)
    count(f"{page}: quotes", "\n```antt\n" not in QUOTE.sub("", text), "a block of definitions doesn't name its file")
    for path, quote in quotes_of(text):
        count(f"{page}: quote of {path}", stands_in(quote, path), f"it hasn't these lines: {quote.splitlines()[0]} ..")


def clauses_in(page):
    """Returns the clauses in a page's tables: the first cell of each row of two cells, in pieces where it is cut."""
    cells = [cells[0] for cells in rows_of(page) if len(cells) == 2]
    return [piece for cell in cells for span in SPAN.findall(cell) for piece in span.split("..")]


def count_clauses(count, page):
    """Tests that each clause in a page's tables is in the page's quotes."""
    quoted = "\n".join(quote for _, quote in quotes_of(text_of(page)))
    missing = [piece for piece in clauses_in(text_of(page)) if piece not in quoted]
    count(f"{page}: clauses", bool(quoted) and not missing, f"quoted nowhere: {', '.join(missing)}")


def count_quoted_lines(count, page, trusted):
    """Tests that a page says how many lines it quotes, of how many that its claim needs by the first row of counts."""
    text = text_of(page)
    quoted = sum(len(quote.split("\n")) for _, quote in quotes_of(text))
    needed = next(cells[3] for cells in rows_of(text_of(trusted)) if len(cells) == 7)
    said = SAID_LINES.search(" ".join(text.split()))
    right = f"{quoted} lines of the {int(needed):,}"
    count(f"{page}: lines that it quotes", bool(said) and said[0] == right, f"it should say: {right}")


# ---- paths


def expanded(path):
    """Returns the patterns of a path with braces; a placeholder matches any name."""
    brace = re.search(r"\{([^{}]*)\}", path)
    if not brace:
        return [PLACEHOLDER.sub("*", path)]
    return [it for one in brace[1].split(",") for it in expanded(path.replace(brace[0], one, 1))]


def is_there(path, folder):
    """Returns whether the repository has a path that a page of this folder names: from the top, from the page, in a
    crate, or by its file's name only. Build outputs are not checked."""
    if "/out" in path:
        return True
    if "/" not in path:
        return os.path.exists(f"{TOP}/{path}") or bool(glob.glob(f"{TOP}/*/**/{path}", recursive=True))
    tops = (TOP, f"{TOP}/{folder}", f"{TOP}/crates", f"{TOP}/crates/*")
    return all(any(glob.glob(f"{top}/{one}") for top in tops) for one in expanded(path))


def paths_in(page):
    """Returns the paths that a page names, outside of the blocks that it quotes."""
    return sorted({path.rstrip(".") for path in PATH.findall(QUOTE.sub("", page))})


def count_paths(count, page):
    """Tests all paths that a page names."""
    gone = [path for path in paths_in(text_of(page)) if not is_there(path, os.path.dirname(page))]
    count(f"{page}: paths", not gone, f"not there: {' '.join(gone)}")


# ---- what is proved


def has_name(path, name):
    """Returns whether a file has each word of a name."""
    text = text_of(path)
    return all(re.search(rf"(?<![\w]){re.escape(word)}(?![\w])", text) for word in name.split("::"))


def known_names():
    """Returns all names of the crates' sources and definitions."""
    return {name for path in files(SOURCES) for name in WORD.findall(text_of(path))}


def count_names(count, page, known):
    """Tests that each name between backquotes on a page is one of the crates, or of a part of tests/run."""
    spans = [span for span in SPAN.findall(QUOTE.sub("", text_of(page))) if NAME.fullmatch(span)]
    missing = sorted({span for span in spans if span not in PARTS and not known.issuperset(WORD.findall(span))})
    count(f"{page}: names", not missing, f"nowhere in the crates: {', '.join(missing)}")


def count_steps(count, page):
    """Tests each step of a path through the crates: the crate that it names has the name."""
    for crate, name in STEP.findall(text_of(page)):
        known = {word for path in files([f"crates/{crate}/src/*.rt"]) for word in WORD.findall(text_of(path))}
        count(f"{page}: {crate}: {name}", known.issuperset(WORD.findall(name)), "this crate has no such name")


def count_functions(count, page):
    """Tests the functions on the path of a line: their number is the one that the page says, and each is in its crate.
    """
    section = text_of(page).partition("### Its functions")[2].partition("\n## ")[0]
    said = re.search(r"passes through (\d+) functions", section)
    named = [(SPAN.findall(crate)[0], SPAN.findall(cell)) for crate, cell in rows_of(section)]
    total = sum(len(names) for _, names in named)
    count(f"{page}: functions", said and int(said[1]) == total, f"the table has {total}")
    for crate, names in named:
        known = {word for path in files([f"crates/{crate}/src/*.rt"]) for word in FUNCTION.findall(text_of(path))}
        gone = [name for name in names if name.rpartition("::")[2] not in known]
        count(f"{page}: functions of {crate}", not gone, f"this crate has no {', '.join(gone)}")


def carriers(cell, crate):
    """Returns the files of a cell, each with the names after it: `src/a.rt` `one`, `two`; `src/b.rt` `three`. Names
    before the first file are those of parts of tests/run."""
    found = [("", [])]
    for span in SPAN.findall(cell):
        if "/" not in span:
            found[-1][1].append(span)
        else:
            found.append((span if re.match(FOLDERS, span) else f"crates/{crate}/{span}", []))
    return found


def missing_of(path, names):
    """Returns the names that the file does not have, or the file itself if it is missing."""
    if not path:
        return [name for name in names if name not in PARTS]
    if not os.path.exists(f"{TOP}/{path}"):
        return [path]
    return [f"{path}: {name}" for name in names if not has_name(path, name)]


def faults_of(cell, crate=""):
    """Returns the names in a cell that are missing."""
    return [fault for path, names in carriers(cell, crate) for fault in missing_of(path, names)]


def count_promises(count, page):
    """Tests each row of five cells, which says what carries a promise: one of the last three. A row without a crate is
    of the one above."""
    crate = ""
    for cells in (cells for cells in rows_of(text_of(page)) if len(cells) == 5):
        crate = (SPAN.findall(cells[0]) or [crate])[0]
        carried = [cell for cell in cells[2:] if cell]
        faults = [fault for cell in carried for fault in faults_of(cell, crate)]
        faults += [] if len(carried) == 1 else [f"one way to carry it, but {len(carried)}"]
        count(f"{page}: {crate}: {cells[1]}", not faults, f"not there: {', '.join(faults)}")


def count_together(count, page):
    """Tests each row of two cells, which names what shows something about several programs."""
    for shown, where in (cells for cells in rows_of(text_of(page)) if len(cells) == 2):
        faults = faults_of(where)
        count(f"{page}: {shown}", not faults, f"not there: {', '.join(faults)}")


def faults_of_edit(kind, crate, name):
    """Returns what is wrong if a wrong body is said to be tried in the gate, or on demand."""
    path, tried = f"tests/wrong-bodies/{crate}/{name}.edit", "in the gate" if kind == "gate" else kind
    faults = missing_of(path, [])
    return faults or ([] if f"tried: {tried}" in text_of(path).split("\n") else [f"{path}: {tried}"])


def count_wrong_bodies(count, page):
    """Tests each row of three cells, which names what refuses a mistake."""
    for mistake, kind, where in (cells for cells in rows_of(text_of(page)) if len(cells) == 3):
        is_edit = kind in ("gate", "on demand")
        faults = faults_of_edit(kind, *SPAN.findall(where)) if is_edit else faults_of(where)
        count(f"{page}: {mistake}", not faults, f"not there: {', '.join(faults)}")


# ---- what is trusted, and faults


def is_known(span, known):
    """Returns whether a name between backquotes exists: a part of tests/run, a wrong body, or a name of the crates.
    Anything else by its form is not checked."""
    if HYPHENED.fullmatch(span):
        return span in PARTS or bool(glob.glob(f"{TOP}/tests/wrong-bodies/*/{span}.edit"))
    return not NAME.fullmatch(span) or span in PARTS or known.issuperset(WORD.findall(span))


def faults_of_entry(text, section, known):
    """Returns the parts that an entry of a section lacks, or the missing names of its remedy."""
    is_said_of_all = WHY in section.partition("\n- ")[0]
    places = [text.find(word) for word in (FOUND, *[WHY] * (not is_said_of_all), NOW)]
    missing = [span for span in SPAN.findall(text.partition(NOW)[2]) if not is_known(span, known)]
    return missing if -1 not in places and places == sorted(places) else [f"{FOUND} {WHY} {NOW}"]


def count_entries(count, page, known):
    """Tests each entry: it has all parts in order, and the names of its remedy exist."""
    sections = SECTION.split(text_of(page))[2::2]
    for section, (title, text) in ((section, it) for section in sections for it in ENTRY.findall(section)):
        faults = faults_of_entry(" ".join(text.split()), section, known)
        count(f"{page}: {title}", not faults, f"not there: {', '.join(faults)}")


def count_shown(count, page, known):
    """Tests each row of three cells, which states an assumption: what would show it false exists."""
    for believed, _, shown in (cells for cells in rows_of(text_of(page)) if len(cells) == 3):
        missing = [span for span in SPAN.findall(shown) if not is_known(span, known)]
        count(f"{page}: {believed}", not missing, f"not there: {', '.join(missing)}")


def count_sections(count, page):
    """Tests that the first table of a page of faults has each section, with its number of entries."""
    first, *rest = SECTION.split(text_of(page))
    counts = [[name, str(len(ENTRY.findall(text)))] for name, text in zip(rest[::2], rest[1::2])]
    count(f"{page}: counts", counts == [row for row in rows_of(first)], f"the sections have {counts}")


# ---- lines, the kit, readers, repeated rows


def may_be_long(line):
    """Returns whether a line is the row of a table with the address of a page elsewhere."""
    return line.startswith("|") and "://" in line


def long_lines(path):
    """Returns the numbers of the lines that are too long."""
    lines = enumerate(text_of(path).split("\n"), 1)
    return [n for n, line in lines if len(line) > LONGEST_LINE and not may_be_long(line)]


def count_lines(count):
    """Tests README's length, and the lines of each file that people read."""
    lines = len(text_of("README.md").splitlines())
    count("README.md: length", lines <= README_LINES, f"{lines} lines")
    for path in files(WRITTEN):
        found = long_lines(path)
        count(f"{path}: lines", not found, f"too long: {' '.join(map(str, found[:9]))}")
    found = [f"{path}:{n}" for path in files(PROOFS) for n in long_lines(path)]
    count("proofs: lines", not found, f"too long: {' '.join(found[:9])}")


def count_kit(count):
    """Tests that README and the programs name the logic of the present kit."""
    said = subprocess.run(["rt", "version"], capture_output=True, text=True).stdout
    here = LOGIC.findall(said)
    for path in ("README.md", "crates/mud_cli/src/build.rt"):
        named = LOGIC.findall(text_of(path))
        count(f"{path}: kit", bool(here) and set(named) == set(here), f"names {named}; rt version says {said.strip()}")


def lines_of(patterns, comment):
    """Returns the number of lines of files, without comments and blank lines, in the crates that may have proofs."""
    named = [path for path in files(patterns) if not path.startswith(WITHOUT_PROOFS)]
    lines = [line.strip() for path in named for line in text_of(path).split("\n")]
    return sum(1 for line in lines if line and not line.startswith(comment))


def count_figures(count):
    """Tests the figures of README: definitions to believe, proofs and code, and wrong bodies."""
    readme, trust = text_of("README.md"), rows_of(text_of("docs/TRUST.md"))
    said = {key: [int(number.replace(",", "")) for number in NUMBER.findall(text)]
            for key, text in re.findall(r"^\| (to believe|to prove|planted mistakes)[^|]*\| (.*) \|$", readme, re.M)}
    believed = [int(cells[3]) for claim in BELIEVED for cells in trust if cells[0] == claim]
    count("README.md: definitions", said["to believe"] == believed, f"docs/TRUST.md has {believed}")
    proofs, code = lines_of(PROOFS, "--"), lines_of(["crates/*/src/**/*.rt"], "//")
    near = [abs(told - true) <= true / 50 for told, true in zip(said["to prove"], (proofs, code))]
    rate = f"{proofs / code:.1f} to 1"
    count("README.md: proofs", near == [True, True] and rate in readme, f"{proofs} lines for {code} of code, {rate}")
    edits = [text_of(path) for path in files(["tests/wrong-bodies/*/*.edit"])]
    planted = [len(edits), sum("tried: in the gate" in text for text in edits)]
    count("README.md: wrong bodies", said["planted mistakes"] == planted, f"there are {planted}")


def count_readers(count):
    """Tests that README's table of pages has a row for each page."""
    rows = " ".join(cells[-1] for cells in rows_of(text_of("README.md")))
    for page in (page for page in pages() if page != "README.md"):
        count(f"{page}: a reader", page in rows, "README's table doesn't name it")


def count_repeated(count):
    """Tests that no row of a table is on two pages."""
    seen = {}
    for page in pages():
        for row in {" | ".join(cells) for cells in rows_of(text_of(page))}:
            seen.setdefault(row, []).append(page)
    for row, both in seen.items():
        count(f"a row of {both[0]}", len(both) == 1, f"stands on {' and '.join(both)}: {row}")


def count_layout(count):
    """Counts a test for the folders of the crates: they hold nothing else."""
    paths = glob.glob("crates/*/*", root_dir=TOP)
    foreign = [path for path in paths if os.path.basename(path) not in OF_CRATE]
    count("crates: layout", not foreign, f"foreign: {', '.join(foreign)}")


@part("pages", "pages name and quote what is there, fit the reader, and don't repeat each other")
def check_pages(count):
    count_layout(count)
    count_lines(count)
    count_kit(count)
    count_figures(count)
    count_readers(count)
    count_repeated(count)
    for page in pages():
        count_paths(count, page)
        count_quotes(count, page)
    for tables in (count_promises, count_together, count_wrong_bodies):
        tables(count, "docs/PROVED.md")
    count_clauses(count, "docs/THEOREM.md")
    count_quoted_lines(count, "docs/THEOREM.md", "docs/TRUST.md")
    count_steps(count, "docs/ARCHITECTURE.md")
    count_functions(count, "docs/ARCHITECTURE.md")
    known = known_names()
    for page in NAMING:
        count_names(count, f"docs/{page}.md", known)
    count_shown(count, "docs/TRUST.md", known)
    count_entries(count, "docs/FAULTS.md", known)
    count_sections(count, "docs/FAULTS.md")
