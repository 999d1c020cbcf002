"""Counts what a reader has to believe: crate by crate for docs/DEFINITIONS.md, and claim by claim for docs/TRUST.md.

The roots are the statements of public calls: the clauses of public functions and laws, the ghost members of public
types and traits, the models of public types. From there each name is followed through the files of specs/. The count
has the definitions that are reached, private ones too, with the comments above them, without imports and blank lines.
The statement of a law is a promise, as a contract's clause is, and not a definition: it is counted separately.

A definition whose comment says that a reader need not look into it counts. The definitions that it cites do not:
contracts pass it on from call to call, and their claims about texts and worlds name other definitions only.

A file in a folder `inner` is private: private clauses, proofs, and definitions that are closed in that way cite it. No
public clause may reach it otherwise. A definition that no public clause reaches is outside of `inner` only if a closed
definition of its file cites it, and it cites definitions of that file.

Definitions and clauses also cite constants and types of the code, by imports of `specs.declared`. Those are counted for
each claim, and so are the constants whose values no law `limits` or `codes` gives.
"""
import pathlib
import re
import textwrap

from harness.parts import part

TOP = pathlib.Path(__file__).resolve().parents[2]
PAGE, TRUST = TOP / "docs/DEFINITIONS.md", TOP / "docs/TRUST.md"
# The lines of a page that enclose generated text.
BEGIN, END = "<!-- {}, written by `tests/run definitions --write`. -->", "<!-- The end of the counts. -->"
# The claims of docs/TRUST.md, and what carries each: a crate, and the functions of some of its files whose clauses
# state it; without such files, everything public in the crate.
CLAIMS = [
    ("the theorems about the guide", "mud_hall", {"src/laws.rt": ["guide", "walk"]}),
    ("all three theorems and their laws", "mud_theorems", {}),
    ("the verdict of the checker", "mud_checker", {"src/outcome.rt": ["verdict"]}),
    ("a script, from bytes to bytes", "mud_session", {"src/scripting.rt": ["script"], "src/laws.rt": ["runs"]}),
    ("the journal", "mud_journal", {}),
    ("the web listener", "mud_web", {}),
]
# The laws that give the values of constants.
VALUES = {"limits", "codes"}
NAME = r"[^\W\d][\w'-]*"
# The beginning of a definition: `abbrev pub Walk : Roads → ..`, `pub record IsLeast (hop : ℕ) ..`, `abbrev pub ◌or◌ :
# ..`.
BEGINS = re.compile(
    rf"(?:(?:abbrev|unfoldable|opaque|pub) )*(?:(?:record|data) (?P<type>{NAME})|(?P<value>{NAME}|◌\S+) :)"
)
MODULE = re.compile(r"(?:pub )?mod ")
# A line that imports: names of a module, or a module under a name.
USES = re.compile(r"\s*(?:ghost |pub )?use (?P<path>Rattle\.[\w.]+?)(?:\.\{(?P<names>[^}]*)\}| as (?P<as>\w+))?;?$")
COMMENT_OR_TEXT = re.compile(r'(?:--|//).*|"(?:\\.|[^"\\])*"')
# A name, or the names of a dotted path. A name right after a dot is a field.
CITED = re.compile(rf"(?<![.\w'-]){NAME}(?:\.{NAME})*")
CLOSED = "A reader need not look into this"
PRIVATE = "inner"
DECLARED, CONSTANTS, VARIANTS = ".specs.declared", "TheConstants", "TheVariants"
LONGEST_LINE = 120
# A ported crate that more crates than this depend on is shown with their number.
MOST_NAMED = 6


def imports(lines):
    """Returns the meaning of each name of these lines' imports: the module and the name there, or None for all of
    it."""
    found = {}
    for use in filter(None, map(USES.match, lines)):
        if use["names"] is None:
            found[use["as"] or use["path"].rpartition(".")[2]] = use["path"], None
        for one in (use["names"] or "").split(","):
            name, _, alias = one.strip().partition(" as ")
            found[alias or name] = use["path"], name
    return found


def plain(text):
    """Returns the text without comments and quoted text."""
    return COMMENT_OR_TEXT.sub("", text)


class Definitions:
    """The definitions of all specs: module and name to the lines, and to the meaning of the module's imports."""

    def __init__(self):
        self.lines, self.passed_on = {}, {}
        for path in sorted(TOP.glob("crates/*/specs/**/*.antt")):
            crate, _, *below = path.relative_to(TOP / "crates").with_suffix("").parts
            self.read(".".join(["Rattle", crate, "specs", *below]), path.read_text().splitlines())

    def read(self, module, lines):
        """Adds the definitions of a file. A comment between two clauses is part of the definition."""
        uses, comment, current = imports(lines), [], None
        self.passed_on |= {
            (module, name): at for line in lines if re.match("pub use ", line) for name, at in imports([line]).items()
        }
        for line in lines:
            begins = BEGINS.match(line)
            if begins:
                current, comment = [*comment, line], []
                self.lines[module, begins["type"] or begins["value"]] = current, uses
            elif line.startswith(("--", "infix")):
                comment.append(line)
            elif not line.strip() or USES.match(line) or MODULE.match(line) or line.startswith("use "):
                comment = []
            elif current is None:
                raise ValueError(f"{module}: this line is of no definition: {line}")
            else:
                current += [*comment, line]
                comment = []

    def at(self, module, name, uses):
        """Returns the meaning of a name, or a path, in a module."""
        first, _, rest = name.partition(".")
        if rest and first in uses and uses[first][1] is None:
            return uses[first][0], rest.partition(".")[0]
        known = [(module, it) for it in (first, f"◌{first}◌") if (module, it) in self.lines]
        return known[0] if known else uses.get(first, uses.get(f"◌{first}◌"))

    def cited(self, text, uses, module=""):
        """Returns the definitions that a text cites."""
        for name in set(CITED.findall(plain(text))):
            at = self.at(module, name, uses)
            while at in self.passed_on:
                at = self.passed_on[at]
            if at in self.lines:
                yield at

    def is_closed(self, at):
        """Returns whether a reader need not look into the definitions that a definition cites."""
        comment = [line[2:].strip() for line in self.lines[at][0] if line.startswith("--")]
        return CLOSED in " ".join(comment)

    def reached(self, roots):
        """Returns the definitions that the roots cite, those that these cite, and so on."""
        left, found = list(roots), set()
        while left:
            at = left.pop()
            if at not in found:
                found.add(at)
                lines, uses = self.lines[at]
                left += [] if self.is_closed(at) else self.cited("\n".join(lines), uses, at[0])
        return found


def blocks(text):
    """Returns the items of a file of code, each up to its closing brace, by the indentation of `rt fmt`."""
    return re.findall(r"(?m)^[^\s/#}].*(?:;|\{\})$|^[^\s/#}].*\n(?:(?!\}|\{\}).*\n)*(?:\}|\{\}).*$", text)


def exported(crate):
    """Returns the names that a library exports; of a program, those that its main calls."""
    library, program = crate / "src/lib.rt", crate / "src/main.rt"
    top = (library if library.exists() else program).read_text()
    uses = re.findall(r"(?ms)^pub use ([^;]*);" if library.exists() else r"(?ms)^use crate::([^;]*);", top)
    names = {name for use in uses for name in re.findall(NAME, use)} - {"crate"}
    public = [crate / f"src/{name}.rt" for name in re.findall(r"(?m)^pub mod (\w+);", top)]
    laws = [] if library.exists() else [crate / "src/laws.rt"]
    texts = [top, *(path.read_text() for path in [*public, *laws] if path.exists())]
    return names | {name for text in texts for name in re.findall(r"(?m)^pub (?:fn|struct|enum|trait) (\w+)", text)}


def clauses(function):
    """Returns the text of a function before its body."""
    return re.split(r"(?m)^\s*\{", function, maxsplit=1)[0]


def said(block, names):
    """Returns the public text of an item, if it has one of these names."""
    function = re.match(r"pub(?:\(crate\))? (?:const )?fn (\w+)", block)
    if function:
        return clauses(block) if function[1] in names else ""
    head = block.partition("\n")[0]
    if not re.match(r"impl|pub (?:trait|struct|enum)", head) or not set(re.findall(NAME, head)) & names:
        return ""
    ghosts = re.findall(r"(?ms)^    (?:pub )?ghost (?!use).*?[;,]$", block)
    is_open = r"(?:pub )?" if head.startswith("pub trait") or " for " in head else "pub "
    functions = re.findall(rf"(?ms)^    {is_open}fn .*?(?:^    \{{|^    }}|;$)", block)
    return "\n".join([*ghosts, *map(clauses, functions)])


def said_by(crate, only=None):
    """Returns the texts of the public items of a crate, or of those with these names in some files, each with its
    file's imports."""
    files = {crate / file: set(names) for file, names in (only or {}).items()}
    files = files or dict.fromkeys(crate.glob("src/**/*.rt"), exported(crate))
    for path, names in sorted(files.items()):
        text = path.read_text()
        uses = imports(text.splitlines())
        yield from ((said(block, names), uses) for block in blocks(text))


def roots_of(crate, definitions):
    """Returns the definitions that a crate's public contracts and laws cite."""
    for text, uses in said_by(crate):
        yield from definitions.cited(text, uses)


def statements_of(crate, definitions):
    """Returns the statements of a crate's laws."""
    for path in sorted(crate.glob("src/**/*laws.rt")):
        text = path.read_text()
        cited = definitions.cited("\n".join(map(clauses, blocks(text))), imports(text.splitlines()))
        yield from (at for at in cited if at[0].endswith("Laws"))


def is_private(module):
    """Returns whether the module is a file that only private clauses and proofs may cite."""
    return PRIVATE in module.split(".")


def cites_its_file(definitions, beside):
    """Returns whether one of these definitions of a file cites the other ones of the file."""
    for at in beside:
        lines, uses = definitions.lines[at]
        cited = definitions.cited("\n".join(lines), uses, at[0])
        if any(it[0] == at[0] and it not in beside for it in cited):
            return True
    return False


def strays(definitions, found):
    """Returns the definitions in a public file that no public clause reaches: module and name. One may be beside a
    closed definition that cites it, if it cites others of the file: two files can't cite each other."""
    left = {at for at in definitions.lines if at not in found and not is_private(at[0])}
    for closed in filter(definitions.is_closed, definitions.lines):
        lines, uses = definitions.lines[closed]
        cited = definitions.reached(it for it in definitions.cited("\n".join(lines), uses, closed[0]) if it in left)
        beside = {at for at in cited & left if at[0] == closed[0]}
        left -= beside if cites_its_file(definitions, beside) else set()
    return sorted(left)


def counted(definitions):
    """Returns each definition that a reader has to believe: crate, module and name to its lines, and whether it is a
    law's."""
    crates = [path for path in sorted((TOP / "crates").iterdir()) if path.is_dir()]
    laws = {at for crate in crates for at in statements_of(crate, definitions)}
    reached = definitions.reached({at for crate in crates for at in roots_of(crate, definitions)})
    return {at: (len(definitions.lines[at][0]), at in laws) for at in sorted(reached)}


def crate_lines():
    """Returns the crates of crates.txt, and the dependencies of each."""
    lines = re.findall(rf"(?m)^({NAME})(?: [^:\n]*)?:([^#\n]*)", (TOP / "crates.txt").read_text())
    return {crate: lows.split() for crate, lows in lines}


def table(found):
    """Returns the table of docs/DEFINITIONS.md: a row for each crate, in the order of crates.txt, and their sum."""
    counts = {crate: [0, 0] for crate in crate_lines()}
    for (module, _), (lines, is_law) in found.items():
        counts[module.split(".")[1]][is_law] += lines
    rows = [(f"`{crate}`", *both) for crate, both in counts.items() if any(both)]
    rows.append(("together", sum(row[1] for row in rows), sum(row[2] for row in rows)))
    lines = ["| {} | {} | {} |".format(*row) for row in rows]
    return "\n".join(["| crate | definitions | laws |", "|---|---|---|", *lines])


def filled(what, names):
    """Returns a sentence with a list, in lines of a page."""
    return textwrap.fill(f"{what}: {', '.join(names) or 'none'}.", LONGEST_LINE, break_on_hyphens=False)


# ---- constants and types of the code


def declared(path, name):
    """Returns the constant or the type behind an import of the code's own items: crate, module and name; otherwise
    None."""
    crate, is_declared, below = path.removeprefix("Rattle.").partition(DECLARED)
    if not is_declared or not (TOP / "crates" / crate).is_dir():
        return None
    *module, last = [it for it in below.split(".") if it != VARIANTS][1:]
    return crate, "/".join(module) or "lib", name if last == CONSTANTS else last


def shown_in(text, uses):
    """Returns the constants and the types of the code that a text cites."""
    for name in set(CITED.findall(plain(text))):
        path, own = uses.get(name.partition(".")[0], ("", None))
        if found := declared(path, own or name.partition(".")[2]):
            yield found


def is_constant(item):
    return item[2].isupper()


def lines_of_type(item):
    """Returns the number of lines of a type, without comments and attributes."""
    crate, module, name = item
    items = blocks((TOP / f"crates/{crate}/src/{module}.rt").read_text())
    found = next(it for it in items if re.match(rf"pub(?:\(crate\))? (?:struct|enum|trait) {name}\b", it))
    return sum(not line.strip().startswith(("//", "#[")) for line in found.splitlines() if line.strip())


def shown_by(definitions, texts, found):
    """Returns the constants and the types that contracts cite, and the definitions that they reach."""
    opened = (definitions.lines[at] for at in found if not definitions.is_closed(at))
    texts = [*texts, *(("\n".join(lines), uses) for lines, uses in opened)]
    return {item for text, uses in texts for item in shown_in(text, uses)}


# ---- claims


def carriers(crate, only):
    """Returns the text of a page for what carries a claim."""
    names = ", ".join(f"`{name}`" for names in only.values() for name in names)
    return f"`{crate}`, {names or 'all that is public'}"


def claim_row(definitions, claim, crate, only):
    """Returns the row of a claim: what has to be believed for it."""
    texts = list(said_by(TOP / "crates" / crate, only))
    found = definitions.reached({at for text, uses in texts for at in definitions.cited(text, uses)})
    shown = shown_by(definitions, texts, found)
    types = [item for item in shown if not is_constant(item)]
    lines = sum(len(definitions.lines[at][0]) for at in found)
    counts = len(found), lines, len(shown) - len(types), len(types), sum(map(lines_of_type, types))
    return "| {} | {} | {} | {} | {} | {} | {} |".format(claim, carriers(crate, only), *counts)


def claims(definitions):
    """Returns the table of docs/TRUST.md: a row for each claim."""
    head = "| Claim | What carries it | Definitions | Their lines | Constants | Types | Their lines |"
    return "\n".join([head, "|---|---|---|---|---|---|---|", *(claim_row(definitions, *claim) for claim in CLAIMS)])


def unpromised(definitions, found):
    """Returns the constants that public contracts reach and whose values no law gives."""
    crates = [TOP / "crates" / crate for crate in crate_lines()]
    texts = [it for crate in crates for it in said_by(crate)]
    laws = [said_by(crate, {"src/laws.rt": VALUES}) for crate in crates if (crate / "src/laws.rt").exists()]
    given = {item for said_there in laws for text, uses in said_there for item in shown_in(text, uses)}
    left = sorted(filter(is_constant, shown_by(definitions, texts, found) - given))
    return filled("No law gives the value of", [f"`{name}` (`{crate}`)" for crate, _, name in left])


# ---- ported crates, and `unsafe`


def ported():
    """Returns the table of docs/TRUST.md of the kit's crates, and of those that depend on them."""
    lines, rows = crate_lines(), []
    for low in sorted({low for lows in lines.values() for low in lows} - set(lines)):
        users = [f"`{crate}`" for crate, lows in lines.items() if low in lows]
        rows.append(f"| `{low}` | {f'{len(users)} crates' if len(users) > MOST_NAMED else ', '.join(users)} |")
    return "\n".join(["| Ported crate | Named by |", "|---|---|", *rows])


def unsafe():
    """Returns the `unsafe` blocks and functions of the code, by their files."""
    texts = {path: plain(path.read_text()) for path in sorted((TOP / "crates").glob("*/src/**/*.rt"))}
    counts = {path.relative_to(TOP): len(re.findall(r"\bunsafe\b", text)) for path, text in texts.items()}
    return filled("`unsafe` stands in", [f"`{path}` ({count})" for path, count in counts.items() if count])


# ---- the part


def stands_written(page, name, text, is_to_write):
    """Returns whether a page has this text between its lines with this name. Writes it there if asked."""
    before, begin, rest = page.read_text().partition(BEGIN.format(name))
    old, end, after = rest.partition(END)
    new = f"\n\n{text}\n\n"
    if is_to_write and end:
        page.write_text(before + begin + new + end + after)
        old = new
    return bool(end) and old == new


@part("definitions", "docs/DEFINITIONS.md and docs/TRUST.md count what the specs have",
      words="[--write | --list | --strays]")
def definitions(count, word=""):
    """Compares the tables of the pages, and keeps private files from public clauses. `--write` writes the tables,
    `--list` prints each definition that is counted, `--strays` each one that is in a public file and that none
    reaches."""
    known = Definitions()
    found = counted(known)
    if word == "--list":
        print("\n".join(f"{module} {name} {lines}{' (law)' * law}" for (module, name), (lines, law) in found.items()))
    if word == "--strays":
        print("\n".join(f"{module} {name}" for module, name in strays(known, found)))
    stray = ", ".join(f"{module} {name}" for module, name in strays(known, found))
    count("public files", not stray, f"no public clause reaches what public files have: {stray}")
    reached = ", ".join(f"{module} {name}" for module, name in found if is_private(module))
    count("private files", not reached, f"public clauses reach what private files have: {reached}")
    for page, name, text in [
        (PAGE, "The counts", table(found)),
        (TRUST, "The counts", claims(known)),
        (TRUST, "The constants", unpromised(known, found)),
        (TRUST, "The ported crates", ported()),
        (TRUST, "The unsafe blocks", unsafe()),
    ]:
        stands = stands_written(page, name, text, word == "--write")
        count(f"{page.name}: {name}", stands, "it has other counts, or lacks its lines: tests/run definitions --write")
