"""Certificates: a history followed by a certificate, and the checker's verdict on the two.

The cases are in the tables tests/certificates/DOUBT.rows, a file for each doubt or kind of fault. A table consists of
blocks of lines, separated by blank lines; lines that begin with `#` are comments. A block is a heading, and below it
lines that have a mark of two characters:

    [HEADING]     a text with a name: a history, a certificate, or both
    HEADING       a case

      LINE        a line of the text
      [HEADING]   all lines of the text with this name, which comes earlier in the table
    - LINE        a line of the text that is taken out, and
    + LINE        one that is put in its place; the lines taken out are adjacent in the text, and occur only once
    = VERDICT     the line that the checker prints: the last of a case

Each line of a text ends with a line feed. Braces hold what is not seen, or is long:

    {CR} {SPACE} {7F}   a return, a space, the byte with this hexadecimal number
    {900 a}             the text after the space, repeated this many times
    {}                  nothing: the only mark of an empty line
    {CUT}               at the end of the last line: no line feed follows
"""
import re
from dataclasses import dataclass, field
from pathlib import Path

from harness.parts import part
from harness.programs import TOP, program
from harness.sessions import answer, count_each, difference

FOLDER = Path(TOP, "tests", "certificates")
STATUS = {"accepted": 0, "refused": 1, "unreadable": 2}
MARKS = ("  ", "- ", "+ ", "= ")
BRACES = re.compile(r"\{(.*?)\}")
UNSEEN = {"": "", "CR": "\r", "SPACE": " "}


class Faulty(Exception):
    """A table does not have the form that this module describes."""


@dataclass
class Case:
    """The input of the checker, and the line that it prints."""

    given: bytes
    verdict: str


@dataclass
class Table:
    """The named texts of a table, each a list of lines, and its cases, by their headings."""

    texts: dict = field(default_factory=dict)
    cases: dict = field(default_factory=dict)

    def add(self, heading, lines):
        """Adds a block."""
        need(heading not in self.texts and heading not in self.cases, f"two blocks are called {heading}")
        need(lines and all(mark in MARKS for mark, _ in lines), f"{heading} has a line without a mark, or none")
        if heading.startswith("["):
            self.texts[heading] = self.text(lines)
        else:
            *lines, (mark, verdict) = lines
            need(mark == "= " and kind_of(verdict) in STATUS, f"{heading} has no verdict")
            self.cases[heading] = Case(b"".join(self.text(lines)), verdict)

    def text(self, lines):
        """Returns the lines of a text, after its changes."""
        need(all(mark != "= " for mark, _ in lines), "there is a verdict above the end of a block")
        text = [line for mark, spelled in lines if mark == "  " for line in self.lines_of(spelled)]
        for out, put in changes(lines):
            text = changed(text, out, put)
        return text

    def lines_of(self, spelled):
        """Returns the line with this spelling, or the lines of the text with this name."""
        if not spelled.startswith("["):
            return [line_of(spelled)]
        need(spelled in self.texts, f"there is no {spelled} further up")
        return self.texts[spelled]


def need(holds, why):
    if not holds:
        raise Faulty(why)


def changes(lines):
    """Returns the changes of a text, in order: the lines taken out, and those put in their place."""
    found, before = [], ""
    for mark, spelled in lines:
        if mark == "- " and before != "- ":
            found.append(([], []))
        if mark in ("- ", "+ "):
            need(found, f"nothing is taken out for {spelled}")
            out, put = found[-1]
            (out if mark == "- " else put).append(line_of(spelled))
        before = mark
    return found


def changed(text, out, put):
    """Returns a text with some lines replaced."""
    places = [at for at in range(len(text)) if text[at : at + len(out)] == out]
    need(len(places) == 1, f"{out} stands in the text {len(places)} times")
    at = places[0]
    return text[:at] + put + text[at + len(out) :]


def line_of(spelled):
    """Returns the bytes of a line."""
    line = spelled.removesuffix("{CUT}")
    end = "\n" if line == spelled else ""
    return (BRACES.sub(lambda braces: unseen(braces[1]), line) + end).encode("latin-1")


def unseen(braced):
    """Returns the bytes for a text in braces."""
    if braced in UNSEEN:
        return UNSEEN[braced]
    if re.fullmatch("[0-9A-F]{2}", braced):
        return chr(int(braced, 16))
    times, _, repeated = braced.partition(" ")
    need(times.isdigit(), f"{{{braced}}} stands for nothing")
    return int(times) * repeated


def cases_of(path):
    """Returns the cases of a table, by their headings."""
    table = Table()
    lines = [line for line in path.read_text().split("\n") if not line.startswith("#")]
    for block in re.split("\n{2,}", "\n".join(lines).strip("\n")):
        heading, *marked = block.split("\n")
        table.add(heading, [(line[:2], line[2:]) for line in marked])
    return table.cases


def given(table, heading):
    """Returns the input of a case: `given("free-exits", "by one exit")`."""
    return cases_of(FOLDER / f"{table}.rows")[heading].given


def kind_of(verdict):
    """Returns the first word of a verdict, which determines its status."""
    return verdict.split(":")[0]


def misjudged(case):
    """Returns how the checker's line or status differs from the verdict, or nothing."""
    status, printed = answer([program("mud_check")], case.given)
    if status != STATUS[kind_of(case.verdict)]:
        return f"the status is {status}, and the line {printed}"
    return difference(printed, f"{case.verdict}\n".encode())


def named_cases(count):
    """Returns the cases of all tables, each with its name. A table with a wrong form counts as one failed test."""
    for path in sorted(FOLDER.glob("*.rows")):
        try:
            yield from ((f"{path.stem}: {heading}", case) for heading, case in cases_of(path).items())
        except Faulty as fault:
            count(f"{path.stem}.rows", False, fault)


@part("certificates", "the checker accepts, refuses or can't read a history with a certificate, as the tables say")
def judge_certificates(count):
    example = Case(Path(TOP, "examples", "proof.txt").read_bytes(), "accepted")
    count_each(count, misjudged, [*named_cases(count), ("examples/proof.txt", example)])
