"""The table page/texts.json: the page looks for the texts that the crates define and the programs say. Without this
test a changed text would fail in silence: the page would no longer find it.
"""
import glob
import importlib.util
import json
import os
import re

from harness import inputs
from harness.parts import part
from harness.programs import TOP, program
from harness.server import Client
from harness.sessions import answer
from harness.web import WebServer
from harness.web_client import upgrade

# A text in a definition, and the definition of a refusal's text.
CODES = re.compile(r'codes "((?:\\.|[^"\\])*)"')
REFUSAL = re.compile(r'^refusal_text \w+ = codes "(.*)"$', re.M)
# The variables of the table, and the values that they stand for.
VARIABLE, VALUES = re.compile("%[ds]"), {"%d": r"\d+", "%s": ".*"}
VERSION = re.compile(r"\[\d+\] |\(\d+\) ")
# The row that gives a form alone, and the rows that list all lines in brackets of their files.
FORM, IN_BRACKETS = "refused", ("failed", "ended")
# Lines that a program says only if one of its calls fails; other parts have the calls fail.
AT_FAULTS = {"(out of memory)", "(not stored)", "(journal fault)"}
# The lines of two players; the first hears those of the second. And the origin of a refused page.
FIRST, SECOND = [b"connect Ann", b"@dig door|back to Yard"], [b"connect Bob", b"say hello", b"door"]
ELSEWHERE = "http://elsewhere.example"
SHORTEST = 4  # Characters of the shortest text that identifies a row.


def rows():
    """Returns the rows of each block of the table: the name, the files that define the texts, and the texts."""
    with open(f"{TOP}/page/texts.json", encoding="ascii") as file:
        table = json.load(file)
    return {block: [(name, paths.split(), texts) for name, paths, *texts in found] for block, found in table.items()}


def read(path):
    """Returns the text of a file, by its path below the top."""
    with open(f"{TOP}/{path}", encoding="utf-8") as file:
        return file.read()


def spelled(path):
    """Returns the texts in the definitions of a file, without line ends, and with and without a leading comma."""
    texts = {it.encode().decode("unicode_escape").strip("\r\n") for it in CODES.findall(read(path))}
    return texts | {it.removeprefix(", ") for it in texts}


def fixed_parts(text):
    """Returns the parts of a text between its variables."""
    return [it for it in VARIABLE.split(text) if it]


def is_made_of(text, pieces):
    """Returns true if a text is a sequence of these pieces and of the sign before a number."""
    choices = "|".join(re.escape(it) for it in {"#", *pieces} - {""})
    return re.fullmatch(f"(?:{choices})+", text) is not None


def is_defined(text, pieces):
    """Returns true if each fixed part of a text is a sequence of these pieces."""
    return all(is_made_of(it, pieces) for it in fixed_parts(text))


def lines_of(text):
    """Returns the pattern of the lines that a text of the table stands for."""
    return re.compile(VARIABLE.sub(lambda it: VALUES[it[0]], re.escape(text)))


def definers(texts):
    """Returns the files with a definition that begins as one of these texts does."""
    begins = tuple(fixed_parts(text)[0] for text in texts)
    paths = (os.path.relpath(it, TOP) for it in glob.glob(f"{TOP}/crates/*/specs/**/*.antt", recursive=True))
    return [path for path in paths if any(it.startswith(begins) for it in spelled(path))]


def said_by_scripts():
    """Yields the lines that a script answers to the sessions of the tests."""
    for one in inputs.sessions():
        yield from answer([program("mud_serve"), "script", *one.words], one.text)[1].decode("latin-1").split("\r\n")


def said_by_server():
    """Yields what a server says to a page from elsewhere and to two players. Its console ends one, then all."""
    with WebServer(console=True) as server:
        yield from server.ask(upgrade(ELSEWHERE)).decode("latin-1").split("\r\n")
        first, second = Client(server.port), Client(server.port)
        for client, lines in ((first, FIRST), (second, SECOND)):
            client.send_all(lines)
            yield from [client.line().decode() for _ in ["the greeting", *lines]]
        yield from [first.line().decode() for _ in SECOND]
        server.type(b"end 2\n")
        yield from (line.decode() for line in iter(second.line, None))
        server.type(b"stop\n")
        yield from (line.decode() for line in iter(first.line, None))


def texts_in(line):
    """Returns what a row may match in a line: the line, its text without the version, and each item that was dug."""
    text = VERSION.sub("", line, count=1)
    return {line, text, *text.removeprefix("dug ").split(", ")}


def count_defined(count, name, paths, texts):
    """Tests that the files of a row define its texts, or for a row without files that no file defines them yet."""
    if not paths:
        count(f"{name}: defined", not definers(texts), f"the table lacks the file: {definers(texts)}")
        return
    pieces = set().union(*(spelled(f"crates/{path}") for path in paths))
    strange = [text for text in texts if not is_defined(text, pieces)]
    count(f"{name}: defined", not strange, f"{' '.join(paths)} does not define {strange}")
    if name in IN_BRACKETS:
        lines = {it for it in pieces if it[:1] == "(" and it[-1:] == ")"}
        count(f"{name}: all", lines == set(texts), f"{' '.join(paths)} has {sorted(lines)}")


def count_form(count, paths, texts, said):
    """Tests that all refusals have the form of the row, and no other reply has it."""
    refusals = {it for path in paths for it in REFUSAL.findall(read(f"crates/{path}"))}
    forms = [lines_of(text) for text in texts]
    others = {it for it in refusals if not any(form.fullmatch(it) for form in forms)}
    count("refusals: their form", refusals and not others, f"not in the form of {texts}: {sorted(others)}")
    replies = {VERSION.sub("", line, count=1) for line in said if line.startswith("[")}
    others = {it for it in replies - refusals if any(form.fullmatch(it) for form in forms)}
    count("other replies: their form", not others, f"in the form of {texts}: {sorted(others)}")


def maker():
    """Returns the module page/make_page.py."""
    spec = importlib.util.spec_from_file_location("make_page", f"{TOP}/page/make_page.py")
    module = importlib.util.module_from_spec(spec)
    spec.loader.exec_module(module)
    return module


def literals(tokens, script):
    """Returns the string and pattern literals of a script, without backslashes."""
    found = (it.group() for it in tokens.finditer(script) if it.lastgroup in ("text", "pattern"))
    return [it.replace("\\", "") for it in found]


def count_once(count, table):
    """Tests that no script of the page has a text of the table itself. The checker has its own, which the parts
    `checkers` and `page` test.
    """
    begins = {fixed_parts(text)[0] for _, _, texts in table for text in texts}
    begins = {it for it in begins if len(it) >= SHORTEST and not it.strip().isalpha()}
    made = maker()
    for name in [*made.SCRIPTS, "main.js"]:
        own = "\n".join(literals(made.TOKENS, read(f"page/{name}")))
        found = sorted(it for it in begins if it in own)
        count(f"{name}: texts", not found, f"it has these texts of the table: {found}")


@part("page-texts", "what the page looks for in the server's texts is what the crates define and the programs say")
def page_texts(count):
    table, lines = rows(), [*said_by_scripts(), *said_by_server()]
    said = set().union(*map(texts_in, lines))
    for name, paths, texts in [*table["lines"], *table["words"]]:
        if name == FORM:
            count_form(count, paths, texts, lines)
        else:
            count_defined(count, name, paths, texts)
    for name, texts in ((name, texts) for name, paths, texts in table["lines"] if paths):
        unsaid = [it for it in texts if it not in AT_FAULTS and not any(map(lines_of(it).fullmatch, said))]
        count(f"{name}: said", not unsaid, f"no program says {unsaid}")
    count_once(count, table["lines"])
