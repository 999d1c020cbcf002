"""The rules of style in docs/CHANGING.md, as far as patterns can hold pages and comments to them.

A mistake that a pattern finds is shown with its file and its line. Each pattern has an example that it must find and a
text close to it that it must leave alone, so a pattern that no longer finds anything fails too.
"""
import ast
import io
import re
import tokenize
from dataclasses import dataclass, replace

from harness.pages import files, text_of
from harness.parts import part

MOST_WORDS = 35
PAGES = ["README.md", "CHANGELOG.md", "docs/*.md", "bench/README.md", "tests/README.md", "examples/*.md"]
RATTLE, SPECS, PROOFS = ["crates/*/src/**/*.rt"], ["crates/*/specs/**/*.antt"], ["crates/*/proofs/**/*.antt"]
PYTHON = ["run", "tests/run", "tests/*.py", "tests/harness/**/*.py", "packaging/*.py", "page/*.py", "bench/*.py"]
PYTHON += [f"bench/{name}" for name in ("builders", "first", "gate", "heard", "journal", "lines", "load", "memory")]
PYTHON += ["bench/record", "bench/routes"]
PYTHON += ["bench/tables", "bench/turns", "bench/web", "bench/hall/run", "bench/workers/run"]
SHELL = [".ci/run", "packaging/launch", "packaging/*.toml", "packaging/*.service"]
SHOWN = 5

CODE, QUOTED = re.compile(r"``.+?``|`[^`]*`"), re.compile(r'"[^"]*"')
LINK = re.compile(r"!?\[([^\]]*)\](?:\([^)]*\))?")
# Marks of stress, and a title in bold at the head of a paragraph.
MARK = re.compile(r"^\*\*[^*]+[.:]\*\*|[*_]{1,2}(?=\S)|(?<=\S)[*_]{1,2}|<!--.*?-->")
# The end of a sentence: a mark, a blank, and a capital letter, a number, or a path after it.
END = re.compile(r"(?<=[.?!])[\"')]*\s+(?=[\"'(]*(?:[A-Z`#0-9\[]|(?:bench|crates|docs|examples|page|tests)/))")
WORD = re.compile(r"[A-Za-z0-9][\w'-]*")
ITEM, HEAD = re.compile(r"(?:[-*]|\d+\.) "), re.compile(r"#+ ")


@dataclass
class Pattern:
    """A mistake: an expression that finds it in a sentence, a sentence with it, and one close to it without it."""

    name: str
    finds: re.Pattern
    wrong: str
    right: str


@dataclass
class Paragraph:
    """A text and the number of its first line. A heading or a cell of a table need not be a sentence."""

    line: int
    parts: list
    is_sentence: bool = True

    def text(self):
        return " ".join(self.parts)


def pattern(name, expression, wrong, right):
    """Returns a mistake whose expression ignores case."""
    return Pattern(name, re.compile(expression, re.I), wrong, right)


PATTERNS = [
    pattern("a person without a noun", r"^who(?:ever|m)?\b(?!.*\?$)|\b(?:whoever|whomever)\b|"
            r"\b(?:for|of|to|by|with|from|as|than|and|or|so|since|while|where) who\b(?!.*\?$)",
            "Who acts takes the lock.", "Who takes the lock?"),
    pattern("a thing without a noun", r"^what\b(?!.*\?$)",
            "What came last is kept.", "The journal keeps the last line."),
    pattern("a question as a statement", r"^whether\b(?!.*\?$)|\bwhether it came to (?:that|it)\b",
            "Whether the line is read.", "Returns whether the line is read."),
    pattern("of which", r"(?<!\beach )(?<!\ball )(?<!\bnone )(?<!\bsome )\bof (?:which|whom)\b",
            "Two cells, of which one is set.", "Two cells, each of which is set."),
    pattern("is none", r"(?<!there )\b(?:is|are|was|were|be) (?-i:none)\b(?! of)", "A head is none.",
            "There is no head."),
    pattern("The same", r"^the same\b", "The same twice.", "It does this twice."),
    pattern("so called", r"\bso[- ]called\b", "The so-called gate.", "The gate."),
    pattern("so many", r"\bso many\b(?!.*\bthat\b)", "It reads so many bytes.", "So many come that it waits."),
    pattern("the first such", r"\bthe (?:first|last|next|least|lowest|greatest|earliest|latest) such\b(?! [a-z])",
            "It gives the first such.", "It gives the first such room."),
    pattern("he for a thing", r"\b(?:he|him|his|himself|she|her|hers|herself)\b",
            "The thread takes his lock.", "The thread takes its lock."),
    pattern("told of", r"\b(?:is|are|was|were|be|been) told of\b",
            "A desk is told of it.", "The desk tells the player."),
    pattern("comes of", r"\b(?:comes?|came|coming) of\b", "It comes of a fault.", "It comes from a fault."),
    pattern("lets go", r"\b(?:lets?|letting) go\b", "The gate lets go.", "The gate releases them."),
    pattern("takes in", r"\b(?:takes?|taking|taken|took) in\b(?! (?:order|turn|memory|the gate)\b)",
            "It takes in an entry.", "It applies an entry."),
    pattern("stands on", r"\b(?:stands?|standing|stood) (?:up)?on\b",
            "A crate stands on another.", "It depends on it."),
    pattern("a front", r"\b(?:a|the|its|this|that|each|any|longest|whole|of) fronts?\b|(?<!in )\bfront of\b",
            "A front of the text.", "A step in front of a door."),
    pattern("of no", r"\bof no (?:bytes?|rooms?|lines?|steps?|exits?|words?|entry|entries|cells?)\b",
            "A text of no byte.", "An empty text."),
]


def shortened(text):
    """Returns the text with a word for each piece of code and each quotation, and with the words of each link."""
    return MARK.sub("", LINK.sub(r"\1", QUOTED.sub("Words", CODE.sub("Code", text))))


def sentences(text):
    """Returns the sentences of a paragraph."""
    return [one.strip() for one in END.split(" ".join(shortened(text).split())) if one.strip()]


# ---- paragraphs


def cut(lines):
    """Returns the paragraphs of numbered lines. An item, a row or a heading begins one, and a blank line ends one. Code
    between fences, or set in by four spaces, is left out."""
    found, is_code = [], False
    for n, line in lines:
        text = line.strip()
        if text.startswith("```"):
            is_code = not is_code
        is_set_in = line.startswith("    ") and not (found and found[-1].parts)
        if is_code or is_set_in or not text or text.startswith(("```", "<!--")):
            found.append(Paragraph(n, []))
        elif text.startswith("|"):
            found += [Paragraph(n, [cell], False) for cell in re.split(r"(?<!\\)\|", text)] + [Paragraph(n, [])]
        elif HEAD.match(text):
            found += [Paragraph(n, [HEAD.sub("", text)], False), Paragraph(n, [])]
        elif not found or ITEM.match(text):
            found.append(Paragraph(n, [ITEM.sub("", text)]))
        else:
            found[-1] = Paragraph(found[-1].line if found[-1].parts else n, [*found[-1].parts, text])
    return [one for one in found if one.parts]


def comments_by(mark):
    """Returns a reader of the comments that begin with a mark, each alone on its lines."""
    line_of = re.compile(rf"^\s*{mark}(?: (.*))?$")

    def read(text):
        lines, before = [], False
        for n, line in enumerate(text.split("\n"), 1):
            found = line_of.match(line)
            if found or before:
                lines.append((n, (found[1] or "") if found else ""))
            before = bool(found)
        return cut(lines)

    return read


def phrases_by(mark):
    """Returns a reader of such comments that takes a paragraph without a capital letter at its start for a phrase."""
    read = comments_by(mark)

    def phrases(text):
        return [replace(one, is_sentence=one.text()[:1].isupper()) for one in read(text)]

    return phrases


def of_page(text):
    """Returns the paragraphs of a page."""
    return cut(enumerate(text.split("\n"), 1))


def of_python(text):
    """Returns the paragraphs of a script's comments and docstrings."""
    lines, last = [], 0
    for token in tokenize.generate_tokens(io.StringIO(text).readline):
        if token.type == tokenize.COMMENT and not token.string.startswith("#!"):
            if token.start[0] != last + 1 or text.split("\n")[token.start[0] - 1].strip() != token.string:
                lines.append((token.start[0], ""))
            lines.append((token.start[0], token.string[1:].strip()))
            last = token.start[0]
    found = cut(lines)
    for node in ast.walk(ast.parse(text)):
        if isinstance(node, (ast.Module, ast.ClassDef, ast.FunctionDef)) and ast.get_docstring(node):
            first = node.body[0].lineno
            prose = ((n, "" if line.startswith("    ") else line)
                     for n, line in enumerate(ast.get_docstring(node).split("\n"), first))
            found += cut(prose)
    return found


READERS = [(PAGES, of_page), (RATTLE, comments_by("//[/!]?")), (SPECS, comments_by("--")),
           (PROOFS, phrases_by("--")),
           (PYTHON, of_python), (SHELL, comments_by("#(?!!)"))]


# ---- mistakes


def mistakes_in(sentence, is_sentence):
    """Returns the mistakes in a sentence. A phrase may begin as a sentence must not."""
    length = len(WORD.findall(sentence))
    long = [f"{length} words"] if length > MOST_WORDS else []
    found = [one for one in PATTERNS if one.finds.search(sentence)]
    return long + [one.name for one in found if is_sentence or one.finds.search("- " + sentence)]


def faults_of(paragraphs):
    """Returns the mistakes of a file, each with its line and the first words of its sentence."""
    return [f"{one.line}: {mistake}: {sentence[:70]}" for one in paragraphs for sentence in sentences(one.text())
            for mistake in mistakes_in(sentence, one.is_sentence)]


@part("style", "pages and comments keep the rules of style that patterns can find")
def check_style(count):
    for one in PATTERNS:
        count(f"pattern: {one.name}", one.finds.search(one.wrong) and not one.finds.search(one.right),
              f"it finds too little, or too much: {one.wrong} {one.right}")
    for patterns, read in READERS:
        for path in files(patterns):
            faults = faults_of(read(text_of(path)))
            shown = "".join(f"\n  {path}:{fault}" for fault in faults[:SHOWN])
            count(f"{path}: style", not faults, f"{len(faults)} mistakes{shown}")
