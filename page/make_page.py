#!/usr/bin/env python3
"""make_page.py: writes the page to crates/mud_page/src/page.rt, as the whole HTTP response that a browser gets.

The page is page.html with page.css as its style. Its script is the checker, in a scope of its own, the files of
SCRIPTS, and main.js. Comments and needless spaces are removed. The content policy allows this style and this script by
their SHA-256, and connections to the page's own origin. It allows nothing else, and no text that becomes a script.

Two tables go into the script. COMMANDS is the table of docs/COMMANDS.md, for the help. texts.json has the texts of the
server that the page looks for. A row has a name, the files below crates/ that define the text, and one text or several,
in which `%d` stands for a number and `%s` for any text. SAID has each row of "lines" as the pattern of a whole line.
WORDS has each row of "words" as a list. The part `page-texts` of tests/run compares the rows with the definitions and
with the output of the programs.

`make_page.py --check` writes nothing, and fails if the file differs from what it would write. `make_page.py --logic`
prints the script without main.js, for tests.
"""
import base64
import hashlib
import json
import pathlib
import re
import sys

HERE = pathlib.Path(__file__).resolve().parent
TARGET = HERE.parent / "crates" / "mud_page" / "src" / "page.rt"
COMMANDS = HERE.parent / "docs" / "COMMANDS.md"
TEXTS = HERE / "texts.json"
CHECKER = ["keys.js", "history.js", "rules.js", "certificate.js", "verdict.js", "checker.js"]
CHECKER_NAMES = "Checker, statement, record, parts, told"
SCRIPTS = ["world.js", "answers.js", "conversation.js", "map-layout.js", "map-picture.js", "connection.js",
           "completion.js", "checking.js", "frame.js", "log.js", "map-paint.js", "map-view.js", "hands.js", "line.js",
           "help.js", "keep.js"]
NAMED = {"\\": "\\\\", '"': '\\"', "\n": "\\n", "\r": "\\r"}
# The tokens of a script. A slash begins a regular expression where a value may begin: not after `)`, `]` or `}`.
TOKENS = re.compile(r"""
    (?P<space>\s+)|(?P<comment>//[^\n]*)
    |(?P<text>"(?:[^"\\\n]|\\.)*"|'(?:[^'\\\n]|\\.)*'|`(?:[^`\\$]|\\.|\$(?!\{)|\$\{(?:[^`{}]|`[^`]*`|\{[^{}]*\})*\})*`)
    |(?P<pattern>(?:(?<=[(,=:\[!&|?{;\s])(?<![\w)\]]\s)|(?<=\breturn\s))
        /(?:[^/\\\[\n]|\\.|\[(?:[^\]\\\n]|\\.)*\])+/[a-z]*)
    |(?P<word>[\w$@#]+)|(?P<sign>.)""", re.X)
WORD = frozenset("abcdefghijklmnopqrstuvwxyzABCDEFGHIJKLMNOPQRSTUVWXYZ0123456789_$#@")
OPENS, CLOSES = ("{", "(", "["), ("}", ")", "]")
# The script declares `$` first, without a value.
SHORTER = {"const": "let", "undefined": "$", "true": "!0", "false": "!1"}
NO_VALUE = "let $;\n"
VARIABLES = {"%d": r"(\d+)", "%s": "(.*?)"}
PRINTABLE = range(32, 127)
LONGEST_LINE = 110  # Characters of a line of the byte string, without its end.


def statement_ends(piece, begins):
    """Returns true if a token ends a declaration. `begins` has the first token of the statement in each open bracket,
    which the function updates.
    """
    if piece in CLOSES:
        begins.pop()
    begins[-1] = begins[-1] or piece
    if piece in OPENS:
        begins.append("")
    if piece != ";":
        return False
    is_declaration = begins[-1] == "let"
    begins[-1] = ""
    return is_declaration


def squeezed_script(text):
    """Returns a script without comments and needless spaces. All statements end with a semicolon or a brace, so a line
    feed is kept only before a line without indentation. Shorter words replace some words, and consecutive declarations
    are merged.
    """
    kept, last, begins, is_declared = [], "\n", [""], False
    for token in TOKENS.finditer(text):
        piece, kind = token.group(), token.lastgroup
        if kind in ("space", "comment"):
            continue
        piece = SHORTER.get(piece, piece)
        if piece == "let" and last == ";" and is_declared:
            kept[-1] = last = ","
            begins[-1] = piece
            continue
        is_apart = last[-1] in WORD and piece[0] in WORD or last[-1] == piece[0] and piece[0] in "+-"
        is_left = text[token.start() - 1 : token.start()] == "\n" and piece not in CLOSES
        if is_left or (is_apart and text[token.start() - 1] in " \n"):
            kept.append("\n" if is_left else " ")
        if piece == "}" and last == ";":
            kept.pop()
        kept.append(piece)
        last = piece
        is_declared = statement_ends(piece, begins)
    return re.sub(r"(?<=[(,=:?!&|{;])\(([a-zA-Z]+)\)=>", r"\1=>", "".join(kept)) + "\n"


def squeezed_style(text):
    """Returns a style without comments and needless spaces."""
    text = re.sub(r"\s+", " ", re.sub(r"/\*.*?\*/", "", text, flags=re.S))
    return re.sub(r" ?([{};,>]) ?", r"\1", re.sub(r": (?=[^{}]*[;}])", ":", text)).replace(";}", "}").strip() + "\n"


def squeezed_markup(text):
    """Returns a page without indentation and without needless quotes of attributes."""
    text = "".join(line.strip() + "\n" for line in text.splitlines()).replace(">\n<", "><")
    return re.sub(r'="([a-z0-9-]+)"(?=[ >\n])', r"=\1", text)


def squeezed(name):
    """Returns the text of a file without what a browser does not need."""
    text = (HERE / name).read_text(encoding="ascii")
    if name.endswith(".html"):
        return squeezed_markup(text)
    return squeezed_script(text) if name.endswith(".js") else squeezed_style(text)


def hashed(text):
    """Returns the name of a text in the content policy."""
    return "'sha256-" + base64.b64encode(hashlib.sha256(text.encode()).digest()).decode() + "'"


def commands():
    """Returns the rows of the table of commands in docs/COMMANDS.md: what is typed, and what it does."""
    text = COMMANDS.read_text(encoding="ascii")
    table = text.partition("| Line | Refused as | Otherwise |\n")[2].partition("\n\n")[0]
    rows = [re.split(r" ?(?<!`)\|(?!`) ?", line)[1:4] for line in table.splitlines()[1:]]
    return [[typed.strip(), comes.strip().replace(", see below", "")] for typed, _, comes in rows]


def pattern_of(texts):
    """Returns the regular expression of the lines that some texts stand for."""
    signs = [re.sub("%[ds]", lambda it: VARIABLES[it[0]], re.sub(r"[][().?]", r"\\\g<0>", text)) for text in texts]
    return f"/^{signs[0]}$/" if len(signs) == 1 else f"/^(?:{'|'.join(signs)})$/"


def short_json(value):
    """Returns JSON without needless spaces."""
    return json.dumps(value, separators=(",", ":"))


def tables():
    """Returns the tables of the script."""
    texts = json.loads(TEXTS.read_text(encoding="ascii"))
    said = ",".join(f"{name}:{pattern_of(row)}" for name, _, *row in texts["lines"])
    words = ",".join(f"{name}:{short_json(row)}" for name, _, *row in texts["words"])
    return f"let COMMANDS={short_json(commands())};\nlet SAID={{{said}}};\nlet WORDS={{{words}}};\n"


def checker():
    """Returns the checker, in a scope of its own."""
    source = "".join(squeezed(name) for name in CHECKER)
    return f"const checker = (() => {{\n{source}return {{ {CHECKER_NAMES} }};\n}})();\n"


def logic():
    """Returns the script without main.js, which starts the page."""
    return '"use strict";\n' + NO_VALUE + checker() + tables() + "".join(squeezed(name) for name in SCRIPTS)


def parts():
    """Returns the style and the script of the page."""
    return squeezed("page.css"), logic() + squeezed("main.js")


def page():
    """Returns the page."""
    style, script = parts()
    return squeezed("page.html").replace("@style@", style).replace("@script@", script)


def policy():
    """Returns the content policy (Content Security Policy Level 3)."""
    style, script = parts()
    allowed = {"default-src": "'none'", "connect-src": "'self'"}
    allowed |= {"style-src": hashed(style), "script-src": hashed(script)}
    closed = {"base-uri": "'none'", "form-action": "'none'", "frame-ancestors": "'none'"}
    closed |= {"require-trusted-types-for": "'script'"}
    return "; ".join(f"{what} {whence}" for what, whence in {**allowed, **closed}.items())


def answer():
    """Returns the whole response: its head, and the page."""
    body = page()
    fields = {
        "Connection": "close",
        "Content-Type": "text/html; charset=utf-8",
        "Content-Length": str(len(body)),
        "Content-Security-Policy": policy(),
        "Cross-Origin-Opener-Policy": "same-origin",
        "Cross-Origin-Resource-Policy": "same-origin",
        "Referrer-Policy": "no-referrer",
        "X-Content-Type-Options": "nosniff",
        "X-Frame-Options": "DENY",
        "Cache-Control": "no-cache",
    }
    return "HTTP/1.1 200 OK\r\n" + "".join(f"{name}: {value}\r\n" for name, value in fields.items()) + "\r\n" + body


def literal(text):
    """Returns an ASCII text as a byte string of Rattle, in lines of limited length. Rattle drops the indentation of a
    line that continues a string, so a leading space is escaped.
    """
    lines = [""]
    for sign in text:
        spelled = NAMED.get(sign) or (sign if ord(sign) in PRINTABLE else f"\\x{ord(sign):02x}")
        if len(lines[-1]) + len(spelled) > LONGEST_LINE:
            lines.append("")
        lines[-1] += "\\x20" if sign == " " and not lines[-1] else spelled
    return "\\\n".join(lines)


def module():
    """Returns the module with the page."""
    return (
        "//! The page, as page/make_page.py writes it.\n\n"
        "/// The whole answer to a browser that asks for the page: its head, and the page after it.\n"
        f'pub const PAGE: &[u8] = b"\\\n{literal(answer())}";\n'
    )


def main():
    if sys.argv[1:] == ["--logic"]:
        sys.stdout.write(logic())
        return 0
    if sys.argv[1:] == ["--check"]:
        return 0 if TARGET.exists() and TARGET.read_text() == module() else f"{TARGET} is not what make_page.py writes"
    TARGET.write_text(module())
    return 0


if __name__ == "__main__":
    sys.exit(main())
