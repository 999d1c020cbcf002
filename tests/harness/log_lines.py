"""The lines of a server's log, by the table of docs/HOSTING.md."""
import functools
import re

from harness.inputs import read
from harness.programs import TOP


@functools.cache
def log_forms():
    """Returns the forms of the log's lines that docs/HOSTING.md has, by their first words."""
    table = read(f"{TOP}/docs/HOSTING.md").decode().partition("<!-- the kinds of lines")[2].partition("\n\n")[0]
    rows = [line.split("|")[1] for line in table.splitlines() if line.startswith("| `")]
    spans = [span for row in rows for span in re.findall("`([^`]*)`", row) if not span.startswith("..")]
    forms = {}
    for span in spans:
        form = re.escape(span).replace("by=telnet", "by=(telnet|web)").replace("count=N", r"count=\d+")
        form = re.sub(r"(?<==)V$", r"\\S+", form).replace("ADDRESS", r"\S+").replace("WORD", "[a-z-]+")
        form = form.replace('"NAME"', '"[^"]+"').replace('"TEXT"', '".*"')
        form = re.sub(r"(?<==)((?:\\#)?)N\b", r"\1\\d+", form)
        form = re.sub(r"(\\ player=.*)$", r"(\1)?", form) if span.startswith("end ") else form
        word = span.split()[0]
        forms[word] = re.compile(f"{forms[word].pattern}|{form}" if word in forms else form)
    return forms


def strange(lines):
    """Returns the lines that have no form of the page."""
    return [line for line in lines if not any(form.fullmatch(line) for form in log_forms().values())]
