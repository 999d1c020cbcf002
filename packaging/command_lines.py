"""The command lines of the programs, read from their `--help`."""
import re
import subprocess
from dataclasses import dataclass

SECONDS = 10
SECTION = re.compile(r"^(\w+):\n((?:  .*\n)+)", re.MULTILINE)
USAGE = re.compile(r"^Usage: (.*)$", re.MULTILINE)
# The left side of a row: `-h, --help` or `--port <N>`.
OPTION = re.compile(r"(?:(-\w), )?(--[\w-]+)(?: (<\w+>))?")
DEFAULT = re.compile(r" *\[default: (.*)\]$")
# The form that clap adds to a program with forms.
HELP = "help"


class Unread(Exception):
    """A text of help has an unknown form."""


@dataclass
class Option:
    """An option: its names, the name of its value, its description, and whether it is required."""

    short: str
    long: str
    value: str
    default: str
    text: str
    is_required: bool


@dataclass
class File:
    """A file by position, or other words by position: one, or several."""

    name: str
    text: str
    is_required: bool
    is_many: bool


@dataclass
class Form:
    """A form of a command line: its words before the options, its purpose, and its arguments."""

    words: list
    about: str
    files: list
    options: list

    def name(self):
        """Returns the name, such as `mud_serve listen`."""
        return " ".join(self.words)


@dataclass
class Program:
    """A program: its command line without a form, and its forms, if it has any."""

    own: Form
    forms: list

    def name(self):
        return self.own.name()


def help_of(path, words):
    """Returns a program's output for these words and `--help`."""
    how = {"capture_output": True, "text": True, "timeout": SECONDS, "check": True, "stdin": subprocess.DEVNULL}
    return subprocess.run([path, *words, "--help"], **how).stdout


def rows_of(section):
    """Returns the rows of a section of help, one for each line: the left side, and the description."""
    return [re.split(" {2,}", line.strip(), maxsplit=1) for line in section.splitlines()]


def option_of(left, text, usage):
    """Returns the option of a row."""
    found = OPTION.fullmatch(left)
    if not found:
        raise Unread(f"no option: {left}")
    short, long, value = found.groups()
    default = DEFAULT.search(text)
    is_required = f"{long} {value}" in usage
    return Option(short, long, value and value[1:-1], default and default[1], DEFAULT.sub("", text), is_required)


def file_of(left, text):
    """Returns the file of a row: `<FILE>` is required, `[FILE]` is optional, and `...` follows the name of several."""
    found = re.fullmatch(r"(?:<(\w+)>|\[(\w+)\])(\.\.\.)?", left)
    if not found:
        raise Unread(f"no file: {left}")
    return File(found[1] or found[2], text, bool(found[1]), bool(found[3]))


def read_form(words, text):
    """Returns the form of a text of help, and the names of the forms below it."""
    sections, usage = dict(SECTION.findall(text)), USAGE.search(text)
    if not usage or {*sections} - {"Commands", "Arguments", "Options"}:
        raise Unread(f"{' '.join(words)}: {text}")
    about = " ".join(text[: usage.start()].split())
    files = [file_of(*row) for row in rows_of(sections.get("Arguments", ""))]
    options = [option_of(*row, usage[1]) for row in rows_of(sections.get("Options", ""))]
    below = [name for name, _ in rows_of(sections.get("Commands", "")) if name != HELP]
    return Form(words, about, files, options), below


def read_program(name, path):
    """Returns the command lines of the program with this name at this path."""
    own, below = read_form([name], help_of(path, []))
    return Program(own, [read_form([name, form], help_of(path, [form]))[0] for form in below])
