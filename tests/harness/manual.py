"""The pages of the manual and the completions of a release, compared with the `--help` of the programs."""
import contextlib
import fcntl
import os
import pty
import re
import select
import shutil
import struct
import subprocess
import tempfile
import termios
import time

from harness.first_words import FORMS, given
from harness.inputs import read
from harness.packages import PAGES, PROGRAMS, unpacked
from harness.parts import part

# A row of help: an option with its value, or a file; and its text.
ROW = re.compile(r"^ +(?:-\w, )?(--[\w-]+|<\w+>|\[\w+\])(?:\.\.\.)?(?: <(\w+)>)? {2,}(.*)$", re.M)
# An item of a page, or a line of its synopsis, and the text below an item.
ITEM = re.compile(r"^\.It (?:Fl -([\w-]+)|Ar (\w+))(?: Ar (\w+))?\n((?:(?!\.It|\.El).*\n)*)", re.M)
SYNOPSIS = re.compile(r"^\.(Op )?(?:Fl -([\w-]+)(?: Ar (\w+))?|Ar (\w+)(?: \.\.\.)?)$", re.M)
REFERENCE = re.compile(r"referenced manual not found: Xr (\S+) (\d)")
# A required option with its value in a usage.
NEEDED = re.compile(r"(--[\w-]+) <(\w+)>")
COMMON = ("--help", "--version")
# The size of a terminal in which zsh lists everything.
ROWS, COLUMNS = 200, 200
SECONDS, TRIES = 20, 20


def forms():
    """Returns each program with each of its forms; an empty form has the options of the program itself."""
    return [(name, form) for name, (words, _) in FORMS.items() for form in words]


def rows_of(name, form):
    """Returns the help of a form: each option or file with its value and its text."""
    _, text, _ = given(name, [*form.split(), "--help"])
    return {what.strip("<>[]"): (value, text) for what, value, text in ROW.findall(text)}


def required_of(name, form):
    """Returns the required options by the usage of a form."""
    _, text, _ = given(name, [*form.split(), "--help"])
    usage = re.search(r"^Usage: (.*)$", text, re.M)[1].replace("<COMMAND>", "")
    options = {option for option, _ in NEEDED.findall(usage)}
    return options | {*re.findall(r"<(\w+)>", NEEDED.sub("", usage))}


# ---- pages


def plain(text):
    """Returns a text of a page without its escapes and line ends."""
    for escape, letter in (("\\(oq", "`"), ("\\(cq", "`"), ("\\-", "-")):
        text = text.replace(escape, letter)
    return " ".join(text.split())


def told(row):
    """Returns the text of a page for a row of help: a sentence, and one more for its default."""
    text, _, default = row.removesuffix("]").partition(" [default: ")
    return f"{text}." + (f" The default is {default}." if default else "")


def section_of(page, name, form):
    """Returns the text of a page for a form."""
    if form:
        return re.search(rf"^\.Ss {name} {form}$(.*?)^(?=\.S[sh])", page, re.M | re.S)[1]
    return page


def count_page(count, name, form, page):
    """Tests that the page of a form has the options and texts of its help, and in its synopsis the required ones."""
    section, rows = section_of(page, name, form), rows_of(name, form)
    items = {f"--{flag}" if flag else file: (value, plain(text)) for flag, file, value, text in ITEM.findall(section)}
    wanted = {what: (value, told(text)) for what, (value, text) in rows.items() if what not in COMMON}
    count(f"manual: {name} {form}", items == wanted, f"{items} and not {wanted}")
    shown = page.partition(".Sh SYNOPSIS\n")[2].partition("\n.Sh")[0]
    ours = re.search(rf"^\.Nm\n\.Cm {form}$(.*?)(?=^\.Nm)", f"{shown}\n", re.M | re.S)[1] if form else shown
    needed = {f"--{flag}" if flag else file for is_open, flag, _, file in SYNOPSIS.findall(ours) if not is_open}
    count(f"manual: what {name} {form} needs", needed == required_of(name, form), needed)


def complaints(path):
    """Returns the complaints of mandoc and man about a page, except those about other pages: none is installed here."""
    said = ""
    if shutil.which("mandoc"):
        lint = subprocess.run(["mandoc", "-Tlint", path], capture_output=True, text=True).stdout.splitlines()
        missing = [REFERENCE.search(line) for line in lint]
        known = [found and f"man{found[2]}/{found[1]}.{found[2]}" in PAGES for found in missing]
        said += "".join(line for line, is_known in zip(lint, known) if not is_known)
    if shutil.which("man"):
        how = {"env": {**os.environ, "LC_ALL": "C.UTF-8", "MANWIDTH": "80"}, "stdin": subprocess.DEVNULL}
        man = subprocess.run(["man", "--warnings", "--local-file", path], capture_output=True, text=True, **how)
        said += man.stderr + ("" if man.stdout.strip() else "man shows nothing")
    return said


@part("manual", "the pages of the manual say of each option what `--help` says, and no formatter complains")
def manual(count):
    with unpacked() as (_, folder):
        share = f"{folder}/tarball/share/man"
        for name, form in forms():
            if form or len(FORMS[name][0]) == 1:
                count_page(count, name, form, read(f"{share}/man1/{name}.1").decode())
        for page in PAGES:
            said = complaints(f"{share}/{page}")
            count(f"manual: {page}", not said, said)
            count(f"manual: {page} is filled", "%" not in read(f"{share}/{page}").decode())


# ---- completions


def bash_offers(path, words, folder):
    """Returns the offers of bash for the last of these words, in a folder."""
    script = 'source "$1"; shift; COMP_WORDS=("$@"); COMP_CWORD=$(($# - 1)); "_$1"; printf "%s\\n" "${COMPREPLY[@]}"'
    ran = subprocess.run(["bash", "-c", script, "bash", path, *words], cwd=folder, capture_output=True, text=True)
    return {*ran.stdout.splitlines()} - {""} | {*ran.stderr.splitlines()}


def wanted_of(name, form):
    """Returns the long options of a form."""
    return {what for what in rows_of(name, form) if what.startswith("--")}


def count_bash(count, folder, files):
    """Tests the completions for bash."""
    for name, form in forms():
        path, words = f"{folder}/{name}", [name, *form.split()]
        given_options = bash_offers(path, [*words, "--"], files)
        count(f"bash: options of {name} {form}", given_options == wanted_of(name, form), given_options)
        for what, (value, _) in rows_of(name, form).items():
            takes_file = value == "FILE" or not what.startswith("-")
            if value or takes_file:
                offers = bash_offers(path, [*words, *[what] * bool(value), ""], files)
                count(f"bash: {name} {form} {what}", offers == ({"a world.journal"} if takes_file else set()), offers)
    for name, (words, _) in FORMS.items():
        offers = bash_offers(f"{folder}/{name}", [name, ""], files)
        right = {word for word in words if word} | {"--help", "-h", "--version", "-V"}
        count(f"bash: forms of {name}", offers == right if len(words) > 1 else offers == {"a world.journal"}, offers)


class Zsh:
    """A zsh in a terminal of its own that knows the completions of a folder, and no others."""

    def __init__(self, completions, folder):
        self.pid, self.master = pty.fork()
        if self.pid == 0:
            os.chdir(folder)
            os.execvpe("zsh", ["zsh", "-f", "-i"], {"PATH": os.environ["PATH"], "TERM": "dumb", "HOME": folder})
        fcntl.ioctl(self.master, termios.TIOCSWINSZ, struct.pack("HHHH", ROWS, COLUMNS, 0, 0))
        self.typed(f"fpath=({completions} $fpath); autoload -Uz compinit; compinit -u -D; unsetopt beep; LISTMAX=0\n")

    def typed(self, text):
        """Types this, and returns the output up to the answer to a line after it."""
        os.write(self.master, f"{text}\x15echo $((40 + 2))end\n".encode())
        seen, until = b"", time.monotonic() + SECONDS
        while b"42end" not in seen and (left := until - time.monotonic()) > 0:
            if select.select([self.master], [], [], left)[0]:
                seen += os.read(self.master, 65_536)
        return seen.decode(errors="replace").replace("\r", "")

    def why_not(self, line, pattern, right):
        """Returns its offers for a line if these are not the right words; the pattern finds them in its output. On a
        busy machine it may read what is typed next before it has shown anything, so it is asked again.
        """
        for _ in range(TRIES):
            offers = {*re.findall(pattern, self.typed(f"{line}\t\t"), re.M)}
            if offers == right:
                return ""
        return f"{offers}, and not {right}"

    def close(self):
        os.close(self.master)
        os.waitpid(self.pid, 0)


def count_zsh(count, folder, files):
    """Tests the completions for zsh: the list has each option and each form, and no other option."""
    with contextlib.closing(Zsh(folder, files)) as zsh:
        for name, form in forms():
            words = " ".join([name, *form.split()])
            option, right = rf"^(?:.*{words} )?(--\w[\w-]*)", wanted_of(name, form)
            count.tries(f"zsh: options of {name} {form}", zsh.why_not, f"{words} --", option, right)
        for name, (words, _) in FORMS.items():
            offers = (r"^(\w+) +-- ", {*words} - {""}) if len(words) > 1 else (r"(a\\ \S+)", {"a\\ world.journal"})
            count.tries(f"zsh: forms of {name}", zsh.why_not, f"{name} ", *offers)


@part("completions", "bash and zsh complete the options that `--help` has, forms, and files where a file is taken")
def complete(count):
    with unpacked() as (_, folder), tempfile.TemporaryDirectory() as files:
        open(f"{files}/a world.journal", "w").close()
        share = f"{folder}/tarball/share"
        count_bash(count, f"{share}/bash-completion/completions", files)
        if shutil.which("zsh"):
            count_zsh(count, f"{share}/zsh/site-functions", files)
        names = {name.lstrip("_") for name in os.listdir(f"{share}/zsh/site-functions")}
        count("completions: of all programs", names == {*PROGRAMS}, names)
