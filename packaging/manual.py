"""The manual pages, in mdoc: packaging/manual/ has their prose, and the options come from `--help`.

In a page `%HEAD` is its head with name and synopsis, `%FORMS` the options of each form, `%DATE` the day of the release,
and `%PREFIX` the folder of the installation.
"""
import os
import textwrap

from templates import filled

FOLDER = f"{os.path.dirname(os.path.realpath(__file__))}/manual"
# The options that each program has, and describes by itself.
COMMON = ("--help", "--version")
LONGEST = 80


def escaped(text):
    """Returns a text as a line of roff: its dashes can be copied, and its backquotes quote."""
    quoted = "".join(piece + ("\\(oq", "\\(cq")[at % 2] for at, piece in enumerate(text.split("`")))
    return quoted.removesuffix("\\(oq").removesuffix("\\(cq").replace("-", "\\-")


def lowered(text):
    """Returns a text with a small first letter, as after a dash."""
    return text[:1].lower() + text[1:]


def flag(option):
    """Returns an option with its value, in mdoc."""
    return f"Fl {option.long[1:]}" + (f" Ar {option.value}" if option.value else "")


def own(form):
    """Returns the options of a form that are not common to all."""
    return [option for option in form.options if option.long not in COMMON]


def synopsis_of(form):
    """Returns the lines that show how to call a form."""
    lines = [".Nm", *(f".Cm {word}" for word in form.words[1:])]
    lines += [f".{'' if option.is_required else 'Op '}{flag(option)}" for option in own(form)]
    more = {True: " ...", False: ""}
    return lines + [f".{'' if file.is_required else 'Op '}Ar {file.name}{more[file.is_many]}" for file in form.files]


def head_of(program):
    """Returns the head of a program's page, its name and its synopsis."""
    name = program.name()
    lines = [".Dd %DATE", f".Dt {name.upper()} 1", ".Os", ".Sh NAME", f".Nm {name}"]
    lines += [f".Nd {lowered(escaped(program.own.about))}", ".Sh SYNOPSIS"]
    for form in program.forms or [program.own]:
        lines += synopsis_of(form)
    return lines + [".Nm", ".Fl -help | -version"]


def items_of(form):
    """Returns a form's arguments, an item each."""
    rows = [(f".It Ar {file.name}", file.text, None) for file in form.files]
    rows += [(f".It {flag(option)}", option.text, option.default) for option in own(form)]
    for item, text, default in rows:
        yield item
        yield f"{escaped(text)}."
        if default is not None:
            yield f"The default is {escaped(default)}."


def forms_of(program):
    """Returns each form with its purpose and its arguments."""
    lines = []
    for form in program.forms:
        lines += [f".Ss {escaped(form.name())}", f"{escaped(form.about)}."]
        lines += [".Bl -tag -width Ds", *items_of(form), ".El"] if form.files or own(form) else []
    if not program.forms:
        lines += [".Bl -tag -width Ds", *items_of(program.own), ".El"]
    return lines


def cut(line):
    """Returns a line of text as lines of limited length. None begins as a macro does, and macros stay whole."""
    whole = {"break_long_words": False, "break_on_hyphens": False}
    return [line] if line.startswith(".") else textwrap.wrap(line, LONGEST, **whole)


def laid_out(text):
    """Returns a page with lines of limited length."""
    return "".join(f"{line}\n" for whole in text.splitlines() for line in cut(whole))


def pages(programs, time, prefix):
    """Returns the names of the pages with their texts. `time` is that of the release."""
    values = {"DATE": f"{time:%B} {time.day}, {time.year}", "PREFIX": prefix}
    found = {}
    for name in sorted(os.listdir(FOLDER)):
        with open(f"{FOLDER}/{name}", encoding="utf-8") as file:
            text = file.read()
        if (program := programs.get(name.partition(".")[0])) is not None:
            text = filled(text, HEAD="\n".join(head_of(program)), FORMS="\n".join(forms_of(program)))
        found[name] = laid_out(filled(text, **values))
    return found
