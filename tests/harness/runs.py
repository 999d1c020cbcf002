"""The runs for the trials: a few for every day, and on demand all that are small."""
from typing import NamedTuple

from harness.certificates import given as certificate_case
from harness.inputs import Input, explained, halls, read, session, sessions, tests_file
from harness.programs import TOP

FEW_SESSIONS = ("two-minutes", "meetings", "history")
FEW_EXPLAINED = (
    ("units", "requests"), ("words", "quotes"), ("parse", "rest"), ("names", "lists"), ("key", "grouping"),
)
FEW_HALLS = ("two-desks", "old-answers", "closing")
# Accepted certificates: a table and a case of it.
LIBRARY, FREE_EXITS = ("routes", "to the library"), ("free-exits", "by one exit")
LOCKED = ("locked-walks", "questions three deep at something unlocked")
CERTIFICATES = (
    LIBRARY,
    FREE_EXITS,
    ("versions", "after all changes"),
    ("meetings", "of eight in one room"),
    LOCKED,
)


class Run(NamedTuple):
    """A program, its arguments and its input, and a name for the run."""

    program: str
    words: list
    text: bytes
    name: str


def script(one, *words):
    """Returns the run of a session with these arguments and no others."""
    return Run("mud_serve", ["script", *words], one.text, " ".join([one.name, *words]))


def check(table, case):
    """Returns the run that checks a history and a certificate that is accepted."""
    return Run("mud_check", [], certificate_case(table, case), f"{table}, {case}")


def keep(wish, *case):
    """Returns the run that keeps the history of a certificate."""
    return Run("mud_keep", [wish, "-"], history_and_proof(*case)[0], f"{wish} {', '.join(case)}")


def explain(word, one, *words):
    """Returns the run that explains a text or a hall, with these arguments and no others."""
    return Run("mud_explain", [word, *words], one.text, f"{word} {one.name}")


def hall(name, *words):
    return explain("hall", Input(tests_file(f"halls/{name}")), *words)


def history_and_proof(table, case):
    """Returns the history and the certificate of a case, separately."""
    text = certificate_case(table, case)
    end = text.index(b"\n", text.index(b"\nend ") + 1) + 1
    return text[:end], text[end:]


def drawn():
    """Returns the run that draws the map of the example with its certificate."""
    history, proof = (f"{TOP}/examples/journeys.{name}" for name in ("history", "proof"))
    return Run("mud_keep", ["map", "-", proof], read(history), "map journeys")


def saved():
    """Returns the run that keeps the longest prefix of a journal with a bad line."""
    lines = history_and_proof(*LOCKED)[0].splitlines(keepends=True)
    return Run("mud_keep", ["recover", "-", "--front"], b"".join([*lines[:4], b"no line\n", *lines[4:]]), "the front")


def few_kept():
    return [keep("shorten", *LOCKED), keep("show", *LOCKED), drawn(), saved()]


def few_scripts():
    return [script(session(name)) for name in FEW_SESSIONS]


def few_explained():
    texts = [explain(word, Input(tests_file(f"explained/{word}/{name}"))) for word, name in FEW_EXPLAINED]
    return texts + [hall(name) for name in FEW_HALLS]


def small_sessions():
    return [one for one in sessions() if one.is_small()]


def small_runs():
    """Returns each small session without workers and with two, some certificates, each small text to explain, and each
    small hall."""
    scripts = [script(one, *words) for one in small_sessions() for words in ((), ("--workers", "2"))]
    texts = [explain(word, one, *one.words) for word, one in explained() if one.is_small()]
    rooms = [explain("hall", one, *one.words) for one in halls() if one.is_small()]
    return scripts + [check(*case) for case in CERTIFICATES] + texts + rooms
