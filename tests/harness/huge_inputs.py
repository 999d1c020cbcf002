"""Inputs of a million bytes and more, which are made here. A million times one byte without a line end is answered
within a second of processor time, and so are lines that arrive together and have long answers. A script answers sixteen
million bytes within half of that memory."""
import resource
import subprocess

from harness.parts import part
from harness.programs import program

SECONDS = 20
FLOOD_SECONDS = 1
SCRIPT_MEMORY = 8_000_000
MILLION = 1_000_000
HALL = b"[0] The Hall #0\r\n"

LIBRARY = (
    b'mud history 1\n1 1 dig #1 new "Library" out "north" back "south"\n'
    b"2 1 cost #1 #3 8192\n3 1 cost #1 #4 8192\nend 3\n"
)
ROUND = (
    b"mud proof 1\nversion 3\nmember #1 from #0\nlabels #0:0 #2:8192\nwalk"
    + b" #3 #4" * 262_144
    + b"\nroute #0 cost 0\nend\n"
)
STAY = b"mud proof 1\nversion 65536\nmember #1 from #0\nlabels #0:0\nwalk nothing\nroute #0 cost 0\nend\n"
# Words of a line, so many that a call for each would take the whole stack.
MANY = 3_000_000
MANY_PARTS = b"verb [a] direct [%s] preposition - indirect [] rest [%s]\n" % ((b" ".join([b"a"] * (MANY - 1)),) * 2)


def history(count, end):
    """Returns a history of `count` changes, with this at its end."""
    return b"mud history 2\n" + b"".join(b"%d 1 say #1 hi\n" % n for n in range(1, count + 1)) + end


# The case; the program and its words; its input; its output.
ROWS = [
    ("a subnegotiation without an end", ["mud_explain", "units"], b"\xff\xfa" + b"A" * MILLION, b""),
    ("a line of too many characters", ["mud_explain", "units"], b"A" * MILLION + b"\nlook\n", b"too long\ntext look\n"),
    ("words", ["mud_explain", "words"], b"a " * MILLION, b" ".join([b"[a]"] * MILLION) + b"\n"),
    ("the parts of a line of words", ["mud_explain", "parse"], b"a " * MANY, MANY_PARTS),
    ("a key of opening parentheses", ["mud_explain", "key"], b"(" * MILLION, b"bad key at %d\n" % MILLION),
    ("a key in parentheses", ["mud_explain", "key"], b"(" * MILLION + b"#1" + b")" * MILLION, b"#1\n"),
    ("a key of a million objects", ["mud_explain", "key"], b"a||" * MILLION + b"a", b"too many objects\n"),
    ("a name with spaces round it", ["mud_explain", "names"], b" " * MILLION + b"a" + b" " * MILLION, b"[a]\n"),
    ("a script of one long line", ["mud_serve", "script"], b"A" * MILLION + b"\nlook\n", b"(line too long)\r\n" + HALL),
    ("a script of many lines", ["mud_serve", "script"], b"look\n" * 200_000, HALL * 200_000),
    ("as many changes as a history holds", ["mud_check"], history(65_536, b"end 65536\n") + STAY, b"accepted\n"),
    ("one change more", ["mud_check"], history(65_537, b"end 65537\n"), b"unreadable: history too long\n"),
    ("a bad line after them", ["mud_check"], history(65_536, b"x\n"), b"unreadable: history line 65538\n"),
    ("a walk that sums up to 4,294,967,296", ["mud_check"], LIBRARY + ROUND, b"refused: walk cost of #1\n"),
    ("a text without a line end", ["mud_check"], b"m" * MILLION, b"unreadable: not a history\n"),
]

TOO_LONG = b"(line too long)\r\n"
PARSED = b"verb [%s] direct [] preposition - indirect [] rest [%s]\n"
NOT_TEXT, BAD_NAMES = b"not text\n", b"bad names\n"
MANY_A, MANY_OPEN, HALF = b"A" * MILLION, b"(" * MILLION, b"\\" * (MILLION // 2)
# The byte that is sent a million times; the answers of a script, and of words, parse, names and key.
FLOODS = [
    (b"A", TOO_LONG, b"[%s]\n" % MANY_A, PARSED % (MANY_A.lower(), b""), BAD_NAMES, MANY_A + b"\n"),
    (b"(", TOO_LONG, b"[%s]\n" % MANY_OPEN, PARSED % (MANY_OPEN, b""), BAD_NAMES, b"bad key at %d\n" % MILLION),
    (b'"', TOO_LONG, b"[say] []\n", PARSED % (b"say", b'"' * (MILLION - 1)), BAD_NAMES, b"bad key at 0\n"),
    (b"\\", TOO_LONG, b"[%s]\n" % HALF, PARSED % (HALF, b""), BAD_NAMES, b"bad key at 0\n"),
    (b"\xff", b"", NOT_TEXT, NOT_TEXT, NOT_TEXT, NOT_TEXT),
]


def floods():
    """Yields the cases of a million times one byte: the case; the program and its words; its input; its output."""
    for byte, script, *explained in FLOODS:
        text, what = byte * MILLION, f"a million of {byte!r}"
        yield what, ["mud_serve", "script"], text, script
        yield what, ["mud_check"], text, b"unreadable: not a history\n"
        yield what, ["mud_explain", "units"], text, b""
        yield what, ["mud_explain", "hall"], text, NOT_TEXT if byte == b"\xff" else b"not understood\n"
        rights = zip(["words", "parse", "names", "key"], explained)
        yield from ((what, ["mud_explain", word], text, right) for word, right in rights)


def long_answers(changes=3_000, asked=400):
    """Returns the case of a history that many lines ask for at once, as a row."""
    told = b"[%d] history\n" % changes + history(changes, b"end %d\n" % changes)
    lines = b"connect Wizard\n" + b"say hi\n" * changes + b"@history\n" * asked
    said = b"[0] welcome #1\n" + b"".join(b"[%d] said\n" % n for n in range(1, changes + 1))
    right = (said + told * asked).replace(b"\n", b"\r\n")
    return "long answers to lines that come together", ["mud_serve", "script"], lines, right


# The case that a script reads in constant memory; its input; its output.
CONSTANT = [
    ("a line", b"A" * (16 * MILLION), TOO_LONG),
    ("refused options", b"\xff\xfc" * (8 * MILLION), b""),
    ("a subnegotiation", b"\xff\xfa" + b"A" * (16 * MILLION), b""),
]


def answer(command, text, memory):
    """Returns the output of a program, and its processor time; `memory` is its address space."""
    limit = None if memory is None else lambda: resource.setrlimit(resource.RLIMIT_AS, (memory, memory))
    command = [program(command[0]), *command[1:]]
    before = resource.getrusage(resource.RUSAGE_CHILDREN)
    try:
        given = subprocess.run(command, input=text, stdout=subprocess.PIPE, timeout=SECONDS, preexec_fn=limit).stdout
    except (subprocess.TimeoutExpired, OSError) as error:
        given = str(error).encode()
    after = resource.getrusage(resource.RUSAGE_CHILDREN)
    return given, after.ru_utime + after.ru_stime - before.ru_utime - before.ru_stime


def why_wrong(command, text, right, seconds, memory=None):
    """Returns why an answer is wrong, or came too late, or nothing."""
    given, took = answer(command, text, memory)
    if given != right:
        return f"{given[:100]}, and not {right[:100]}"
    return f"{took} s" if took > seconds else ""


@part("huge-inputs", "inputs of millions of bytes are answered, soon and in little memory")
def huge_inputs(count):
    trials = [(*row, SECONDS) for row in ROWS] + [(*row, FLOOD_SECONDS) for row in [*floods(), long_answers()]]
    script = ["mud_serve", "script"]
    trials += [(f"{what} in constant memory", script, *texts, SECONDS, SCRIPT_MEMORY) for what, *texts in CONSTANT]
    for what, command, *rest in trials:
        count.tries(f"huge inputs: {what}: {' '.join(command)}", why_wrong, command, *rest)
