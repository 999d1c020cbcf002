"""A server with a journal. It continues the complete lines of the file; otherwise it says why it can't, and leaves the
file unchanged. Its output at the end is the journal and the last line of a history."""
import os
import resource
import shutil
import socket
import subprocess
import tempfile
import time

from harness.parts import part
from harness.preload import library
from harness.programs import program
from harness.server import HOST, LOGGED, Client, Server

SECONDS = 10
# The longest start, in seconds, with as many changes as a history holds, and how long a slow sync takes.
START_SECONDS, SYNC_SECONDS = 5, 2

FIRST = b"mud history 2\n"
LAST_LINE = b"2 1 say #2 hi\n"
ANN = FIRST + b'1 1 player #2 "Ann"\n' + LAST_LINE
MOST = 65_536
LIMIT_BYTES = 400
# A user that owns nothing.
NOBODY = 65_534


def said(count):
    """Returns a journal with this many changes."""
    lines = [b"%d 1 say #1 hi\n" % version for version in range(1, count + 1)]
    return FIRST + b"".join(lines)


def ended(text):
    """Returns the history of a journal."""
    return text + b"end %d\n" % (text.count(b"\n") - 1)


# The contents of the file; further words; why the server does not continue it.
REFUSED = [
    ("a text", b"hello\n", [], b"cannot open journal: not a history"),
    ("a text of one long line", b"hello, a line without its end", [], b"cannot open journal: not a history"),
    ("another program's file", b"\x7fELF\2\1\1" + bytes(9) + b"\3\0>\0", [], b"cannot open journal: not a history"),
    ("a disk's beginning", bytes(1024) + b"\0\1", [], b"cannot open journal: not a history"),
    ("a first line cut by a zero, and more", FIRST[:4] + bytes(20) + ANN, [], b"cannot open journal: not a history"),
    ("a line before a zero that is no change's", ANN + b"3 1 what\n\0", [], b"cannot open journal: journal line 4"),
    ("a line that is no change's", ANN + b"3 1 what\n", [], b"cannot open journal: journal line 4"),
    ("a version left out", ANN + b"4 1 say #2 hi\n", [], b"cannot open journal: journal line 4"),
    ("a return", FIRST + b"1 1 say #1 hi\r\n", [], b"cannot open journal: journal line 2"),
    ("format 1", b"mud history 1\n", [], b"cannot open journal: old format"),
    ("a whole history", ended(ANN), [], b"cannot open journal: a whole history: load it, or take its last line off"),
    ("one change too many", said(MOST + 1), [], b"cannot open journal: too long"),
    ("a change that can't be made", ANN + b"3 1 say #9 hi\n", [], b"cannot load: history change 3"),
    ("more changes than there is room for", ANN, ["--capacity", "1"], b"cannot load: over capacity"),
    ("changes, and a history to be loaded", ANN, ["--load", "{whole}"], b"journal is not empty"),
]


class Place:
    """A folder with a journal, `path`, and the history of Ann, `whole`."""

    def __init__(self, text=None):
        self.folder = tempfile.TemporaryDirectory()
        self.path, self.whole = (os.path.join(self.folder.name, name) for name in ("journal", "whole"))
        for path, some in ((self.path, text), (self.whole, ended(ANN))):
            if some is not None:
                with open(path, "wb") as file:
                    file.write(some)

    def text(self):
        with open(self.path, "rb") as file:
            return file.read()

    def server(self, *words, **more):
        return Server(program("mud_serve"), ["--journal", self.path, *words], **more)

    def __enter__(self):
        return self

    def __exit__(self, *_):
        self.folder.cleanup()


def refused(path, words=(), environment=None, seconds=SECONDS):
    """Runs a server over a journal that it refuses. Returns its status, its output, and its message."""
    command = [program("mud_serve"), "listen", "--port", "0", "--address", HOST, "--journal", path, *words]
    ran = subprocess.run(command, stdin=subprocess.DEVNULL, capture_output=True, timeout=seconds, check=False,
                         env={**os.environ, **(environment or {})})
    return ran.returncode, ran.stdout, LOGGED.sub(b"", ran.stderr)


def why_taken(text, words, why):
    """Returns what went wrong if a server should refuse its journal, or nothing if it does."""
    with Place(text) as place:
        given = refused(place.path, [word.format(whole=place.whole) for word in words])
        if given != (3, b"", b"mud_serve: " + why + b"\n"):
            return f"{given}"
        return "" if place.text() == text else "the file is another one now"


def told_of(count):
    """Returns the message about this many torn bytes."""
    bytes_are = b"byte at the end of the journal is" if count == 1 else b"bytes at the end of the journal are"
    return b"mud_serve: %d torn %s cut off\n" % (count, bytes_are) if count else b""


def why_lost(text, kept, words=(), torn=0):
    """Returns what went wrong if a server should continue the complete lines of a text with this many further bytes, or
    nothing."""
    with Place(text) as place, place.server(*words, console=True) as server:
        if server.port is None:
            return f"it does not start: {server.said()}"
        if place.text() != kept:
            return f"the journal is {place.text()}, and not {kept}"
        server.type(b"stop\n")
        given = server.end()
        if given != (0, ended(kept)):
            return f"{given}"
        right = told_of(torn) + b"ok\n"
        return "" if server.said() == right else f"it says {server.said()}, and not {right}"


def say(port, *lines):
    """Connects as Ann, says this, and leaves. Returns the last line read before that."""
    client = Client(port)
    client.line()
    for line in (b"connect Ann", *lines):
        client.send(line)
        told = client.line()
    client.close()
    return told


def why_broken():
    """Returns what went wrong if a server is killed, and another continues, or nothing."""
    with Place() as place:
        with place.server() as server:
            say(server.port, b"say hi")
        if place.text() != ANN:
            return f"the journal is {place.text()}"
        with place.server(console=True) as server:
            if say(server.port, b"say again") != b"[3] said":
                return "the world is another one"
            server.type(b"stop\n")
            given = server.end()
        right = ended(ANN + b"3 1 say #2 again\n")
        return "" if given == (0, right) else f"{given}, and not {right}"


def why_shared():
    """Returns what went wrong if two servers use one journal, or nothing if the second is refused."""
    with Place(ANN) as place, place.server() as first:
        with place.server() as second:
            given = second.end()
            if given != (3, b"") or second.said() != b"mud_serve: cannot open journal: in use\n":
                return f"{given}, {second.said()}"
        first.kill()
        with place.server() as third:
            return "" if third.port is not None else f"it stays in use: {third.said()}"


def why_unprinted():
    """Returns what went wrong if a total ends a server with a journal, or nothing if its output is the journal's."""
    with Place() as place, place.server("--total", "1") as server:
        client = Client(server.port)
        for line in (b"connect Ann", b"say hi", b"quit"):
            client.send(line)
        given = server.end()
        return "" if given == (0, ended(place.text())) and place.text() == ANN else f"{given}, {place.text()}"


def why_slow():
    """Returns what went wrong if the journal is as long as possible, or nothing if the server starts soon."""
    with Place(said(MOST)) as place:
        began = time.monotonic()
        with place.server() as server:
            took = time.monotonic() - began
            return "" if server.port is not None and took < START_SECONDS else f"{took} s: {server.said()}"


def why_no_file(path, reason):
    """Returns what went wrong if no journal can be at a path, or nothing."""
    with Server(program("mud_serve"), ["--journal", path]) as server:
        given = server.end(), server.said()
        return "" if given == ((3, b""), b"mud_serve: cannot open journal: " + reason + b"\n") else f"{given}"


def why_taken_special(make):
    """Returns what went wrong if the name belongs to something that is not a plain file, or nothing if it is refused at
    once."""
    with Place() as place:
        make(place.path)
        return why_no_file(place.path, b"not a plain file")


def bound(path):
    """Binds a socket with this name."""
    with socket.socket(socket.AF_UNIX) as made:
        made.bind(path)


def why_large():
    """Returns what went wrong if a file is larger than any journal, or nothing if it is refused unread."""
    with Place(FIRST) as place:
        os.truncate(place.path, 2**40)
        return why_no_file(place.path, b"not a history")


def mode(path):
    return os.stat(path).st_mode & 0o777


def why_open_to_all():
    """Returns what went wrong with the permissions of a journal, or nothing if a new one is its owner's, and an old one
    keeps its own."""
    with Place() as place:
        for wanted in (0o600, 0o640):
            with place.server() as server:
                if server.port is None or mode(place.path) != wanted:
                    return f"{mode(place.path):o}, {server.said()}"
            os.chmod(place.path, 0o640)
    return ""


def why_unlinked():
    """Returns what went wrong if the name is a symbolic link, or nothing if the file that it leads to is the
    journal."""
    with Place() as place:
        folder = os.path.join(place.folder.name, "other")
        os.mkdir(folder)
        os.symlink("other/made", place.path)
        for kept in (FIRST, ANN):
            with place.server() as server:
                if server.port is None or not os.path.islink(place.path) or place.text() != kept:
                    return f"{server.said()}, {place.text()}"
                say(server.port, b"say hi")
        return "" if os.listdir(folder) == ["made"] else f"{os.listdir(folder)}"


def why_left_over():
    """Returns what went wrong if a crash at a start left a file beside the journal, or nothing if that is gone, and the
    target of a link there is unchanged."""
    with Place(ANN) as place:
        beside = place.path + ".start"
        for make in (lambda: os.symlink(place.whole, beside), lambda: shutil.copy(place.whole, beside)):
            make()
            with place.server() as server:
                if server.port is None or os.path.lexists(beside) or place.text() != ANN:
                    return f"{server.said()}, {place.text()}"
        with open(place.whole, "rb") as file:
            return "" if file.read() == ended(ANN) else "what the link led to is another file now"


def limit():
    """Lets no file grow beyond this many bytes. A longer write is an error, because its signal is ignored."""
    resource.setrlimit(resource.RLIMIT_FSIZE, (LIMIT_BYTES, LIMIT_BYTES))


def why_no_room():
    """Returns what went wrong if a start can't rewrite the journal, or nothing if the old one stays whole, alone."""
    text = said(LIMIT_BYTES)
    with Place(text) as place, place.server(preexec_fn=limit, restore_signals=False) as server:
        given = server.end(), server.said(), place.text(), os.path.exists(place.path + ".start")
        right = (3, b""), b"mud_serve: cannot open journal: file: file too large\n", text, False
        return "" if given == right else f"{given}"


def why_no_right(rights):
    """Returns what went wrong if the user may not write the journal or its folder, or nothing if it is refused."""
    with Place(ANN) as place:
        path = shutil.copy(program("mud_serve"), place.folder.name)
        for name, right in ((place.path, rights), (place.folder.name, 0o755), (path, 0o755)):
            os.chmod(name, right)
        nobody = {"user": NOBODY, "group": NOBODY, "extra_groups": []} if os.geteuid() == 0 else {}
        with Server(path, ["--journal", place.path], **nobody) as server:
            given = server.end(), server.said(), place.text()
            right = (3, b""), b"mud_serve: cannot open journal: file: permission denied\n", ANN
        return "" if given == right else f"{given}"


def why_no_port():
    """Returns what went wrong if another server has the port, or nothing if the journal is unchanged."""
    torn = ANN + b"3 1 sa"
    with Place(torn) as place, Server(program("mud_serve")) as first:
        words = ["--port", str(first.port), "--address", HOST, "--journal", place.path]
        command = [program("mud_serve"), "listen", *words]
        ran = subprocess.run(command, stdin=subprocess.DEVNULL, capture_output=True, timeout=SECONDS, check=False)
        given = ran.returncode, ran.stdout, LOGGED.sub(b"", ran.stderr), place.text()
        right = 3, b"", told_of(6) + b"mud_serve: cannot listen on port %d: in use\n" % first.port, torn
        return "" if given == right else f"{given}"


def why_delayed():
    """Returns what went wrong if a player looks around while the change of another is being synced, or nothing if the
    answer comes before the sync ends, by the version before the change."""
    slow = {"LD_PRELOAD": library("slow_sync"), "SYNC_MICROSECONDS": str(SYNC_SECONDS * 1_000_000)}
    with Place() as place, place.server(environment=slow) as server:
        ann, bob = Client(server.port), Client(server.port)
        for client, name in ((ann, b"Ann"), (bob, b"Bob")):
            client.send(b"connect " + name)
            while b"welcome #" not in client.line():
                pass
        ann.send(b"say hi")
        time.sleep(SYNC_SECONDS / 4)
        began = time.monotonic()
        bob.send(b"@version")
        line, took = bob.line(), time.monotonic() - began
        said = ann.line()
        return "" if line.startswith(b"[2]") and took < SYNC_SECONDS / 2 else f"{line} after {took} s; {said}"


@part("journal", "a server goes on from its journal, or says why not and leaves the file as it is")
def journal(count):
    def show(what, why_not, *given, **how):
        count.tries(f"journal: {what}", why_not, *given, **how)

    for what, text, words, right in REFUSED:
        show(f"{what} is refused", why_taken, text, words, right)
    show("a file in no folder is refused", why_no_file, "/no-such-folder/journal", b"file: no such folder")
    for what, make in (("folder", os.mkdir), ("pipe", os.mkfifo), ("socket", bound)):
        show(f"a {what} is refused", why_taken_special, make)
    show("a device is refused", why_no_file, "/dev/zero", b"not a plain file")
    show("a file larger than any journal is refused", why_large)
    show("a file that may not be written is refused", why_no_right, 0o444)
    show("a file in a folder that may not be written is refused", why_no_right, 0o666)
    show("no room at the start", why_no_room)
    show("the rights of a journal", why_open_to_all)
    show("a symbolic link", why_unlinked)
    show("what a crash at a start left", why_left_over)
    show("another server has the port", why_no_port)
    show("an empty file is a new journal", why_lost, b"", FIRST)
    show("no file is a new journal", why_lost, None, FIRST)
    show("an answer does not wait for the change of another", why_delayed)
    for length in (1, len(FIRST), 5000):
        show(f"{length} zeros are a new journal", why_lost, bytes(length), FIRST, torn=length)
    show("a first line that is old bytes is torn", why_lost, b"old bytes", FIRST, torn=9)
    for torn in (bytes(3), b"3 1 say \0\0 hi\n4 1 say #2 a\n", LAST_LINE[:-2] + bytes(700)):
        show(f"a hole in {len(torn)} bytes", why_lost, ANN + torn, ANN, torn=len(torn))
    before = ANN.removesuffix(LAST_LINE)
    for length in range(1, len(FIRST)):
        show(f"a first line cut after {length} bytes", why_lost, FIRST[:length], FIRST, torn=length)
    for length in range(len(LAST_LINE)):
        show(f"a last line cut after {length} bytes", why_lost, before + LAST_LINE[:length], before, torn=length)
    show("a whole journal", why_lost, ANN, ANN)
    with Place() as place:
        show("a history is loaded into a new journal", why_lost, None, ANN, ["--load", place.whole])
    show("a killed server's world goes on", why_broken)
    show("two servers share no journal", why_shared)
    show("the printed history is the journal's", why_unprinted)
    show("as many changes as a history holds", why_slow)
