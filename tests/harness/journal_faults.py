"""The disk of a journal fails: each call for its file in turn, and when the file can't grow any more. Then each session
gets a last line and ends, also one that reads nothing, and every version read before is in the journal. It is there
after a power failure too, also if an earlier server could not sync the bytes that the last one read."""
import collections
import itertools
import os
import re
import resource
import tempfile
import time

from harness.crash import Told, entries_of
from harness.inputs import read
from harness.journal import Place
from harness.parts import part
from harness.preload import library
from harness.server import Client
from harness.web import WebServer

SAID, MOST_RUNS, FULL_BYTES = 6, 100, 4000
FAULT = b"(journal fault)"
REPLY = re.compile(rb"\[(\d+)\] said")
# The messages of a server that does not start, or has ended.
WORDS = re.compile(rb"mud_serve: (cannot open journal: file: (input or output failed|no locks|no space|file too large)"
                   rb"|journal fault)\n")
# The sync that fails when pages are lost: one for the player, and one for the first line said, succeed.
LOST_SYNC = 3


def say(client, told):
    """Says things, one after the other, until a line is not answered. Returns the last line, or None at the end."""
    for at in range(SAID):
        text = b"line %d " % at + b"x" * 200
        client.send(b"say " + text)
        line = client.line()
        reply = REPLY.fullmatch(line or b"")
        if not reply:
            return line
        told.add(int(reply[1]), text)
    return line


def play(server, told):
    """Two clients connect to a server, and one says things. Returns the last line of each, if not everything was
    said."""
    ann, bob = Client(server.port), Client(server.port)
    ann.line()
    bob.line()
    ann.send(b"connect Ann")
    line = ann.line()
    if line and line.startswith(b"["):
        line = say(ann, told)
    ended = line is None or not line.startswith(b"[")
    heard = [line, bob.line()] if ended else []
    ann.close()
    bob.close()
    return heard


def trial(place, told, **how):
    """Runs a server over a failing disk. Returns its status, its message, and the last line of both clients, if it
    failed during play."""
    with place.server("--total", "2", **how) as server:
        heard = play(server, told) if server.port is not None else []
        status, _ = server.end()
        said = [line for line in server.said().splitlines(keepends=True) if line.startswith(b"mud_serve")]
        return status, b"".join(said), heard


def why_wrong(place, told, status, said, heard):
    """Returns what went wrong, or nothing."""
    if status == 0:
        return "" if heard == [] and not said else f"status 0, {said}, {heard}"
    if status != 3 or not WORDS.fullmatch(said):
        return f"status {status}, {said}"
    if heard and heard != [FAULT, FAULT]:
        return f"told last: {heard}"
    lost = told.lost(entries_of(place.text())) if os.path.exists(place.path) else sorted(told.texts)
    return f"lost: {lost}" if lost else ""


def fail_in_turn():
    """Runs it once for each call. Returns the number of runs, the number that ended with a fault, and what went
    wrong."""
    counted, wrong, felt = tempfile.NamedTemporaryFile(), [], 0
    for call in itertools.count(1):
        counted.truncate(0)
        environment = {"LD_PRELOAD": library("fail_files"), "CALLS_FILE": counted.name, "FAILED_CALL": str(call)}
        told = Told()
        with Place() as place:
            status, said, heard = trial(place, told, environment=environment)
            why = why_wrong(place, told, status, said, heard)
        felt += status != 0
        wrong += [f"call {call}: {why}"] if why else []
        if int((read(counted.name).split() or [0])[0]) < call or call == MOST_RUNS or len(wrong) > 3:
            return call, felt, wrong


def limit():
    """Lets no file grow beyond this many bytes. A longer write is an error, because its signal is ignored."""
    resource.setrlimit(resource.RLIMIT_FSIZE, (FULL_BYTES, FULL_BYTES))


def why_unfilled():
    """Returns what went wrong if the disk is full, or nothing if every client was told so, and the next server
    continues."""
    told = Told()
    with Place() as place:
        for _ in range(SAID):
            status, said, heard = trial(place, told, preexec_fn=limit, restore_signals=False)
            if why := why_wrong(place, told, status, said, heard):
                return why
            if status == 3:
                break
        else:
            return "the disk is never full"
        with place.server() as server:
            return "" if server.port is not None else f"the next does not start: {server.said()}"


def why_stuck():
    """Returns what went wrong if the disk fails while a client sends without end and reads nothing, or nothing if the
    server ends."""
    with Place() as place, place.server(preexec_fn=limit, restore_signals=False) as server:
        mute, ann = Client(server.port, seconds=1), Client(server.port)
        try:
            while True:
                mute.give(b"look\r\n" * 10_000)
        except OSError:
            pass
        ann.send(b"connect Ann")
        began = time.monotonic()
        while (line := ann.line()) is not None and line != FAULT:
            ann.send(b"say " + b"x" * 100)
        status, _ = server.end(seconds=20)
        mute.close()
        ann.close()
        took = time.monotonic() - began
        return "" if (status, line) == (3, FAULT) else f"status {status}, {line}, {took} s"


def why_untold_on_the_web():
    """Returns what went wrong if the disk is full while a client plays on the web, or nothing if that is its last line,
    and the server closes the web socket because it ends."""
    how = {"preexec_fn": limit, "restore_signals": False}
    with Place() as place, WebServer("--journal", place.path, "--total", "1", **how) as server:
        ann, line = server.player(b"Ann"), b""
        while line is not None and line != FAULT:
            ann.send(b"say " + b"x" * 100)
            line = ann.line()
        rest = ann.rest()
        status, _ = server.end()
        given = line, rest, ann.closed, status
        return "" if given == (FAULT, [], 1001, 3) else f"{given}"


def kept_of(path, note):
    """Returns the contents of a file after a power failure, by the note of the library `lose_pages`, or None if its
    name is lost."""
    written, kept = collections.defaultdict(list), collections.defaultdict(list)
    named, is_named = os.stat(path).st_ino, True
    for word, *numbers in (line.split() for line in read(note).decode().splitlines()):
        inode, *span = map(int, numbers or [0])
        if word == "made":
            written[inode], kept[inode] = [], []
        elif word == "write":
            written[inode].append(span)
        elif word == "sync":
            kept[inode] += written.pop(inode, [])
        elif word == "lose":
            written.pop(inode, None)
        elif word == "name":
            named, is_named = inode, False
        elif word == "folder":
            is_named = True
    if not is_named or named != os.stat(path).st_ino:
        return None
    with open(path, "rb") as file:
        text, left = file.read(), bytearray(os.path.getsize(path))
    for begin, end in kept[named]:
        left[begin:end] = text[begin:end]
    return bytes(left)


def why_forgotten():
    """Returns what went wrong if a sync fails, another server continues, and the power fails, or nothing if every
    version read is there then."""
    told = Told()
    with Place() as place:
        note = os.path.join(place.folder.name, "note")
        environment = {"LD_PRELOAD": library("lose_pages"), "PAGES_NOTE": note}
        status, said, heard = trial(place, told, environment=environment | {"FAILED_SYNC": str(LOST_SYNC)})
        if status != 3 or heard != [FAULT, FAULT]:
            return f"no sync fails: {status}, {said}, {heard}"
        with place.server(environment=environment) as server:
            if server.port is None:
                return f"it does not start: {server.said()}"
            ended = play(server, told)
            server.kill()
        text = kept_of(place.path, note)
        if text is None or ended:
            return f"the name is lost, or the session ended: {ended}"
        with open(place.path, "wb") as file:
            file.write(text)
        lost = told.lost(entries_of(text))
        if lost:
            return f"lost: {lost} of {sorted(told.texts)}"
        with place.server() as server:
            return "" if server.port is not None else f"the next does not start: {server.said()}"


@part("journal-faults", "the disk of a journal fails, and all that was told before is kept")
def journal_faults(count):
    calls, felt, wrong = fail_in_turn()
    print(f"journal faults: {calls} runs, {felt} ended with a fault, {len(wrong)} wrongly", flush=True)
    count("journal faults: each call in turn", felt > SAID and not wrong, wrong or "no failed call is felt")
    for what, why_bad in [
        ("the disk is full", why_unfilled),
        ("a client reads nothing", why_stuck),
        ("a client is on the web", why_untold_on_the_web),
        ("a sync fails, another server goes on, and the power fails", why_forgotten),
    ]:
        count.tries(f"journal faults: {what}", why_bad)
