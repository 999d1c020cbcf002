"""The console of a server: `stop`, or the end of its input, ends the server in order. Each session gets that as its
last line, and the history is printed."""
import threading
from functools import partial

from harness.journal import ANN, FIRST, Place, ended
from harness.parts import part
from harness.programs import program
from harness.server import Client, Server

MILLION = 1_000_000
NOT_KNOWN = b"error no such order: help tells them\n"
STOPS = b"(server stops)"

# The case; its input, and whether the input ends after it; the number of lines that are not understood.
TYPED = [
    ("stop", b"stop\n", False, 0),
    ("stop with a return", b"stop\r\n", False, 0),
    ("the end of what is typed", b"", True, 0),
    ("the end behind a part of a line", b"sto", True, 0),
    ("stop behind other lines", b"halt\n\nstop it\nSTOP\nstopp\nstop\n", False, 5),
    ("stop between blanks", b"  stop  \n", False, 0),
    ("stop in pieces", b"st", False, 0),
    ("stop behind a long line", b"stop" * (MILLION // 4) + b"\nstop\n", False, 1),
]


def listening(*words):
    return Server(program("mud_serve"), words, console=True)


def visited(port):
    """Returns a client that has connected as Ann and said something."""
    client = Client(port)
    for line in (b"connect Ann", b"say hi"):
        client.send(line)
    for _ in range(3):
        client.line()
    return client


def last_line(client):
    """Returns the last line of a client, or None if more follows."""
    line, then = client.line(), client.line()
    return line if then is None and not client.kept else None


def type_all(server, text, is_ended):
    """Types the text, with the last piece without a line end apart."""
    server.type(text)
    if is_ended:
        server.process.stdin.close()
    elif not text.endswith(b"\n"):
        server.type(b"op\n")


def why_going_on(text, is_ended, wrong_lines):
    """Returns what went wrong if this is typed while a player is there, or nothing if all ends in order."""
    with listening() as server:
        client = visited(server.port)
        type_all(server, text, is_ended)
        told, given = last_line(client), (server.process.wait(timeout=10), server.process.stdout.read())
        if told != STOPS or given != (0, ended(ANN)):
            return f"{told}, {given}"
        typed = [line for line in server.said().splitlines(keepends=True) if line != b"ok\n"]
        return "" if typed == [NOT_KNOWN] * wrong_lines else f"it says {typed}"


def why_unmoved():
    """Returns what went wrong if no client ever connects, or nothing if the server ends."""
    with listening() as server:
        server.type(b"stop\n")
        given = server.end()
        return "" if given == (0, ended(FIRST)) else f"{given}"


def why_unkept():
    """Returns what went wrong if a server with a journal and a total is stopped, or nothing if everything is kept."""
    with Place() as place, place.server("--total", "9", console=True) as server:
        client = visited(server.port)
        server.type(b"stop\n")
        given = server.end(), last_line(client), place.text()
        return "" if given == ((0, ended(ANN)), STOPS, ANN) else f"{given}"


def why_waiting():
    """Returns what went wrong if the total is reached while nothing is typed, or nothing if the server ends."""
    with listening("--total", "1") as server:
        client = visited(server.port)
        client.send(b"quit")
        given = server.process.wait(timeout=10), server.process.stdout.read()
        return "" if given == (0, ended(ANN)) else f"{given}"


def why_held():
    """Returns what went wrong if a client sends without end and reads nothing, or nothing if the server ends."""
    with listening() as server:
        client = Client(server.port, seconds=1)
        client.send(b"connect Ann")
        sender = threading.Thread(target=flood, args=(client,))
        sender.start()
        sender.join()
        server.type(b"stop\n")
        status, _ = server.end(seconds=20)
        client.close()
        return "" if status == 0 else f"status {status}"


def flood(client):
    """Sends until the server takes no more."""
    try:
        while True:
            client.give(b"look\r\n" * 10_000)
    except OSError:
        pass


@part("console", "a line `stop` at the console of a server, or its end, ends it in order")
def console(count):
    rows = [(what, partial(why_going_on, *typed)) for what, *typed in TYPED]
    rows += [
        ("nobody ever comes", why_unmoved),
        ("a journal and a total", why_unkept),
        ("a total is reached first", why_waiting),
        ("a client reads nothing", why_held),
    ]
    count.tries_at_once((f"console: {what}", why_wrong) for what, why_wrong in rows)
