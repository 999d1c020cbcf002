"""Floods that clients of one server may send, and output that they may leave unread, without making it grow. One sends
megabytes without a line end, one a subnegotiation without an end, some send lines, questions and requests without end
and read nothing. Meanwhile two play, and their output is judged. At last some ask in one piece for the history, over
and over, and read nothing. The server may grow by BOUND for each of them, besides the history itself, and by ANSWER for
each that asks for that. Then a server with `--idle 1` ends a silent session, and no other."""
import contextlib
import time

from harness.judge import judge
from harness.parts import part
from harness.programs import program
from harness.server import Client, Server
from harness.visit import Visit

MEGABYTES = 4
BOUND = 1_000_000
CHANGES, HISTORY = 500, 2_000_000
ASKERS, ANSWER = 4, 4 * CHANGES * 920
# The beginning of a flood, and the part that is repeated.
FLOODS = [
    (b"", b"A"),
    (b"\xff\xfa", b"A"),
    (b"", b"look\r\n"),
    (b"connect Wizard\r\n", b"look\r\n"),
    (b"connect Wizard\r\n", b"proof route to here\r\n"),
    (b"", b"\xff\xf6"),
    (b"", b"\xff\xfd\x01"),
    (b"connect Wizard\r\n", b"\xff\xf8\xff\xf7\x08 \t"),
]


def flood(client, begin, again):
    """Sends megabytes, or as much as the server takes, and reads nothing. Returns whether the connection may still be
    open."""
    client.give(begin)
    piece = again * (65_536 // len(again))
    client.socket.settimeout(0.5)
    try:
        for _ in range(MEGABYTES * 16):
            client.give(piece)
    except TimeoutError:
        pass
    except ConnectionError:
        return False
    return True


def play(one, other):
    """Makes two talk while the others read nothing."""
    for at in range(CHANGES):
        one.ask(f"say {at} {'x' * 890}")
        if at % 10 == 0:
            other.ask("look")


def ask_for_all(clients):
    """Makes each ask for the history as often as one piece has room for, and read nothing."""
    for client in clients:
        client.line()
        client.give(b"connect Wizard\r\n")
        client.give(b"@history\r\n" * 455)
    time.sleep(1)


def flood_all(server):
    """Makes all of them flood the server while two play. Returns the growth of the server, the floods that were cut
    off, the sessions of the players, and the end of the server."""
    one, other = Visit(server.port), Visit(server.port)
    one.ask("connect Ann")
    other.ask("connect Bob")
    clients = [greeted(server.port) for _ in FLOODS]
    before = server.most_memory()
    cut_off = [again for client, (begin, again) in zip(clients, FLOODS) if not flood(client, begin, again)]
    play(one, other)
    askers = [Client(server.port) for _ in range(ASKERS)]
    ask_for_all(askers)
    grown = server.most_memory() - before
    for client in clients + askers:
        client.close()
    one.end()
    other.end()
    return grown, cut_off, [one.session, other.session], server.end()


def greeted(port):
    """Returns a client that has read its greeting."""
    client = Client(port)
    client.line()
    return client


def count_floods(count):
    """Counts the effects of the floods on the server and on others."""
    with Server(program("mud_serve"), ["--total", str(len(FLOODS) + ASKERS + 2)]) as server:
        grown, cut_off, sessions, (status, printed) = flood_all(server)
    faults = judge(printed.decode(), sessions)[0]
    print(f"floods: {len(FLOODS) + ASKERS} of them: the server has grown by {grown} bytes", flush=True)
    count("floods: what two others read meanwhile", not faults, faults[:3])
    count("floods: none is cut off", not cut_off, cut_off)
    count("floods: the server ends with status 0", status == 0, status)
    count("floods: it stays small", grown <= HISTORY + BOUND * len(FLOODS) + ANSWER * ASKERS, f"{grown} bytes more")


def silence(server):
    """Returns the number of seconds after which a silent session ended, while another was active, or None."""
    silent, lively = Visit(server.port), Visit(server.port)
    began, ended = time.monotonic(), None
    lively.ask("connect Ann")
    silent.client.socket.settimeout(0.1)
    while ended is None and time.monotonic() < began + 5:
        lively.ask("@version")
        with contextlib.suppress(TimeoutError):
            if silent.client.line() is None:
                ended = time.monotonic() - began
    lively.end()
    return ended


def count_silence(count):
    """Counts the effect of `--idle` on a silent session."""
    with Server(program("mud_serve"), ["--total", "2", "--idle", "1"]) as server:
        ended = silence(server)
        status, _ = server.end()
    count("floods: a silent session ends with --idle", ended is not None and ended > 0.8, f"after {ended} s")
    count("floods: then the server ends with status 0", status == 0, status)


@part("floods", "clients that send without end and read nothing, or are silent, cost a server little")
def floods(count):
    count_floods(count)
    count_silence(count)
