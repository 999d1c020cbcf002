"""Guests on the web that would hold up a server, and what each gets. They send no line, give no name, come too often,
break the frames, or begin a request and do not end it."""
import contextlib
import select
import socket
import time
from concurrent.futures import ThreadPoolExecutor

from harness.guests import NOTICED, OTHER_HOST, SOON, is_refused, is_soon, parting
from harness.parts import part
from harness.server import HOST, Client
from harness.visit import QUICK
from harness.web import PAGE, WebServer
from harness.web_client import BINARY, PING, TEXT, closing, frame, upgrade

# The most seconds that a stopped server may take to end while requests are begun.
STOPPED = 4
# The first byte of a text message.
TEXT_BEGINS = b"\x81"
# How many browsers are heard at once, how many of one address at least, and how many come again and again.
CHAIRS, FEW_CHAIRS, DIALLERS = 32, 6, 48
# How many talk without a pause.
TALKERS = 12
# How often browsers of one address come at once, and how many.
TIMES, AT_ONCE = 12, 24


def seconds_to_close(client, meanwhile, longest=10):
    """Returns after how many seconds the server closes the web socket, or None if it does not. Calls `meanwhile` before
    each wait."""
    began = time.monotonic()
    client.socket.settimeout(0.25)
    while time.monotonic() < began + longest:
        with contextlib.suppress(TimeoutError):
            if not client.more():
                return time.monotonic() - began
        if client.closed is not None:
            return time.monotonic() - began
        with contextlib.suppress(ConnectionError):
            meanwhile()
    return None


def is_noticed(seconds):
    return seconds is not None and NOTICED[0] < seconds < NOTICED[1]


def why_idle(what, sent):
    """With `--idle 1` a client that sends this four times a second is closed, and one that sends lines is not."""
    with WebServer("--idle", "1") as server:
        player, silent = server.player(b"Ann"), server.player(b"Bob")

        def both():
            player.send(b"@version")
            silent.give(sent)

        took = seconds_to_close(silent, both)
        silent.close_half()
        word = parting(server, silent)
        given = is_noticed(took), silent.closed, word, player.closed
        return "" if given == (True, 1000, "idle", None) else f"{took}, {given}"


def why_unnamed():
    """A client that never gives a name is closed; a client that has given one keeps its place."""
    with WebServer("--unnamed", "1") as server:
        player, nobody = server.player(b"Ann"), server.dial()
        took = seconds_to_close(nobody, lambda: nobody.send(b"look"))
        nobody.close_half()
        word = parting(server, nobody)
        player.send(b"@version")
        given = is_noticed(took), nobody.closed, word, player.line()
        return "" if given == (True, 1000, "unnamed", b"[1] version") else f"{took}, {given}"


def why_per_address():
    """An address has its maximum of sessions, by both listeners together: the server refuses one more."""
    with WebServer("--per-address", "2") as server:
        by_telnet, on_web = Client(server.port), server.player(b"Ann")
        by_telnet.line()
        refused = server.dial()
        told = refused.rest(), refused.closed, refused.reason
        on_web.close()
        given = told, is_soon(server.has_place)
        return "" if given == (([], 1013, b"too many sessions"), True) else f"{given}"


def is_greeted(dialled):
    """Returns whether the session of a client that was let in began: a text comes, and no close."""
    got = b""
    with contextlib.suppress(ConnectionError):
        while len(got.partition(b"\r\n\r\n")[2]) < 2 and (piece := dialled.recv(1024)):
            got += piece
    return got.partition(b"\r\n\r\n")[2][:1] == TEXT_BEGINS


def why_address_at_once():
    """Of browsers of one address that end their heads at once, never too many play."""
    with WebServer("--per-address", "1") as server, contextlib.ExitStack() as stack:
        for _ in range(TIMES):
            heads = [upgrade(server.origin) for _ in range(AT_ONCE)]
            dialled = [stack.enter_context(socket.create_connection((HOST, server.web_port), SOON)) for _ in heads]
            for begin, end in [(0, -1), (-1, None)]:
                for one, head in zip(dialled, heads):
                    with contextlib.suppress(ConnectionError):
                        one.sendall(head[begin:end])
            playing = sum(map(is_greeted, dialled))
            if playing > 1:
                return f"{playing} play"
            stack.close()
            is_soon(server.has_place)
        return ""


def why_idle_place():
    """A client that was closed for `--idle` has no place any more, even while it does not end its connection."""
    with WebServer("--idle", "1", "--per-address", "1") as server:
        silent = server.player(b"Ann")
        while silent.closed is None and silent.more():
            pass
        end = time.monotonic() + 1
        while not (has_place := server.has_place()) and time.monotonic() < end:
            pass
        given = silent.closed, has_place
        return "" if given == (1000, True) else f"{given}"


def silent_heads(server, number):
    """Connects this many clients, which begin a head and send no more."""
    heads = [socket.create_connection((HOST, server.web_port), timeout=10) for _ in range(number)]
    for one in heads:
        one.sendall(b"GET / HTTP/1.1\r\nX: ")
    return heads


def seconds_for_page(server, host=OTHER_HOST):
    """Returns how long a client of another address waits for the page, or None if it does not get the page."""
    began = time.monotonic()
    with contextlib.suppress(OSError), socket.create_connection((HOST, server.web_port), 5, (host, 0)) as one:
        one.sendall(PAGE)
        if one.recv(12) == b"HTTP/1.1 200":
            return time.monotonic() - began
    return None


def why_silent_heads():
    """Heads of one address that are begun and not ended keep the page from no other address."""
    with WebServer() as server:
        heads = silent_heads(server, CHAIRS + 8)
        took = [seconds_for_page(server) for _ in range(3)]
        for one in heads:
            one.close()
        return "" if None not in took and max(took) < 1 else f"{took}"


def dial_again(server, until):
    """Begins a head, again and again, as soon as the last is over."""
    while time.monotonic() < until:
        with contextlib.suppress(OSError), socket.create_connection((HOST, server.web_port), timeout=5) as one:
            one.sendall(b"GET / HTTP/1.1\r\nX: ")
            one.recv(1)


def why_dialled_again():
    """Forty-eight clients of one address that come again and again delay the page for another address by less than a
    second."""
    with WebServer() as server, ThreadPoolExecutor(DIALLERS) as threads:
        until = time.monotonic() + 3
        for _ in range(DIALLERS):
            threads.submit(dial_again, server, until)
        served = [time.monotonic()]
        while time.monotonic() < until - 0.5:
            if seconds_for_page(server) is not None:
                served.append(time.monotonic())
            time.sleep(0.1)
        server.kill()
        longest = max((after - before for before, after in zip(served, served[1:])), default=None)
        return "" if len(served) > 5 and longest < 1 else f"{len(served) - 1} pages, {longest} s"


def why_chairs_of_an_address():
    """With `--per-address 1` an address has six chairs: of more heads the server sends away those that have waited
    longest."""
    with WebServer("--per-address", "1") as server:
        heads = []
        for _ in range(FEW_CHAIRS + 2):
            heads += silent_heads(server, 1)
            time.sleep(QUICK)
        took = seconds_for_page(server)
        sent_away, _, _ = select.select(heads, [], [], QUICK)
        given = [heads.index(one) for one in sent_away], took is not None
        for one in heads:
            one.close()
        return "" if given == ([0, 1], True) else f"{given}"


def why_talk_at_stop():
    """A client that talks without a pause gets the notice of a stop as others do."""
    with WebServer(console=True) as server, ThreadPoolExecutor(TALKERS) as threads:
        players = [server.player(b"P%d" % number) for number in range(TALKERS)]
        talking = [threads.submit(talk, one) for one in players]
        time.sleep(0.5)
        server.type(b"stop\n")
        told = [one.result() for one in talking]
        status, _ = server.end()
        untold = [one for one in told if one != (True, 1001)]
        return "" if (untold, status) == ([], 0) else f"{untold}, {status}"


def talk(player):
    """Says something over and over, and reads what comes. Returns whether the notice of the stop and the close come
    last."""
    player.socket.settimeout(0.001)
    came = unsent = b""
    while player.closed is None:
        unsent = unsent or frame(TEXT, b"say hello") * 20
        with contextlib.suppress(TimeoutError, ConnectionError):
            unsent = unsent[player.socket.send(unsent):]
        with contextlib.suppress(TimeoutError):
            if not player.more():
                break
        came, player.kept = (came + player.kept)[-100:], b""
    return came.endswith(b"(server stops)\r\n"), player.closed


def why_total():
    """Once the total has begun on the web, the system refuses a client that comes by either listener."""
    with WebServer("--total", "1") as server:
        player = server.player(b"Ann")
        was_refused = is_soon(lambda: is_refused(server.port) and is_refused(server.web_port))
        player.send(b"quit")
        lines, (status, _) = player.rest(), server.end()
        given = was_refused, lines, player.closed, status
        return "" if given == (True, [b"[1] bye"], 1000, 0) else f"{given}"


def why_total_at_once():
    """Many ask to play at once where few may: as many sessions begin as the total says, and no more."""
    with WebServer("--total", "3") as server:
        asked = [socket.create_connection((HOST, server.web_port), timeout=10) for _ in range(20)]
        for one in asked:
            with contextlib.suppress(ConnectionError):  # the listener may be closed by now
                one.sendall(upgrade(server.origin))
        begun = 0
        for one in asked:
            begun += is_greeted(one)
            one.close()
        status, _ = server.end()
        return "" if (begun, status) == (3, 0) else f"{begun}, {status}"


def why_counted():
    """A client that looks at the page, is refused or leaves unnamed does not count with `--count-players`."""
    with WebServer("--total", "1", "--count-players") as server:
        for _ in range(5):
            server.ask(PAGE)
            server.ask(upgrade("http://evil.example"))
            server.dial().close()
        goes_on = not is_refused(server.web_port)
        player = server.player(b"Ann")
        player.send(b"quit")
        player.rest()
        player.close()
        status, _ = server.end()
        return "" if (goes_on, status) == (True, 0) else f"{goes_on}, {status}"


def why_partings():
    """The log names the end reason of each session, as by Telnet; a broken frame has a word of its own."""
    with WebServer(console=True) as server:
        quits, closes, breaks, stays = (server.player(name) for name in (b"Ann", b"Bob", b"Cid", b"Dan"))
        quits.send(b"quit")
        closes.give(closing(1000))
        breaks.give(frame(TEXT, b"say two", masked=False))
        for one in (quits, closes, breaks):
            one.rest()
            one.close()
        was_said = is_soon(lambda: sum(line.startswith("end ") for line in server.logged()) == 3)
        server.type(b"stop\n")
        stays.rest()
        stays.close()
        status, _ = server.end()
        said = server.logged()
        given = [sum(f" why={word}" in line for line in said) for word in ("left", "broken-frame", "server-stops")]
        return "" if (was_said, given, status) == (True, [2, 1, 1], 0) else f"{was_said}, {given}, {status}"


def why_slow_at_stop():
    """Requests that are begun, and a client that reads no page, delay no stop."""
    with WebServer(console=True) as server:
        begun = [socket.create_connection((HOST, server.web_port), timeout=10) for _ in range(8)]
        for one in begun:
            one.sendall(b"GET / HT")
        server.ask(PAGE)  # The server serves connections in order of arrival, so it has read the others by now.
        began = time.monotonic()
        server.type(b"stop\n")
        status, _ = server.end(SOON + STOPPED)
        took = time.monotonic() - began
        for one in begun:
            one.close()
        return "" if status == 0 and took < STOPPED else f"{status} after {took} s"


def why_many_at_once():
    """Sixty-four players at once on the web and by Telnet: each hears each."""
    with WebServer() as server:
        players = [server.player(b"P%d" % number, seconds=30) for number in range(32)]
        others = [Client(server.port, 30) for _ in range(32)]
        for number, one in enumerate(others):
            one.send(b"connect Q%d" % number)
            while b"welcome" not in (one.line() or b"welcome"):
                pass
        players[0].send(b"say all of you")
        heard = 0
        for one in players[1:] + others:
            while (line := one.line()) is not None and b"all of you" not in line:
                pass
            heard += line is not None
        given = heard, server.dial().turned_away()
        return "" if given == (63, b"server full") else f"{given}"


@part("web-guests", "guests on the web who would hold up a server hold nobody")
def web_guests(count):
    rows = [("nothing", b""), ("pings", frame(PING, b"x")), ("binary messages", frame(BINARY, b"x\n"))]
    for what, sent in rows:
        count.tries(f"web guests: with --idle one sends {what}", why_idle, what, sent)
    for name, tried in [
        ("one does not say who he is", why_unnamed),
        ("one address has as many sessions as it may", why_per_address),
        ("many of one address come at once", why_address_at_once),
        ("one comes behind the total", why_total),
        ("many come at the total's end", why_total_at_once),
        ("those who leave unnamed don't count", why_counted),
        ("the log names what ended a session", why_partings),
        ("one was closed for a limit and stays", why_idle_place),
        ("heads of one address are begun", why_silent_heads),
        ("heads of one address are begun again and again", why_dialled_again),
        ("an address has as many chairs as it may", why_chairs_of_an_address),
        ("requests are begun at a stop", why_slow_at_stop),
        ("all talk at a stop", why_talk_at_stop),
        ("sixty-four play at once", why_many_at_once),
    ]:
        count.tries(f"web guests: {name}", tried)
