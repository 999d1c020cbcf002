"""HTTP requests at the Telnet port, as a stranger's page makes a browser send them. The server plays none of them and
counts none as a session. The tests define a request after RFC 9112, section 3: a word, a target, and HTTP/ with a
digit."""
import contextlib
import socket
import time

from harness.guests import GREETING, SOON, is_soon, listening, named, stop
from harness.parts import part
from harness.server import Client

LINE = b"POST /x HTTP/1.1\r\n"
# Lines that a server plays if a player types them.
PLAYED = b"\r\nconnect Fetched\r\nsay by fetch\r\n"
REQUEST = LINE + b"Host: 127.0.0.1:4000\r\nContent-Length: 34\r\n" + PLAYED
# First lines that are no request, and the answer to them.
UNKNOWN = b"[0] I couldn't understand that."
NO_REQUESTS = [b"look", b"POST", b"POST /x", b"POST /x HTTP", b"POST /x HTTP/", b"POST /x HTTP/x", b"POST  /x HTTP/1.1",
               b" POST /x HTTP/1.1", b"POST /x y HTTP/1.1", b"P0ST /x HTTP/1.1", b"POST /x http/1.1"]
GOES_ON = b"(goes on)"
TRIES = 400
TOLD = " why=request "


def give(port, pieces, pause=0.002):
    """Sends these pieces with a pause between them, and reads up to the end of the connection. Returns what came; if
    the connection goes on, says so."""
    with contextlib.closing(Client(port, SOON * 2)) as client:
        client.socket.setsockopt(socket.IPPROTO_TCP, socket.TCP_NODELAY, 1)
        with contextlib.suppress(ConnectionError):
            for piece in pieces:
                client.give(piece)
                time.sleep(pause)
        try:
            while client.more():
                pass
        except TimeoutError:
            return client.kept + GOES_ON
        return client.kept


def why_played(server):
    """Returns what a server keeps of such requests, or nothing."""
    status, printed = stop(server)
    return "" if (status, printed) == (0, b"mud history 2\nend 0\n") else f"{status}, {printed}"


def why_answered(came):
    """Returns what came for a request, except the greeting, or nothing."""
    return "" if came in (b"", GREETING + b"\r\n") else f"{came}"


def why_whole():
    """Tries a request in one piece, with lines behind it."""
    with listening() as server:
        return why_answered(give(server.port, [REQUEST])) or why_played(server)


def why_cut():
    """Tries a request cut in two, at each place of its first line."""
    with listening() as server:
        for at in range(1, len(LINE) - 3):
            if why := why_answered(give(server.port, [REQUEST[:at], REQUEST[at:]])):
                return f"cut at {at}: {why}"
        return why_played(server)


def why_slow():
    """Tries a request in single bytes, which takes more than a second."""
    with listening() as server:
        pieces = [bytes([byte]) for byte in LINE[:-4]]
        return why_answered(give(server.port, [*pieces, LINE[-4:] + PLAYED], 1.2 / len(pieces))) or why_played(server)


def why_behind_blank_lines():
    """Tries a request behind blank lines, in one piece and in several."""
    with listening() as server:
        for pieces in ([b"\r\n\n\r\n" + REQUEST], [b"\r", b"\n\r\n", b"\n" + REQUEST[:6], REQUEST[6:]]):
            if why := why_answered(give(server.port, pieces)):
                return f"{pieces}: {why}"
        return why_played(server)


def why_reset():
    """Tries requests without end, each reset at once or after the greeting, as a browser does. The server plays none of
    them and logs one line a second."""
    with listening() as server:
        began = time.monotonic()
        for number in range(TRIES):
            client = Client(server.port)
            with contextlib.suppress(ConnectionError):
                client.give(REQUEST)
            if number % 2:
                client.line()
            client.reset()
        named(server.port, b"Ann").close()
        took = time.monotonic() - began
        status, printed = stop(server)
        told = sum(TOLD in line for line in server.logged())
        given = status, b"Fetched" in printed, 1 <= told <= took + 2
        return "" if given == (0, False, True) else f"{given}, {told} lines in {took} s"


def why_counted():
    """Returns what went wrong unless requests count for no total, hold no place of an address, and are no sessions in
    the log."""
    with listening("--total", "1", "--per-address", "1") as server:
        for _ in range(5):
            give(server.port, [REQUEST])
        is_served = is_soon(lambda: is_greeted(server.port))
        status, _ = server.end()
        said = server.logged()
        begun, told = (sum(word in line for line in said) for word in ("begin ", TOLD))
        given = is_served, status, begun, 1 <= told <= 5
        return "" if given == (True, 0, 1, True) else f"{given}, {said}"


def is_greeted(port):
    """Returns whether a new client is greeted, and leaves."""
    with contextlib.closing(Client(port)) as client:
        return client.line() == GREETING


def why_refused():
    """Tries first lines that are no request, whole and in single bytes, and a request that is not the first line."""
    with listening() as server:
        for line in NO_REQUESTS:
            for pieces in ([line + b"\r\n"], [bytes([byte]) for byte in line + b"\r\n"]):
                client = Client(server.port)
                for piece in pieces:
                    client.give(piece)
                given = client.line(), client.line()
                client.close()
                if given != (GREETING, UNKNOWN):
                    return f"{line}: {given}"
        client = Client(server.port)
        client.give(b"look\r\n" + LINE + b"@version\r\n")
        given = [client.line() for _ in range(4)]
        return "" if given == [GREETING, UNKNOWN, UNKNOWN, UNKNOWN] else f"{given}"


@part("requests", "a request of HTTP that comes by Telnet is not played, and is no session")
def requests(count):
    for name, tried in [
        ("whole", why_whole),
        ("cut anywhere", why_cut),
        ("slow", why_slow),
        ("behind blank lines", why_behind_blank_lines),
        ("reset at once, without end", why_reset),
        ("counted for nothing", why_counted),
        ("what is none", why_refused),
    ]:
        count.tries(f"requests: {name}", tried)
