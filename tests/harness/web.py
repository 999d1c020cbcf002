"""The web listener: what it answers to a browser, and what the frames of a web socket do. The client is written from
RFC 6455 and knows nothing of the server's code."""
import base64
import contextlib
import hashlib
import random
import re
import select
import socket
import time

from harness.guests import is_soon
from harness.parts import part
from harness.programs import program
from harness.server import HOST, SECONDS, Client, Server
from harness.visit import QUICK
from harness.web_client import BINARY, CLOSE, CONTINUATION, PING, PONG, TEXT, WebClient
from harness.web_client import answered, closing, frame, rest_of, status, upgrade

HEAD_SECONDS, MOST_HEADS, PLACES = 10, 32, 64
# The longest message of the server, and how many texts of some 800 bytes make a history of two such messages.
MOST_SENT, LINES = 65_536, 100
OTHER_HOST, PROXY = "127.0.0.2", "https://mud.example.org"
GREETING = b"Welcome. Type: connect NAME"
PAGE = f"GET / HTTP/1.1\r\nHost: {HOST}\r\n\r\n".encode()
NAMED = re.compile(rb"^[\[(]\d+[\])] ")
# Text that would load something from elsewhere, or make markup of a text. The name of SVG is such a text, and loads
# nothing.
LOADS = rb"(?i)<[a-z][^>]*\s(?:src|href)\b|\b(?:src|href)\s*=\s*[\"']"
OUTSIDE = re.compile(LOADS + rb"|\burl\(|@import|innerHTML|https?://(?!www\.w3\.org/2000/svg)")
SAID = b"said"


def ports_of_no_client():
    """Returns the ports below those that the system gives to clients, in random order."""
    with open("/proc/sys/net/ipv4/ip_local_port_range") as file:
        ports = range(10_000, int(file.read().split()[0]))
    return random.sample(ports, len(ports))


# An iterator over a list, which threads may share.
PORTS = iter(ports_of_no_client())


def free_port():
    """Returns a port on which nothing listens now. The system gives it to no client, and no other caller gets it."""
    for port in PORTS:
        with socket.socket() as one, contextlib.suppress(OSError):
            one.setsockopt(socket.SOL_SOCKET, socket.SO_REUSEADDR, 1)
            one.bind((HOST, port))
            return port
    raise OSError("no port is free")


class WebServer(Server):
    """A server with a web listener on its `web_port`; the page's origin is its `origin`."""

    def __init__(self, *words, port=None, origin=None, **how):
        self.web_port = port or free_port()
        self.origin = origin or f"http://{HOST}:{self.web_port}"
        door = ["--web-port", str(self.web_port), "--web-origin", self.origin]
        super().__init__(program("mud_serve"), [*door, *words], **how)
        second = self.process.stdout.readline()
        if self.port is not None and second != b"web on %d\n" % self.web_port:
            self.port = None

    def dial(self, **how):
        return WebClient(self.web_port, self.origin, **how)

    def come(self, _port=None):
        """Returns a client on the web, which tries again while the server is full. It replaces `Client` in code that
        connects."""
        while (client := self.dial()).turned_away():
            client.close()
            time.sleep(QUICK)
        return client

    def player(self, name, **how):
        """Returns a client on the web that has connected by this name."""
        client = self.dial(**how)
        client.send(b"connect " + name)
        while b"welcome" not in (client.line() or b"welcome"):
            pass
        return client

    def ask(self, request, **how):
        """Returns everything that is answered to these bytes."""
        return answered(self.web_port, request, **how)

    def has_place(self):
        """Returns whether one more client that asks to play, and closes at once, gets a place."""
        with contextlib.closing(self.dial(first=closing(1000))) as client:
            return client.turned_away() is None


def plain(line):
    """Returns a line without the number in front."""
    return None if line is None else NAMED.sub(b"", line)


# ---- what frames do. Each try: its name, the pieces that are sent, the lines and other frames that come for them, and
# the code of the close; None where the connection goes on.

TWO_LOOKS = [b"inventory nothing", b"inventory nothing"]
GOES_ON = [
    ("a text", [frame(TEXT, b"say one")], [SAID], []),
    ("a text in single bytes", [bytes([byte]) for byte in frame(TEXT, b"say one")], [SAID], []),
    ("two texts in one piece", [frame(TEXT, b"i") + frame(TEXT, b"inv")], TWO_LOOKS, []),
    ("two lines in one text", [frame(TEXT, b"i\ninv")], TWO_LOOKS, []),
    ("two lines with CR LF in one text", [frame(TEXT, b"i\r\ninv\r\n")], TWO_LOOKS, []),
    ("fragments, a ping between", [frame(TEXT, b"say o", final=False), frame(PING, b"hi"), frame(CONTINUATION, b"ne")],
     [SAID], [(PONG, b"hi")]),
    ("an empty last fragment", [frame(TEXT, b"say one", final=False), frame(CONTINUATION)], [SAID], []),
    ("a ping", [frame(PING, b"x" * 125)], [], [(PONG, b"x" * 125)]),
    ("a ping in single bytes", [bytes([byte]) for byte in frame(PING, b"hi")], [], [(PONG, b"hi")]),
    ("a pong that nobody asked for", [frame(PONG, b"x")], [], []),
    ("a binary message", [frame(BINARY, b"\xff\x00say one")], [], []),
    ("an empty text", [frame(TEXT)], [], []),
    ("4,096 bytes", [frame(TEXT, b"a" * 4096)], [b"(line too long)"], []),
    ("4,096 bytes in fragments", [frame(TEXT, b"a" * 2048, final=False), frame(CONTINUATION, b"a" * 2048)],
     [b"(line too long)"], []),
    ("UTF-8 of two bytes", [frame(TEXT, "say gr\u00fcn".encode())], [SAID], []),
    ("UTF-8 that is cut between fragments", [frame(TEXT, b"say gr\xc3", final=False), frame(CONTINUATION, b"\xbcn")],
     [SAID], []),
]
ENDS = [
    ("4,097 bytes", [frame(TEXT, b"a" * 4097)], 1009),
    ("a head that claims 2^62 bytes", [frame(TEXT, claimed=2**62)], 1009),
    ("fragments past 4,096 bytes", [frame(one, b"b" * 1500, final=False) for one in (TEXT, CONTINUATION, CONTINUATION)],
     1009),
    ("no mask", [frame(TEXT, b"say two", masked=False)], 1002),
    ("no mask on a ping", [frame(PING, b"x", masked=False)], 1002),
    ("bytes that are not UTF-8", [frame(TEXT, b"\xff\xfd\x06")], 1007),
    ("a surrogate", [frame(TEXT, b"say \xed\xa0\x80")], 1007),
    ("a fragment that is not UTF-8", [frame(TEXT, b"say \xff", final=False)], 1007),
    ("a character that is cut off", [frame(TEXT, b"say \xc3")], 1007),
    ("a reserved bit", [frame(TEXT, b"say two", reserved=4)], 1002),
    ("another reserved bit", [frame(TEXT, b"say two", reserved=1)], 1002),
    ("opcode 3", [frame(3, b"say two")], 1002),
    ("opcode 11", [frame(11, b"say two")], 1002),
    ("a continuation of nothing", [frame(CONTINUATION, b"say two")], 1002),
    ("a text inside fragments", [frame(TEXT, b"say two", final=False), frame(TEXT, b"say two")], 1002),
    ("a ping in fragments", [frame(PING, b"x", final=False)], 1002),
    ("a ping of 126 bytes", [frame(PING, b"x" * 126)], 1002),
    ("a ping of 4,097 bytes", [frame(PING, b"x" * 4097)], 1009),
    ("a length that is not the shortest", [frame(TEXT, b"say two", longest=True)], 1002),
    ("a close of one byte", [frame(CLOSE, b"\x03")], 1002),
    ("a close that is not UTF-8", [closing(1000, b"\xff")], 1007),
    ("a close", [closing(1000, b"bye")], 1000),
    ("a close without a code", [frame(CLOSE)], 1005),
    ("a close with a code of its own", [closing(3000)], 3000),
    ("a close with a code that is never sent", [closing(1005)], 1002),
    ("a close with a gateway's code", [closing(1014)], 1002),
    ("a text behind a close", [closing(1000) + frame(TEXT, b"say two")], 1000),
]


def why_not_on(server, pieces, lines, others):
    """Returns what went wrong if the connection should go on, or nothing."""
    client = server.player(b"Ann")
    for piece in pieces:
        client.give(piece)
    client.send(b"@version")
    came = []
    while (line := plain(client.line())) not in (None, b"version"):
        came.append(line)
    given = came, client.others, client.closed
    client.close()
    return "" if given == (lines, others, None) else f"{given}"


def why_not_ended(server, pieces, code):
    """Returns what went wrong if the connection should end by this code with nothing of the last frame typed, or
    nothing."""
    listener, client = server.player(b"Bob"), server.player(b"Ann")
    client.send(b"say one")
    lines = [plain(client.line())]
    for piece in pieces:
        with contextlib.suppress(ConnectionError):
            client.give(piece)
    lines += [plain(line) for line in client.rest()]
    listener.send(b"quit")
    heard = [plain(line) for line in listener.rest() if b"Ann says" in line]
    given = lines, client.closed, heard
    client.close()
    return "" if given == ([SAID], code, [b'Ann says, "one"']) else f"{given}"


@part("web-frames", "what the frames of a web socket do, whole, cut or wrong")
def web_frames(count):
    with WebServer() as server:
        for name, pieces, lines, others in GOES_ON:
            count.tries(name, why_not_on, server, pieces, lines, others)
        for name, pieces, code in ENDS:
            count.tries(name, why_not_ended, server, pieces, code)
        late = server.dial(first=frame(TEXT, b"quit"))
        given = [plain(line) for line in late.rest()], late.closed
        count("a first frame with the head, and quit", given == ([GREETING, b"bye"], 1000), f"{given}")


# ---- what a head is answered

def head(first, *lines, host=f"Host: {HOST}"):
    """Returns the head of a request with this field `Host`, or without one if it is empty."""
    return "\r\n".join([first, *[host] * bool(host), *lines]).encode() + b"\r\n\r\n"


def long_head(length):
    """Returns the head of a request for the page, `length` bytes long."""
    return PAGE[:-2] + b"A: " + b"x" * (length - len(PAGE) - 5) + b"\r\n\r\n"


def other(request, *changes):
    """Returns a request with each of these texts, which occurs in it once, replaced by the other text."""
    for old, new in changes:
        if request.count(old) != 1:
            raise ValueError(f"not once in the request: {old}")
        request = request.replace(old, new)
    return request


# The parts of an upgrade that may be written in another way. Each try: its name, and the changes.
CONNECTION, UPGRADE = b"Connection: keep-alive, Upgrade", b"Upgrade: websocket"
LET_IN = [
    ("a list with tabs", [(CONNECTION, b"Connection:\tkeep-alive\t,\tUpgrade\t")]),
    ("a list without spaces", [(CONNECTION, b"Connection: keep-alive,Upgrade")]),
    ("empty members", [(CONNECTION, b"Connection: , ,Upgrade,")]),
    ("two fields Connection", [(CONNECTION, b"Connection: keep-alive\r\nconnection: upgrade")]),
    ("Upgrade first", [(CONNECTION, b"Connection: Upgrade, keep-alive")]),
    ("other protocols", [(UPGRADE, b"Upgrade: h2c, WebSocket, foo/1.1")]),
    ("two fields Upgrade", [(UPGRADE, b"Upgrade: h2c\r\nUPGRADE: websocket")]),
    ("names in capitals", [(b"Sec-WebSocket-Key", b"SEC-WEBSOCKET-KEY"), (b"Host", b"HOST")]),
    ("a host without a port", [(b"Host: " + HOST.encode(), b"Host: mud.example.org")]),
    ("a host with a port", [(b"Host: " + HOST.encode(), b"Host: mud.example.org:8000")]),
    ("an address in brackets", [(b"Host: " + HOST.encode(), b"Host: [::1]:8000")]),
    ("the absolute form", [(b"GET /play ", b"GET http://localhost:8000/play ")]),
    ("the absolute form of https", [(b"GET /play ", b"GET HTTPS://mud.example.org/play ")]),
    ("line ends in front", [(b"GET ", b"\r\n\r\nGET ")]),
]
NOT_LET_IN = [
    ("a list without a comma", [(CONNECTION, b"Connection: keep-alive Upgrade")], 400),
    ("no Connection", [(CONNECTION + b"\r\n", b"")], 400),
    ("another Connection", [(CONNECTION, b"Connection: keep-alive, Upgrades")], 400),
    ("another protocol", [(UPGRADE, b"Upgrade: h2c")], 400),
    ("a protocol with a version", [(UPGRADE, b"Upgrade: websocket/13")], 400),
    ("no Host", [(b"Host: " + HOST.encode() + b"\r\n", b"")], 400),
    ("an empty Host", [(b"Host: " + HOST.encode(), b"Host:")], 400),
    ("two fields Host", [(b"Host: ", b"Host: a\r\nHost: ")], 400),
    ("the Host twice", [(b"Host: " + HOST.encode(), f"Host: {HOST}\r\nHost: {HOST}".encode())], 400),
    ("a space in Host", [(b"Host: ", b"Host: loc alhost ")], 400),
    ("a user in Host", [(b"Host: ", b"Host: a@")], 400),
    ("a path in Host", [(b"Host: " + HOST.encode(), b"Host: a/b")], 400),
    ("a port of letters", [(b"Host: " + HOST.encode(), b"Host: a:x")], 400),
    ("a bracket that stays open", [(b"Host: " + HOST.encode(), b"Host: [::1")], 400),
    ("no version", [(b"Sec-WebSocket-Version: 13\r\n", b"")], 426),
    ("the version 8", [(b"Version: 13", b"Version: 8")], 426),
    ("the version twice", [(b"Version: 13", b"Version: 13\r\nSec-WebSocket-Version: 13")], 426),
    ("two versions", [(b"Version: 13", b"Version: 13\r\nSec-WebSocket-Version: 8")], 426),
    ("a list of versions", [(b"Version: 13", b"Version: 13, 8")], 426),
    ("a fraction of a version", [(b"Version: 13", b"Version: 13.0")], 426),
    ("the absolute form of nothing", [(b"GET /play ", b"GET http:///play ")], 404),
    ("the absolute form of ftp", [(b"GET /play ", b"GET ftp://localhost/play ")], 404),
    ("a query", [(b"GET /play ", b"GET /play?x ")], 404),
    ("HEAD to play", [(b"GET /play ", b"HEAD /play ")], 400),
]
# From the note in RFC 6455, section 4.1: its last symbol has bits beyond the 16 bytes.
NOTE_KEY = b"AQIDBAUGBwgJCgsMDQ4PEC=="


def refusals(origin):
    """Returns the tries, each with its name, the bytes to send, and the status."""
    own = f"Origin: {origin}\r\n".encode()
    key = b"A" * 22 + b"=="
    old = upgrade(origin, key=key).replace(b"HTTP/1.1", b"HTTP/1.0")
    again = b"Sec-WebSocket-Key: " + key + b"\r\n"
    return [
        ("no Origin", upgrade(None), 403),
        ("another Origin", upgrade("http://evil.example"), 403),
        ("Origin null", upgrade("null"), 403),
        ("another port", upgrade(f"{origin}0"), 403),
        ("two Origins", upgrade(origin, extra=b"Origin: http://evil.example\r\n"), 403),
        ("the Origin twice", upgrade(origin, extra=own), 403),
        ("another Origin first", upgrade("http://evil.example", extra=own), 403),
        ("a key that is too short", upgrade(origin, key=b"AAAA"), 400),
        ("a key that is no base64", upgrade(origin, key=b"!" * 22 + b"=="), 400),
        ("a key of 17 bytes", upgrade(origin, key=b"A" * 23 + b"="), 400),
        ("two keys", upgrade(origin, extra=again), 400),
        ("a key twice", upgrade(origin, key=key, extra=again), 400),
        ("no key", other(upgrade(origin, key=key), (again, b"")), 400),
        ("no upgrade", head("GET /play HTTP/1.1", f"Origin: {origin}"), 426),
        ("no upgrade but the version",
         head("GET /play HTTP/1.1", f"Origin: {origin}", "Sec-WebSocket-Version: 13"), 400),
        ("HTTP/1.0", old, 400),
        ("HTTP/1.0 for the page", head("GET / HTTP/1.0"), 200),
        ("HTTP/1.0 without a host", head("GET / HTTP/1.0", host=""), 200),
        ("the page without a host", head("GET / HTTP/1.1", host=""), 400),
        ("POST without a host", head("POST / HTTP/1.1", host=""), 400),
        ("an unknown path", upgrade(origin, path="/x"), 404),
        ("a path behind the page's", head("GET /index.html HTTP/1.1"), 404),
        ("the page's absolute form", head("GET http://localhost:8000/ HTTP/1.1"), 200),
        ("an absolute form without a path", head("GET http://localhost:8000 HTTP/1.1"), 200),
        ("POST", head("POST / HTTP/1.1"), 405),
        ("a method that has HEAD in front", head("HEADER / HTTP/1.1"), 405),
        ("OPTIONS of all", head("OPTIONS * HTTP/1.1"), 405),
        ("HEAD", head("HEAD / HTTP/1.1"), 200),
        ("HEAD of an unknown path", head("HEAD /x HTTP/1.1"), 404),
        ("no request", b"\x16\x03\x01\x02\x00\x01\x00\x01\xfc\r\n\r\n", 400),
        ("a head of 8,192 bytes", long_head(8192), 200),
        ("a head of 8,193 bytes", long_head(8193), 431),
        ("9 KB, and no end", long_head(9000)[:-4], 431),
        ("65 fields", head("GET / HTTP/1.1", *["A: b"] * 64), 431),
        ("64 fields", head("GET / HTTP/1.1", *["A: b"] * 63), 200),
        ("LF alone", PAGE.replace(b"\r\n", b"\n"), 200),
        *[(name, other(upgrade(origin), *changes), wanted) for name, changes, wanted in NOT_LET_IN],
        *[(name, other(upgrade(origin), *changes), 101) for name, changes in LET_IN],
        ("the key of the note", upgrade(origin, key=NOTE_KEY), 101),
    ]


def wrong_fields(server):
    """Returns the answers that lack a field that a standard asks for, or have a body where none may be."""
    tries = [("the page", PAGE), ("404", head("GET /x HTTP/1.1")), ("400", head("GET / HTTP/1.1", host=""))]
    tries += [("426", head("GET /play HTTP/1.1", f"Origin: {server.origin}")), ("431", long_head(9000))]
    faults = []
    for name, request in tries:
        top, _, body = server.ask(request.replace(b"GET", b"HEAD", 1)).partition(b"\r\n\r\n")
        if body or top != server.ask(request).partition(b"\r\n\r\n")[0]:
            faults.append(f"HEAD of {name}: {top[:40]} {body[:40]}")
    top = server.ask(other(upgrade(server.origin), (b"Version: 13", b"Version: 8"))).partition(b"\r\n\r\n")[0]
    for field in (b"Sec-WebSocket-Version: 13", b"Upgrade: websocket", b"Connection: close, Upgrade"):
        faults += [f"426 without {field}"] * (field not in top.split(b"\r\n"))
    foreign = server.ask(upgrade("http://evil.example"))
    faults += ["403 without the origin"] * (not foreign.endswith(f" is played at {server.origin}\r\n".encode()))
    return faults


def hashed(text):
    return b"'sha256-" + base64.b64encode(hashlib.sha256(text).digest()) + b"'"


def why_no_page(answer):
    """Returns what is wrong with the page. Nothing is wrong if it is whole, and its content policy allows its own style
    and script only."""
    top, _, body = answer.partition(b"\r\n\r\n")
    fields = dict(line.lower().split(b": ", 1) for line in top.split(b"\r\n")[1:])
    allowed = re.search(rb"(?i)security-policy: (.*)\r\n", top)[1]
    policy = dict(one.strip().split(b" ", 1) for one in allowed.split(b";"))
    style, script = (re.findall(rb"<%b>(.*?)</%b>" % (tag, tag), body, re.S) for tag in (b"style", b"script"))
    wanted = {b"default-src": b"'none'", b"style-src": hashed(style[0]), b"script-src": hashed(script[0])}
    faults = [name for name, value in wanted.items() if policy.get(name) != value]
    faults += [b"length"] * (fields[b"content-length"] != b"%d" % len(body)) + [b"more"] * (len(style + script) != 2)
    faults += [b"nosniff"] * (fields.get(b"x-content-type-options") != b"nosniff")
    faults += [b"outside"] * bool(OUTSIDE.search(body))
    return b", ".join(faults).decode()


def timed_out(server):
    """Returns the status for a head that sends one byte each second, and after how many seconds it comes."""
    began = time.monotonic()
    with socket.create_connection((HOST, server.web_port), timeout=1) as slow:
        for _ in range(2 * HEAD_SECONDS):
            with contextlib.suppress(TimeoutError, BrokenPipeError):
                slow.sendall(b"G")
                return status(rest_of(slow)), time.monotonic() - began
    return None, time.monotonic() - began


def in_pieces(server, request):
    """Returns the answer to a request in single bytes."""
    with socket.create_connection((HOST, server.web_port), timeout=HEAD_SECONDS) as dialled:
        for byte in request:
            dialled.sendall(bytes([byte]))
        return rest_of(dialled)


@part("web-heads", "what a browser is answered: the page, the web socket, and each refusal")
def web_heads(count):
    with WebServer() as server:
        for name, request, wanted in refusals(server.origin):
            given = status(server.ask(request + closing(1000)))  # So that no player who was let in is waited for.
            count(name, given == wanted, f"{given}")
        page = server.ask(PAGE)
        count("the page", status(page) == 200 and not why_no_page(page), why_no_page(page))
        count("the page in pieces", in_pieces(server, PAGE) == page)
        count("one answer a connection", server.ask(PAGE * 2) == page)
        count("405 names GET and HEAD", b"\r\nAllow: GET, HEAD\r\n" in server.ask(head("POST / HTTP/1.1")))
        faults = wrong_fields(server)
        count("bodies and fields", not faults, "; ".join(faults))
        given, seconds = timed_out(server)
        is_timely = HEAD_SECONDS - 1 < seconds < HEAD_SECONDS + 3
        count("a slow head", given == 408 and is_timely, f"{given} after {seconds:.1f} s")
    why = why_not_bounded()
    count("one more than 32 heads at once", not why, why)


def why_not_bounded():
    """Returns what went wrong when 32 heads are begun and one more comes. The server must answer it, and send away the
    head that has waited longest."""
    with WebServer() as server:
        heads = []
        for _ in range(MOST_HEADS):
            heads.append(socket.create_connection((HOST, server.web_port)))
            heads[-1].sendall(b"G")
            time.sleep(QUICK)
        beyond = server.ask(PAGE)
        sent_away, _, _ = select.select(heads, [], [], QUICK)
        given = status(beyond), [heads.index(one) for one in sent_away]
        close_all(heads)
    return "" if given == (200, [0]) else f"{given}"


def close_all(some):
    for one in some:
        one.close()


# ---- sessions on the web

def why_not_together():
    """Returns what went wrong when one plays on the web and one by Telnet, or nothing if they meet."""
    with WebServer() as server:
        ann, bob = server.player(b"Ann"), Client(server.port)
        bob.send(b"connect Bob")
        heard = [plain(ann.line())]
        bob.send(b"say hello from Telnet")
        heard += [plain(ann.line())]
        ann.send(b"say hello from the web")
        lines = [plain(bob.line()) for _ in range(4)]
        ann.send(b"quit")
        heard += [plain(line) for line in ann.rest()]
        given = heard, ann.closed, lines
    return "" if given == (
        [b"Bob arrives.", b'Bob says, "hello from Telnet"', SAID, b"bye"], 1000,
        [GREETING, b"welcome #3", SAID, b'Ann says, "hello from the web"'],
    ) else f"{given}"


def why_not_stopped():
    """Returns what went wrong when the server ends while one plays on the web. The player must get a notice."""
    with WebServer(console=True) as server:
        ann = server.player(b"Ann")
        server.type(b"stop\n")
        lines, (ended, printed) = ann.rest(), server.end()
        given = lines[-1:], ann.closed, ended, printed.splitlines()[-1:]
    return "" if given == ([b"(server stops)"], 1001, 0, [b"end 1"]) else f"{given}"


def why_not_full():
    """Returns what went wrong when all places are taken. The server must turn one more away, and let it in later."""
    with WebServer() as server:
        taken = [server.player(b"P%d" % number, seconds=30) for number in range(PLACES)]
        beyond = server.dial()
        told = beyond.rest(), beyond.closed, beyond.reason
        beyond.close()
        taken.pop().close()
        is_free = is_soon(server.has_place, SECONDS)
        close_all(taken)
    given = told, is_free
    return "" if given == (([], 1013, b"server full"), True) else f"{given}"


def why_not_one_message_each():
    """Returns what went wrong with the messages of an answer. An answer is one message, and one longer than 65,536
    bytes is several of at most that length."""
    with WebServer() as server:
        ann = server.player(b"Ann")
        for number in range(LINES):
            ann.send(b"say %d" % number + b"x" * 800)
            ann.line()
        before = ann.messages
        ann.send(b"inventory nothing")
        answer = ann.line(), ann.messages - before
        before = ann.messages
        ann.send(b"@history")
        lines = [ann.line() for _ in range(1 + 1 + 1 + LINES + 1)]
        given = answer[1], ann.messages - before, plain(lines[0]), lines[-1], ann.longest <= MOST_SENT
    return "" if given == (1, 2, b"history", b"end %d" % (1 + LINES), True) else f"{given}"


def why_not_behind_a_proxy():
    """Returns what went wrong when the web listener has its own address and a free port, and its page the origin of a
    proxy. The server must let in a request with that origin, refuse any other origin, and not listen at another
    address."""
    words = ["--web-port", "0", "--web-address", OTHER_HOST, "--web-origin", PROXY]
    with Server(program("mud_serve"), words) as server:
        port = int(server.process.stdout.readline().removeprefix(b"web on "))
        requests = [upgrade(PROXY) + closing(1000), upgrade(f"http://{OTHER_HOST}:{port}")]
        given = [status(answered(port, one, host=OTHER_HOST)) for one in requests]
        try:
            answered(port, requests[0])
        except ConnectionRefusedError:
            given.append(None)
    return "" if given == [101, 403, None] else f"{given}"


@part("web-sessions", "players on the web and by Telnet in one hall, quit, a stop, a full server")
def web_sessions(count):
    for name, why_not in [
        ("together", why_not_together),
        ("the server stops", why_not_stopped),
        ("the server is full", why_not_full),
        ("one message for each answer", why_not_one_message_each),
        ("behind a proxy", why_not_behind_a_proxy),
    ]:
        count.tries(name, why_not)
