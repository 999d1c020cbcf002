"""Guests that would hold up a server, and how it answers each. They take all descriptors or all places, never give a
name, send no line, connect and leave, read nothing while much happens, block the log, or fill the history. Each row
plays one of them against the built server."""
import errno
import re
import resource
import socket
import subprocess
import time
from concurrent.futures import ThreadPoolExecutor

from harness.journal import FIRST, Place, ended, said
from harness.log_lines import strange
from harness.parts import part
from harness.preload import library
from harness.programs import program
from harness.server import HOST, LOGGED, Client, Server

GREETING = b"Welcome. Type: connect NAME"
SERVER_FULL, HISTORY_FULL, TOO_MANY = b"(server full)", b"(history full)", b"(too many sessions)"
OTHER_HOST = "127.0.0.2"
NOP = b"\xff\xf1"
LISTENING_FAULT = b"mud_serve: cannot listen\n"
NONE_FOR_NOW = "no-accept why="
NEARLY_FULL = re.compile(r"nearly-full changes=(\d+) most=(\d+)")

OF_SOME_DESK = rb"mud history 2\n1 (\d+) player #2 \"Ann\"\n2 \1 say #2 hi\nend 2\n"

# The greatest number of simultaneous sessions.
PLACES = 64
# The seconds within which an immediate effect must be seen, and those within which a limit of one second must take
# effect.
SOON, NOTICED = 2, (0.8, 2.5)
# The number of descriptors of a server, and the number of connections that it can't serve then.
DESCRIPTORS, WAITING = 24, 40
# Faults of accept after which the next call may succeed, and those after which none can.
PASSING = [errno.EMFILE, errno.ENFILE, errno.ENOBUFS, errno.ENOMEM, errno.ECONNABORTED, errno.EPROTO, errno.EPERM]
PASSING += [errno.ENETDOWN, errno.EHOSTUNREACH, errno.ETIMEDOUT, errno.EINTR, errno.EAGAIN, errno.EIO]
LASTING = [errno.EBADF, errno.EINVAL, errno.ENOTSOCK]
# The number of lines said while one client reads nothing, their number at once, and the longest time for another's
# answer.
SAID, PIECE, LONGEST_WAIT = 30_000, 500, 0.3
# How many times a player types for some seconds and stops, and the longest wait for the notice of that moment. With
# these silent guests beside, a player counts as typing for a millisecond after an answer.
STOPS, TYPED, NOTICE_WAIT, SILENT = 20, 0.3, 0.1, 30
# The number and the length of the texts in a history that is longer than a connection's buffer.
TEXTS, TEXT_LEN = 8_000, 890
# The number of connections while nobody reads the log.
VISITS = 1_500


def listening(*words, **how):
    return Server(program("mud_serve"), words, console=True, **how)


def greeted(port, seconds=10):
    """Returns a client that has read its greeting."""
    client = Client(port, seconds)
    line = client.line()
    if line != GREETING:
        raise ConnectionError(f"it is greeted by {line}")
    return client


def greeted_late(port):
    """Returns such a client, and tries again while the server is full."""
    while (client := Client(port)).line() == SERVER_FULL:
        client.close()
        time.sleep(0.02)
    return client


def named(port, name=b"Ann"):
    """Returns a client whose session is a player's."""
    client = greeted(port)
    client.send(b"connect " + name)
    answer = client.line()
    if b"welcome" not in answer:
        raise ConnectionError(f"it is answered {answer}")
    return client


def from_other_host(port):
    """Returns a client with another address."""
    client = Client.__new__(Client)
    client.socket = socket.create_connection((HOST, port), timeout=10, source_address=(OTHER_HOST, 0))
    client.kept = b""
    return client


def is_soon(condition, seconds=SOON):
    """Returns whether the condition becomes true within seconds."""
    end = time.monotonic() + seconds
    while time.monotonic() < end:
        if condition():
            return True
        time.sleep(0.02)
    return condition()


def stop(server):
    """Returns the result of a server that is stopped at its console."""
    server.type(b"stop\n")
    return server.end()


def parting(server, client):
    """Returns the end of a client's session, as the log names it, once it does."""
    host, port = client.socket.getsockname()
    return end_of(server, host, port)


def end_of(server, host, port):
    """Returns the end reason of the session of an address and port, once the log has it, or None."""
    mark = re.compile(rf"end session=[0-9]+ from={re.escape(host)}:{port} why=(\S+)")
    found = lambda: next(filter(None, map(mark.match, server.logged())), None)
    is_soon(lambda: found() is not None)
    return found() and found()[1]


def seconds_to_end(client, meanwhile=lambda: None, longest=10):
    """Returns the number of seconds after which the server ends the connection, or None if it does not."""
    began = time.monotonic()
    client.socket.settimeout(0.25)
    while time.monotonic() < began + longest:
        try:
            if client.line() is None:
                return time.monotonic() - began
        except TimeoutError:
            pass
        try:
            meanwhile()
        except ConnectionError:
            return time.monotonic() - began
    return None


def why_descriptors():
    """More clients connect than the server has descriptors: it continues, logs it once, and serves later ones."""
    few = lambda: resource.setrlimit(resource.RLIMIT_NOFILE, (DESCRIPTORS, DESCRIPTORS))
    with listening(preexec_fn=few) as server:
        crowd = [Client(server.port) for _ in range(WAITING)]
        if not is_soon(lambda: any(NONE_FOR_NOW in line for line in server.logged())):
            return "the log says nothing"
        time.sleep(0.5)
        told = sum(NONE_FOR_NOW in line for line in server.logged())
        for client in crowd:
            client.close()
        client = named(server.port)
        client.send(b"say hi")
        answer = client.line()
        given, unlike = stop(server), strange(server.logged())
        # the free desk depends on which client is served first
        is_whole = given[0] == 0 and re.fullmatch(OF_SOME_DESK, given[1])
        is_right = (answer, told, unlike) == (b"[2] said", 1, []) and is_whole
        return "" if is_right else f"{answer}, {told}, {given}, {unlike}"


def why_accept(number, times):
    """Accepting fails this many times with this number: the next client is served."""
    environment = {"LD_PRELOAD": library("fail_accept"), "ACCEPT_ERROR": str(number), "ACCEPT_TIMES": str(times)}
    with listening(environment=environment) as server:
        greeted(server.port).close()
        given = stop(server)
        return "" if given == (0, ended(FIRST)) else f"{given}"


def why_no_more(number):
    """Accepting can never succeed again: the history is written before the fault is reported."""
    environment = {"LD_PRELOAD": library("fail_accept"), "ACCEPT_ERROR": str(number), "ACCEPT_TIMES": "1000000"}
    with Server(program("mud_serve"), environment=environment) as server:
        given = server.end(), server.said().splitlines(keepends=True)[-1:]
        closed = [line for line in server.logged() if line.startswith("closed by=telnet why=")]
        is_logged = len(closed) == 1 and not strange(server.logged())
        return "" if given == ((3, ended(FIRST)), [LISTENING_FAULT]) and is_logged else f"{given}, {server.logged()}"


def why_per_address():
    """One address has reached its limit: one more client is refused and does not count, another address's is not."""
    with listening("--per-address", "2", "--total", "4") as server:
        first, second, third = greeted(server.port), greeted(server.port), Client(server.port)
        refused = third.line(), third.line()
        other = from_other_host(server.port)
        welcome = other.line()
        first.close()
        is_served = is_soon(lambda: Client(server.port).line() == GREETING)
        for client in (second, other):
            client.close()
        status, _ = server.end()
        given = refused, welcome, is_served, status
        return "" if given == ((TOO_MANY, None), GREETING, True, 0) else f"{given}"


def why_full():
    """All places are taken: one more client is told so. A client that leaves without a word, with unread output, makes
    room: the next one is served at its desk, as a guest."""
    with listening() as server:
        first, *_ = players = [named(server.port, b"P%d" % number) for number in range(PLACES)]
        beyond = Client(server.port)
        refused = beyond.line(), beyond.line()
        first.reset()
        late = greeted_late(server.port)
        late.send(b"look")
        late.send(b"connect Late")
        told = late.line(), late.line()
        status, printed = stop(server)
        given = refused, told, status, printed.splitlines()[1], printed.splitlines()[-2]
        del players
    return "" if given == (
        (SERVER_FULL, None), (b"[64] I couldn't understand that.", b"[65] welcome #66"),
        0, b'1 1 player #2 "P0"', b'65 1 player #66 "Late"',
    ) else f"{given}"


def why_unnamed():
    """A client that gives no name leaves its place; one that has given a name keeps it, also with the name of an old
    player."""
    with listening("--unnamed", "1") as server:
        player, nobody, old = named(server.port), greeted(server.port), greeted(server.port)
        old.send(b"connect Wizard")
        welcome = old.line()
        took = seconds_to_end(nobody, lambda: nobody.send(b"look"))
        word = parting(server, nobody)
        time.sleep(0.5)
        answers = []
        for client in (player, old):
            client.send(b"@version")
            answers.append(client.line())
        is_soon_enough = took is not None and NOTICED[0] < took < NOTICED[1]
        given = welcome, word, answers
        is_right = is_soon_enough and given == (b"[1] welcome #1", "unnamed", [b"[1] version"] * 2)
        return "" if is_right else f"{took}, {given}"


def why_idle(sent):
    """With `--idle 1` a client that sends this four times a second is ended, and one that sends lines is not."""
    with listening("--idle", "1") as server:
        player, silent = named(server.port), greeted(server.port)

        def both():
            player.send(b"@version")
            player.line()
            silent.give(sent)

        took = seconds_to_end(silent, both)
        word = parting(server, silent)
        is_right = took is not None and NOTICED[0] < took < NOTICED[1] and word == "idle"
        return "" if is_right else f"{took}, {word}"


def why_unprobed():
    """The system probes whether the other side is there: at first within a minute."""
    with listening() as server:
        client = greeted(server.port)
        local, remote = f"{server.port:04X}", f"{client.socket.getsockname()[1]:04X}"
        if not is_soon(lambda: timer(local, remote)[0] == "02"):
            return f"no timer runs: {timer(local, remote)}"
        left = int(timer(local, remote)[1], 16) / 100
        return "" if 0 < left <= 60 else f"it asks after {left} s"


def timer(local, remote):
    """Returns the timer of a connection that runs in the system, and its remaining time, in hundredths of a second."""
    with open("/proc/net/tcp", encoding="ascii") as file:
        for row in file.read().splitlines()[1:]:
            words = row.split()
            if words[1].endswith(f":{local}") and words[2].endswith(f":{remote}"):
                return words[5].split(":")
    return "none", "0"


def is_refused(port):
    """Returns whether the system refuses a connection."""
    try:
        Client(port).close()
    except ConnectionRefusedError:
        return True
    return False


def why_total():
    """Once the total has begun, the system refuses new connections, and the players continue."""
    with listening("--total", "1") as server:
        player = named(server.port)
        was_refused = is_soon(lambda: is_refused(server.port))
        player.send(b"quit")
        answer, (status, _) = player.line(), server.end()
        given = was_refused, answer, status
        return "" if given == (True, b"[1] bye", 0) else f"{given}"


def why_counted():
    """With `--count-players` a client that leaves as a guest does not count; one that becomes a player counts once."""
    with listening("--total", "2", "--count-players") as server:
        for _ in range(5):
            greeted(server.port).close()
        one = named(server.port, b"Ann")
        one.send(b"say hi")
        goes_on = one.line() == b"[2] said" and not is_refused(server.port)
        other = named(server.port, b"Bob")
        was_refused = is_soon(lambda: is_refused(server.port))
        for client in (one, other):
            client.send(b"quit")
        status, _ = server.end()
        given = goes_on, was_refused, status
        return "" if given == (True, True, 0) else f"{given}"


def say_much(client):
    """Says this much, and reads each answer."""
    for _ in range(SAID // PIECE):
        client.give(b"say hello\r\n" * PIECE)
        answered = 0
        while answered < PIECE:
            answered += b"said" in client.line()


def why_behind():
    """A client that has read nothing for long types a line: it catches up without delaying another."""
    with listening() as server:
        late, one, other = named(server.port, b"Late"), named(server.port, b"Ann"), named(server.port, b"Bob")
        other.close()
        late.socket.setsockopt(socket.SOL_SOCKET, socket.SO_RCVBUF, 4096)
        say_much(one)
        late.send(b"say late")
        waits = []
        for _ in range(50):
            began = time.monotonic()
            one.send(b"say on")
            while b"said" not in one.line():
                pass
            waits.append(time.monotonic() - began)
            time.sleep(0.01)
        return "" if max(waits) < LONGEST_WAIT else f"another waits for {max(waits)} s"


def type_on(client, seconds):
    """Types questions for this many seconds, each after the last answer."""
    end = time.monotonic() + seconds
    while time.monotonic() < end:
        client.send(b"@version")
        while b"version" not in client.line():
            pass


def wait_for(client, text):
    """Returns the seconds until a client has read a line with this text."""
    began = time.monotonic()
    while text not in client.line():
        pass
    return time.monotonic() - began


def why_late():
    """A player types without a pause, and stops. A line said at that moment comes soon, though nobody says more."""
    with listening() as server:
        silent = [greeted(server.port) for _ in range(SILENT)]
        one, other = named(server.port, b"Ann"), named(server.port, b"Bob")
        waits = []
        for number in range(STOPS):
            other.send(b"say begin")
            type_on(one, TYPED)
            one.send(b"@version")
            other.send(b"say end %d" % number)
            waits.append(wait_for(one, b"end %d" % number))
        for client in silent:
            client.close()
        return "" if max(waits) < NOTICE_WAIT else f"the notice comes after {max(waits):.3f} s"


def why_stop_within():
    """The server stops while a long text is sent: the reason comes after the text, or not at all."""
    with listening() as server:
        writer = named(server.port)
        for _ in range(TEXTS // PIECE):
            writer.give((b"say " + b"x" * TEXT_LEN + b"\r\n") * PIECE)
            answered = 0
            while answered < PIECE:
                answered += b"said" in writer.line()
        player = named(server.port, b"Bob")
        player.socket.setsockopt(socket.SOL_SOCKET, socket.SO_RCVBUF, 65_536)
        player.send(b"@history")
        player.more()
        server.type(b"stop\n")
        time.sleep(0.3)
        while player.more():
            pass
        status, _ = server.end()
        before, words, after = player.kept.partition(b"(server stops)")
        is_after = before.endswith(b"\r\nend %d\r\n" % (TEXTS + 2)) and after == b"\r\n"
        given = status, is_after or not words
        return "" if given == (0, True) else f"{given}, {before[-20:]}"


def why_log():
    """Nobody reads the log: all clients are served, and the next lines written say how many were dropped."""
    with listening(errors=subprocess.PIPE) as server:
        for _ in range(VISITS):
            greeted(server.port).close()
        with ThreadPoolExecutor() as threads:
            reading = threads.submit(server.process.stderr.read)
            server.type(b"stop\n")
            status, text = server.process.wait(timeout=10), reading.result(timeout=10)
        lines = text.splitlines()
        dropped = [int(count) for count in re.findall(rb"Z dropped lines=(\d+)$", text, re.MULTILINE)]
        told = sum(b"Z begin " in line or b"Z end " in line for line in lines)
        is_right = status == 0 and dropped and told + sum(dropped) == 2 * VISITS
        is_right &= not strange([line.decode() for line in LOGGED.findall(text)])
        return "" if is_right else f"status {status}, {told} lines, {dropped} dropped, of {2 * VISITS}"


def why_partings():
    """The log names the end of each session."""
    with listening() as server:
        quits, closes, resets, stays = (named(server.port, name) for name in (b"Ann", b"Bob", b"Cid", b"Dan"))
        quits.send(b"quit")
        closes.close_half()
        resets.reset()
        words = [parting(server, client) for client in (quits, closes)]
        server.type(b"stop\n")
        status, _ = server.end()
        words.append(parting(server, stays))
        given = words, sum(" why=left" in line for line in server.logged()), status
        return "" if given == (["left", "left", "server-stops"], 3, 0) else f"{given}"


def warned(server):
    """Returns the numbers in the log's warnings that the history is nearly full."""
    found = filter(None, map(NEARLY_FULL.fullmatch, server.logged()))
    return [tuple(map(int, numbers.groups())) for numbers in found]


def why_nearly_full():
    """A client fills the history of a server without a journal: the log warns at nine tenths, once, and again after a
    restart. With a journal the server turns (`volumes`)."""
    with Place() as place:
        with open(place.whole, "wb") as file:
            file.write(ended(said(7)))
        words = ["--capacity", "10", "--load", place.whole]
        with Server(program("mud_serve"), words, console=True) as server:
            client, answers = named(server.port), []
            for _ in range(3):
                client.send(b"say on")
                answers.append(client.line())
            (status, printed), warnings = stop(server), warned(server)
        with open(place.whole, "wb") as file:
            file.write(printed)
        with Server(program("mud_serve"), words, console=True) as server:
            second = stop(server)[0], warned(server)
    wanted = ([b"[9] said", b"[10] said", HISTORY_FULL], 0, [(9, 10)]), (0, [(10, 10)])
    first = answers, status, warnings
    return "" if (first, second) == wanted else f"{first}, {second}"


@part("guests", "guests who would hold up a server hold nobody, and the log names what ended each")
def guests(count):
    def show(what, why_not, *given):
        count.tries(f"guests: {what}", why_not, *given)

    show("more come than there are descriptors", why_descriptors)
    for number in PASSING:
        show(f"calls for a connection fail by {errno.errorcode[number]}", why_accept, number, 5)
    for number in LASTING:
        show(f"no call gives a connection any more, by {errno.errorcode[number]}", why_no_more, number)
    show("all places are taken", why_full)
    show("one address has as many sessions as it may", why_per_address)
    show("one does not say who he is", why_unnamed)
    rows = [("nothing", b""), ("requests", NOP), ("a line without an end", b"x"), ("parts of requests", b"\xff\xfaxx")]
    for what, sent in rows:
        show(f"with --idle one sends {what}", why_idle, sent)
    show("the system asks whether a peer is there", why_unprobed)
    show("one comes behind the total", why_total)
    show("those who leave unnamed don't count", why_counted)
    show("one reads nothing while much is said", why_behind)
    show("one stops typing, and another speaks once", why_late)
    show("a long text is sent at a stop", why_stop_within)
    show("nobody reads the log", why_log)
    show("the log names what ended a session", why_partings)
    show("one fills the history", why_nearly_full)
