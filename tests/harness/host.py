"""The host's part of a server: orders of the console, announcements, bans, health and metrics, the log, and the
settings file. The expected texts are those of docs/HOSTING.md and docs/SERVER.md.
"""
import contextlib
import glob
import http.client
import json
import os
import re
import select
import shutil
import socket
import stat
import subprocess
import tempfile
import threading
import time

from harness.guests import OTHER_HOST, PLACES, is_soon
from harness.hosted import SECONDS, Console, Hosted, come, lines_until, mute
from harness.inputs import read
from harness.journal import FIRST, ended
from harness.log_lines import log_forms, strange
from harness.networks import FOUR, FOUR_TOO, HERE, HERE_TOO, THERE, dialled, first_line, in_network
from harness.parts import part
from harness.preload import library
from harness.programs import TOP, program
from harness.server import HOST, Client, Server
from harness.web import WebServer

TIME = r"[0-9]{4}-[0-9]{2}-[0-9]{2}T[0-9]{2}:[0-9]{2}:[0-9]{2}Z"
# An option in a text of help.
OPTION = re.compile(r"^ +(?:-\w, )?--([\w-]+)", re.M)
NO_ORDER = "error no such order: help tells them"
# The words of the console, and the names of its lines of `status`.
WORDS = "status sessions end ban unban bans tell stop stay volume reopen help".split()
NAMES = """version since health changes changes_most synced objects objects_most sessions sessions_most players begun
refused_full refused_address refused_banned refused_often refused_request lines made waited volume changes_taken turns
turns_called_off turn_pause_ms""".split()


# A shell that starts a program whose files have at most 4,096 bytes. Python ignores the signal of that limit, and so
# does the program.
LIMITED_FILES = ["sh", "-c", 'ulimit -f 8 && exec "$@"', "sh"]


# ---- orders

def why_words():
    """Each order is answered, and so is each line that is not one."""
    with Hosted() as hosted, hosted.console() as console:
        help_lines = console.ask("help")
        told = {line.split()[0] for line in help_lines[:-1]}
        if told != set(WORDS):
            return f"help tells {told}"
        wrong = ["", "halt", "STATUS", "status now", "end", "end x", "end +1", "end 4294967296", "ban", "tell"]
        wrong += ["stop at 1", "stop in", "stop in -1", "stay here", "x" * 5_000]
        given = [console.ask(line)[-1] for line in wrong]
        refused = [line for line, answer in zip(wrong, given) if answer != NO_ORDER]
        fine = [("end 64", "error no session 64"), ("ban here", "error no address or network: here"),
                ("ban 192.0.2.1/24", "error no address or network: 192.0.2.1/24"), ("ban ::ffff:192.0.2.1",
                 "error no address or network: ::ffff:192.0.2.1"), ("unban 192.0.2.1", "error not banned: 192.0.2.1"),
                ("stay", "error no stop was announced"), ("volume", "error there is no journal"), ("  bans  ", "ok"),
                ("reopen", "ok"), ("tell hi\r", "ok")]
        unlike = [(line, console.ask(line)[-1]) for line, answer in fine if (console.ask(line)[-1]) != answer]
        return "" if not refused and not unlike else f"{refused}, {unlike}"


def why_longest():
    """An order has at most 1,024 bytes."""
    with Hosted() as hosted, hosted.console() as console:
        given = [console.ask("bans".ljust(length)) for length in (1_024, 1_025, 1_024)]
        return "" if given == [["ok"], [NO_ORDER], ["ok"]] else f"{given}"


def why_status():
    """`status` prints each number as it is."""
    with Hosted("--capacity", "5", "--per-address", "2") as hosted, hosted.console() as console:
        before = console.status()
        ann, guest = come(hosted.server.port, b"Ann"), Client(hosted.server.port)
        ann.send(b"say hi")
        ann.line()
        Client(hosted.server.port).line()
        after = console.status()
        ann.send_all([b"say hi"] * 4)
        for _ in range(4):
            ann.line()
        full = console.status()
        guest.close()
        wanted = {"version": before["version"], "health": "ok", "changes": "2", "changes_most": "5", "synced": "0",
                  "objects": "3", "objects_most": "8192", "sessions": "2", "sessions_most": "64", "players": "1",
                  "begun": "1", "refused_full": "0", "refused_address": "1", "refused_banned": "0",
                  "refused_often": "0", "refused_request": "0", "lines": "2", "made": "2", "waited": "0",
                  "volume": "1", "changes_taken": "0", "turns": "0", "turns_called_off": "0", "turn_pause_ms": "0",
                  "since": before["since"]}
        is_right = [*before] == NAMES and after == wanted and full["health"] == "history-full"
        is_right &= re.fullmatch(TIME, before["since"]) is not None and full["changes"] == "5" == full["made"]
        return "" if is_right else f"{before}, {after}, {full}"


def why_sessions():
    """`sessions` has a line for each session: its player, its address, the time of its start, and its silence."""
    with Hosted(kind=WebServer) as hosted, hosted.console() as console:
        ann = come(hosted.server.port, b"Ann")
        bob = hosted.server.player(b"Bob")
        ports = [client.socket.getsockname()[1] for client in (ann, bob)]
        time.sleep(1.2)
        given = console.ask("sessions")
        wanted = [rf'session 1 telnet {HOST}:{ports[0]} since {TIME} idle [1-9] #2 "Ann"',
                  rf'session 2 web {HOST}:{ports[1]} since {TIME} idle [1-9] #3 "Bob"', "ok"]
        is_right = len(given) == 3 and all(map(re.fullmatch, wanted, given))
        begun = [f"begin session={at} from={HOST}:{ports[at - 1]} by={by}" for at, by in ((1, "telnet"), (2, "web"))]
        is_logged = is_soon(lambda: [line for line in hosted.log() if line.startswith("begin ")] == begun)
        return "" if is_right and is_logged else f"{given}, {hosted.log()}"


def why_end():
    """`end N` ends that session and no other, by Telnet and on the web."""
    with Hosted(kind=WebServer) as hosted, hosted.console() as console:
        ann, cid = come(hosted.server.port, b"Ann"), come(hosted.server.port, b"Cid")
        bob = hosted.server.player(b"Bob")
        given = [console.ask(f"end {number}") for number in (1, 3)]
        read = [lines_until(client, b"(ended by the host)")[-1] for client in (ann, bob)]
        bob.rest()
        ends = ann.line(), bob.closed
        bob.close()
        cid.send(b"say still here")
        goes_on = lines_until(cid, b"[4] said")[-1] is not None
        said = is_soon(lambda: sum(" why=ended " in line for line in hosted.log()) == 2)
        right = ([["ok"]] * 2, [b"(ended by the host)"] * 2, (None, 1000), True, True)
        result = given, read, ends, goes_on, said
        return "" if result == right else f"{result}, {hosted.log()}"


def why_end_held():
    """`end N` also ends a session that sends without end and reads nothing, within ten seconds."""
    with Hosted() as hosted, hosted.console() as console:
        client = mute(hosted.server.port)
        began = time.monotonic()
        given = console.ask("end 1")
        gone = is_soon(lambda: console.ask("sessions") == ["ok"], seconds=15)
        took = time.monotonic() - began
        client.close()
        return "" if given == ["ok"] and gone and took < 10 else f"{given}, {gone}, {took:.1f} s"


def why_tell():
    """Each player reads each announcement once, and between two texts: talking, listening, and on the web."""
    with Hosted(kind=WebServer) as hosted, hosted.console() as console:
        clients = [come(hosted.server.port, b"Ann"), hosted.server.player(b"Bob"), come(hosted.server.port, b"Cid")]
        talks = threading.Thread(target=lambda: clients[0].send_all([b"say %d" % at for at in range(300)]))
        talks.start()
        for at in range(10):
            console.ask(f"tell number {at}")
        talks.join()
        console.ask("tell last")
        wanted = [b"(host: number %d)" % at for at in range(10)] + [b"(host: last)"]
        for client in clients:
            lines = lines_until(client, b"(host: last)")
            if [line for line in lines if line and line.startswith(b"(host")] != wanted:
                return f"it reads {[line for line in lines if line and b'host' in line]}, and at last {lines[-1]}"
            if any(b"(host" in line and line not in wanted for line in lines if line):
                return f"a text is cut: {lines}"
        late = Client(hosted.server.port)
        read = [late.line()]
        console.ask("tell late")
        read += lines_until(late, b"(host: late)")
        return "" if read == [b"Welcome. Type: connect NAME", b"(host: late)"] else f"who comes later reads {read}"


def why_tell_texts():
    """A text is announced unchanged, and one that players could not read is refused."""
    with Hosted() as hosted, hosted.console() as console:
        ann = come(hosted.server.port, b"Ann")
        told = ["a", "(5) Bob says, \"hi\"", "~" * 900]
        given = [console.ask(f"tell {text}")[-1] for text in told]
        read = [ann.line() for _ in told]
        refused = [console.ask(f"tell {text}")[-1] for text in ("~" * 901, "gr\u00fcn", "a\tb")]
        right = ["ok"] * 3, [f"(host: {text})".encode() for text in told], [NO_ORDER] * 3
        return "" if (given, read, refused) == right else f"{given}, {read}, {refused}"


def stuck(port, console, lines=300):
    """Returns a client that reads nothing, once the server waits to send it the long answers to some of its lines."""
    client, says, before = Client(port), [b"say " + b"x" * 800] * 50, -1
    client.send_all([b"connect Wizard", *says, *[b"@history"] * lines])

    def is_stuck():
        nonlocal before
        time.sleep(0.3)
        before, answered = int(console.status()["lines"]), before
        return answered == before and len(says) < answered < len(says) + lines

    if not is_soon(is_stuck, SECONDS):
        raise AssertionError("all its lines are answered")
    return client


def why_tell_kept():
    """A player who reads nothing gets the latest 64 announcements later, in order."""
    with Hosted() as hosted, hosted.console() as console:
        client = stuck(hosted.server.port, console)
        for at in range(100):
            console.ask(f"tell number {at}")
        came = b""
        while b"(host: number 99)\r\n" not in came[-100_000:] and (some := client.socket.recv(65_536)):
            came += some
        client.close()
        told = [int(number) for number in re.findall(rb"^\(host: number (\d+)\)\r$", came, re.MULTILINE)]
        return "" if told == [*range(36, 100)] else f"{told}, {came[-200:]}"


def why_stop_told():
    """`stop in N` announces the stop at once, and again with 300 and 60 seconds left; a second one replaces it."""
    with Hosted() as hosted, hosted.console() as console:
        ann, read = come(hosted.server.port, b"Ann"), []
        for order, count in (("stop in 301", 2), ("stop in 61", 2), ("stay", 1)):
            console.ask(order)
            read += [ann.line() for _ in range(count)]
        wanted = [b"(server stops in %d seconds)" % left for left in (301, 300, 61, 60)] + [b"(server stays)"]
        return "" if read == wanted else f"{read}"


def why_stop_in():
    """`stop in N` announces the stop, and stops the server in time; `stay` cancels it."""
    with Hosted() as hosted, hosted.console() as console:
        ann = come(hosted.server.port, b"Ann")
        given = [console.ask("stop in 61"), console.ask("stay"), console.ask("stop in 12")]
        began = time.monotonic()
        read = [ann.line() for _ in range(4)]
        took = time.monotonic() - began
        console.ask("stop in 1")
        read += [ann.line() for _ in range(3)]
        status, _ = hosted.server.end()
        whole = time.monotonic() - began
        wanted = [b"(server stops in 61 seconds)", b"(server stays)", b"(server stops in 12 seconds)",
                  b"(server stops in 10 seconds)", b"(server stops in 1 second)", b"(server stops)", None]
        is_right = read == wanted and 1.5 < took < 3 and whole - took < 5 and (given, status) == ([["ok"]] * 3, 0)
        return "" if is_right else f"{given}, {read}, {took:.1f} s, {whole:.1f} s, {status}"


# ---- bans

def why_bans():
    """A ban ends the sessions of its network, closes its connections silently, and is kept in the file."""
    with Hosted("--address", "0.0.0.0") as hosted, hosted.console() as console:
        port = hosted.server.port
        others = [socket.create_connection((HOST, port), source_address=(f"127.0.0.{at}", 0)) for at in (2, 3, 130)]
        for one in others:
            one.settimeout(SECONDS)
            one.recv(100)
        given = console.ask("ban 127.0.0.0/25"), console.ask("ban 127.0.0.200"), console.ask("ban 2001:db8::/32")
        read = [one.recv(100) for one in others[:2]]
        others[2].sendall(b"@version\r\n")
        read.append(others[2].recv(100)[:3])
        refused = []
        for at in (9, 200, 131):
            with socket.create_connection((HOST, port), source_address=(f"127.0.0.{at}", 0), timeout=SECONDS) as one:
                with contextlib.suppress(ConnectionError):
                    refused.append(one.recv(100)[:7])
        bans = console.ask("bans")
        with open(hosted.path("bans")) as file:
            kept = file.read()
        mode = stat.S_IMODE(os.stat(hosted.path("bans")).st_mode)
        console.ask("unban 127.0.0.0/25")
        with open(hosted.path("bans")) as file:
            left = file.read()
        counted = console.status()["refused_banned"]
        wanted = ["ban 127.0.0.0/25", "ban 127.0.0.200", "ban 2001:db8::/32", "ok"]
        text = "127.0.0.0/25\n127.0.0.200\n2001:db8::/32\n"
        told = [b"(ended by the host)\r\n"] * 2 + [b"[0]"]
        right = (([["ok"]] * 3), told, [b"", b"", b"Welcome"], wanted, text, 0o600)
        is_right = (list(given), read, refused, bans, kept, mode) == right and counted == "2"
        is_right &= left == "127.0.0.200\n2001:db8::/32\n"
        return "" if is_right else f"{given}, {read}, {refused}, {bans}, {kept!r}, {mode:o}, {left!r}, {counted}"


def why_bans_of_both():
    """A ban of an IPv6 network ends its sessions and no others, and one of an IPv4 address holds at the same port."""
    with Hosted("--address", "::") as hosted, hosted.console() as console:
        port = hosted.server.port
        sources = [HERE, HERE_TOO, THERE, FOUR, FOUR_TOO]
        guests = [dialled(FOUR if source in (FOUR, FOUR_TOO) else HERE, port, source) for source in sources]
        with contextlib.ExitStack() as open_ones:
            for one in guests:
                open_ones.enter_context(one)
                one.recv(100)
            peers = [f"{source if source in (FOUR, FOUR_TOO) else f'[{source}]'}:{one.getsockname()[1]}"
                     for source, one in zip(sources, guests)]
            listed = [line.split()[3] for line in console.ask("sessions")[:-1]]
            given = console.ask("ban 2001:db8:0:1::/64"), console.ask(f"ban {FOUR}")
            ended = [guests[at].recv(100) for at in (0, 1, 3)]
            for at in (2, 4):
                guests[at].sendall(b"@version\r\n")
            goes_on = [guests[at].recv(100)[:3] for at in (2, 4)]
        banned = [first_line(HERE, port, HERE_TOO), first_line(FOUR, port, FOUR)]
        free = [first_line(HERE, port, THERE)[:7], first_line(FOUR, port, FOUR_TOO)[:7]]
        result = listed == peers, [*given], ended, goes_on, banned, free
        right = True, [["ok"]] * 2, [b"(ended by the host)\r\n"] * 3, [b"[0]"] * 2, [b""] * 2, [b"Welcome"] * 2
        return "" if result == right else f"{listed}, {result}"


def why_bans_read():
    """A server reads the file of its bans, as an editor may leave it, and names a wrong line."""
    with tempfile.TemporaryDirectory() as folder:
        path = os.path.join(folder, "bans")
        with open(path, "w") as file:
            file.write("192.0.2.0/24\n\n 127.0.0.0/8 \r\n192.0.2.0/24\n::1")
        with Server(program("mud_serve"), ["--bans", path], console=True) as server:
            refused = Client(server.port).line()
            server.type(b"bans\n")
            is_soon(lambda: b"ok\n" in server.said())
            given = server.said()
        with open(path, "w") as file:
            file.write("192.0.2.0/24\nlocalhost\n")
        with Server(program("mud_serve"), ["--bans", path]) as server:
            status, said = server.process.wait(timeout=SECONDS), server.said()
        right = None, b"ban 192.0.2.0/24\nban 127.0.0.0/8\nban ::1\nok\n", 3
        told = b"mud_serve: cannot read the bans: line 2 is no address or network\n"
        return "" if ((refused, given, status), said) == (right, told) else f"{refused}, {given}, {status}, {said}"


def why_bans_most():
    """There are at most 4,096 bans, at the console and in the file, and the file is no longer than they can be."""
    lines, given = [f"10.{at // 256}.{at % 256}.0/24\n" for at in range(4_097)], []
    with tempfile.TemporaryDirectory() as folder:
        path = os.path.join(folder, "bans")
        for text in ("".join(lines[:-1]), "".join(lines), "\n" * 2_000_000):
            with open(path, "w") as file:
                file.write(text)
            with Server(program("mud_serve"), ["--bans", path], console=True) as server:
                if server.port:
                    server.type(b"ban 192.0.2.1\nban 10.0.0.0/24\nunban 10.0.0.0/24\nban 192.0.2.1\n")
                    is_soon(lambda: server.said().count(b"\n") == 4)
                    given.append(server.said())
                    with open(path) as file:
                        given.append(file.read() == "".join([*lines[1:-1], "192.0.2.1\n"]))
                else:
                    given.append((server.process.wait(timeout=SECONDS), server.said()))
    told = b"mud_serve: cannot read the bans: %s\n"
    right = [b"error too many bans\nok\nok\nok\n", True, (3, told % b"too many bans"), (3, told % b"too long")]
    return "" if given == right else f"{given}"


def why_bans_unwritten():
    """A ban that can't be written to its file holds until the end, and the console says so."""
    with tempfile.TemporaryDirectory() as folder:
        path = os.path.join(folder, "there", "bans")
        os.mkdir(os.path.dirname(path))
        control = os.path.join(folder, "control")
        words = ["--bans", path, "--control", control]
        with Server(program("mud_serve"), words) as server, Console(control) as console:
            os.rmdir(os.path.dirname(path))
            given = console.ask("ban 127.0.0.1")
            bans, line = console.ask("bans"), Client(server.port).line()
        is_told = given[0].startswith(f"error it holds until the end, but {path} can't be written: ")
        return "" if is_told and (bans, line) == (["ban 127.0.0.1", "ok"], None) else f"{given}, {bans}, {line}"


def why_bans_kept():
    """A server that is killed while it writes bans leaves a file of whole lines, with all bans that it answered."""
    with Hosted() as hosted:
        done = []

        def ban():
            with contextlib.suppress(OSError), hosted.console() as console:
                for at in range(60_000):
                    if console.ask(f"ban 10.{at // 256}.{at % 256}.0/24")[-1] != "ok":
                        return
                    done.append(at)

        banning = threading.Thread(target=ban)
        banning.start()
        time.sleep(0.4)
        hosted.server.kill()
        banning.join()
        with open(hosted.path("bans")) as file:
            kept = file.read().splitlines()
        wanted = [f"10.{at // 256}.{at % 256}.0/24" for at in done]
        is_right = done and kept[: len(wanted)] == wanted and len(kept) <= len(wanted) + 1
        return "" if is_right else f"{len(done)} answered, {len(kept)} kept"


# ---- the control socket

def why_socket():
    """Only its owner can use the socket. It is taken over from a dead server, refused if in use, and removed."""
    with Hosted() as hosted:
        path = hosted.path("control")
        mode = os.stat(path).st_mode
        with Server(program("mud_serve"), ["--control", path]) as second:
            in_use = second.process.wait(timeout=SECONDS), second.said()
        with Server(program("mud_serve"), ["--control", hosted.path("log")]) as third:
            no_socket = third.process.wait(timeout=SECONDS), third.said()
        hosted.server.kill()
        with Server(program("mud_serve"), ["--control", path]) as fourth:
            with Console(path) as console:
                answer = console.ask("stop")
            status, _ = fourth.end()
        given = stat.S_ISSOCK(mode), stat.S_IMODE(mode), in_use, no_socket, answer, status, os.path.exists(path)
        told = b"mud_serve: cannot open the control socket: %s\n"
        right = True, 0o600, (3, told % b"in use"), (3, told % b"not a socket"), ["ok"], 0, False
        return "" if given == right else f"{given}"


def why_consoles():
    """Many consoles at once are answered. One that reads nothing and one that sends no line end delay no other, and
    several orders in one piece are answered in order.
    """
    with Hosted() as hosted:
        deaf, mute, many = hosted.console(), hosted.console(), [hosted.console() for _ in range(8)]
        deaf.socket.settimeout(0.5)
        with contextlib.suppress(OSError):
            while True:
                deaf.send("help\n" * 1_000)
        mute.socket.sendall(b"sta")
        for console in many:
            console.send("status\nbans\nhalt")
        given = [[console.answer() for _ in range(3)] for console in many]
        mute.socket.sendall(b"tus\n")
        wanted = [["ok"], [NO_ORDER]]
        is_right = all(len(one[0]) == len(NAMES) + 1 and one[1:] == wanted for one in given)
        is_right &= len(mute.answer()) == len(NAMES) + 1
        status, _ = hosted.stop()
        return "" if is_right and status == 0 else f"{given[0]}, {status}"


def why_hour():
    """A console that is silent for an hour is closed, and no sooner; one with an order now and then stays. A library
    makes the hour two seconds.
    """
    environment = {"LD_PRELOAD": library("short_hour"), "HOUR_MILLISECONDS": "2000"}
    with Hosted(environment=environment) as hosted, hosted.console() as lively, hosted.console() as silent:
        given, began = [silent.ask("bans")], time.monotonic()
        silent.socket.sendall(b"ba")
        while not select.select([silent.socket], [], [], 0.2)[0] and time.monotonic() < began + SECONDS:
            given.append(lively.ask("bans"))
        took, end = time.monotonic() - began, silent.socket.recv(100)
        given += [lively.ask("bans")]
        with hosted.console() as late:
            given.append(late.ask("bans"))
        status, _ = hosted.stop()
        is_right = len(given) > 6 and given == [["ok"]] * len(given) and (end, status) == (b"", 0) and 1.9 < took < 4
        return "" if is_right else f"{given}, {end}, {took:.1f} s, {status}"


# ---- health and metrics

def metric_of(text, name):
    """Returns the value of a metric in a text."""
    found = re.search(rf"^{re.escape(name)} ([0-9]+)$", text, re.MULTILINE)
    return found and found[1]


def why_health():
    """Health is 200 while the server is well, and 503 with a word otherwise."""
    with Hosted("--capacity", "2") as hosted, hosted.console() as console:
        well = hosted.get("/health"), hosted.get("/health", "HEAD")
        come(hosted.server.port, b"Ann").send(b"say hi")
        is_soon(lambda: console.status()["changes"] == "2")
        full = hosted.get("/health")
        given = [(status, body) for status, _, body in (*well, full)]
        right = [(200, "ok\n"), (200, ""), (503, "history-full\n")]
        return "" if given == right and well[1][1]["Content-Length"] == "3" else f"{given}, {well[1]}"


def why_unwell():
    """While sessions end, health names a stop, or the fault of a journal."""
    with Hosted() as hosted, hosted.console() as console:
        client = mute(hosted.server.port)
        console.ask("stop")
        stopping = is_soon(lambda: hosted.get("/health")[::2] == (503, "stopping\n"))
        client.close()
    with tempfile.TemporaryDirectory() as folder:
        words = ["--journal", os.path.join(folder, "journal")]
        with Hosted(*words, by=LIMITED_FILES, restore_signals=False) as hosted:
            client, ann = mute(hosted.server.port), come(hosted.server.port, b"Ann")
            ann.send_all([b"say " + b"x" * 800] * 6)
            last = lines_until(ann, b"(journal fault)")[-1]
            failed = is_soon(lambda: hosted.get("/health")[::2] == (503, "journal-fault\n"))
            client.close()
    given = stopping, last, failed
    return "" if given == (True, b"(journal fault)", True) else f"{given}"


def why_there():
    """The status port is that of its address, and of no other."""
    with Hosted("--status-address", OTHER_HOST) as hosted:
        port = hosted.status_port()
        connection = http.client.HTTPConnection(OTHER_HOST, port, timeout=SECONDS)
        connection.request("GET", "/health")
        with contextlib.closing(connection):
            there = connection.getresponse().status
        with contextlib.closing(socket.socket()) as one:
            here = one.connect_ex((HOST, port))
        return "" if there == 200 and here != 0 else f"{there}, {here}"


def why_refused():
    """A connection without a place, and a browser's request by Telnet, are counted and logged."""
    with Hosted() as hosted, hosted.console() as console:
        asks = Client(hosted.server.port)
        asks.give(b"GET / HTTP/1.1\r\n")
        lines_until(asks, None)
        time.sleep(1.1)
        crowd = [Client(hosted.server.port) for _ in range(PLACES)]
        for client in crowd:
            client.line()
        full = Client(hosted.server.port).line()
        stands = console.status()
        wanted = {f"refused from={HOST} why={why} count=1" for why in ("request", "full")}
        logged = is_soon(lambda: wanted <= {*hosted.log()})
        for client in crowd:
            client.close()
        given = full, stands["refused_request"], stands["refused_full"], stands["sessions"], logged
        return "" if given == (b"(server full)", "1", "1", str(PLACES), True) else f"{given}, {hosted.log()}"


def why_targets():
    """Other targets, methods and bytes get their HTTP status."""
    with Hosted() as hosted:
        given = [hosted.get(*what)[0] for what in (("/",), ("/metrics?x=1",), ("/health/",), ("/metrics", "POST"))]
        with socket.create_connection((HOST, hosted.status_port()), timeout=SECONDS) as one:
            one.sendall(b"hello\r\n\r\n")
            broken = one.recv(100)[:12]
        return "" if (given, broken) == ([404, 200, 404, 405], b"HTTP/1.1 400") else f"{given}, {broken}"


def why_metrics():
    """The metrics are the numbers of `status`, in the format of Prometheus."""
    with Hosted() as hosted, hosted.console() as console:
        ann = come(hosted.server.port, b"Ann")
        ann.send(b"say hi")
        ann.line()
        status, fields, text = hosted.get("/metrics")
        stands = console.status()
        pairs = {"mud_changes": "changes", "mud_changes_most": "changes_most", "mud_synced_changes": "synced",
                 "mud_objects": "objects", "mud_objects_most": "objects_most", "mud_sessions": "sessions",
                 "mud_sessions_most": "sessions_most", "mud_players": "players", "mud_sessions_begun_total": "begun",
                 "mud_lines_total": "lines", "mud_changes_made_total": "made", "mud_lines_waited_total": "waited",
                 "mud_volume": "volume", "mud_changes_taken": "changes_taken", "mud_turns_total": "turns",
                 "mud_turns_called_off_total": "turns_called_off"}
        pairs |= {f'mud_refused_total{{why="{why}"}}': f"refused_{why}"
                  for why in ("full", "address", "banned", "often", "request")}
        unlike = [(name, metric_of(text, name), stands[word]) for name, word in pairs.items()
                  if metric_of(text, name) != stands[word]]
        build = f'mud_build_info{{version="{stands["version"]}"}} 1\n' in text
        started = abs(int(metric_of(text, "mud_start_time_seconds") or 0) - time.time()) < 60
        named = re.findall(r"^([a-z_]+)", text, re.MULTILINE)
        is_whole = set(named) == {name.partition("{")[0] for name in pairs} | {"mud_build_info", "mud_well",
                                                                              "mud_start_time_seconds"}
        kind = fields["Content-Type"]
        is_right = (status, kind) == (200, "text/plain; version=0.0.4; charset=utf-8") and not unlike
        is_right &= build and started and is_whole and metric_of(text, "mud_well") == "1"
        return "" if is_right else f"{unlike}, {build}, {fields}, {text}"


def why_linted():
    """promtool, if it is installed, accepts the metrics."""
    if not shutil.which("promtool"):
        return ""
    with Hosted() as hosted:
        text = hosted.get("/metrics")[2]
        how = {"input": text, "capture_output": True, "text": True, "check": False}
        ran = subprocess.run(["promtool", "check", "metrics"], **how)
        return "" if (ran.returncode, ran.stdout + ran.stderr) == (0, "") else f"{ran}"


def why_askers():
    """Many silent connections don't hide the health of the server."""
    with Hosted() as hosted:
        silent = [socket.create_connection((HOST, hosted.status_port()), timeout=SECONDS) for _ in range(40)]
        began = time.monotonic()
        status, _, body = hosted.get("/health")
        took = time.monotonic() - began
        for one in silent:
            one.close()
        return "" if (status, body) == (200, "ok\n") and took < 2 else f"{status}, {body}, {took:.1f} s"


# ---- the log

def why_log():
    """Each kind of line of the log has the form that the table of docs/HOSTING.md gives."""
    with Hosted("--capacity", "4", "--per-address", "1", kind=WebServer) as hosted, hosted.console() as console:
        ann = come(hosted.server.port, b"Ann")
        is_soon(lambda: any(line.startswith("player ") for line in hosted.log()))
        Client(hosted.server.port).line()
        ann.send_all([b"say hi"] * 3)
        for _ in range(3):
            ann.line()
        ann.send(b"quit")
        lines_until(ann, None)
        is_soon(lambda: any(line.startswith("end ") for line in hosted.log()))
        console.ask("ban 127.0.0.1")
        time.sleep(1.1)
        with contextlib.suppress(ConnectionError):
            Client(hosted.server.port).line()
        hosted.stop()
        port, web = hosted.server.port, hosted.server.web_port
        version = re.escape(json.loads(f'"{console_version()}"'))
        peer = rf"{HOST}:[0-9]+"
        wanted = [rf"start version={version}", r"status port=[0-9]+", rf"listen port={port} web={web}",
                  rf"begin session=1 from={peer} by=telnet", r'player session=1 player=#2 name="Ann"',
                  rf"refused from={HOST} why=address count=1", r"nearly-full changes=4 most=4",
                  rf'end session=1 from={peer} why=left player=#2 name="Ann"',
                  rf"refused from={HOST} why=banned count=1",
                  "stop"]
        given = hosted.log()
        is_right = len(given) == len(wanted) and all(map(re.fullmatch, wanted, given))
        return "" if is_right and not strange(given) else f"{given}, and by the page not {strange(given)}"


def why_forms():
    """The page has a form for each line that the sources log, and no other."""
    macros = re.compile(r'(?:info|warn|error)!\([^;"]*; "([a-z-]+)')
    paths = glob.glob(f"{TOP}/crates/*/src/*.rt")
    logged = {word for path in paths for word in macros.findall(read(path).decode())} | {"dropped"}
    given = set(log_forms())
    return "" if given == logged else f"{given ^ logged}"


def why_reasons():
    """The pages have the reasons that the log names for the end of a session and for a refusal, and no other."""
    partings = set(re.findall(r'#\[error\("([a-z-]+)"\)\]', read(f"{TOP}/crates/mud_socket/src/parting.rt").decode()))
    table = read(f"{TOP}/docs/SERVER.md").decode().partition("## How sessions end")[2].partition("\n## ")[0]
    ends = set(re.findall(r"^\| `([a-z-]+)` \|", table, re.M))
    refusals = set(re.findall(r'Refusal::\w+ => "([a-z]+)"', read(f"{TOP}/crates/mud_control/src/tally.rt").decode()))
    row = re.search(r"^\| `refused_full`.*$", read(f"{TOP}/docs/HOSTING.md").decode(), re.M)[0]
    told = set(re.findall("`([a-z]+)`", row.rpartition("refused:")[2]))
    is_right = ends == partings and told == refusals and len(ends) > 9 and len(told) > 4
    return "" if is_right else f"{ends ^ partings}, {told ^ refusals}"


def console_version():
    """Returns the version of the program by itself."""
    ran = subprocess.run([program("mud_serve"), "--version"], capture_output=True, text=True, check=True)
    return ran.stdout.split()[1].rstrip(",")


def why_journaled():
    """With a journal the log names its changes and its torn bytes."""
    with tempfile.TemporaryDirectory() as folder:
        path = os.path.join(folder, "journal")
        for counts, more in (("changes=0 torn=0", b""), ("changes=1 torn=4", b"2 1 ")):
            wanted = f"journal volume=1 {counts}"
            if more:
                with open(path, "ab") as file:
                    file.write(more)
            with Server(program("mud_serve"), ["--journal", path], console=True) as server:
                come(server.port, b"Ann").close()
                server.type(b"stop\n")
                server.end()
                if wanted not in server.logged():
                    return f"{server.logged()}"
        return ""


def why_reopened():
    """After `reopen` the log goes to a new file of its name, and the old one has all before; its mode is 640."""
    with Hosted() as hosted, hosted.console() as console:
        os.rename(hosted.path("log"), hosted.path("log.1"))
        come(hosted.server.port, b"Ann").close()
        with open(hosted.path("log.1"), "rb") as file:
            is_soon(lambda: b"end session=1" in (file.seek(0), file.read())[1])
            before = file.read() or (file.seek(0), file.read())[1]
        given = console.ask("reopen")
        come(hosted.server.port, b"Bob").close()
        is_soon(lambda: any(line.startswith("end ") for line in hosted.log()))
        after, mode = hosted.log(), stat.S_IMODE(os.stat(hosted.path("log")).st_mode)
        shutil.rmtree(hosted.path("gone"), ignore_errors=True)
        is_right = b"end session=1" in before and not any("Ann" in line for line in after) and mode == 0o640
        is_right &= given == ["ok"] and any("Bob" in line for line in after)
        return "" if is_right else f"{given}, {before}, {after}, {mode:o}"


def why_no_log():
    """A log that can't be opened is reported, at the start and at `reopen`."""
    with tempfile.TemporaryDirectory() as folder:
        with Server(program("mud_serve"), ["--log", os.path.join(folder, "none", "log")]) as server:
            start = server.process.wait(timeout=SECONDS), server.said()
        os.mkdir(os.path.join(folder, "there"))
        path = os.path.join(folder, "there", "log")
        with Server(program("mud_serve"), ["--log", path], console=True) as server:
            os.remove(path)
            os.rmdir(os.path.dirname(path))
            server.type(b"reopen\n")
            is_soon(lambda: server.said())
            again = server.said()
        is_right = start[0] == 3 and start[1].startswith(b"mud_serve: cannot open the log: ")
        return "" if is_right and again.startswith(b"error ") and b"can't be opened" in again else f"{start}, {again}"


# ---- the settings file

def settings_of(text, *words):
    """Returns the result of `listen --check` with this settings file and these words: status, lines and errors."""
    with tempfile.NamedTemporaryFile("w", suffix=".toml") as file:
        file.write(text)
        file.flush()
        command = [program("mud_serve"), "listen", "--config", file.name, "--check", *words]
        ran = subprocess.run(command, capture_output=True, text=True, timeout=SECONDS, check=False)
        return ran.returncode, ran.stdout.splitlines(), ran.stderr.replace(file.name, "FILE")


def why_settings():
    """Settings mean what the options mean, and the command line goes before them."""
    text = ('port = 0\naddress = "127.0.0.1"\n# a remark\nidle = 300\nconsole = true\ncount-players = false\n'
            'lines-per-second = 7\n')
    status, lines, said = settings_of(text, "--idle", "5", "--unnamed=9")
    wanted = ["address 127.0.0.1", "port 0", "idle 5", "unnamed 9", "lines-per-second 7", "changes-per-minute 20"]
    missing = [line for line in wanted if line not in lines]
    return "" if (status, missing, said) == (0, [], "") and lines[-1] == "changes 0" else f"{status}, {lines}, {said}"


def why_named():
    """Each option is a setting of its name, and `--check` prints those that have values."""
    with tempfile.TemporaryDirectory() as folder:
        whole = os.path.join(folder, "whole")
        with open(whole, "wb") as file:
            file.write(ended(FIRST))
        files = {name: os.path.join(folder, name) for name in ("journal", "bans", "log", "control")} | {"load": whole}
        texts = {"address": HOST, "web-address": HOST, "status-address": HOST, "web-origin": "http://localhost:8000"}
        numbers = {"port": 0, "web-port": 0, "status-port": 0, "total": 5, "per-address": 3, "idle": 4, "unnamed": 6,
                   "workers": 1, "capacity": 100, "lines-per-second": 7, "changes-per-minute": 8, "work-per-second": 9,
                   "address-lines-per-second": 11, "address-changes-per-minute": 12, "connects-per-minute": 13,
                   "excess-changes-per-minute": 14}
        flags = {"console": True, "count-players": True}
        valued = {**texts, **files, **numbers}
        ran = subprocess.run([program("mud_serve"), "listen", "--help"], capture_output=True, text=True, check=True)
        options = set(OPTION.findall(ran.stdout)) - {"help", "config", "check"}
        status, lines, said = settings_of("".join(f"{name} = {json.dumps(value)}\n"
                                                  for name, value in {**valued, **flags}.items()))
        missing = [name for name, value in valued.items() if f"{name} {value}" not in lines]
        given = options ^ {*valued, *flags}, missing, status, said
        return "" if given == (set(), [], 0, "") else f"{given}, {lines}"


def why_told():
    """docs/SERVER.md has a row for each option, and no other."""
    table = read(f"{TOP}/docs/SERVER.md").decode().partition("| Word | Meaning | Default |\n")[2].partition("\n\n")[0]
    told = {name for row in table.splitlines() for name in re.findall(r"`--([\w-]+)", row.split("|")[1])}
    options = set()
    for form in ("listen", "script"):
        ran = subprocess.run([program("mud_serve"), form, "--help"], capture_output=True, text=True, check=True)
        options |= set(OPTION.findall(ran.stdout)) - {"help"}
    return "" if told == options and len(told) > 20 else f"{told ^ options}"


def why_wrong_settings():
    """A wrong setting is named with its line."""
    tries = [
        ("port = 0\nporter = 1\n", "error: FILE, line 2: `porter`: there is no such setting\n"),
        ("\n\nport = 65536\n", "error: FILE, line 3: `port`: a whole number from 0 to 65535\n"),
        ("port = \"4000\"\n", "error: FILE, line 1: `port`: a whole number from 0 to 65535\n"),
        ("port = 0\nconsole = 1\n", "error: FILE, line 2: `console`: true or false\n"),
        ("port = 0\n  address  =  7\n", "error: FILE, line 2: `address`: a text in quotes\n"),
        ("port = 0\ncheck = true\n", "error: FILE, line 2: `check`: there is no such setting\n"),
        ("port = 0\nconfig = \"x\"\n", "error: FILE, line 2: `config`: there is no such setting\n"),
    ]
    given = [settings_of(text) for text, _ in tries]
    unlike = [(text, answer) for (text, told), answer in zip(tries, given) if answer != (2, [], told)]
    broken = settings_of("port = \n")
    none = subprocess.run([program("mud_serve"), "listen", "--config", "/nowhere"], capture_output=True, check=False)
    is_right = broken[0] == 2 and "line 1" in broken[2] and none.returncode == 3
    return "" if not unlike and is_right else f"{unlike}, {broken}, {none}"


def why_checked():
    """`--check` names what the server could not do, and makes no file."""
    with tempfile.TemporaryDirectory() as folder, socket.create_server((HOST, 0)) as other:
        journal = os.path.join(folder, "journal")
        fine = settings_of(f'port = 0\njournal = "{journal}"\n')
        made = os.path.exists(journal)
        taken = settings_of(f'address = "{HOST}"\nport = {other.getsockname()[1]}\n')
        with open(journal, "w") as file:
            file.write('mud history 2\n1 1 player #2 "Ann"\n')
        has = settings_of(f'port = 0\njournal = "{journal}"\n')
        with open(journal, "a") as file:
            file.write('1 1 player #2 "Ann"\nx\n')
        bad = settings_of(f'port = 0\njournal = "{journal}"\n')
        given = fine[0], made, taken[0], has[0], has[1][-1], bad[0]
        return "" if given == (0, False, 3, 0, "changes 1", 3) else f"{given}, {taken}, {bad}"


ROWS = [
    ("each word", why_words),
    ("the longest order", why_longest),
    ("status", why_status),
    ("sessions", why_sessions),
    ("end", why_end),
    ("end of one who reads nothing", why_end_held),
    ("tell", why_tell),
    ("texts that are told", why_tell_texts),
    ("announcements for one who reads nothing", why_tell_kept),
    ("a stop is told in time", why_stop_told),
    ("stop in, and stay", why_stop_in),
    ("bans", why_bans),
    ("bans of both families", in_network(why_bans_of_both)),
    ("a file of bans", why_bans_read),
    ("the most bans", why_bans_most),
    ("bans that can't be written", why_bans_unwritten),
    ("a kill while bans are written", why_bans_kept),
    ("the control socket", why_socket),
    ("many consoles", why_consoles),
    ("a console that is silent for an hour", why_hour),
    ("health", why_health),
    ("health at the end", why_unwell),
    ("an address of its own", why_there),
    ("refused connections", why_refused),
    ("other targets", why_targets),
    ("metrics", why_metrics),
    ("metrics, by promtool", why_linted),
    ("many who ask", why_askers),
    ("the log", why_log),
    ("the forms of the log", why_forms),
    ("the reasons in the log", why_reasons),
    ("the log with a journal", why_journaled),
    ("the log is reopened", why_reopened),
    ("no log", why_no_log),
    ("a file of settings", why_settings),
    ("each setting", why_named),
    ("each option on its page", why_told),
    ("wrong settings", why_wrong_settings),
    ("check", why_checked),
]


@part("host", "the host's part of a server: console, bans, metrics, log and settings")
def host(count):
    count.tries_at_once((f"host: {what}", why_wrong) for what, why_wrong in ROWS)
