"""Signals: a server that the launcher or `./run` started ends in order, and soon. Each player reads the last line, a
browser gets 1001, and the status is 0.
"""
import contextlib
import os
import shutil
import signal
import subprocess
import sys
import tempfile
import time

from harness.guests import is_soon
from harness.parts import part
from harness.programs import TOP, program
from harness.server import HOST, LOGGED, SECONDS, Client
from harness.web import WebServer

LAUNCH = f"{TOP}/packaging/launch"
MOST_SECONDS = 3
STOPS, GOING_AWAY = b"(server stops)", 1001
SIGNALS = [signal.SIGTERM, signal.SIGINT, signal.SIGHUP]
# The shells that run the launcher: that of its first line, that of Debian, and that of small containers.
SHELLS = [[], ["dash"], ["busybox", "sh"]]
# `./run` from the moment when it starts the server; the part `first-run` tests what it does before.
ATTEND = """import importlib.machinery, importlib.util, sys
loader = importlib.machinery.SourceFileLoader("run", sys.argv[1])
run = importlib.util.module_from_spec(importlib.util.spec_from_loader("run", loader))
loader.exec_module(run)
run.become(sys.argv[2], "mud_serve", sys.argv[3:])"""
RUN = [sys.executable, "-Bc", ATTEND, f"{TOP}/run"]


@contextlib.contextmanager
def launched(*words, by=(), **how):
    """Yields a server that these words start, in a session of its own, as in a terminal. Its temporary files are in
    `folder`, and its journal is elsewhere.
    """
    with tempfile.TemporaryDirectory() as folder, tempfile.TemporaryDirectory() as kept:
        journal = os.path.join(kept, "journal")
        environment = {"TMPDIR": folder, **how.pop("environment", {})}
        with WebServer("--journal", journal, *words, by=by, environment=environment, start_new_session=True,
                       **how) as server:
            server.folder, server.journal = folder, journal
            yield server


def why_not_in_order(server, end):
    """Returns what goes wrong if this ends the server while two play, or nothing."""
    ann, bob = Client(server.port), server.player(b"Bob")
    ann.send(b"connect Ann")
    while b"welcome" not in ann.line():
        pass
    began = time.monotonic()
    end()
    read = [line for line in [ann.line(), ann.line(), ann.line()] if line][-1:]
    bob.rest()
    bob.close()
    status, printed = server.end()
    took = time.monotonic() - began
    with open(server.journal, "rb") as file:
        kept = file.read()
    given = status, read, bob.closed, os.listdir(server.folder), printed == kept + b"end 2\n"
    is_right = given == (0, [STOPS], GOING_AWAY, [], True) and took < MOST_SECONDS
    return "" if is_right else f"{given}, {took:.1f} s, {server.written()}"


def why_signal(by, number, to_all):
    """Returns what goes wrong after a signal to the program that started the server, or to its whole session."""
    with launched(by=by) as server:
        send = os.killpg if to_all else os.kill
        return why_not_in_order(server, lambda: send(server.process.pid, number))


def children(process):
    """Returns the children of a process."""
    with open(f"/proc/{process}/task/{process}/children") as file:
        return [int(word) for word in file.read().split()]


def why_first():
    """Returns what goes wrong after a signal to the launcher as process 1, which ignores signals without a handler."""
    by = ["unshare", "--pid", "--fork", "--kill-child"]
    if subprocess.run([*by, "true"], capture_output=True, check=False).returncode:
        return ""
    with launched(by=[*by, LAUNCH]) as server:
        first = children(server.process.pid)[0]
        return why_not_in_order(server, lambda: os.kill(first, signal.SIGTERM))


def why_killed():
    """Returns what goes wrong after a kill of the launcher: its pipe ends, and so does the server, in order."""
    with launched(by=[LAUNCH]) as server:
        theirs = children(server.process.pid)
        ann = Client(server.port)
        ann.line()
        server.process.kill()
        last = ann.line()
        gone = is_soon(lambda: not any(os.path.exists(f"/proc/{one}/fd/0") for one in theirs))
        return "" if (last, gone, len(theirs)) == (STOPS, True, 1) else f"{last}, {gone}, {theirs}"


def why_server_killed():
    """Returns what goes wrong if the server is killed or does not start: the status is its own, and no pipe is left."""
    with launched(by=[LAUNCH]) as server:
        os.kill(children(server.process.pid)[0], signal.SIGKILL)
        given = [server.end()[0], *os.listdir(server.folder)]
    for words in (["--idle", "x"], ["--load", "/nowhere"]):
        with launched(*words, by=[LAUNCH]) as server:
            given += [server.end()[0], *os.listdir(server.folder)]
    return "" if given == [137, 2, 3] else f"{given}"


def why_early():
    """Returns what goes wrong after a signal before the server listens: that is a stop too."""
    with tempfile.TemporaryDirectory() as folder:
        command = [LAUNCH, program("mud_serve"), "listen", "--port", "0", "--address", HOST]
        how = {"stdin": subprocess.DEVNULL, "stdout": subprocess.PIPE, "stderr": subprocess.PIPE}
        given = []
        for pause in (0.01, 0.02, 0.05):
            process = subprocess.Popen(command, env={**os.environ, "TMPDIR": folder}, **how)
            is_soon(lambda: os.listdir(folder))
            time.sleep(pause)
            process.terminate()
            process.communicate(timeout=SECONDS)
            given.append(process.returncode)
        return "" if given == [0, 0, 0] else f"{given}"


def why_pipe():
    """Returns what goes wrong with lines in the pipe: they are answered on standard error."""
    with tempfile.TemporaryDirectory() as room:
        with launched(by=[LAUNCH], environment={"RUNTIME_DIRECTORY": room}) as server:
            pipe = os.path.join(room, "console")
            mode = os.stat(pipe).st_mode
            with open(pipe, "w") as console:
                console.write("bans\nhalt\n")
            answered = is_soon(lambda: b"ok\nerror no such order" in LOGGED.sub(b"", server.written()))
            with open(pipe, "w") as console:
                console.write("stop\n")
            given = mode & 0o7777, answered, server.end()[0], os.path.exists(pipe)
        return "" if given == (0o600, True, 0, False) else f"{given}"


def end_input(server):
    """Ends the input of a server's console."""
    server.process.stdin.close()
    server.process.stdin = None


def why_typed():
    """Returns what goes wrong with a console under `./run`: its orders, and its end."""
    with launched(by=RUN, console=True) as server:
        server.type(b"bans\n")
        answered = is_soon(lambda: b"ok\n" in LOGGED.sub(b"", server.written()))
        why = why_not_in_order(server, lambda: server.type(b"stop\n"))
    with launched(by=RUN, console=True) as server:
        why = why or why_not_in_order(server, lambda: end_input(server))
    return why if answered else "its words are not answered"


def why_run_status():
    """Returns what goes wrong with the status of `./run`: it is the server's."""
    given = []
    for words in (["--idle", "x"], ["--load", "/nowhere"]):
        with launched(*words, by=RUN) as server:
            given.append(server.end()[0])
    with launched(by=RUN) as server:
        os.kill(children(server.process.pid)[0], signal.SIGKILL)
        given.append(server.end()[0])
    return "" if given == [2, 3, 137] else f"{given}"


def rows():
    """Yields each test: its name, and its function."""
    for number in SIGNALS:
        for shell in SHELLS:
            if not shell or shutil.which(shell[0]):
                name = f"{number.name} by {' '.join(shell) or 'sh'}"
                yield name, lambda number=number, shell=shell: why_signal([*shell, LAUNCH], number, False)
        yield f"{number.name} to all", lambda number=number: why_signal([LAUNCH], number, True)
        yield f"{number.name} to ./run", lambda number=number: why_signal(RUN, number, False)
        yield f"{number.name} to all of ./run", lambda number=number: why_signal(RUN, number, True)
    yield "process 1", why_first
    yield "the launcher is killed", why_killed
    yield "its status", why_server_killed
    yield "an early signal", why_early
    yield "its pipe", why_pipe
    yield "a console by ./run", why_typed
    yield "the status of ./run", why_run_status


@part("signals", "a server that the launcher or ./run started ends in order at each signal")
def signals(count):
    count.tries_at_once((f"signals: {what}", why_wrong) for what, why_wrong in rows())
