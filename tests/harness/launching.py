"""The launcher of packages: a signal ends a server in order, in each shell that is here, also as process 1."""
import os
import shutil
import signal
import subprocess
import tempfile
import time
from functools import partial

from harness.console import STOPS, last_line, visited
from harness.journal import ANN, ended
from harness.parts import part
from harness.programs import TOP, program
from harness.server import Client, Server

LAUNCH = f"{TOP}/packaging/launch"
SHELLS = {"dash": ["dash"], "bash": ["bash", "--posix"], "busybox": ["busybox", "sh"]}
# The longest time of a stop.
STOP_SECONDS = 3


class Launched(Server):
    """A server that the launcher runs, by a shell, with its pipe in a folder."""

    def __init__(self, shell, folder, words=(), before=()):
        how = {"by": [*before, *shell, LAUNCH], "start_new_session": True}
        super().__init__(program("mud_serve"), words, environment={"RUNTIME_DIRECTORY": folder}, **how)


def why_not_stopped(shell, number, before=(), times=1):
    """Returns what goes wrong if the launcher gets this signal this number of times; nothing if all ends in order."""
    with tempfile.TemporaryDirectory() as folder, Launched(shell, folder, before=before) as server:
        client, began = visited(server.port), time.monotonic()
        for _ in range(times):
            os.kill(shell_of(server) if before else server.process.pid, number)
        told = last_line(client)
        status, printed = server.end()
        took = time.monotonic() - began
        given = told, status, printed, took < STOP_SECONDS, os.path.exists(f"{folder}/console")
        return "" if given == (STOPS, 0, ended(ANN), True, False) else f"{given} in {took:.1f} s: {server.said()}"


def shell_of(server):
    """Returns the number of the process below `unshare`, which is process 1 to itself."""
    with open(f"/proc/{server.process.pid}/task/{server.process.pid}/children") as file:
        return int(file.read().split()[0])


def why_not_by_pipe(shell):
    """Returns what goes wrong after `stop` in the pipe; nothing if the server ends."""
    with tempfile.TemporaryDirectory() as folder, Launched(shell, folder) as server:
        client, mode = visited(server.port), os.stat(f"{folder}/console").st_mode & 0o777
        with open(f"{folder}/console", "w") as pipe:
            pipe.write("stop\n")
        given = last_line(client), server.end(), mode
        return "" if given == (STOPS, (0, ended(ANN)), 0o600) else f"{given}"


def why_not_killed(shell):
    """Returns what goes wrong if the server is killed; nothing if the launcher ends and names the signal."""
    with tempfile.TemporaryDirectory() as folder, Launched(shell, folder) as server:
        Client(server.port).close()
        os.kill(shell_of(server), signal.SIGKILL)
        status, _ = server.end()
        return "" if status == 128 + signal.SIGKILL else f"status {status}"


def why_not_refused(shell):
    """Returns what goes wrong if the server refuses its words; nothing if its status is kept, and no pipe is left."""
    with tempfile.TemporaryDirectory() as folder, Launched(shell, folder, ["--no-such-word"]) as server:
        status, left = server.end()[0], os.path.exists(f"{folder}/console")
        return "" if (status, left) == (2, False) else f"{status} {left}"


def rows(name, shell):
    """Yields the tests in one shell: the name of each, and its function with its words."""
    for number in (signal.SIGTERM, signal.SIGINT):
        yield f"{number.name} in {name}", partial(why_not_stopped, shell, number)
    yield f"SIGTERM three times in {name}", partial(why_not_stopped, shell, signal.SIGTERM, times=3)
    alone = ["unshare", "--pid", "--fork", "--kill-child"]
    if os.geteuid() == 0 and shutil.which("unshare"):
        yield f"as process 1 in {name}", partial(why_not_stopped, shell, signal.SIGTERM, before=alone)
    yield f"its pipe in {name}", partial(why_not_by_pipe, shell)
    yield f"the server is killed in {name}", partial(why_not_killed, shell)
    yield f"bad words in {name}", partial(why_not_refused, shell)


@part("launcher", "a signal to the launcher of packages ends a server in order, in each shell that is here")
def launcher(count):
    shells = [(name, shell) for name, shell in SHELLS.items() if shutil.which(shell[0])]
    count.tries_at_once((f"launcher: {what}", why_not) for one in shells for what, why_not in rows(*one))
