"""The servers under measurement, and their clients (load.rs)."""
import os
import resource
import shutil
import socket
import subprocess
import sys
import tempfile
import time
from typing import NamedTuple

HERE = os.path.dirname(os.path.realpath(__file__))
sys.path.insert(0, f"{HERE}/../tests")
from harness.server import Client, Server
from harness.web import WebServer

SERVE = os.environ.get("MUD_SERVE", f"{HERE}/../crates/mud_serve/out/mud_serve")
# A folder in memory: the fastest possible disk.
MEMORY = "/dev/shm"
GAME, BINARIES = "/usr/share/tinymux/game", "/usr/lib/tinymux/game/bin"
SETTINGS = """
command_quota_max 1000000
command_quota_increment 1000000
player_starting_room #0
"""
DIGS = (b"connect Wizard", b"@dig north|south to Other", b"quit")
OPENING = [b"connect wizard potrzebie", b"@teleport me=#0", b"@dig Other=north,south", b"@teleport me=#10"]


class Played(NamedTuple):
    """The result of a play: the number of answers, and the seconds. Then come the processor time of the server and of
    the clients, the lines read, and the notices of talk among them. The next two have the 50th and 99th percentile of
    replies and of notices, in milliseconds. Then comes the share of all processors' time that the host took, and the
    number of plays before this one in which it took too much."""

    answers: float
    seconds: float
    took: float
    spent: float
    read: float
    notices: float
    replies: tuple
    told: tuple
    lost: float
    repeats: int = 0

    @property
    def rate(self):
        """Returns answers a second."""
        return self.answers / self.seconds

    @property
    def cost(self):
        """Returns microseconds of processor time of the server an answer."""
        return self.took / self.answers * 1e6

    @property
    def own_cost(self):
        """Returns microseconds of processor time of the clients an answer. They have two threads, so half of it bounds
        the answers a second of any server."""
        return self.spent / self.answers * 1e6


def spent_by_children():
    """Returns the seconds of processor time of the ended programs that this one began."""
    used = resource.getrusage(resource.RUSAGE_CHILDREN)
    return used.ru_utime + used.ru_stime


def processor_time(pid):
    """Returns the seconds of processor time that a process has used."""
    with open(f"/proc/{pid}/stat") as file:
        fields = file.read().rpartition(")")[2].split()
    return (int(fields[11]) + int(fields[12])) / os.sysconf("SC_CLK_TCK")


def machine_time():
    """Returns the processor time that the host took from this machine so far, and that of all processors, in ticks."""
    with open("/proc/stat") as file:
        spent = [int(word) for word in file.readline().split()[1:9]]
    return spent[-1], sum(spent)


def memory(pid, name="VmRSS"):
    """Returns the memory of a process, in megabytes."""
    with open(f"/proc/{pid}/status") as file:
        return next(int(line.split()[1]) for line in file if line.startswith(name)) / 1000


def built_load(folder):
    """Builds the program of the clients in the folder, and returns its path."""
    path = f"{folder}/load"
    subprocess.run(["rustc", "--edition", "2021", "-O", "-o", path, f"{HERE}/load.rs"], check=True)
    return path


def played(name, load, pid, port, clients, lines):
    """Lets this many clients send this many lines each."""
    before, own_before, (lost_before, all_before) = processor_time(pid), spent_by_children(), machine_time()
    words = [load, str(port), str(clients), str(lines), name]
    said = subprocess.run(words, stdout=subprocess.PIPE, check=True, text=True).stdout
    took, spent, (lost, of_all) = processor_time(pid) - before, spent_by_children() - own_before, machine_time()
    lost = (lost - lost_before) / max(1, of_all - all_before)
    (answers, seconds, read, notices), replies, told = (map(float, line.split()) for line in said.splitlines())
    return Played(answers, seconds, took, spent, read, notices, tuple(replies), tuple(told), lost)


def build_rooms(server):
    """Builds the two rooms in which clients play."""
    builder = Client(server.port)
    for line in DIGS:
        builder.send(line)
    while builder.more():
        pass


def played_here(load, clients, lines, words, program=SERVE, environment=None):
    """Plays with this server, started with the words, in a world of two rooms."""
    with Server(program, words, environment) as server:
        build_rooms(server)
        return played("seamountcup", load, server.process.pid, server.port, clients, lines)


def journaled(folder, load, clients, lines, words=(), environment=None):
    """Plays with this server, which keeps a new journal in a new folder."""
    with tempfile.TemporaryDirectory(dir=folder) as place:
        return played_here(load, clients, lines, ["--journal", f"{place}/journal", *words], environment=environment)


def played_on_web(load, clients, lines):
    """Plays so on the web."""
    with WebServer() as server:
        build_rooms(server)
        return played("web", load, server.process.pid, server.web_port, clients, lines)


def has_mux():
    return os.path.exists(f"{BINARIES}/netmux")


def free_port():
    with socket.create_server(("127.0.0.1", 0)) as one:
        return one.getsockname()[1]


def played_by_mux(folder, load, clients, lines):
    """Plays so with tinymux, with a new database in a folder of its own."""
    game, port = f"{folder}/game", free_port()
    shutil.copytree(GAME, game)
    shutil.copytree(BINARIES, f"{game}/bin")
    with open(f"{game}/netmux.conf", "a") as file:
        file.write(f"{SETTINGS}port {port}\n")
    command = ["./bin/netmux", "-c", "netmux.conf", "-p", "netmux.pid", "-e", "."]
    quiet = {"stdin": subprocess.DEVNULL, "stdout": subprocess.DEVNULL, "stderr": subprocess.DEVNULL}
    server = subprocess.Popen(command, cwd=game, env={**os.environ, "LD_LIBRARY_PATH": f"{game}/bin"}, **quiet)
    try:
        time.sleep(2)
        wizard = Client(port)
        for line in OPENING:
            wizard.send(line)
        time.sleep(1)
        return played("mux", load, server.pid, port, clients, lines)
    finally:
        server.kill()
        server.wait()
        shutil.rmtree(game)
