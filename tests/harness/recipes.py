"""The commands and files of docs/HOSTING.md below a comment `played`, as they stand, except for ports. They are about
settings, the launcher, consoles by socat, metrics by curl and promtool, the log, logrotate, and a move."""
import contextlib
import os
import re
import shutil
import subprocess
import tempfile

from harness.guests import is_soon
from harness.hosting import wanted
from harness.inputs import read
from harness.parts import part
from harness.programs import TOP, program
from harness.server import SECONDS, Client
from harness.web import free_port

PLAYED = re.compile(r"^<!-- played: ([a-z]+) -->\n```\w*\n(.*?)^```$", re.M | re.S)
STOPS = b"(server stops)"


def blocks():
    """Returns the blocks of the page that a test plays, by name."""
    return dict(PLAYED.findall(read(f"{TOP}/docs/HOSTING.md").decode()))


class Place:
    """A folder where a host types the page's commands, with ports of its own in place of 4000 and 8001."""

    def __init__(self, folder):
        self.folder, self.blocks = folder, blocks()
        self.ports = {"4000": free_port(), "8001": free_port()}
        os.mkdir(f"{folder}/bin")
        os.mkdir(f"{folder}/elsewhere")
        for name, path in (("mud_serve", program("mud_serve")), ("launch", f"{TOP}/packaging/launch")):
            os.symlink(path, f"{folder}/bin/{name}")
        self.environment = {**os.environ, "PATH": f"{folder}/bin:{os.environ['PATH']}", "TMPDIR": folder}

    def text(self, name):
        """Returns a block with the ports of this place."""
        text = self.blocks[name]
        for port, ours in self.ports.items():
            text = re.sub(rf"\b{port}\b", str(ours), text)
        return text

    def put(self, name, path):
        """Writes a block as a file. Returns its path."""
        with open(f"{self.folder}/{path}", "w") as file:
            file.write(self.text(name))
        return f"{self.folder}/{path}"

    def type(self, text):
        """Types commands. Returns the status and the output of the last one."""
        how = {"cwd": self.folder, "env": self.environment, "timeout": 6 * SECONDS, "text": True}
        ran = subprocess.run(["sh", "-c", text], capture_output=True, check=False, **how)
        return ran.returncode, ran.stdout + ran.stderr

    @contextlib.contextmanager
    def running(self, name):
        """Starts a server by a block, and yields its process once it listens."""
        with contextlib.suppress(FileNotFoundError):
            os.remove(f"{self.folder}/last.history")
        how = {"cwd": self.folder, "env": self.environment, "stdin": subprocess.PIPE, "stderr": subprocess.DEVNULL}
        process = subprocess.Popen(["sh", "-c", f"exec {self.text(name)}"], start_new_session=True, **how)
        try:
            is_soon(lambda: b"listening on " in self.printed(), SECONDS)
            yield process
        finally:
            with contextlib.suppress(ProcessLookupError):
                os.killpg(process.pid, 9)
            process.wait()

    def printed(self):
        """Returns what the server has printed so far."""
        try:
            return read(f"{self.folder}/last.history")
        except FileNotFoundError:
            return b""

    def player(self):
        """Returns a player."""
        client = Client(self.ports["4000"])
        client.line()
        client.send(b"connect Ann")
        client.line()
        return client


def count_start(count, place):
    """Tests the first command: a world with a console, which ends at `stop`."""
    with place.running("start") as process:
        place.player().close()
        process.stdin.write(b"stop\n")
        process.stdin.close()
        given = process.wait(SECONDS), place.printed().endswith(b"end 1\n")
    count("recipes: start", given == (0, True), given)
    os.remove(f"{place.folder}/world.journal")


def count_checked(count, place):
    """Tests the settings file and `--check`, which makes nothing."""
    place.put("settings", "serve.toml")
    before = sorted(os.listdir(place.folder))
    status, said = place.type(place.text("check"))
    lines = said.splitlines()
    is_right = status == 0 and lines[-1:] == ["changes 0"] and "idle 3600" in lines
    count("recipes: check", is_right and sorted(os.listdir(place.folder)) == before, said)


def count_console(count, place, ann):
    """Tests the orders of the page; the last one stops the server."""
    first, second, third = place.text("console").splitlines()
    told = place.type(first), ann.line()
    count("recipes: an announcement", told == ((0, "ok\n"), b"(host: the library opens at nine)"), told)
    status, said = place.type(second)
    is_right = status == 0 and said.endswith("\nok\n") and "\nplayers 1\n" in said
    count("recipes: status", is_right, said)
    told = place.type(third), ann.line(), ann.line()
    count("recipes: a stop", told == ((0, "ok\n"), b"(server stops in 1 second)", STOPS), told)


def count_metrics(count, place):
    """Tests health and metrics, and the files for Prometheus."""
    status, said = place.type(place.text("metrics"))
    count("recipes: metrics", status == 0 and said.startswith("ok\n") and "\nmud_well 1\n" in said, said)
    metrics = place.text("metrics").splitlines()[1]
    checked = place.type(f"{metrics} | promtool check metrics")
    count("recipes: metrics by promtool", checked == (0, ""), checked)
    for name, word in (("prometheus", "config"), ("alerts", "rules")):
        status, said = place.type(f"promtool check {word} {place.put(name, f'{name}.yml')}")
        count(f"recipes: {name}", status == 0 and "SUCCESS" in said, said)


def count_log(count, place):
    """Tests the commands over the log, and that logrotate gives the server a new file."""
    status, said = place.type(place.text("log"))
    count("recipes: log", status == 0 and re.fullmatch(r"\d+ 127\.0\.0\.1\n(?:.* end session=.*\n)*", said), said)
    text = place.text("logrotate").replace("/var/log/seamountcup/log", f"{place.folder}/log")
    with open(f"{place.folder}/rotate", "w") as file:
        file.write(text.replace("/run/seamountcup/control", f"{place.folder}/control"))
    rotated = place.type(f"logrotate --force --state {place.folder}/state {place.folder}/rotate")
    place.player().close()
    is_new = is_soon(lambda: b" begin session=" in read(f"{place.folder}/log"))
    count("recipes: logrotate", rotated == (0, "") and is_new and os.path.exists(f"{place.folder}/log.1"), rotated)


def count_moved(count, place):
    """Tests a move: the server stops, and the other place would continue the same world."""
    status, said = place.type(place.text("moving"))
    kept = read(f"{place.folder}/world.journal") == read(f"{place.folder}/elsewhere/world.journal")
    changes = read(f"{place.folder}/world.journal").count(b"\n") - 1
    is_right = status == 0 and kept and said.endswith(f"changes {changes}\n") and changes > 0
    count("recipes: moving", is_right and os.path.exists(f"{place.folder}/elsewhere/world.bans"), said)


@part("host-recipes", "the commands and files of docs/HOSTING.md are played as they stand", on_demand=True)
def host_recipes(count):
    wanted("socat", "logrotate", "promtool", "curl", "awk")
    with tempfile.TemporaryDirectory() as folder:
        place = Place(folder)
        count_start(count, place)
        count_checked(count, place)
        with place.running("launch") as process:
            count_metrics(count, place)
            count_console(count, place, place.player())
            count("recipes: the launcher's status", process.wait(SECONDS) == 0)
        with place.running("launch") as process:
            place.player().close()
            place.type("echo 'ban 192.0.2.7' | socat - UNIX:control")
            count_log(count, place)
            count_moved(count, place)
            count("recipes: the launcher's status after a move", process.wait(SECONDS) == 0)
        shutil.rmtree(f"{folder}/elsewhere")
