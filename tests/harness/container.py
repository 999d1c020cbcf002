"""A release in a container, as docs/INSTALL.md says: it is built, plays, stops in order, and continues."""
import contextlib
import os
import re
import shlex
import shutil
import subprocess
import tempfile
import time
import urllib.request

from harness.debian import base, block
from harness.inputs import read
from harness.packages import unpacked
from harness.parts import Skipped, part
from harness.server import Client
from harness.web import free_port

NEEDED = ("podman", "unshare", "nsenter")
FROM = re.compile(r"^FROM (\S+/\S+) AS", re.M)
# The limits of a container if podman may not raise them, and the way to build an image without its help.
RUN = ["--ulimit", "nofile=1024:1024", "--ulimit", "nproc=4096:4096"]
BUILD = ["--isolation=chroot", "--network=host", "--ulimit", "nofile=1024:1024"]
UNIFIED = "/sys/fs/cgroup/unified"
SECONDS, STOP_SECONDS, MOST_BYTES = 300, 5, 10_000_000
GREETING, STOPS = b"Welcome. Type: connect NAME", b"(server stops)"


class Podman:
    """Podman with images, containers and mounts of its own, below a folder."""

    def __init__(self, folder):
        words = ["unshare", "--mount", "--propagation", "private", "sleep", "infinity"]
        self.keeper = subprocess.Popen(words)
        self.enter = ["nsenter", "--target", str(self.keeper.pid), "--mount"]
        self.store = ["--root", f"{folder}/store", "--runroot", f"{folder}/run", "--tmpdir", f"{folder}/tmp"]
        until = time.monotonic() + SECONDS
        while read(f"/proc/{self.keeper.pid}/comm") != b"sleep\n" and time.monotonic() < until:
            time.sleep(0.01)
        if os.path.isdir(UNIFIED):
            # crun takes cgroups of the first version, or of the second, and not both
            subprocess.run([*self.enter, "umount", UNIFIED], check=False, stderr=subprocess.DEVNULL)

    def __call__(self, *words, **how):
        """Returns the status and the output of podman with these words."""
        how = {"stdout": subprocess.PIPE, "stderr": subprocess.STDOUT, "timeout": SECONDS, **how}
        ran = subprocess.run([*self.enter, "podman", *self.store, *words], check=False, **how)
        return ran.returncode, (ran.stdout or b"").decode(errors="replace")

    def says(self, *words):
        """Returns its output for these words, without its errors."""
        return self(*words, stderr=subprocess.DEVNULL)[1].strip()

    def close(self):
        self("system", "reset", "--force")
        self.keeper.kill()
        self.keeper.wait()


def has_base(podman, file):
    """Gets the base image of the Containerfile from its registry, or, if no registry answers, a Debian in its place."""
    (image,) = FROM.findall(read(file).decode())
    if podman("pull", image)[0] != 0:
        print(f"container: {image} can't be pulled; the Debian of the part `debian` stands for it", flush=True)
        with subprocess.Popen(["tar", "-C", base(), "-c", "."], stdout=subprocess.PIPE) as packed:
            podman("import", "-", image, stdin=packed.stdout)


def commands(ports):
    """Returns the commands of docs/INSTALL.md, each as words, with these ports of this machine as published ones."""
    text = block("container").replace("\\\n", " ")
    for ours, theirs in ports:
        text = text.replace(f"127.0.0.1:{theirs}:{theirs}", f"127.0.0.1:{ours}:{theirs}")
    return [shlex.split(line)[1:] for line in text.splitlines()]


def come(port, name):
    """Connects a player by this name once the server greets. Returns the player and the answer."""
    until = time.monotonic() + SECONDS
    while time.monotonic() < until:
        with contextlib.suppress(OSError):
            client = Client(port)
            if client.line() == GREETING:
                client.send(f"connect {name}".encode())
                return client, client.line()
        time.sleep(0.2)
    raise TimeoutError("nobody is greeted")


def count_image(count, podman):
    """Tests that the image is small, and without root."""
    user, size = podman.says("image", "inspect", "--format", "{{.User}} {{.Size}}", "seamountcup").split()
    count("container: user of the image", user == "65532:65532", user)
    count("container: size of the image", int(size) < MOST_BYTES, size)


def count_rights(count, podman):
    """Tests the rights of the server: it writes only to its volume and to a folder in memory."""
    status = podman.says("exec", "world", "busybox", "cat", "/proc/1/status")
    found = dict(line.split(":\t") for line in status.splitlines() if line.startswith(("Uid", "CapEff", "Name")))
    count("container: not root", found["Uid"].split() == ["65532"] * 4, found)
    count("container: no rights", int(found["CapEff"], 16) == 0, found)
    for folder, is_writable in (("/", False), ("/etc", False), ("/var/lib/seamountcup", True), ("/tmp", True)):
        code, _ = podman("exec", "world", "sh", "-c", f"busybox touch {folder}/x && rm {folder}/x")
        count(f"container: {folder} is {'' if is_writable else 'not '}written", (code == 0) == is_writable)


def count_stop(count, podman, ann):
    """Tests that players read that the server stops, and that it ends well and soon."""
    began = time.monotonic()
    podman("stop", "world")
    took, told = time.monotonic() - began, []
    while (line := ann.line()) is not None:
        told.append(line)
    code = podman.says("inspect", "--format", "{{.State.ExitCode}}", "world")
    is_right = told[-1:] == [STOPS] and code == "0" and took < STOP_SECONDS
    count("container: stop", is_right, f"{told} {code} in {took:.1f} s")


def count_container(count, podman, port, web_port, run):
    """Tests that a container runs, plays, stops, and continues, also as a new one."""
    ann, came = come(port, "Ann")
    bob, _ = come(port, "Bob")
    bob.send(b"say Hello, Ann!")
    heard = [ann.line(), ann.line()]
    count("container: two play", (came, heard[-1]) == (b"[1] welcome #2", b'(3) Bob says, "Hello, Ann!"'), heard)
    with urllib.request.urlopen(f"http://127.0.0.1:{web_port}/") as page:
        count("container: the page", page.status == 200)
    code, said = podman("healthcheck", "run", "world")
    count("container: it is well", code == 0, said)
    count_rights(count, podman)
    count_stop(count, podman, ann)
    podman("start", "world")
    again, came = come(port, "Ann")
    count("container: goes on", came == b"[3] welcome #2", came)
    again.close()
    podman("rm", "--force", "world")
    podman(*run)
    again, came = come(port, "Ann")
    count("container: a new one goes on", came == b"[3] welcome #2", came)
    again.close()


@part("container", "podman builds the Containerfile of a release; its server plays, stops in order, and goes on", True)
def container(count):
    if os.geteuid() != 0 or not all(map(shutil.which, NEEDED)):
        raise Skipped(f"it wants root, and {', '.join(NEEDED)}")
    with unpacked() as (_, folder), tempfile.TemporaryDirectory() as store:
        with contextlib.closing(Podman(store)) as podman:
            has_base(podman, f"{folder}/dist/Containerfile")
            port, web_port = free_port(), free_port()
            build, run = commands(((port, 4000), (web_port, 8000)))
            code, said = podman(build[0], *BUILD, *build[1:-1], f"{folder}/{build[-1]}")
            count("container: built", code == 0, said[-1000:])
            count_image(count, podman)
            run = [run[0], *RUN, *run[1:]]
            code, said = podman(*run)
            count("container: run", code == 0, said)
            count_container(count, podman, port, web_port, run)
