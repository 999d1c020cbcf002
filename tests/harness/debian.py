"""A release in a Debian of its own that systemd runs: what docs/INSTALL.md has a host type is typed there, and people
play. The Debian is made once by debootstrap, and kept; what a trial writes is gone with it.
"""
import contextlib
import os
import re
import select
import shutil
import subprocess
import tempfile
import time

from harness.first_words import text_of
from harness.inputs import read, tests_file
from harness.packages import files_of, unpacked
from harness.parts import Skipped, part

NEEDED = ("debootstrap", "unshare", "nsenter", "dpkg-deb")
SUITE, MIRROR = "bookworm", "http://deb.debian.org/debian"
INCLUDED = "systemd,dbus,iproute2,curl,telnet,man-db"
PATH = "/usr/local/sbin:/usr/local/bin:/usr/sbin:/usr/bin:/sbin:/bin"
CACHE = os.environ.get("XDG_CACHE_HOME") or os.path.expanduser("~/.cache")
BASE = f"{CACHE}/seamountcup-debian-{SUITE}"
SECONDS, RESTART_SECONDS, STOP_SECONDS = 60, 30, 5
GREETING, STOPS = "Welcome. Type: connect NAME", "(server stops)"
JOURNAL = "/var/lib/seamountcup/world.journal"
# The number of an earlier package: smaller than any.
EARLIER = "0.0.1"
# RFC 6455, section 1.3: a key, and its answer.
KEY, ACCEPT = "dGhlIHNhbXBsZSBub25jZQ==", "s3pPLMBiTxaQ9kYGzzhZRbK+xOo="


def base():
    """Returns the folder of a Debian. Makes it if it does not exist: that takes minutes, and a network."""
    if os.geteuid() != 0 or (missing := [name for name in NEEDED if not shutil.which(name)]):
        raise Skipped(f"it wants root, and {', '.join(NEEDED)}")
    if not os.path.isdir(BASE):
        os.makedirs(CACHE, exist_ok=True)
        words = ["debootstrap", "--variant=minbase", f"--include={INCLUDED}", SUITE, f"{BASE}.part", MIRROR]
        subprocess.run(words, check=True, stdout=subprocess.DEVNULL)
        os.rename(f"{BASE}.part", BASE)
    return BASE


def block(name):
    """Returns the lines of docs/INSTALL.md that are played by this name."""
    return re.search(rf"^<!-- played: {name} -->\n```sh\n(.*?)^```$", text_of("docs/INSTALL.md"), re.M | re.S)[1]


class Machine:
    """A Debian that was booted, with some files in /root."""

    def __init__(self, files):
        self.work = tempfile.mkdtemp(prefix="debian-")
        words = ["unshare", "--mount", "--propagation", "private", tests_file("debian/boot"), base(), self.work]
        self.process = subprocess.Popen(words, stdin=subprocess.DEVNULL)
        self.enter = ["nsenter", "--target", str(self.systemd()), "--mount", "--pid", "--net", "--uts", "--ipc"]
        self.enter += ["--cgroup", "--root", "env", "-i", "--chdir=/root", "HOME=/root", f"PATH={PATH}"]
        self.enter += ["LC_ALL=C.UTF-8", "DEBIAN_FRONTEND=noninteractive"]
        self.sh("systemctl is-system-running --wait")
        for path in files:
            self.put(path, f"/root/{os.path.basename(path)}")

    def systemd(self):
        """Returns the number of its process 1, once that is systemd."""
        until = time.monotonic() + SECONDS
        while time.monotonic() < until:
            number = self.process.pid
            with contextlib.suppress(OSError, IndexError):
                while read(f"/proc/{number}/comm") != b"systemd\n":
                    number = int(read(f"/proc/{number}/task/{number}/children").split()[0])
                return number
            time.sleep(0.1)
        raise TimeoutError("systemd does not begin")

    def put(self, path, there):
        """Copies a file into it."""
        self.sh(f"cat > '{there}'", read(path))

    def sh(self, script, given=b""):
        """Returns the status and the output of a script in it, run in /root."""
        words = [*self.enter, "sh", "-e", "-c", script]
        ran = subprocess.run(words, input=given, stdout=subprocess.PIPE, stderr=subprocess.STDOUT, timeout=SECONDS)
        return ran.returncode, ran.stdout.decode(errors="replace")

    def says(self, script):
        """Returns the output of a script, without the last line end."""
        return self.sh(script)[1].rstrip("\n")

    def is_active(self, seconds=0):
        """Returns whether the server runs within some seconds."""
        until = time.monotonic() + seconds
        while (said := self.says("systemctl is-active mud_serve || true")) != "active" and time.monotonic() < until:
            time.sleep(0.5)
        return said == "active"

    def close(self):
        """Turns it off."""
        self.sh("systemctl poweroff")
        try:
            self.process.wait(SECONDS)
        finally:
            self.process.kill()
            self.process.wait()
            os.rmdir(self.work)


class Player:
    """A player by the `telnet` of a machine, from the moment of the greeting."""

    def __init__(self, machine):
        words, how = [*machine.enter, "telnet", "127.0.0.1", "4000"], {"stdin": subprocess.PIPE}
        until = time.monotonic() + SECONDS
        while True:
            self.kept = b""
            self.process = subprocess.Popen(words, stdout=subprocess.PIPE, stderr=subprocess.DEVNULL, **how)
            if self.reads(GREETING) or time.monotonic() > until:
                return
            self.process.kill()
            self.process.wait()
            time.sleep(0.2)

    def types(self, line):
        self.process.stdin.write(f"{line}\n".encode())
        self.process.stdin.flush()

    def reads(self, wanted, seconds=10):
        """Returns whether a line that ends so comes within some seconds. Drops lines before it."""
        until = time.monotonic() + seconds
        while True:
            *lines, self.kept = self.kept.split(b"\n")
            if any(line.decode().rstrip("\r").endswith(wanted) for line in lines):
                return True
            left = until - time.monotonic()
            if left < 0 or not select.select([self.process.stdout], [], [], left)[0]:
                return False
            if not (some := os.read(self.process.stdout.fileno(), 65_536)):
                return False
            self.kept += some

    def comes(self, name, number):
        """Returns whether the server welcomes this name, as the player of this number."""
        self.types(f"connect {name}")
        return self.reads(f"] welcome #{number}")

    def close(self):
        self.process.stdin.close()
        self.process.wait(SECONDS)
        self.process.stdout.close()


@contextlib.contextmanager
def players(machine, count=1):
    """Returns this number of players of a machine."""
    with contextlib.ExitStack() as stack:
        yield [stack.enter_context(contextlib.closing(Player(machine))) for _ in range(count)]


# ---- checks


def count_played(count, name, machine, numbers=(2, 3)):
    """Tests that two players with these numbers meet in one room."""
    with players(machine, 2) as (ann, bob):
        came = ann.comes("Ann", numbers[0]), bob.comes("Bob", numbers[1])
        ann.types("say Hello, Bob!")
        heard = bob.reads(') Ann says, "Hello, Bob!"')
        ann.types("quit")
        bye = ann.reads("bye")
    count(f"{name}: two play", (*came, heard, bye) == (True,) * 4, f"{came} {heard} {bye}")


def count_told(count, name, machine, script):
    """Tests that players read, and soon, that the server stops when this is done."""
    with players(machine) as (ann,):
        is_known = ann.comes("Ann", 2)
        began = time.monotonic()
        how = {"stdout": subprocess.DEVNULL, "stderr": subprocess.DEVNULL}
        done = subprocess.Popen([*machine.enter, "sh", "-e", "-c", script], **how)
        told = ann.reads(STOPS, SECONDS)
        took = time.monotonic() - began
        status = done.wait(SECONDS)
    is_right = is_known and told and status == 0
    count(f"{name}: who plays is told", is_right, f"known {is_known}, told {told} after {took:.1f} s, status {status}")


def count_kept(count, name, machine, others):
    """Tests that the world is as it was: the journal begins with everything that it had."""
    kept = machine.says(f"cat {JOURNAL}")
    count(f"{name}: the world is there", kept.startswith(others) and len(others) > 30, f"{others!r} and then {kept!r}")


def count_service(count, machine):
    """Tests the unit: systemd understands it, gives it only its own folder, and starts it again if it is killed."""
    verified = machine.sh("systemd-analyze verify mud_serve.service")
    count("package: the unit", verified == (0, ""), verified)
    rights = machine.says(f"stat -c '%U %a' /var/lib/seamountcup {JOURNAL} /run/seamountcup/console")
    count("package: rights", rights.split("\n") == ["seamountcup 700", "seamountcup 600", "seamountcup 600"], rights)
    owner = machine.says("stat -c %U /proc/$(pidof mud_serve)")
    count("package: not root", owner == "seamountcup", owner)
    for who in ("mud_serve", "launch"):
        machine.sh(f"kill -9 $(pidof -x {who})")
        time.sleep(1)
        count(f"package: after kill -9 of {who}", machine.is_active(RESTART_SECONDS), machine.says("journalctl -n 20"))
    count_played(count, "package: after two kills", machine)


def count_web(count, machine):
    """Tests the page and its socket by curl, once the host has taken the marks off two lines of serve.toml."""
    machine.sh("sed -i 's/^#web-/web-/' /etc/seamountcup/serve.toml; systemctl restart mud_serve")
    page = "curl -sS --retry 20 --retry-delay 1 --retry-connrefused -o /dev/null -w '%{http_code}' 2>/dev/null"
    answer = machine.says(f"{page} http://127.0.0.1:8000/")
    count("package: the page by curl", answer == "200", answer)
    fields = {"Connection": "Upgrade", "Upgrade": "websocket", "Sec-WebSocket-Version": "13", "Sec-WebSocket-Key": KEY}
    words = " ".join(f"-H '{name}: {value}'" for name, value in fields.items())
    answers = {"http://localhost:8000": f"Sec-WebSocket-Accept: {ACCEPT}", "http://elsewhere": "HTTP/1.1 403"}
    for origin, right in answers.items():
        asked = f"curl -sS -i -N --http1.1 -m 2 {words} -H 'Origin: {origin}' http://127.0.0.1:8000/play || true"
        answer = machine.says(asked)
        count(f"package: a web socket of {origin}", right.lower() in answer.lower(), answer)


def count_manual(count, machine):
    """Tests that `man` finds the pages of the manual by their names, and those that they refer to."""
    for name in ("seamountcup", "mud_serve", "mud_check", "mud_keep", "mud_explain"):
        status, said = machine.sh(f"man {name} | head -1")
        count(f"package: man {name}", status == 0 and f"{name.upper()}(" in said, said)


def installed(machine):
    """Returns the files of the package that exist."""
    return machine.says("ls -d /usr/bin/mud_* /usr/libexec/seamountcup /usr/share/doc/seamountcup 2>/dev/null || true")


# ---- the three ways, except the source


def count_package(count, made, machine):
    """Tests the package from its installation to its purge."""
    first, second = block("package").splitlines()
    began = time.monotonic()
    status, said = machine.sh(first)
    count("package: install", status == 0, said)
    before = machine.says("systemctl is-enabled mud_serve || true"), machine.is_active()
    count("package: neither enabled nor started", before == ("disabled", False), before)
    count("package: start", machine.sh(second)[0] == 0)
    count_played(count, "package", machine)
    print(f"debian: from the package to two players in {time.monotonic() - began:.0f} s", flush=True)
    count("package: as it came", machine.sh("dpkg --verify seamountcup") == (0, ""))
    said = machine.says("mud_serve --version")
    count("package: version", said == made.says("mud_serve").rstrip(), said)
    count_service(count, machine)
    count_web(count, machine)
    count_manual(count, machine)
    count_told(count, "package: stop", machine, "systemctl stop mud_serve")
    machine.sh("systemctl start mud_serve")
    world = machine.says(f"cat {JOURNAL}")
    count_told(count, "package: remove", machine, block("remove"))
    left = installed(machine), machine.says("ls /etc/seamountcup")
    count("package: removed", left == ("", "serve.toml"), left)
    count_kept(count, "package: removed", machine, world)
    status, said = machine.sh(f"{first}\nsystemctl start mud_serve")
    count("package: install again", status == 0, said)
    count_played(count, "package: installed again", machine)
    status, said = machine.sh("apt-get purge --yes seamountcup")
    left = installed(machine), machine.says("ls -d /etc/seamountcup 2>/dev/null || true")
    is_told = "the world stays in /var/lib/seamountcup" in said
    count("package: purged", (status, left, is_told) == (0, ("", ""), True), f"{left} {said}")
    count_kept(count, "package: purged", machine, world)


def earlier_package(package, folder):
    """Makes a package with a smaller number, and otherwise equal."""
    subprocess.run(["dpkg-deb", "--raw-extract", package, f"{folder}/earlier"], check=True)
    path = f"{folder}/earlier/DEBIAN/control"
    changed = re.sub(rb"(?m)^Version: .*$", f"Version: {EARLIER}".encode(), read(path))
    with open(path, "wb") as file:
        file.write(changed)
    old = f"{folder}/seamountcup_{EARLIER}_amd64.deb"
    subprocess.run(["dpkg-deb", "--build", f"{folder}/earlier", old], check=True, stdout=subprocess.DEVNULL)
    return old


def count_upgrade(count, made, machine, package, old):
    """Tests that a server of an earlier package continues in this one, with its options and its world."""
    machine.put(old, "/root/old.deb")
    machine.sh("apt-get install --yes ./old.deb\nsystemctl enable --now mud_serve")
    machine.sh("sed -i 's/^#idle = 3600/idle = 7200/' /etc/seamountcup/serve.toml; systemctl restart mud_serve")
    count_played(count, "upgrade: before", machine)
    world = machine.says(f"cat {JOURNAL}")
    machine.put(package, f"/root/{os.path.basename(package)}")
    count_told(count, "upgrade", machine, block("upgrade"))
    count("upgrade: it runs again", machine.is_active(STOP_SECONDS))
    said = machine.says("mud_serve --version; dpkg-query --show --showformat '${Version}' seamountcup")
    count("upgrade: version", said == f"{made.says('mud_serve')}{made.debian_version()}", said)
    options = machine.says("mud_serve listen --config /etc/seamountcup/serve.toml --check 2>&1 || true")
    count("upgrade: the host's options", "idle 7200" in options.split("\n"), options)
    count_kept(count, "upgrade", machine, world)
    count_played(count, "upgrade: after", machine)


def count_by_hand(count, machine):
    """Tests a server without systemd: the launcher starts as the journal's owner, and ends it on request."""
    by_hand = re.search(r"`(/usr/local/libexec/\S+ [^`]*)`", text_of("docs/INSTALL.md").replace("\n", " "))[1]
    owner = "setpriv --reuid=seamountcup --regid=seamountcup --clear-groups"
    machine.sh(f"systemctl stop mud_serve; {owner} {by_hand} >/dev/null 2>&1 & echo $! > launcher")
    count_played(count, "tarball: by hand", machine)
    wait = "kill $(cat launcher)\nwhile pidof mud_serve; do sleep 0.1; done"
    count_told(count, "tarball: by hand", machine, wait)
    machine.sh("systemctl start mud_serve")


def count_tarball(count, made, machine):
    """Tests the tarball from its installation to its removal."""
    before = machine.says("find /usr/local /etc/systemd -type f")
    status, said = machine.sh(block("tarball"))
    count("tarball: install", status == 0, said)
    count_played(count, "tarball", machine)
    said = machine.says("mud_serve --version")
    count("tarball: version", said == made.says("mud_serve").rstrip(), said)
    verified = machine.sh("systemd-analyze verify mud_serve.service")
    count("tarball: the unit", verified == (0, ""), verified)
    count_by_hand(count, machine)
    world, inside = machine.says(f"cat {JOURNAL}"), "cd seamountcup-*-linux-x86_64\n"
    count_told(count, "tarball: upgrade", machine, inside + block("tarball-upgrade"))
    count_played(count, "tarball: upgraded", machine)
    count_told(count, "tarball: remove", machine, inside + block("tarball-remove"))
    after = machine.says("find /usr/local /etc/systemd -type f")
    count("tarball: removed", after == before, after)
    count_kept(count, "tarball: removed", machine, world)


@part("debian", "a Debian of its own installs a release as docs/INSTALL.md says, plays, upgrades, removes", True,
      "[OLD_PACKAGE]")
def debian(count, old=None):
    base()
    with unpacked() as (made, folder):
        files = [f"{folder}/dist/{name}" for name in files_of(f"{folder}/dist")]
        (package,) = [path for path in files if path.endswith(".deb")]
        with contextlib.closing(Machine(files)) as machine:
            summed = machine.sh("sha256sum --check SHA256SUMS")
            count("the sums", summed[0] == 0, summed)
            count_package(count, made, machine)
        with contextlib.closing(Machine([])) as machine:
            count_upgrade(count, made, machine, package, old or earlier_package(package, folder))
        with contextlib.closing(Machine([path for path in files if path.endswith(".gz")])) as machine:
            count_tarball(count, made, machine)
