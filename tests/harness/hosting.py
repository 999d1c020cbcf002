"""The files of docs/HOSTING.md that a host copies: a unit for systemd, and proxies with TLS before the web port."""
import contextlib
import os
import re
import shutil
import socket
import ssl
import subprocess
import tempfile
import time

from harness.inputs import read
from harness.parts import Skipped, part
from harness.programs import TOP
from harness.server import HOST, SECONDS
from harness.web import WebServer, free_port
from harness.web_client import NotLetIn, WebClient

NAME = "mud.example.org"
ORIGIN = f"https://{NAME}"
# The exposure level of a unit by systemd-analyze: up to 10, which means no protection at all.
EXPOSURE, MOST_EXPOSURE = re.compile(r"exposure level for \S+: ([\d.]+)"), 2
MOST_SESSIONS, MOST_VISITS = 4, 60
# The settings by which nginx runs alone, in a folder.
NGINX = """daemon off;
pid FOLDER/pid;
error_log FOLDER/error.log;
events {}
http {
    access_log off;
    client_body_temp_path FOLDER/body;
    proxy_temp_path FOLDER/proxy;
    fastcgi_temp_path FOLDER/fastcgi;
    uwsgi_temp_path FOLDER/uwsgi;
    scgi_temp_path FOLDER/scgi;
RECIPE
}
"""
LIFETIMES = {"nginx": ("proxy_read_timeout 1d;", "proxy_send_timeout 1d;"), "haproxy": ("timeout tunnel 1d",)}


def wanted(*programs):
    """Skips the part if one of these is not installed. Debian has nginx and haproxy in /usr/sbin."""
    os.environ["PATH"] += ":/usr/sbin"
    for name in programs:
        if not shutil.which(name):
            raise Skipped(f"there is no {name}")


def recipe(kind):
    """Returns the page's recipe of this kind."""
    page = read(f"{TOP}/docs/HOSTING.md").decode()
    return re.search(rf"^```{kind}\n(.*?)^```$", page, re.M | re.S)[1]


def put_unit(folder):
    """Writes the unit of packages with its prefix below this folder, and the files that it starts. Returns its path."""
    for name in ("bin/mud_serve", "libexec/seamountcup/launch"):
        os.makedirs(os.path.dirname(f"{folder}/{name}"), exist_ok=True)
        shutil.copy(f"{TOP}/packaging/launch", f"{folder}/{name}")
    path = f"{folder}/mud_serve.service"
    with open(path, "wb") as file:
        text = read(f"{TOP}/packaging/mud_serve.service").replace(b"%PREFIX", folder.encode())
        # the manual is not installed here
        file.write(re.sub(rb"(?m)^Documentation=.*\n", b"", text))
    return path


@part("unit", "the unit for systemd is understood, and leaves a server few rights", on_demand=True)
def unit(count):
    wanted("systemd-analyze")
    how = {"capture_output": True, "text": True, "check": False}
    with tempfile.TemporaryDirectory() as folder:
        path = put_unit(folder)
        verified = subprocess.run(["systemd-analyze", "verify", path], **how)
        judged = subprocess.run(["systemd-analyze", "security", "--offline=true", path], **how)
    said = verified.stdout + verified.stderr
    count("unit: understood", (verified.returncode, said) == (0, ""), said)
    found = EXPOSURE.search(judged.stdout)
    count("unit: exposure", found and float(found[1]) <= MOST_EXPOSURE, found and found[0])


def make_certificate(folder):
    """Makes a self-signed certificate for the proxy's name, its key, and both in one file."""
    words = ["openssl", "req", "-x509", "-newkey", "rsa:2048", "-nodes", "-days", "2", "-subj", f"/CN={NAME}"]
    words += ["-addext", f"subjectAltName=DNS:{NAME}", "-keyout", f"{folder}/key.pem", "-out", f"{folder}/chain.pem"]
    subprocess.run(words, check=True, capture_output=True)
    with open(f"{folder}/both.pem", "wb") as both:
        both.write(read(f"{folder}/chain.pem") + read(f"{folder}/key.pem"))


class Proxy:
    """A proxy made by the page's recipe in front of a server, with other ports and files, below a folder."""

    def __init__(self, kind, server, folder):
        self.kind, self.folder, self.plain, self.secure = kind, folder, free_port(), free_port()
        text = recipe(kind)
        for old, new in {
            **{f"listen {port}": f"listen {HOST}:{ours}" for port, ours in ((80, self.plain), (443, self.secure))},
            **{f"bind :{port}": f"bind {HOST}:{ours}" for port, ours in ((80, self.plain), (443, self.secure))},
            f"/etc/letsencrypt/live/{NAME}/fullchain.pem": f"{folder}/chain.pem",
            f"/etc/letsencrypt/live/{NAME}/privkey.pem": f"{folder}/key.pem",
            f"/etc/haproxy/certs/{NAME}.pem": f"{folder}/both.pem",
            "127.0.0.1:8000": f"{HOST}:{server.web_port}",
        }.items():
            text = text.replace(old, new)
        if kind == "nginx":
            text = NGINX.replace("FOLDER", folder).replace("RECIPE", text)
        self.file = f"{folder}/{kind}"
        with open(self.file, "w") as file:
            file.write(text)

    def words(self):
        """Returns the command that runs it."""
        own = ["-p", self.folder, "-c", self.file, "-e", f"{self.folder}/error.log"]
        return ["nginx", *own] if self.kind == "nginx" else ["haproxy", "-db", "-f", self.file]

    def faults(self):
        """Returns the errors of its file before it runs, or nothing."""
        check = "-t" if self.kind == "nginx" else "-c"
        ran = subprocess.run([*self.words(), check], capture_output=True, text=True, check=False)
        said = ran.stdout + ran.stderr
        is_bad = ran.returncode or "[warn" in said.lower() or "[emerg" in said.lower()
        return said if is_bad else ""

    @contextlib.contextmanager
    def running(self):
        """Runs it, and yields once its two ports answer."""
        process = subprocess.Popen(self.words(), stdout=subprocess.DEVNULL, stderr=subprocess.DEVNULL)
        try:
            for port in (self.plain, self.secure):
                wait_for(port)
            yield
        finally:
            process.terminate()
            process.wait()

    def dial(self, origin):
        """Opens a web socket through it."""
        return SecureClient(self.secure, origin, f"{self.folder}/chain.pem")


def wait_for(port):
    """Waits until a program listens there."""
    began = time.monotonic()
    while time.monotonic() - began < SECONDS:
        with contextlib.suppress(OSError), socket.create_connection((HOST, port), timeout=SECONDS):
            return
        time.sleep(0.05)
    raise TimeoutError(f"nobody listens on {port}")


class SecureClient(WebClient):
    """A web socket over TLS that verifies the proxy by this certificate."""

    def __init__(self, port, origin, certificate):
        self.context = ssl.create_default_context(cafile=certificate)
        super().__init__(port, origin)

    def connection(self, port, seconds):
        return self.context.wrap_socket(super().connection(port, seconds), server_hostname=NAME)


def refused(proxy, origin):
    """Returns the status with which a web socket is refused, or None if it is admitted."""
    try:
        proxy.dial(origin).close()
        return None
    except NotLetIn as refusal:
        return refusal.status


def redirected(proxy):
    """Returns the address to which a request without TLS is redirected."""
    with socket.create_connection((HOST, proxy.plain), timeout=SECONDS) as plain:
        plain.sendall(f"GET /?a=b HTTP/1.1\r\nHost: {NAME}\r\nConnection: close\r\n\r\n".encode())
        answer = plain.recv(65_536)
    found = re.search(rb"(?i)\r\nlocation: ([^\r]*)", answer)
    return answer.split(b" ")[1], found and found[1].decode()


def visited(proxy):
    """Returns the status of the page's answer."""
    context = ssl.create_default_context(cafile=f"{proxy.folder}/chain.pem")
    with socket.create_connection((HOST, proxy.secure), timeout=SECONDS) as plain:
        with context.wrap_socket(plain, server_hostname=NAME) as secure:
            secure.sendall(f"GET / HTTP/1.1\r\nHost: {NAME}\r\nConnection: close\r\n\r\n".encode())
            return secure.recv(100).split(b" ")[1]


def play_through(count, kind, proxy):
    """Counts that one client plays, and a page of another origin is refused. So are one session beyond the limit of an
    address, and visits beyond its limit."""
    player = proxy.dial(ORIGIN)
    said = [player.line()]
    for line in (b"connect Ann", b"say Hello"):
        player.send(line)
        said.append(player.line())
    count(f"{kind}: plays", said == [b"Welcome. Type: connect NAME", b"[1] welcome #2", b"[2] said"], said)
    count(f"{kind}: a foreign page", refused(proxy, "https://elsewhere.example.org") == 403)
    others = [proxy.dial(ORIGIN) for _ in range(MOST_SESSIONS - 1)]
    found = refused(proxy, ORIGIN)
    count(f"{kind}: one session more", found == 429, found)
    for client in (player, *others):
        client.close()
    answers = [visited(proxy) for _ in range(MOST_VISITS + 1)]
    count(f"{kind}: visits without end", (answers[0], answers[-1]) == (b"200", b"429"), answers)
    count(f"{kind}: from port 80", redirected(proxy) == (b"301", f"{ORIGIN}/?a=b"), redirected(proxy))


@part("proxies", "nginx and haproxy start by the recipes of docs/HOSTING.md, and players come through", on_demand=True)
def proxies(count):
    wanted("nginx", "haproxy", "openssl")
    for kind, lifetimes in LIFETIMES.items():
        with tempfile.TemporaryDirectory() as folder, WebServer(origin=ORIGIN) as server:
            os.chmod(folder, 0o755)
            make_certificate(folder)
            proxy = Proxy(kind, server, folder)
            faults = proxy.faults()
            count(f"{kind}: its file", not faults, faults)
            count(f"{kind}: long silence", all(line in recipe(kind) for line in lifetimes))
            with proxy.running():
                play_through(count, kind, proxy)
