"""A newcomer with the source and the kit: from a clone to two players in one room, by docs/INSTALL.md."""
import subprocess
import tempfile
import time

from harness.debian import block
from harness.parts import part
from harness.programs import TOP
from harness.server import Client
from harness.web import free_port

SECONDS = 1800


def greeted(port, process):
    """Returns a greeted client, once the server listens there, or None if the server ends before that."""
    until = time.monotonic() + SECONDS
    while time.monotonic() < until and process.poll() is None:
        try:
            client = Client(port)
            client.line()
            return client
        except OSError:
            time.sleep(0.2)
    return None


def meet(ann, bob):
    """Returns the lines that two players read who meet in a new world."""
    ann.send(b"connect Ann")
    read = [ann.line()]
    bob.send(b"connect Bob")
    read += [bob.line(), ann.line()]
    bob.send(b"say Hello, Ann!")
    return [*read, bob.line(), ann.line()]


MET = [b"[1] welcome #2", b"[2] welcome #3", b"(2) Bob arrives.", b"[3] said", b'(3) Bob says, "Hello, Ann!"']


@part("newcomer", "from a clone to two players in one room, by docs/INSTALL.md, and how long it takes", True)
def newcomer(count):
    port = free_port()
    script = block("source").replace("--port 4000", f"--port {port}")
    with tempfile.TemporaryDirectory() as folder:
        began = time.monotonic()
        subprocess.run(["git", "clone", "--quiet", TOP, f"{folder}/clone"], check=True)
        how = {"stdin": subprocess.PIPE, "stdout": subprocess.PIPE, "stderr": subprocess.PIPE, "cwd": f"{folder}/clone"}
        with subprocess.Popen(["sh", "-c", f"exec {script}"], **how) as process:
            ann = greeted(port, process)
            given = meet(ann, greeted(port, process)) if ann else None
            print(f"newcomer: from a clone to two players in {time.monotonic() - began:.0f} s", flush=True)
            process.stdin.write(b"stop\n")
            printed, said = process.communicate()
        count("newcomer: two play", given == MET, f"{given} {said[-500:]}")
        is_whole = process.returncode == 0 and printed.startswith(f"listening on {port}\nmud history 2\n".encode())
        count("newcomer: stop", is_whole, f"{process.returncode} {printed}")
