"""The programs get unreadable input, a full disk, and command lines and files with mistakes. Each must end with its
message and its status."""
import os
import signal
import socket
import subprocess
import tempfile

from harness.inputs import read, tests_file
from harness.parts import part
from harness.programs import program
from harness.runs import LIBRARY, history_and_proof
from harness.server import LOGGED, Client, Server

ANY = object()
FULL_DISK = "/dev/full"
# No command here takes this many seconds.
LONGEST = 60
# Origins that no browser sends: a browser writes lower-case letters and no path, and leaves out the default port.
NO_ORIGINS = [
    "localhost", "null", "ftp://localhost", "http://", "http://localhost/", "http://localhost/play", "http://me@here",
    "http://Localhost", "HTTP://localhost", "http://:8000", "http://localhost:", "http://localhost:0",
    "http://localhost:80", "https://localhost:443", "http://localhost:08000", "http://localhost:65536",
]
BAD_WORDS = {
    "mud_serve": [
        "", "wait", "script --capacity 0", "script --capacity 65537", "script --workers 9", "script more",
        "listen --port 0 --web-port 0", "listen --port 0 --web-origin http://localhost",
        "listen --port 0 --web-address 127.0.0.1", "listen --port 0 --web-port 65536 --web-origin http://localhost",
        *(f"listen --port 0 --web-port 0 --web-origin {url}" for url in NO_ORIGINS),
    ],
    "mud_explain": [
        "", "word", "key more", "hall more", "hall --capacity 0", "hall --capacity 65537", "hall --load",
    ],
    "mud_check": ["one", "one two three"],
    "mud_keep": ["", "keep", "show", "show one two"],
}


class Ends:
    """Counts commands, each by its status, its output and its errors."""

    def __init__(self, count, folder):
        self.count, self.folder = count, folder

    def file(self, name, text):
        """Returns the path of a file with this text."""
        path = f"{self.folder}/{name}"
        with open(path, "wb") as file:
            file.write(text)
        return path

    def given(self, name, words, source, target):
        """Returns the result of a program that reads one file, and writes to another if given."""
        reading = os.open(source, os.O_RDONLY)
        writing = subprocess.PIPE if target is None else os.open(target, os.O_WRONLY)
        how = {"stdin": reading, "stdout": writing, "stderr": subprocess.PIPE, "text": True, "timeout": LONGEST}
        ran = subprocess.run([program(name), *words], check=False, **how)
        os.close(reading)
        if target is not None:
            os.close(writing)
        return ran.returncode, ran.stdout or "", LOGGED.sub(b"", ran.stderr.encode()).decode()

    def wants(self, status, output, errors, name, words=(), source="/dev/null", target=None):
        """Counts a command. `ANY` errors are any non-empty text."""
        given = self.given(name, words, source, target)
        is_right = given[:2] == (status, output) and (given[2] != "" if errors is ANY else given[2] == errors)
        named = [*words, f"<{source}", *([f">{target}"] if target else [])]
        self.count(f"failing ends: {' '.join([name, *named])}", is_right, given)

    def wants_fault(self, fault, name, words, source="/", target=None):
        """Counts a command with unreadable input or unwritable output."""
        self.wants(3, "", f"{name}: {fault} fault\n", name, words, source, target)

    def cannot_load(self, fault, file, *words):
        """Counts that a hall does not continue a file, nor read its steps, and that a server does not even listen."""
        for name, command in (("mud_explain", ["hall"]), ("mud_serve", ["listen", "--port", "0"])):
            self.wants(3, "", f"{name}: cannot load: {fault}\n", name, [*command, "--load", file, *words], source="/")


def ten():
    """Returns the path of a history that a hall can continue."""
    return tests_file("halls/ten.history")


def try_unreadable_input(ends):
    """A folder as input."""
    ends.wants_fault("read", "mud_serve", ["script"])
    ends.wants_fault("read", "mud_explain", ["words"])
    ends.wants_fault("read", "mud_explain", ["hall", "--load", ten()])
    ends.wants(2, "unreadable: file -\n", "", "mud_check", source="/")


def try_full_disk(ends):
    """An output that takes nothing."""
    look, whole = ends.file("look", b"look\n"), ends.file("whole", b"".join(history_and_proof(*LIBRARY)))
    ends.wants_fault("write", "mud_serve", ["script"], look, FULL_DISK)
    ends.wants_fault("write", "mud_explain", ["words"], look, FULL_DISK)
    ends.wants_fault("write", "mud_explain", ["hall"], tests_file("halls/full.in"), FULL_DISK)
    ends.wants(2, "", "", "mud_check", [], whole, FULL_DISK)


def try_bad_words(ends):
    """Words that are not a command line of the program."""
    for name, words in ((name, words) for name, rows in BAD_WORDS.items() for words in rows):
        ends.wants(2, "", ANY, name, words.split())


def try_files_to_check(ends):
    """A history and a certificate in separate files, and files that are missing or incomplete."""
    history, proof = history_and_proof(*LIBRARY)
    past, longer = ends.file("history", history), ends.file("longer", history + b"x")
    proof, none = ends.file("proof", proof), f"{ends.folder}/none"
    ends.wants(0, "accepted\n", "", "mud_check", [past, proof])
    ends.wants(2, f"unreadable: file {none}\n", "", "mud_check", [past, none])
    ends.wants(2, f"unreadable: file {none}\n", "", "mud_check", [none, proof])
    ends.wants(2, "unreadable: history line 4\n", "", "mud_check", [longer, proof])


def try_files_to_load(ends):
    """Files that a hall can't continue."""
    whole = read(ten())
    lines = whole.splitlines(keepends=True)
    wrong_exit = whole.replace(b"\n4 1 walk #1 #5\n", b"\n4 1 walk #1 #7\n")
    longer = ends.file("longer", history_and_proof(*LIBRARY)[0] + b"x")
    ends.cannot_load("file", f"{ends.folder}/none")
    ends.cannot_load("file", "/")
    ends.cannot_load("not a history", "/dev/null")
    ends.cannot_load("not a history", ends.file("returns", b"mud history 1\r\nend 0\n"))
    ends.cannot_load("history line 2", ends.file("return", b"mud history 1\nend 0\r\n"))
    ends.cannot_load("not a history", ends.file("cut", b"mud history 1"))
    ends.cannot_load("history line 4", longer)
    ends.cannot_load("over capacity", ten(), "--capacity", "16")
    ends.cannot_load("history line 15", ends.file("skipping", b"".join(lines[:14] + lines[15:])))
    ends.cannot_load("history without end", ends.file("endless", b"".join(lines[:-1])))
    ends.cannot_load("history change 4", ends.file("wrong", wrong_exit), "--capacity", "3")


def try_addresses(ends):
    """Addresses at which this machine can't listen, and texts that are not addresses."""
    for address, why in [("192.0.2.1", "no such address"), ("localhost", "not an IP address"),
                         ("[::1]", "not an IP address"), ("999.1.1.1", "not an IP address")]:
        words = ["listen", "--port", "4000", "--address", address]
        ends.wants(3, "", f"mud_serve: cannot listen on port 4000: {why}\n", "mud_serve", words)


def try_taken_port(ends):
    """A Telnet port and a web port that another program uses."""
    with socket.create_server(("127.0.0.1", 0)) as other:
        port = str(other.getsockname()[1])
        web = ["--port", "0", "--web-port", port, "--web-origin", "http://localhost"]
        for words in (["--port", port], web):
            told = f"mud_serve: cannot listen on port {port}: in use\n"
            ends.wants(3, "", told, "mud_serve", ["listen", *words, "--total", "1"])


def try_lost_output(ends):
    """A server's port is read, and nothing after it: its players are served, and then its history can't be written."""
    deaf = lambda: signal.signal(signal.SIGPIPE, signal.SIG_IGN)
    with Server(program("mud_serve"), ["--total", "1"], preexec_fn=deaf) as server:
        server.process.stdout.close()
        client = Client(server.port)
        client.send(b"quit")
        lines = [client.line() for _ in range(3)]
        given = lines, server.process.wait(timeout=LONGEST), server.said().splitlines()[-1:]
    wanted = [b"Welcome. Type: connect NAME", b"[0] bye", None], 3, [b"mud_serve: write fault"]
    ends.count("failing ends: mud_serve listen, of which only the port is read", given == wanted, given)


@part("failing-ends", "unreadable input, a full disk, bad words and bad files end programs with their words")
def failing_ends(count):
    with tempfile.TemporaryDirectory() as folder:
        ends = Ends(count, folder)
        try_unreadable_input(ends)
        try_full_disk(ends)
        try_bad_words(ends)
        try_files_to_check(ends)
        try_files_to_load(ends)
        try_addresses(ends)
        try_taken_port(ends)
        try_lost_output(ends)
