"""Short sessions are played in pieces: the script reads one byte at a time, each LF as CR LF, and answers as usual."""
import contextlib
import fcntl
import os
import subprocess
import tempfile

from harness.inputs import SHORT, read, sessions
from harness.parts import part
from harness.programs import program

SECONDS = 60


def give(text, pipe):
    """Writes the text byte by byte, until the other side closes."""
    with contextlib.suppress(BrokenPipeError):
        for at in range(len(text)):
            os.write(pipe, text[at : at + 1])
    os.close(pipe)


def answers(text, words):
    """Returns the status and the output of a script that reads one byte at a time."""
    reader, writer = os.pipe()
    # so that each read gets the bytes of one write
    with contextlib.suppress(OSError):
        fcntl.fcntl(writer, fcntl.F_SETFL, os.O_DIRECT)
    with tempfile.NamedTemporaryFile() as output:
        ran = subprocess.Popen([program("mud_serve"), "script", *words], stdin=reader, stdout=output)
        os.close(reader)
        give(text, writer)
        return ran.wait(timeout=SECONDS), read(output.name)


@part("in-pieces", "short sessions are answered as ever where each read gives one byte")
def in_pieces(count):
    for one in (one for one in sessions() if len(one.text) <= SHORT):
        given = answers(one.text.replace(b"\n", b"\r\n"), one.words)
        count(f"in pieces: {one.name}", given == (0, one.wanted()), "it is answered otherwise")
