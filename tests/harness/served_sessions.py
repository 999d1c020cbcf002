"""Sessions at a server: with any number of workers it answers each line as a script does. The sessions are those about
journeys and meetings."""
import os

from harness.inputs import sessions
from harness.parts import part
from harness.programs import program
from harness.server import Client, Server
from harness.sessions import count_each, difference

SUBJECTS, WORKERS = ("journeys", "meetings"), ("0", "1", "2", "8")
# A script's user is the wizard, and is not greeted.
BEFORE = b"Welcome. Type: connect NAME\r\n[0] welcome #1\r\n"


def subject(one):
    """Returns what a session is about."""
    return os.path.basename(os.path.dirname(one.path))


def misanswered(tried):
    """Returns how a server with this many workers answers a session otherwise than a script, or nothing."""
    one, workers = tried
    with Server(program("mud_serve"), ["--total", "1", "--workers", workers]) as server:
        client = Client(server.port)
        client.give(b"connect Wizard\r\n" + one.text)
        client.close_half()
        while client.more():
            pass
        status, _ = server.end()
        return f"the status is {status}" if status else difference(client.kept, BEFORE + one.wanted())


@part("served-sessions", "a server answers journeys and meetings as a script does, by any number of workers")
def served_sessions(count):
    asked = [one for one in sessions() if subject(one) in SUBJECTS and not one.words]
    names = ((f"served sessions: {one.name} by {workers}", (one, workers)) for one in asked for workers in WORKERS)
    count_each(count, misanswered, names)
