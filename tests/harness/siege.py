"""A siege: sixty-four hostile clients of all kinds for ten minutes, while two people play. Each answer to the two comes
within BOUND, and the history printed at the end judges what they read. Once the hostile clients have left, the server
has as many descriptors as before and hardly more memory. `tests/run siege SECONDS` makes it shorter, and `tests/run
siege SECONDS limited` has the default rate limits."""
import multiprocessing
import os
import random
import re
import threading
import time

from harness.judge import judge
from harness.parts import part
from harness.programs import program
from harness.server import Client, Server
from harness.visit import Visit

SECONDS, BOUND = 600, 0.1
HOSTILE, IN_ONE = 64, 8
# The pause of each player between two lines, without and with rate limits, and how much more memory the server may have
# at the end.
PAUSE, LIMITED_PAUSE, GROWTH = 0.05, 4, 8_000_000
NAMES = 8
# The judge's findings about the hostile clients, whose texts nobody keeps.
STRANGERS = re.compile(r'\(player #\d+ "Guest\d"\) was answered to nobody$')
LIMITS = ["--idle", "20", "--unnamed", "2"]
# As docs/HOSTING.md has a server run: each further arena of the C library keeps some freed memory.
AS_HOSTED = {"MALLOC_ARENA_MAX": "1"}


def comes_and_leaves(client, chance):
    """Leaves at once, by a reset now and then."""
    if chance.random() < 0.5:
        client.reset()


def is_silent(client, chance):
    """Sends nothing, or no line."""
    client.give(chance.choice([b"", b"connect", b"\xff\xfa", b"\xff"]))
    time.sleep(chance.random() * 3)


def sends_no_line(client, chance):
    """Sends requests or a line without an end, a little at a time."""
    for _ in range(chance.randrange(40)):
        client.give(chance.choice([b"\xff\xf1", b"\xff\xf6", b"\xff\xfd\x01", b"x" * 100, b"\x08"]))
        time.sleep(0.1)


def reads_nothing(client, chance):
    """Sends as many lines as the server takes, and reads nothing for a while."""
    line = chance.choice([b"look\r\n", b"@history\r\n", b"proof route to here\r\n", b"\xff\xf6\r\n"])
    client.give(b"connect Guest%d\r\n" % chance.randrange(NAMES))
    try:
        for _ in range(20):
            client.give(line * 2_000)
    except TimeoutError:
        pass
    time.sleep(chance.random() * 3)


def reads_bytes(client, chance):
    """Sends lines, and reads a byte now and then."""
    client.give(b"look\r\n" * 1_000)
    for _ in range(20):
        client.socket.recv(1)
        time.sleep(0.1)


def sends_noise(client, chance):
    """Sends random bytes."""
    for _ in range(20):
        client.give(chance.randbytes(1_000))


KINDS = [comes_and_leaves, is_silent, sends_no_line, reads_nothing, reads_bytes, sends_noise]


def besiege(port, end, seed):
    """Comes again and again as a hostile client of a random kind."""
    chance = random.Random(seed)
    while time.monotonic() < end:
        try:
            client = Client(port, seconds=1)
            chance.choice(KINDS)(client, chance)
            client.close()
        except OSError:
            time.sleep(0.01)


def besiege_all(port, end, first):
    """Runs several hostile clients in one process."""
    crowd = [threading.Thread(target=besiege, args=(port, end, first + at)) for at in range(IN_ONE)]
    for one in crowd:
        one.start()
    for one in crowd:
        one.join()


def arrive(port, name):
    """Begins a session as this player."""
    visit = Visit(port)
    visit.ask(f"connect {name}")
    return visit


def play(visit, end, waits, pause):
    """Plays until the end, and notes how long each answer took."""
    at = 0
    while time.monotonic() < end:
        at += 1
        began = time.monotonic()
        visit.ask(["look", f"say {at}", "@version", "route to here"][at % 4])
        waits.append(time.monotonic() - began)
        time.sleep(pause)


def standing(server):
    """Returns the number of descriptors and the bytes of memory of the server."""
    folder = f"/proc/{server.process.pid}"
    with open(f"{folder}/status", encoding="ascii") as file:
        memory = next(int(line.split()[1]) * 1024 for line in file if line.startswith("VmRSS"))
    return len(os.listdir(f"{folder}/fd")), memory


def crowd_once(port):
    """Fills all places once, so that each has its desk."""
    for client in [Client(port) for _ in range(HOSTILE)]:
        client.line()
        client.close()


def held_out(server, seconds, pause):
    """Returns the waits of the two players, their sessions, and what the server had before and after."""
    one, other = arrive(server.port, "Ann"), arrive(server.port, "Bob")
    crowd_once(server.port)
    time.sleep(1)
    before, end = standing(server), time.monotonic() + seconds
    hostile = [
        multiprocessing.Process(target=besiege_all, args=(server.port, end, first))
        for first in range(0, HOSTILE, IN_ONE)
    ]
    for process in hostile:
        process.start()
    waits = []
    players = [threading.Thread(target=play, args=(visit, end, waits, pause)) for visit in (one, other)]
    for each in players:
        each.start()
    for each in [*players, *hostile]:
        each.join()
    time.sleep(3)
    after = standing(server)
    one.end()
    other.end()
    return waits, [one.session, other.session], before, after


@part("siege", "sixty-four hostile clients for ten minutes, while two play", True, "[SECONDS [limited]]")
def siege(count, seconds=SECONDS, limited=""):
    pause = LIMITED_PAUSE if limited else PAUSE
    with Server(program("mud_serve"), LIMITS, AS_HOSTED, console=True, limited=bool(limited)) as server:
        waits, sessions, before, after = held_out(server, float(seconds), pause)
        server.type(b"stop\n")
        status, printed = server.end()
    faults = [fault for fault in judge(printed.decode(), sessions)[0] if not STRANGERS.search(fault)]
    waits.sort()
    most, nearly = waits[-1], waits[len(waits) * 99 // 100]
    print(f"siege: {len(waits)} answers, 99 of 100 within {nearly:.3f} s, all within {most:.3f} s", flush=True)
    print(f"siege: descriptors and bytes before: {before}, after: {after}", flush=True)
    count("siege: what the two read", not faults, faults[:3])
    count("siege: each answer comes in time", most <= BOUND, f"{most} s")
    count("siege: descriptors are given back", after[0] == before[0], f"{before[0]}, then {after[0]}")
    count("siege: memory is given back", after[1] - before[1] <= GROWTH, f"{before[1]} bytes, then {after[1]}")
    count("siege: the server ends with status 0", status == 0, status)
