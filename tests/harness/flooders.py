"""Flooders: clients that send `say` without end, from one address and from several, while eight players talk. By the
default limits they delay the players' replies by no more than BOUND. A flooder's burst goes at once. From then on all
flooders together, from one address or from several, make at most SHARE of the changes of a busy world. The addresses
are in a network of the part's own, so it wants root and `ip`."""
import contextlib
import multiprocessing
import os
import statistics
import tempfile
import threading
import time

from harness.limits import limits_by_page
from harness.networks import dialled, has_networks, within
from harness.parts import Skipped, part
from harness.programs import program
from harness.server import SECONDS, Server

# Addresses for tests (RFC 5737): the server's, those of flooders, and those of players.
OURS = "198.51.100.1"
THEIRS, OTHERS = ([f"198.51.100.{at}" for at in range(first, first + 8)] for first in (2, 10))
PLAYERS, REPLIES, PAUSE = 8, 100, 0.2
# The seconds for which the changes of flooders are counted: several may make one more each at its ends.
WINDOW = 100
# The longest delay of the 99th of 100 replies.
BOUND = 0.005
# The changes of a busy world in a second: 64 players, each with a change a second.
BUSY_CHANGES = 64
# The greatest part of them that all flooders make.
SHARE = 0.01
FLOODERS = 8
NO_SHARED_LIMITS = ["--address-lines-per-second", "0", "--address-changes-per-minute", "0"]
# The limits of changes: the rate a minute and the burst, of a session, of an address, and of all that are beyond these.
SESSION, ADDRESS, EXCESS = (limits_by_page()[f"{whose}changes-per-minute"] for whose in ("", "address-", "excess-"))


def connected(port, source, name):
    """Returns a connection from an address, whose player has this name."""
    one = dialled(OURS, port, source)
    one.sendall(b"connect %s\r\n" % name)
    return one


def read_all(one):
    """Reads until the connection ends. Silence does not end it."""
    while True:
        with contextlib.suppress(TimeoutError):
            if not one.recv(65_536):
                return


def flood(port, source, name):
    """Sends changes as fast as the server takes them, and reads everything."""
    one = connected(port, source, name)
    threading.Thread(target=read_all, args=(one,), daemon=True).start()
    while True:
        with contextlib.suppress(TimeoutError):
            one.sendall(b"say flood\r\n" * 100)


def talk(port, at, delays):
    """Plays as one who talks, and measures the delay of each reply."""
    one = connected(port, OTHERS[at % len(OTHERS)], b"Player%d" % at)
    kept = b""
    for _ in range(REPLIES):
        time.sleep(PAUSE)
        began = time.monotonic()
        one.sendall(b"look\r\n")
        while b"The Hall #0" not in kept:
            kept += one.recv(65_536)
        delays.append(time.monotonic() - began)
        kept = kept.rpartition(b"The Hall #0")[2]
    one.close()


def delay_of(port):
    """Returns the 99th of 100 delays of eight players."""
    delays = []
    players = [threading.Thread(target=talk, args=(port, at, delays)) for at in range(PLAYERS)]
    for player in players:
        player.start()
    for player in players:
        player.join()
    return statistics.quantiles(delays, n=100)[98]


def changes_of(journal):
    """Returns the number of changes by flooders in a journal."""
    with open(journal, "rb") as file:
        return file.read().count(b" flood\n")


def burst_of(sources):
    """Returns the number of changes that these flooders make at once: each has a burst, and so has each address. Where
    they then want more than the excess gives, they make its burst too.
    """
    own = sum(min(SESSION[1] * sources.count(one), ADDRESS[1]) for one in set(sources))
    return own + EXCESS[1] * (own_rate_of(sources) > EXCESS[0])


def own_rate_of(sources):
    """Returns the number of changes in a minute that the limits of sessions and addresses allow these flooders."""
    return sum(min(SESSION[0] * sources.count(one), ADDRESS[0]) for one in set(sources))


def rate_of(sources):
    """Returns the number of changes in a second that all limits then allow these flooders."""
    return min(own_rate_of(sources), EXCESS[0]) / 60


@contextlib.contextmanager
def flooding(port, sources):
    """Has these flooders send while the body runs."""
    how = [(port, source, b"Flooder%d" % at) for at, source in enumerate(sources)]
    flooders = [multiprocessing.Process(target=flood, args=words) for words in how]
    for flooder in flooders:
        flooder.start()
    try:
        yield
    finally:
        for flooder in flooders:
            flooder.kill()
            flooder.join()


def measured(sources, limited):
    """Returns the delay of the players while these flooders send, the changes of the flooders before that, and those
    in a second meanwhile. Under limits the players begin once the flooders have made their burst, and the changes are
    counted for WINDOW.
    """
    with tempfile.TemporaryDirectory() as folder:
        journal = f"{folder}/journal"
        words = ["--address", OURS, "--journal", journal, *([] if limited else NO_SHARED_LIMITS)]
        with Server(program("mud_serve"), words, limited=limited) as server, flooding(server.port, sources):
            end = time.monotonic() + 6 * SECONDS
            while limited and changes_of(journal) < burst_of(sources) and time.monotonic() < end:
                time.sleep(0.1)
            began, before = time.monotonic(), changes_of(journal)
            delay = delay_of(server.port)
            while limited and sources and time.monotonic() < began + WINDOW:
                time.sleep(1)
            return delay, before, (changes_of(journal) - before) / (time.monotonic() - began)


def play(count):
    """Counts what the flooders do, in a network with the addresses."""
    quiet, _, _ = measured([], True)
    rows = [("one", THEIRS[:1]), ("eight of one address", THEIRS[:1] * FLOODERS), ("eight of eight", THEIRS)]
    for what, sources in rows:
        delay, burst, rate = measured(sources, True)
        more = delay - quiet
        print(f"flooders: {what}: {more * 1000:+.1f} ms, {burst} changes at once, then {rate:.2f} a second, which is "
              f"{rate / BUSY_CHANGES:.1%} of a busy world's", flush=True)
        count(f"flooders: {what}: delay", more <= BOUND, f"{quiet * 1000:.1f} ms, then {delay * 1000:.1f} ms")
        count(f"flooders: {what}: burst", burst <= burst_of(sources) + len(sources), f"{burst} changes at once")
        most = min(1.1 * rate_of(sources) + 0.05, SHARE * BUSY_CHANGES)
        count(f"flooders: {what}: share", rate <= most, f"{rate:.2f} changes a second")
    delay, _, rate = measured(THEIRS[:1] * FLOODERS, False)
    print(f"flooders: without limits: {(delay - quiet) * 1000:+.1f} ms, {rate:.0f} changes a second")


@part("flooders", "clients that send changes without end delay no player, and fill no history", on_demand=True)
def flooders_part(count):
    if not has_networks():
        raise Skipped("it wants root, ip and unshare")
    within([OURS, *THEIRS, *OTHERS], play, count)
