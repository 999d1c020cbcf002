"""A server ends in little memory: from the moment in which it is told to end it may use half a megabyte more, and no
more. It then prints its whole history. With nothing more it may end with its message instead, and its output is then a
prefix of that."""
import struct
import tempfile

from harness.journal import ended
from harness.parts import part
from harness.preload import library
from harness.programs import program
from harness.server import Client, Server

# The number and the length of the texts in the history, and the number of players, each at a desk.
CHANGES, LENGTH, PLAYERS = 6000, 880, 4
HALF_A_MEGABYTE = 524_288
STATUSES = {HALF_A_MEGABYTE: [0], 1: [0, 4]}


def said():
    """Returns a history of texts, before its last line."""
    text = "x" * LENGTH
    lines = ['mud history 2', '1 1 player #2 "Ann"', *[f'{n} 1 say #2 "{text}"' for n in range(2, CHANGES + 1)]]
    return "".join(f"{line}\n" for line in lines).encode()


def arrive(port):
    """Returns a client that is Ann, and has said something."""
    client = Client(port)
    client.send(b"connect Ann")
    client.send(b"say hi")
    while not client.line().endswith(b"said"):
        pass
    return client


def why_wrong(room):
    """Returns what went wrong if a server may use this many bytes more at its end, or nothing."""
    with tempfile.NamedTemporaryFile() as file, tempfile.NamedTemporaryFile() as ceiling:
        file.write(ended(said()))
        file.flush()
        ceiling.write(struct.pack("q", 0))
        ceiling.flush()
        environment = {"LD_PRELOAD": library("ceiling"), "CEILING_FILE": ceiling.name}
        with Server(program("mud_serve"), ["--load", file.name], environment, console=True) as server:
            clients = [arrive(server.port) for _ in range(PLAYERS)]
            ceiling.seek(0)
            ceiling.write(struct.pack("q", room))
            ceiling.flush()
            server.type(b"stop\n")
            status, printed = server.end()
            for client in clients:
                client.close()
    right = said() + b"".join(b"%d %d say #2 hi\n" % (CHANGES + n, n) for n in range(1, PLAYERS + 1))
    is_right = printed == ended(right) if status == 0 else ended(right).startswith(printed)
    if status in STATUSES[room] and is_right:
        return ""
    return f"status {status}, {len(printed)} bytes of {len(ended(right))}, {server.said()[-80:]}"


@part("last-memory", "a server that ends needs no more than half a megabyte beyond what it has")
def last_memory(count):
    for room in STATUSES:
        count.tries(f"last memory: {room} bytes", why_wrong, room)
