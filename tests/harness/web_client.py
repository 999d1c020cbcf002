"""A client of a web socket for the tests (RFC 6455), written from the standard alone. It sends any bytes that it is
given, and is strict with what it reads."""
import base64
import hashlib
import os
import socket
import struct

from harness.server import HOST, SECONDS, received

GUID = b"258EAFA5-E914-47DA-95CA-C5AB0DC85B11"
CONTINUATION, TEXT, BINARY, CLOSE, PING, PONG = 0, 1, 2, 8, 9, 10
TRY_AGAIN = 1013  # The code of a close for lack of a place.
SHORT, LONG = 126, 65_536  # From these lengths on a length takes two bytes more, or eight.


class Broken(ValueError):
    """The server sent what no server may send."""


class NotLetIn(ConnectionError):
    """The server did not let a client play, and answered this status, or None if it said nothing."""

    def __init__(self, status):
        super().__init__(f"not let in: {status}")
        self.status = status


def frame(opcode, payload=b"", final=True, masked=True, reserved=0, claimed=None, longest=False):
    """Returns a frame, correct except as its arguments say. `claimed` is the length that its head claims, and with
    `longest` any length takes eight bytes."""
    length, mask = len(payload) if claimed is None else claimed, masked << 7
    head = bytes([final << 7 | reserved << 4 | opcode])
    if length >= LONG or longest:
        head += bytes([mask | 127]) + struct.pack(">Q", length)
    elif length >= SHORT:
        head += bytes([mask | 126]) + struct.pack(">H", length)
    else:
        head += bytes([mask | length])
    if not masked:
        return head + payload
    key = os.urandom(4)
    return head + key + bytes(byte ^ key[at % 4] for at, byte in enumerate(payload))


def closing(code, reason=b""):
    """Returns a close frame with this code."""
    return frame(CLOSE, struct.pack(">H", code) + reason)


def upgrade(origin, path="/play", key=None, extra=b""):
    """Returns the head of a request to play, without an origin if that is None."""
    key = key or base64.b64encode(os.urandom(16))
    fields = [f"GET {path} HTTP/1.1", f"Host: {HOST}", "Upgrade: websocket", "Connection: keep-alive, Upgrade"]
    fields += ["Sec-WebSocket-Version: 13", *[f"Origin: {origin}"] * (origin is not None)]
    return "\r\n".join(fields).encode() + b"\r\nSec-WebSocket-Key: " + key + b"\r\n" + extra + b"\r\n"


def answered(port, request, seconds=SECONDS, host=HOST):
    """Returns everything that is answered to these bytes, up to the end."""
    with socket.create_connection((host, port), timeout=seconds) as dialled:
        dialled.sendall(request)
        return rest_of(dialled)


def rest_of(dialled):
    """Returns everything that still comes, up to the end."""
    got = b""
    try:
        while piece := dialled.recv(65_536):
            got += piece
    except ConnectionError:
        pass
    return got


def status(answer):
    """Returns the status of an HTTP answer, or None if it is no answer."""
    words = answer.split(b"\r\n")[0].split(b" ")
    return int(words[1]) if words[0] == b"HTTP/1.1" and len(words) > 1 else None


class WebClient:
    """A web socket to a server that let it in. It sends and reads lines as `server.Client` does. `others` keeps the
    frames other than text, as opcodes with payloads, and `closed` and `reason` keep the code and the reason of the
    server's close. `messages` counts the messages, and `longest` is the length of the longest."""

    def __init__(self, port, origin, seconds=SECONDS, first=b""):
        self.socket = self.connection(port, seconds)
        self.frames = self.kept = b""
        self.others, self.closed, self.reason, self.messages, self.longest = [], None, None, 0, 0
        key = base64.b64encode(os.urandom(16))
        self.give(upgrade(origin, key=key) + first)
        while b"\r\n\r\n" not in self.frames:
            if not self.receive():
                raise NotLetIn(None)
        head, _, self.frames = self.frames.partition(b"\r\n\r\n")
        if status(head) != 101:
            raise NotLetIn(status(head))
        accept = base64.b64encode(hashlib.sha1(key + GUID).digest())
        lines = [line.lower() for line in head.split(b"\r\n")]
        if b"sec-websocket-accept: " + accept.lower() not in lines or accept not in head:
            raise Broken(f"not let in rightly: {head}")
        self.read_frames()

    def connection(self, port, seconds):
        """Returns the connection that carries the web socket."""
        return socket.create_connection((HOST, port), timeout=seconds)

    def give(self, some):
        """Sends these bytes as they are."""
        self.socket.sendall(some)

    def send(self, line):
        """Types a line."""
        self.give(frame(TEXT, line))

    def send_all(self, lines):
        """Types lines, each in a message of its own, in one piece."""
        self.give(b"".join(frame(TEXT, line) for line in lines))

    def receive(self):
        """Reads more and returns whether any bytes came."""
        some = received(self.socket)
        self.frames += some
        return bool(some)

    def more(self):
        """Reads more and the frames that are whole now, and returns whether any bytes came: false at the end."""
        came = self.receive()
        self.read_frames()
        return came

    def read_frames(self):
        """Takes the whole frames off the start of the received bytes."""
        while (size := self.size_of_first()) is not None:
            first, self.frames = self.frames[:size[0] + size[1]], self.frames[size[0] + size[1]:]
            self.read(first[0], first[size[0]:])

    def size_of_first(self):
        """Returns the lengths of the head and the payload of the first frame, or None if it is not whole."""
        if len(self.frames) < 2:
            return None
        head, length = 2, self.frames[1]
        if length >= 128:
            raise Broken("a server's frame with a mask")
        if length >= 126:
            width = 2 if length == 126 else 8
            if len(self.frames) < 2 + width:
                return None
            head, length = 2 + width, int.from_bytes(self.frames[2:2 + width], "big")
            if length < (SHORT if width == 2 else LONG):
                raise Broken("a length that is not the shortest")
        return (head, length) if len(self.frames) >= head + length else None

    def read(self, first, payload):
        """Reads one frame: a text must be whole and UTF-8, and nothing may follow a close."""
        if not first & 0x80 or first & 0x70:
            raise Broken(f"a frame that begins with {first:#x}")
        if self.closed is not None:
            raise Broken("a frame behind a close")
        if first & 0x0F == TEXT:
            payload.decode()
            self.kept += payload
            self.messages += 1
            self.longest = max(self.longest, len(payload))
            return
        self.others.append((first & 0x0F, payload))
        if first & 0x0F == CLOSE:
            self.closed = struct.unpack(">H", payload[:2])[0] if payload else 1005
            self.reason = payload[2:]

    def turned_away(self):
        """Returns the reason why there is no place, or None if the client is greeted."""
        while not self.messages and self.closed is None and self.more():
            pass
        return self.reason if self.closed == TRY_AGAIN else None

    def line(self):
        """Returns the next complete line. At the end returns None, and `kept` is then a prefix of a line, or
        nothing."""
        while b"\r\n" not in self.kept:
            if not self.more():
                return None
        line, _, self.kept = self.kept.partition(b"\r\n")
        return line

    def rest(self):
        """Returns the lines that still come, up to the end of the connection."""
        while self.more():
            pass
        lines, self.kept = self.kept.split(b"\r\n")[:-1], b""
        return lines

    def close(self):
        self.socket.close()

    def close_half(self):
        """Closes the sending side."""
        self.socket.shutdown(socket.SHUT_WR)
