"""foreign.py LIBRARY URL ORIGIN: a web socket by a library that others wrote, `websockets` or `autobahn`.

It reads commands from standard input, a line each: `text TEXT`, `parts TEXT` (a message in two fragments), `ping TEXT`,
`close`. It writes what happens, a line each: `text LINE` for each line of a message, `pong TEXT`, `closed CODE REASON`;
the last is its end.
"""
import asyncio
import os
import sys


def tell(*words):
    print(*words, flush=True)


def tell_lines(text):
    """Tells a message, a line each of those that it has."""
    for line in text.splitlines():
        tell("text", line)


async def commands():
    """The commands of standard input, each as its first word and its rest."""
    loop = asyncio.get_running_loop()
    while line := await loop.run_in_executor(None, sys.stdin.readline):
        yield line.rstrip("\n").partition(" ")[::2]


# ---- websockets


async def by_websockets(url, origin):
    import websockets

    async with websockets.connect(url, origin=origin, ping_interval=None, max_size=None) as socket:
        sending = asyncio.create_task(send_by_websockets(socket))
        try:
            async for text in socket:
                tell_lines(text)
        except websockets.ConnectionClosed:
            pass
        sending.cancel()
        tell("closed", socket.close_code, socket.close_reason or "")


async def send_by_websockets(socket):
    async for word, rest in commands():
        if word == "text":
            await socket.send(rest)
        elif word == "parts":
            await socket.send([rest[: len(rest) // 2], rest[len(rest) // 2 :]])
        elif word == "ping":
            await (await socket.ping(rest.encode()))
            tell("pong", rest)
        else:
            await socket.close()


# ---- autobahn


async def by_autobahn(url, origin):
    from urllib.parse import urlsplit

    from autobahn.asyncio.websocket import WebSocketClientFactory, WebSocketClientProtocol

    ended = asyncio.get_running_loop().create_future()

    class Socket(WebSocketClientProtocol):
        def onOpen(self):
            self.sending = asyncio.ensure_future(send_by_autobahn(self))

        def onMessage(self, payload, isBinary):
            tell_lines(payload.decode())

        def onPong(self, payload):
            tell("pong", payload.decode())

        def onClose(self, wasClean, code, reason):
            tell("closed", code, reason or "")
            ended.set_result(None)

    factory = WebSocketClientFactory(url, origin=origin)
    factory.protocol = Socket
    factory.setProtocolOptions(failByDrop=False)
    where = urlsplit(url)
    await asyncio.get_running_loop().create_connection(factory, where.hostname, where.port)
    await ended


async def send_by_autobahn(socket):
    async for word, rest in commands():
        if word == "text":
            socket.sendMessage(rest.encode())
        elif word == "parts":
            socket.sendMessage(rest.encode(), fragmentSize=len(rest) // 2 + 1)
        elif word == "ping":
            socket.sendPing(rest.encode())
        else:
            socket.sendClose(1000)


def main(library, url, origin):
    asyncio.run({"websockets": by_websockets, "autobahn": by_autobahn}[library](url, origin))


if __name__ == "__main__":
    main(*sys.argv[1:])
    os._exit(0)  # The thread that reads standard input may wait still.
