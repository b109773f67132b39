"""A connection to a relay that carries lines, each with a future of its reply."""

import asyncio
from collections import deque

from kolasieve import addresses
from kolasieve.lines import lines_after

# No reply, and may come between two.
WAITING = b"@ waiting: "

# How a connection begins that isn't let in.
REFUSALS = (b"@ token refused", b"@ refused: ")


class Lost(Exception):
    """The connection has ended, and no reply will come; the text says why, where the relay has said it."""


class Carrier:
    """A connection to a relay, which replies to lines in their order."""

    def __init__(self, reader, writer):
        self.reader = reader
        self.writer = writer
        self.asked = deque()
        self.why = "the connection is lost"
        self.reading = asyncio.create_task(self.read())

    @classmethod
    async def connect(cls, address, token=None, tls=None):
        """Connects to a relay at a socket's path, or at HOST:PORT, and shows the token."""
        if ":" not in address:
            return cls(*await asyncio.open_unix_connection(address))
        host, port = addresses.parse(address)
        reader, writer = await asyncio.open_connection(host, port, ssl=tls)
        if token is not None:
            writer.write(token + b"\n")
        return cls(reader, writer)

    def carry(self, line):
        """Sends a line that has a reply, and returns a future of it: bytes that end with a line feed."""
        reply = asyncio.get_running_loop().create_future()
        if self.reading.done():
            reply.set_exception(Lost(self.why))
            return reply
        self.asked.append(reply)
        self.writer.write(line + b"\n")
        return reply

    async def read(self):
        """Reads replies, and hands each to who asked."""
        try:
            while head := await self.reader.readline():
                if head.startswith(WAITING):
                    continue
                if head.startswith(REFUSALS):
                    self.why = head.decode("utf-8", "replace").removeprefix("@ ").strip()
                    break
                rest = [await self.reader.readline() for _ in range(lines_after(head))]
                reply = self.asked.popleft()
                if not reply.done():
                    reply.set_result(b"".join([head, *rest]))
        except (OSError, asyncio.IncompleteReadError, ValueError):
            pass
        finally:
            for reply in self.asked:
                if not reply.done():
                    reply.set_exception(Lost(self.why))

    async def close(self):
        self.writer.close()
        await asyncio.gather(self.reading, return_exceptions=True)
