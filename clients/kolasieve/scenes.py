"""Scenes of sessions, made by another process, one at a time: the relay's lines don't wait for them."""

import asyncio
import functools
import json
import os
import pathlib
import signal
import sys

from kolasieve.frames import framed, receive_frame
from kolasieve.options import read
from kolasieve.planes import BUILT_IN, read_types

MAKER = pathlib.Path(__file__).with_name("scene.py")


class Scenes:
    """The process that makes scenes. It is there from the first one on; one that has ended is started again."""

    def __init__(self, library):
        self.library = library
        self.turn = asyncio.Lock()
        self.process = None

    @functools.cached_property
    def types(self):
        """The types of the technology, which magicd has taken once there are sessions to be shown."""
        technology = self.library.options.technology
        return BUILT_IN if technology is None else read_types(read(technology).decode("utf-8", "replace"))

    async def ask(self, *texts):
        """Returns the reply to a request, also where who asked no longer waits for it."""
        return await asyncio.shield(asyncio.create_task(self.answered(texts)))

    async def answered(self, texts):
        """Returns the reply to a request, of another process where one ends meanwhile; or a fault where that ends too."""
        async with self.turn:
            for _ in range(2):
                try:
                    if self.process is None:
                        await self.start()
                    self.process.stdin.write(framed(texts))
                    await self.process.stdin.drain()
                    return await receive_frame(self.process.stdout)
                except (OSError, asyncio.IncompleteReadError):
                    await self.end()
            return [b"fault", b"what draws sessions has ended"]

    async def start(self):
        self.process = await asyncio.create_subprocess_exec(
            sys.executable, str(MAKER), stdin=asyncio.subprocess.PIPE, stdout=asyncio.subprocess.PIPE,
            limit=1 << 20, start_new_session=True,
        )
        self.process.stdin.write(framed([json.dumps(self.types).encode()]))

    async def show(self, session, version, texts):
        """Has a session be shown from these texts; returns `whole`, `change` or `fault`, and a message or the reason."""
        paths = json.dumps(self.library.paths() if b"getcell " in texts[1] else {})
        return await self.ask(session.encode(), b"show", b"%d" % version, paths.encode(), *texts)

    async def whole(self, session):
        """Returns the version of a session that is shown, and the message of all of it."""
        return await self.ask(session.encode(), b"whole")

    async def near(self, session, box, violations):
        """Returns the message of what each rule forbids in a box, or nothing."""
        kind, message = await self.ask(session.encode(), b"near", json.dumps(box).encode(), violations)
        return message if kind == b"near" else None

    async def forget(self, session):
        if self.process is not None:
            await self.ask(session.encode(), b"forget")

    async def end(self):
        process, self.process = self.process, None
        if process is not None:
            process.stdin.close()
            if process.returncode is None:
                os.killpg(process.pid, signal.SIGKILL)
            await process.wait()
