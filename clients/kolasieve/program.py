"""One magicd, as a child of this process."""

import asyncio
import logging
import os
import signal
from collections import deque
from dataclasses import dataclass, field

from kolasieve.lines import fault_of, lines_after

log = logging.getLogger("relay")

# How many bytes of output are read at a time, at most. Others have their turn after each.
CHUNK = 1 << 14


# How long magicd may take to end by itself where nobody waits for it any more, in seconds.
LONGEST_END = 0.5

# How much of a message is kept, in bytes.
LONGEST_MESSAGE = 2000


def pass_on(say):
    """Has a function called with each message of a magicd from now on, as how far its build is."""

    class Said(logging.Handler):
        def emit(self, record):
            say(record.getMessage())

    log.addHandler(Said())
    log.setLevel(logging.INFO)


class Ended(Exception):
    """magicd has ended, and won't reply."""


class Unsent(Ended):
    """magicd had ended before it was asked."""


@dataclass(eq=False)
class Asked:
    """Lines of one session that were sent together. They are numbered on from `first`."""

    name: bytes
    first: int
    count: int
    # Has the reply, or the list of them.
    replied: asyncio.Future
    is_list: bool
    replies: list = field(default_factory=list)


class Program:
    """A running magicd. It is enough that lines of one session are carried out in their order."""

    # All that are running.
    running = set()

    def __init__(self, process, on_end):
        self.process = process
        self.on_end = on_end
        self.sessions = set()
        # The names that its sessions have here.
        self.names = set()
        # The names of its cells, and whether some of them are sessions' own.
        self.cells = set()
        self.is_apart = False
        self.lines = 0
        # Whether it is for one session alone.
        self.is_alone = False
        # The last message beside its replies.
        self.said = ""
        # What isn't replied to, by the number of its first line, and by the session's name in the order of asking.
        self.asked = {}
        self.by_name = {}
        # The lines of a reply that isn't whole, and how many it lacks.
        self.reply = []
        self.lacking = 0
        self.ending = False
        self.running.add(self)
        self.reading = asyncio.create_task(self.read())
        self.telling = asyncio.create_task(self.tell())

    @classmethod
    async def start(cls, command, on_end):
        """Starts magicd in a process group of its own, so that Ctrl-C leaves it to this process."""
        process = await asyncio.create_subprocess_exec(
            *command,
            stdin=asyncio.subprocess.PIPE,
            stdout=asyncio.subprocess.PIPE,
            stderr=asyncio.subprocess.PIPE,
            start_new_session=True,
        )
        return cls(process, on_end)

    @classmethod
    async def build(cls, command):
        """Starts magicd and ends it, as the launcher's first call builds it; returns "", or why it has failed."""
        program = await cls.start(command, lambda *_: None)
        try:
            program.ending = True
            program.process.stdin.close()
            said = await program.last_words()
        finally:
            await program.stop()
        return said if program.process.returncode else ""

    def ask(self, line):
        """Sends a line, and returns a future of its reply: bytes that end with a line feed.

        The line must have a reply, and its session's name stands in it.
        """
        return self.send(line.name, [line.text], is_list=False)

    def ask_all(self, name, texts):
        """Sends lines of a session, each of which must have a reply, and returns a future of the list of replies."""
        return self.send(name, texts, is_list=True)

    def send(self, name, texts, is_list):
        replied = asyncio.get_running_loop().create_future()
        if self.ending or self.process.returncode is not None:
            replied.set_exception(Unsent())
            return replied
        asked = Asked(name, self.lines + 1, len(texts), replied, is_list)
        self.asked[asked.first] = asked
        self.by_name.setdefault(name, deque()).append(asked)
        self.lines += len(texts)
        self.process.stdin.write(b"\n".join(texts) + b"\n")
        return replied

    async def drain(self):
        """Waits until magicd has room for more lines."""
        try:
            await self.process.stdin.drain()
        except (BrokenPipeError, ConnectionResetError):
            pass

    async def tell(self):
        """Passes on what magicd says beside its replies: how far its build is, and why it ends."""
        rest = b""
        while part := await self.process.stderr.read(CHUNK):
            *lines, rest = (rest + part).split(b"\n")
            for line in lines:
                self.say(line)
            rest = rest[:LONGEST_MESSAGE]
        if rest:
            self.say(rest)

    def say(self, message):
        self.said = message[:LONGEST_MESSAGE].decode("utf-8", "replace")
        log.info("%s", self.said)

    async def last_words(self):
        """Returns why magicd has ended, once it has."""
        await asyncio.gather(self.reading, self.telling, return_exceptions=True)
        return self.why()

    def why(self):
        """Returns the last that magicd said where it has ended by itself, or how it ended."""
        return self.said if self.said and self.process.returncode > 0 else self.how()

    def how(self):
        status = self.process.returncode
        return f"magicd was killed by signal {-status}" if status < 0 else f"magicd ended with status {status}"

    async def read(self):
        """Reads replies, and hands each to who asked. A line that the end cuts is dropped."""
        rest = b""
        try:
            while part := await self.process.stdout.read(CHUNK):
                *lines, rest = (rest + part).split(b"\n")
                for line in lines:
                    self.take(line)
                await asyncio.sleep(0)
        except KeyError:
            log.error("magicd replied to nothing that was asked: %r", line)
            self.kill()
        finally:
            status = await self.process.wait()
            self.process.stdin.close()
            # Its last message says why; somebody else may have its standard error still.
            await asyncio.wait([self.telling, asyncio.create_task(self.close_input())], timeout=1)
            self.end(status)

    async def close_input(self):
        """Waits until magicd's input is closed; how magicd ended says whether it was read."""
        try:
            await self.process.stdin.wait_closed()
        except (BrokenPipeError, ConnectionResetError):
            pass

    def take(self, line):
        """Takes a line of output: a reply is handed out once it is whole."""
        self.reply.append(line)
        if self.lacking > 0:
            self.lacking -= 1
        else:
            self.lacking = lines_after(line)
        if self.lacking == 0:
            reply, self.reply = self.reply, []
            self.hand_out(reply[0], b"\n".join(reply) + b"\n")

    def hand_out(self, head, reply):
        number = fault_of(head)
        asked = self.by_name[head.split(b" ", 1)[0]][0] if number is None else self.of_number(number)
        asked.replies.append(reply)
        if len(asked.replies) < asked.count:
            return
        del self.asked[asked.first]
        queue = self.by_name[asked.name]
        queue.remove(asked)
        if not queue:
            del self.by_name[asked.name]
        if not asked.replied.done():
            asked.replied.set_result(asked.replies if asked.is_list else reply)

    def of_number(self, number):
        """Returns what was asked with the line of this number."""
        if number in self.asked:
            return self.asked[number]
        for asked in self.asked.values():
            if asked.first < number < asked.first + asked.count:
                return asked
        raise KeyError(number)

    def end(self, status):
        self.running.discard(self)
        unanswered = list(self.asked.values())
        self.asked.clear()
        self.by_name.clear()
        for asked in unanswered:
            if not asked.replied.done():
                asked.replied.set_exception(Ended())
        if not self.ending:
            log.warning("%s", self.how())
            self.on_end(self, status, self.why())

    async def stop(self):
        """Ends magicd's input, and waits for its end, but not for long."""
        self.ending = True
        if self.process.returncode is None:
            try:
                self.process.stdin.close()
                await asyncio.wait_for(self.process.wait(), LONGEST_END)
            except (asyncio.TimeoutError, BrokenPipeError, ConnectionResetError):
                self.kill()
        await asyncio.gather(self.reading, self.telling, return_exceptions=True)

    @classmethod
    def kill_all(cls):
        for each in list(cls.running):
            each.kill()

    def kill(self):
        """Kills magicd and all that it started."""
        try:
            os.killpg(self.process.pid, signal.SIGKILL)
        except ProcessLookupError:
            pass
