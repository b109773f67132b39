"""Lines of a connection that take a while: those of other sessions go on meanwhile, those of the same wait."""

import asyncio
from collections import deque

# The first words of lines that open, close or make a session again.
LONG = {b"%open", b"%close", b"@resume", b"@reopen", b"@leave"}

# How many of them a connection may have under way at a time.
MOST_AT_ONCE = 4

# After how many rounds a loop that may not have to wait lets others go on.
IN_A_ROW = 50


async def give_way(rounds):
    """Lets others go on, once in so many rounds of a loop that may not have to wait."""
    if rounds % IN_A_ROW == 0:
        await asyncio.sleep(0)


class Turns:
    """The lines that wait for one of their session, by its name."""

    def __init__(self, carry_out):
        # Carries out a line, and returns the reply or a future of it.
        self.carry_out = carry_out
        self.queues = {}
        self.tasks = set()
        # The replies to lines that close sessions, until they are there.
        self.closing = set()
        self.room = asyncio.Semaphore(MOST_AT_ONCE)

    def wants(self, line):
        """Returns whether a line isn't carried out at once."""
        return line.name in self.queues or line.words[0] in LONG

    def take(self, line, number):
        """Has a line carried out in its turn, and returns a future of the reply."""
        answered = asyncio.get_running_loop().create_future()
        if line.words[0] == b"%close":
            self.closing.add(answered)
            answered.add_done_callback(self.closing.discard)
        # A session that is closed before makes room for one that is opened.
        before = list(self.closing) if line.words[0] == b"%open" else []
        is_first = line.name not in self.queues
        self.queues.setdefault(line.name, deque()).append((line, number, before, answered))
        if is_first:
            task = asyncio.create_task(self.carry_out_all(line.name))
            self.tasks.add(task)
            task.add_done_callback(self.tasks.discard)
        return answered

    async def carry_out_all(self, name):
        queue = self.queues[name]
        while queue:
            line, number, before, answered = queue[0]
            if before:
                await asyncio.wait(before)
            try:
                if line.words[0] in LONG:
                    async with self.room:
                        reply = await self.carry_out(line, number)
                else:
                    reply = await self.carry_out(line, number)
                pass_on(reply, answered)
            except Exception as fault:
                answered.set_exception(fault)
            queue.popleft()
        del self.queues[name]

    async def finish(self):
        """Waits until no line waits for its turn."""
        while self.tasks:
            await asyncio.wait(self.tasks)


def pass_on(reply, answered):
    """Gives a future a reply, or what another one will have."""
    if isinstance(reply, bytes):
        answered.set_result(reply)
        return

    def settle(replied):
        if replied.cancelled():
            answered.cancel()
        elif replied.exception() is not None:
            answered.set_exception(replied.exception())
        else:
            answered.set_result(replied.result())

    reply.add_done_callback(settle)
