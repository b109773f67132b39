"""Starting magicd, and again where it ends by itself: after pauses that grow."""

import asyncio

from kolasieve.lines import Line
from kolasieve.program import Ended, Program
from kolasieve.restoring import Unplayed

# The pause after the first end in a row, in seconds; each further one is twice as long, up to the longest.
FIRST_PAUSE = 0.05
LONGEST_PAUSE = 30

# A line of no session, which every magicd replies to.
PROBE = Line.of(b"%stat")

# After how many ends in a row nobody waits for a magicd any more.
STARTS = 10


class Failing(Unplayed):
    """One magicd after another ends; the text has what the last one said."""


class Starts:
    """Starts magicd. Those that end before any line of a session was replied to end in a row."""

    def __init__(self, on_end, longest_pause=LONGEST_PAUSE):
        self.on_end = on_end
        self.longest_pause = longest_pause
        # How many have replied, and how many have ended in a row.
        self.count = 0
        self.ends = 0
        # When the next one may be started, as the loop has its time, and why the last one has ended.
        self.next = 0
        self.why = ""
        self.stopped = asyncio.Event()

    async def start(self, command, tries=STARTS):
        """Starts one, once the pause is over, and returns it once it replies.

        Fails where so many that were tried have ended, or too many in a row.
        """
        for _ in range(tries):
            await self.pause()
            try:
                program = await Program.start(command, self.on_end)
            except OSError as fault:
                self.has_ended(f"{command[0]}: {fault.strerror}")
                if self.count == 0:
                    raise Failing(f"magicd doesn't start: {self.why}") from None
                continue
            try:
                await program.ask(PROBE)
            except Ended:
                continue
            self.count += 1
            return program
        raise self.failing()

    async def pause(self):
        rest = self.next - asyncio.get_running_loop().time()
        if self.stopped.is_set() or (self.ends >= STARTS and rest > 0):
            raise self.failing()
        if rest > 0:
            try:
                await asyncio.wait_for(self.stopped.wait(), rest)
            except TimeoutError:
                return
            raise self.failing()

    def stop(self):
        """Starts no more."""
        self.why = "the relay ends"
        self.stopped.set()

    def failing(self):
        return Failing(f"magicd ends: {self.why}")

    def has_ended(self, why):
        """Counts an end."""
        self.why = why
        pause = min(FIRST_PAUSE * 2**self.ends, self.longest_pause)
        self.ends += 1
        self.next = asyncio.get_running_loop().time() + pause

    def has_served(self):
        """A line of a session was replied to: what ends now doesn't end in a row."""
        self.ends = 0
