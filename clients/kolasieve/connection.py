"""A connection to the relay: its lines, and their replies in the same order."""

import asyncio
import hmac
import itertools
import re

from kolasieve.edits import COMPACT, RELAYED
from kolasieve.library import Unloaded
from kolasieve.lines import LONGEST_LINE, Line, fault_of
from kolasieve.log import LogFault
from kolasieve.names import of_nobody
from kolasieve.program import Ended, Unsent
from kolasieve.restoring import Unplayed
from kolasieve.session import MOST_ENDS
from kolasieve.sharing import USERS, Unshown
from kolasieve.starting import Failing
from kolasieve.turns import Turns, give_way

# How many lines may wait for their replies.
MOST_UNANSWERED = 1000

# How many texts may be asked for and unread: each may have megabytes.
MOST_TEXTS = 4

# The line that ends a connection, once all lines before it are replied to.
END = b"@quit"

# How many bytes of replies may be unread while lines are handed on.
MOST_UNREAD = 1 << 20


class Connection:
    """A designer's connection. Only it may use the sessions that it opens."""

    def __init__(self, relay, reader, writer, accepted, owner, token=None):
        self.relay = relay
        self.reader = reader
        self.writer = writer
        self.accepted = accepted
        self.owner = owner
        self.token = token
        self.sessions = {}
        self.lines = 0
        self.turns = Turns(self.carry_out)
        # Replies in the order of the lines: bytes, or futures of them, and whether the line is for a text.
        self.replies = asyncio.Queue()
        self.unanswered = asyncio.Semaphore(MOST_UNANSWERED)
        self.texts = asyncio.Semaphore(MOST_TEXTS)
        writer.transport.set_write_buffer_limits(high=MOST_UNREAD)

    async def serve(self):
        """Serves the connection until it ends."""
        writing = asyncio.create_task(self.write_replies())
        try:
            if await self.may_come_in():
                while (text := await self.next_line()) not in (None, END):
                    await self.take(Line.of(text))
                    await give_way(self.lines)
        except (ConnectionError, BrokenPipeError):
            pass
        finally:
            await self.turns.finish()
            await asyncio.gather(*(self.relay.leave(session) for session in list(self.sessions.values())))
            self.replies.put_nowait(None)
            await writing
            self.writer.close()

    async def may_come_in(self):
        """Over a port, a client's first line must be the token; and an owner may have only so many connections."""
        if self.token is not None:
            text = await self.next_line()
            if text is None or not hmac.compare_digest(text.strip(), self.token):
                self.answer(b"@ token refused\n")
                return False
        refusal = self.accepted.let_in(self.owner)
        if refusal is not None:
            self.answer(b"@ refused: %s\n" % refusal.encode())
        return refusal is None

    async def next_line(self):
        """Returns the next line without its line feed, cut where it is too long, or None at the end."""
        kept = b""
        while True:
            try:
                return (kept + (await self.reader.readuntil(b"\n"))[:-1])[:LONGEST_LINE]
            except asyncio.LimitOverrunError as overrun:
                kept = (kept + await self.reader.readexactly(overrun.consumed))[:LONGEST_LINE]
            except asyncio.IncompleteReadError:
                # A line that the connection's end has cut isn't done: nobody knows the rest.
                return None

    # ---- lines

    async def take(self, line):
        """Hands a line on once there is room for its reply."""
        self.lines += 1
        if line.is_silent:
            return
        await self.writer.drain()
        await self.unanswered.acquire()
        if line.words == (b"@sessions",):
            # What was asked before is seen in the list.
            await self.turns.finish()
        if line.is_for_text:
            await self.texts.acquire()
        if self.turns.wants(line):
            self.answer(self.turns.take(line, self.lines), line.is_for_text)
        else:
            self.answer(await self.carry_out(line, self.lines), line.is_for_text)

    async def carry_out(self, line, number):
        """Carries out a line, or hands it on, and returns the reply, or a future of it."""
        name = line.name
        session = self.sessions.get(name)
        if line.words[0] == b"@resume":
            return await self.resume(line, number)
        if line.words[0] in (b"@reopen", b"@leave"):
            return await self.take_up_or_leave(line, number, session)
        if line.words == (b"@sessions",):
            return await self.list_sessions()
        if line.words[0] == b"@load":
            return await self.load(line, number)
        if line.words == (b"@cells",):
            return await self.list_cells()
        if line.words[0] == b"@share":
            return self.share(line, number, session)
        if line.words[0] == b"@show":
            return await self.show(line, number)
        if line.words[0] == b"%open" and name is not None and len(line.words) == 2:
            return await self.relay.open(name, self)
        if line.words[0] == b"%close" and session is not None and len(line.words) == 2:
            return await self.relay.close(session)
        if line.words[0] in RELAYED and (fault := fault_in(line, session)):
            return b"line %d fault %s\n" % (number, fault)
        if session is None:
            return asyncio.ensure_future(numbered(self.of_nobody(line), number))
        reply = asyncio.ensure_future(numbered(session.ask(line), number))
        if session.program is not None:
            await session.program.drain()
        return reply

    async def of_nobody(self, line):
        """Returns the reply to a line of no session that this connection has: its fault."""
        ends = 0
        while ends < MOST_ENDS:
            try:
                program = await self.relay.any_program()
                asked = of_nobody(program, line)
                return b"line 0 fault 4 not open\n" if asked is None else await program.ask(asked)
            except Failing as fault:
                return b"@ refused: %s\n" % str(fault).encode()
            except Unsent:
                pass
            except Ended:
                ends += 1
        return b"@ refused: magicd ended %d times before it replied\n" % ends

    async def resume(self, line, number):
        name = line.name or b""
        seen = line.words[2] if len(line.words) > 2 else None
        if not name or len(line.words) > 3 or (seen is not None and not seen.isdigit()):
            return b"line %d fault 1 unknown command\n" % number
        try:
            return await self.relay.resume(name, self, None if seen is None else int(seen))
        except Unplayed as fault:
            return b"%s refused resume %s\n" % (name, str(fault).encode())

    async def take_up_or_leave(self, line, number, session):
        """Returns the reply to `@reopen NAME` or `@leave NAME`."""
        what, name = line.words[0][1:], line.name
        if len(line.words) != 2 or name is None:
            return b"line %d fault 1 unknown command\n" % number
        if what == b"leave" and session is None:
            return b"line %d fault 4 not open\n" % number
        try:
            if what == b"reopen":
                return await self.relay.reopen(name, self)
            if session.held is None:
                raise Unplayed("there is no log")
        except Unplayed as fault:
            return b"%s refused %s %s\n" % (name, what, str(fault).encode())
        del self.sessions[name]
        await self.relay.leave(session)
        return b"%s left\n" % name

    async def list_sessions(self):
        """Returns how many sessions this owner has, and a line for each."""
        try:
            states = await self.relay.states(self.owner)
        except LogFault as fault:
            return b"@ refused: %s\n" % str(fault).encode()
        lines = [b"@ sessions %d\n" % len(states)]
        lines.extend(b"@ %s %s\n" % (name, state.encode()) for (_, name), state in states.items())
        return b"".join(lines)

    async def load(self, line, number):
        if len(line.words) != 3:
            return b"line %d fault 1 unknown command\n" % number
        _, name, path = line.words
        try:
            await self.relay.load(name, path, self)
        except (Unloaded, LogFault) as fault:
            return b"@ refused load %s: %s\n" % (name, str(fault).encode("utf-8", "replace"))
        return b"@ loaded %s\n" % name

    def share(self, line, number, session):
        if len(line.words) != 3 or line.name is None or USERS.match(line.words[2]) is None:
            return b"line %d fault 1 unknown command\n" % number
        if session is None:
            return b"line %d fault 4 not open\n" % number
        self.relay.shares.share(session.key, line.words[2].decode("utf-8", "replace"))
        return b"%s shared %s\n" % (line.name, line.words[2])

    async def show(self, line, number):
        if len(line.words) != 2:
            return b"line %d fault 1 unknown command\n" % number
        try:
            return await self.relay.show(line.words[1].decode("utf-8", "replace"), self.owner)
        except Unshown as fault:
            return b"%s refused show %s\n" % (line.words[1], str(fault).encode())

    async def list_cells(self):
        """Returns how many cells there are, and a line for each."""
        library = self.relay.library
        try:
            await library.read_cells()
        except LogFault as fault:
            return b"@ refused: %s\n" % str(fault).encode()
        return b"@ cells %d\n" % len(library.cells) + b"".join(b"@ %s\n" % name.encode() for name in library.cells)

    # ---- replies

    def tell(self, text):
        """Writes a line that is no reply, between two replies."""
        if not self.writer.is_closing():
            self.writer.write(text)

    def answer(self, reply, is_text=False):
        """Queues a reply: bytes, or a future of them."""
        self.replies.put_nowait((reply, is_text))

    async def write_replies(self):
        is_there = True
        for written in itertools.count(1):
            await give_way(written)
            queued = await self.replies.get()
            if queued is None:
                return
            reply, is_text = queued
            text = reply if isinstance(reply, bytes) else await reply
            self.unanswered.release()
            if is_there:
                try:
                    self.writer.write(text)
                    await self.writer.drain()
                except (ConnectionError, BrokenPipeError):
                    is_there = False
            if is_text:
                self.texts.release()


async def numbered(reply, number):
    """Returns the reply to a line; a fault has the number of the line in its connection."""
    text = await reply
    if fault_of(text) is not None:
        return re.sub(rb"\Aline [0-9]+ ", b"line %d " % number, text)
    return text


def fault_in(line, session):
    """Returns what is wrong with a line that is to have the name of a session in use and, for undo, an edit's number."""
    if len(line.words) != (2 if line.words[0] == COMPACT else 3):
        return b"1 unknown command"
    if len(line.words) == 3 and re.fullmatch(rb"[0-9]{1,10}", line.words[2]) is None:
        return b"2 bad number"
    return None if session is not None else b"4 not open"
