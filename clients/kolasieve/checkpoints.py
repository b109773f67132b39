"""Checkpoints: a session's own paint as a cell, with which a few lines make it again in a magicd that has this cell.

A checkpoint's text has the lines of the session's placed cells, and then its own paint as `%save` writes it.
"""

import asyncio
import pathlib
import secrets
from dataclasses import dataclass

from kolasieve.lines import Line
from kolasieve.log import LogFault
from kolasieve.program import Ended
from kolasieve.restoring import Unplayed, play_lines

# How many cells a magicd takes.
MOST_CELLS = 64

# How often a magicd is started before it is given up.
TRIES = 3

# What must be the same of a session before and after: its layout, and once all is checked, its marks.
LAYOUT = (b"%%save %s", b"%%uses %s")
MARKS = b"%%errors %s -1048576 -1048576 1048576 1048576"
COUNT = b"%s drc count"

# How often a session that takes no more commands is asked whether all is checked, and how many seconds lie between.
LOOKS = 100
PAUSE = 0.1


class Uncompacted(Exception):
    """A session has no new checkpoint, and is as it was; the text says why."""


@dataclass
class Base:
    """What makes a session again as it was at a checkpoint: the name and the file of a cell, and lines."""

    cell: tuple
    lines: list


class Apart:
    """Magicds that have sessions' own cells: all that are asked for while one is starting share the next one."""

    def __init__(self, library, start):
        self.library = library
        self.start = start
        self.wanted = []
        self.starting = None

    async def with_cell(self, name, path):
        """Returns a magicd that has this cell. Its file is gone then."""
        started = asyncio.get_running_loop().create_future()
        self.wanted.append((name, path, started))
        if self.starting is None:
            self.starting = asyncio.create_task(self.start_all())
        program = await started
        if program is None:
            raise Unplayed("magicd doesn't start with its checkpoint")
        return program

    async def start_all(self):
        while self.wanted:
            # Those that come at the same time have their turn to ask.
            await asyncio.sleep(0)
            room = MOST_CELLS - len(self.library.cells)
            taken, self.wanted = self.wanted[:room], self.wanted[room:]
            program = await self.start_with({name: path for name, path, _ in taken})
            for _, path, started in taken:
                pathlib.Path(path).unlink(missing_ok=True)
                if not started.done():
                    started.set_result(program)
        self.starting = None

    async def start_with(self, cells):
        try:
            return await self.start(cells, TRIES)
        except Unplayed:
            return None


async def read(session):
    """Returns what makes a session again as it was at its last checkpoint that holds, or nothing where there is none."""
    hash = session.edits.base().checkpoint
    return None if hash is None else base_of(session, await session.held.text(hash))


def base_of(session, text):
    uses, head, paint = text.partition(b"magic\n")
    # Nobody knows the cell's name, so nobody's line has it.
    name = f"checkpoint_{secrets.token_hex(8)}"
    path = session.relay.library.copy(name, head + paint)
    lines = [b"dump %s 0 0" % name.encode(), *uses.splitlines()]
    return Base((name, path), [b"%s %s" % (session.name, line) for line in lines])


async def make(session):
    """Makes a session again in a magicd of its own from what it is now.

    Returns that magicd, in which it has another journal, how many entries that has, and the checkpoint's text. Fails where
    it isn't the same there.
    """
    before, after = session.program, None
    try:
        text = body(await look(before, session, b"%%uses %s")) + body(await look(before, session, b"%%save %s"))
        base = base_of(session, text)
        after, reply = await session.relay.open_anywhere(session, base.cell)
        if after is None:
            raise Uncompacted(reply.decode().strip())
        lines = base.lines if session.edits.box is None else [*base.lines, session.edits.box]
        await play_lines(after, session.name, lines)
        entries = len(lines) + await compare(session, before, after)
    except (Uncompacted, Unplayed, LogFault, Ended) as fault:
        if after is not None:
            await session.close_in(after)
        if session.program is not before:
            raise Ended from None
        raise Uncompacted(str(fault) or "magicd has ended") from None
    return after, entries, text


async def compare(session, before, after):
    """Fails where a session isn't the same in two magicds. Returns how many entries that has cost."""
    for question in LAYOUT:
        await compare_replies(session, before, after, question)
    caught_up = [await catch_up(session, program) for program in (before, after)]
    session.entries += 1
    if all(b" refused 5 " in reply for reply in caught_up):
        # More marks than the quota allows: each has those of what it has checked, in its own order.
        return 1
    if all(b" refused " not in reply for reply in caught_up) and await compare_replies(session, before, after, MARKS):
        return 1
    await compare_replies(session, before, after, COUNT)
    session.entries += 1
    return 2


async def compare_replies(session, before, after, question):
    """Fails where two magicds reply otherwise to a question. Returns whether it isn't refused."""
    replies = [await ask(program, session, question) for program in (before, after)]
    if replies[0] != replies[1]:
        raise Uncompacted(f"{(question % session.name).decode()} differs")
    return b" refused " not in replies[0].split(b"\n", 1)[0]


async def catch_up(session, program):
    """Has all areas of a session checked, and returns the reply. One with a full journal is checked beside it."""
    reply = await ask(program, session, b"%s drc catchup")
    if b" refused 6 " not in reply:
        return reply
    for _ in range(LOOKS):
        stat = await ask(program, session, b"%%stat %s")
        if b" 0 dirty" in stat:
            return stat
        await asyncio.sleep(PAUSE)
    return reply


async def look(program, session, question):
    reply = await ask(program, session, question)
    if b" refused " in reply.split(b"\n", 1)[0]:
        raise Uncompacted(reply.decode().strip())
    return reply


async def ask(program, session, question):
    return await program.ask(Line.of(question % session.name))


def body(reply):
    """Returns the lines behind the first of a reply."""
    return reply.partition(b"\n")[2]
