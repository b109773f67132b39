"""Making a session again: its lines are played in a magicd, and the replies compared."""

import asyncio
from collections import deque
from operator import attrgetter

from kolasieve.lines import Line, depends_on_checks, fault_of
from kolasieve.log import kept

# How many lines are sent together. Twice as many are under way at a time, so that others' lines come between them.
SOME = 250


class Unplayed(Exception):
    """A session can't be made again from the log; the text says why."""


async def play_rows(program, name, rows):
    """Plays the lines of rows, and fails where a reply isn't the one that the log has. Returns how many there are."""

    def check(row, reply):
        if reply != row.reply:
            check_played(row, reply)

    await play(program, name, rows, attrgetter("line"), check)
    return len(rows)


async def play_edits(program, name, edits, base=None):
    """Plays the lines of a session that hold, from a checkpoint on if there is one, and checks its areas where they were.

    Fails where one isn't replied to with `ok`. Returns how many entries the journal has then.
    """
    lines = [] if base is None else base.lines
    lines = lines + edits.lines()
    await play_lines(program, name, lines)
    if edits.is_checked:
        await program.ask(Line.of(b"%s drc catchup" % name))
    return len(lines) + edits.is_checked


async def play_lines(program, name, lines):
    """Plays lines that have the reply `ok`, and fails where one hasn't."""
    ok = b"%s ok\n" % name

    def check(line, reply):
        if reply != ok:
            raise differs(line, reply)

    await play(program, name, lines, bytes, check)


async def play(program, name, whole, line_of, check):
    """Sends a line for each part of the whole, some at a time, and has each reply checked."""
    under_way = deque()

    async def check_first():
        some, replies = under_way[0]
        for each, reply in zip(some, await replies):
            check(each, reply)
        under_way.popleft()

    try:
        for start in range(0, len(whole), SOME):
            some = whole[start : start + SOME]
            under_way.append((some, program.ask_all(name, [line_of(each) for each in some])))
            if len(under_way) == 2:
                await check_first()
        while under_way:
            await check_first()
    finally:
        # What was asked is replied to before the session is closed or used.
        await asyncio.gather(*(replies for _, replies in under_way), return_exceptions=True)


def check_played(row, reply):
    """Fails where a reply isn't the one that the log has of a row."""
    if depends_on_checks(Line.of(row.line)) and fault_of(reply) is None and not is_out_of_memory(reply):
        return
    if kept(reply) != row.reply:
        raise Unplayed("memory, try again" if is_out_of_memory(reply) else f"line {row.number} differs")


def is_out_of_memory(reply):
    return b" refused 9 " in reply.split(b"\n", 1)[0] + b" "


def differs(line, reply):
    said = reply.split(b"\n", 1)[0].decode("utf-8", "replace")
    line = line.decode("utf-8", "replace")
    return Unplayed("memory, try again" if is_out_of_memory(reply) else f"{line} differs: {said}")
