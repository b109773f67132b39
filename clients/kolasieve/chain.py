"""The chain of a session's rows: each has a hash of itself and of the hash before, and the session's record the last one.

So a row that was changed, dropped, swapped or put in by accident is seen. It is no guard against who can write the log:
nothing of it is secret.
"""

import asyncio
import hashlib

# What stands before the first row.
FIRST = ""

# How many rows are looked at before others have their turn.
SLICE = 100


class Broken(Exception):
    """A session's rows aren't those that were written; the text says which."""


def link(before, number, part, at, line, reply):
    """Returns the hash of a row behind the one with the hash `before`."""
    row = b"%s %d %d %.3f %d %s%s" % (before.encode(), number, part, at, len(line), line, reply)
    return hashlib.sha256(row).hexdigest()[:32]


async def follow(rows, last=None, is_growing=False):
    """Returns the hash of the last of a session's rows. Fails at the first that doesn't follow the one before it.

    `last` is the hash that the session's record has, if it has one, or had while rows were added. Rows of before there were
    hashes have none: what comes after them shows whether they were changed.
    """
    before = FIRST
    for start in range(0, len(rows), SLICE):
        for number, part, at, line, reply, has in rows[start : start + SLICE]:
            before = link(before, number, part, at, line, reply)
            if has is not None and has != before:
                raise Broken(f"row {label(number, part)} doesn't follow the rows before it")
        await asyncio.sleep(0)
    if is_growing and last in (FIRST, *(row[5] for row in rows)):
        return before
    if last is not None and last != before:
        behind = f"behind row {label(*rows[-1][:2])} rows are missing" if rows else "its rows are missing"
        raise Broken(behind)
    return before


def label(number, part):
    """Returns how a row is named: by its line's number, and where the relay itself has added it, also by its part."""
    return f"{number}.{part}" if part else f"{number}"
