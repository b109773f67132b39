"""The rows of a session that hold: what undo and redo have left of its lines, and what makes it again."""

import asyncio
from dataclasses import dataclass

from kolasieve.chain import SLICE, label
from kolasieve.lines import LONGEST_LINE, Line
from kolasieve.log import LogFault

# The commands that can be undone.
EDITS = {b"paint", b"erase", b"dump", b"getcell"}

# Of these, those whose effect depends on the box.
IN_THE_BOX = {b"paint", b"erase"}

CATCHUP = [b"drc", b"catchup"]

# The first words of lines of a session that the relay carries out itself; what it then says of an edit.
UNDO, REDO, COMPACT = RELAYED = (b"@undo", b"@redo", b"@compact")
UNDONE = {UNDO: b"undone", REDO: b"redone"}

# The first words of rows that say when a session was closed and opened again.
CLOSE, REOPEN = b"%close", b"@reopen"


class Refused(Exception):
    """There is no such edit to undo or redo; the text says why."""


@dataclass(eq=False, slots=True)
class Edit:
    """A line that has painted, the line that has set its box, and the edit before it: each stands for all that hold then.

    The first one has no line, and stands for a session without edits.
    """

    number: int = 0
    line: bytes = None
    box: bytes = None
    before: object = None
    # The hash of the checkpoint's text with which the session was as it is then.
    checkpoint: str = None


class Edits:
    """The edits of a session as its rows have them, taken one after another."""

    def __init__(self, name):
        self.name = name
        self.ok = b"%s ok\n" % name
        # The last edit that holds, and those that were undone, the last one last.
        self.last = Edit()
        self.undone = []
        # The line of the session's box.
        self.box = None
        # Whether its areas were ever asked to be checked.
        self.is_checked = False
        # Whether all of its rows are lines that magicd has carried out.
        self.is_plain = True

    @classmethod
    async def of(cls, name, rows):
        """Returns what these rows have of edits. Fails where one isn't a line of this session that has a number."""
        edits = cls(name)
        for start in range(0, len(rows), SLICE):
            for row in rows[start : start + SLICE]:
                if not is_line(row.line, name):
                    raise LogFault(f"row {label(row.number, row.part)} is no line of a command")
                edits.take(row.line, row.number, row.reply)
            await asyncio.sleep(0)
        return edits

    def take(self, line, number, reply):
        """Takes a row."""
        words = line.split()
        if words[0] in (CLOSE, REOPEN):
            pass
        elif words[0] in RELAYED:
            self.is_plain = False
            self.take_relayed(words[0], reply)
        elif words[1:] == CATCHUP:
            # Also one that was refused has checked what it could.
            self.is_checked = True
        elif reply != self.ok:
            # A command that was refused has changed nothing, nor has one that only asks.
            pass
        elif words[1] == b"box":
            self.box = line
        elif words[1] in EDITS:
            self.last = Edit(number, line, self.box if words[1] in IN_THE_BOX else None, self.last)
            self.undone.clear()
        else:
            self.is_checked = True

    def take_relayed(self, what, reply):
        if what == UNDO:
            self.undone.append(self.last)
            self.last = self.last.before
        elif what == REDO:
            self.last = self.undone.pop()
        else:
            self.last.checkpoint = reply.split()[-1].decode()

    # ---- undo and redo

    def choose(self, what, number):
        """Returns the edit of this number, that is to be undone or redone, and whether it is so already.

        Fails where another one is the last edit, or the next one to be redone.
        """
        last = self.last if self.last.before is not None else None
        undone = self.undone[-1] if self.undone else None
        one, done = (last, undone) if what == UNDO else (undone, last)
        for edit, is_done in (one, False), (done, True):
            if edit is not None and edit.number == number:
                return edit, is_done
        raise Refused("no edit" if one is None else f"edit {one.number} comes first")

    # ---- making the session again

    def base(self):
        """Returns the last edit that holds with which there is a checkpoint, or the one that stands for none."""
        edit = self.last
        while edit.checkpoint is None and edit.before is not None:
            edit = edit.before
        return edit

    def lines(self, is_whole=False):
        """Returns the lines that make the session again from there, or from its begin, each with the reply `ok`."""
        base = None if is_whole else self.base()
        edits = []
        edit = self.last
        while edit is not base and edit.before is not None:
            edits.append(edit)
            edit = edit.before
        lines = []
        box = None
        for edit in reversed(edits):
            if edit.box is not None and edit.box != box:
                box = edit.box
                lines.append(box)
            lines.append(edit.line)
        if self.box not in (None, box):
            lines.append(self.box)
        return lines


def is_line(text, name):
    """Returns whether a row has one line of this session that has a number."""
    if b"\n" in text or len(text) > LONGEST_LINE:
        return False
    if text.startswith(name + b" "):
        return True
    line = Line.of(text)
    return line.name == name and (line.is_command or line.words[0] in (*RELAYED, CLOSE, REOPEN))
