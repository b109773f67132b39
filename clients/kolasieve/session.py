"""Sessions behind a relay: a session is its list of lines, and can be made again from them."""

import asyncio
import functools
import itertools
import logging
import math
from collections import deque
from dataclasses import dataclass, field

from kolasieve import checkpoints
from kolasieve.edits import COMPACT, RELAYED, UNDONE, Edits, Refused
from kolasieve.lines import Line, is_journalled
from kolasieve.log import LogFault, title
from kolasieve.program import Ended, Unsent
from kolasieve.restoring import Unplayed, play_edits, play_rows
from kolasieve.turns import give_way

log = logging.getLogger("relay")

# After how many ends a line's session is made again in a magicd of its own, and after how many there it isn't sent again.
MOST_ENDS = 2


@dataclass(eq=False)
class Asked:
    """A line of a session, and where its reply goes."""

    line: Line
    number: int
    answered: asyncio.Future
    # The line as magicd is asked, and its reply once it is.
    guarded: Line = None
    reply: asyncio.Future = None
    # How many magicd have ended while the line was without a reply, and how many of these while it was all they were asked.
    ends: int = 0
    ends_alone: int = 0

    @property
    def is_relayed(self):
        """Whether the relay carries the line out itself."""
        return self.line.words[0] in RELAYED

    def is_suspect(self, alone):
        """A magicd has ended, for this line alone or not: counts it where it has got no reply."""
        fault = self.reply.exception() if self.reply.done() else Ended()
        if isinstance(fault, Ended) and not isinstance(fault, Unsent):
            self.ends += 1
            self.ends_alone += alone


@dataclass(eq=False)
class Session:
    """A session that is in use at this relay.

    Its lines are carried out in their order. A command that its journal has is durable before its reply is passed on; any
    other reply is passed on once it is certain that the relay still held the session when it came.
    """

    name: bytes
    owner: str
    relay: object
    # The connection that uses the session, if one does.
    user: object = None
    # The session as the log has it, if there is one.
    held: object = None
    # What its rows have of edits; none until they are read.
    edits: Edits = None
    program: object = None
    # The number of the last line that had one: it began with the name, or the relay carried it out.
    number: int = 0
    waiting: deque = field(default_factory=deque)
    # How many of these magicd was asked, from the first.
    sent: int = 0
    # How many entries its journal has, and at how many it is to be made short; where it can't be, at none.
    entries: int = 0
    most_entries: float = math.inf
    task: asyncio.Task = None
    # Whether it is to have a magicd of its own, and how many have ended while it was made again.
    alone: bool = False
    ends: int = 0
    # Set once nothing can be asked any more: the text is for the designer.
    lost: str = None

    @property
    def key(self):
        """What no other session has: an owner's sessions differ in their names."""
        return self.owner, self.name

    @property
    def title(self):
        """What the session is called where there are several owners."""
        return title(self.owner, self.name)

    def hold(self, held):
        """Has the session kept in the log from now on."""
        self.held = held
        held.lost.add_done_callback(lambda lost: self.lose(lost.result()))

    def ask(self, line):
        """Hands a line on, and returns a future of its reply, which the designer may then have."""
        asked = Asked(line, 0, asyncio.get_running_loop().create_future())
        if line.is_command or asked.is_relayed:
            self.number += 1
            asked.number = self.number
        self.waiting.append(asked)
        if self.program is not None and self.sent == len(self.waiting) - 1:
            self.send_waiting()
        if self.task is None:
            self.task = asyncio.create_task(self.answer_all())
        return asked.answered

    async def answer_all(self):
        """Waits for replies, one after another, until no line waits."""
        answered = 0
        try:
            while self.waiting:
                await self.answer(self.waiting[0])
                self.waiting.popleft()
                self.sent = max(self.sent - 1, 0)
                answered += 1
                await give_way(answered)
        finally:
            self.task = None

    async def answer(self, asked):
        while self.lost is None:
            if asked.ends_alone == MOST_ENDS:
                self.refuse(asked)
                return
            try:
                if self.program is None:
                    await self.restore_or_not()
                if asked.is_relayed:
                    asked.answered.set_result(await self.carry_out(asked))
                    return
                if asked.reply is None:
                    await self.prepare(asked)
                    self.send_waiting()
                reply = await asked.reply
            except Ended:
                self.forget_program()
                continue
            except (Unplayed, LogFault) as fault:
                self.lose(str(fault))
                break
            self.relay.starts.has_served()
            self.keep(asked, reply)
            return
        asked.answered.set_result(self.lost_reply())

    def refuse(self, asked):
        """Doesn't send a line again at which magicd ends."""
        text = asked.line.text.decode("utf-8", "replace")
        log.warning("session %s: magicd ends at line %d, which isn't sent again: %s", self.title, asked.number, text)
        asked.answered.set_result(b"%s refused 11 magicd ends at this line\n" % self.name)

    def keep(self, asked, reply):
        """Passes a reply on, once the log has it, or is certain that the session is held."""
        if self.held is None:
            asked.answered.set_result(reply)
            return
        if is_journalled(asked.line, reply):
            certain = self.add_row(asked, reply)
            self.entries += 1
        else:
            certain = self.held.confirm()
        certain.add_done_callback(functools.partial(self.pass_on, asked, reply))

    def pass_on(self, asked, reply, certain):
        if certain.exception() is not None:
            self.lose(str(certain.exception()))
            reply = self.lost_reply()
        asked.answered.set_result(reply)

    def add_row(self, asked, reply):
        """Has a row added, and returns a future of when it is durable."""
        self.edits.take(asked.line.text, asked.number, reply)
        return self.held.add(asked.line.text, reply, asked.number)

    def send_waiting(self):
        """Asks magicd what waits, up to a line that the relay has to prepare, and as far as the journal has room."""
        for asked in itertools.islice(self.waiting, self.sent, None):
            if asked.is_relayed or self.entries + self.sent >= self.most_entries or (self.sent == 1 and self.is_tried()):
                break
            if asked.guarded is None and not self.relay.library.may_send(asked.line, self.program):
                break
            asked.reply = self.program.ask(asked.guarded or asked.line)
            self.sent += 1

    async def prepare(self, asked):
        """Makes room for the first line that waits, and sees to it that the session's magicd has the cell that it names."""
        if self.entries >= self.most_entries:
            await self.make_room()
        while (guarded := await self.relay.library.guarded(asked.line, self.program)) is None:
            await self.restore()
        asked.guarded = guarded

    def forget_program(self):
        """The session's magicd has ended. Lines that it hasn't answered are to be sent again, and are suspect."""
        if self.program is not None:
            for asked in itertools.islice(self.waiting, self.sent):
                asked.is_suspect(self.program.is_alone and self.sent == 1)
                self.alone = self.alone or asked.ends == MOST_ENDS
        self.program = None
        self.sent = 0
        for asked in self.waiting:
            asked.reply = None

    def is_tried(self):
        """Whether its lines are sent one by one, to see which one ends magicd."""
        return self.program.is_alone and any(asked.ends > 0 for asked in self.waiting)

    def lose(self, why):
        """The session goes no further for this designer. With a log it is left, as far as the log has it."""
        if self.lost is None:
            self.lost = why
            self.relay.loses(self)

    def lost_reply(self):
        return b"%s lost: %s\n" % (self.name, self.lost.encode())

    async def carry_out(self, asked):
        """Carries out a line that is the relay's own, and returns the reply."""
        what = asked.line.words[0]
        try:
            if self.held is None:
                raise Refused("there is no log")
            reply = await (self.compact(asked) if what == COMPACT else self.undo(asked, what))
        except (Refused, checkpoints.Uncompacted) as fault:
            reply = b"%s refused %s %s\n" % (self.name, what[1:], str(fault).encode())
        if self.held is not None:
            await self.held.confirm()
        return reply

    async def undo(self, asked, what):
        """Undoes or redoes an edit: the row comes first, then the session is made again, unless that is done already."""
        edit, is_done = self.edits.choose(what, int(asked.line.words[2]))
        reply = b"%s %s %d: %s\n" % (self.name, UNDONE[what], edit.number, edit.line)
        if not is_done:
            await self.add_row(asked, reply)
            await self.restore()
        return reply

    # ---- checkpoints

    def limit_entries(self):
        """Says at how many entries the journal is to be made short: at 90 %."""
        self.most_entries = self.relay.library.journal * 9 // 10

    async def make_room(self):
        """Makes a checkpoint; where there can't be one, it is tried again later."""
        try:
            await self.compact()
        except checkpoints.Uncompacted as fault:
            log.warning("session %s has no checkpoint: %s", self.title, fault)
            rest = self.relay.library.journal - self.entries
            self.most_entries = self.entries + rest // 2 if rest > 1 else math.inf

    async def compact(self, asked=None):
        """Goes on from a checkpoint of what the session is, in a journal that begins with it. Returns what was said."""
        program, entries, text = await checkpoints.make(self)
        try:
            reply = b"%s compacted %s\n" % (self.name, (await self.held.keep_text(text)).encode())
            line = b"@compact %s" % self.name
            await (self.held.add(line, reply) if asked is None else self.held.add(line, reply, asked.number))
        except LogFault:
            await self.close_in(program)
            raise
        self.edits.take(line, 0, reply)
        await self.close_in_program()
        self.program, self.entries = program, entries
        self.limit_entries()
        if 2 * entries > self.most_entries:
            # The placed cells take the journal: another checkpoint wouldn't help.
            self.most_entries = math.inf
        return reply

    # ---- making a session again

    async def restore_or_not(self):
        """Makes the session again, in a magicd of its own where two have ended meanwhile; fails where two of these have."""
        try:
            await self.restore()
            self.ends = min(self.ends, MOST_ENDS)
        except Ended:
            self.ends += 1
            if self.ends == 2 * MOST_ENDS:
                raise Unplayed("magicd ends while the session is made again") from None
            self.alone = self.alone or self.ends == MOST_ENDS
            raise

    async def restore(self):
        """Makes the session again in a magicd from the rows that hold, and returns all rows, where they were read."""
        if self.held is None:
            raise Unplayed("magicd has ended, and there is no log")
        rows = await self.read_rows() if self.edits is None or self.edits.is_plain else None
        await self.close_in_program()
        is_plain = self.edits.is_plain and self.relay.is_unchanged(self.held.under)
        base = None if is_plain else await checkpoints.read(self)
        program, reply = await self.relay.open_anywhere(self, base and base.cell)
        if program is None:
            raise Unplayed("memory, try again" if b" open 4 " in reply else reply.decode().strip())
        try:
            if is_plain:
                self.entries = await play_rows(program, self.name, rows)
            else:
                self.entries = await play_edits(program, self.name, self.edits, base)
        except Unplayed:
            await self.close_in(program)
            raise
        self.program = program
        self.limit_entries()
        return rows

    async def read_rows(self):
        """Reads the rows, and what holds of them, and returns those of lines: what the relay has added is none."""
        rows = await self.held.rows()
        self.edits = await Edits.of(self.name, rows)
        return [row for row in rows if not row.part]

    async def close_in_program(self):
        """Closes the session in its magicd, if it is in one. The log has it still, if there is one."""
        if self.program is not None:
            program, self.program = self.program, None
            await self.close_in(program)

    async def close_in(self, program):
        """Closes the session in a magicd."""
        try:
            await program.ask(Line.of(b"%%close %s" % self.name))
        except Ended:
            pass
        self.relay.left(self, program)

    async def leave(self):
        """Leaves the session once its lines are replied to: it is closed in its magicd, and the log has it still."""
        while self.task is not None:
            await asyncio.wait([self.task])
        await self.close_in_program()
        if self.held is not None:
            await self.held.leave()
