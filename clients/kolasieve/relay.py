"""The relay: many connections, each with sessions of its own, before one or several magicd."""

import asyncio
import logging
import pathlib

from kolasieve.checkpoints import Apart
from kolasieve.edits import Edits
from kolasieve.library import Unloaded
from kolasieve.lines import Line
from kolasieve.log import LogFault, Unavailable
from kolasieve.messages import warn
from kolasieve.names import Seat
from kolasieve.program import Ended, Program, Unsent
from kolasieve.restoring import Unplayed
from kolasieve.seen import replies_of
from kolasieve.session import MOST_ENDS, Session
from kolasieve.sharing import Shares, Unshown
from kolasieve.starting import LONGEST_PAUSE, STARTS, Failing, Starts

log = logging.getLogger("relay")

# The refusals of `%open` for which another magicd is tried: it has no room for one more session.
NO_ROOM = (b" refused open 2 ", b" refused open 3 ")

# How many sessions may have a magicd of their own.
MOST_ALONE = 16


class Relay:
    """The sessions that are in use here, by owner and name, and the programs that have them."""

    def __init__(self, library, most_programs, limits, loaders=(), log=None, longest_pause=LONGEST_PAUSE):
        self.library = library
        # The owners who may load cells.
        self.loaders = loaders
        self.most_programs = most_programs
        self.limits = limits
        self.log = log
        self.programs = []
        # Those that end, since their last session has left.
        self.ending = set()
        self.starts = Starts(self.program_ended, longest_pause)
        self.starting = asyncio.Lock()
        self.apart = Apart(library, self.start_program)
        self.sessions = {}
        self.shares = Shares()
        self.failed = asyncio.get_running_loop().create_future()
        if log is not None:
            log.on_silence = self.tell_that_lines_wait

    # ---- programs

    async def start_first(self):
        """Starts the first magicd; where there is none to start, the relay fails."""
        try:
            await self.any_program()
        except Failing as fault:
            if not self.failed.done():
                self.failed.set_result(str(fault))

    async def any_program(self):
        async with self.starting:
            common = next((each for each in self.programs if not each.is_apart), None)
            return common or await self.start_program()

    async def start_program(self, others=None, tries=STARTS):
        """Starts a magicd with all cells that there are, and with others by the paths of their files."""
        cells = {*self.library.cells, *(others or ())}
        program = await self.starts.start(self.library.command(others), tries)
        program.cells, program.is_apart = cells, others is not None
        self.programs.append(program)
        return program

    async def start_alone(self, cell):
        """Starts a magicd for one session, with the cell that it needs, if it needs one."""
        if sum(each.is_alone for each in self.programs) >= MOST_ALONE:
            raise self.starts.failing()
        try:
            program = await self.start_program({} if cell is None else dict([cell]))
        finally:
            if cell is not None:
                pathlib.Path(cell[1]).unlink(missing_ok=True)
        program.is_alone = True
        return program

    def is_unchanged(self, under):
        """Returns whether a session that was opened under these options is to have the same replies now."""
        return under == self.log.under or (not under and self.library.begun == self.log.under)

    def serves(self, program):
        """Returns whether sessions are opened in a magicd that need no others' cells: it has all that there are."""
        return not program.is_apart and program.cells >= self.library.cells.keys()

    def left(self, session, seat):
        """A session has left its magicd. Where that serves nobody else, it ends."""
        program = seat.program
        program.sessions.discard(session)
        if not program.sessions and not self.serves(program) and program in self.programs:
            self.programs.remove(program)
            self.ending.add(ending := asyncio.create_task(program.stop()))
            ending.add_done_callback(self.ending.discard)

    def program_ended(self, program, status, why):
        if program in self.programs:
            self.programs.remove(program)
        self.starts.has_ended(why)
        if self.starts.count == 0 and status > 0:
            # The first one can't serve at all, and nobody has killed it: its options or its files are wrong.
            self.starts.stop()
            if not self.failed.done():
                self.failed.set_result(f"magicd doesn't start: {why}")
            return
        for session in list(program.sessions):
            if session.program is not None and session.program.program is program:
                session.forget_program()

    async def open_anywhere(self, session, cell=None):
        """Opens a session in the first magicd that has room, and starts another one where none has.

        Where the session needs a cell of its own, name and path, it is opened in a magicd that has it. Returns its seat there
        and the reply, or no seat and the reply of the last that refused.
        """
        reply = b"%s refused open 2 sessions full\n" % session.name
        tried = set()
        ends = 0
        while (program := await self.program_for(session, cell, tried)) is not None:
            tried.add(program)
            was_empty = not program.sessions
            seat = Seat.find(program, session.name)
            if seat is None:
                continue
            program.sessions.add(session)
            try:
                reply = await seat.ask(Line.of(b"%%open %s" % session.name))
            except Unsent:
                continue
            except Ended:
                if cell is not None or session.alone:
                    raise
                ends += 1
                if ends == MOST_ENDS:
                    raise self.starts.failing() from None
                continue
            if reply == b"%s opened\n" % session.name:
                return seat, reply
            seat.give_back()
            self.left(session, seat)
            if was_empty or not any(kind in reply for kind in NO_ROOM):
                break
        return None, reply

    async def program_for(self, session, cell, tried):
        """Returns a magicd that isn't tried yet, for a session that needs this cell, if it does; or nothing."""
        if session.alone or cell is not None:
            if tried:
                return None
            return await (self.start_alone(cell) if session.alone else self.apart.with_cell(*cell))
        return await self.next_program(tried)

    async def next_program(self, tried):
        """Returns a magicd that isn't tried yet, if need be a new one, or nothing where there may be no more."""
        async with self.starting:
            serving = [each for each in self.programs if self.serves(each)]
            program = next((each for each in serving if each not in tried), None)
            if program is None and len(serving) < self.most_programs:
                program = await self.start_program()
            return program

    # ---- sessions

    async def open(self, name, user):
        """Opens a session for a connection, and returns the reply."""
        session = Session(name, user.owner, self, user=user)
        if session.key in self.sessions:
            return b"%s refused open 1 open already\n" % name
        self.sessions[session.key] = session
        program, reply = None, await self.refusal(session)
        if reply is None:
            try:
                program, reply = await self.open_anywhere(session)
            except Failing as fault:
                reply = b"%s lost: %s\n" % (name, str(fault).encode())
        if program is None:
            del self.sessions[session.key]
            return reply
        session.program = program
        if self.log is not None:
            try:
                session.hold(await self.log.open(name, session.owner))
                session.edits = Edits(name)
                session.limit_entries()
            except (Unavailable, LogFault) as fault:
                await self.leave(session)
                if isinstance(fault, Unavailable):
                    return b"%s refused open 1 %s\n" % (name, str(fault).encode())
                return b"%s lost: %s\n" % (name, str(fault).encode())
        user.sessions[name] = session
        return reply

    async def refusal(self, session):
        """Returns why a new session's owner may have no more, or nothing. Those that are opened before it count."""
        names = set()
        for each in self.sessions.values():
            if each is session:
                break
            if each.owner == session.owner:
                names.add(each.name)
        if self.log is not None:
            try:
                names |= {record.name for record in await self.log.sessions() if record.owner == session.owner}
            except LogFault as fault:
                return b"%s lost: %s\n" % (session.name, str(fault).encode())
        names.discard(session.name)
        most = self.limits.sessions_each
        if len(names) < most:
            return None
        warn(f"a session is refused: {session.owner} has {most}, as many as one owner may")
        return b"%s refused open 2 sessions full: %d of one owner\n" % (session.name, most)

    async def close(self, session):
        """Closes a session for good, and returns the reply."""
        reply = await session.ask(Line.of(b"%%close %s" % session.name))
        if reply != b"%s closed\n" % session.name:
            return reply
        self.shares.forget(session.key)
        if session.program is not None:
            program, session.program = session.program, None
            self.left(session, program)
        if session.held is not None:
            try:
                await session.held.close(b"%%close %s" % session.name, reply)
            except LogFault as fault:
                session.lose(str(fault))
                return session.lost_reply()
        del session.user.sessions[session.name]
        del self.sessions[session.key]
        return reply

    async def reopen(self, name, user):
        """Makes the last session of this name that its owner has closed again for a connection. Returns the reply."""
        if self.log is None:
            raise Unplayed("there is no log")
        refused = await self.refusal(Session(name, user.owner, self, user=user))
        if refused is not None:
            raise Unplayed(refused.decode().strip().partition(" refused ")[2])
        try:
            await self.log.reopen(name, user.owner)
        except (Unavailable, LogFault) as fault:
            raise Unplayed(str(fault)) from None
        await self.resume(name, user, None)
        session = user.sessions[name]
        reply = b"%s reopened %d\n" % (name, session.number)
        try:
            await session.held.add(b"@reopen %s" % name, reply)
        except LogFault as fault:
            session.lose(str(fault))
            return session.lost_reply()
        return reply

    async def resume(self, name, user, seen):
        """Makes a left session again for a connection. Returns the reply, and the rows after those that were seen."""
        if self.log is None:
            raise Unplayed("no such session")
        session = Session(name, user.owner, self, user=user)
        if session.key in self.sessions:
            raise Unplayed(self.in_use())
        self.sessions[session.key] = session
        try:
            session.hold(await self.log.take(name, user.owner))
            rows = await session.restore()
            await session.held.confirm()
        except (Unavailable, Unplayed, LogFault, Ended) as fault:
            await self.leave(session)
            raise Unplayed(str(fault) or "magicd has ended") from None
        user.sessions[name] = session
        session.number = rows[-1].number if rows else 0
        reply = [b"%s resumed %d\n" % (name, session.number)]
        if seen is not None:
            reply.extend(b"@ %d %s" % (row.number, row.reply) for row in rows if row.number > seen)
        return b"".join(reply)

    async def show(self, word, owner):
        """Returns the text of a session that an owner may see. Raises Unshown where there is none in use here."""
        there = {key: session for key, session in self.sessions.items() if session.program is not None}
        session = there[self.shares.find(owner, word, there)]
        try:
            [reply] = await replies_of(session, [b"save"])
        except (Ended, LogFault) as fault:
            raise Unshown(str(fault) or "magicd has ended") from None
        return reply

    async def load(self, name, path, user):
        """Loads a cell for all sessions, each of which has it from its next line on. Fails where it can't be."""
        if self.log is None:
            raise Unloaded("there is no log")
        if user.owner not in self.loaders:
            raise Unloaded(f"{user.owner} isn't one of --loaders")
        await self.library.load(name, path)
        log.info("%s has loaded the cell %s", user.owner, name.decode())

    def in_use(self):
        """Returns what is said of a session that is in use here."""
        place = self.log and self.log.place
        return f"in use at {place}" if place else "in use"

    async def states(self, owner=None):
        """Returns whether each of this owner's sessions, or of all, is left or in use, and where; by owner and name."""
        states = {}
        if self.log is not None:
            for record in await self.log.sessions():
                if owner in (None, record.owner):
                    states[record.owner, record.name] = f"in use at {record.place}" if record.place else "left"
        here = [each for each in self.sessions.values() if self.log is None or each.held is not None]
        states |= {each.key: self.in_use() for each in here if owner in (None, each.owner)}
        return dict(sorted(states.items()))

    async def leave(self, session):
        """A connection has ended, or can't have its session any more: it is closed, or left where there is a log."""
        await session.leave()
        if self.sessions.get(session.key) is session:
            del self.sessions[session.key]

    def loses(self, session):
        """A session goes no further for its designer."""
        log.warning("session %s: %s", session.title, session.lost)
        asyncio.create_task(self.leave(session))

    def tell_that_lines_wait(self):
        for user in {session.user for session in self.sessions.values()}:
            user.tell(b"@ waiting: the log doesn't reply\n")

    async def end_programs(self):
        """Ends each magicd: what they haven't replied to has no reply any more."""
        self.starts.stop()
        for session in self.sessions.values():
            session.lost = session.lost or "the relay ends"
        await asyncio.gather(*self.ending, *(program.stop() for program in list(Program.running)))

    async def stop(self):
        """Leaves all sessions."""
        await asyncio.gather(*(self.leave(each) for each in list(self.sessions.values())))
        if self.log is not None:
            await self.log.end()
        self.library.end()
