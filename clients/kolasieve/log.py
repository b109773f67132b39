"""The log: what outlives a relay, its sessions, and what was asked of them and answered."""

import abc
import asyncio
import hashlib
import time
from dataclasses import dataclass
from typing import NamedTuple

from kolasieve import chain
from kolasieve.faults import Fault

# A longer reply is kept as its length and SHA-256.
LONGEST_REPLY = 4096

# In place of a session's number: texts that are of all.
OF_ALL = 0

class LogFault(Fault):
    """The log can't be used, or its rows can't be made durable."""


class Unavailable(Exception):
    """The log has no such session for this relay; the text says why."""


class Row(NamedTuple):
    """A command that the session's journal has, or what the relay did in its place, with the reply as it is kept.

    Its number is that of the line among the session's lines. What the relay did without a line has the number of the line
    before it, and a part, from 1.
    """

    number: int
    part: int
    at: float
    line: bytes
    reply: bytes
    # The hash that chains it to the row before it; none in a row of before there were hashes.
    chain: str = None


@dataclass(frozen=True)
class Record:
    """What a log has of a session beside its rows. Where it is in use, `place` says at which relay."""

    id: object
    name: bytes
    owner: str
    opened: float
    closed: float = None
    place: str = None
    # The hash of its last row, where the log has it.
    last: str = None
    # Under which options it was opened; empty where that was in a log of before they could change.
    under: str = ""

    @property
    def title(self):
        return title(self.owner, self.name)


def title(owner, name):
    """Returns what a session is called where there are several owners: the name has no stroke."""
    return f"{owner}/{name.decode()}"


def kept(reply):
    """Returns a reply as the log keeps it."""
    if len(reply) <= LONGEST_REPLY:
        return reply
    return b"%d bytes sha256 %s\n" % (len(reply), hashlib.sha256(reply).hexdigest().encode())


class Log(abc.ABC):
    """The log of a relay. There are two forms: a file of one relay, and an etcd that several share.

    A log is of one technology, that of the relay that made it. It takes more cells, a greater quota and journal limit.
    """

    # What it has of options.
    options = None

    # Under which options sessions are opened.
    under = ""

    # Where other relays are told that a session of this one is in use, if there can be any.
    place = None

    def on_silence(self):
        """Is called when the log hasn't replied for a while, and lines wait. The relay has its own."""

    @abc.abstractmethod
    async def open(self, name, owner):
        """Keeps that a session was opened, and returns it held. Fails where its owner has the name open or left."""

    @abc.abstractmethod
    async def take(self, name, owner):
        """Returns a left session held. Fails where there is none of this owner, or where it is in use."""

    @abc.abstractmethod
    async def reopen(self, name, owner):
        """Has the last closed session of this owner and name be a left one. Fails where there is none, or the name is taken."""

    @abc.abstractmethod
    async def sessions(self, closed=False):
        """Returns the records of all sessions that aren't closed, or of those that are."""

    @abc.abstractmethod
    async def rows(self, record):
        """Returns the rows of a session in their order, and the hash that the log has of the last, if it has one."""

    @abc.abstractmethod
    async def bring(self, record, owner, rows, last, texts):
        """Keeps a session of another log, whole, as this owner's. Fails where this owner has its name open or left."""

    @abc.abstractmethod
    async def keep_text(self, text, id=OF_ALL):
        """Keeps a text of a session, or of all, and returns its hash once it is durable."""

    @abc.abstractmethod
    async def text(self, hash, id=OF_ALL):
        """Returns the text with this hash, or None where it isn't there whole."""

    @abc.abstractmethod
    async def texts(self, id=OF_ALL):
        """Returns all texts of a session, or of all."""

    @abc.abstractmethod
    async def cells(self):
        """Returns the hash of each cell's text by its name, in the order in which they came."""

    @abc.abstractmethod
    async def add_cell(self, number, name, hash):
        """Keeps that there is a cell, as the one of this number, from 0. Fails where there is another of that number."""

    @abc.abstractmethod
    async def remove(self, record):
        """Removes a closed session and its rows."""

    @abc.abstractmethod
    async def end(self):
        """Waits for what was queued, and gives the log back."""


class Held(abc.ABC):
    """A session that this relay holds: no other one adds rows to it meanwhile.

    `lost` has a result, which says why, once that has ended against the relay's will.
    """

    def __init__(self, log, id, under):
        self.log = log
        self.id = id
        # Under which options it was opened.
        self.under = under
        self.lost = asyncio.get_running_loop().create_future()
        # The number and the part of the last row, and its hash.
        self.number = self.part = 0
        self.last = chain.FIRST

    def add(self, line, reply, number=None):
        """Adds a row: it is durable once the returned future has a result. Without a number it is the relay's own."""
        self.number, self.part = (self.number, self.part + 1) if number is None else (number, 0)
        row = (self.number, self.part, round(time.time(), 3), line, kept(reply))
        before, self.last = self.last, chain.link(self.last, *row)
        return self.put(Row(*row, self.last), before)

    @abc.abstractmethod
    def put(self, row, before):
        """Queues a row behind the one with the hash `before`, and returns a future."""

    async def rows(self):
        """Returns all rows, those that were queued among them. Fails where they aren't those that were written."""
        rows, last = await self.read()
        try:
            self.last = await chain.follow(rows, last)
        except chain.Broken as fault:
            raise LogFault(str(fault)) from None
        if rows:
            self.number, self.part = rows[-1].number, rows[-1].part
        return rows

    async def keep_text(self, text):
        """Keeps a text of this session, and returns its hash once it is durable."""
        return await self.log.keep_text(text, self.id)

    async def text(self, hash):
        """Returns the text with this hash. Fails where it isn't there whole."""
        text = await self.log.text(hash, self.id)
        if text is None:
            raise LogFault(f"the text {hash[:12]} is missing")
        return text

    @abc.abstractmethod
    async def read(self):
        """Returns all rows, once those that were queued are durable, and the hash that the log has of the last."""

    @abc.abstractmethod
    def confirm(self):
        """Returns a future that has a result once it is certain that the relay held the session after this call."""

    async def close(self, line, reply):
        """Keeps that the session was closed, by a last row: its rows stay, and its name is free."""
        await self.add(line, reply)
        await self.free_name()

    @abc.abstractmethod
    async def free_name(self):
        """Keeps that the session is closed."""

    @abc.abstractmethod
    async def leave(self):
        """Gives the session back: it may be taken again."""


def settle(done, result=None, fault=None):
    """Gives a future its result or its fault, where nobody has."""
    if done.done():
        return
    if fault is None:
        done.set_result(result)
    else:
        done.set_exception(fault)


def settled(result=None):
    """Returns a future that has its result."""
    done = asyncio.get_running_loop().create_future()
    done.set_result(result)
    return done
