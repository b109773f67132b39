"""The log of one relay: an SQLite file."""

import asyncio
import contextlib
import fcntl
import logging
import os
import sqlite3
import threading
import time
import urllib.parse

from kolasieve import chain
from kolasieve.log import OF_ALL, Held, Log, LogFault, Record, Row, Unavailable, settle, settled
from kolasieve.options import digest

log = logging.getLogger("relay")

TABLES = """
create table if not exists settings (options text not null);
create table if not exists sessions (
    id integer primary key,
    name blob not null,
    owner text not null,
    opened real not null,
    closed real,
    last text not null,
    under text not null
);
drop index if exists names;
create unique index if not exists owners_names on sessions (owner, name) where closed is null;
create table if not exists lines (
    session integer not null references sessions (id),
    number integer not null,
    part integer not null,
    at real not null,
    line blob not null,
    reply blob not null,
    chain text not null,
    primary key (session, number, part)
) without rowid;
create table if not exists texts (
    session integer not null,
    hash text not null,
    text blob not null,
    primary key (session, hash)
);
create table if not exists cells (number integer primary key, name text not null, hash text not null, at real not null);
"""

# A log of before there were hashes has them made.
LINKED = """
alter table sessions add column last text not null default '';
alter table sessions add column under text not null default '';
alter table lines rename to unlinked;
"""

# What a log has had since there is one.
TABLES_OF_ANY_LOG = {"settings", "sessions", "lines"}

OPEN = "insert into sessions (name, owner, opened, closed, last, under) values (?, ?, ?, ?, ?, ?)"
ADD = "insert into lines values (?, ?, ?, ?, ?, ?, ?)"
ADD_TO_LAST = "insert into lines values (last_insert_rowid(), ?, ?, ?, ?, ?, ?)"
# A row has its place behind the one before it alone: where that couldn't be made durable, nor can this.
MOVE_LAST = "update sessions set last = ? where id = ? and last = ?"
RECORD = "select id, name, owner, opened, closed, null, last, under from sessions"
TEXT = "insert or ignore into texts values (?, ?, ?)"
TEXT_OF_LAST = "insert into texts values ((select max(id) from sessions), ?, ?)"
ROWS = "select number, part, at, line, reply, chain from lines where session = ? order by number, part"


def private(path, flags):
    """Opens a file that only its user may read, where it is new."""
    return os.open(path, flags, 0o600)


def keep_private(path):
    """Has only their user read a log and what SQLite keeps beside it, which gets the log's mode where it is new."""
    for each in (path, f"{path}-wal", f"{path}-shm"):
        if os.path.exists(each) and os.stat(each).st_mode & 0o077:
            os.chmod(each, 0o600)
            log.warning("%s: others could read it; its mode is 600 now", each)


class SqliteReader:
    """A log that is only looked at, also while a relay has it: nothing is locked, and nothing written."""

    def __init__(self, path):
        self.path = path
        self.check()
        self.reading = self.connect_to_read()
        try:
            self.reading.execute(f"{RECORD} limit 0")
        except sqlite3.Error as fault:
            self.reading.close()
            raise LogFault(f"{path}: {fault}; a relay of this version brings it up to date") from None

    def check(self, may_be_new=False):
        """Fails where there is a file that is no log: nothing is written into another's."""
        try:
            with open(self.path, "rb"):
                pass
            with contextlib.closing(self.connect_to_read()) as found:
                tables = {name for (name,) in found.execute("select name from sqlite_master where type = 'table'")}
        except OSError as fault:
            raise LogFault(f"{self.path}: {fault.strerror}") from None
        except sqlite3.Error as fault:
            raise LogFault(f"{self.path}: {fault}") from None
        if not TABLES_OF_ANY_LOG <= tables and (tables or not may_be_new):
            raise LogFault(f"{self.path}: it is no log")

    def connect_to_read(self):
        # Where nobody has it open, SQLite would leave files beside it unless it is told that nothing changes.
        how = "mode=ro" if os.path.exists(f"{self.path}-wal") else "mode=ro&immutable=1"
        where = f"file:{urllib.parse.quote(os.path.abspath(self.path))}?{how}"
        return sqlite3.connect(where, uri=True, isolation_level=None, check_same_thread=False)

    def find(self, name, owner):
        found = self.reading.execute(f"{RECORD} where owner = ? and name = ? and closed is null", (owner, name)).fetchone()
        return found and Record(*found)

    def record(self, id):
        return Record(*self.reading.execute(f"{RECORD} where id = ?", (id,)).fetchone())

    async def sessions(self, closed=False):
        wanted = "not null" if closed else "null"
        return [Record(*each) for each in self.reading.execute(f"{RECORD} where closed is {wanted}")]

    def is_locked(self):
        """Returns whether a relay has the log, without trying to lock it."""
        ending = f":{os.stat(self.path).st_ino}"
        with open("/proc/locks", encoding="utf-8") as locks:
            return any(fields[1] == "FLOCK" and fields[5].endswith(ending) for fields in map(str.split, locks))

    async def rows(self, record):
        rows = []
        found = self.reading.execute(ROWS, (record.id,))
        while some := found.fetchmany(chain.SLICE):
            rows.extend(map(Row._make, some))
            await asyncio.sleep(0)
        return rows, record.last

    async def text(self, hash, id=OF_ALL):
        found = self.reading.execute("select text from texts where session = ? and hash = ?", (id, hash)).fetchone()
        return found[0] if found is not None and digest(found[0]) == hash else None

    async def texts(self, id=OF_ALL):
        return [text for (text,) in self.reading.execute("select text from texts where session = ?", (id,))]

    async def cells(self):
        return dict(self.reading.execute("select name, hash from cells order by number").fetchall())

    async def end(self):
        self.reading.close()


class SqliteLog(SqliteReader, Log):
    """A write is durable once its future has a result.

    Writes are carried out by one thread; all that come while a commit is under way go into the next one.
    """

    def __init__(self, path, wanted=None):
        """Opens a log that agrees with what is wanted, made where there is none, or, without that, one that is there."""
        self.path = path
        if wanted is None or (os.path.isfile(path) and os.path.getsize(path) > 0):
            self.check(may_be_new=wanted is not None)
        # What was opened is closed again where this fails.
        with contextlib.ExitStack() as opened:
            try:
                self.lock = opened.enter_context(open(path, "ab" if wanted is not None else "rb", opener=private))
                if wanted is not None:
                    keep_private(path)
                fcntl.flock(self.lock, fcntl.LOCK_EX | fcntl.LOCK_NB)
            except BlockingIOError:
                raise LogFault(f"{path}: another relay has it") from None
            except OSError as fault:
                raise LogFault(f"{path}: {fault.strerror}") from None
            try:
                self.reading = opened.enter_context(contextlib.closing(self.connect()))
                self.make_tables()
                self.options = self.keep_options(wanted)
            except sqlite3.Error as fault:
                raise LogFault(f"{path}: {fault}") from None
            opened.pop_all()
        self.waiting = []
        self.more = threading.Condition()
        self.ended = False
        self.thread = threading.Thread(target=self.write_all, name="log", daemon=True)
        self.thread.start()

    def connect(self):
        rows = sqlite3.connect(self.path, isolation_level=None, check_same_thread=False)
        rows.execute("pragma journal_mode = wal")
        rows.execute("pragma synchronous = full")
        return rows

    def make_tables(self):
        """Makes the tables that aren't there, and gives the rows of a log of before their hashes."""
        columns = [each[1] for each in self.reading.execute("pragma table_info(sessions)")]
        if not columns or "last" in columns:
            self.reading.executescript(f"begin immediate; {TABLES} commit;")
            return
        # One transaction; `executescript` would commit it.
        for statement in f"begin immediate; {LINKED} {TABLES}".split(";"):
            self.reading.execute(statement)
        for (id,) in self.reading.execute("select id from sessions").fetchall():
            last = chain.FIRST
            found = self.reading.execute(
                "select number, 0, at, line, reply from unlinked where session = ? order by number", (id,)
            )
            for row in found.fetchall():
                last = chain.link(last, *row)
                self.reading.execute(ADD, (id, *row, last))
            self.reading.execute("update sessions set last = ? where id = ?", (last, id))
        self.reading.execute("drop table unlinked")
        self.reading.execute("commit")

    def keep_options(self, wanted):
        found = self.reading.execute("select options from settings").fetchone()
        if found is None and wanted is None:
            raise LogFault(f"{self.path}: it is no log")
        if wanted is None:
            return found[0]
        try:
            options = wanted.agree(found and found[0])
        except LogFault as fault:
            raise LogFault(f"{self.path}: {fault}") from None
        if found is None:
            self.reading.execute("insert into settings values (?)", (options,))
        elif options != found[0]:
            self.reading.execute("update settings set options = ?", (options,))
        return options

    # ---- writes

    def write(self, *statements):
        """Queues statements that are carried out together, and returns a future of the last one's new row."""
        loop = asyncio.get_running_loop()
        done = loop.create_future()
        with self.more:
            self.waiting.append((statements, loop, done))
            self.more.notify()
        return done

    def write_all(self):
        rows = self.connect()
        while True:
            with self.more:
                while not self.waiting and not self.ended:
                    self.more.wait()
                taken, self.waiting = self.waiting, []
            if not taken:
                rows.close()
                return
            self.commit(rows, taken)

    def commit(self, rows, taken):
        results = []
        try:
            rows.execute("begin immediate")
            for statements, _, _ in taken:
                results.append(self.carry_out(rows, statements))
            rows.execute("commit")
        except sqlite3.Error as failed:
            fault = LogFault(f"{self.path}: {failed}")
            results = [(None, fault)] * len(taken)
            try:
                rows.execute("rollback")
            except sqlite3.Error:
                pass
        for (_, loop, done), (result, fault) in zip(taken, results):
            loop.call_soon_threadsafe(settle, done, result, fault)

    def carry_out(self, rows, statements):
        """Returns the last statement's new row, and why it isn't done: a statement that changes a record must find it."""
        new = None
        for statement in statements:
            done = rows.execute(*statement)
            if done.rowcount == 0 and statement[0].startswith("update"):
                return None, LogFault(f"{self.path}: a row before it isn't there")
            new = done.lastrowid
        return new, None

    async def open(self, name, owner):
        if self.find(name, owner) is not None:
            raise Unavailable("open already")
        record = (name, owner, time.time(), None, chain.FIRST, self.under)
        return HeldInFile(self, await self.write((OPEN, record)), self.under)

    async def take(self, name, owner):
        found = self.find(name, owner)
        if found is None:
            raise Unavailable("no such session")
        return HeldInFile(self, found.id, found.under)

    async def bring(self, record, owner, rows, last, texts):
        if record.closed is None and self.find(record.name, owner) is not None:
            raise Unavailable("open already")
        await self.write(
            (OPEN, (record.name, owner, record.opened, record.closed, last, record.under)),
            *((ADD_TO_LAST, row) for row in rows),
        )
        await self.write(*((TEXT_OF_LAST, (digest(text), text)) for text in texts))

    async def reopen(self, name, owner):
        found = self.reading.execute(
            f"{RECORD} where owner = ? and name = ? and closed is not null order by closed desc limit 1", (owner, name)
        ).fetchone()
        if self.find(name, owner) is not None:
            raise Unavailable("open already")
        if found is None:
            raise Unavailable("no such session")
        await self.write(("update sessions set closed = null where id = ?", (found[0],)))

    async def remove(self, record):
        await self.write(
            ("delete from lines where session = ?", (record.id,)),
            ("delete from texts where session = ?", (record.id,)),
            ("delete from sessions where id = ?", (record.id,)),
        )

    # ---- texts and cells

    async def keep_text(self, text, id=OF_ALL):
        await self.write((TEXT, (id, digest(text), text)))
        return digest(text)

    async def add_cell(self, number, name, hash):
        await self.write(("insert into cells values (?, ?, ?, ?)", (number, name, hash, time.time())))

    async def end(self):
        with self.more:
            self.ended = True
            self.more.notify()
        self.thread.join()
        await super().end()
        self.lock.close()


class HeldInFile(Held):
    """A session in the file. The file's lock holds all of them."""

    def put(self, row, before):
        return self.log.write((MOVE_LAST, (row.chain, self.id, before)), (ADD, (self.id, *row)))

    def confirm(self):
        return settled()

    async def read(self):
        # An empty write comes after all that were queued.
        await self.log.write()
        return await self.log.rows(self.log.record(self.id))

    async def free_name(self):
        await self.log.write(("update sessions set closed = ? where id = ?", (time.time(), self.id)))

    async def leave(self):
        pass
