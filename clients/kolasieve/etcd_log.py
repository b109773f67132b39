"""The log that several relays share: keys in etcd.

    PREFIX/options          magicd's options, those of all relays
    PREFIX/open/NAME/OWNER  the record of a session that is open or left, and under which number its rows lie
    PREFIX/closed/ID        the record of one that was closed
    PREFIX/held/ID          which relay has the session in use: a key under the relay's lease
    PREFIX/lines/ID/NUMBER  a row: when, its hash, the line, and the reply below it; with a part NUMBER.PART
    PREFIX/last/ID          the hash of the last row
    PREFIX/texts/ID/HASH/I  the pieces of a text of a session, or under 0 of all
    PREFIX/cells/NUMBER     a cell: its name and its text's hash

A relay that takes a session first makes the key `held`, and reads the rows then. Each transaction for the session
compares the revision at which that key was made. So once another relay has made the key, the one before it can add
nothing, and what the new one reads is all that there will be. No clock matters.
"""

import asyncio
import json
import logging
import secrets
import time

from kolasieve.etcd import Etcd, after, created_at, delete, has_value, look, put
from kolasieve.etcd_held import LEASE, HeldInEtcd
from kolasieve.etcd_writes import Waiting, Writes, fitting, put_row
from kolasieve.log import OF_ALL, Log, LogFault, Record, Row, Unavailable
from kolasieve.options import digest

log = logging.getLogger("relay")

# How often a relay says that it is there, in seconds.
RENEWAL = 1

# How many bytes a piece of a text has at most.
PIECE = 1 << 19


class EtcdLog(Log):
    """The log as one of its relays has it."""

    def __init__(self, etcd, prefix, place):
        self.etcd = etcd
        self.prefix = prefix.encode()
        self.place = place
        self.lease = 0
        self.leased = asyncio.Event()
        self.held = set()
        self.writes = Writes(etcd)
        # Keys of sessions that were left, while they are deleted.
        self.leaving = set()
        self.keeping = None

    @classmethod
    async def start(cls, addresses, secured, wanted, place, prefix):
        """Begins to use a log that agrees with what is wanted, or, without that, one that is there.

        Only who has a place can hold sessions.
        """
        started = cls(Etcd(addresses, secured), prefix, place)
        started.etcd.on_silence = lambda: started.on_silence()
        await started.keep_options(wanted)
        if place is not None:
            await started.move_records()
            started.keeping = asyncio.create_task(started.keep_lease())
        return started

    def key(self, *parts):
        return b"/".join([self.prefix, *(part if isinstance(part, bytes) else part.encode() for part in parts)])

    async def keep_options(self, wanted):
        """Agrees with the log on options; where another relay changes them meanwhile, once more."""
        key = self.key("options")
        while True:
            found = await self.etcd.get(key)
            if found is None and wanted is None:
                raise LogFault(f"etcd: there is no log {self.prefix.decode()}")
            self.options = found and found.value.decode()
            if wanted is None:
                return
            try:
                options = wanted.agree(self.options)
            except LogFault as fault:
                raise LogFault(f"etcd: {fault}") from None
            unchanged = created_at(key, 0) if found is None else has_value(key, found.value)
            if (await self.etcd.transact([unchanged], [put(key, options.encode())])).succeeded:
                self.options = options
                return

    async def move_records(self):
        """Moves the records of a log of before owners could have the same names."""
        prefix = self.key("open", "")
        for each in await self.etcd.get_all(prefix):
            if b"/" not in each.key[len(prefix) :]:
                moved = each.key + b"/" + json.loads(each.value)["owner"].encode()
                await self.etcd.transact([has_value(each.key, each.value)], [delete(each.key), put(moved, each.value)])

    def same_options(self):
        return has_value(self.key("options"), self.options.encode())

    # ---- the lease

    async def keep_lease(self):
        """Has a lease at all times that etcd is there; what was held under one that has ended is lost."""
        while True:
            try:
                self.lease = await self.etcd.grant(LEASE)
            except LogFault as fault:
                log.warning("no lease: %s", fault)
                await asyncio.sleep(RENEWAL)
                continue
            self.leased.set()
            await self.renew_lease()
            log.warning("the lease has ended: %d sessions are let go", len(self.held))
            self.leased.clear()
            for held in list(self.held):
                held.lose("etcd can't be reached")
            # Should it not have ended, its keys are in nobody's way.
            await self.etcd.revoke(self.lease)

    async def renew_lease(self):
        """Returns once the lease has ended, or may have."""
        try:
            while True:
                async with asyncio.timeout(LEASE):
                    await asyncio.sleep(RENEWAL)
                    if await self.etcd.renew(self.lease) <= 0:
                        return
        except (TimeoutError, LogFault):
            pass

    async def end(self):
        if self.keeping is not None:
            self.keeping.cancel()
        if self.leased.is_set():
            try:
                await asyncio.wait_for(self.etcd.revoke(self.lease), LEASE)
            except TimeoutError:
                pass
        await self.etcd.close()

    # ---- sessions

    async def open(self, name, owner):
        await self.leased.wait()
        record = {"id": new_id(name), "owner": owner, "opened": time.time(), "under": self.under}
        return await self.hold(name, record, json.dumps(record).encode(), is_new=True)

    async def take(self, name, owner):
        await self.leased.wait()
        found = await self.etcd.get(self.key("open", name, owner))
        if found is None:
            raise Unavailable("no such session")
        return await self.hold(name, json.loads(found.value), found.value, is_new=False)

    async def reopen(self, name, owner):
        closed = [(json.loads(each.value), each) for each in await self.etcd.get_all(self.key("closed", name + b"."))]
        own = [(record["closed"], record, each) for record, each in closed if record["owner"] == owner]
        opened = self.key("open", name, owner)
        if not own:
            raise Unavailable("no such session" if await self.etcd.get(opened) is None else "open already")
        _, record, found = max(own, key=lambda each: each[0])
        value = json.dumps({key: record[key] for key in record if key not in ("name", "closed")}).encode()
        reply = await self.etcd.transact(
            [self.same_options(), has_value(found.key, found.value), created_at(opened, 0)],
            [delete(found.key), put(opened, value)],
            [look(opened)],
        )
        if not reply.succeeded and [each.value for each in reply.responses[0].response_range.kvs] != [value]:
            raise Unavailable("open already")

    async def hold(self, name, record, value, is_new):
        """Makes the key that holds a session, with the session's record where it is new, and returns it held."""
        opened, held = self.key("open", name, record["owner"]), self.key("held", record["id"])
        mine = json.dumps({"place": self.place, "taking": secrets.token_hex(6)}).encode()
        reply = await self.etcd.transact(
            [self.same_options(), created_at(held, 0), created_at(opened, 0) if is_new else has_value(opened, value)],
            [put(held, mine, self.lease), *([put(opened, value)] if is_new else [])],
            [look(opened), look(held)],
        )
        if reply.succeeded:
            return HeldInEtcd(self, name, record, reply.header.revision)
        records, holders = ([each.value for each in part.response_range.kvs] for part in reply.responses)
        if records != [value] and (records or not is_new):
            raise Unavailable("open already" if is_new else "no such session")
        if not holders:
            raise LogFault("etcd: the log is of a server with other options now")
        if holders != [mine]:
            raise Unavailable(f"in use at {json.loads(holders[0])['place']}")
        # The transaction was carried out before, and its reply was lost.
        return HeldInEtcd(self, name, record, reply.responses[1].response_range.kvs[0].create_revision)

    async def sessions(self, closed=False):
        if closed:
            prefix = self.key("closed", "")
            return [Record(**as_record(each, prefix)) for each in await self.etcd.get_all(prefix)]
        prefix = self.key("held", "")
        held = await self.etcd.get_all(prefix)
        places = {each.key[len(prefix) :].decode(): json.loads(each.value)["place"] for each in held}
        prefix = self.key("open", "")
        records = [as_record(each, prefix) for each in await self.etcd.get_all(prefix)]
        return [Record(**each, place=places.get(each["id"])) for each in records]

    async def rows(self, record):
        return await self.rows_of(record.id)

    async def rows_of(self, id):
        last = await self.etcd.get(self.key("last", id))
        rows = [as_row(each) async for page in self.etcd.pages(self.key("lines", id, "")) for each in page]
        return rows, last and last.value.decode()

    def row_key(self, id, row):
        return self.key("lines", id, f"{row.number:010d}.{row.part:06d}" if row.part else f"{row.number:010d}")

    async def bring(self, record, owner, rows, last, texts):
        """Keeps the rows first: without a record nobody sees them."""
        id = new_id(record.name)
        waiting = [Waiting(id, put_row(self.row_key(id, each), each)) for each in rows]
        while waiting:
            count = fitting(waiting)
            await self.etcd.transact([self.same_options()], [each.put for each in waiting[:count]])
            del waiting[:count]
        for text in texts:
            await self.keep_text(text, id)
        await self.etcd.transact([self.same_options()], [put(self.key("last", id), last.encode())])
        value = {"id": id, "owner": owner, "opened": record.opened, "under": record.under}
        key = self.key("open", record.name, owner)
        if record.closed is not None:
            key = self.key("closed", id)
            value |= {"name": record.name.decode(), "closed": record.closed}
        value = json.dumps(value).encode()
        reply = await self.etcd.transact([self.same_options(), created_at(key, 0)], [put(key, value)], [look(key)])
        if not reply.succeeded and [each.value for each in reply.responses[0].response_range.kvs] != [value]:
            raise Unavailable("open already")

    async def remove(self, record):
        """Removes the record last: what is there without one is removed when it is tried again."""
        for kind in ("lines", "texts"):
            prefix = self.key(kind, record.id, "")
            await self.etcd.transact([], [delete(prefix, after(prefix))])
        await self.etcd.transact([], [delete(self.key(kind, record.id)) for kind in ("last", "closed")])

    # ---- texts and cells

    async def keep_text(self, text, id=OF_ALL):
        """Keeps a text in pieces. It is there once they have its hash together."""
        hash = digest(text)
        for index, start in enumerate(range(0, max(len(text), 1), PIECE)):
            key = self.key("texts", str(id), hash, f"{index:06d}")
            await self.etcd.transact([], [put(key, text[start : start + PIECE])])
        return hash

    async def text(self, hash, id=OF_ALL):
        pieces = await self.etcd.get_all(self.key("texts", str(id), hash, ""))
        text = b"".join(each.value for each in pieces)
        return text if digest(text) == hash else None

    async def texts(self, id=OF_ALL):
        texts = {}
        for each in await self.etcd.get_all(self.key("texts", str(id), "")):
            hash = each.key.split(b"/")[-2].decode()
            texts[hash] = texts.get(hash, b"") + each.value
        return [text for hash, text in texts.items() if digest(text) == hash]

    async def cells(self):
        found = [json.loads(each.value) for each in await self.etcd.get_all(self.key("cells", ""))]
        return {each["name"]: each["hash"] for each in found}

    async def add_cell(self, number, name, hash):
        key = self.key("cells", f"{number:04d}")
        value = json.dumps({"name": name, "hash": hash, "at": time.time()}).encode()
        reply = await self.etcd.transact([created_at(key, 0)], [put(key, value)], [look(key)])
        if not reply.succeeded and [each.value for each in reply.responses[0].response_range.kvs] != [value]:
            raise Unavailable("another relay has loaded a cell meanwhile")


def new_id(name):
    """Returns under which number the rows of a new session lie."""
    return f"{name.decode()}.{secrets.token_hex(6)}"


def as_record(found, prefix):
    """Returns the fields of a record; the name of an open one is its key's."""
    fields = json.loads(found.value)
    return fields | {"name": fields.get("name", found.key[len(prefix) :].partition(b"/")[0].decode()).encode()}


def as_row(found):
    head, _, reply = found.value.partition(b"\n")
    stamp, _, line = head.partition(b" ")
    at, _, chain = stamp.partition(b":")
    number, _, part = found.key.rpartition(b"/")[2].partition(b".")
    return Row(int(number), int(part or 0), float(at), line, reply, chain.decode() or None)
