"""A session that a relay holds in etcd, by a key under its lease."""

import asyncio
import json
import logging
import time

from kolasieve.etcd import created_at, delete, look, put
from kolasieve.etcd_writes import put_row
from kolasieve.log import Held, LogFault

log = logging.getLogger("relay")

# How long a relay keeps its sessions where it doesn't reach etcd, in seconds.
LEASE = 5


class HeldInEtcd(Held):
    """A session for which this relay has made the key `held`, at a revision that no other making has."""

    def __init__(self, in_log, name, record, revision):
        super().__init__(in_log, record["id"], record.get("under", ""))
        self.name = name
        self.record = record
        self.key = in_log.key("held", self.id)
        self.last_key = in_log.key("last", self.id)
        self.mine = created_at(self.key, revision)
        in_log.held.add(self)

    def put(self, row, before):
        return self.log.writes.queue(self, put_row(self.log.row_key(self.id, row), row), row.chain)

    def confirm(self):
        return self.log.writes.queue(self)

    def lose(self, why):
        """The relay doesn't hold the session any more, or not for certain: nothing that waits is passed on."""
        if not self.lost.done():
            self.lost.set_result(why)
            self.log.held.discard(self)
            self.log.writes.give_up(self)

    async def read(self):
        # What was queued before is durable then, and what another relay had under way can't become durable any more.
        await self.confirm()
        return await self.unless_lost(self.log.rows_of(self.id))

    async def rows(self):
        rows = await super().rows()
        # From now on the log has the hash of the last, where it is of before there were hashes.
        await self.unless_lost(self.log.etcd.transact([self.mine], [put(self.last_key, self.last.encode())]))
        return rows

    async def free_name(self):
        opened = self.log.key("open", self.name, self.record["owner"])
        closed = self.log.key("closed", self.id)
        value = json.dumps(self.record | {"name": self.name.decode(), "closed": time.time()}).encode()
        reply = await self.unless_lost(self.log.etcd.transact(
            [self.mine], [delete(opened), delete(self.key), put(closed, value)], [look(closed)]
        ))
        if not reply.succeeded and [each.value for each in reply.responses[0].response_range.kvs] != [value]:
            raise LogFault("another relay has it")
        self.log.held.discard(self)

    async def leave(self):
        if not self.lost.done():
            # Rows that are queued are durable first: without the key they wouldn't be.
            confirmed = self.confirm()
            confirmed.add_done_callback(asyncio.Future.exception)
            await asyncio.wait([confirmed], timeout=LEASE)
        leaving = asyncio.create_task(self.delete_key())
        self.log.leaving.add(leaving)
        leaving.add_done_callback(self.log.leaving.discard)
        # Where etcd isn't there, the key is deleted later, or goes with its lease.
        await asyncio.wait([leaving], timeout=LEASE)
        self.log.held.discard(self)

    async def delete_key(self):
        try:
            await self.log.etcd.transact([self.mine], [delete(self.key)])
        except LogFault as fault:
            log.warning("session %s stays in use: %s", self.name.decode(), fault)

    async def unless_lost(self, call):
        """Waits for a call, but no longer than the relay holds the session."""
        calling = asyncio.ensure_future(call)
        await asyncio.wait([calling, self.lost], return_when=asyncio.FIRST_COMPLETED)
        if not calling.done():
            calling.cancel()
            raise LogFault(self.lost.result())
        return calling.result()
