"""What a relay writes for the sessions that it holds in etcd."""

import asyncio
from dataclasses import dataclass

from kolasieve.etcd import look, put
from kolasieve.log import LogFault, settle

# etcd takes 128 operations and 1.5 megabytes in a transaction.
MOST_OPERATIONS = 120
MOST_BYTES = 1 << 20


def put_row(key, row):
    """Returns the operation that puts a row."""
    chained = b"" if row.chain is None else b":" + row.chain.encode()
    return put(key, b"%.3f%s %s\n%s" % (row.at, chained, row.line, row.reply))


def fitting(waiting):
    """Returns how many rows that wait, from the first, one transaction takes, with a last hash for each session."""
    size = 0
    sessions = set()
    for count, each in enumerate(waiting):
        sessions.add(each.held)
        size += 0 if each.put is None else each.put.ByteSize()
        if count + len(sessions) == MOST_OPERATIONS or (count > 0 and size > MOST_BYTES):
            return count
    return len(waiting)


@dataclass(eq=False)
class Waiting:
    """A row of a session, or none where it is only to be certain that the session is held."""

    held: object
    put: object = None
    # The row's hash.
    last: str = None
    done: asyncio.Future = None


class Writes:
    """All that waits goes into one transaction while the one before is under way.

    A transaction compares for each session in it that the relay still holds it. One whose outcome is unknown is made
    again, unchanged, before any later one: a row's key is its number, so it is there once.
    """

    def __init__(self, etcd):
        self.etcd = etcd
        self.waiting = []
        self.under_way = []
        self.writing = None

    def queue(self, held, row_put=None, last=None):
        """Returns a future that has a result once the row is durable, and the session was held after this call."""
        done = asyncio.get_running_loop().create_future()
        if held.lost.done():
            done.set_exception(LogFault(held.lost.result()))
            return done
        self.waiting.append(Waiting(held, row_put, last, done))
        if self.writing is None:
            self.writing = asyncio.create_task(self.write_all())
        return done

    async def write_all(self):
        while self.waiting:
            count = fitting(self.waiting)
            self.under_way, self.waiting = self.waiting[:count], self.waiting[count:]
            if not await self.write(self.under_way):
                # Some session isn't held any more: it alone is lost.
                for held in dict.fromkeys(each.held for each in self.under_way):
                    if not await self.write([each for each in self.under_way if each.held is held]):
                        held.lose("another relay has it")
        self.writing = None

    async def write(self, batch):
        """Writes what waits for sessions that are held, all or nothing, and returns whether it is done."""
        batch = [each for each in batch if not each.held.lost.done()]
        sessions = {each.held for each in batch}
        if not batch:
            return True
        puts = [each.put for each in batch if each.put is not None]
        lasts = {each.held.last_key: each.last for each in batch if each.put is not None}
        puts += [put(key, last.encode()) for key, last in lasts.items()]
        try:
            reply = await self.etcd.transact([each.mine for each in sessions], puts or [look(batch[0].held.key)])
        except LogFault as fault:
            if len(sessions) == 1:
                batch[0].held.lose(str(fault))
            return False
        if reply.succeeded:
            for each in batch:
                settle(each.done)
        return reply.succeeded

    def give_up(self, held):
        """Nothing that waits for a session is durable for certain."""
        for each in self.under_way + self.waiting:
            if each.held is held:
                settle(each.done, fault=LogFault(held.lost.result()))
