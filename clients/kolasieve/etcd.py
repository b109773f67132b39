"""An etcd of several addresses: where one doesn't reply, the next is asked."""

import asyncio
import logging
import pathlib

import grpc
from etcd3 import etcdrpc

from kolasieve.log import LogFault

log = logging.getLogger("relay")

# How long a call may take before it is made again at the next address, in seconds, and how long until then.
LONGEST_CALL = 2
PAUSE = 0.1

# After how long without any reply it is said that none comes, in seconds.
PATIENCE = 1

# What no other address would mend: the request itself is refused.
REFUSALS = (
    grpc.StatusCode.INVALID_ARGUMENT,
    grpc.StatusCode.NOT_FOUND,
    grpc.StatusCode.FAILED_PRECONDITION,
    grpc.StatusCode.RESOURCE_EXHAUSTED,
    grpc.StatusCode.PERMISSION_DENIED,
    grpc.StatusCode.UNIMPLEMENTED,
)

# One of these means that it is to be made again.
BUSY = "too many requests"

# A channel looks for its etcd again at least once a second, and takes a page of rows.
CHANNEL = (
    ("grpc.initial_reconnect_backoff_ms", 100),
    ("grpc.min_reconnect_backoff_ms", 1000),
    ("grpc.max_reconnect_backoff_ms", 1000),
    ("grpc.max_receive_message_length", 64 << 20),
    ("grpc.enable_http_proxy", 0),
)

# How many keys are read at a time.
PAGE = 500


def credentials(certificate, key, authority):
    """Returns what a channel is secured by."""
    try:
        return grpc.ssl_channel_credentials(
            pathlib.Path(authority).read_bytes(), pathlib.Path(key).read_bytes(), pathlib.Path(certificate).read_bytes()
        )
    except OSError as fault:
        raise LogFault(f"{fault.filename}: {fault.strerror}") from None


class Address:
    """One etcd."""

    def __init__(self, address, secured):
        self.address = address
        self.channel = (
            grpc.aio.insecure_channel(address, CHANNEL)
            if secured is None
            else grpc.aio.secure_channel(address, secured, CHANNEL)
        )
        self.keys = etcdrpc.KVStub(self.channel)
        self.leases = etcdrpc.LeaseStub(self.channel)

    def txn(self, request):
        return self.keys.Txn(request, timeout=LONGEST_CALL)

    def range(self, request):
        return self.keys.Range(request, timeout=LONGEST_CALL)

    def grant(self, request):
        return self.leases.LeaseGrant(request, timeout=LONGEST_CALL)

    def revoke(self, request):
        return self.leases.LeaseRevoke(request, timeout=LONGEST_CALL)

    async def renew(self, request):
        """Returns the seconds that a lease has; zero where it has ended."""
        call = self.leases.LeaseKeepAlive(iter([request]), timeout=LONGEST_CALL)
        reply = await call.read()
        call.cancel()
        return 0 if reply is grpc.aio.EOF else reply.TTL


class Etcd:
    """Makes calls, again and again until one is replied to or refused."""

    def __init__(self, addresses, secured=None):
        self.addresses = [Address(each, secured) for each in addresses]
        self.current = 0
        # Since when nothing is replied to, as the loop has its time, and what is called then.
        self.silent_since = None
        self.on_silence = lambda: None

    async def call(self, name, request):
        while True:
            asked = self.current
            try:
                reply = await getattr(self.addresses[asked], name)(request)
            except grpc.aio.AioRpcError as fault:
                if fault.code() in REFUSALS and BUSY not in (fault.details() or ""):
                    raise LogFault(f"etcd: {fault.details()}") from None
                self.goes_on(asked, fault)
                await asyncio.sleep(PAUSE)
                continue
            if self.silent_since is not None:
                self.silent_since = None
                log.info("etcd replies again at %s", self.addresses[asked].address)
            return reply

    def goes_on(self, asked, fault):
        """Has later calls made at the next address; notes for how long none has replied."""
        if self.current == asked:
            self.current = (asked + 1) % len(self.addresses)
        if self.silent_since is None:
            self.silent_since = asyncio.get_running_loop().time()
            log.warning("etcd at %s: %s", self.addresses[asked].address, fault.details())
            asyncio.get_running_loop().call_later(PATIENCE, self.is_silent, self.silent_since)

    def is_silent(self, since):
        if self.silent_since == since:
            log.warning("no etcd replies")
            self.on_silence()

    # ---- transactions

    async def transact(self, compare, success, failure=()):
        """Returns a transaction's reply. It may have been carried out before, where its first outcome is unknown."""
        return await self.call("txn", etcdrpc.TxnRequest(compare=compare, success=success, failure=failure))

    async def get(self, key):
        """Returns a key as it is now, or None."""
        found = await self.call("range", etcdrpc.RangeRequest(key=key))
        return found.kvs[0] if found.kvs else None

    async def pages(self, prefix):
        """Yields all keys that begin so, in their order, some at a time: others' calls come between them."""
        start, end = prefix, after(prefix)
        while True:
            reply = await self.call("range", etcdrpc.RangeRequest(key=start, range_end=end, limit=PAGE))
            yield reply.kvs
            if not reply.more:
                return
            start = reply.kvs[-1].key + b"\0"

    async def get_all(self, prefix):
        """Returns all keys that begin so, in their order."""
        return [each async for page in self.pages(prefix) for each in page]

    # ---- leases

    async def grant(self, seconds):
        return (await self.call("grant", etcdrpc.LeaseGrantRequest(TTL=seconds))).ID

    async def renew(self, lease):
        return await self.call("renew", etcdrpc.LeaseKeepAliveRequest(ID=lease))

    async def revoke(self, lease):
        try:
            await self.call("revoke", etcdrpc.LeaseRevokeRequest(ID=lease))
        except LogFault:
            # It has ended already.
            pass

    async def close(self):
        await asyncio.gather(*(each.channel.close() for each in self.addresses))


def after(prefix):
    """Returns the first key behind all that begin so."""
    return prefix[:-1] + bytes([prefix[-1] + 1])


# ---- parts of transactions


def created_at(key, revision):
    """Compares a key's create revision; that of a key that isn't there is zero."""
    return etcdrpc.Compare(
        key=key, target=etcdrpc.Compare.CREATE, result=etcdrpc.Compare.EQUAL, create_revision=revision
    )


def has_value(key, value):
    return etcdrpc.Compare(key=key, target=etcdrpc.Compare.VALUE, result=etcdrpc.Compare.EQUAL, value=value)


def put(key, value, lease=0):
    return etcdrpc.RequestOp(request_put=etcdrpc.PutRequest(key=key, value=value, lease=lease))


def delete(key, end=b""):
    return etcdrpc.RequestOp(request_delete_range=etcdrpc.DeleteRangeRequest(key=key, range_end=end))


def look(key):
    """A read that makes its transaction linearizable: one without any operation is done by one etcd alone."""
    return etcdrpc.RequestOp(request_range=etcdrpc.RangeRequest(key=key))
