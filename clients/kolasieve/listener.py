"""Connections as they come: how many there may be, and how long one may stay that nobody has let in."""

import asyncio
import errno
import os
import socket
import stat

from kolasieve.messages import warn

# How long a connection may take to show its token or certificate, in seconds.
PATIENCE = 5

# How many connections that aren't let in yet find room beside as many as may be let in.
NEWCOMERS = 50

# How many connections the kernel keeps until they are accepted.
BACKLOG = 128

# What `accept` fails with where there is no room for one more file, and how long it is left alone then, in seconds.
NO_ROOM = (errno.EMFILE, errno.ENFILE, errno.ENOBUFS, errno.ENOMEM)
PAUSE = 0.5

# The first byte of a handshake.
HANDSHAKE = b"\x16"


class ListenFault(Exception):
    """There can't be listened here; the text says why."""


class Accepted(socket.socket):
    """An accepted connection."""

    # Who it is of, once it is let in.
    owner = None
    # What ends it where it isn't.
    timer = None
    # Whether a reply may be sent as it is: where there is to be a handshake, until it begins.
    is_plain = True

    def __init__(self, listener, number):
        super().__init__(fileno=number)
        self.setblocking(False)
        self.listener = listener

    def close(self):
        """Closes it; whoever serves it does so in the end."""
        self.timer.cancel()
        self.listener.accepted.discard(self)
        super().close()

    def let_in(self, owner):
        """Counts it as this owner's from now on, and returns nothing; or returns why there is no room for it."""
        self.timer.cancel()
        if self.owner is None:
            refusal = self.listener.refusal(owner)
            if refusal is not None:
                return refusal
            self.owner = owner
        return None

    def turn_out(self, text):
        """Ends it, with a reply that says why where one may be sent: whoever serves it sees its end."""
        try:
            if self.is_plain:
                self.send(self.listener.form % text.encode())
            self.shutdown(socket.SHUT_RDWR)
        except OSError:
            pass


class Listener:
    """Accepts connections at some sockets, and has each served by a protocol.

    There are at most `most` that are let in, and `each` of one owner. Of those that aren't let in the one that has waited
    longest makes room for a newcomer, and none waits longer than some seconds: silence keeps nobody out.
    """

    def __init__(self, sockets, protocol, most, each, tls=None, form=b"@ refused: %s\n"):
        self.sockets = sockets
        # Makes the protocol of an accepted connection.
        self.protocol = protocol
        self.most = most
        self.each = each
        self.tls = tls
        # What a reply looks like that says why a connection is ended.
        self.form = form
        # In the order in which they came.
        self.accepted = Ordered()
        self.tasks = {asyncio.create_task(self.accept_all(each)) for each in sockets}

    @property
    def port(self):
        return self.sockets[0].getsockname()[1]

    async def accept_all(self, listening):
        loop = asyncio.get_running_loop()
        while True:
            try:
                connection, _ = await loop.sock_accept(listening)
            except OSError as fault:
                if fault.errno in NO_ROOM:
                    warn(f"no connection can be accepted: {os.strerror(fault.errno)}")
                await asyncio.sleep(PAUSE if fault.errno in NO_ROOM else 0)
                continue
            accepted = Accepted(self, connection.detach())
            accepted.timer = loop.call_later(PATIENCE, self.lose_patience, accepted)
            self.accepted.add(accepted)
            self.make_room()
            serving = asyncio.create_task(self.serve(accepted))
            self.tasks.add(serving)
            serving.add_done_callback(self.tasks.discard)
            # Others have their turn, however many come.
            await asyncio.sleep(0)

    def lose_patience(self, accepted):
        what = "certificate" if self.tls else "token"
        warn(f"a connection is ended: no {what} within {PATIENCE} seconds")
        accepted.turn_out(f"no {what} within {PATIENCE} seconds")

    def make_room(self):
        """Ends the connection that has waited longest to be let in, where there are too many."""
        if len(self.accepted) > self.most + NEWCOMERS:
            oldest = next(each for each in self.accepted if each.owner is None)
            warn("a connection that nobody has let in makes room for another one")
            oldest.turn_out("too many connections wait to be let in")
            # It no longer counts; whoever serves it closes it.
            self.accepted.discard(oldest)

    def refusal(self, owner):
        """Returns why there is no room for one more connection of this owner, or nothing."""
        owners = [each.owner for each in self.accepted if each.owner is not None]
        if len(owners) >= self.most:
            text = f"{self.most} connections, as many as there may be"
        elif owners.count(owner) >= self.each:
            text = f"{self.each} connections of {owner}, as many as there may be of one owner"
        else:
            return None
        warn(f"a connection is refused: {text}")
        return text

    async def serve(self, accepted):
        try:
            if self.tls is not None and not await begins_handshake(accepted):
                accepted.turn_out("this port wants --tls CERT KEY CA")
                accepted.close()
                return
            accepted.is_plain = self.tls is None
            patience = {"ssl": self.tls, "ssl_handshake_timeout": PATIENCE} if self.tls else {}
            await asyncio.get_running_loop().connect_accepted_socket(
                lambda: self.protocol(accepted), accepted, **patience
            )
        except OSError:
            # It has ended, or its handshake failed, which was said.
            accepted.close()

    def accepted_as(self, transport):
        """Returns the connection that a transport has, or None where it has made room for another one."""
        number = transport.get_extra_info("socket").fileno()
        return next((each for each in self.accepted if each.fileno() == number), None)

    async def stop(self):
        """Accepts no more. Connections that are there aren't ended."""
        for task in self.tasks:
            task.cancel()
        await asyncio.gather(*self.tasks, return_exceptions=True)
        for each in self.sockets:
            each.close()


class Ordered(dict):
    """A set that has the order in which its members came."""

    def add(self, one):
        self[one] = True

    def discard(self, one):
        self.pop(one, None)


async def begins_handshake(connection):
    """Returns whether the first byte of a connection, which stays to be read, is that of a handshake."""
    loop = asyncio.get_running_loop()
    readable = loop.create_future()
    loop.add_reader(connection, lambda: readable.done() or readable.set_result(None))
    try:
        await readable
    finally:
        loop.remove_reader(connection)
    return connection.recv(1, socket.MSG_PEEK) in (HANDSHAKE, b"")


# ---- where is listened


def listen_at_port(host, port):
    """Returns sockets that listen at a port, at each address that its host has here."""
    sockets = []
    try:
        for family, kind, number, _, address in socket.getaddrinfo(
            host, port, type=socket.SOCK_STREAM, flags=socket.AI_PASSIVE
        ):
            listening = socket.socket(family, kind, number)
            sockets.append(listening)
            listening.setsockopt(socket.SOL_SOCKET, socket.SO_REUSEADDR, 1)
            if family == socket.AF_INET6:
                listening.setsockopt(socket.IPPROTO_IPV6, socket.IPV6_V6ONLY, 1)
            listening.bind(address)
            listening.listen(BACKLOG)
            listening.setblocking(False)
    except (OSError, OverflowError) as fault:
        for each in sockets:
            each.close()
        raise ListenFault(f"{host}:{port}: {getattr(fault, 'strerror', None) or fault}") from None
    return sockets


def listen_at_path(path, mode):
    """Returns a Unix socket that listens, once a file that nobody listens at is out of the way."""
    remove_stale(path)
    listening = socket.socket(socket.AF_UNIX)
    before = os.umask(0o177)
    try:
        listening.bind(path)
        os.chmod(path, mode)
        listening.listen(BACKLOG)
    except OSError as fault:
        listening.close()
        raise ListenFault(f"{path}: {fault.strerror or fault}") from None
    finally:
        os.umask(before)
    listening.setblocking(False)
    return [listening]


def remove_stale(path):
    """Removes a socket file that nobody listens at."""
    try:
        is_socket = stat.S_ISSOCK(os.stat(path).st_mode)
    except OSError:
        return
    if not is_socket:
        raise ListenFault(f"{path}: it is no socket")
    with socket.socket(socket.AF_UNIX) as probe:
        try:
            probe.connect(path)
        except OSError:
            os.unlink(path)
            return
    raise ListenFault(f"{path}: another relay listens there")


def let_go_of_the_silent(end):
    """Has a connection end whose other end has gone without a word, after a minute."""
    if end.family != socket.AF_UNIX:
        end.setsockopt(socket.SOL_SOCKET, socket.SO_KEEPALIVE, 1)
        end.setsockopt(socket.IPPROTO_TCP, socket.TCP_KEEPIDLE, 30)
        end.setsockopt(socket.IPPROTO_TCP, socket.TCP_KEEPINTVL, 10)
        end.setsockopt(socket.IPPROTO_TCP, socket.TCP_KEEPCNT, 3)
