"""The page: the files of which it consists, and the connection over which it gets all that it shows."""

import asyncio
import hmac
import json
import logging
import pathlib

from aiohttp import WSCloseCode, WSMsgType, web

from kolasieve.certificates import owner_of
from kolasieve.limits import PAGE_CONNECTIONS, PAGE_CONNECTIONS_EACH
from kolasieve.listener import Listener, listen_at_port
from kolasieve.messages import warn
from kolasieve.program import LONGEST_END
from kolasieve.wall import Wall, Watcher

log = logging.getLogger("relay")

# What is replied to a connection that is ended before it has asked for anything.
FORM = b"HTTP/1.1 400 Bad Request\r\nConnection: close\r\n\r\n%s\n"

FILES = {"/": ("page.html", "text/html"), "/page.js": ("page.js", "text/javascript"), "/page.css": ("page.css", "text/css")}

# A page may run its own files alone, stand in no other page, and tell nobody where it is.
HEADERS = {
    "Content-Security-Policy": "default-src 'none'; script-src 'self'; style-src 'self'; img-src data:; connect-src 'self'; "
    "base-uri 'none'; form-action 'none'; frame-ancestors 'none'",
    "Referrer-Policy": "no-referrer",
    "X-Content-Type-Options": "nosniff",
    "Cache-Control": "no-store",
}

# The protocol of the page's connection. Behind it stands the token: a browser sends no other header.
PROTOCOL = "kolasieve"

# The lines of the world lie between this and its negative.
WORLD = 1048576

# How long a message of a page may be, in bytes.
LONGEST_MESSAGE = 2000

# Whose all connections are that have shown the token.
OF_ALL = "the page's users"


class Page:
    """Serves the page. It shows all sessions to who has the token; with certificates, to each designer his own."""

    def __init__(self, relay, token, tls=None):
        self.token = token
        self.tls = tls
        self.listener = None
        self.runner = None
        self.wall = Wall(relay)

    async def start(self, host, port):
        app = web.Application(middlewares=[self.guard])
        app.add_routes([*(web.get(path, self.file) for path in FILES), web.get("/token", self.has_token)])
        app.add_routes([web.get("/watch", self.watch)])
        app.on_response_prepare.append(add_headers)
        logging.getLogger("aiohttp.server").addFilter(in_a_line)
        self.runner = web.AppRunner(app, access_log=None)
        await self.runner.setup()
        each = PAGE_CONNECTIONS if self.tls is None else PAGE_CONNECTIONS_EACH
        self.listener = Listener(
            listen_at_port(host, port), lambda accepted: self.runner.server(), PAGE_CONNECTIONS, each, self.tls, FORM
        )
        if self.tls is None:
            log.info("the page is http://%s:%d/?token=%s", host, self.listener.port, self.token)
        else:
            log.info("the page is https://%s:%d/", host, self.listener.port)

    async def stop(self):
        await self.listener.stop()
        await self.wall.stop()
        try:
            await asyncio.wait_for(self.runner.cleanup(), LONGEST_END)
        except TimeoutError:
            pass

    # ---- who gets in

    @web.middleware
    async def guard(self, request, handler):
        """Lets in who has a certificate, or the token by a name of this machine; and scripts of this page alone.

        The page's files are no secret. They are shown without a token too, but not with a wrong one.
        """
        here = {request.host}
        if self.tls is None:
            here = {f"127.0.0.1:{self.listener.port}", f"localhost:{self.listener.port}"}
            if request.host not in here:
                raise web.HTTPForbidden(text="another host\n")
            shown = tokens_of(request)
            if not all(map(self.is_token, shown)) or not (shown or request.path in FILES):
                raise web.HTTPForbidden(text="no token, or another one\n")
        origin = request.headers.get("Origin")
        if origin is not None and origin not in {f"{'https' if self.tls else 'http'}://{each}" for each in here}:
            raise web.HTTPForbidden(text="another origin\n")
        accepted = self.listener.accepted_as(request.transport)
        refusal = accepted.let_in(self.owner(request) or OF_ALL) if accepted else "too many connections"
        if refusal is not None:
            raise web.HTTPServiceUnavailable(text=f"{refusal}\n")
        return await handler(request)

    def is_token(self, word):
        return hmac.compare_digest(word.encode("utf-8", "replace"), self.token.encode())

    def owner(self, request):
        """Returns whose sessions are shown, or None where all are."""
        return None if self.tls is None else owner_of(request.transport)

    # ---- what is served

    async def file(self, request):
        name, kind = FILES[request.path]
        reply = web.Response(text=pathlib.Path(__file__).with_name(name).read_text(encoding="utf-8"), content_type=kind)
        reply.force_close()
        return reply

    async def has_token(self, request):
        """Replies to a page that wants to know whether its connection was refused for its token."""
        return web.Response(status=204)

    async def watch(self, request):
        """Sends all that is to be seen, and of one session, which the page may choose, its scene."""
        socket = web.WebSocketResponse(
            protocols=[PROTOCOL], compress=False, max_msg_size=LONGEST_MESSAGE, heartbeat=30, timeout=LONGEST_END
        )
        await socket.prepare(request)
        watcher = Watcher(self.wall, socket.send_str, self.owner(request))
        self.wall.join(watcher)
        telling = asyncio.create_task(watcher.tell_all())
        try:
            async for message in socket:
                if message.type != WSMsgType.TEXT or not self.take(watcher, message.data):
                    await socket.close(code=WSCloseCode.POLICY_VIOLATION, message=b"no message of the page")
        finally:
            telling.cancel()
            await asyncio.gather(telling, return_exceptions=True)
            await self.wall.part(watcher)
        return socket

    def take(self, watcher, text):
        """Takes a message of a page, and returns whether it is one: which session is watched, or which box is looked at."""
        try:
            (word, value), = json.loads(text).items()
        except (ValueError, TypeError, AttributeError, RecursionError):
            return False
        if word == "watch" and isinstance(value, str):
            owner, _, name = value.rpartition("/")
            self.wall.watch(watcher, (owner, name.encode("utf-8", "replace")))
        elif word == "near" and is_box(value):
            watcher.look_near(value)
        else:
            return False
        return True


def is_box(value):
    """Returns whether a value is four lines of the world with squares between them."""
    if not isinstance(value, list) or len(value) != 4 or any(type(each) is not int for each in value):
        return False
    left, bottom, right, top = value
    return -WORLD <= left < right <= WORLD and -WORLD <= bottom < top <= WORLD


def tokens_of(request):
    """Returns each token that a request shows: in its address, in a header, and behind the protocol of its connection."""
    found = request.query.getall("token", [])
    kind, _, word = request.headers.get("Authorization", "").partition(" ")
    if kind == "Bearer":
        found.append(word)
    protocols = [each.strip() for each in request.headers.get("Sec-WebSocket-Protocol", "").split(",")]
    return found + [each for each in protocols if each not in ("", PROTOCOL)]


def in_a_line(record):
    """Has a fault of a request said in one line, and counted; returns whether it is to be said otherwise."""
    warn(f"the page: {record.exc_info[1]!r}" if record.exc_info else f"the page: {record.getMessage()}")
    return False


async def add_headers(request, reply):
    reply.headers.update(HEADERS)
