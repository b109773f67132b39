"""What all see who look at the page: the sessions, and the scene of each one that somebody watches, made once for all."""

import asyncio
import json
import logging
import re
from collections import Counter

from kolasieve import seen
from kolasieve.log import LogFault, title
from kolasieve.picture import COLOURS
from kolasieve.program import Ended, Unsent
from kolasieve.scenes import Scenes
from kolasieve.session import MOST_ENDS

log = logging.getLogger("relay")

# How often a session is asked whether it has changed, and how often one that nobody watches how many marks it has.
PERIOD = 0.5
PERIOD_OF_OTHERS = 2

# How often there may be other sessions.
PERIOD_OF_LIST = 1

# How long a page hears nothing at most, and between two messages at least: it takes a longer silence for the end.
PERIOD_OF_SIGNS = 10
PAUSE = 0.1

# The numbers in the reply to `%stat`.
STAT = re.compile(rb" stat (\d+) of (\d+) entries, \d+ steps since, (\d+) dirty, .* (\d+) of \d+ mark tiles\n\Z")


class Followed:
    """A session that is in use here, as it was seen last."""

    def __init__(self, key):
        self.key = key
        self.title = title(*key)
        self.stat = None
        self.marks = None
        # The state that is shown, its number, and the message that leads there from the one before, if it is short.
        self.shown = None
        self.version = 0
        self.change = None
        # The version and message of all of it, once somebody wants it; or why there is none.
        self.whole = None
        self.fault = None
        # Those who watch it, and whether they wait for the first of it.
        self.watchers = set()
        self.is_wanted = asyncio.Event()

    def row(self):
        """Returns what a list of sessions has of it."""
        found = STAT.search(self.stat) if self.stat else None
        if found is None:
            return {}
        entries, most, areas, _ = map(int, found.groups())
        return {"marks": self.marks, "areas": areas, "entries": entries, "most": most}


class Wall:
    """Looks at the sessions while somebody watches, and changes none."""

    def __init__(self, relay):
        self.relay = relay
        self.scenes = Scenes(relay.library)
        self.watchers = set()
        # Whether each session is left or in use; and those that are in use here, each with its task.
        self.states = {}
        self.followed = {}
        self.tasks = {}
        self.listing = None
        # The message of all sessions that an owner may see, by the owner, until something changes.
        self.lists = {}
        # How many magicd have ended while they were asked of a session, one after another.
        self.ends = Counter()

    def join(self, watcher):
        self.watchers.add(watcher)
        if self.listing is None:
            self.listing = asyncio.create_task(self.list_all())

    async def part(self, watcher):
        """Somebody goes; where he was the last, nobody is asked any more."""
        self.watch(watcher, None)
        self.watchers.discard(watcher)
        if not self.watchers:
            await self.stop()

    async def stop(self):
        tasks = [*self.tasks.values(), *([self.listing] if self.listing else [])]
        self.listing, self.tasks, self.followed = None, {}, {}
        for task in tasks:
            task.cancel()
        await asyncio.gather(*tasks, return_exceptions=True)
        await self.scenes.end()

    def watch(self, watcher, key):
        """Somebody watches another session from now on, or none."""
        if watcher.key in self.followed:
            self.followed[watcher.key].watchers.discard(watcher)
        watcher.key, watcher.has = key, None
        if key in self.followed:
            self.followed[key].watchers.add(watcher)
            self.followed[key].is_wanted.set()
        watcher.news.set()

    def may_see(self, watcher):
        """Returns whether somebody may see the session that he watches, now."""
        return self.relay.shares.may_see(watcher.owner, watcher.key)

    # ---- looking

    async def list_all(self):
        """Keeps up with which sessions there are."""
        while True:
            try:
                self.states = await self.relay.states()
            except LogFault:
                pass
            here = {key for key, session in self.relay.sessions.items() if session.program is not None}
            for key in here - self.followed.keys():
                self.begin(key)
            for key in self.followed.keys() - here:
                await self.forget(key)
            self.tell()
            await asyncio.sleep(PERIOD_OF_LIST)

    def begin(self, key):
        followed = self.followed[key] = Followed(key)
        followed.watchers.update(watcher for watcher in self.watchers if watcher.key == key)
        self.tasks[key] = asyncio.create_task(self.follow_changes(followed))

    async def forget(self, key):
        """A session isn't in use here any more."""
        followed, task = self.followed.pop(key), self.tasks.pop(key)
        task.cancel()
        await asyncio.gather(task, return_exceptions=True)
        await self.scenes.forget(followed.title)

    async def follow_changes(self, followed):
        """Looks at a session again and again. Each has its own task: one may have to wait for a long check.

        Looks that take long come seldom, so that the designer's lines have most of the time.
        """
        others, now = 0, asyncio.get_running_loop().time
        while True:
            followed.is_wanted.clear()
            start = now()
            [stat] = await self.asked(followed, seen.replies_of, [b"stat"]) or [None]
            if stat is not None and stat != followed.shown and any(map(self.may_see, followed.watchers)):
                await self.show(followed)
            elif stat is not None and stat != followed.stat and start >= others:
                await self.count(followed, stat)
                others = now() + PERIOD_OF_OTHERS
            try:
                await asyncio.wait_for(followed.is_wanted.wait(), max(PERIOD, 4 * (now() - start)))
            except TimeoutError:
                pass

    async def asked(self, followed, ask, *words):
        """Returns what a session was asked, or None where it isn't open here, or magicd ends at it."""
        session = self.relay.sessions.get(followed.key)
        if session is None or session.program is None or self.ends[followed.key] == MOST_ENDS:
            return None
        try:
            reply = await ask(session, *words)
        except (Unsent, LogFault):
            return None
        except Ended:
            self.ends[followed.key] += 1
            if self.ends[followed.key] == MOST_ENDS:
                log.warning("session %s: the page asks no more: magicd ended twice meanwhile", followed.title)
            return None
        del self.ends[followed.key]
        return reply

    async def count(self, followed, stat):
        """Counts the marks of a session that nobody watches, where there may be any."""
        found = STAT.search(stat)
        if found is not None and found[4] == b"1":
            followed.stat, followed.marks = stat, 0
        else:
            found = await self.asked(followed, seen.marks_of)
            followed.stat, followed.marks = found or (followed.stat, followed.marks)
        self.tell()

    async def show(self, followed):
        """Has a session be shown as it is now to all who watch it."""
        found = await self.asked(followed, seen.texts_of)
        if found is None:
            return
        stat, marks, texts = found
        kind, message = await self.scenes.show(followed.title, followed.version + 1, texts)
        followed.stat = followed.shown = stat
        followed.marks = marks
        if kind == b"fault":
            followed.fault = message.decode()
        else:
            followed.fault = None
            followed.version += 1
            followed.change = message.decode() if kind == b"change" else None
            followed.whole = None if kind == b"change" else (followed.version, message.decode())
        self.tell()

    async def whole_of(self, followed):
        """Returns the version and the message of all that is shown of a session; nothing where it is to be shown anew."""
        if followed.whole is None:
            version, message = await self.scenes.whole(followed.title)
            if version == b"fault":
                followed.shown = None
                return None
            followed.whole = int(version), message.decode()
        return followed.whole

    async def near(self, followed, box):
        """Returns the message of what each rule forbids in a box, or nothing where it can't be asked."""
        violations = await self.asked(followed, seen.violations_in, b"%d %d %d %d" % tuple(box))
        message = violations and await self.scenes.near(followed.title, box, violations)
        return message and message.decode()

    # ---- telling

    def tell(self):
        self.lists.clear()
        for watcher in self.watchers:
            watcher.news.set()

    def greeting(self):
        """Returns what a page has to know first."""
        types = [{"name": each.names[0], "plane": each.plane} for each in self.scenes.types]
        return json.dumps({"types": types, "colours": COLOURS})

    def list_for(self, owner):
        """Returns the message of all sessions that this owner may see."""
        if owner not in self.lists:
            self.lists[owner] = self.listed(owner)
        return self.lists[owner]

    def listed(self, owner):
        rows = []
        for key, state in self.states.items():
            if self.relay.shares.may_see(owner, key):
                of, name = key
                row = {"title": title(*key), "owner": of, "name": name.decode(), "state": state}
                if key in self.followed:
                    row |= {"state": "here"} | self.followed[key].row()
                rows.append(row)
        return json.dumps({"sessions": rows})


class Watcher:
    """Somebody who looks at the page: where messages for him go, whose sessions he may see, and which one he watches."""

    def __init__(self, wall, send, owner):
        self.wall = wall
        self.send = send
        self.owner = owner
        self.key = None
        self.news = asyncio.Event()
        # The session and the version of it that he has, and the list; and a box for whose rules he has asked.
        self.has = None
        self.list = None
        self.box = None

    async def tell_all(self):
        """Sends what is new, again and again. One who reads slowly misses versions, and holds up nobody."""
        await self.send(self.wall.greeting())
        self.news.set()
        while True:
            try:
                await asyncio.wait_for(self.news.wait(), PERIOD_OF_SIGNS)
            except TimeoutError:
                await self.send("{}")
            self.news.clear()
            rows = self.wall.list_for(self.owner)
            if rows != self.list:
                self.list = rows
                await self.send(rows)
            followed = self.wall.followed.get(self.key)
            if followed is not None and self.wall.may_see(self):
                await self.tell_of(followed)
                await self.tell_near(followed)
            # What changes meanwhile is told together.
            await asyncio.sleep(PAUSE)

    def look_near(self, box):
        """He wants to know what each rule forbids in a box."""
        self.box = box
        self.news.set()

    async def tell_near(self, followed):
        box, self.box = self.box, None
        message = box and await self.wall.near(followed, box)
        if message:
            await self.send(message)

    async def tell_of(self, followed):
        """Sends a session as it is now, where he hasn't got it: how it changed, where he has it as it was before."""
        if followed.fault is not None:
            if self.has != (followed, followed.fault):
                self.has = followed, followed.fault
                await self.send(json.dumps({"session": followed.title, "fault": followed.fault}))
            return
        if followed.version == 0 or self.has == (followed, followed.version):
            return
        if self.has == (followed, followed.version - 1) and followed.change is not None:
            version, message = followed.version, followed.change
        else:
            found = await self.wall.whole_of(followed)
            if found is None:
                return
            version, message = found
        self.has = followed, version
        await self.send(message)
