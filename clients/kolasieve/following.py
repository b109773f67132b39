"""Follows what a window of Magic holds: sends the differences to a chip's sessions, and shows what is forbidden.

The window writes lines of words parted by tabs:

    look PATH CELL BACKUP MODIFIED FOLDERS    a look, as `Look` has it; lists with blanks
    done                                      a `put` is carried out
    fetch | send                              where both sides differ, takes the server's layout, or the window's
    undo                                      puts back what the last change has replaced
    leave | close                             leaves the sessions, or closes them

and reads those of `showing.py`.
"""

import asyncio
import hashlib
import re

from kolasieve import violations
from kolasieve.areas import small_pieces
from kolasieve.carrier import Lost
from kolasieve.chip import OutOfStep, Refused
from kolasieve.hierarchy import LayoutFault
from kolasieve.layout import Layout, boxes_round
from kolasieve.overlaps import TEXTS
from kolasieve.rects import bounds, clipped, grown, meet, squares, strips, without
from kolasieve.served import ServedFault
from kolasieve.sessions import InUse, Sessions, apart, layers_of
from kolasieve.showing import Shown
from kolasieve.window import EVERYWHERE, Look, Unread, View, name_of

# The pause after a connection is lost, in seconds; each further one is twice as long, up to the longest.
FIRST_PAUSE = 0.2
LONGEST_PAUSE = 5

# After how many seconds without all replies that is said.
LATE = 10

# How many bytes the name of a session may have, and of how many changes it is known what they have replaced.
LONGEST_NAME = 32
MOST_CHANGES = 1000


def session_name(name, cell):
    """Returns the name of the sessions of a designer's cell."""
    told = f"{name}_{name_of(cell)}"
    plain = re.sub(r"[^A-Za-z0-9_]", "_", told)
    if plain == told and len(plain) <= LONGEST_NAME:
        return plain
    digest = hashlib.sha256(told.encode()).hexdigest()[:6]
    return f"{plain[: LONGEST_NAME - 7]}_{digest}"


class Following:
    """A window and the chip that is to show the same."""

    def __init__(self, served, process, name, take=None, tls=None):
        self.sessions = Sessions(served, process, tls)
        self.process = process
        self.grid = served.grid
        self.name = name
        # Which side is right where both differ at first, if that is decided.
        self.take = take
        self.halo = max(group.halo for group in process.groups) * served.grid
        self.areas = [area.on(served.grid) for area in process.areas]
        self.shown = Shown(served.grid)
        # The window: the last look at it, what it shows, and what it shows of a cell that waits.
        self.seen, self.view, self.waiting = None, None, None
        # What it was to hold in boxes, and how many of these it hasn't taken yet.
        self.putting, self.puts = [], 0
        # The chip and its cell; whether its sessions are at hand, and whether they can hold the layout.
        self.chip, self.chip_cell, self.is_open, self.is_held = None, None, False, True
        # Boxes in which the chip has to take what the window has, those in which it is taking it, and those that it has
        # refused; and those in which the sessions haven't said what is forbidden.
        self.pending, self.under_way, self.refused, self.unsaid = [], [], [], []
        # What changes have replaced, the last one last, and the boxes of one that is being undone.
        self.replaced, self.undoing = [], []
        # While nobody has decided: where both sides differ, what the sessions show, and where the window was edited since.
        self.undecided, self.found_there, self.edited = [], None, []
        # Words of the window that aren't obeyed yet, and whether there is something to do.
        self.asked, self.changed = [], asyncio.Event()

    # ---- the window

    async def read(self, lines):
        """Takes the window's lines, until it ends."""
        while line := await lines.readline():
            word, *words = line.decode("utf-8", "surrogateescape").rstrip("\n").split("\t")
            if word == "look":
                self.look(Look(*words[:3], tuple(words[3].split()), tuple(words[4].split())))
            elif word == "done":
                self.puts -= 1
            else:
                self.asked.append(word)
                self.changed.set()

    def look(self, look):
        """Takes a look at the window; one that can't be read is left to the next."""
        try:
            look.read()
            self.shown.tell("read")
            if look != self.seen or self.has_put():
                self.seen = look
                self.take_window(look)
        except Unread as fault:
            self.shown.tell("read")
            self.shown.say(f"the window isn't followed: {fault}")
        except LayoutFault as fault:
            self.shown.say(f"the window isn't followed: {fault}")

    def take_window(self, look):
        """Takes what the window shows now: what has changed is pending, and another cell waits until that is sent."""
        if self.view is None or look.cell != self.view.cell:
            self.waiting = View(self.process, look, self.grid)
            if self.view is None:
                self.show_waiting()
            self.changed.set()
            return
        self.waiting = None
        boxes = self.view.take(look)
        # This is known already.
        self.shown.take(EVERYWHERE, self.view.between.rects())
        if self.undecided:
            self.edited += boxes
        boxes += self.not_put()
        if boxes:
            self.pending, self.refused = self.pending + self.refused + boxes, []
            self.show_awaiting()
            self.changed.set()

    def show_waiting(self):
        """The window's cell is from now on the one that waits."""
        self.view, self.waiting = self.waiting, None
        self.is_open, self.putting, self.puts = False, [], 0

    @property
    def window(self):
        """What the window shows, as a layout."""
        return self.view.layout

    def put(self, changes):
        """Has the window hold layers in boxes, by its own cell's paint: nothing of cells that it uses is changed."""
        used = self.view.used()
        own = [(box, beside(layers, used.within(box))) for box, layers in changes]
        self.shown.put(self.names(), own)
        self.putting += changes
        self.puts += len(own)

    def has_put(self):
        return bool(self.putting) and not self.puts

    def not_put(self):
        """Returns the boxes in which the window shows something else than it was to hold, once it has taken that."""
        boxes = []
        if self.has_put():
            boxes = [box for box, layers in self.putting if self.window.within(box) != layers]
            self.putting = []
        if boxes:
            where = ", ".join(map(self.shown.box, boxes[:4]))
            stay = f"{len(boxes)} places stay as the window has them"
            self.shown.say(f"{stay}, since cells that it uses differ there: {where}")
        return boxes

    # ---- the server

    async def run(self):
        """Follows until the sessions are left or closed."""
        pause = FIRST_PAUSE
        while not self.wants_to_end():
            try:
                await self.sessions.connect()
                pause = FIRST_PAUSE
                await self.follow_all()
                return
            except (Lost, OSError, ServedFault, InUse, violations.NotChecked) as fault:
                self.shown.say(f"the server can't be reached, and is tried again: {fault}")
                self.show_awaiting()
                if self.waiting:
                    self.show_waiting()
            finally:
                self.is_open = False
                await self.sessions.hang_up()
            await asyncio.sleep(pause)
            pause = min(2 * pause, LONGEST_PAUSE)
        self.shown.say("the server couldn't be reached: it may not have what was edited last")

    def wants_to_end(self):
        return bool({"leave", "close"} & set(self.asked))

    async def follow_all(self):
        """Follows over these connections, until the sessions are left or closed."""
        while True:
            if self.view is not None:
                await self.said_where_late(asyncio.ensure_future(self.follow()))
            if self.waiting:
                self.show_waiting()
                continue
            if self.asked and await self.obey(self.asked.pop(0)):
                return
            await self.wait()

    async def said_where_late(self, task):
        """Waits for a task, and says where it takes long: the network may be cut."""
        try:
            done, _ = await asyncio.wait([task], timeout=LATE)
            if not done:
                self.shown.say("the server hasn't replied to all yet; the window goes on")
            await task
        finally:
            task.cancel()

    async def wait(self):
        """Waits until there is something to do; fails where a connection ends."""
        if not self.asked:
            changed = asyncio.ensure_future(self.changed.wait())
            ends = self.sessions.ends()
            await asyncio.wait([changed, *ends], return_when=asyncio.FIRST_COMPLETED)
            changed.cancel()
            if any(each.done() for each in ends):
                raise Lost("the connection is lost")
        self.changed.clear()

    async def obey(self, word):
        """Does what the window has asked for; returns whether that ends it."""
        if word == "leave":
            end = "left" if await self.sessions.leave() else "closed: there is no log"
            self.shown.say(f"{self.sessions.name} is {end}")
        elif word == "close":
            await self.sessions.close()
            self.shown.say(f"{self.sessions.name} is closed")
        elif word == "undo":
            self.undo()
        elif word in ("fetch", "send") and self.is_open:
            await self.compare()
            await self.decide("server" if word == "fetch" else "window")
        return word in ("leave", "close")

    async def follow(self):
        """Brings the sessions in step with the window, and shows what is forbidden."""
        try:
            if not self.is_open or (self.pending and not self.is_held):
                await self.begin()
            if self.pending and not self.undecided:
                await self.send()
            for text in await self.sessions.make_room():
                self.shown.say(f"the server can't make a journal short: {text}")
        except (OutOfStep, Refused) as fault:
            self.is_held = False
            self.pending = []
            self.shown.say(f"the server refuses the layout: {fault}")

    async def send(self):
        """Has the sessions show what is pending, and shows what is forbidden round it."""
        self.under_way, self.pending = self.pending, []
        self.show_awaiting()
        try:
            change = [await self.replace(box) for box in boxes_round(self.under_way)]
            self.remember([each for each in change if each])
            await self.show(grown(bounds(self.under_way), self.halo))
        except BaseException:
            self.pending = self.under_way + self.pending
            raise
        finally:
            self.under_way = []

    # ---- opening, and comparing both sides

    async def begin(self):
        """Opens or resumes the sessions of the window's cell, and compares them with the window."""
        if not self.is_held:
            await self.sessions.close()
        elif self.sessions.places:
            await self.sessions.leave()
        if self.chip_cell != self.view.cell:
            self.shown.forget()
            self.replaced, self.undoing = [], []
        is_new = await self.sessions.open(session_name(self.name, self.view.cell))
        was_followed, edited = self.chip_cell == self.view.cell, [EVERYWHERE] if is_new else self.pending
        self.chip, self.chip_cell, self.is_open = self.sessions.chip(), self.view.cell, True
        self.pending, self.refused, self.undecided, self.edited, self.is_held = [], [], [], [], True
        self.under_way = [EVERYWHERE]
        self.show_awaiting()
        try:
            if is_new:
                self.shown.say(f"{self.sessions.name} is opened")
                await self.chip.load(self.window.rects())
            else:
                await self.settle(was_followed, edited)
            await self.show(EVERYWHERE)
        except BaseException:
            self.pending = edited + self.pending
            raise
        finally:
            self.under_way = []

    async def settle(self, was_followed, edited):
        """Finds where resumed sessions differ from the window, and which side is right there.

        Where only differs what was edited while the sessions weren't at hand, it is the window.
        """
        self.chip.take(self.window.rects())
        self.chip.is_in_step = True
        rects = await self.compare()
        self.shown.say(f"{self.sessions.name} is resumed" + (f", {squares(strips(rects))} squares differ" if rects else ""))
        if was_followed and all(any(meet(box, each) for each in edited) for box in self.undecided):
            await self.decide("window")
        elif rects and self.take is not None:
            await self.decide(self.take)
        elif rects:
            where = ", ".join(map(self.shown.box, self.undecided[:4]))
            sides = "kolasieve fetch takes the server's layout, kolasieve send the window's"
            self.shown.say(f"the window and the server differ at {where}: {sides}")

    async def compare(self):
        """Finds where both sides differ, and returns the rectangles there."""
        if not self.undecided:
            self.found_there = await self.sessions.read()
            self.edited = list(self.pending)
        rects = apart(self.process, self.window.rects(), self.found_there)
        self.undecided = boxes_round(rects)
        return rects

    async def decide(self, side):
        """Takes the window's layout or the server's where both differ; what was edited meanwhile is the window's."""
        boxes = self.undecided
        if side == "server":
            boxes = outside(boxes, self.edited)
            there = Layout(layers_of(self.process, self.found_there))
            for box in boxes:
                self.chip.keep(box, there.within(box))
            self.put([(box, there.within(box)) for box in boxes])
            await self.repair(self.edited)
        else:
            await self.repair(boxes)
        if self.undecided:
            self.shown.say(f"{len(boxes)} places are as the {side} has them")
        self.undecided, self.edited = [], []

    async def repair(self, boxes):
        """Shows the window in the sessions, whatever they have in these boxes."""
        for box in boxes:
            self.chip.keep(box, self.window.within(box))
            await self.chip.repair(box)
        self.pending += boxes

    def names(self):
        """Returns the layers that sessions show."""
        return [layer.name for layer in self.process.layers if layer.images and not layer.parts]

    # ---- changes

    async def replace(self, box):
        """Has the sessions show in a box what the window has there; returns the box, and what this has replaced in it.

        What is refused twice, the second time by sessions that were made again, is tried with the next change.
        """
        before, now = self.chip.within(box), self.window.within(box)
        for is_last in (False, True):
            try:
                await self.chip.replace(box, now)
                return (box, before) if before != now else None
            except Refused as fault:
                if is_last:
                    self.shown.say(f"the server refuses a change at {self.shown.box(box)}: {fault}")
                    self.refused.append(box)
        return None

    def remember(self, change):
        """Remembers what a change has replaced, unless it undoes another one."""
        if any(meet(box, each) for box, _ in change for each in self.undoing):
            self.undoing = []
        elif change:
            self.replaced = [*self.replaced[-MOST_CHANGES:], change]

    def undo(self):
        """Puts back in the window what the last change has replaced."""
        if not self.replaced:
            self.shown.say("there is no change to undo")
            return
        change = self.replaced.pop()
        self.undoing = [box for box, _ in change]
        self.put(change)

    # ---- what is forbidden

    async def show(self, rect):
        """Shows what is forbidden in a rectangle, and where it wasn't said before."""
        rect = bounds([rect, *self.unsaid])
        try:
            self.shown.take(rect, self.by_server(await self.chip.violations(rect)))
            for area in self.areas:
                self.show_area(area, rect)
            self.shown.take(EVERYWHERE, self.view.between.rects())
            self.under_way, self.unsaid = [], []
            self.show_awaiting()
        except violations.NotChecked as fault:
            self.unsaid = [rect]
            self.shown.say(f"the server doesn't say what is forbidden: {fault}")

    def by_server(self, found):
        """Returns what rules of groups forbid by their texts, those among them that forbid nothing now."""
        by_client = {*TEXTS, *(area.why for area in self.areas)}
        return {text: found.get(text, []) for text in {**self.shown.found.layers, **found} if text not in by_client}

    def show_area(self, area, rect):
        """Shows what a rule of areas forbids where something has changed in a rectangle."""
        # A piece with fewer squares isn't as long as these are many.
        near = grown(rect, area.squares)
        pieces = small_pieces(area, self.window.within(grown(near, area.squares)))
        self.shown.take(near, {area.why: clipped([each for piece in pieces for each in piece], near)})

    def show_awaiting(self):
        """Shows where it isn't known what is forbidden."""
        boxes = [*self.pending, *self.under_way, *self.refused]
        self.shown.wait_for([*(grown(box, self.halo) for box in boxes), *self.unsaid])


def beside(layers, others):
    """Returns of layers what others don't have."""
    found = {name: strips(rects, others.get(name, ())) for name, rects in layers.items()}
    return {name: rects for name, rects in found.items() if rects}


def outside(boxes, holes):
    """Returns boxes without what lies in others."""
    for hole in holes:
        boxes = [part for box in boxes for part in (without(box, hole) if meet(box, hole) else [box])]
    return boxes
