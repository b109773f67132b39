"""What a window of Magic holds, as a flat layout: from Magic's crash backup, and the files of cells that aren't in it."""

import io
import os
from dataclasses import dataclass, field

from kolasieve import mag
from kolasieve.changes import changed
from kolasieve.flat import Flat
from kolasieve.hierarchy import SUFFIX, Cell, LayoutFault, Library
from kolasieve.layout import Layout, boxes_round, differing, missing
from kolasieve.overlaps import NEAR, TEXTS, OverlapRules
from kolasieve.rects import clipped, grown, strips
from kolasieve.sheet import Packed, Sheet

# The world's lines run from minus this number to this number.
WORLD = 1048576
EVERYWHERE = (-WORLD, -WORLD, WORLD, WORLD)

# How cells begin in a crash backup, and how it ends.
FILE, END = "file ", "end "
CELL_END = "<< end >>\n"

# A cell without a square.
NOTHING = Cell(Sheet([]), [])


class Unread(Exception):
    """A backup can't be read; the text says why."""


@dataclass
class Look:
    """A look at a window: the file of its cell, the cell's name, and folders where used cells are.

    The crash backup has the modified cells, in this order, by the files that they had when they were read.
    """

    path: str
    cell: str
    backup: str
    modified: tuple
    folders: tuple = ()
    texts: dict = field(default_factory=dict)
    # When the file was written last, where the cell isn't modified and has one.
    written: int = None

    def read(self):
        """Reads the texts of the modified cells, by their names, or sees when the cell's file was written."""
        if self.modified:
            try:
                with open(self.backup, encoding="latin-1") as file:
                    texts = texts_of(file.read(), self.backup)
            except OSError as fault:
                raise Unread(f"{self.backup}: {fault.strerror}") from None
            if len(texts) != len(self.modified):
                raise Unread(f"{self.backup} has not all modified cells")
            self.texts = dict(zip(map(name_of, self.modified), texts))
        if name_of(self.cell) not in self.texts and os.path.exists(file_of(self.path)):
            self.written = os.stat(file_of(self.path)).st_mtime_ns


def texts_of(text, path):
    """Returns the text of each cell of a crash backup."""
    if not text.rpartition("\n")[0].rpartition("\n")[2].startswith(END):
        raise Unread(f"{path} isn't written to its end, as on a full disk")
    cells = text.removeprefix(FILE).split(f"{CELL_END}{FILE}")
    return [each.partition("\n")[2].rpartition(f"{CELL_END}{END}")[0] or each.partition("\n")[2] for each in cells]


def packed_in(lines):
    """Returns the numbers of lines that are all rectangles, in little memory, or None."""
    numbers = mag.rects_in(lines)
    return None if numbers is None else Packed(numbers).numbers


def name_of(path):
    """Returns the name that a cell's uses have for it."""
    return os.path.basename(path).removesuffix(SUFFIX)


def file_of(path):
    return path.removesuffix(SUFFIX) + SUFFIX


class Memory:
    """What was made of something in this look or the one before."""

    def __init__(self):
        self.now, self.before = {}, {}

    def turn(self):
        """Begins another look."""
        self.now, self.before = {}, self.now

    def of(self, key, make):
        """Returns what was made of a key, or makes it of it now."""
        if key not in self.now:
            self.now[key] = self.before[key] if key in self.before else make()
        return self.now[key]


class Held(Library):
    """The cells of a window: those that a backup has, and others as their files are. A new cell has neither."""

    def __init__(self, process, look, memory):
        """Takes a memory: a cell of which all is as it was in the last look is the same object."""
        self.texts = look.texts
        self.memory = memory
        name = name_of(look.cell)
        if name in self.texts or look.written is not None:
            super().__init__(process, name if name in self.texts else file_of(look.path), look.folders)
        else:
            self.process, self.grid, self.top = process, 1, NOTHING

    def opened(self, path):
        return io.StringIO(f"{self.texts[path]}{CELL_END}") if path in self.texts else super().opened(path)

    def parsed(self, lines):
        text = lines.read()
        return self.memory.of(text, lambda: mag.read_packed(io.StringIO(text), Packed, self.numbers_in))

    def numbers_in(self, lines):
        """Returns the numbers of lines that are all rectangles, or None."""
        return self.memory.of(("lines", lines), lambda: packed_in(lines))

    def find(self, path, use):
        return use.name if use.name in self.texts else super().find(path, use)

    def cell(self, path, file, used):
        make = super().cell
        parts = self.grid, file, *(self.cells[each] for each in used)
        return self.memory.of(parts, lambda: make(path, file, used))


class View:
    """What a window shows of a cell, on a grid of so many squares a lambda, look after look."""

    def __init__(self, process, look, grid):
        self.process = process
        self.cell = look.cell
        self.grid = grid
        self.rules = OverlapRules(process)
        # The flat layout; and by the texts of rules between cells what these forbid.
        self.layout, self.between = Layout(), Layout({text: [] for text in TEXTS})
        # The cells, and how many squares a number of theirs is.
        self.held, self.top, self.scale = None, NOTHING, 1
        self.memory = Memory()
        self.take(look)

    def take(self, look):
        """Takes another look at the cell; returns boxes that have all squares of which it shows something else now.

        Only what has changed is looked at anew. A look that can't be followed leaves all as it was.
        """
        self.memory.turn()
        held = Held(self.process, look, self.memory)
        if self.grid % held.grid:
            sizes = f"lambda is {held.grid} squares in this window, and {self.grid} of the server"
            raise LayoutFault(f"{sizes} (process serve --grid)")
        scale = self.grid // held.grid
        if held.top.bounds and max(map(abs, held.top.bounds)) * scale > WORLD:
            raise LayoutFault(f"{self.cell}: {held.top.bounds} lies outside the world of {2 * WORLD} squares a side")
        boxes = changed(self.top, held.top) if scale == self.scale else self.everywhere(held.top, scale)
        self.held, self.top, self.scale = held, held.top, scale
        flat = Flat(held, self.rules.watched)
        return boxes_round([rect for box in boxes for rect in self.look_again(flat, box)])

    def everywhere(self, cell, scale):
        """Returns boxes that have all that it shows, and all of a cell on another scale, in this cell's numbers."""
        boxes = [cell.bounds] if cell.bounds else []
        if self.top.bounds:
            left, bottom, right, top = self.scaled(self.top.bounds)
            boxes.append((left // scale, bottom // scale, -(-right // scale), -(-top // scale)))
        return boxes_round(boxes)

    def look_again(self, flat, box):
        """Takes what the cells show in and round a box; returns rectangles of the squares that were others before."""
        around, near = grown(box, 2 * NEAR), grown(box, NEAR)
        layers, placed = flat.within(around)
        forbidden = self.rules.violations(placed)
        box = self.scaled(around)
        before, now = self.layout.within(box), {name: self.strips(rects) for name, rects in layers.items()}
        gone, come = missing(before, now), missing(now, before)
        for name in {**gone, **come}:
            self.layout.keep_layer(name, box, now.get(name, ()))
        for text in TEXTS:
            self.between.keep_layer(text, self.scaled(near), self.strips(clipped(forbidden.get(text, ()), near)))
        return differing(gone, come)

    def scaled(self, rect):
        return tuple(at * self.scale for at in rect)

    def strips(self, rects):
        return list(map(self.scaled, strips(rects)))

    def used(self):
        """Returns the layout of the cells that the window's cell uses, without its own paint."""
        flat = Flat(self.held)
        flat.top = Cell(Sheet([]), self.top.uses)
        layers, _ = flat.within(flat.top.bounds) if self.top.uses else ({}, [])
        return Layout({name: self.strips(rects) for name, rects in layers.items()})
