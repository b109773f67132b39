"""Cells with uses of others, as Magic's files have them: alone or as arrays, moved, turned or mirrored."""

import os
from math import gcd, lcm

from kolasieve import mag
from kolasieve.faults import Fault
from kolasieve.index import Index
from kolasieve.rects import bounds, covers, meet
from kolasieve.sheet import Packed, Sheet

SUFFIX = ".mag"
AS_IT_IS = (1, 0, 0, 0, 1, 0)

# How far from the middle a layout may reach, so that 31 bits are enough for what is forbidden round it too.
FARTHEST = (1 << 31) - 1000
TOO_FAR = "the layout reaches farther than numbers of 31 bits"

# How many numbers are looked at together.
SOME = 4096

# Of an array so many elements, at most, are looked into to count their rectangles.
FEW = 16


class LayoutFault(Fault):
    """The layout can't be used; the text says which cell, and why."""


class Cell:
    """A cell: what it paints itself, and the cells that it uses."""

    def __init__(self, own, uses):
        """Takes a sheet and uses, each of a cell with a square."""
        self.own = own
        self.uses = uses
        self.found = Index((use.bounds, number) for number, use in enumerate(uses))
        around = [use.bounds for use in uses] + ([own.bounds] if own.count else [])
        # Lines round all that it has, or None.
        self.bounds = bounds(around) if around else None
        # How many rectangles and cells there are once it is flat.
        self.size = 1 + own.count + sum(use.columns * use.rows * use.cell.size for use in uses)

    def uses_in(self, rect):
        """Returns the uses that may have a square in a rectangle, each with its number, in their order."""
        return [(number, self.uses[number]) for number in sorted(number for _, number in self.found.meeting(rect))]

    def elements(self, rect, place=(), transform=AS_IT_IS):
        """Yields the cell and all below it that may have a square in a rectangle, in the order in which Magic has them.

        Each comes with the numbers of the uses that lead there, its transform, and the rectangle in the cell's own numbers.
        """
        yield place, self, transform, rect
        for number, use in self.uses_in(rect):
            for column, row, placed in use.elements(rect):
                seen = moved_by(inverse(placed), rect)
                yield from use.cell.elements(seen, (*place, number, column, row), composed(transform, placed))

    def weight(self, rect):
        """Returns how many rectangles have a square in a rectangle, or more."""
        if self.bounds is None or not meet(self.bounds, rect):
            return 0
        if covers(rect, self.bounds):
            return self.size
        return self.own.weight(rect) + sum(use.weight(rect) for _, use in self.uses_in(rect))


class Use:
    """A cell as another one uses it: an array of columns and rows, a step apart, which a transform leads there."""

    def __init__(self, cell, transform, columns, rows):
        """Takes for columns and for rows how many there are, and the step between two."""
        self.cell = cell
        self.transform = transform
        self.columns, self.step_x = columns
        self.rows, self.step_y = rows
        last = self.placed(self.columns - 1, self.rows - 1)
        self.bounds = bounds([moved_by(transform, cell.bounds), moved_by(last, cell.bounds)])

    def placed(self, column, row):
        """Returns the transform of an element."""
        return composed(self.transform, (1, 0, column * self.step_x, 0, 1, row * self.step_y))

    def places_in(self, rect):
        """Returns the columns and the rows that may have a square in a rectangle."""
        left, bottom, right, top = moved_by(inverse(self.transform), rect)
        first, low, last, high = self.cell.bounds
        columns = steps(left - last, right - first, self.step_x, self.columns)
        return columns, steps(bottom - high, top - low, self.step_y, self.rows)

    def elements(self, rect):
        """Yields column, row and transform of each element that may have a square in a rectangle."""
        columns, rows = self.places_in(rect)
        for column in columns:
            for row in rows:
                yield column, row, self.placed(column, row)

    def weight(self, rect):
        """Returns how many rectangles have a square in a rectangle, or more."""
        if covers(rect, self.bounds):
            return self.columns * self.rows * self.cell.size
        columns, rows = self.places_in(rect)
        if len(columns) * len(rows) > FEW:
            return len(columns) * len(rows) * self.cell.size
        return sum(self.cell.weight(moved_by(inverse(placed), rect)) for _, _, placed in self.elements(rect))


def steps(low, high, step, count):
    """Returns the numbers below a count that lie between two lines, once a step as long is made for each."""
    if step == 0:
        return range(count if low < 0 < high else 0)
    if step < 0:
        low, high, step = -high, -low, -step
    return range(max(0, low // step + 1), min(count, -(-high // step)))


class Library:
    """The cells of a layout, each read once. Lambda, the unit of rules, is `grid` squares wide, so numbers are whole."""

    def __init__(self, process, path, folders=()):
        """Reads a cell of this process with all that it uses, also from these folders."""
        self.process = process
        self.folders = folders
        files = {}
        known = self.load(path, files)
        self.grid = lcm(*(parts_of(file) for _, file, _ in files.values()))
        self.cells = {}
        # Those that others use come before these.
        for each in list(files):
            self.cells[each] = self.cell(*files.pop(each))
        self.top = self.cells[known]
        # The layers that some cell has.
        self.names = {name for cell in self.cells.values() for name, _ in cell.own.layers}
        if self.top.bounds and max(map(abs, self.top.bounds)) > FARTHEST:
            raise LayoutFault(f"{path}: {TOO_FAR}")

    def load(self, path, files, users=()):
        """Reads the files of a cell and of all that it uses; returns the path by which the cell is known."""
        known = os.path.realpath(path)
        if known in users:
            raise LayoutFault(f"{path}: the cell uses itself")
        if known not in files:
            file = self.read(path)
            used = [self.load(self.find(path, use), files, (*users, known)) for use in file.uses]
            files[known] = (path, file, used)
        return known

    def read(self, path):
        """Returns the file of a cell, which must be of this technology."""
        try:
            with self.opened(path) as lines:
                file = self.parsed(lines)
        except OSError as fault:
            raise LayoutFault(f"{path}: {fault.strerror}") from None
        except mag.MagFault as fault:
            raise LayoutFault(f"{path}: {fault}") from None
        except OverflowError:
            raise LayoutFault(f"{path}: {TOO_FAR}") from None
        if file.tech != self.process.name:
            raise LayoutFault(f"{path}: the technology is {file.tech or 'not said'}, and not {self.process.name}")
        return file

    def opened(self, path):
        """Returns the open file of a cell."""
        return open(path, encoding="latin-1")

    def parsed(self, lines):
        """Returns what the open file of a cell has."""
        return mag.read_packed(lines, Packed)

    def find(self, path, use):
        """Returns the file of a used cell: where the use says, beside its user, or in the folders, in this order."""
        here = os.path.dirname(path)
        said = [os.path.join(here, os.path.expanduser(use.path))] if use.path else []
        for folder in [*said, here, *self.folders]:
            tried = os.path.join(folder, use.name + SUFFIX)
            if os.path.isfile(tried):
                return tried
        raise LayoutFault(f"{path}: line {use.line}: there is no cell {use.name}")

    def cell(self, path, file, used):
        """Returns the cell of a file, once those are known that it uses."""
        over, under = file.scale[0] * self.grid, file.scale[1]
        layers = []
        for section, rects in file.layers.items():
            layer = self.process.layer(section)
            if layer is None:
                raise LayoutFault(f"{path}: there is no layer {section}")
            try:
                layers.append((layer.name, rects if over == under else rects.scaled(over, under)))
            except OverflowError:
                raise LayoutFault(f"{path}: {TOO_FAR}") from None
        uses = [self.use(path, over, under, use, self.cells[each]) for use, each in zip(file.uses, used)]
        return Cell(Sheet(layers), [use for use in uses if use])

    def use(self, path, over, under, use, cell):
        """Returns a use of a cell, or None where this has no square."""
        a, b, c, d, e, f = use.transform
        if (abs(a), abs(b), abs(d), abs(e)) not in ((1, 0, 0, 1), (0, 1, 1, 0)):
            raise LayoutFault(f"{path}: line {use.line}: no transform: {a} {b} {c} {d} {e} {f}")
        if cell.bounds is None:
            return None
        columns, rows = use.elements
        c, f, step_x, step_y = (number * over // under for number in (c, f, use.array[2], use.array[5]))
        return Use(cell, (a, b, c, d, e, f), (columns, step_x), (rows, step_y))


def parts_of(file):
    """Returns into how many parts lambda has to be cut, so that all numbers of a file are whole."""
    over, parts = file.scale
    common = parts
    for numbers in numbers_of(file):
        if common == 1:
            break
        common = gcd(common, over * gcd(*numbers))
    return parts // common


def numbers_of(file):
    """Yields the numbers of a file that are measured on its grid, some at a time."""
    for rects in file.layers.values():
        yield from (rects.numbers[at : at + SOME] for at in range(0, len(rects.numbers), SOME))
    for use in file.uses:
        yield use.transform[2], use.transform[5], use.array[2], use.array[5]


def composed(outer, inner):
    """Returns the transform that leads where the outer one leads what the inner one has led."""
    a, b, c, d, e, f = outer
    g, h, i, j, k, l = inner
    return a * g + b * j, a * h + b * k, a * i + b * l + c, d * g + e * j, d * h + e * k, d * i + e * l + f


def inverse(transform):
    """Returns the transform that leads back."""
    a, b, c, d, e, f = transform
    return a, d, -a * c - d * f, b, e, -b * c - e * f


def moved_by(transform, rect):
    a, b, c, d, e, f = transform
    left, bottom, right, top = rect
    one, other = a * left + b * bottom + c, a * right + b * top + c
    low, high = d * left + e * bottom + f, d * right + e * top + f
    return min(one, other), min(low, high), max(one, other), max(low, high)
