"""Many rectangles in little memory: in the order in which they came, and found by where they are."""

from array import array
from itertools import chain

from kolasieve.mag import rects_of
from kolasieve.rects import bounds, clipped, common, covers, meet

# How many rectangles of a layer lie in one bin, where they are no more; and how many in a bin, about, where they are.
FEW = 2048
EACH = 256

# How many times as long the sides of the next larger bins are.
STEP = 4

# From how many bins on rectangles aren't counted one by one.
MANY = 16

# The parts in which shares of a bin are counted.
WHOLE = 1 << 16


class Packed:
    """Rectangles of four numbers each, of at most 31 bits; longer ones are an `OverflowError`."""

    def __init__(self, numbers=()):
        self.numbers = array("i", numbers)

    @classmethod
    def of(cls, rects):
        """Returns these rectangles."""
        return cls(chain.from_iterable(rects))

    def extend(self, numbers):
        """Adds rectangles by their numbers."""
        self.numbers.extend(array("i", numbers))

    def __len__(self):
        return len(self.numbers) // 4

    def __iter__(self):
        return rects_of(self.numbers)

    def scaled(self, over, under):
        """Returns the rectangles on another grid, on which they are whole."""
        return Packed([number * over // under for number in self.numbers])

    @property
    def bounds(self):
        """The lines round the rectangles, of which there is one at least."""
        lefts, bottoms, rights, tops = (self.numbers[side::4] for side in range(4))
        return min(lefts), min(bottoms), max(rights), max(tops)


class Sheet:
    """Rectangles with types, as they are painted in turn."""

    def __init__(self, layers):
        """Takes types in turn, each with its packed rectangles, of which there is one at least."""
        self.layers = [(name, Layer(rects)) for name, rects in layers]
        self.count = sum(layer.count for _, layer in self.layers)
        # The lines round all rectangles, or None.
        self.bounds = bounds([layer.bounds for _, layer in self.layers]) if layers else None

    def within(self, rect):
        """Returns what of the rectangles lies in one: types in turn, each with its rectangles."""
        found = [(name, layer.within(rect)) for name, layer in self.layers]
        return [(name, rects) for name, rects in found if rects]

    def has(self, rect):
        """Returns whether any of the rectangles has a square in one."""
        return any(layer.has(rect) for _, layer in self.layers)

    def weight(self, rect):
        """Returns about how many rectangles have a square in a rectangle, at least one where any has."""
        return sum(layer.weight(rect) for _, layer in self.layers)


class Layer:
    """Rectangles in bins. Each lies in that of its lower left corner; the side of the bin is no shorter than its own."""

    def __init__(self, rects):
        """Takes packed rectangles, of which there is one at least."""
        self.count = len(rects)
        self.bounds = rects.bounds
        # The numbers of all rectangles, where they are few.
        self.numbers = rects.numbers if self.count <= FEW else None
        # Else those of the rectangles in each bin by its place, by the length of the sides of bins.
        self.levels = {}
        if self.numbers is None:
            self.fill(rects)

    def is_same(self, other):
        """Returns whether another layer has the same rectangles in the same order."""
        return self.numbers == other.numbers and self.levels == other.levels

    def __iter__(self):
        if self.numbers is not None:
            return rects_of(self.numbers)
        return chain.from_iterable(rects_of(numbers) for bins in self.levels.values() for numbers in bins.values())

    def fill(self, rects):
        side = side_for(self.bounds, self.count)
        while rects:
            bins, longer = self.levels.setdefault(side, {}), []
            for rect in rects:
                left, bottom, right, top = rect
                if right - left > side or top - bottom > side:
                    longer.append(rect)
                    continue
                key = left // side, bottom // side
                if key in bins:
                    bins[key].extend(rect)
                else:
                    bins[key] = array("i", rect)
            rects, side = longer, side * STEP

    def near(self, rect):
        """Yields the bins that may have something of a rectangle, each with the square of the corners in it."""
        if self.numbers is not None:
            yield self.bounds, self.numbers
        left, bottom, right, top = rect
        for side, bins in self.levels.items():
            columns = range((left - side) // side, (right - 1) // side + 1)
            rows = range((bottom - side) // side, (top - 1) // side + 1)
            keys = bins if len(columns) * len(rows) > len(bins) else ((x, y) for x in columns for y in rows)
            for x, y in keys:
                if x in columns and y in rows and (x, y) in bins:
                    yield (x * side, y * side, (x + 1) * side, (y + 1) * side), bins[x, y]

    def within(self, rect):
        """Returns what of the rectangles lies in one."""
        if not meet(self.bounds, rect):
            return []
        if covers(rect, self.bounds) and self.numbers is not None:
            return list(rects_of(self.numbers))
        return clipped((each for _, numbers in self.near(rect) for each in rects_of(numbers)), rect)

    def has(self, rect):
        """Returns whether any of the rectangles has a square in one."""
        if not meet(self.bounds, rect):
            return False
        return any(meet(each, rect) for _, numbers in self.near(rect) for each in rects_of(numbers))

    def weight(self, rect):
        """Returns about how many of the rectangles have a square in one, at least one where any has."""
        if not meet(self.bounds, rect):
            return 0
        if covers(rect, self.bounds):
            return self.count
        bins = list(self.near(rect))
        if len(bins) > MANY:
            return sum(max(1, len(numbers) // 4 * share(square, rect) // WHOLE) for square, numbers in bins)
        count = 0
        for square, numbers in bins:
            is_inside = self.numbers is None and covers(rect, square)
            count += len(numbers) // 4 if is_inside else sum(meet(each, rect) for each in rects_of(numbers))
        return count


def share(square, rect):
    """Returns how much of a square lies in a rectangle, in parts of `WHOLE`."""
    left, bottom, right, top = common(square, rect)
    wide, high = max(0, right - left), max(0, top - bottom)
    return WHOLE * wide * high // (square[2] - square[0]) ** 2


def side_for(bounds, count):
    """Returns the side of the least bins for so many rectangles."""
    left, bottom, right, top = bounds
    side = 1
    while side * side * count < (right - left) * (top - bottom) * EACH:
        side *= 2
    return side
