"""Rectangles that are found by where they are."""

from itertools import product

# The least side of a bin.
LEAST = 16


class Index:
    """Rectangles, each with a value.

    A rectangle lies in all bins that it touches, four at most: the side of a bin is a power of two, and the
    rectangle's own sides are no longer.
    """

    def __init__(self, entries=()):
        self.levels = {}
        for rect, value in entries:
            self.add(rect, value)

    def add(self, rect, value):
        size = size_for(rect)
        bins = self.levels.setdefault(size, {})
        for place in product(*places(rect, size)):
            bins.setdefault(place, []).append((rect, value))

    def remove(self, rect, value):
        size = size_for(rect)
        bins = self.levels[size]
        for place in product(*places(rect, size)):
            bins[place].remove((rect, value))
            if not bins[place]:
                del bins[place]

    def meeting(self, rect):
        """Returns the rectangles that have a square in common with this one, each once, with their values."""
        found = {}
        left, bottom, right, top = rect
        for size, bins in self.levels.items():
            columns, rows = places(rect, size)
            for place in bins if len(columns) * len(rows) > len(bins) else product(columns, rows):
                for entry in bins.get(place, ()):
                    from_left, from_bottom, to_right, to_top = entry[0]
                    if from_left < right and left < to_right and from_bottom < top and bottom < to_top:
                        found[entry] = None
        return list(found)

    def entries(self):
        """Returns all rectangles with their values, each once."""
        bins = (entries for level in self.levels.values() for entries in level.values())
        return list(dict.fromkeys(entry for entries in bins for entry in entries))


def size_for(rect):
    """Returns the side of the bins for a rectangle."""
    return max(LEAST, 1 << (max(rect[2] - rect[0], rect[3] - rect[1]) - 1).bit_length())


def places(rect, size):
    """Returns the columns and rows of the bins of this size that a rectangle touches."""
    left, bottom, right, top = rect
    return range(left // size, (right - 1) // size + 1), range(bottom // size, (top - 1) // size + 1)
