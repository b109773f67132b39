"""Rectangles of a whole layout, kept on disk by bands of rows, where they are many, and joined band by band."""

import os
from array import array
from itertools import chain

from kolasieve.rects import strips
from kolasieve.sheet import Packed

# About how many bands a layout has at most, and the least height of one.
BANDS = 256
LEAST = 64

# How many numbers are kept in memory; as long as there are no more, there are no bands.
MOST = 1 << 20


class Bands:
    """Rectangles by key, whatever order they come in."""

    def __init__(self, folder, bounds, most=MOST):
        """Takes a folder for files, and the lines round the layout, or None."""
        self.folder = folder
        self.most = most
        rows = bounds[3] - bounds[1] if bounds else 0
        self.height = max(LEAST, 1 << (rows // BANDS).bit_length())
        # The number of each key, and what isn't on disk yet, by number.
        self.numbers = {}
        self.kept = {}
        self.count = 0
        # What is on disk, by number and band.
        self.files = set()

    def add(self, key, rects):
        """Adds rectangles of a key."""
        if not rects:
            return
        number = self.numbers.setdefault(key, len(self.numbers))
        self.kept.setdefault(number, Packed()).extend(chain.from_iterable(rects))
        self.count += 4 * len(rects)
        if self.count > self.most:
            self.put_away()

    def has(self, key):
        """Returns whether a key has rectangles."""
        return key in self.numbers

    def put_away(self):
        """Writes to disk what is in memory, cut into bands."""
        height, parts = self.height, {}
        for number, rects in self.kept.items():
            for left, bottom, right, top in rects:
                for band in range(bottom // height, (top - 1) // height + 1):
                    part = left, max(bottom, band * height), right, min(top, (band + 1) * height)
                    parts.setdefault((number, band), array("i")).extend(part)
        for each, numbers in parts.items():
            path = self.path_of(each)
            try:
                with open(path, "ab") as file:
                    numbers.tofile(file)
            except OSError as fault:
                raise OSError(fault.errno, fault.strerror, path) from None
            self.files.add(each)
        self.kept, self.count = {}, 0

    def path_of(self, each):
        return os.path.join(self.folder, "band-%d-%d" % each)

    def of_band(self, number, band):
        """Returns the rectangles of a key in a band."""
        found = Packed()
        if (number, band) in self.files:
            with open(self.path_of((number, band)), "rb") as file:
                found.numbers.frombytes(file.read())
        return found

    def joined(self, keys):
        """Returns the maximal strips of what keys have together, by bottom and then left.

        The bands are joined downwards, so that each strip is whole in the band where it begins.
        """
        numbers = [self.numbers[key] for key in keys if key in self.numbers]
        if not self.files:
            return Packed.of(strips([rect for number in numbers for rect in self.kept.get(number, ())]))
        self.put_away()
        bands = sorted({band for number, band in self.files if number in numbers})
        done, above, open_above = [], [], {}
        for band in reversed(bands):
            low, high = band * self.height, (band + 1) * self.height
            here, open_here = [], {}
            for left, bottom, right, top in strips([rect for each in numbers for rect in self.of_band(each, band)]):
                if top == high:
                    top = open_above.pop((left, right, high), (0, 0, 0, top))[3]
                if bottom == low:
                    open_here[left, right, low] = left, bottom, right, top
                else:
                    here.append((left, bottom, right, top))
            done.append(packed(above, open_above))
            above, open_above = here, open_here
        done.append(packed(above, open_above))
        whole = Packed()
        for each in reversed(done):
            whole.numbers.extend(each.numbers)
        return whole


def packed(rects, more):
    """Returns rectangles by bottom and then left, of which none in the first list lies below those that are more."""
    return Packed.of([*sorted(more.values()), *rects])
