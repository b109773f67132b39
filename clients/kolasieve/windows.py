"""Windows: rectangles of a fixed grid that together cover a layout of any size.

What is marked in a window depends on the layout as far round it as the rules reach. The sides of windows are powers of
two, and a window is cut in the middle, so that cuts don't move with the layout's bounds.
"""

from kolasieve.rects import bounds, clipped, common, grown, meet

# Tiles of a plane for each rectangle on it, empty ones among them: about as many as a routed block has.
TILES_EACH = 2.8

# magicd is asked for squares of this side where they have so many rectangles: it is quickest up to 1024 lines.
BOX = 800
LEAST = 64


class Sizes:
    """The most that a session's window may have, squares a side and tiles of a plane, and a process's, rectangles.

    A cell with so many rectangles is large.
    """

    tiles = 16384

    def __init__(self, side=1 << 19, tiles=tiles, rects=30000, large=2000):
        self.side = side
        self.tiles = tiles
        self.rects = rects
        self.large = large


def around(rect):
    """Returns the least window round the middle of the grid that covers a rectangle."""
    far = 1 << (max(1, -min(rect), max(rect)) - 1).bit_length()
    return -far, -far, far, far


def halves(core):
    """Returns the halves of a window of two squares at least, cut across its longer side."""
    left, bottom, right, top = core
    if right - left >= top - bottom:
        middle = (left + right) // 2
        return (left, bottom, middle, top), (middle, bottom, right, top)
    middle = (bottom + top) // 2
    return (left, bottom, right, middle), (left, middle, right, top)


def is_square(core):
    """Returns whether a window is a single square, and so has no halves."""
    left, bottom, right, top = core
    return right - left == 1 == top - bottom


def plan(region, weight, border, most):
    """Yields windows with how many rectangles they have, which cover all of a region that isn't empty.

    `weight` returns about how many rectangles a rectangle has, and 0 for none. A window with its border has so many at
    most, if it can be cut.
    """
    waiting = [around(region)]
    while waiting:
        core = waiting.pop()
        rects = weight(grown(core, border)) if meet(core, region) else 0
        if rects > most and not is_square(core):
            waiting += reversed(halves(core))
        elif rects:
            yield core, rects


class Window:
    """What a layout has in a window and round it: rectangles by layer, as they are painted in turn."""

    def __init__(self, core, border, layers):
        """Takes a layout that has nothing farther from the window than the border is wide."""
        self.core = core
        self.border = border
        self.layers = layers
        # The lines of layers, and where may be forbidden what, once they were asked for.
        self.lines = {}
        self.looks = []

    @property
    def halves(self):
        """The two halves of the window."""
        return [self.part(core) for core in halves(self.core)]

    def part(self, core):
        """Returns the window of a part."""
        near = grown(core, self.border)
        layers = {name: clipped(rects, near) for name, rects in self.layers.items()}
        return Window(core, self.border, {name: rects for name, rects in layers.items() if rects})

    def fits(self, sizes, parts):
        """Returns whether it is no larger than it may be, and no plane of some groups is likely to have more tiles."""
        left, bottom, right, top = self.core
        if max(right - left, top - bottom) > sizes.side:
            return False
        most = 0
        for part in parts:
            counts = {}
            for name, rects in self.layers.items():
                for image in part.images[name]:
                    counts[image.plane] = counts.get(image.plane, 0) + len(rects)
            most = max([most, *counts.values()])
        return most * TILES_EACH + 5 <= sizes.tiles

    def text(self, images):
        """Returns the window as a cell file of these images, with its lower left corner in the middle of the world."""
        parts = ["magic\n"]
        for name in self.layers:
            for image in images[name]:
                parts += [f"<< {image.type} >>\n", self.lines_of(name)]
        return "".join([*parts, "<< end >>\n"])

    def lines_of(self, name):
        """Returns the lines of a layer's rectangles."""
        if name not in self.lines:
            x, y, *_ = self.core
            numbers = [at for l, b, r, t in self.layers[name] for at in (l - x, b - y, r - x, t - y)]
            self.lines[name] = "rect %d %d %d %d\n" * len(self.layers[name]) % tuple(numbers)
        return self.lines[name]

    @property
    def boxes(self):
        """Rectangles in which all is that may be forbidden, in its own numbers."""
        self.looks = self.looks or self.find_boxes()
        return self.looks

    def find_boxes(self):
        x, y, *_ = self.core
        around = bounds([bounds(rects) for rects in self.layers.values()])
        left, bottom, right, top = common(grown(around, self.border), self.core)
        columns, rows = -(-(right - left) // BOX), -(-(top - bottom) // BOX)
        if columns * rows * LEAST > sum(map(len, self.layers.values())):
            return [(left - x, bottom - y, right - x, top - y)]
        return [
            (at - x, line - y, min(at + BOX, right) - x, min(line + BOX, top) - y)
            for line in range(bottom, top, BOX)
            for at in range(left, right, BOX)
        ]


def fitting(window, sizes, parts):
    """Yields a window, or the parts of it that are likely to fit for some groups, those left out that are empty."""
    waiting = [window]
    while waiting:
        each = waiting.pop()
        if each.layers and not is_square(each.core) and not each.fits(sizes, parts):
            waiting += reversed(each.halves)
        elif each.layers:
            yield each
