"""Rules of areas: which connected pieces of a layout have too few squares. Nothing of this is proved."""

from kolasieve.index import Index
from kolasieve.rects import squares, strips


class Area:
    """The squares that a connected piece of these layers must have at least, on a plane."""

    def __init__(self, line, why, plane, squares, layers):
        self.line = line
        self.why = why
        self.plane = plane
        self.squares = squares
        self.layers = layers

    def on(self, grid):
        """Returns the rule where lambda is so many squares wide."""
        return Area(self.line, self.why, self.plane, self.squares * grid**2, self.layers)


def small_pieces(area, layout):
    """Returns the pieces of a flat layout that have too few squares, each as rectangles that don't overlap.

    The layout has a list of rectangles for each layer's first name. Squares are connected along a side, and not by a
    corner.
    """
    found = strips([rect for name in area.layers for rect in layout.get(name, ())])
    return [piece for piece in connected(found) if squares(piece) < area.squares]


def connected(found):
    """Returns maximal strips parted into connected pieces. Those that touch lie one over the other."""
    index, left, pieces = Index((strip, None) for strip in found), dict.fromkeys(found), []
    while left:
        piece, around = [], [left.popitem()[0]]
        while around:
            piece.append(around.pop())
            low, bottom, high, top = piece[-1]
            for strip, _ in index.meeting((low, bottom - 1, high, top + 1)):
                if strip in left:
                    del left[strip]
                    around.append(strip)
        pieces.append(piece)
    return pieces
