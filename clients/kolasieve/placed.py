"""Parts of a layout that show the same, each to be checked once: insides of cells used often, and what lies between.

What is forbidden in a rectangle depends on what lies in it, and round it as far as rules look. Where two rectangles
see the same cells, equally turned and equally far from their corners, the same is forbidden in both. So the insides of
large cells are cut out, as far from their bounds as rules look: there a cell sees itself alone, wherever it is used,
unless something else lies over it. What is left is cut where these insides begin, so that it shows the same too where
cells lie equally far from each other. However a layout is cut, the same is found.
"""

from collections import namedtuple
from itertools import islice

from kolasieve.hierarchy import AS_IT_IS, composed, inverse, moved_by
from kolasieve.index import Index
from kolasieve.rects import covers, grown, strips

# How many cells a rectangle sees at most that may be the same as another one.
FEW = 64

# How many elements of an array are looked at at most.
MANY = 1 << 16


class Element(namedtuple("Element", "cell transform bounds inside")):
    """A cell as it lies in the layout: with the lines round it, and its inside."""


class Placed:
    """A layout of cells, of which those are large that have so many rectangles at least."""

    def __init__(self, top, reach, large):
        """Takes the top cell, and how far round a square the layout says what is forbidden there."""
        self.top = top
        self.reach = reach
        self.large = large

    def parts(self, region):
        """Yields rectangles that cover a region, no square twice, with the moves that lead to all that show the same."""
        yield from self.parts_of(region, Element(self.top, AS_IT_IS, region, region), frozenset())

    def parts_of(self, region, element, opened):
        """Yields the same for a region of an element. Cells that are opened are looked into."""
        groups, opened = self.insides(region, element, opened | {element.cell})
        for group in groups:
            moves = moves_to([each.inside for each in group])
            for rect, inner in self.parts_of(group[0].inside, group[0], opened):
                yield rect, [(x + right, y + up) for x, y in moves for right, up in inner]
        if not groups:
            yield region, [(0, 0)]
            return
        alike = {}
        for rect in between(region, [each.inside for group in groups for each in group]):
            alike.setdefault(self.sight(grown(rect, self.reach), opened), []).append(rect)
        for rects in alike.values():
            yield rects[0], moves_to(rects)

    def insides(self, region, element, opened):
        """Returns groups of large cells in a region whose insides show the same and don't meet, and the opened cells.

        A cell that is alone is opened.
        """
        groups, taken, waiting = [], Index(), [element]
        while waiting:
            opened = opened.union(each.cell for each in waiting)
            children = [child for each in waiting for child in self.children(each, region)]
            waiting, alike = [], {}
            for each in children:
                if self.is_fit(each, region):
                    alike.setdefault(self.sight(each.bounds, opened), []).append(each)
                else:
                    waiting.append(each)
            for group in alike.values():
                if len(group) == 1:
                    waiting += group
                    continue
                groups.append([])
                for each in group:
                    if not taken.meeting(each.inside):
                        taken.add(each.inside, None)
                        groups[-1].append(each)
        return [group for group in groups if group], opened

    def children(self, element, region):
        """Yields the large cells that an element uses and that have a square in a region."""
        seen = moved_by(inverse(element.transform), region)
        for use in element.cell.uses:
            columns, rows = use.places_in(seen)
            if use.cell.size < self.large or len(columns) * len(rows) > MANY:
                continue
            for _, _, placed in use.elements(seen):
                transform = composed(element.transform, placed)
                bounds = moved_by(transform, use.cell.bounds)
                yield Element(use.cell, transform, bounds, grown(bounds, -self.reach))

    def is_fit(self, element, region):
        """Returns whether most of an element is its inside, which lies in a region."""
        (left, bottom, right, top), (low, down, high, up) = element.bounds, element.inside
        is_most = low < high and down < up and 2 * (high - low) * (up - down) > (right - left) * (top - bottom)
        return is_most and covers(region, element.inside)

    def sight(self, rect, opened):
        """Returns what a rectangle sees: where it is the same, the same lies in two. Of many cells, none is the same."""
        left, bottom, right, top = rect
        found = tuple(islice(self.seen(self.top, AS_IT_IS, rect, opened), FEW + 1))
        if len(found) > FEW:
            return rect
        to_corner = (1, 0, -left, 0, 1, -bottom)
        moved = [(cell, is_whole, composed(to_corner, transform)) for cell, is_whole, transform in found]
        return right - left, top - bottom, *moved

    def seen(self, cell, transform, rect, opened):
        """Yields cells with a square in a rectangle, in turn: whole ones, and opened ones for their own paint."""
        seen = moved_by(inverse(transform), rect)
        if cell not in opened:
            yield cell, True, transform
            return
        if cell.own.has(seen):
            yield cell, False, transform
        for _, use in cell.uses_in(seen):
            for _, _, placed in use.elements(seen):
                yield from self.seen(use.cell, composed(transform, placed), rect, opened)


def moves_to(rects):
    """Returns how far right and up each of some rectangles lies from the first."""
    left, bottom = rects[0][:2]
    return [(rect[0] - left, rect[1] - bottom) for rect in rects]


def between(region, holes):
    """Yields rectangles of what a region has beside holes in it: strips, cut where a hole above or below begins."""
    lefts = {}
    for left, bottom, _, top in holes:
        lefts.setdefault(bottom, set()).add(left)
        lefts.setdefault(top, set()).add(left)
    for left, bottom, right, top in strips([region], holes):
        cuts = {at for at in lefts.get(bottom, set()) | lefts.get(top, set()) if left < at < right}
        lines = [left, *sorted(cuts), right]
        yield from ((low, bottom, high, top) for low, high in zip(lines, lines[1:]))
