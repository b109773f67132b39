"""Rules between cells: layers of two cells that must overlap exactly or not meet, and layers that must not overlap.

They speak of what came from which cell, which a flat layout doesn't say. They are checked on rectangles, by this client
alone.
"""

from kolasieve.index import Index
from kolasieve.rects import clipped, common, grown, strips

EXACT = "This layer can't abut or partially overlap between subcells"
NONE = "Can't overlap those layers"
TEXTS = [EXACT, NONE]

# How far round a square these rules look.
NEAR = 2


class OverlapRules:
    """The lines `exact_overlap` and `no_overlap` of a technology, as names of layers."""

    def __init__(self, process):
        self.exact = {name for each in process.overlaps if each.keyword == "exact_overlap" for name in each.lists[0]}
        self.none = [tuple(map(set, each.lists)) for each in process.overlaps if each.keyword == "no_overlap"]

    @property
    def watched(self):
        """The types of which these rules speak."""
        return self.exact.union(*(one | other for one, other in self.none))

    def violations(self, placed):
        """Returns rectangles by the rule's text. `placed` has the places of cells, each with a type and a rectangle."""
        found, indices = {EXACT: [], NONE: []}, {}
        for place, name, rect in placed:
            indices.setdefault(name, Index()).add(rect, place)
        for name in self.exact & set(indices):
            found[EXACT] += inexact(indices[name])
        for one, other in self.none:
            for name in one & set(indices):
                for against in other & set(indices):
                    found[NONE] += overlapped(indices[name], indices[against])
        return {text: rects for text, rects in found.items() if rects}


def inexact(index):
    """Returns what touches something of another cell that it doesn't lie over, and what it touches there."""
    found = []
    for rect, place in index.entries():
        for other, its_place in index.meeting(grown(rect, 1)):
            if its_place != place:
                over = [each for each, whose in index.meeting(rect) if whose == its_place]
                for beside in strips([common(rect, grown(other, 1))], over):
                    found += [beside, *clipped([other], grown(beside, 1))]
    return found


def overlapped(index, against):
    """Returns what two cells both have."""
    return [
        common(rect, other)
        for rect, place in index.entries()
        for other, its_place in against.meeting(rect)
        if its_place != place
    ]
