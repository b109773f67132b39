"""A flat layout by layers, of which a part is looked at or replaced."""

from operator import itemgetter

from kolasieve.index import Index
from kolasieve.rects import bounds, common, covers, grown, meet, strips, without

# How far apart changes are that are sent as one, and of how many one box is made whatever lies between.
NEAR = 8
MANY = 400

# The order of strips.
UPWARD = itemgetter(1, 0)


class Layout:
    """Maximal strips by layer."""

    def __init__(self, layers=None):
        self.fill(layers or {})

    def fill(self, layers):
        """Makes layers, which have maximal strips, the whole layout."""
        self.layers = {name: Index((rect, None) for rect in rects) for name, rects in layers.items()}

    def rects(self):
        """Returns the strips of each layer."""
        return {name: self.strips(name) for name in self.layers}

    def strips(self, name):
        """Returns the strips of a layer, by bottom and then left."""
        return sorted((rect for rect, _ in self.layers[name].entries()), key=UPWARD)

    def within(self, rect):
        """Returns what the layout holds in a rectangle, as maximal strips."""
        found = {}
        for name, index in self.layers.items():
            here = [each for each, _ in index.meeting(rect)]
            if all(covers(rect, each) for each in here):
                here.sort(key=UPWARD)
            else:
                here = strips([common(each, rect) for each in here])
            if here:
                found[name] = here
        return found

    def keep(self, rect, layers):
        """Makes layers what the layout holds in a rectangle."""
        for name in {**self.layers, **layers}:
            self.keep_layer(name, rect, layers.get(name, ()))

    def keep_layer(self, name, rect, rects):
        """Makes rectangles what a layer holds in one that has them all in it; returns whether that changes it.

        Strips may change that have a square in the rectangle or beside it, and no others.
        """
        index = self.layers.setdefault(name, Index())
        near = {each for each, _ in index.meeting(grown(rect, 1))}
        outside = [part for each in near for part in (without(each, rect) if meet(each, rect) else [each])]
        new = set(strips([*outside, *rects]))
        for each in near - new:
            index.remove(each, None)
        for each in new - near:
            index.add(each, None)
        return new != near


def missing(one, other):
    """Returns what strips by layer have that others haven't."""
    found = {name: set(rects).difference(other.get(name, ())) for name, rects in one.items()}
    return {name: rects for name, rects in found.items() if rects}


def differing(one, other):
    """Returns rectangles of the squares where layers differ, each layer rectangles of either layout."""
    found = []
    for name in {**one, **other}:
        here, there = one.get(name, ()), other.get(name, ())
        found += [*(strips(here, there) if there else here), *(strips(there, here) if here else there)]
    return found


def boxes_round(rects):
    """Returns boxes of which no two are near each other, and which have all these rectangles in them."""
    if len(rects) > MANY:
        return [bounds(rects)]
    boxes = []
    for box in rects:
        while near := [each for each in boxes if meet(grown(box, NEAR), each)]:
            boxes = [each for each in boxes if each not in near]
            box = bounds([box, *near])
        boxes.append(box)
    return boxes
