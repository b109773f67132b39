"""Where two readings of a cell may differ once they are flat.

Layers and uses of either are paired in their order. What has no other one, or another one, may differ; where the order
is another one, all may.
"""

from collections import Counter

from kolasieve.hierarchy import moved_by
from kolasieve.layout import boxes_round
from kolasieve.rects import bounds

# Of an array with so many elements, at most, each one is looked at by itself.
FEW = 16


def changed(before, now, known=None):
    """Returns rectangles outside of which two cells are the same. `known` has what was found of cells that they use."""
    known = {} if known is None else known
    if (before, now) not in known:
        known[before, now] = [] if before is now else boxes_round(list(find_changed(before, now, known)))
    return known[before, now]


def find_changed(before, now, known):
    layers, uses = paired(before.own.layers, now.own.layers), paired(placed(before.uses), placed(now.uses))
    if layers is None or uses is None:
        yield from (cell.bounds for cell in (before, now) if cell.bounds)
        return
    for one, other in layers:
        yield from changed_rects(one, other)
    for one, other in uses:
        if one is None or other is None:
            yield (one or other).bounds
        else:
            for rect in changed(one.cell, other.cell, known):
                yield from elements_of(rect, other)


def placed(uses):
    """Returns uses by where they place their cells."""
    return [((use.transform, use.columns, use.step_x, use.rows, use.step_y), use) for use in uses]


def paired(before, now):
    """Returns pairs of values that have the same key in two lists, None for one that isn't there.

    Of values with the same key the first are a pair, the second, and so on. Where they come in another order there is
    no list of pairs, but None.
    """
    one, other = numbered(before), numbered(now)
    if [key for key in one if key in other] != [key for key in other if key in one]:
        return None
    return [(one.get(key), other.get(key)) for key in {**one, **other}]


def numbered(entries):
    """Returns values by their keys, each with how many of the same key come before it."""
    counts, found = Counter(), {}
    for key, value in entries:
        found[key, counts[key]] = value
        counts[key] += 1
    return found


def changed_rects(before, now):
    """Returns the rectangles that one of two layers has, and the other one hasn't, or not as often."""
    if before is None or now is None:
        return list(before or now)
    if before.is_same(now):
        return []
    one, other = Counter(before), Counter(now)
    return [*(one - other), *(other - one)]


def elements_of(rect, use):
    """Returns where a rectangle of a cell lies in a use of it, element by element; of many one rectangle round all."""
    if use.columns * use.rows <= FEW:
        return [moved_by(use.placed(column, row), rect) for column in range(use.columns) for row in range(use.rows)]
    first, last = use.placed(0, 0), use.placed(use.columns - 1, use.rows - 1)
    return [bounds([moved_by(first, rect), moved_by(last, rect)])]
