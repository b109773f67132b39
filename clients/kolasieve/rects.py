"""Rectangles as left, bottom, right and top lines: maximal strips, differences, squares."""

from bisect import bisect_left, bisect_right
from operator import itemgetter


def bounds(rects):
    """Returns the lines round rectangles, of which there is one at least."""
    lefts, bottoms, rights, tops = zip(*rects)
    return min(lefts), min(bottoms), max(rights), max(tops)


def squares(rects):
    """Returns how many squares rectangles have together, none of which meets another."""
    return sum((right - left) * (top - bottom) for left, bottom, right, top in rects)


def grown(rect, width):
    left, bottom, right, top = rect
    return left - width, bottom - width, right + width, top + width


def meet(one, other):
    """Returns whether two rectangles have a square in common."""
    return one[0] < other[2] and other[0] < one[2] and one[1] < other[3] and other[1] < one[3]


def common(one, other):
    """Returns the squares that two rectangles have in common, which has no square where they don't meet."""
    return max(one[0], other[0]), max(one[1], other[1]), min(one[2], other[2]), min(one[3], other[3])


def covers(rect, other):
    """Returns whether a rectangle has all squares of another one."""
    return rect[0] <= other[0] and rect[1] <= other[1] and other[2] <= rect[2] and other[3] <= rect[3]


def clipped(rects, rect):
    """Returns what rectangles have in common with one, each where it has a square."""
    left, bottom, right, top = rect
    return [
        (l if l > left else left, b if b > bottom else bottom, r if r < right else right, t if t < top else top)
        for l, b, r, t in rects
        if l < right and left < r and b < top and bottom < t
    ]


def without(rect, hole):
    """Returns at most four rectangles: what is left of one without the squares of another, which it meets."""
    left, bottom, right, top = rect
    from_left, from_bottom, to_right, to_top = common(rect, hole)
    parts = [
        (left, bottom, right, from_bottom),
        (left, from_bottom, from_left, to_top),
        (to_right, from_bottom, right, to_top),
        (left, to_top, right, top),
    ]
    return [part for part in parts if part[0] < part[2] and part[1] < part[3]]


def outside(rect, holes):
    """Returns rectangles that don't overlap: what is left of one without a few others."""
    parts = [rect]
    for hole in holes:
        parts = [part for each in parts for part in (without(each, hole) if meet(each, hole) else [each])]
    return parts


class Span:
    """A part of a row that rectangles and holes touch, these, and its covered runs with the rows where they begin."""

    __slots__ = ("left", "right", "rects", "holes", "runs")

    def __init__(self, left, right):
        self.left, self.right, self.rects, self.holes, self.runs = left, right, [], [], {}


def strips(rects, holes=()):
    """Returns the maximal horizontal strips of what rectangles cover and holes don't, by bottom and then left.

    A sweep upward keeps the spans of the row; where rectangles begin or end, the spans that they touch are made anew.
    So a row costs what changes in it.
    """
    changes = {}
    for is_hole, each in ((False, rects), (True, holes)):
        for rect in set(each):
            changes.setdefault(rect[1], []).append((rect, is_hole))
            changes.setdefault(rect[3], []).append((rect, is_hole))
    done, spans, lefts = [], [], []
    for row in sorted(changes):
        for first, last, changed in touched(spans, lefts, changes[row]):
            since = {}
            for span in spans[first:last]:
                since.update(span.runs)
                changed += [(rect, False) for rect in span.rects if rect[3] > row]
                changed += [(rect, True) for rect in span.holes if rect[3] > row]
            new = spans_of(changed, row)
            for span in new:
                span.runs = {run: since.pop(run, row) for run in runs_of(span)}
            done.extend((left, bottom, right, row) for (left, right), bottom in since.items())
            spans[first:last] = new
            lefts[first:last] = [span.left for span in new]
    return sorted(done, key=itemgetter(1, 0))


def touched(spans, lefts, changes):
    """Returns runs of spans that rectangles touch, from the last to the first, each with what begins or ends there."""
    found = []
    for change in sorted(changes):
        left, _, right, _ = change[0]
        first = bisect_left(lefts, left)
        if first and spans[first - 1].right >= left:
            first -= 1
        last = bisect_right(lefts, right, first)
        if found and (first < found[-1][1] or left <= found[-1][3]):
            found[-1][1] = max(found[-1][1], last)
            found[-1][2].append(change)
            found[-1][3] = max(found[-1][3], right)
        else:
            found.append([first, last, [change], right])
    return [each[:3] for each in reversed(found)]


def spans_of(changed, row):
    """Returns the spans of a row: of what ends there nothing is left."""
    spans = []
    for rect, is_hole in sorted(changed):
        if rect[3] == row:
            continue
        if not spans or rect[0] > spans[-1].right:
            spans.append(Span(rect[0], rect[2]))
        spans[-1].right = max(spans[-1].right, rect[2])
        (spans[-1].holes if is_hole else spans[-1].rects).append(rect)
    return spans


def runs_of(span):
    """Returns what is covered of a span, from left to right."""
    if not span.holes:
        return joined_runs((rect[0], rect[2]) for rect in span.rects)
    holes = joined_runs((rect[0], rect[2]) for rect in span.holes)
    runs = []
    for left, right in joined_runs((rect[0], rect[2]) for rect in span.rects):
        for hole_left, hole_right in holes:
            if hole_right <= left:
                continue
            if hole_left >= right:
                break
            if left < hole_left:
                runs.append((left, hole_left))
            left = hole_right
        if left < right:
            runs.append((left, right))
    return runs


def joined_runs(runs):
    """Returns runs from left to right of which no two touch, from runs by their left ends."""
    joined = []
    for left, right in runs:
        if joined and left <= joined[-1][1]:
            if right > joined[-1][1]:
                joined[-1] = (joined[-1][0], right)
        else:
            joined.append((left, right))
    return joined


def overlapping(entries):
    """Yields all pairs of entries, each a rectangle with a value, that have a square in common.

    A sweep upward keeps what the row has as lists from left to right, in none of which two overlap.
    """
    lists = []
    for entry in sorted(entries, key=lambda entry: entry[0][1]):
        left, bottom, right, top = entry[0]
        free = None
        for lefts, rights, found in lists:
            first = bisect_right(rights, left)
            last = bisect_left(lefts, right, first)
            if first < last and (over := [each for each in found[first:last] if each[0][3] > bottom]):
                for each in over:
                    yield each, entry
            elif free is None:
                free = lefts, rights, found, first, last
        if free is None:
            lists.append(([left], [right], [entry]))
        else:
            lefts, rights, found, first, last = free
            lefts[first:last], rights[first:last], found[first:last] = [left], [right], [entry]
