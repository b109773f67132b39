"""What the rules of technology M forbid, square by square, as docs/RULES.md defines it.

A set of squares is a number that has a bit for each square of a window, row by row. Only squares that are at least 8
away from the window's border may be painted, so that no square that a rule reaches is taken for one of another row.
"""

import collections
import functools
import operator
import re
import shlex

from tests.serving import ROOT

WORLD = 1048576
PLANES = ("poly", "ndiff"), ("m1",)
KINDS = "poly", "ndiff", "m1"
NAMES = {"poly": "poly", "p": "poly", "ndiff": "ndiff", "nd": "ndiff", "m1": "m1"}
EMPTY = dict.fromkeys(KINDS, 0)


# An edge rule, whose corner distance is its distance.
Rule = collections.namedtuple("Rule", "trigger types1 types2 corner check fine distance four_way why")


def plane_of(kind):
    return next(plane for plane in PLANES if kind in plane)


def rule_of(keyword, *words):
    """Returns the rule of a line."""
    first, last = ({NAMES[name] for name in words[i].split(",")} for i in (0, keyword == "spacing"))
    trigger, check = plane_of(min(first)), plane_of(min(last))
    others = {"space", *trigger} - first
    if keyword == "width":
        return Rule(trigger, others, first, first, check, first, int(words[1]), False, words[-1])
    others -= last if words[3] == "touching_ok" else set()
    return Rule(trigger, first, others, others, check, {"space", *check} - last, int(words[2]), True, words[-1])


TECHNOLOGY = (ROOT / "examples/m.tech").read_text()
RULES = [rule_of(*shlex.split(line)) for line in TECHNOLOGY.partition("\ndrc\n")[2].splitlines()[:-1]]
HALO = 1 + max(rule.distance for rule in RULES)


def moved(squares, step):
    return squares << step if step >= 0 else squares >> -step


def union(sets):
    return functools.reduce(operator.or_, sets, 0)


def over(upper, lower):
    """Returns what is seen of two layouts, one over the other: the squares of each type."""
    hidden = {kind: union(upper[other] for other in plane_of(kind)) for kind in KINDS}
    return {kind: upper[kind] | lower[kind] & ~hidden[kind] for kind in KINDS}


class Window:
    """The squares that are looked at, of which some may be outside the world."""

    def __init__(self, left, bottom, side):
        self.left, self.bottom, self.side = left, bottom, side
        self.all = (1 << side * side) - 1
        self.world = self.area((-WORLD, -WORLD, WORLD, WORLD))

    def area(self, sides):
        """Returns those squares of an area that are in the window."""
        left, right = (min(max(x - self.left, 0), self.side) for x in sides[::2])
        bottom, top = (min(max(y - self.bottom, 0), self.side) for y in sides[1::2])
        squares = 0
        for _ in range(bottom, top):
            squares = squares << self.side | (1 << right) - (1 << left)
        return squares << bottom * self.side

    def painted(self, layout, kind, sides):
        """Returns a layout after this was painted."""
        return over(EMPTY | {kind: self.area(sides)}, layout)

    def of_types(self, layout, plane, kinds):
        """Returns the squares of these types on a plane."""
        squares = union(layout[kind] for kind in plane if kind in kinds)
        return squares | self.all & ~union(layout[kind] for kind in plane) if "space" in kinds else squares

    def forbidden(self, layout, rule):
        """Returns the squares that a rule forbids."""
        lists = rule.types1, rule.types2, rule.corner
        types1, types2, corner = (self.of_types(layout, rule.trigger, kinds) for kinds in lists)
        far, reached = range(rule.distance), 0
        directions = (1, self.side), (self.side, 1), (-1, self.side), (-self.side, 1)
        for along, across in directions if rule.four_way else directions[:2]:
            edges = moved(types1, along) & types2
            reached |= union(moved(edges, along * i) for i in far)
            for flank in (across, -across):
                corners = edges & moved(corner, along - flank)
                reached |= union(moved(corners, along * i + flank * (j + 1)) for i in far for j in far)
        return reached & self.world & ~self.of_types(layout, rule.check, rule.fine)

    def strips(self, squares):
        """Returns the maximal horizontal strips of squares, by bottom and then left."""
        strips, begun = [], {}
        for y in range(self.side + 1):
            row = squares >> y * self.side & (1 << self.side) - 1
            runs = [run.span() for run in re.finditer("1+", f"{row:b}"[::-1])]
            strips += [(begin, left, right, y) for (left, right), begin in begun.items() if (left, right) not in runs]
            begun = {run: begun.get(run, y) for run in runs}
        x, y = self.left, self.bottom
        return [(left + x, begin + y, right + x, end + y) for begin, left, right, end in sorted(strips)]
