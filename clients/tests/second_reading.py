"""What the rules of a technology file for magicd forbid, square by square.

Written from docs/TECHNOLOGY.md and docs/RULES.md alone; nothing of it is shared with the compiler or with magicd. A set
of squares is a number with a bit for each square of a window, row by row. No square is reached that is nearer than two
to the window's border.
"""

import functools
import operator
import re
from collections import namedtuple

# A rule: planes that are triggered and checked, sets of types, distances, whether it looks in all four directions.
Rule = namedtuple("Rule", "trigger check one two fine corner distance corner_distance four_ways why")

WORD = re.compile(r'"([^"]*)"|(\S+)')


def union(sets):
    return functools.reduce(operator.or_, sets, 0)


def moved(squares, step):
    return squares << step if step >= 0 else squares >> -step


class Reading:
    """A technology file: the plane of each type by its names, and the rules."""

    def __init__(self, text):
        self.planes = []
        self.first = {"space": "space"}
        self.plane = {}
        self.rules = []
        section = None
        for line in text.splitlines():
            words = [quoted or plain for quoted, plain in WORD.findall(line)]
            if section is None:
                section = words[0]
            elif words == ["end"]:
                section = None
            elif section == "planes":
                self.planes.append(words[0])
            elif section == "types":
                names = words[1].split(",")
                self.first.update(dict.fromkeys(names, names[0]))
                self.plane[names[0]] = words[0]
            elif section == "drc":
                self.rules.append(self.rule(*words))

    def on(self, plane):
        return {"space", *(name for name, each in self.plane.items() if each == plane)}

    def rule(self, keyword, *words):
        if keyword == "width":
            types = self.types(words[0])
            plane = self.plane[min(types)]
            others = self.on(plane) - types
            return Rule(plane, plane, others, types, types, types, int(words[1]), int(words[1]), False, words[2])
        one, two, fine, corner = (self.types(words[place]) for place in (0, 1, 3, 4))
        (trigger,) = (plane for plane in self.planes if one & self.on(plane) and two & self.on(plane))
        check = words[7] if len(words) > 7 else trigger
        four_ways = {"edge": False, "edge4way": True}[keyword]
        return Rule(trigger, check, one, two, fine, corner, int(words[2]), int(words[5]), four_ways, words[6])

    def types(self, text):
        """Returns the types of a list, by recursion over its items."""
        if not text:
            return set()
        found, rest = self.term(text)
        if rest.startswith("/"):
            plane, comma, rest = rest[1:].partition(",")
            found, rest = found & self.on(plane), comma + rest
        return found | self.types(rest[1:])

    def term(self, text):
        if text[0] == "~":
            found, rest = self.term(text[1:])
            return {"space", *self.plane} - found, rest
        if text[0] == "(":
            depth = end = 0
            while end == 0 or depth:
                depth += {"(": 1, ")": -1}.get(text[end], 0)
                end += 1
            return self.types(text[1 : end - 1]), text[end:]
        name = re.match(r"[^,/]+", text)[0]
        return (set() if name == "0" else {self.first[name]}), text[len(name) :]


class Window:
    """Squares from 0 to the side, with room round them for what rules reach."""

    def __init__(self, reading, side):
        self.reading = reading
        self.reach = 2 + max(max(rule.distance, rule.corner_distance) for rule in reading.rules)
        self.side = side + 2 * self.reach
        self.all = (1 << self.side * self.side) - 1

    def squares(self, left, bottom, right, top):
        row = (1 << right + self.reach) - (1 << left + self.reach)
        return union(row << (y + self.reach) * self.side for y in range(bottom, top))

    def layout(self, painted):
        """Returns the squares of each type after these pairs of a type and its sides were painted in turn."""
        layout = dict.fromkeys(self.reading.plane, 0)
        for name, sides in painted:
            squares = self.squares(*sides)
            for other in self.reading.on(self.reading.plane[name]) - {"space"}:
                layout[other] &= ~squares
            layout[name] |= squares
        return layout

    def of_types(self, layout, plane, types):
        names = self.reading.on(plane) - {"space"}
        found = union(layout[name] for name in names & types)
        return found | self.all & ~union(layout[name] for name in names) if "space" in types else found

    def forbidden(self, layout, rule):
        one, two, corner = (
            self.of_types(layout, rule.trigger, types) for types in (rule.one, rule.two, rule.corner)
        )
        bad = self.all & ~self.of_types(layout, rule.check, rule.fine)
        reached = 0
        directions = ((1, self.side), (self.side, 1), (-1, self.side), (-self.side, 1))
        for along, across in directions if rule.four_ways else directions[:2]:
            edges = moved(one, along) & two
            reached |= union(moved(edges, along * step) for step in range(rule.distance))
            for flank in (across, -across) if rule.corner_distance else ():
                squares = edges & moved(corner, along - flank)
                for deep in range(rule.corner_distance):
                    row = moved(squares, along * deep)
                    reached |= union(moved(row, flank * (wide + 1)) for wide in range(rule.corner_distance))
        return reached & bad

    def all_forbidden(self, layout):
        return union(self.forbidden(layout, rule) for rule in self.reading.rules)
