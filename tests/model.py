"""A session with technology M, square by square, as docs/SCRIPTS.md, docs/RULES.md and docs/CELLS.md define it."""

import unittest

from tests.serving import replies_in, serve
from tests.squares import EMPTY, HALO, KINDS, NAMES, RULES, WORLD, over, union

PIECE, AREAS, USES = 256, 64, 256
REFUSALS = {
    1: "empty box", 2: "outside the world", 3: "no box", 4: "unknown type", 7: "unknown cell",
    8: "cell outside the world", 10: "too many uses",
}


def around(areas):
    """Returns the smallest rectangle round all of these."""
    lefts, bottoms, rights, tops = zip(*areas)
    return min(lefts), min(bottoms), max(rights), max(tops)


def fault_of(sides):
    """Returns why a box is refused, or 0."""
    left, bottom, right, top = sides
    return 1 if left >= right or bottom >= top else 2 * any(abs(side) > WORLD for side in sides)


def common(sides, others):
    """Returns what two areas have in common, which may be no area."""
    return *map(max, sides[:2], others[:2]), *map(min, sides[2:], others[2:])


def rects(areas):
    return ["rect {} {} {} {}".format(*sides) for sides in areas]


def section(name, areas):
    return [f"<< {name} >>", *rects(areas)] if areas else []


def text(word, lines):
    """Returns the reply that has a cell file after it."""
    lines = ["magic", "tech M", *lines, "<< end >>"]
    return "\n".join([f"{word} {len(lines)}", *lines])


class Session:
    """A session. Its lines have no faults, and its cells are lists of types and areas.

    A method carries out a line and returns the rest of the reply, or the number of a refusal.
    """

    def __init__(self, window, cells):
        self.window, self.cells = window, cells
        self.own = self.placed = EMPTY
        self.sides, self.areas, self.uses, self.marks, self.entries = None, [], [], 0, 0

    def reply(self, line):
        first, second, *rest = line.split()
        if first.startswith("%"):
            name, command = second, "look_" + first[1:]
        else:
            name, command = first, "drc_" + rest.pop(0) if second == "drc" else second
            self.entries += 1
        said = getattr(self, command)(*rest) if self.sides or command not in NEEDS_BOX else 3
        return f"{name} refused {said} {REFUSALS[said]}" if isinstance(said, int) else f"{name} {said}"

    def layout(self):
        return over(self.own, self.placed)

    def forbidden(self):
        """Returns the squares that each rule forbids."""
        return [self.window.forbidden(self.layout(), rule) for rule in RULES]

    def await_check(self, sides):
        """Adds an area: these sides, grown by the halo."""
        low, high = (max(side - HALO, -WORLD) for side in sides[:2]), (min(side + HALO, WORLD) for side in sides[2:])
        self.areas.append((*low, *high))
        if len(self.areas) > AREAS:
            self.areas = [around(self.areas)]
        return "ok"

    def check(self, areas):
        """Makes the marks of these areas exact."""
        found = union(self.forbidden())
        for area in map(self.window.area, areas):
            self.marks = self.marks & ~area | found & area

    def look_open(self):
        return "opened"

    def box(self, *words):
        sides = tuple(map(int, words))
        self.sides = self.sides if fault_of(sides) else sides
        return fault_of(sides) or "ok"

    def paint(self, name):
        if name not in NAMES:
            return 4
        self.own = self.window.painted(self.own, NAMES[name], self.sides)
        return self.await_check(self.sides)

    def erase(self, names):
        names = set(names.split(",")) - {"space"}
        if not names <= NAMES.keys():
            return 4
        rest = ~self.window.area(self.sides)
        self.own = self.own | {NAMES[name]: self.own[NAMES[name]] & rest for name in names}
        return self.await_check(self.sides)

    def dump(self, *words):
        return self.add_cell("own", *words)

    def getcell(self, *words):
        said = self.add_cell("placed", *words)
        self.uses += [] if isinstance(said, int) else [" ".join(["\ngetcell", *words])]
        return said

    def add_cell(self, to, name, dx, dy):
        if name not in self.cells:
            return 7
        dx, dy = int(dx), int(dy)
        areas = [(kind, (l + dx, b + dy, r + dx, t + dy)) for kind, (l, b, r, t) in self.cells[name]]
        sides = around([sides for _, sides in areas]) if areas else None
        if sides and fault_of(sides):
            return 8
        if to == "placed" and len(self.uses) == USES:
            return 10
        for kind, area in areas:
            setattr(self, to, self.window.painted(getattr(self, to), kind, area))
        return self.await_check(sides) if sides else "ok"

    def what(self):
        area = self.window.area(self.sides)
        kinds = [kind for kind in KINDS if self.layout()[kind] & area]
        return " ".join(["what", str(len(kinds)), *kinds])

    def sections(self, layout):
        return [line for kind in KINDS for line in section(kind, self.window.strips(layout[kind]))]

    def save(self):
        return text("saved", self.sections(self.own))

    look_save = save

    def look_marks(self):
        marks = section("error_p", self.window.strips(self.marks))
        return text("marked", section("checkpaint", self.areas) + marks + self.sections(self.layout()))

    def look_errors(self, *words):
        sides = tuple(map(int, words))
        areas = [cut for cut in (common(area, sides) for area in self.areas) if not fault_of(cut)]
        marks = self.window.strips(self.marks & self.window.area(sides))
        return fault_of(sides) or text("errors", section("checkpaint", areas) + section("error_p", marks))

    def look_violations(self, *words):
        sides, lines = tuple(map(int, words)), []
        area = self.window.area(sides)
        for n, (rule, bad) in enumerate(zip(RULES, self.forbidden()), 1):
            if bad & area:
                lines += [f"rule {n} {rule.why}", *rects(self.window.strips(bad & area))]
        return fault_of(sides) or "\n".join([f"violations {len(lines)}", *lines])

    def look_uses(self):
        return f"uses {len(self.uses)}" + "".join(self.uses)

    def look_audit(self):
        return f"audited {self.entries}"

    def look_why(self, *words):
        sides = tuple(map(int, words))
        area = self.window.area(sides)
        found = [f"[{n}] {rule.why}" for n, (rule, bad) in enumerate(zip(RULES, self.forbidden()), 1) if bad & area]
        return fault_of(sides) or " ".join(["why", str(len(found)), *found])

    def drc_why(self):
        return self.look_why(*self.sides)

    def drc_check(self):
        return self.await_check(self.sides)

    def drc_count(self):
        return f"count {self.marks.bit_count()} errors {len(self.areas)} pending"

    def drc_catchup(self):
        self.check(self.areas)
        self.areas = []
        return "ok"

    def look_steps(self, count):
        done = 0
        while self.areas and done < int(count):
            left, bottom, right, top = self.areas.pop(0)
            end, roof = min(left + PIECE, right), min(bottom + PIECE, top)
            self.check([(left, bottom, end, roof)])
            rest = (end, bottom, right, roof), (left, roof, right, top)
            self.areas[:0] = [area for area in rest if not fault_of(area)]
            done += 1
        return f"steps {done} {'done' if done == int(count) else 'idle'}"

    def look_step(self):
        return "step " + self.look_steps(1).split()[-1]


NEEDS_BOX = "paint", "erase", "what", "drc_check", "drc_why"


class ModelCase(unittest.TestCase):
    def expect_model(self, words, lines, window, cells={}):
        """Asserts that the program replies to lines as a session by the definitions does, and returns the replies."""
        files = {f"{name}.mag": "\n".join(["magic", *cell_lines(cell), "<< end >>"]) for name, cell in cells.items()}
        ending = serve([*words, *(f"{name}={name}.mag" for name in cells)], "\n".join(lines), files)
        self.assertEqual((ending.messages, ending.status), ("", 0))
        session, replies = Session(window, cells), replies_in(ending.output)
        self.assertEqual(len(replies), len(lines))
        for place, (line, reply) in enumerate(zip(lines, replies)):
            said = session.reply(line)
            self.assertEqual(reply, said, reply != said and f"behind {lines[:place + 1]}")
        return replies


def cell_lines(cell):
    return [line for kind, sides in cell for line in section(kind, [sides])]
