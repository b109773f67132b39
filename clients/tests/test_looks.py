"""Looks at a window, one after another: what has changed is looked at anew, and is what a first look finds."""

import random
import unittest
from unittest import mock

from tests.magics import compiled
from tests.test_layouts_flat import TURNS

from kolasieve.flat import Flat
from kolasieve.overlaps import EXACT, TEXTS
from kolasieve.rects import covers, grown
from kolasieve.window import Look, View

CELLS = ["leaf", "branch", "top"]
SEEDS, STEPS = 10, 40


class Cells:
    """Cells, each with rectangles by layer, uses of those before it, and whether its numbers are halves of lambda."""

    def __init__(self, process, dice):
        self.process, self.dice = process, dice
        # Magic writes layers in this order.
        self.order = [layer.name for layer in process.layers if not layer.parts]
        # Few types, so that they come together often.
        self.types = [*dice.sample(self.order, 2), "metal1", "polycontact", "ntransistor"]
        self.paint = {cell: {} for cell in CELLS}
        self.uses = {cell: [] for cell in CELLS}
        self.halves = set()

    def rect(self):
        left, bottom = self.dice.randrange(30), self.dice.randrange(30)
        return left, bottom, left + self.dice.randrange(1, 12), bottom + self.dice.randrange(1, 12)

    def change(self):
        """Changes something; returns what it was."""
        cell = self.dice.choice(CELLS)
        seldom = ["use", "use", "move", "array", "remove", "swap", "swap", "scale"]
        what = self.dice.choice(["paint", "paint", "erase"] * 3 + seldom)
        paint, uses = self.paint[cell], self.uses[cell]
        if what == "paint":
            paint.setdefault(self.dice.choice(self.types), []).append(self.rect())
        elif what == "erase" and paint:
            name = self.dice.choice(list(paint))
            paint[name].remove(self.dice.choice(paint[name]))
            self.paint[cell] = {name: rects for name, rects in paint.items() if rects}
        elif what == "use" and cell != "leaf" and len(uses) < 4:
            uses.append(self.use(self.dice.choice(CELLS[: CELLS.index(cell)])))
        elif what == "move" and uses:
            at = self.dice.randrange(len(uses))
            uses[at] = self.use(uses[at][0])
        elif what == "array" and uses:
            at = self.dice.randrange(len(uses))
            uses[at] = uses[at][0], self.array(), uses[at][2]
        elif what == "remove" and uses:
            uses.remove(self.dice.choice(uses))
        elif what == "swap":
            for each in (uses, *paint.values()):
                self.dice.shuffle(each)
        elif what == "scale":
            self.halves ^= {"leaf"}
        return what, cell

    def use(self, name):
        """Returns the name of a cell that is used, and the lines of its array and its transform."""
        a, b, d, e = self.dice.choice(TURNS)
        at = a, b, self.dice.randrange(-30, 30), d, e, self.dice.randrange(-30, 30)
        return name, self.array(), "transform %d %d %d %d %d %d\n" % at

    def array(self):
        last, step, top = self.dice.choice([1, 2, 9]), self.dice.choice([30, -7]), self.dice.randrange(3)
        return self.dice.choice(["", f"array 0 {last} {step} 0 {top} 33\n"])

    def text(self, cell):
        """Returns the text of a cell as a backup has it."""
        lines = ["magic\ntech scmos\n", "magscale 1 2\n" if cell in self.halves else "", "timestamp 1\n"]
        for name in sorted(self.paint[cell], key=self.order.index):
            lines += [f"<< {name} >>\n", *("rect %d %d %d %d\n" % rect for rect in self.paint[cell][name])]
        for number, (name, array, transform) in enumerate(self.uses[cell]):
            time = f"timestamp {len(self.paint[name])}\n"
            lines += [f"use {name} {name}_{number}\n", array, time, transform, "box 0 0 1 1\n"]
        return "".join(lines)

    def look(self):
        return Look("/top", "top", "", tuple(CELLS), texts={cell: self.text(cell) for cell in CELLS})


class Looks(unittest.TestCase):
    def setUp(self):
        self.process = compiled("scmos")

    def compare(self, view, look):
        """Compares what was looked at piece by piece with a first look."""
        whole = View(self.process, look, 2)
        for one, other in ((view.layout, whole.layout), (view.between, whole.between)):
            found, expected = ({name: rects for name, rects in each.rects().items() if rects} for each in (one, other))
            self.assertEqual(found, expected)

    def test_random_changes(self):
        forbidden = set()
        for seed in range(SEEDS):
            cells = Cells(self.process, random.Random(seed))
            view, done = View(self.process, cells.look(), 2), []
            for _ in range(STEPS):
                done.append(cells.change())
                look = cells.look()
                before = view.layout.rects()
                boxes = view.take(look)
                with self.subTest(seed=seed, done=done):
                    self.compare(view, look)
                    self.differ_within(boxes, before, view.layout.rects())
                forbidden.update(text for text in TEXTS if view.between.strips(text))
        self.assertEqual(forbidden, set(TEXTS))

    def test_used_cells_in_another_order(self):
        """Where two cells lie over each other, the second one shows."""
        cells = Cells(self.process, random.Random(1))
        cells.paint |= {"leaf": {"ndiffusion": [(0, 0, 4, 4)]}, "branch": {"pdiffusion": [(0, 0, 4, 4)]}}
        cells.uses["top"] = [("leaf", "", "transform 1 0 0 0 1 0\n"), ("branch", "", "transform 1 0 1 0 1 0\n")]
        view = View(self.process, cells.look(), 1)
        self.assertEqual(view.layout.rects(), {"ndiffusion": [(0, 0, 1, 4)], "pdiffusion": [(1, 0, 5, 4)]})
        cells.uses["top"].reverse()
        view.take(cells.look())
        self.assertEqual(view.layout.rects(), {"ndiffusion": [(0, 0, 4, 4)], "pdiffusion": [(4, 0, 5, 4)]})

    def test_a_change_beside_cells_that_touch(self):
        """Contacts of two cells touch, one of them near a change and the other one not."""
        cells = Cells(self.process, random.Random(1))
        cells.paint |= {"leaf": {"polycontact": [(0, 0, 4, 4)]}}
        cells.uses["top"] = [("leaf", "", f"transform 1 0 {left} 0 1 0\n") for left in (0, 4)]
        view = View(self.process, cells.look(), 1)
        for right in range(-6, 8):
            self.assertEqual(view.between.within((0, 0, 8, 4)), {EXACT: [(3, 0, 5, 4)]})
            cells.paint["top"] = {"metal3": [(-9, 0, right, 4)]}
            view.take(cells.look())
        cells.uses["top"].pop()
        view.take(cells.look())
        self.assertEqual(view.between.within((0, 0, 8, 4)), {})

    def differ_within(self, boxes, before, now):
        """All squares that have changed lie in some boxes."""
        for name in {**before, **now}:
            squares = [squares_of(each.get(name, ())) for each in (before, now)]
            changed = squares[0] ^ squares[1]
            self.assertEqual([each for each in changed if not any(has(box, each) for box in boxes)], [])

    def test_a_change_of_many_rectangles(self):
        """Of cells with many rectangles only what is near a change is looked at."""
        cells = Cells(self.process, random.Random(1))
        squares = [(x, y, x + 3, y + 3) for x in range(0, 300, 6) for y in range(0, 270, 6)]
        cells.paint["top"] = {"metal1": squares, "metal2": squares[:90], "polycontact": [(0, 0, 4, 4)]}
        cells.paint["leaf"] = {"metal2": squares[:200]}
        cells.uses["top"] = [cells.use("leaf"), cells.use("leaf")]
        view = View(self.process, cells.look(), 2)
        bars = {"metal1": (100, 100, 108, 103), "metal3": (0, 50, 9, 60), "metal2": (100, 90, 130, 97)}
        for name, rect in bars.items():
            cells.paint["top"][name] = [*cells.paint["top"].get(name, ()), rect]
            with mock.patch.object(Flat, "within", autospec=True, side_effect=Flat.within) as looked:
                boxes = view.take(look := cells.look())
            [(_, box)] = [call.args for call in looked.call_args_list]
            self.assertTrue(covers(grown(rect, 5), box), box)
            self.assertTrue(boxes)
            self.compare(view, look)
        cells.paint["top"]["metal1"] = squares[5:]
        view.take(look := cells.look())
        self.compare(view, look)


def squares_of(rects):
    return {(x, y) for left, bottom, right, top in rects for x in range(left, right) for y in range(bottom, top)}


def has(box, square):
    x, y = square
    return box[0] <= x < box[2] and box[1] <= y < box[3]


if __name__ == "__main__":
    unittest.main()
