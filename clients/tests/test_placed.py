"""Layouts whose cells are used often.

What is forbidden in them is what is forbidden in the flat layout, and what shows the same is checked once.
"""

import random
import unittest
from unittest import mock

from tests.test_layouts_flat import TURNS
from tests.test_windows import Folder

from kolasieve.batch import Batches
from kolasieve.check import Check, Choice
from kolasieve.flat import flattened
from kolasieve.hierarchy import AS_IT_IS, Library
from kolasieve.overlaps import TEXTS
from kolasieve.placed import Placed
from kolasieve.rects import squares, strips
from kolasieve.windows import Sizes

# Rules that look in two directions alone among them, so that a turned cell forbids something else.
RULES = [
    'width poly 3 "narrow"', 'spacing poly poly 4 touching_ok "near"', 'area metal 7 2 "small"', 'exact_overlap metal',
    'edge poly ~(poly)/active 5 ~(diff)/active 0 0 "beside"', 'no_overlap poly diff',
    'edge4way metal ~(metal)/metal 2 ~(poly)/active ~(metal)/metal 2 "over" active',
]

# How far these rules look: of areas farthest.
REACH = 7

# The side of the least cells in which most squares are inside, and how far apart they mostly are: not at powers of two.
SIDE, STEP = 60, 66

LARGE, NONE_LARGE = 8, 1 << 40


class Used(Folder):
    def setUp(self):
        super().setUp()
        self.process = self.made(RULES)

    def paint(self, dice, side, count):
        """Returns rectangles of all types in a square of this side, and some of its corners."""
        sections = {"poly": [(0, 0, 2, 9)], "metal": [(side - 3, side - 2, side, side)]}
        for _ in range(count):
            left, bottom = dice.randrange(side - 9), dice.randrange(side - 9)
            rect = (left, bottom, left + dice.randrange(1, 9), bottom + dice.randrange(1, 9))
            sections.setdefault(dice.choice(["poly", "diff", "metal"]), []).append(rect)
        return sections.items()

    def use(self, dice, name, place):
        """Returns a use of a cell, mostly on a grid, sometimes turned, mirrored, as an array or over another one."""
        bounds = self.bounds[name]
        a, b, d, e = dice.choice(TURNS) if dice.random() < 0.4 else TURNS[0]
        step = STEP * -(-(bounds[2] + 9) // STEP)
        x, y = (step * (place % 3) + dice.choice([0, 0, 0, 1, -30]), step * (place // 3) + dice.choice([0, 0, 0, 2]))
        # Where it is turned, it comes back to the squares that it would have had.
        x += bounds[2] * (a + b < 0)
        y += bounds[3] * (d + e < 0)
        array = [(0, dice.randrange(1, 3), step, 0, dice.randrange(2), -step)] if dice.random() < 0.2 else []
        return name, (a, b, x, d, e, y), bounds, *array

    def layout(self, seed):
        """Writes a layout of cells in cells, and returns its path."""
        dice = random.Random(seed)
        self.bounds = {}
        for name in ("one", "other"):
            self.cell(self.paint(dice, SIDE, 20), name=name)
            self.bounds[name] = (0, 0, SIDE, SIDE)
        levels = [("middle", ["one", "one", "other"], 2), ("chip", ["one", "middle", "middle"], seed % 3)]
        for name, used, own in levels:
            uses = [self.use(dice, dice.choice(used), place) for place in range(7)]
            over = [(dice.randrange(300), dice.randrange(300)) for _ in range(own)]
            bars = [("metal", [(x, y, x + 50, y + 3) for x, y in over])]
            path = self.cell(bars if over else (), uses, name)
            self.bounds[name] = Library(self.process, path).top.bounds
        return path

    def told(self, path, sizes, jobs=1, **words):
        """Returns the strips of each rule, of all together, and of each layer."""
        report = self.report(path, sizes, jobs, Choice(has_layers=True, **words))
        found = {each.text: list(each.strips) for each in report.violations}
        return found, list(report.marks), {name: list(rects) for name, rects in report.layers.items()}

    def tasks(self, path, sizes):
        """Returns what a check does."""
        made, tasks = [], Check.tasks

        def kept(*words):
            made.extend(tasks(*words))
            return made

        with mock.patch.object(Check, "tasks", kept):
            self.report(path, sizes)
        return made


class TheSame(Used):
    def test_as_flat(self):
        shared, texts = 0, set()
        for seed in range(6):
            path = self.layout(seed)
            flat = self.cell(flattened(Library(self.process, path)).items(), name="flat")
            found, _, layers = self.told(path, Sizes(large=LARGE))
            flat_found, _, flat_layers = self.told(flat, Sizes())
            with self.subTest(seed):
                self.assertEqual({text: found[text] for text in found if text not in TEXTS}, flat_found)
                self.assertEqual(layers, flat_layers)
            texts.update(flat_found)
            shared += sum(len(task.moves) - 1 for task in self.tasks(path, Sizes(large=LARGE)))
        self.assertEqual(texts, {"narrow", "near", "small", "beside", "over"})
        self.assertGreater(shared, 100)

    def test_whatever_the_windows_are(self):
        texts = set()
        for seed in range(16, 21):
            path = self.layout(seed)
            whole = self.told(path, Sizes(large=NONE_LARGE))
            texts.update(whole[0])
            sizes = Sizes(side=1 << 19 if seed % 3 else 24, rects=30 if seed % 2 else 30000, large=LARGE)
            with self.subTest(seed):
                self.assertEqual(self.told(path, sizes), whole)
        self.assertLessEqual(set(TEXTS), texts)

    def test_by_four_processes(self):
        path = self.layout(1)
        self.assertEqual(self.text(path, Sizes(rects=40, large=LARGE), 4), self.text(path, Sizes(large=NONE_LARGE)))

    def test_a_strip_over_a_cut(self):
        self.cell(self.paint(random.Random(3), SIDE, 20), name="one")
        uses = [("one", (1, 0, STEP * x, 0, 1, STEP * y), (0, 0, SIDE, SIDE)) for x in range(4) for y in range(2)]
        # Beside where the second inside begins.
        path = self.cell([("poly", [(STEP + REACH - 1, SIDE + 1, STEP + REACH, SIDE + 5)])], uses)
        found = self.found(path, Sizes(large=LARGE))
        self.assertIn((STEP + REACH, SIDE + 1, STEP + REACH + 2, SIDE + 5), found["narrow"])
        self.assertEqual(found, self.found(path, Sizes(large=NONE_LARGE)))

    def test_a_region(self):
        for seed, region in ((2, (50, 30, 555, 444)), (3, (-100, -100, 900, 210)), (4, (70, 70, 90, 90))):
            path = self.layout(seed)
            expected = self.told(path, Sizes(large=NONE_LARGE), region=region)
            self.assertEqual(self.told(path, Sizes(large=LARGE), region=region), expected)


class Once(Used):
    def checked(self, path, sizes):
        """Returns how many windows magicd has checked."""
        checked, forbidden = [], Batches.forbidden

        def counted(*words):
            checked.append(words)
            return forbidden(*words)

        with mock.patch.object(Batches, "forbidden", counted):
            found = self.found(path, sizes)
        return len(checked), found

    def test_as_many_windows_whatever_the_number_of_uses(self):
        self.cell(self.paint(random.Random(1), SIDE, 20), name="one")
        counts = set()
        square = (0, 0, SIDE, SIDE)
        for side in (3, 4, 7):
            places = [(STEP * x, STEP * y) for x in range(side) for y in range(side)]
            uses = [("one", (1, 0, x, 0, 1, y), square) for x, y in places]
            array = [("one", AS_IT_IS, square, (0, side - 1, STEP, 0, side - 1, STEP))]
            for path in (self.cell((), uses), self.cell((), array, "array")):
                count, found = self.checked(path, Sizes(rects=12, large=LARGE))
                self.assertEqual(found, self.found(path, Sizes(large=NONE_LARGE)))
                counts.add(count)
        self.assertEqual(len(counts), 1)
        self.assertGreater(self.checked(path, Sizes(rects=12, large=NONE_LARGE))[0], 3 * max(counts))

    def test_cells_of_a_cell(self):
        self.cell(self.paint(random.Random(2), SIDE, 20), name="one")
        ones = [("one", (1, 0, STEP * x, 0, 1, STEP * y), (0, 0, SIDE, SIDE)) for x in range(3) for y in range(3)]
        self.cell([("metal", [(-9, -9, -8, -8), (200, 200, 201, 201)])], ones, "middle")
        for count in (1, 5):
            uses = [("middle", (1, 0, 250 * place, 0, 1, 0), (-9, -9, 201, 201)) for place in range(count)]
            tasks = self.tasks(self.cell((), uses), Sizes(large=LARGE))
            moves = {squares(task.cores): len(task.moves) for task in tasks}
            self.assertEqual(moves[(SIDE - 2 * REACH) ** 2], 9 * count)

    def test_no_square_is_looked_at_twice(self):
        for seed in range(8):
            top, region = Library(self.process, self.layout(seed)).top, (-200, -200, 1200, 1200)
            covered = [
                (left + x, bottom + y, right + x, top_line + y)
                for (left, bottom, right, top_line), moves in Placed(top, REACH, LARGE).parts(region)
                for x, y in moves
            ]
            self.assertEqual(squares(covered), squares([region]))
            self.assertEqual(strips(covered), [region])


if __name__ == "__main__":
    unittest.main()
