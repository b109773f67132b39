"""Cell files of Magic as they are read and written, and rectangles against squares."""

import io
import random
import unittest

from kolasieve import mag, rects
from kolasieve.layout import Layout, boxes_round, differing, missing

FILE = """magic
tech scmos
magscale 1 2
timestamp 7
# a comment
<< ndiff >>
rect 0 0 2 4
use cell cell_0 ../other
array 0 3 10 0 0 0
timestamp 7
transform 0 1 5 -1 0 6
box 0 0 4 4
<< labels >>
rlabel ndiff 0 0 2 4 0 in
rect 0 0 0 0
<< error_p >>
rect 1 1 2 2
<< ndiff >>
rect 8 0 9 4
<< metal1 >>
<< end >>
<< not read
"""


def squares(found):
    return {(x, y) for left, bottom, right, top in found for x in range(left, right) for y in range(bottom, top)}


def runs(row):
    """Returns the runs of the columns of a row: the first of each, and the one behind its last."""
    starts = sorted(x for x in row if x - 1 not in row)
    ends = sorted(x + 1 for x in row if x + 1 not in row)
    return set(zip(starts, ends))


def strips_of(found):
    """Returns the maximal strips of squares, row by row."""
    rows = {}
    for x, y in found:
        rows.setdefault(y, set()).add(x)
    rows = {y: runs(row) for y, row in rows.items()}
    strips = []
    for y, row in rows.items():
        for run in row - rows.get(y - 1, set()):
            top = y
            while run in rows.get(top, ()):
                top += 1
            strips.append((run[0], y, run[1], top))
    return sorted(strips, key=lambda strip: (strip[1], strip[0]))


class Files(unittest.TestCase):
    def test_what_a_file_has(self):
        cell = mag.read(FILE)
        self.assertEqual((cell.tech, cell.scale), ("scmos", (1, 2)))
        self.assertEqual(cell.sections, {"ndiff": [(0, 0, 2, 4), (8, 0, 9, 4)], "error_p": [(1, 1, 2, 2)]})
        self.assertEqual(list(cell.layers), ["ndiff"])
        (use,) = cell.uses
        self.assertEqual((use.name, use.line, use.path), ("cell", 8, "../other"))
        self.assertEqual((use.transform, use.array), ((0, 1, 5, -1, 0, 6), (0, 3, 10, 0, 0, 0)))

    def test_what_is_written_is_read(self):
        file = io.StringIO()
        sections = [("error_p", [(1, 0, 2, 10)]), ("poly", [(0, 0, 1, 10)])]
        mag.write(file, "scmos", sections)
        cell = mag.read(file.getvalue())
        self.assertEqual((cell.tech, list(cell.sections.items())), ("scmos", sections))

    def test_faults(self):
        for text, fault in (
            ("", "the first line isn't `magic`"),
            ("\x7fELF", "the first line isn't `magic`"),
            ("magic\nrect 0 0 1 1\n", "line 2: a rectangle outside sections"),
            ("magic\n<< p >>\nrect 0 0 1 x\n", "line 3: not 4 whole numbers behind `rect`"),
            ("magic\n<< p >>\nrect 0 0 1\n", "line 3: not 4 whole numbers behind `rect`"),
            ("magic\n<< p >>\nrect 0 0 0 1\n", "line 3: a rectangle without a square"),
            ("magic\n<< p >>\ntri 0 0 1 1 s\n", "line 3: a triangle"),
            ("magic\n<< p >>\nwire 0 0 1 1\n", "line 3: no line of a layer: wire 0 0 1 1"),
            ("magic\n<< p\n", "line 2: no section: << p"),
            ("magic\nmagscale 1 0\n", "line 2: a scale that isn't positive"),
            ("magic\n<< p >>\nuse a a_0\n<< end >>\n", "line 3: a use of a without a transform"),
            ("magic\n<< p >>\nrect 0 0 1 1\n", "the file ends without `<< end >>`"),
        ):
            with self.assertRaises(mag.MagFault, msg=text) as caught:
                mag.read(text)
            self.assertEqual(str(caught.exception), fault)


def random_rect(dice):
    left, bottom = dice.randrange(12), dice.randrange(12)
    return left, bottom, left + dice.randrange(1, 6), bottom + dice.randrange(1, 6)


class Rectangles(unittest.TestCase):
    def test_as_squares(self):
        dice = random.Random(1)
        for _ in range(800):
            found = []
            for _ in range(dice.randrange(1, 14)):
                found.append(random_rect(dice))
            together = squares(found)
            self.assertEqual(rects.strips(found), strips_of(together), found)
            entries = [(rect, place) for place, rect in enumerate(found)]
            pairs = [{one[1], other[1]} for one, other in rects.overlapping(entries)]
            told = [{one, other} for other in range(len(found)) for one in range(other) if squares([found[one]]) & squares([found[other]])]
            self.assertEqual(sorted(map(sorted, pairs)), sorted(map(sorted, told)), found)
            left = rects.outside(found[0], found[1:])
            self.assertEqual((squares(left), rects.squares(left)), (squares(found[:1]) - squares(found[1:]), len(squares(left))))
            one, other = found[0], found[-1]
            self.assertEqual(rects.meet(one, other), bool(squares([one]) & squares([other])))
            if rects.meet(one, other):
                self.assertEqual(squares([rects.common(one, other)]), squares([one]) & squares([other]))
                left = rects.without(one, other)
                self.assertEqual(squares(left), squares([one]) - squares([other]))
                self.assertEqual(rects.squares(left), len(squares(left)))

    def test_a_layout_that_is_replaced_in_part(self):
        """A layer has the strips of its squares, whatever its parts were replaced by."""
        dice, layout, told = random.Random(1), Layout(), set()
        for _ in range(400):
            box, *rest = (random_rect(dice) for _ in range(dice.randrange(1, 5)))
            inside, before = rects.clipped(rest, box), layout.rects()
            now = told - squares([box]) | squares(inside)
            self.assertEqual(layout.keep_layer("m", box, inside), now != told)
            self.assertEqual(layout.strips("m"), strips_of(now))
            changed = differing(missing(before, layout.rects()), missing(layout.rects(), before))
            self.assertEqual(squares(changed), now ^ told)
            self.assertLessEqual(now ^ told, squares(boxes_round(changed)))
            look, told = random_rect(dice), now
            self.assertEqual(layout.within(look).get("m", []), strips_of(told & squares([look])))
