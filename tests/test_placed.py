"""A layout in which cells are placed, beside one into which the same cells are dumped: random lines of two sessions.

What is dumped lies over what was painted before, and what is placed lies under it. So own paint keeps away from the
cells until all of them are there, and then goes over them.
"""

import random
import unittest

from tests.serving import CELL, replies_to, serve

FILES = {
    "c.mag": CELL,
    "m.mag": "magic\n<< ndiff >>\nrect 0 0 3 2\nrect 5 1 6 7\n<< m1 >>\nrect 2 2 8 4\n<< end >>\n",
    "t.mag": "magic\n<< poly >>\nrect 0 3 9 5\nrect 3 0 5 9\n<< end >>\n",
}

WORDS = ["--quota", "4096", "c=c.mag", "m=m.mag", "t=t.mag"]

# How many rounds there are while cells come, and how many after that.
ROUNDS = 240


def box(dice, first):
    """Returns a box of at most 9 by 9 squares, between this line and the 46th to its right."""
    left, bottom = first + dice.randrange(38), dice.randrange(38)
    return f"box {left} {bottom} {left + dice.randrange(1, 10)} {bottom + dice.randrange(1, 10)}"


def question(dice):
    asked = dice.choice([["drc catchup", "drc count"], ["drc why"], ["drc why"], ["what"], ["what"]])
    return [box(dice, 1 - dice.randrange(48)), *asked]


def paint(dice, first):
    return [box(dice, first), dice.choice(["paint ndiff", "paint m1", "paint poly", "paint poly"])]


def apart(dice):
    """Returns a round of the first part: a cell, own paint to the left of all cells, an erase there, or a question."""
    number = dice.randrange(8)
    if number < 3:
        return [f"getcell {dice.choice('cmt')} {dice.randrange(38)} {dice.randrange(38)}"]
    if number < 5:
        return paint(dice, -46)
    return [box(dice, -46), "erase poly,m1"] if number == 5 else question(dice)


def over(dice):
    """Returns a round of the second part: own paint over the cells, or a question."""
    return paint(dice, -4) if dice.randrange(3) else question(dice)


class Placed(unittest.TestCase):
    def test_placed_cells_have_the_replies_of_dumped_ones(self):
        dice = random.Random(3)
        rounds = [apart(dice) for _ in range(ROUNDS)] + [over(dice) for _ in range(ROUNDS)]
        rounds.append(["box -1048576 -1048576 1048576 1048576", "drc why", "drc catchup", "drc count", "what"])
        script = "%open p\n%open d\n"
        for line in (line for lines in rounds for line in lines):
            script += f"p {line}\nd {line.replace('getcell', 'dump')}\n"
        for workers in ("0", "2"):
            ending = serve([*WORDS, "--workers", workers], script, FILES)
            self.assertEqual((ending.messages, ending.status), ("", 0))
            placed, dumped = ([reply[1:] for reply in replies_to(name, ending.output)] for name in "pd")
            self.assertEqual(placed, dumped)
            self.assertRegex("".join(dumped[-2:]), r"^ count \d+ errors 0 pending what 3 poly ndiff m1$")
            self.assertNotIn(" refused", "".join(dumped))
