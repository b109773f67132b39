"""Scripts whose replies are those of a session that goes square by square, by the definitions."""

import random

from tests.model import ModelCase
from tests.squares import WORLD, Window

CELLS = {
    "c": [("poly", (0, 0, 2, 4)), ("m1", (1, 0, 4, 3))],
    "e": [],
    "d": [("ndiff", (0, 0, 3, 2)), ("poly", (2, 1, 6, 3)), ("m1", (-2, -1, 1, 2)), ("ndiff", (5, 1, 6, 2))],
}

# How many random scripts there are, and the middles of them: corners of the world, borders, and places in it.
SCRIPTS = 360
MIDDLES = [(x, y) for x in (-WORLD, WORLD) for y in (-WORLD, WORLD)]
MIDDLES += [(0, 0), (32768, -32768), (500, WORLD), (-WORLD, 7)]

# How the program is run, in turn.
WAYS = [], ["--workers", "2"], ["--live", "--workers", "2"]

# Lines whose replies depend on check steps.
STEPPED = ["%marks a", "%errors a {}", "a drc count", "%step a\na drc count", "%steps a 3\na drc count"]

WHOLE = f"a box {-WORLD} {-WORLD} {WORLD} {WORLD}"


def box(dice, x, y):
    """Returns a box of at most 12 by 12 squares, seldom one without squares."""
    left, bottom = x + dice.randrange(-14, 14), y + dice.randrange(-14, 14)
    return f"{left} {bottom} {left + dice.randrange(13)} {bottom + dice.randrange(1, 13)}"


def round_middle(x, y, far):
    """Returns the box in the world that is so far round a point."""
    return "a box {} {} {} {}".format(*(min(max(at, -WORLD), WORLD) for at in (x - far, y - far, x + far, y + far)))


def random_lines(dice, x, y, is_plain):
    """Returns a line, or several. One that sets a box of several pieces sets a small one again.

    Only a plain script has lines whose replies depend on check steps.
    """
    boxed, large, small = f"a box {box(dice, x, y)}\n", round_middle(x, y, dice.randrange(400)), round_middle(x, y, 3)
    kind, cell = dice.choice(["poly", "p", "ndiff", "m1", "m1", "space", "gold"]), dice.choice("ccddef")
    moves = f"{x + dice.randrange(-14, 14)} {y + dice.randrange(-14, 14)}"
    return dice.choice([
        *[boxed.strip()] * 3, *[f"{boxed}a paint {kind}"] * 8, f"a paint {kind}", f"{boxed}a erase {kind},m1",
        "a erase poly", f"a dump {cell} {moves}", f"a getcell {cell} {moves}", f"{boxed}a drc check", f"{boxed}a what",
        *[f"{large}\na {command}\n{small}" for command in ("what", "drc why", "drc check")], "a what", "a drc why",
        f"%why a {box(dice, x, y)}", f"%violations a {box(dice, x, y)}", "a save", "%save a", "%uses a", "%audit a", "a drc catchup\na drc count",
        "a drc catchup\n%marks a", f"a drc catchup\n%errors a {box(dice, x, y)}",
        *(line.format(box(dice, x, y)) for line in STEPPED if is_plain),
    ]).split("\n")


class Squares(ModelCase):
    def test_random_scripts(self):
        for number in range(SCRIPTS):
            dice, (x, y), words = random.Random(number), MIDDLES[number % len(MIDDLES)], WAYS[number % len(WAYS)]
            lines = ["%open a"]
            while len(lines) < 40:
                lines += random_lines(dice, x, y, not words)
            lines += [WHOLE, "a what", "a drc why", "a drc catchup", "a drc count", "%marks a", "a save"]
            self.expect_model(words, lines, Window(x - 48, y - 48, 96), CELLS)

    def test_more_than_64_areas(self):
        counted, stepped = ["a drc count", "a paint poly", "a drc count"], ["a drc count", "%step a", "a drc count"]
        for sides, line, asked in (
            ("0 0 2 2", "a paint poly", [*counted, "a drc catchup", "a drc count"]),
            ("0 0 2 2", "a paint poly", [*counted, "%step a", "%step a", "a drc count"]),
            # A step leaves 65 areas; one more makes them one area, of four pieces.
            ("0 0 300 300", "a drc check", [*stepped, "a box 1 1 2 2", "a drc check", *stepped * 5]),
        ):
            replies = self.expect_model([], ["%open a", f"a box {sides}", *[line] * 64, *asked], Window(-9, -9, 99))
            self.assertIn("a count 0 errors 1 pending", replies[66:])
            self.assertEqual("a count 0 errors 65 pending" in replies, line == "a drc check")

    def test_as_many_uses_as_there_may_be(self):
        first = ["%open a", *["a getcell c 0 0"] * 256]
        more = [f"a getcell {words}" for words in ("c 0 0", "f 0 0", "c 1048573 0", "e 0 0")]
        asked = [WHOLE, "a what", "a drc why", "a drc catchup", "a drc count", "a save", "%audit a", "%uses a"]
        stepped = ["a drc count", "%step a", "a drc count", "a getcell c 0 0", "%step a", "a drc count"]
        for workers, lines in (("0", more + asked), ("2", more + asked), ("0", more[:1] + stepped)):
            replies = self.expect_model(["--workers", workers], first + lines, Window(-9, -9, 99), CELLS)
            self.assertEqual(replies[257], "a refused 10 too many uses")
