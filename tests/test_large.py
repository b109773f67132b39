"""Layouts with as many tiles, areas and rectangles as there may be."""

from tests.model import ModelCase
from tests.serving import serve
from tests.squares import WORLD, Window

GREATEST = ["--quota", "16384", "--journal", "65536"]

WHOLE = f"a box {-WORLD} {-WORLD} {WORLD} {WORLD}"

# How many rectangles are strewn: those of each plane make some 8,000 tiles.
STREWN = 4800


def numbers():
    """Yields numbers that look random (Park and Miller 1988)."""
    state = 2026
    while True:
        state = state * 16807 % 2147483647
        yield state


def strewn():
    """Returns lines that paint rectangles of 4 to 16 squares a side, by turns of poly and of metal."""
    dice, lines = numbers(), ["%open a"]
    for index in range(STREWN):
        left, bottom, width, height = (next(dice) % limit for limit in (1160, 1160, 13, 13))
        lines.append(f"a box {left} {bottom} {left + width + 4} {bottom + height + 4}")
        lines.append(f"a paint {('poly', 'm1')[index % 2]}")
    return lines


class Large(ModelCase):
    def test_strewn_rectangles_and_the_world(self):
        asked = ["a drc catchup", "a drc count", WHOLE, "a drc check", "a drc why", "a drc catchup", "a drc count"]
        replies = self.expect_model(GREATEST, [*strewn(), *asked, "%audit a"], Window(-10, -10, 1200))
        # A further program, which went square by square too, counted as many.
        self.assertEqual(replies[-2], "a count 6383 errors 0 pending")

    def test_all_pieces_of_the_world(self):
        boxes = ["a box 0 0 1 10", "a box 20 0 22 10", "a box 24 0 26 10"]
        painted = [line for box in boxes for line in (box, "a paint poly")]
        asked = [WHOLE, "a drc check", "a drc why", "a drc catchup", "a drc count"]
        replies = self.expect_model(GREATEST, ["%open a", *painted, *asked], Window(-10, -10, 50))
        self.assertEqual(replies[-1], "a count 30 errors 0 pending")

    def test_cell_of_60000_rectangles(self):
        # Together the squares are one rectangle. Each row goes from the right to the left.
        squares = (f"rect {x} {y} {x + 1} {y + 1}\n" for y in range(200) for x in reversed(range(300)))
        files = {"c.mag": "magic\n<< poly >>\n" + "".join(squares) + "<< end >>\n"}
        saved = "a opened\na ok\na saved 5\nmagic\ntech M\n<< poly >>\nrect 0 0 300 200\n<< end >>\n"
        self.assertEqual(serve(["c=c.mag"], "%open a\na dump c 0 0\na save\n", files), (saved, "", 0))

    def test_cell_of_20000_rectangles_over_each_other(self):
        over = "<< poly >>\nrect 0 0 2 2\nrect 1 0 2 1\n<< ndiff >>\nrect 0 1 1 2\nrect 0 0 1 1\n"
        files = {"c.mag": "magic\n" + over * 5000 + "<< end >>\n"}
        text = "magic\ntech M\n<< poly >>\nrect 1 0 2 2\n<< ndiff >>\nrect 0 0 1 2\n<< end >>\n"
        ending = serve(["c=c.mag"], "%open a\na dump c 0 0\na save\n", files)
        self.assertEqual(ending, ("a opened\na ok\na saved 7\n" + text, "", 0))

    def test_plane_of_thousands_of_tiles(self):
        # 40 rungs over the world, cut by 40 bars, each of which makes 81 tiles more.
        boxes = [f"{-WORLD} {low} {WORLD} {low + 2}\na paint poly" for low in range(0, 160, 4)]
        boxes += [f"{low} {-WORLD} {low + 2} {WORLD}\na paint ndiff" for low in range(0, 160, 4)]
        script = "\n".join(["%open a", *(f"a box {box}" for box in boxes), WHOLE, "a what", "a erase ndiff", "a what"])
        replies = "a opened\n" + "a ok\n" * 161 + "a what 2 poly ndiff\na ok\na what 1 poly\n"
        self.assertEqual(serve(["--quota", "16384"], script), (replies, "", 0))

    def test_look_at_63_types(self):
        names = [f"a_type_with_a_name_that_is_quite_long_{kind}" for kind in range(1, 64)]
        kinds = "".join(f"p{kind % 4} {name},t{kind}\n" for kind, name in enumerate(names, 1))
        files = {"m.tech": f"planes\np0\np1\np2\np3\nend\ntypes\n{kinds}end\n"}
        painted = "".join(f"a box {kind} 0 {kind}9 9\na paint t{kind}\n" for kind in range(1, 64))
        ending = serve(["--quota=16384", "--tech=m.tech"], f"%open a\n{painted}a box 0 0 1000 1000\na what\n", files)
        self.assertEqual(ending, ("a opened\n" + "a ok\n" * 127 + " ".join(["a what 63", *names]) + "\n", "", 0))
