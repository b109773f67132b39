"""Random cells of each group's types, at distances round each rule's: magicd marks what a second reading gives."""

import pathlib
import random
import re
import tempfile
import unittest

from tests.second_reading import Reading, Window
from tests.serving import alone
from tests.test_process import is_there

from kolasieve.compiling import Compiled
from kolasieve.process import Process

SIDE = 140


def near(dice, reading, rule):
    """Returns what is painted: two types of a rule's lists about its distance apart, and some others of its planes."""
    distance = rule.distance
    width, height = (dice.randint(1, distance + 3) for _ in range(2))
    left, bottom = (dice.randint(0, SIDE // 4) for _ in range(2))
    right, top = left + width, bottom + height
    gap = dice.choice([0, 1, distance - 1, distance, distance + 1])
    aside = dice.choice([bottom, bottom - height // 2, top + dice.choice([0, distance - 1, distance])])
    wide, high = (dice.randint(1, distance + 3) for _ in range(2))
    first = [name for name in sorted(rule.one | rule.two) if name != "space"]
    wrong = sorted(reading.on(rule.check) - rule.fine - {"space"})
    others = [name for plane in {rule.trigger, rule.check} for name in sorted(reading.on(plane) - {"space"})]
    painted = []
    for _ in range(dice.randint(0, 4)):
        painted.append((dice.choice(others), sides(*(dice.randint(0, SIDE // 3) for _ in range(2)), wide, high)))
    painted.append((dice.choice(first), (left, bottom, right, top)))
    painted.append((dice.choice(wrong or first), sides(right + gap, max(aside, 0), wide, high)))
    if dice.random() < 0.5:
        painted.append((dice.choice(first), sides(right, bottom, max(gap, 1), height)))
    if dice.random() < 0.5:
        painted = [(name, (low, near, high, far)) for name, (near, low, far, high) in painted]
    return painted


def sides(left, bottom, width, height):
    return left, bottom, min(left + width, SIDE), min(bottom + height, SIDE)


def marks(text):
    """Returns the rectangles of the marks that `%marks` writes."""
    found = re.search(r"<< error_p >>\n((?:rect .*\n)*)", text + "\n")
    return [tuple(map(int, line.split()[1:])) for line in found[1].splitlines()] if found else []


class Cells(unittest.TestCase):
    def check(self, group, cells):
        reading = Reading(group.text)
        window = Window(reading, SIDE)
        lines = []
        for painted in cells:
            lines += ["%open a"]
            for name, rect in painted:
                lines += [f"a box {' '.join(map(str, rect))}", f"a paint {name}"]
            lines += ["a drc catchup", "%marks a", "%close a"]
        replies = alone(lines, "--tech", str(group.path))
        self.assertEqual([reply for reply in replies if " refused " in reply], [])
        replies = [reply for reply in replies if reply.startswith("a marked ")]
        self.assertEqual(len(replies), len(cells))
        marked = 0
        for painted, reply in zip(cells, replies):
            expected = window.all_forbidden(window.layout(painted))
            found = 0
            for rect in marks(reply):
                found |= window.squares(*rect)
            self.assertEqual(found, expected, painted)
            marked += found != 0
        return marked

    def test_cells_round_each_rule(self):
        dice = random.Random(68)
        for technology in ("scmos", "/usr/share/qflow/tech/osu050/SCN3ME_SUBM.30"):
            if not is_there(technology):
                self.skipTest(f"{technology}.tech isn't installed")
            with tempfile.TemporaryDirectory() as folder:
                Compiled.of(technology).write(folder)
                for place, group in enumerate(Process.load(pathlib.Path(folder)).groups):
                    with self.subTest(f"{technology} g{place}"):
                        reading = Reading(group.text)
                        cells = [near(dice, reading, rule) for rule in reading.rules]
                        # Enough that are marked, and enough that aren't.
                        self.assertGreater(self.check(group, cells), len(cells) // 4)


if __name__ == "__main__":
    unittest.main()
