"""Random cells of pairs of types at distances round each rule's: what Magic says of them, and what the groups say."""

import pathlib
import random
import tempfile
import unittest

from tests.magics import needs_magic
from tests.test_process import is_there
from tests.verdicts import as_saved, by_groups, by_magic

from kolasieve.compiling import Compiled
from kolasieve.edges import LESS, MORE
from kolasieve.process import Process
from kolasieve.rects import meet
from kolasieve.technology import SPACE


def random_cell(dice, technology, edge, sizes, others):
    """Returns a cell: types of a rule about its distance apart, and others. No two of a plane overlap."""
    distance, cell = edge.distance, []
    trigger = sorted(edge.one | edge.two - {SPACE})
    wrong = sorted(technology.seen(edge.check) - edge.fine)
    fine = sorted(edge.fine)

    def put(numbers, left, bottom, width, height):
        number = dice.choice([each for each in numbers if each != SPACE] or trigger)
        # A stack isn't painted, but its contacts.
        number = dice.choice(technology.types[number].parts or (number,))
        planes, rect = set(technology.planes_of(number)), (left, bottom, left + width, bottom + height)
        if number != SPACE and not any(planes & other_planes and meet(rect, other) for _, other_planes, other in cell):
            cell.append((number, planes, rect))

    width, height, wide, high = (dice.randint(*sizes(distance)) for _ in range(4))
    put(trigger, 0, 0, width, height)
    gap = dice.choice([0, 0, 1, distance - 1, distance, distance + 1])
    aside = dice.choice([0, -high // 2, height, height + distance - 1, height + distance, 1 - high - distance])
    beside = [(width + gap, aside), (-gap - wide, aside), (aside, height + gap), (aside, -gap - high)]
    put(wrong if dice.random() < 0.6 else fine, *dice.choice(beside), wide, high)
    for _ in range(dice.randint(0, others)):
        corner = (dice.randint(-distance - 3, width + distance), dice.randint(-distance - 3, height + distance))
        put(trigger + wrong + fine, *corner, *(dice.randint(*sizes(distance)) for _ in range(2)))
    layers = {}
    for number, _, rect in cell:
        layers.setdefault(technology.types[number].name, []).append(rect)
    return layers


def small(distance):
    return 1, distance + 3


def large(distance):
    return max(10, distance), max(14, distance + 3)


class Difference:
    """Random cells round each rule of a technology: rules that one side names and the other doesn't."""

    def __init__(self, word, dice, sizes, others, folder):
        compiled = Compiled.of(word)
        compiled.write(folder / "process")
        process, technology = Process.load(folder / "process"), compiled.technology
        cells = [random_cell(dice, technology, edge, sizes, others) for edge in compiled.rules.edges]
        cells = [cell for cell in cells if cell]
        theirs = by_magic(technology.path, cells, folder)
        ours = by_groups(process, as_saved(process, cells, folder))
        listed = {side: self.texts(compiled, side) for side in (LESS, MORE)}
        self.cells = len(cells)
        self.named = sum(map(len, theirs))
        # What isn't listed as not exact, with the cells.
        self.missing = [(each - us - listed[LESS], cell) for each, us, cell in zip(theirs, ours, cells)]
        self.missing = [(texts, cell) for texts, cell in self.missing if texts]
        # Beside other errors, Magic drops rules that they make needless.
        self.more = [(us - listed[MORE], cell) for each, us, cell in zip(theirs, ours, cells) if not each]
        self.more = [(texts, cell) for texts, cell in self.more if texts]

    @staticmethod
    def texts(compiled, side):
        lines = {remark.line for remark in compiled.rules.remarks if remark.side == side}
        return {word for line in lines for word in line.words if " " in word}


class Beside(unittest.TestCase):
    def check(self, word, seed, sizes, others):
        with self.subTest(f"{word}, {sizes.__name__}"), tempfile.TemporaryDirectory() as folder:
            if not is_there(word):
                self.skipTest(f"{word}.tech isn't installed")
            found = Difference(word, random.Random(seed), sizes, others, pathlib.Path(folder))
            self.assertEqual((found.missing, found.more), ([], []))
            self.assertGreater(found.cells, 100)
            self.assertGreater(found.named, found.cells // 2)


@needs_magic
class BesideMagic(Beside):
    def test_no_rule_is_missing_and_none_is_too_many(self):
        self.check("/usr/share/qflow/tech/osu035/SCN4M_SUBM.20", 4, small, 3)
        self.check("scmos", 5, large, 1)


if __name__ == "__main__":
    unittest.main()
