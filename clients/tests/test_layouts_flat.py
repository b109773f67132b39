"""Cells with uses of others, flattened as Magic flattens them."""

import pathlib
import random
import tempfile
import unittest

from tests.magics import (
    compiled, copy_cells, flattened_by_magic, needs_cells, needs_magic, violations_by_magic, write_cell,
)

from kolasieve import mag, overlaps, rects
from kolasieve.flat import Flat, flattened
from kolasieve.hierarchy import AS_IT_IS, LayoutFault, Library

TURNS = [(1, 0, 0, 1), (0, 1, -1, 0), (-1, 0, 0, -1), (0, -1, 1, 0)]
TURNS += [(-1, 0, 0, 1), (1, 0, 0, -1), (0, 1, 1, 0), (0, -1, -1, 0)]

# Types that swallow metal of a contact. Magic leaves planes that disagree, and the next save loses the type.
SWALLOWING = {"genericcontact", "pad"}


def layers_of(process, path):
    """Returns the strips of each layer of a flat file."""
    layers = mag.read(pathlib.Path(path).read_text(encoding="latin-1")).layers
    return {process.layer(name).name: rects.strips(found) for name, found in layers.items()}


class Folder(unittest.TestCase):
    def setUp(self):
        folder = tempfile.TemporaryDirectory()
        self.addCleanup(folder.cleanup)
        self.folder = pathlib.Path(folder.name)
        self.process = compiled("scmos")

    def flat(self, name, **words):
        path = str(self.folder / f"{name}.mag")
        return flattened(Library(self.process, path, **words))

    def compare(self, names):
        for name, path in flattened_by_magic(self.folder, names).items():
            with self.subTest(name):
                self.assertEqual(self.flat(name), layers_of(self.process, path))


@needs_cells
class CellsOfThePackage(Folder):
    def test_as_flattened_by_magic(self):
        names = copy_cells(self.folder)
        self.assertEqual(len(names), 52)
        self.compare(names)


@needs_magic
class RandomCells(Folder):
    def random_cell(self, name, dice, types, used=()):
        """Writes a cell with a few rectangles of these types, and uses of others, turned, mirrored and as arrays."""
        sections, uses = {}, []
        for _ in range(dice.randrange(1, 7)):
            left, bottom = dice.randrange(24), dice.randrange(24)
            rect = (left, bottom, left + dice.randrange(1, 9), bottom + dice.randrange(1, 9))
            sections.setdefault(dice.choice(types), []).append(rect)
        for _ in range(dice.randrange(1, 4) if used else 0):
            cell, (a, b, d, e) = dice.choice(used), dice.choice(TURNS)
            array = (dice.choice([0, 2, -1]), dice.randrange(4), dice.choice([30, -40, 7]))
            array += (0, dice.choice([0, 2]), dice.choice([33, -9]))
            placed = (a, b, dice.randrange(-60, 60), d, e, dice.randrange(-60, 60))
            uses.append((cell, placed, self.bounds[cell], *([array] if dice.random() < 0.5 else [])))
        order = [layer.name for layer in self.process.layers]
        path = write_cell(self.folder, name, sorted(sections.items(), key=lambda each: order.index(each[0])), uses)
        self.bounds[name] = Library(self.process, path).top.bounds

    def test_turned_mirrored_and_in_arrays(self):
        self.bounds = {}
        types = [layer.name for layer in self.process.layers if not layer.parts and layer.name not in SWALLOWING]
        for seed in range(40):
            dice = random.Random(seed)
            chosen = [dice.choice(types)]
            self.random_cell(f"a{seed}", dice, chosen)
            self.random_cell(f"b{seed}", dice, chosen)
            self.random_cell(f"middle{seed}", dice, chosen, [f"a{seed}", f"b{seed}"])
            self.random_cell(f"top{seed}", dice, chosen, [f"a{seed}", f"middle{seed}"])
        self.compare([f"top{seed}" for seed in range(40)])

    def test_each_type_over_each_other(self):
        types = [layer.name for layer in self.process.layers if not layer.parts and layer.name not in SWALLOWING]
        places = range(len(types))
        under = [(name, [(20 * x, 20 * y, 20 * x + 8, 20 * y + 8) for x in places]) for y, name in enumerate(types)]
        moved = [(name, 20 * x + 4) for x, name in enumerate(types)]
        over = [(name, [(left, 20 * y + 4, left + 8, 20 * y + 12) for y in places]) for name, left in moved]
        write_cell(self.folder, "over", over)
        write_cell(self.folder, "both", under, [("over", AS_IT_IS, (0, 0, 20 * len(types), 20 * len(types)))])
        self.compare(["both"])


@needs_magic
class RulesBetweenCells(Folder):
    # Where the second of two cells lies, and which rule is broken for a contact and for a transistor of 4 by 4 squares.
    PLACES = {
        (0, 0): (None, overlaps.NONE), (2, 0): (overlaps.EXACT, overlaps.NONE), (4, 0): (overlaps.EXACT, None),
        (4, 2): (overlaps.EXACT, None), (4, 4): (overlaps.EXACT, None), (5, 0): (None, None),
    }

    def between_cells(self, path):
        """Returns what rules between cells forbid in a layout."""
        rules, library = overlaps.OverlapRules(self.process), Library(self.process, path)
        return rules.violations(Flat(library, rules.watched).within(library.top.bounds)[1])

    def test_as_in_magic(self):
        paths = {}
        for layer, which in (("polycontact", 0), ("ntransistor", 1)):
            write_cell(self.folder, layer, [(layer, [(0, 0, 4, 4)])])
            for (x, y), broken in self.PLACES.items():
                uses = [(layer, AS_IT_IS, (0, 0, 4, 4)), (layer, (1, 0, x, 0, 1, y), (0, 0, 4, 4))]
                paths[write_cell(self.folder, f"{layer}_{x}_{y}", (), uses)] = broken[which]
                moved = (layer, [(x, y, x + 4, y + 4)])
                paths[write_cell(self.folder, f"own_{layer}_{x}_{y}", [moved], uses[:1])] = broken[which]
        by_magic = violations_by_magic(self.folder, list(paths))
        for path, broken in paths.items():
            with self.subTest(path):
                found = self.between_cells(path)
                self.assertEqual(list(found), [broken] if broken else [])
                self.assertEqual({overlaps.EXACT, overlaps.NONE} & set(by_magic[path]), set(found))
                for boxes in (by_magic[path][text] for text in found):
                    self.assertTrue(all(any(rects.meet(box, strip) for strip in found[broken]) for box in boxes))

    def test_the_same_shape_in_two_cells(self):
        shape = [(0, 0, 8, 4), (0, 4, 4, 8)]
        write_cell(self.folder, "bend", [("polycontact", shape)])
        path = write_cell(self.folder, "twice", (), [("bend", AS_IT_IS, (0, 0, 8, 8))] * 2)
        self.assertEqual(self.between_cells(path), {})


class Faults(Folder):
    def test_each_has_its_message(self):
        used = (AS_IT_IS, (0, 0, 1, 1))
        write_cell(self.folder, "itself", (), [("other", *used)])
        write_cell(self.folder, "other", (), [("itself", *used)])
        write_cell(self.folder, "missing", (), [("nowhere", *used)])
        write_cell(self.folder, "slanted", (), [("good", (1, 1, 0, 0, 1, 0), (0, 0, 1, 1))])
        write_cell(self.folder, "good", [("poly", [(0, 0, 1, 1)])])
        write_cell(self.folder, "strange", [("gold", [(0, 0, 1, 1)])])
        write_cell(self.folder, "foreign", technology="nmos")
        write_cell(self.folder, "far", [("poly", [(0, 0, 1 << 31, 1)])])
        write_cell(self.folder, "moved", (), [("good", (1, 0, 1 << 31, 0, 1, 0), (0, 0, 1, 1))])
        write_cell(self.folder, "fine", [("poly", [(0, 0, 1, 1 << 30)])], [("third", *used)])
        third = pathlib.Path(write_cell(self.folder, "third", [("poly", [(0, 0, 1, 1)])]))
        third.write_text(third.read_text().replace("timestamp 1", "magscale 1 3"))
        (self.folder / "cut.mag").write_text("magic\ntech scmos\n<< poly >>\nrect 0 0 1 1\nrect 0")
        for name, fault in (
            ("itself", "itself.mag: the cell uses itself"),
            ("missing", "missing.mag: line 4: there is no cell nowhere"),
            ("slanted", "slanted.mag: line 4: no transform: 1 1 0 0 1 0"),
            ("strange", "strange.mag: there is no layer gold"),
            ("foreign", "foreign.mag: the technology is nmos, and not scmos"),
            ("far", "far.mag: the layout reaches farther than numbers of 31 bits"),
            ("moved", "moved.mag: the layout reaches farther than numbers of 31 bits"),
            ("fine", "fine.mag: the layout reaches farther than numbers of 31 bits"),
            ("cut", "cut.mag: line 5: not 4 whole numbers behind `rect`"),
            ("absent", "absent.mag: No such file or directory"),
        ):
            with self.subTest(name), self.assertRaises(LayoutFault) as caught:
                self.flat(name)
            self.assertEqual(str(caught.exception).removeprefix(f"{self.folder}/"), fault)

    def test_scales(self):
        used = (1, 0, 9, 0, 1, 0), (0, 0, 3, 6)
        for part, top, grid, found in (
            ("1 1", "1 1", 1, [(9, 0, 12, 6)]),
            ("1 3", "1 1", 1, [(9, 0, 10, 2)]),
            ("1 2", "1 1", 2, [(18, 0, 21, 6)]),
            ("1 1", "1 2", 2, [(9, 0, 15, 12)]),
            ("2 1", "1 3", 1, [(3, 0, 9, 12)]),
            ("2 4", "1 3", 2, [(6, 0, 9, 6)]),
        ):
            with self.subTest((part, top)):
                parts = pathlib.Path(write_cell(self.folder, "part", [("poly", [(0, 0, 3, 6)])]))
                path = pathlib.Path(write_cell(self.folder, "top", (), [("part", *used)]))
                for file, scale in ((parts, part), (path, top)):
                    file.write_text(file.read_text().replace("timestamp 1", f"magscale {scale}", 1))
                library = Library(self.process, str(path))
                self.assertEqual((library.grid, flattened(library)), (grid, {"polysilicon": found}))

    def test_where_used_cells_are_looked_for(self):
        other = self.folder / "library"
        other.mkdir()
        write_cell(other, "part", [("poly", [(0, 0, 1, 1)])])
        write_cell(self.folder, "top", (), [("part", (1, 0, 5, 0, 1, 0), (0, 0, 1, 1))])
        self.assertEqual(self.flat("top", folders=[str(other)]), {"polysilicon": [(5, 0, 6, 1)]})
        text = (self.folder / "top.mag").read_text().replace("part_0", "part_0 library")
        (self.folder / "top.mag").write_text(text)
        self.assertEqual(self.flat("top"), {"polysilicon": [(5, 0, 6, 1)]})
