"""Processes compiled from the technologies of Debian's packages: each group is a file that magicd takes."""

import glob
import pathlib
import resource
import subprocess
import tempfile
import unittest

from tests.serving import HERE, SERVER

from kolasieve.areas import Area, small_pieces
from kolasieve.groups import PLANES, RULES, TYPES
from kolasieve.process import Process, ProcessFault

COMMAND = str(HERE.parent / "process")

# How many groups each technology has at least, and how many were found.
TECHNOLOGIES = {
    "scmos": (2, 2),
    "scmosWR": (2, 2),
    "scmos-sub": (2, 2),
    "scmos-tm": (2, 2),
    "/usr/share/qflow/tech/osu050/SCN3ME_SUBM.30": (6, 6),
    "/usr/share/qflow/tech/osu035/SCN4M_SUBM.20": (6, 6),
    "/usr/share/qflow/tech/osu018/SCN6M_SUBM.10": (8, 9),
}


def is_there(technology):
    return bool(glob.glob(f"/usr/lib/*/magic/sys/{technology}.tech") or glob.glob(f"{technology}.tech"))


def compiled(technology, folder, *words, limit=None):
    """Compiles with files of at most so many kilobytes, and returns how that ended."""
    command = [COMMAND, "compile", technology, "-o", str(folder), *words]
    if limit is not None:
        command = ["/bin/bash", "-c", f'ulimit -f {limit}; exec "$@"', "bash", *command]
    return subprocess.run(command, capture_output=True, text=True)


def processor_time():
    """Returns how many seconds of a processor the ended children of this process have used."""
    used = resource.getrusage(resource.RUSAGE_CHILDREN)
    return used.ru_utime + used.ru_stime


class Folder(unittest.TestCase):
    def setUp(self):
        folder = tempfile.TemporaryDirectory()
        self.addCleanup(folder.cleanup)
        self.folder = pathlib.Path(folder.name)


class RealTechnologies(Folder):
    def test_groups_of_each(self):
        for technology, (least, found) in TECHNOLOGIES.items():
            with self.subTest(technology):
                if not is_there(technology):
                    self.skipTest(f"{technology}.tech isn't installed")
                before = processor_time()
                ended = compiled(technology, self.folder / "out")
                self.assertEqual(ended.returncode, 0, ended.stderr)
                # At most 1.2 where this was written, on a quiet machine.
                self.assertLess(processor_time() - before, 6)
                process = Process.load(self.folder / "out")
                self.assertEqual((process.bound, len(process.groups)), (least, found))
                for group in process.groups:
                    sizes = (len(group.planes), len(group.types), len(group.rules))
                    self.assertTrue(all(size <= most for size, most in zip(sizes, (PLANES, TYPES, RULES))), sizes)
                    command = [SERVER, "--tech", str(group.path)]
                    taken = subprocess.run(command, input="", capture_output=True, text=True)
                    self.assertEqual((taken.returncode, taken.stderr), (0, ""))
                self.assertEqual(len(list(pathlib.Path(process.folder).glob("g*.tech"))), found)

    def test_images_are_types_of_their_groups(self):
        if not is_there("scmos"):
            self.skipTest("magic isn't installed")
        compiled("scmos", self.folder)
        process = Process.load(self.folder)
        contact = process.layer("ndc")
        self.assertEqual((contact.name, contact.planes), ("ndcontact", ("active", "metal1")))
        self.assertEqual({image.name for image in contact.images if image.plane == "metal1"}, {"ndcontact@metal1"})
        for place, group in enumerate(process.groups):
            images = [image for layer in process.layers for image in layer.images if image.group == place]
            self.assertEqual({image.type: image.plane for image in images}, group.types)
            erase = f"a erase {','.join(group.types)}"
            self.assertLess(len(erase), 1024)
            lines = ["%open a", "a box 0 0 9 9", *(f"a paint {each}" for each in group.types), erase]
            ended = subprocess.run(
                [SERVER, "--tech", str(group.path)], input="\n".join(lines) + "\n", capture_output=True, text=True
            )
            self.assertEqual(set(ended.stdout.splitlines()[1:]), {"a ok"})


class Loading(Folder):
    def test_a_folder_that_isnt_compiled(self):
        with self.assertRaisesRegex(ProcessFault, "groups.json: No such file or directory"):
            Process.load(self.folder)
        (self.folder / "groups.json").write_text("{}")
        with self.assertRaisesRegex(ProcessFault, "it is no compiled process"):
            Process.load(self.folder)


class Areas(unittest.TestCase):
    def pieces(self, squares, *rects):
        return small_pieces(Area(1, "area", "metal1", squares, ("m1",)), {"m1": list(rects)})

    def test_both_sides_of_the_limit(self):
        self.assertEqual(self.pieces(20, (0, 0, 4, 5)), [])
        self.assertEqual(self.pieces(21, (0, 0, 4, 5)), [[(0, 0, 4, 5)]])

    def test_overlaps_count_once(self):
        self.assertEqual(self.pieces(20, (0, 0, 4, 5), (0, 0, 4, 5)), [])
        self.assertEqual(self.pieces(21, (0, 0, 4, 3), (0, 2, 4, 5)), [[(0, 0, 4, 5)]])

    def test_pieces_are_connected_along_sides_and_not_by_corners(self):
        self.assertEqual(len(self.pieces(9, (0, 0, 2, 4), (2, 4, 4, 8))), 2)
        self.assertEqual(self.pieces(9, (0, 0, 2, 4), (1, 4, 4, 8)), [])
        self.assertEqual(self.pieces(9, (0, 0, 2, 4), (2, 1, 4, 8)), [])
        self.assertEqual(self.pieces(9, (0, 4, 9, 5), (0, 5, 1, 9), (8, 5, 9, 9), (3, 0, 4, 4)), [])


if __name__ == "__main__":
    unittest.main()
