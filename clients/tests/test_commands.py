"""The commands of README.md, OPERATING.md, CLIENTS.md and PROCESS.md that start clients do what the pages show."""

import lzma
import os
import re
import shutil
import unittest
import xml.etree.ElementTree

from tests.magics import copy_cells, needs_cells, needs_magic
from tests.serving import GENEROUS, ROOT, alone
from tests.typed import TypedCase, blocks, given, rows

BAR = ["%open ben", "ben box 0 0 4 9", "ben paint poly", "%save ben"]


def saved_text():
    """Returns the text of a bar."""
    return alone(BAR)[-1].split("\n", 1)[1] + "\n"


class Commands(TypedCase):
    def test_help(self):
        programs = [each for each in (ROOT / "clients").iterdir() if each.is_file() and os.access(each, os.X_OK)]
        self.assertGreater(len(programs), 5)
        for program in programs:
            said, status = self.ended(f"{program} --help")
            self.assertEqual(status, 0, said)
            self.assertIn(program.name, said)
            self.assertNotIn("%%", said)

    def test_forms_of_commands(self):
        """The options that a page has in the form of a command are those of its program."""
        forms = [*given(self, "docs/CLIENTS.md"), *given(self, "docs/PROCESS.md")]
        self.assertEqual(len(forms), 2)
        for form in forms:
            said, _ = self.ended(re.match(r"clients/\w+( [a-z]+)?", form)[0] + " --help")
            for option in re.findall(r"--[\w-]+", form):
                self.assertRegex(said, rf"{option}\b")

    def test_relay_and_talk(self):
        relay, talk = map(self.here, given(self, "README.md"))
        started = self.start_relay(relay.partition(" --server")[0])
        lines = "%open ben\nben box 0 0 4 9\nben paint poly\n"
        self.assertEqual(self.ended(talk, lines), ("ben opened\nben ok\nben ok\n", 0))
        self.assertIn("ben opened", (ROOT / "README.md").read_text())
        said, status = self.ended(talk, "@resume ben\n@undo ben 2\n")
        self.assertEqual((said, status), ("ben resumed 2\nben undone 2: ben paint poly\n", 0))
        self.assertTrue((self.home / "day.log").is_file())
        self.assertEqual(sorted(os.listdir(self.top)), ["bench", "clients", "examples"])
        started.terminate()
        self.assertEqual(started.wait(GENEROUS), 0)

    def test_a_day(self):
        asking, relay, talk, view = given(self, "docs/CLIENTS.md")
        days = [each for each in blocks("docs/CLIENTS.md") if re.match(r"%open ben {3}|@sessions {3}", each)]
        self.assertEqual(len(days), 2)
        for day in days:
            started = self.start_relay(relay)
            lines, replies = rows(day)
            self.assertEqual(self.ended(self.here(talk), lines), (replies, 0))
            started.terminate()
            self.assertEqual(started.wait(GENEROUS), 0)
        if shutil.which("sqlite3"):
            said, status = self.ended(asking)
            wanted = ["1|ben box 0 0 1 10|ben ok", "2|ben paint poly|ben ok"]
            self.assertEqual(([each for each in said.splitlines() if each][:2], status), (wanted, 0))
        (self.top / "ben.mag").write_text(saved_text())
        self.assertEqual(self.ended(view), ("", 0))
        xml.etree.ElementTree.parse(self.top / "ben.svg")

    @needs_magic
    def test_process(self):
        compile_it, check_it = map(self.here, given(self, "README.md"))
        self.assertEqual(self.ended(compile_it)[1], 0)
        cell, report = re.search(r"(\S+\.mag) -o ~/(\S+)", check_it).groups()
        if os.path.exists(cell):
            said, status = self.ended(check_it)
            self.assertIn(status, (0, 1), said)
            self.assertTrue((self.home / report).is_file())
        check_it = check_it.replace(cell, "CELL.mag")
        inverters = lzma.decompress((ROOT / "bench/layouts/inverters.mag.xz").read_bytes()).decode()
        narrow = inverters.replace("<< end >>", "<< metal1 >>\nrect 0 -100 2 -50\n<< end >>")
        for text, wanted in ((inverters, 0), (narrow, 1)):
            (self.top / "CELL.mag").write_text(text)
            said, status = self.ended(check_it)
            self.assertEqual(status, wanted, said)
        self.assertIn("First-level metal width must be at least 3", said)

    @needs_cells
    def test_check_of_a_cell(self):
        copy_cells(self.top)
        typed = given(self, "docs/PROCESS.md")
        for command in typed:
            (block,) = [each for each in blocks("docs/PROCESS.md") if f"$ {command}\n" in each]
            shown = block.partition(f"$ {command}\n")[2]
            said, status = self.ended(self.here(command))
            self.assertEqual((said, status), (shown, int("forbid" in shown)))
        self.assertEqual(len(typed), 2)
        self.assertTrue((self.top / "tut11a.lyrdb").is_file())

    @unittest.skipUnless(shutil.which("magic"), "magic isn't installed")
    def test_saved_text_in_magic(self):
        (without,) = given(self, "docs/OPERATING.md")
        (self.top / "ben.mag").write_text(saved_text())
        said, status = self.ended(without)
        self.assertRegex(said, r"(?m)^poly ")


if __name__ == "__main__":
    unittest.main()
