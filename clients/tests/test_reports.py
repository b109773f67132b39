"""Reports as other programs read them: KLayout's marker browser and Magic's feedback."""

import io
import json
import pathlib
import shutil
import subprocess
import tempfile
import unittest

from tests.magics import needs_magic, run_magic, write_cell

from kolasieve import mag
from kolasieve.report import WRITERS, Report, Violation

STRIPS = [(0, 0, 3, 9), (1048570, -5, 1048575, 9)]
STRANGE = 'less than < 2 & "x" {[a] \\'


def report(grid=1):
    violations = [Violation(STRANGE, STRIPS), Violation("can't abut", [(1, 1, 2, 2)], False)]
    layers = {"polysilicon": [(0, 0, 3, 9)]}
    marks = [(1048570, -5, 1048575, 9), (0, 0, 3, 9)]
    return Report("top.mag", "top", "scmos", 0.2, grid, layers, violations, marks, ["2 lines aren't exact"])


def written(write, made):
    file = io.StringIO()
    write(made, file)
    return file.getvalue()


class Reports(unittest.TestCase):
    def setUp(self):
        folder = tempfile.TemporaryDirectory()
        self.addCleanup(folder.cleanup)
        self.folder = pathlib.Path(folder.name)

    def test_text(self):
        self.assertEqual(written(Report.write_text, report()).splitlines(), [
            f"       97 squares      2 strips  {STRANGE}",
            "        1 squares      1 strips  can't abut (by the client)",
            "top.mag: scmos: 2 rules forbid 97 squares",
            "2 lines aren't exact",
        ])
        clean = Report("top.mag", "top", "scmos", 1, 1, {}, [], [])
        self.assertEqual(written(Report.write_text, clean), "top.mag: scmos: nothing is forbidden\n")

    def test_json(self):
        said = json.loads(written(Report.write_json, report()))
        self.assertEqual([rule["rule"] for rule in said["rules"]], [STRANGE, "can't abut"])
        strips = [[tuple(strip) for strip in rule["strips"]] for rule in said["rules"]]
        self.assertEqual(strips, [STRIPS, [(1, 1, 2, 2)]])
        self.assertEqual([rule["proved"] for rule in said["rules"]], [True, False])
        self.assertEqual([rule["count"] for rule in said["rules"]], [2, 1])
        self.assertEqual((said["squares"], said["cell"], said["micrometres"]), (97, "top", 0.2))

    def test_on_half_of_lambda(self):
        for write, found in (
            (Report.write_database, "<value>box: (0,0;0.3,0.9)</value>"),
            (Report.write_feedback, "box values 0.5l 0.5l 1l 1l\n"),
            (Report.write_cell, "magscale 1 2\n"),
        ):
            self.assertIn(found, written(write, report(2)))

    def test_cell_with_marks(self):
        sections = mag.read(written(Report.write_cell, report())).sections
        self.assertEqual(sections, {"error_p": report().marks, "polysilicon": [(0, 0, 3, 9)]})

    def test_first_strips_of_each_rule(self):
        made = report()
        made.most = 1
        said = json.loads(written(Report.write_json, made))
        self.assertEqual([len(rule["strips"]) for rule in said["rules"]], [1, 1])
        self.assertEqual([rule["count"] for rule in said["rules"]], [2, 1])
        self.assertEqual(written(Report.write_database, made).count("<item>"), 2)
        self.assertEqual(written(Report.write_feedback, made).count("feedback add"), 2)

    def test_a_file_is_whole_or_not_there(self):
        for ending in WRITERS:
            path = self.folder / f"out{ending}"
            path.write_text("as it was")
            broken = report()
            broken.violations.append(Violation("no strips", None))
            broken.marks = None
            with self.assertRaises(TypeError):
                broken.write(str(path))
            self.assertEqual(path.read_text(), "as it was")
            report().write(str(path))
            self.assertNotEqual(path.read_text(), "as it was")
            self.assertEqual([each.name for each in self.folder.iterdir()], [path.name])
            path.unlink()

    @unittest.skipUnless(shutil.which("klayout"), "klayout isn't installed")
    def test_klayout_opens_the_database(self):
        path = self.folder / "out.lyrdb"
        report().write(str(path))
        script = self.folder / "count.py"
        script.write_text(
            "import pya\n"
            "database = pya.ReportDatabase('')\n"
            f"database.load({str(path)!r})\n"
            "for category in database.each_category():\n"
            "    print('rule', category.num_items(), category.name())\n"
            "for item in database.each_item():\n"
            "    cell = database.cell_by_id(item.cell_id())\n"
            "    print('item', cell.name(), *(value.box() for value in item.each_value()))\n"
        )
        said = subprocess.run(
            ["klayout", "-b", "-r", str(script)], capture_output=True, text=True, check=True, timeout=120
        ).stdout.splitlines()
        self.assertEqual([line for line in said if line.startswith("rule")], [f"rule 2 {STRANGE}", "rule 1 can't abut"])
        self.assertEqual(
            [line for line in said if line.startswith("item")],
            ["item top (0,0;0.6,1.8)", "item top (209714,-1;209715,1.8)", "item top (0.2,0.2;0.4,0.4)"],
        )

    @needs_magic
    def test_magic_shows_the_feedback(self):
        write_cell(self.folder, "top", [("poly", [(0, 0, 3, 9)])])
        report().write(str(self.folder / "out.tcl"))
        said = run_magic(self.folder, [
            "load top -force", "source out.tcl", 'puts "count [feedback count]"', "box values 0 5 1 6",
            'puts "why [feedback why]"', "feedback find 2", 'puts "box [box values]"',
        ]).splitlines()
        self.assertIn("count 3", said)
        self.assertIn(STRANGE, said)
        self.assertIn("box 1048570 -5 1048575 9", said)
