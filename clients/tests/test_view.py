"""The picture of a cell file, and what KLayout makes of the same text."""

import shutil
import subprocess
import tempfile
import unittest
import xml.etree.ElementTree

from tests.serving import HERE, alone

BAR = ["%open a", "a box 0 0 1 10", "a paint poly", "a drc catchup", "a box 20 0 30 10", "a paint m1", "%marks a"]


def marks():
    """Returns the text of a bar that is too narrow, with its marks, and with an area that awaits checking."""
    return alone(BAR)[-1].split("\n", 1)[1] + "\n"


class View(unittest.TestCase):
    def test_all_parts_are_drawn(self):
        out = subprocess.run([HERE.parent / "view", "-"], input=marks(), stdout=subprocess.PIPE, text=True, check=True).stdout
        tree = xml.etree.ElementTree.fromstring(out)
        spaces = {"s": "http://www.w3.org/2000/svg"}
        layout = tree.find("s:svg", spaces)
        groups = {each.get("data-layer") or each.get("class"): each for each in layout.findall("s:g", spaces)}
        boxes = {
            name: [tuple(int(one.get(key)) for key in ("x", "y", "width", "height")) for one in group]
            for name, group in groups.items()
        }
        self.assertEqual(boxes["poly"], [(0, -10, 1, 10)])
        self.assertEqual(boxes["m1"], [(20, -10, 10, 10)])
        self.assertEqual(boxes["marks"], [(1, -10, 1, 10)])
        self.assertEqual(boxes["unchecked"], [(16, -14, 18, 18)])
        legend = [each.text for each in tree.findall("s:text", spaces)]
        self.assertEqual(legend, ["poly", "m1", "marks (1 strips)", "unchecked (1 areas)", "5 squares"])

    def test_what_rules_forbid_is_listed(self):
        *_, errors, violations = alone([*BAR[:4], "%errors a 0 0 5 5", "%violations a 0 0 5 5"])
        with tempfile.NamedTemporaryFile(suffix=".txt") as file:
            file.write(f"{violations}\n".encode())
            file.flush()
            out = self.view(errors.split("\n", 1)[1] + "\n", "--violations", file.name).stdout
        legend = [each.text for each in xml.etree.ElementTree.fromstring(out).findall("{http://www.w3.org/2000/svg}text")]
        self.assertEqual(legend[:-1], ["marks (1 strips)", "unchecked (0 areas)", "[1] poly width (1 strips)"])
        for other, fault in ((HERE / "none", "No such file or directory"), (HERE / "test_view.py", "no reply to %violations")):
            out = self.view(marks(), "--violations", other)
            self.assertEqual((out.returncode, out.stderr), (1, f"view: {other}: {fault}\n"))

    def test_nothing_is_read_beyond_the_end(self):
        more = marks() + "rect 500 500 900 900\n<< m1 >>\nrect 500 500 900 900\n"
        first, second = (
            subprocess.run([HERE.parent / "view", "-"], input=text, capture_output=True, text=True, check=True).stdout
            for text in (marks(), more)
        )
        self.assertEqual(first, second)

    def test_help(self):
        out = subprocess.run([HERE.parent / "view", "--help"], capture_output=True, text=True, check=True).stdout
        self.assertIn("the text of `%marks`, `%errors` or `save`", out)

    def view(self, text, *words):
        return subprocess.run([HERE.parent / "view", *words, "-"], input=text, capture_output=True, text=True, check=False)

    def test_sizes_that_none_can_draw(self):
        for width in ("0", "-5", "1000000000", "x"):
            self.assertEqual(self.view(marks(), "--width", width).returncode, 2)
        out = self.view("magic\ntech m\ntimestamp 0\n<< poly >>\nrect 0 0 99999999999 1\n<< end >>\n")
        self.assertEqual((out.returncode, out.stderr), (1, "view: -: a rectangle beyond 2147483648\n"))

    def test_quotes(self):
        name = "\"'<&>"
        out = self.view(f"magic\ntech m\ntimestamp 0\n<< {name} >>\nrect 0 0 1 1\n<< end >>\n").stdout
        layers = [each.get("data-layer") for each in xml.etree.ElementTree.fromstring(out).iter() if each.get("data-layer")]
        self.assertEqual(layers, [name])

    def test_a_file_that_is_none(self):
        for text, fault in (("", "the first line isn't `magic`"), ("magic\nrect 0 0 1 1\n", "line 2: a rectangle outside sections")):
            out = subprocess.run([HERE.parent / "view", "-"], input=text, capture_output=True, text=True, check=False)
            self.assertEqual((out.returncode, out.stderr), (1, f"view: -: {fault}\n"))

    @unittest.skipUnless(shutil.which("klayout"), "klayout isn't installed")
    def test_klayout_opens_the_text(self):
        with tempfile.TemporaryDirectory() as folder:
            with open(f"{folder}/a.mag", "w", encoding="utf-8") as file:
                file.write(marks())
            with open(f"{folder}/count.py", "w", encoding="utf-8") as file:
                file.write(
                    "import pya\n"
                    "layout = pya.Layout()\n"
                    "options = pya.LoadLayoutOptions()\n"
                    "options.mag_lambda = 1.0\n"
                    f"layout.read('{folder}/a.mag', options)\n"
                    "for index in layout.layer_indexes():\n"
                    "    region = pya.Region(layout.top_cell().begin_shapes_rec(index))\n"
                    "    print(layout.get_info(index).name, round(region.area() * layout.dbu * layout.dbu))\n"
                )
            out = subprocess.run(
                ["klayout", "-b", "-r", f"{folder}/count.py"], capture_output=True, text=True, check=True, timeout=600
            ).stdout
        areas = dict(line.rsplit(" ", 1) for line in out.splitlines() if " " in line)
        self.assertEqual((areas["poly"], areas["m1"], areas["error_p"]), ("10", "100", "10"))
