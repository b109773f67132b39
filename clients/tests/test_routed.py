"""A block that Debian's qflow routes from a text in Verilog, checked as a new user would."""

import pathlib
import re
import shutil
import unittest

from tests.serving import SERVER
from tests.typed import TypedCase, blocks, given

from kolasieve import mag

HAS_ALL = shutil.which("qflow") and shutil.which("magic") and pathlib.Path("/usr/share/qflow/tech/osu035").exists()


def without_numbers(text):
    """Returns a text without the notices, and without the squares, as many as the block is wide."""
    lines = [line for line in text.splitlines() if " rule lines " not in line]
    return re.sub(r" +\d+ squares", " squares", "\n".join(lines))


class Routed(TypedCase):
    @unittest.skipUnless(HAS_ALL, "qflow, its cells or magic aren't installed")
    def test_from_a_text_in_verilog(self):
        (command,) = given(self, "docs/PROCESS.md")
        (block,) = [each for each in blocks("docs/PROCESS.md") if f"$ {command}\n" in each]
        said, status = self.ended(f"{command} --server {SERVER}")
        self.assertEqual(status, 0, said)
        self.assertEqual(without_numbers(said), without_numbers(block.partition("\n")[2]))
        self.assertEqual(len(set(re.findall(r"forbid (\d+) squares", said))), 1)
        layers = mag.read((self.top / "counter/narrow.mag").read_text()).layers
        self.assertGreater(sum(map(len, layers.values())), 1500)
        self.assertGreater(len(layers), 5)
