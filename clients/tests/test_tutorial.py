"""The day of docs/TUTORIAL.md is typed, and its replies and pictures are compared."""

import re
import unittest
import xml.etree.ElementTree

from tests.magics import needs_magic
from tests.serving import ROOT, Client
from tests.typed import TypedCase, blocks, given, rows

def drawn(picture):
    """Returns the boxes of a picture's layout by what they show."""
    layout = xml.etree.ElementTree.fromstring(picture).find("{*}svg")
    return {
        group.get("data-layer") or group.get("class"): [[one.get(key) for key in ("x", "y", "width", "height")] for one in group]
        for group in layout.findall("{*}g")
    }


class Tutorial(TypedCase):
    def setUp(self):
        super().setUp()
        self.clients = {}

    def connect(self, name):
        if name not in self.clients:
            self.clients[name] = Client(("127.0.0.1", self.port))
            self.clients[name].send((self.home / f".kolasieve-{self.port}.token").read_text().strip())
        return self.clients[name]

    def leave(self):
        """Ends all connections, as Ctrl-D does."""
        for client in self.clients.values():
            client.send("@quit")
            while client.reply():
                pass
            client.close()
        self.clients = {}

    def play(self, block):
        lines, replies = rows(block)
        designer = next(each for each in ("ben", "mia") if each in lines.split("\n", 1)[0])
        for line, reply in zip(lines.splitlines(), replies.splitlines(), strict=True):
            self.assertEqual(self.connect(designer).ask(line), [reply], line)

    def well(self, command):
        said, status = self.ended(self.here(command))
        self.assertEqual(status, 0, said)
        return said

    @needs_magic
    def test_a_day(self):
        start, talk, save, draw, *check = given(self, "docs/TUTORIAL.md")
        self.assertIn("clients/talk", talk)
        relay, marks = self.start_relay(start), []
        for block in re.split(r"\n{2,}", "\n\n".join(blocks("docs/TUTORIAL.md"))):
            if block.startswith("@resume"):
                relay.kill()
                relay.wait()
                relay = self.start_relay(start)
            if not block.startswith("$"):
                self.play(block)
            elif save in block:
                self.leave()
                self.assertEqual([self.well(save), self.well(draw)], ["", ""])
                self.assertEqual(drawn((self.home / "ben.svg").read_text()), drawn((ROOT / "docs/tutorial-2.svg").read_text()))
            if "36 errors" in block:
                marks.append(self.connect("ben").ask("%marks ben")[0].split("\n", 1)[1])
        self.leave()
        said, _ = self.ended("clients/view -", marks[0] + "\n")
        self.assertEqual(drawn(said), drawn((ROOT / "docs/tutorial-1.svg").read_text()))
        self.assertIn("nothing is forbidden", [self.well(each) for each in check][-1])

    def tearDown(self):
        for client in self.clients.values():
            client.close()


if __name__ == "__main__":
    unittest.main()
