"""Cells, quotas and journals that a log takes while it is used, and the copies of files that it has."""

import os
import subprocess

from tests.serving import ROOT, alone
from tests.test_log import LoggedCase

BAR = "magic\ntech M\n<< m1 >>\nrect 0 0 3 9\n<< end >>\n"
POST = "magic\ntech M\n<< poly >>\nrect 0 0 4 4\n<< end >>\n"


class Cells(LoggedCase):
    def cell(self, name, text=BAR):
        path = self.folder / f"{name}.mag"
        path.write_text(text)
        return path

    def start_again(self, *words, status=None):
        """Ends the relay and starts it with other words; or returns what it says where it is to refuse them."""
        self.end()
        if status is None:
            self.start(*words)
            return None
        done = subprocess.run(self.command(*words), stderr=subprocess.PIPE, text=True, timeout=600, check=False)
        self.assertEqual(done.returncode, status, done.stderr)
        return done.stderr

    def test_a_cell_for_all(self):
        """Refused, loaded, and there: for sessions that were open, after kills, and in another run."""
        client, other = self.client(), self.client()
        client.ask("%open a", "a box 0 0 1 10", "a paint poly")
        other.ask("%open b")
        bar = self.cell("bar")
        self.assertEqual(client.ask("a dump bar 3 0", f"@load bar {bar}", "a dump bar 3 0", "@cells"), [
            "a refused 7 unknown cell", "@ loaded bar", "a ok", "@ cells 1",
        ])
        self.assertEqual(client.replies.readline(), b"@ bar\n")
        self.assertEqual(other.ask("b getcell bar 5 5", "%uses b"), ["b ok", "b uses 1\ngetcell bar 5 5"])
        # From now on the file doesn't matter.
        bar.unlink()
        expected = alone(["%open a", "a box 0 0 1 10", "a paint poly", "a dump bar 3 0", "%save a"],
                         f"bar={self.cell('again')}")[-1]
        self.kill_programs()
        self.assertEqual(client.ask("%save a"), [expected])
        self.kill()
        self.start()
        client = self.client()
        self.assertEqual(self.resumed(client, "@resume a"), "a resumed 4")
        self.assertEqual(client.ask("%save a", "@undo a 4", "a dump bar 4 4"), [expected, "a undone 4: a dump bar 3 0", "a ok"])
        self.assertEqual(client.ask(f"@load bar {self.cell('post', POST)}"), ["@ refused load bar: name twice"])

    def test_what_is_refused(self):
        client = self.client()
        faulty = self.cell("faulty", "magic\n<< gold >>\nrect 0 0 1 1\n<< end >>\n")
        os.mkfifo(self.folder / "pipe")
        self.assertEqual(
            client.ask(f"@load gold {faulty}", f"@load a/b {faulty}", f"@load x {self.folder}/none", f"@load x {self.folder}",
                       f"@load x {self.folder}/pipe", "@load x", "@cells"),
            [
                "@ refused load gold: line 2 fault 2 unknown layer",
                "@ refused load a/b: a name has letters, digits, _, -, . and $, 64 at most",
                f"@ refused load x: {self.folder}/none: No such file or directory",
                f"@ refused load x: {self.folder}: Is a directory",
                f"@ refused load x: {self.folder}/pipe: it is no file",
                "line 6 fault 1 unknown command",
                "@ cells 0",
            ],
        )
        self.start_again("--loaders", "cert:mia,cert:ben")
        self.assertRegex(self.client().ask(f"@load bar {self.cell('bar')}")[0], r"^@ refused load bar: \S+ isn't one of --l")

    def test_a_library_that_gets_full(self):
        bar = self.cell("bar")
        self.start_again(*(f"c{i}={bar}" for i in range(62)))
        client = self.client()
        client.ask("%open a", "a box 0 0 4 4", "a paint m1")
        self.assertEqual(client.ask(f"@load c62 {bar}", f"@load c63 {bar}"), [
            "@ loaded c62", "@ refused load c63: library full: 63 cells",
        ])
        # The last place is a checkpoint's.
        self.assertRegex(client.ask("@compact a")[0], "^a compacted ")
        self.assertEqual(client.ask("a getcell c62 0 0", "%uses a"), ["a ok", "a uses 1\ngetcell c62 0 0"])

    def test_a_greater_quota_and_journal(self):
        self.end()
        (self.folder / "log").unlink()
        self.start("--quota", "6", "--journal", "8")
        client = self.client()
        lines = ["a box 0 0 4 4", "a paint m1", "a box 9 9 12 12", "a paint m1"]
        self.assertEqual(client.ask("%open a", *lines), ["a opened", "a ok", "a ok", "a ok", "a refused 5 quota"])
        client.close()
        self.assertIn("options: --quota 6 --journal 8", self.start_again("--quota", "5", "--journal", "8", status=1))
        self.start("--quota", "99", "--journal", "20", f"bar={self.cell('bar')}")
        client = self.client()
        # Played as it was, the last row would be `ok` now.
        self.assertEqual(self.resumed(client, "@resume a"), "a resumed 4")
        looks = ["a what", "%save a", "a paint m1", "a dump bar 30 0", "%save a"]
        expected = alone(["%open a", *lines[:3], *looks], f"bar={self.folder}/bar.mag")[-len(looks) :]
        self.assertEqual(client.ask(*looks), expected)
        self.assertIn("options: --quota 99 --journal 20", self.start_again("--quota", "98", "--journal", "20", status=1))
        self.start("--quota", "99", "--journal", "20")

    def test_an_edited_technology(self):
        text = (ROOT / "examples/m.tech").read_text()
        path = self.folder / "t.tech"
        path.write_text(text)
        self.end()
        (self.folder / "log").unlink()
        self.start("--tech", str(path))
        client = self.client()
        client.ask("%open a", "a box 0 0 1 10", "a paint poly", "a box 0 0 2 10")
        self.assertEqual(client.ask("a drc why"), ["a why 1 [1] poly width"])
        client.close()
        path.write_text(text.replace("poly width", "another text"))
        self.start_again("--tech", str(path))
        self.assertIn(f"{path} was edited", self.said())
        client = self.client()
        self.assertEqual(self.resumed(client, "@resume a"), "a resumed 4")
        self.assertEqual(client.ask("a drc why"), ["a why 1 [1] poly width"])
        client.close()
        other = self.folder / "other.tech"
        other.write_text(path.read_text())
        self.assertIn("it is of a server with other options", self.start_again("--tech", str(other), status=1))
        path.write_text(text)
        self.start("--tech", str(path))
