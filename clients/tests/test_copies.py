"""The log from outside: what lies in it, copies from SQLite to etcd and back, and the end of what is closed."""

import subprocess
import time
import unittest

from tests.serving import HERE, alone, random_lines
from tests.test_etcd import EtcdCase, Machine


class Copies(EtcdCase):
    def log(self, *words, status=0):
        done = subprocess.run([HERE.parent / "log", *words], capture_output=True, text=True, timeout=600, check=False)
        self.assertEqual(done.returncode, status, done.stderr)
        return done.stdout if status == 0 else done.stderr

    def test_from_sqlite_to_etcd_and_back(self):
        there, file, back = self.etcds.log(name=self.name), str(self.folder / "log"), str(self.folder / "back")
        lines = ["%open a", *random_lines("a", 300, 3), "a save"]
        expected = alone([*lines, "%stat a"])[-1]
        one = Machine(self.folder, "one", "--log", file)
        one.wait()
        client = self.client(one)
        bar = self.folder / "bar.mag"
        bar.write_text("magic\n<< m1 >>\nrect 0 0 3 9\n<< end >>\n")
        client.ask(f"@load bar {bar}", *lines, "%open b", "b box 0 0 4 4", "%close b")
        self.assertRegex(client.ask("%open c", "c dump bar 0 0", "c getcell bar 9 9", "@compact c")[-1], "c compacted ")
        self.assertEqual(self.log("copy", file, there, status=1), f"log: {file}: another relay has it\n")
        client.close()
        self.assertEqual(one.end(), 0)
        owner = self.log("list", file).split("/")[0]
        self.assertEqual(self.log("copy", file, there, f"{owner}=cert:ben"), "3 sessions\n")
        self.assertEqual(self.log("copy", file, there, status=1), f"log: {there}: it has sessions already\n")
        listed = self.log("list", there)
        self.assertRegex(listed, r"cert:ben/a\t.*\tleft\ncert:ben/c\t.*\tleft\ncert:ben/b\topened .*\tclosed .*\tb\.\w+\n")
        self.assertEqual(self.log("show", file, "a"), self.log("show", there, "a"))
        self.assertEqual(self.log("copy", there, back, f"cert:ben={owner}"), "3 sessions\n")
        self.assertEqual(self.log("show", file, "a"), self.log("show", back, "a"))
        two = Machine(self.folder, "two", "--log", back)
        self.addCleanup(two.end)
        two.wait()
        self.assertRegex(self.client(two).ask("@resume a")[0], "a resumed ")
        self.assertEqual(expected.split(" entries")[0], self.stat(there, owner))

    def stat(self, there, owner):
        """Returns how many entries the session has where it is resumed from etcd."""
        again = self.etcds.log(name=self.name + "_again")
        self.log("copy", there, again, f"cert:ben={owner}")
        client = self.client(self.machine("three", again))
        self.assertRegex(client.ask("@resume a")[0], "a resumed ")
        self.assertEqual(client.ask("@resume c", "%uses c", "@undo c 2", "%uses c"), [
            "c resumed 3", "c uses 1\ngetcell bar 9 9", "c undone 2: c getcell bar 9 9", "c uses 0",
        ])
        return client.ask("%stat a")[0].split(" entries")[0]

    def test_what_is_in_use_stays(self):
        one = self.machine("one")
        there = self.etcds.log(name=self.name)
        self.client(one).ask("%open a", "a box 0 0 4 4")
        self.assertRegex(self.log("copy", there, str(self.folder / "copy"), status=1), r"log: \S+/a: in use at ")
        self.assertRegex(self.log("list", there), r"\S+/a\topened .*\tin use at ")
        self.assertRegex(self.log("show", there, "a"), r"1 \S+ \S+ a box 0 0 4 4\na ok\n")

    def test_closed_sessions_are_removed(self):
        for name, where in (("one", str(self.folder / "log")), ("two", self.etcds.log(name=self.name))):
            machine = Machine(self.folder, name, "--log", where)
            machine.wait()
            client = self.client(machine)
            client.ask("%open a", "a box 0 0 4 4", "%open b", "b box 0 0 4 4", "%close b")
            client.close()
            self.assertEqual(machine.end(), 0)
            number = self.log("list", where).splitlines()[1].split("\t")[3]
            self.assertRegex(self.log("show", where, number), "b box 0 0 4 4")
            self.assertEqual(self.log("remove", where, "1"), "0 sessions\n")
            time.sleep(0.1)
            self.assertEqual(self.log("remove", where, "0"), "1 sessions\n")
            self.assertEqual(self.log("show", where, number, status=1), f"log: {number}: no such session\n")
            self.assertEqual(len(self.log("list", where).splitlines()), 1)
        self.assertEqual(self.etcds.any().get(f"{self.name}/lines/{number}/0000000001"), (None, None))


if __name__ == "__main__":
    unittest.main()
