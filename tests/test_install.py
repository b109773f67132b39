"""`./magicd --install`: the program, the clients, the man page, completion and the unit for systemd."""

import os
import re
import shlex
import shutil
import subprocess
import threading
import unittest

from tests.launching import GENEROUS, LauncherCase
from tests.serving import ROOT, SERVER

# How the words of a completion are given to bash, and how many of them there are.
COMPLETE = """
. launcher/completion.bash
COMP_WORDS=("$@") COMP_CWORD=$(($# - 1))
_magicd
printf '%s\\n' "${COMPREPLY[@]}"
"""


def page():
    return subprocess.run([ROOT / "launcher/man_page"], capture_output=True, text=True, check=True).stdout


class Installed(LauncherCase):
    def setUp(self):
        super().setUp()
        for name in ("clients", "docs", "examples"):
            shutil.copytree(ROOT / name, self.top / name)
        shutil.copy(ROOT / "README.md", self.top)
        self.built(made_of=SERVER)
        self.to = self.folder / "new/place"
        # Twice: what an earlier call left gives way.
        for _ in range(2):
            output, said, status = self.ended("--install", "new/place")
            self.assertEqual((output, status), ("", 0), said)
            self.assertRegex(said, rf"\Amagicd: installed in {self.to}: .*\n\Z")

    def test_what_there_is(self):
        for name in ("share/man/man1/magicd.1", "share/bash-completion/completions/magicd", "share/doc/kolasieve/docs/SCRIPTS.md"):
            self.assertTrue((self.to / name).is_file(), name)
        self.assertEqual((self.to / "share/doc/kolasieve/VERSION").read_text(), "magicd of no known revision\nkit of tests\n")
        clients = {each.name for each in (ROOT / "clients").iterdir() if each.is_file() and os.access(each, os.X_OK)}
        self.assertEqual({each.name for each in (self.to / "bin").iterdir()}, {"magicd", *(f"kolasieve-{each}" for each in clients)})
        script = (ROOT / "examples/first_run.txt").read_text()
        run = subprocess.run([self.to / "bin/magicd"], input=script, capture_output=True, text=True, check=True)
        self.assertEqual(run.stdout, (ROOT / "examples/first_run.replies").read_text())

    def test_the_unit(self):
        unit = self.to / "lib/systemd/system/kolasieve-relay.service"
        if shutil.which("systemd-analyze"):
            verified = subprocess.run(["systemd-analyze", "verify", "--man=no", unit], capture_output=True, text=True, check=False)
            self.assertNotIn(str(unit), verified.stdout + verified.stderr)
        (self.folder / "kolasieve").mkdir()
        start = re.search(r"(?m)^ExecStart=(.*)$", unit.read_text())[1].replace("%t", str(self.folder)).replace("%S", str(self.folder))
        relay = subprocess.Popen(shlex.split(start), stderr=subprocess.PIPE, text=True)
        alarm = threading.Timer(GENEROUS, relay.kill)
        alarm.start()
        self.addCleanup(self.end, relay, alarm)
        self.assertTrue(any("listening at" in line for line in relay.stderr))
        talk = [self.to / "bin/kolasieve-talk", self.folder / "kolasieve/relay.socket"]
        said = subprocess.run(talk, input="%open ben\nben what\n", capture_output=True, text=True, timeout=60, check=True).stdout
        self.assertEqual(said, "ben opened\nben refused 3 no box\n")
        self.assertTrue((self.folder / "kolasieve/day.log").is_file())


class Faults(LauncherCase):
    def test_folders(self):
        self.built()
        for words in ([], ["a", "b"], [""]):
            output, said, status = self.ended("--install", *words)
            self.assertEqual((output, said, status), ("", "magicd: --install DIR has one folder\n", 2))
        (self.folder / "file").touch()
        output, said, status = self.ended("--install", "file/below")
        self.assertEqual((output, status), ("", 1))
        self.assertIn("file", said)


class ManPage(unittest.TestCase):
    def test_options_and_lines(self):
        text = page().replace("\\-", "-")
        for option in re.findall(r"(?m)^  .*?(--[\w-]+)", (ROOT / "launcher/help.txt").read_text()):
            self.assertRegex(text, rf"\n\.TP\n\\fB(-h, )?{option}\b")
        lines = re.search(r"\n## Lines\n(.*?)\n\n[A-Z]", (ROOT / "docs/SCRIPTS.md").read_text(), re.S)[1]
        rows = re.findall(r"(?m)^\| `([^`]*)`", lines)
        self.assertGreater(len(rows), 20)
        for row in rows:
            self.assertIn(f"\n.TP\n\\fB{row}\\fR", text)
        self.assertNotRegex(text, r"\]\(|\*\*|`|(?m:^\|)")

    @unittest.skipUnless(shutil.which("groff"), "groff isn't installed")
    def test_groff_reads_it(self):
        run = subprocess.run(["groff", "-man", "-ww", "-z"], input=page(), capture_output=True, text=True, check=True)
        self.assertEqual(run.stderr, "")


class Completion(unittest.TestCase):
    def completed(self, *words):
        run = subprocess.run(["bash", "-euc", COMPLETE, "bash", *words], cwd=ROOT, capture_output=True, text=True, check=True)
        return run.stdout.split()

    def test_options(self):
        options = re.findall(r"(?m)^  .*?(--[\w-]+)", (ROOT / "launcher/help.txt").read_text())
        self.assertEqual(sorted(self.completed("magicd", "--")), sorted([*options, "--try", "--version", "--install"]))
        self.assertEqual(self.completed("magicd", "--cell"), ["--cell-tiles"])
        self.assertEqual(self.completed("magicd", "--quota", ""), [])

    def test_files(self):
        for words in (["--tech", "examples/wells.te"], ["inv", "=", "examples/wells.te"]):
            self.assertEqual(self.completed("magicd", *words), ["examples/wells.tech"])
        self.assertEqual(self.completed("magicd", "--install", "exampl"), ["examples"])


if __name__ == "__main__":
    unittest.main()
