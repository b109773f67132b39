"""What ./magicd says and does, with a stand-in for the toolchain's `rt`."""

import os
import pty
import re
import subprocess
import unittest

from tests.launching import LauncherCase
from tests.serving import ROOT, ran


class Launcher(LauncherCase):
    def test_help_is_the_programs_and_nothing_is_built(self):
        for words in (["--help"], ["-h"], ["--try", "--help"], ["--quota", "5", "--help"]):
            output, said, status = self.ended(*words)
            self.assertEqual((output, status), (ran(["--help"]).messages, 0))
            self.assertRegex(said, r"\Amagicd: as the first word: --try .*\n\Z")
        self.assertEqual(self.calls(), [])

    def test_version(self):
        self.assertEqual(self.ended("--version"), ("magicd of no known revision\nkit of tests\n", "", 0))
        self.assertEqual(self.ended("--version", path="/usr/bin:/bin"), ("magicd of no known revision\nwithout rt\n", "", 0))
        for words in (["init", "-q"], ["add", "-A"], ["-c", "user.name=n", "-c", "user.email=e", "commit", "-qm", "first"]):
            subprocess.run(["git", *words], cwd=self.top, check=True)
        self.assertRegex(self.ended("--version")[0], r"\Amagicd [0-9a-f]{12}\nkit of tests\n\Z")

    def test_without_rt(self):
        for words in ([], ["--try"]):
            output, said, status = self.ended(*words, path="/usr/bin:/bin")
            self.assertEqual((output, status), ("", 127))
            self.assertRegex(said, r"\Amagicd: .*`rt` .* isn't on the path: see \"A first run\" in .*README\.md\n\Z")
        self.assertIn("\n## A first run\n", (ROOT / "README.md").read_text())

    def wait_for(self, started, pattern):
        """Reads what a launcher says up to a line that the pattern is in."""
        for line in started.stderr:
            if re.search(pattern, line):
                return line
        self.fail(f"the launcher ended without {pattern}")

    def test_progress_of_a_build(self):
        started = self.start("--quota", "9", stdin=subprocess.PIPE)
        self.assertRegex(self.wait_for(started, "proving"), "building 22 crates, .* half an hour to an hour")
        self.wait_for(started, r": 0 of 22 crates proved, at work on .*mls_kinds \(3 of 9\)")
        self.prove("mls_kinds", "mls_text", "mls_bounded")
        self.wait_for(started, "crate 3 of 22 proved")
        self.wait_for(started, r": 3 of 22 crates proved, at work on .*mls_geom")
        self.prove(*self.crates)
        output, _ = started.communicate("a line\n", timeout=60)
        self.assertEqual((output, started.returncode), ("program: --quota 9\na line\n", 5))
        calls = self.calls()
        self.assertEqual((len(calls), calls[-1]), (22, "magicd run"))
        # Nothing is built a second time.
        self.assertEqual(self.ended("--quota", "9", script="x\n"), ("program: --quota 9\nx\n", "", 5))
        self.assertEqual(len(self.calls()), 22)

    def test_build_that_fails(self):
        self.prove(*self.crates)
        (self.tools / "proved/mls_tech").unlink()
        (self.tools / "refused/mls_tech").touch()
        output, said, status = self.ended()
        self.assertEqual((output, status), ("", 1))
        self.assertRegex(said, r"\nmls_tech: a goal is left\nmagicd: the build failed at mls_tech\n\Z")

    def test_try(self):
        (self.folder / "a.tech").write_text("types\np t\nend\n")
        output, said, status = self.ended("--try", "--tech", "a.tech", "c=a.tech", "--quota", "9", script="one\ntwo\n")
        self.assertEqual((output, status), ("one\ntwo\n", 3))
        self.assertRegex(said, r"\Amagicd: nothing is proved yet: .*\nmagicd: said by the program\n\Z")
        path = (self.folder / "a.tech").resolve()
        wanted = f"magicd try --data file1={path} --data file2={path} -- --tech file1 c=file2 --quota 9"
        self.assertEqual(self.calls(), [wanted])
        ours, theirs = pty.openpty()
        with os.fdopen(ours), os.fdopen(theirs) as terminal:
            _, said, status = self.ended("--try", stdin=terminal)
        self.assertEqual((said.count("\n"), status), (1, 2))
        self.assertIn("give it a file", said)

    def said_before(self, *words):
        """Returns what is said before the built program starts; it must start."""
        output, said, status = self.ended(*words)
        self.assertEqual((output, status), (f"program: {' '.join(words)}\n", 5))
        return said

    def test_files_that_cannot_be_read(self):
        self.built()
        (self.folder / "c.mag").touch()
        for path, reason in (("none", "No such file or directory"), (".", "Is a directory"), ("c.mag/x", "Not a directory")):
            said = f"magicd: {path}: {reason}\n"
            for words in (["--tech", path], [f"--tech={path}"], [f"c={path}"], ["--live", "--quota", "9", f"c={path}"], ["--", f"c={path}"]):
                self.assertEqual(self.said_before(*words), said)
        self.assertEqual(self.said_before("c.mag"), "magicd: c.mag: a cell of the library is NAME=FILE\n")
        self.assertEqual(self.said_before("c=c.mag", "--workers", "2"), "")

    def test_files_without_rights(self):
        self.built()
        (self.folder / "secret").touch(0o000)
        if os.geteuid() == 0:
            self.folder.chmod(0o755)
            self.user = ["setpriv", "--reuid=65534", "--regid=65534", "--clear-groups"]
        self.assertEqual(self.said_before("c=secret"), "magicd: secret: Permission denied\n")

    def test_files_that_are_unusual(self):
        self.built()
        (self.folder / "no.tech").write_text("planes\np\nend\nstyles\ntypes\nend\ntypes\n# none\n\nend\n")
        (self.folder / "one.tech").write_bytes(b"planes\r\np\r\nend\r\ntypes\r\np t\r\nend\r\n")
        with open(self.folder / "large.mag", "wb") as file:
            file.truncate((64 << 20) + 1)
        self.assertEqual(self.said_before("--tech", "no.tech"), "magicd: no.tech: it names no types, so that nothing can be painted\n")
        self.assertEqual(self.said_before("--tech", "one.tech"), "")
        self.assertEqual(self.said_before("c=large.mag"), "magicd: large.mag: it has 64 MB, and is read whole\n")
        self.assertEqual(self.said_before("c=/dev/full"), "magicd: /dev/full: a device is read to its end, and may have none\n")
        self.assertEqual(self.said_before("c=/dev/null"), "")

    def test_faults_before_a_build(self):
        for words, wanted in ((["c=none"], 1), (["none"], 2), (["--try", "c=none"], 1), (["c=none", "none"], 2)):
            output, said, status = self.ended(*words)
            self.assertEqual((output, status), ("", wanted))
            self.assertRegex(said, "\\Amagicd: none: ")
        self.assertEqual(self.calls(), [])

    def test_options_that_are_none(self):
        for words in (["--wrokers", "2"], ["--quota", "9", "-x=c", "--live"], ["--try", "--wells"]):
            output, said, status = self.ended(*words)
            self.assertEqual((output, status), ("", 2))
            self.assertRegex(said, r"\Amagicd: (--wrokers|-x=c|--wells): there is no such option; --help shows all\n")
        self.assertEqual(self.calls(), [])
        self.built()
        for words in (["--live", "--quota=9", "--workers", "2"], ["--", "-x=c"]):
            self.assertNotIn("no such option", self.said_before(*words))

    def test_terminal(self):
        self.built()
        ours, theirs = pty.openpty()
        with os.fdopen(ours, "wb", buffering=0) as keyboard, os.fdopen(theirs) as terminal:
            started = self.start(stdin=terminal)
            self.assertRegex(self.wait_for(started, "terminal"), "docs/SCRIPTS.md describes them, and Ctrl-D ends them")
            keyboard.write(b"typed\n\x04")
            output, _ = started.communicate(timeout=60)
        self.assertEqual(output, "program: \ntyped\n")


if __name__ == "__main__":
    unittest.main()
