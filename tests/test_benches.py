"""The benches say what they are, run the program that is named, and `bench/all` writes their tables."""

import contextlib
import os
import pathlib
import re
import shutil
import signal
import subprocess
import tempfile
import time
import unittest

from tests.serving import ROOT

BENCHES = sorted(each for each in (ROOT / "bench").glob("*.sh") if each.name != "head.sh")

PAGE = """# Page

<!-- bench/one.sh -->
old
<!-- end -->

<!-- bench/two.sh -->
another
<!-- end -->

<!-- bench/chips.sh -->
by its name alone
<!-- end -->
"""

README = "before\n<!-- bench/one.sh: 16,000 -->\nold\n<!-- end -->\nafter\n"

ONE = """#!/usr/bin/env bash
printf 'layout\\tline\\tus\\n1,000\\tpaint\\t.5\\n16,000\\tpaint %s\\t123456\\n' "$PROGRAM"
"""


def run(path, *words, **environment):
    """Runs a bench where there is no `rt`."""
    environment = {**os.environ, "PATH": "/usr/bin:/bin", **environment}
    return subprocess.run([path, *words], env=environment, capture_output=True, text=True, timeout=60, check=False)


class Benches(unittest.TestCase):
    def test_help(self):
        self.assertGreater(len(BENCHES), 10)
        for bench in BENCHES:
            ended = run(bench, "--help", PROGRAM="")
            self.assertEqual((ended.returncode, ended.stderr), (0, ""), bench.name)
            self.assertEqual(ended.stdout.split("\n", 1)[0], bench.read_text().split("\n")[1].removeprefix("# "))

    def test_program_that_is_not_there(self):
        for bench in BENCHES:
            ended = run(bench, PROGRAM="/no/program")
            self.assertEqual(ended.returncode, 1, bench.name)
            self.assertIn("/no/program", ended.stderr)

    def test_program_that_is_named_is_run(self):
        with tempfile.TemporaryDirectory() as folder:
            program, called = pathlib.Path(folder, "program"), pathlib.Path(folder, "called")
            program.write_text(f"#!/usr/bin/env bash\ntouch {called}\nexit 7\n")
            program.chmod(0o755)
            for bench in BENCHES:
                if bench.name == "beside.sh" and not (shutil.which("magic") and shutil.which("klayout")):
                    continue
                with self.subTest(bench.name):
                    called.unlink(missing_ok=True)
                    environment = {**os.environ, "PROGRAM": str(program), "GROWTHS": str(program), "TMPDIR": folder}
                    running = subprocess.Popen(
                        bench, env=environment, stdout=subprocess.DEVNULL, stderr=subprocess.DEVNULL, start_new_session=True
                    )
                    until = time.monotonic() + 120
                    while not called.exists() and running.poll() is None and time.monotonic() < until:
                        time.sleep(0.02)
                    with contextlib.suppress(ProcessLookupError):
                        os.killpg(running.pid, signal.SIGKILL)
                    running.wait()
                    self.assertTrue(called.exists())

    def test_tables(self):
        tables = re.findall(r"<!-- bench/(\w+\.sh)", (ROOT / "docs/PERFORMANCE.md").read_text())
        self.assertEqual([each for each in tables if not (ROOT / "bench" / each).is_file()], [])


class All(unittest.TestCase):
    def setUp(self):
        folder = tempfile.TemporaryDirectory()
        self.addCleanup(folder.cleanup)
        self.top = pathlib.Path(folder.name)
        for name, text in (("docs/PERFORMANCE.md", PAGE), ("README.md", README), ("bench/one.sh", ONE)):
            (self.top / name).parent.mkdir(exist_ok=True)
            (self.top / name).write_text(text)
        (self.top / "bench/one.sh").chmod(0o755)
        shutil.copy(ROOT / "bench/all", self.top / "bench")

    def bench(self, name, text):
        path = self.top / "bench" / f"{name}.sh"
        path.write_text(f"#!/usr/bin/env bash\n{text}\n")
        path.chmod(0o755)

    def all(self, *names, program="/a/program"):
        return run(self.top / "bench/all", *names, PROGRAM=program)

    def test_tables_are_written(self):
        self.assertEqual(self.all("one").returncode, 0)
        page = (self.top / "docs/PERFORMANCE.md").read_text()
        form = (
            r"\n<!-- bench/one\.sh -->\n`bench/one\.sh` of `/a/program` at `unknown`, \d{4}-\d\d-\d\d, .*, \d+ cores, .*others \d+\.\d cores:\n\n"
            r"\|layout\|line\|µs\|\n\|---\|---\|---\|\n\|1,000\|paint\|0\.5\|\n\|16,000\|paint /a/program\|123,456\|\n<!-- end -->\n"
        )
        self.assertRegex(page, "(?i)" + form)
        self.assertIn("another", page)
        excerpt = "<!-- bench/one.sh: 16,000 -->\n|line|µs|\n|---|---|\n|paint /a/program|123,456|\n<!-- end -->"
        self.assertEqual((self.top / "README.md").read_text(), f"before\n{excerpt}\nafter\n")

    def test_rows_that_miss_their_aim(self):
        rows = [
            ["row", "aim ms", "ms"], ["M: nothing: a drc why, world", "-", "7"], ["M: comb 9: a drc why, world", "e + 100", "107"],
            ["M: bars 9: a drc why, world", "e + 100", "108"], ["M: bars 9: a erase poly", "60", "60"], ["M: comb 9: a erase poly", "60", "over 120000"],
            ["D 2: comb 9: %step a", "1000", "1001"], ["R 128: comb 9: %step a", "60", "refused"], ["M: steps 9: a paint m1", "0.04", "< 0.0312"],
            ["M: steps 9: a drc why", "-", "101"],
        ]
        script = "printf '" + "\\n".join("\\t".join(row).replace("%", "%%") for row in rows) + "\\n'"
        (self.top / "bench/one.sh").rename(self.top / "bench/worst.sh").write_text(f"#!/usr/bin/env bash\n{script}\n")
        page = self.top / "docs/PERFORMANCE.md"
        page.write_text(PAGE.replace("one.sh", "worst.sh"))
        self.assertEqual(self.all("worst").returncode, 0)
        kept = re.findall(r"(?m)^\|(.*?)\|.*\|(.*)\|$", page.read_text())
        self.assertEqual(kept[2:], [
            ("M: bars 9: a drc why, world", "108"), ("M: comb 9: a erase poly", "over 120,000"), ("D 2: comb 9: %step a", "1001"),
            ("R 128: comb 9: %step a", "refused"), ("M: steps 9: a drc why", "101"), ("4 others, at most", "107"),
        ])

    def test_rows_that_are_slower_placed(self):
        rows = ["row\tlayout\tus placed\tus dumped\ttimes", "place\tapart\t8\t40\t0.20", "what\tapart\t15\t9\t1.67",
                "step\tshifted\t60001\t-\t-", "step\tfar\t-\t5\t-", "why\tdeep\t< 3\t0\t-"]
        bench = (self.top / "bench/one.sh").rename(self.top / "bench/uses.sh")
        bench.write_text("#!/usr/bin/env bash\ncat << 'END'\n" + "\n".join(rows) + "\nEND\n")
        page = self.top / "docs/PERFORMANCE.md"
        page.write_text(PAGE.replace("one.sh", "uses.sh"))
        self.assertEqual(self.all("uses").returncode, 0)
        kept = re.findall(r"(?m)^\|(\w+.*?)\|", page.read_text())
        self.assertEqual(kept, ["row", "what", "step", "3 others"])

    def test_head_that_comes_again(self):
        self.bench("one", "printf 'step\\tms\\nwhole\\t1\\nstep\\thalf us\\taim\\npaint\\t2\\t3\\n'")
        self.assertEqual(self.all("one").returncode, 0)
        tables = "|step|ms|\n|---|---|\n|whole|1|\n\n|step|half µs|aim|\n|---|---|---|\n|paint|2|3|\n<!-- end -->"
        self.assertIn(tables, (self.top / "docs/PERFORMANCE.md").read_text())

    def test_revision(self):
        (self.top / "crates").mkdir()
        (self.top / "crates/source").touch()
        (self.top / "magicd").write_text("#!/usr/bin/env bash\n")
        (self.top / "magicd").chmod(0o755)
        self.bench("two", "printf 'head\\nrow\\n'")
        for words in (["init", "-q"], ["add", "-A"], ["-c", "user.name=n", "-c", "user.email=e", "commit", "-qm", "first"]):
            subprocess.run(["git", *words], cwd=self.top, check=True)
        for source, dirty in (("", ""), ("", ""), ("changed", "-dirty")):
            (self.top / "crates/source").write_text(source)
            self.assertEqual(self.all(program="").returncode, 0)
            said = re.findall(r"`bench/\w+\.sh` of `(\w{12})(-dirty)?`, ", (self.top / "docs/PERFORMANCE.md").read_text())
            self.assertEqual([each for _, each in said], [dirty, dirty])

    def test_faults(self):
        ended = self.all("three")
        self.assertEqual((ended.returncode, ended.stderr[:17]), (1, "bench/all: three:"))
        self.bench("one", "exit 3")
        self.bench("two", "printf 'head\\nrow\\n'")
        ended = self.all()
        self.assertEqual(ended.returncode, 1)
        self.assertTrue(ended.stderr.endswith("\nbench/all: 1 of 2 benches failed: bench/one.sh failed with status 3\n"), ended.stderr)
        page = (self.top / "docs/PERFORMANCE.md").read_text()
        self.assertIn("<!-- bench/one.sh -->\nold\n", page)
        self.assertIn("|head|\n|---|\n|row|\n", page)
        self.assertIn("by its name alone", page)


if __name__ == "__main__":
    unittest.main()
