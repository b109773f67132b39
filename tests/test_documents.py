"""What the pages and the examples show is what the program does."""

import os
import pathlib
import re
import subprocess
import tempfile
import unittest

from tests.documents import NOT_RUN, RUN, blocks, commands, given, pages
from tests.serving import ROOT, SERVER, serve

# How wide the left column of a page's example is: lines stand there, and replies to the right.
LEFT = 25


def block_with(page, text):
    """Returns the block of a page that has a text in it; there is one."""
    (found,) = [each for each in blocks(page) if text in each]
    return found


def typed(text, stdin=""):
    """Types commands where `magicd` and the examples are, with a home of their own; returns the output, messages too."""
    with tempfile.TemporaryDirectory() as folder:
        top = pathlib.Path(folder, "top")
        top.mkdir()
        (top / "magicd").symlink_to(SERVER)
        (top / "examples").symlink_to(ROOT / "examples")
        run = subprocess.run(
            ["bash", "-euc", text], input=stdin, stdout=subprocess.PIPE, stderr=subprocess.STDOUT, cwd=top, text=True,
            env={**os.environ, "HOME": folder}, timeout=60, check=False,
        )
    return run.stdout


class Examples(unittest.TestCase):
    def test_each_with_its_replies(self):
        scripts = sorted((ROOT / "examples").glob("*.txt"))
        self.assertEqual([each.with_suffix(".replies") for each in scripts], sorted((ROOT / "examples").glob("*.replies")))
        for script in scripts:
            with self.subTest(script.name):
                command = re.search(r"\A# .* Run it by\n#     (\./magicd .*< examples/(.*))\n", script.read_text())
                self.assertEqual(command[2], script.name)
                self.assertEqual(typed(command[1]), script.with_suffix(".replies").read_text())

    def test_those_of_pages(self):
        pages = ["README.md", *(str(each.relative_to(ROOT)) for each in sorted((ROOT / "docs").glob("*.md")))]
        found = [(page, block) for page in pages for block in blocks(page) if re.match(rf"%open .{{{LEFT - 6}}}\S", block)]
        self.assertGreater(len(found), 3)
        for page, block in found:
            with self.subTest(page):
                rows = block.splitlines()
                script = "".join(row[:LEFT].rstrip() + "\n" for row in rows)
                wanted = [row[LEFT:] for row in rows]
                self.assertEqual(serve([], script).output.splitlines()[-len(wanted):], wanted)

    def test_the_technology_that_is_built_in(self):
        self.assertIn((ROOT / "examples/m.tech").read_text(), blocks("docs/TECHNOLOGY.md"))

    def test_cells(self):
        cell = block_with("docs/CELLS.md", "timestamp 7\n")
        self.assertEqual(serve(["inv=inv.mag"], "%open a\n", {"inv.mag": cell}), ("a opened\n", "", 0))
        lines = ["box 0 0 1 10", "paint poly", "drc catchup", "box -10 2 1 8", "paint m1"]
        script = "%open a\n" + "".join(f"a {line}\n" for line in lines) + "%marks a\n"
        marks = block_with("docs/CELLS.md", "<< checkpaint >>")
        self.assertTrue(serve([], script).output.endswith(f"\na marked {marks.count(chr(10))}\n{marks}"))


def anchors(text):
    """Returns the anchors of a page's headings."""
    return {re.sub(r"[^\w\- ]", "", each.lower()).strip().replace(" ", "-") for each in re.findall(r"(?m)^#+ (.*)$", text)}


class Links(unittest.TestCase):
    def test_each_leads_to_a_page_and_a_heading(self):
        pages = [page for each in ("*", "docs/*", "crates/*/README", "tests/*", "clients/tests/*") for page in ROOT.glob(f"{each}.md")]
        self.assertGreater(len(pages), 30)
        for page in pages:
            for link in re.findall(r"\]\(([^)\s]+)\)", page.read_text()):
                path, _, heading = link.partition("#")
                if ":" in path:
                    continue
                with self.subTest(page.relative_to(ROOT), link=link):
                    to = (page.parent / path).resolve() if path else page
                    self.assertTrue(to.exists())
                    self.assertTrue(not heading or heading in anchors(to.read_text()))


class Pages(unittest.TestCase):
    def test_each_has_a_row(self):
        named = re.findall(r"`(\w+)`", "".join(re.findall(r"(?m)^\| (`[^|]*)\|", (ROOT / "tests/README.md").read_text())))
        pages = {each.stem for each in (ROOT / "tests/pages").glob("*.page")}
        self.assertEqual(pages - set(named), set())


class Commands(unittest.TestCase):
    def test_of_the_readme(self):
        played = given(self, "README.md")
        self.assertGreater(len(played), 1)
        for command in played:
            example = re.search(r"< examples/(\w+)\.txt\Z", command)[1]
            replies = (ROOT / f"examples/{example}.replies").read_text()
            self.assertEqual(typed(command.replace("--try ", "")), replies, command)

    def test_pipe(self):
        *pipe, last = given(self, "README.md")
        self.assertRegex(last, r"\Atail -f ~/replies \| grep '\^ben '\Z")
        last = last.replace("tail -f", "cat")
        self.assertEqual(typed("\n".join([*pipe, "exec 3>&-", "wait", last])), "ben opened\n")

    def test_saved_text(self):
        (recipe,) = given(self, "docs/OPERATING.md")
        painted = "%open ben\n%open ann\nben box 0 0 1 2\nann box 7 7 8 8\nann paint poly\nben paint poly\n"
        script = painted + "%save ben\nben paint m1\n%save ann\n%save ben\n%save ann\nben what\n"
        replies = serve([], script).output
        wanted = replies.rpartition("ben saved 7\n")[2].partition("ann saved")[0]
        self.assertTrue(wanted.endswith("<< m1 >>\nrect 0 0 1 2\n<< end >>\n"))
        self.assertEqual(typed(f"cat > replies\n{recipe}\ncat ben.mag", replies), wanted)

    def test_each_is_run_or_named(self):
        found = [(page, command) for page in pages() for command in sum(commands(page), [])]
        self.assertGreater(len(found), 50)
        for page, command in found:
            with self.subTest(page, command=command):
                rows = [row for row in (*RUN, *NOT_RUN) if row[0] == page and re.match(row[1], command)]
                self.assertEqual(len(rows), 1, f"which of tests/documents.py run it? {rows}")
        for page, beginning, *_ in (*RUN, *NOT_RUN):
            with self.subTest(page, beginning=beginning):
                here = [command for where, command in found if where == page]
                self.assertTrue(any(re.match(beginning, command) for command in here), "no such command")

    def test_each_test_takes_them(self):
        for page, _, path, name in RUN:
            with self.subTest(page, test=name):
                functions = re.split(r"(?m)^ +def (?=\w+\(self)", (ROOT / path).read_text())
                self.assertTrue(any(each.startswith(f"{name}(self)") for each in functions))
                self.assertIn(f'given(self, "{page}")', "".join(functions))


if __name__ == "__main__":
    unittest.main()
