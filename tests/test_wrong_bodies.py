"""The wrong bodies that pages name are there: those of docs/GATE.md with the clauses and tests that refuse them, and those
that crates' README.md have beside their promises.
"""

import pathlib
import re
import unittest

ROOT = pathlib.Path(__file__).resolve().parent.parent
CRATES = ROOT / "crates"
PAGE = ROOT / "docs/GATE.md"
TITLE = "## Bodies that are always refused"
REFUSED = re.compile(r"\| `(\w+)` \| `(\w+)` \| `(?:(\w+)::)?(\w+)`(?:: `(\w+)`)? \|")
TESTED = re.compile(r"\| `\w+`: [^|]+ \| ([^|]+) \|")
PROMISES = "| promise | contract | wrong body |\n|---|---|---|\n"
BESIDE = re.compile(r"`(\w+)`(?: of \[`(mls_\w+)`\])?")
FUNCTION = re.compile(r"^ *(?:pub(?:\([a-z]+\))? )?fn (\w+)", re.MULTILINE)
OWNER = re.compile(r"^impl(?:<[^{]*?>)? (?:[\w<>', ]+ for )?(\w+)", re.MULTILINE)


def section():
    """Returns the page's lines on these bodies, in its tables."""
    text = PAGE.read_text(encoding="utf-8").split(TITLE + "\n", 1)[1].split("\n## ", 1)[0]
    return [line for line in text.splitlines() if line.startswith("| `")]


def edits(crate):
    """Returns the names of a crate's wrong bodies, those that the gate leaves out among them."""
    return {path.name.split(".")[0] for path in (CRATES / crate / "must-fail").glob("*.edit*")}


def named_beside(page):
    """Returns the wrong bodies that a README.md names beside its promises, each with its crate."""
    rows = page.read_text(encoding="utf-8").split(PROMISES, 1)[1].split("\n\n", 1)[0].splitlines()
    bodies = (body for row in rows for body in BESIDE.findall(row.rsplit(" | ", 1)[1]))
    return [(crate or page.parent.name, name) for name, crate in bodies]


def last(pattern, text):
    """Returns the last match of a pattern in a text, if any."""
    found = None
    for found in pattern.finditer(text):
        pass
    return found


def heads(crate, owner, name):
    """Returns the signatures, with their clauses, of the functions of this name in a crate, and the files that they stand in."""
    found = []
    for path in sorted((CRATES / crate / "src").rglob("*.rt")):
        text = path.read_text(encoding="utf-8")
        for start in FUNCTION.finditer(text):
            above = last(OWNER, text[: start.start()])
            if start[1] == name and (owner is None or above and above[1] == owner):
                head = re.split(r"^ *\{$|\{$", text[start.start() :], maxsplit=1, flags=re.MULTILINE)[0]
                found.append((head, path.relative_to(CRATES / crate).as_posix()))
    return found


class WrongBodies(unittest.TestCase):
    """The tables of docs/GATE.md, and those of promises."""

    def test_each_edit_changes_the_file_of_a_function_with_its_clause(self):
        rows = [row for row in map(REFUSED.fullmatch, section()) if row]
        self.assertGreater(len(rows), 20)
        for row in rows:
            body, crate, owner, name, clause = row.groups()
            with self.subTest(body):
                edit = CRATES / crate / "must-fail" / f"{body}.edit"
                self.assertTrue(edit.is_file(), f"there is no {edit.relative_to(ROOT)}")
                changed = re.findall(r"^file: (\S+)$", edit.read_text(encoding="utf-8"), re.MULTILINE)
                wanted = f"ensures {clause} {{" if clause else "ensures {"
                clauses = [head for head, path in heads(crate, owner, name) if path in changed and wanted in head]
                self.assertTrue(clauses, f"{crate} has no {owner or ''} {name} with `{wanted}` in {changed}")

    def test_each_test_is_there(self):
        rows = [row for row in map(TESTED.fullmatch, section()) if row]
        self.assertGreater(len(rows), 4)
        for row in rows:
            with self.subTest(row[0]):
                for name, crate in re.findall(r"`(\w+)` of `(mls_\w+)`", row[1]):
                    self.assertTrue(heads(crate, None, name), f"{crate} has no test {name}")
                for pages in re.findall(r"the pages (.+) of `tests`", row[1]):
                    for page in re.findall(r"`(\w+)`", pages):
                        self.assertTrue((ROOT / f"tests/pages/{page}.page").is_file(), f"there is no page {page}")

    def test_each_row_is_read(self):
        for line in section():
            with self.subTest(line):
                self.assertTrue(REFUSED.fullmatch(line) or TESTED.fullmatch(line), "no such row")

    def test_each_readme_names_the_wrong_bodies_of_its_crate(self):
        for page in sorted(CRATES.glob("*/README.md")):
            if PROMISES not in page.read_text(encoding="utf-8"):
                continue
            with self.subTest(page.parent.name):
                named = named_beside(page)
                self.assertEqual([name for crate, name in named if name not in edits(crate)], [])
                own = {name for crate, name in named if crate == page.parent.name}
                self.assertEqual(edits(page.parent.name) - own, set())
