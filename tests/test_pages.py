"""Plays the pages on the program: a test for each page, named after it."""

import difflib
import os
import pathlib
import re
import subprocess
import tempfile
import unittest

from tests import pages
from tests.documents import ROOT, blocks, given

SERVER = pathlib.Path(os.environ.get("KOLASIEVE_SERVER", ROOT / "crates/magicd/out/magicd")).resolve()


def play(case, words):
    """Runs the program with these words in a folder that has the files of a case and the examples."""
    with tempfile.TemporaryDirectory() as folder:
        for name, content in case.files.items():
            pathlib.Path(folder, name).write_bytes(content)
        pathlib.Path(folder, "examples").symlink_to(ROOT / "examples")
        return subprocess.run(
            words, executable=SERVER, cwd=folder, input=case.script, capture_output=True, timeout=60, check=False
        )


def lines_of(text):
    """Returns the lines of a text as pages have them."""
    lines = re.findall(rb"[^\n]*\n|[^\n]+", text)
    return [pages.shown(line) for line in lines]


def ending(output, status, messages):
    """Returns the lines of how a run ended."""
    return [*lines_of(output), f"status {status}", *(f"message {line}" for line in lines_of(messages))]


def difference(case, ended):
    """Returns how a run ended otherwise than its case says, as a unified diff; nothing where it ended so."""
    messages = ended.stderr
    if case.more_messages and messages.startswith(case.messages):
        messages = case.messages
    expected = (case.output, case.status, case.messages)
    if expected == (ended.stdout, ended.returncode, messages):
        return ""
    return "\n".join(
        difflib.unified_diff(
            ending(*expected), ending(ended.stdout, ended.returncode, messages), "the page", "the program", lineterm=""
        )
    )


class Pages(unittest.TestCase):
    """The pages of `pages/`."""

    def play_page(self, path):
        for case in pages.read(path):
            for words in case.commands:
                with self.subTest(f"{path.name}:{case.line}: {case.title}", words=" ".join(words)):
                    found = difference(case, play(case, words))
                    if found:
                        self.fail("\n" + found)


class Form(unittest.TestCase):
    def test_example(self):
        """The page that README.md shows, and the ending below it, are played."""
        page, ending = blocks("tests/README.md")[:2]
        words = given(self, "tests/README.md")
        with tempfile.TemporaryDirectory() as folder:
            path = pathlib.Path(folder, "example.page")
            path.write_text(f"{page}\n# Too small a quota.\n$ magicd --quota 4\n{ending}", encoding="utf-8")
            *cases, last = pages.read(path)
        self.assertEqual([" ".join(each) for case in cases for each in case.commands], words)
        for case in (*cases, last):
            for each in case.commands:
                self.assertEqual(difference(case, play(case, each)), "")


def playing(path):
    """Returns a test that plays a page."""
    return lambda self: self.play_page(path)


for each in sorted((ROOT / "tests/pages").glob("*.page")):
    setattr(Pages, f"test_{each.stem}", playing(each))
