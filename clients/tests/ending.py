"""A magicd that ends where it shouldn't: the real one, behind a program that ends it at some lines."""

import pathlib
import sys

from tests.serving import SERVER

TEXT = '''#!{python}
"""Hands lines on to magicd until all of some words were in its lines; writes down each line that has one of them."""

import pathlib
import subprocess
import sys

SERVER, WORDS, SEEN = {server!r}, {words!r}, {seen!r}

if WORDS == [""]:
    sys.exit("magicd: it can't start today")
magicd = subprocess.Popen([SERVER, *sys.argv[1:]], stdin=subprocess.PIPE)
there = set()
for line in sys.stdin.buffer:
    found = [word for word in WORDS if word.encode() in line]
    if found:
        with open(SEEN, "ab") as seen:
            seen.write(line)
    there.update(found)
    if there == set(WORDS):
        magicd.kill()
        magicd.wait()
        sys.exit("magicd: these words end it")
    magicd.stdin.write(line)
    magicd.stdin.flush()
magicd.stdin.close()
sys.exit(magicd.wait())
'''


class Ending:
    """A program to start in place of magicd. It ends once it was asked lines with all of these words; with none, at once."""

    def __init__(self, folder, *words):
        self.path = pathlib.Path(folder) / "ending"
        self.seen_path = pathlib.Path(folder) / "seen"
        self.end_at(*words)

    def end_at(self, *words):
        text = TEXT.format(python=sys.executable, server=SERVER, words=list(words or [""]), seen=str(self.seen_path))
        new = self.path.with_suffix(".new")
        new.write_text(text)
        new.chmod(0o755)
        new.rename(self.path)

    def seen(self):
        """Returns the lines with these words that it was asked."""
        return self.seen_path.read_text().splitlines() if self.seen_path.exists() else []
