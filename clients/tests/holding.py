"""A magicd that takes its time: the lines of the session `held` reach it once a file is there."""

import pathlib
import sys

from tests.serving import SERVER

TEXT = '''#!{python}
"""Hands lines on to magicd, those of the session `held` once a file is there. No line may have a fault."""

import os
import subprocess
import sys
import threading
import time

SERVER, GO = {server!r}, {go!r}

magicd = subprocess.Popen([SERVER, *sys.argv[1:]], stdin=subprocess.PIPE)
kept = []
lock = threading.Lock()


def hand_on(line):
    magicd.stdin.write(line)
    magicd.stdin.flush()


def watch():
    while True:
        with lock:
            if os.path.exists(GO):
                for line in kept:
                    hand_on(line)
                kept.clear()
        time.sleep(0.02)


threading.Thread(target=watch, daemon=True).start()
for line in sys.stdin.buffer:
    with lock:
        if b"held" in line.split()[:2]:
            kept.append(line)
        else:
            hand_on(line)
os._exit(0)
'''


class Holding:
    """A program to start in place of magicd."""

    def __init__(self, folder):
        self.path = pathlib.Path(folder) / "holding"
        self.go_path = pathlib.Path(folder) / "go"
        self.path.write_text(TEXT.format(python=sys.executable, server=SERVER, go=str(self.go_path)))
        self.path.chmod(0o755)
        self.go()

    def go(self):
        self.go_path.touch()

    def hold(self):
        self.go_path.unlink()
