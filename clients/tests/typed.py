"""Commands as a reader of the pages types them, in a folder with the clients and the examples and a home of its own."""

import os
import pathlib
import re
import subprocess
import sys
import tempfile
import time
import unittest

from tests.followed import free_ports
from tests.serving import GENEROUS, ROOT, SERVER

sys.path.append(str(ROOT / "tests"))

from documents import blocks, given  # noqa: F401, since tests take them from here


def rows(block):
    """Returns the lines of a block to the left, as a script, and the replies to the right."""
    parted = [re.split(r" {2,}", row, maxsplit=1) for row in block.splitlines()]
    return "".join(f"{line}\n" for line, *_ in parted if line), "".join(f"{reply}\n" for _, reply in parted)


class TypedCase(unittest.TestCase):
    def setUp(self):
        folder = tempfile.TemporaryDirectory()
        self.addCleanup(folder.cleanup)
        self.home = pathlib.Path(folder.name)
        self.top = self.home / "top"
        self.top.mkdir()
        for name in ("clients", "examples", "bench"):
            (self.top / name).symlink_to(ROOT / name)
        # A relay's port, with the next one, and a page's.
        self.port, self.page = free_ports(2), free_ports(2)
        self.variables = {"HOME": str(self.home)}
        self.messages = self.home / "messages"

    def here(self, command):
        """Returns a command with the ports and the program of this test."""
        command = command.replace("7777", str(self.port)).replace("8080", str(self.page))
        starts_server = re.match(r"clients/(relay|process (check|serve)) ", command)
        return f"{command} --server {SERVER}" if starts_server else command

    def start(self, command, **streams):
        """Starts a command; where it is one program, that can be ended."""
        command = command.replace("\\\n", " ")
        text = f"exec {command}" if re.fullmatch(r"[^|;&\n]*", command) else command
        started = subprocess.Popen(
            ["bash", "-c", text], cwd=self.top, env={**os.environ, **self.variables}, text=True, **streams
        )
        self.addCleanup(self.end, started)
        return started

    def end(self, started):
        # In order where it can be: what it has started ends with it.
        started.terminate()
        try:
            started.wait(10)
        except subprocess.TimeoutExpired:
            started.kill()
            started.wait()
        for stream in (started.stdin, started.stdout, started.stderr):
            if stream:
                stream.close()

    def ended(self, command, text=""):
        started = self.start(command, stdin=subprocess.PIPE, stdout=subprocess.PIPE, stderr=subprocess.STDOUT)
        return started.communicate(text, timeout=GENEROUS)[0], started.returncode

    def start_relay(self, command):
        """Starts relays by a command of a page, and waits until they listen, and for a page if it asks for one."""
        with open(self.messages, "w", encoding="utf-8") as messages:
            started = self.start(self.here(command), stderr=messages)
        for word in ("listening at", *(["page"] if "--page" in command else [])):
            self.until(lambda word=word: started.poll() is not None or word in self.messages.read_text())
        self.assertIsNone(started.poll(), self.messages.read_text())
        return started

    def until(self, found, pause=0.05):
        """Returns what this finds, once it finds something."""
        end = time.monotonic() + GENEROUS
        while not (result := found()):
            if time.monotonic() > end:
                self.fail("it doesn't come; the messages are: " + self.messages.read_text())
            time.sleep(pause)
        return result
