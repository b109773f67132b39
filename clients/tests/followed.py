"""A served process to test, whose sessions are looked at beside who has them."""

import pathlib
import socket
import subprocess
import tempfile
import time
import unittest

from tests.magics import compiled
from tests.serving import GENEROUS, HERE, SERVER, Client
from tests.squares import squares_shown, squares_told

from kolasieve.served import Served

def free_ports(count):
    """Returns a port at which nobody listens, nor at those after it."""
    while True:
        with socket.socket() as first:
            first.bind(("127.0.0.1", 0))
            port = first.getsockname()[1]
            try:
                for each in range(1, count):
                    with socket.socket() as other:
                        other.bind(("127.0.0.1", port + each))
            except (OSError, OverflowError):
                continue
            return port


class ServedCase(unittest.TestCase):
    """A served process in a folder that goes with the test."""

    technology = "scmos"
    # Whether there is a log of each group.
    log = False
    words = ()

    def setUp(self):
        folder = tempfile.TemporaryDirectory()
        self.addCleanup(folder.cleanup)
        self.folder = pathlib.Path(folder.name)
        self.process = compiled(self.technology)
        self.address = self.folder / "address"
        self.port = free_ports(len(self.process.groups))
        # A connection to each group's relay.
        self.lookers = {}
        self.addCleanup(self.hang_up)
        self.addCleanup(self.end)
        self.serve()

    def command(self, *words):
        where = ["--listen", f"127.0.0.1:{self.port}", "--address", str(self.address), "--token", str(self.folder / "token")]
        where += ["--log", self.where_logs_are()] if self.log else []
        served = ["serve", str(self.process.folder), *where, "--server", SERVER]
        return [str(HERE.parent / "process"), *served, *self.words, *words]

    def where_logs_are(self):
        return str(self.folder / "log")

    def serve(self):
        """Serves the process, and waits until its address file is there."""
        self.address.unlink(missing_ok=True)
        with open(self.folder / "messages", "a", encoding="utf-8") as messages:
            self.server = subprocess.Popen(self.command(), stderr=messages, start_new_session=True)
        self.until(self.is_served)
        self.served = Served.read(self.address)

    def is_served(self):
        self.assertIsNone(self.server.poll(), self.said())
        return self.address.exists()

    def said(self):
        return (self.folder / "messages").read_text(encoding="utf-8")

    def until(self, found, pause=0.1):
        """Returns what this finds, once it finds something."""
        end = time.monotonic() + GENEROUS
        while not (result := found()):
            if time.monotonic() > end:
                self.fail("it doesn't come; the relays' messages are: " + self.said())
            time.sleep(pause)
        return result

    def end(self):
        """Ends the relays."""
        if self.server.poll() is None:
            self.server.terminate()
            self.assertEqual(self.server.wait(GENEROUS), 0, self.said())

    def squares(self, name):
        """Returns what the sessions of a name show that are in use; nothing where one isn't."""
        return [self.squares_of(number, name) for number in range(len(self.process.groups))]

    def told(self, layers):
        """Returns what sessions are to show of layers."""
        return [squares_told(self.process, number, layers) for number in range(len(self.process.groups))]

    def compare(self, name, layers):
        """Compares what the sessions of a name show with layers."""
        self.assertEqual(self.squares(name), self.told(layers))

    def squares_of(self, number, name):
        head, _, text = self.shown(number, name).partition("\n")
        return squares_shown(self.process, number, text) if head.startswith(f"{name} saved ") else None

    def shown(self, number, name):
        """Returns what a group's relay replies to who wants to see a session."""
        if number not in self.lookers:
            self.lookers[number] = Client(("127.0.0.1", self.port + number))
            self.lookers[number].send((self.folder / "token").read_text())
        try:
            if reply := self.lookers[number].ask(f"@show {name}")[0]:
                return reply
        except OSError:
            pass
        # The relay was started again.
        self.lookers.pop(number).close()
        return self.shown(number, name)

    def hang_up(self):
        for client in self.lookers.values():
            client.close()
