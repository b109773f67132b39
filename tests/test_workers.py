"""Workers that check behind a session whose own lines ask for no check: they come to an end of what awaits checking."""

import subprocess
import threading
import time
import unittest

from tests.serving import SERVER

# After so many seconds the program is ended, and the line that waits for a reply fails.
MOST_SECONDS = 120


class Workers(unittest.TestCase):
    def setUp(self):
        pipe = subprocess.PIPE
        self.server = subprocess.Popen([SERVER, "--live", "--workers", "1"], stdin=pipe, stdout=pipe, text=True)
        watch = threading.Timer(MOST_SECONDS, self.server.kill)
        watch.start()
        self.addCleanup(self.server.__exit__, None, None, None)
        self.addCleanup(watch.cancel)
        self.addCleanup(self.server.kill)

    def ask(self, *lines):
        """Sends lines, each once the one before has its reply, and returns the last reply."""
        for line in lines:
            self.server.stdin.write(f"{line}\n")
            self.server.stdin.flush()
            reply = self.server.stdout.readline().rstrip("\n")
            self.assertTrue(reply, f"no reply to {line}")
        return reply

    def count_once_checked(self):
        """Waits until no area awaits checking, and returns the count then."""
        while " 0 dirty," not in self.ask("%stat a"):
            time.sleep(0.001)
        return self.ask("a drc count")

    def test_each_piece_of_a_session(self):
        # The rectangle reaches past one piece.
        self.ask("%open a", "a box 0 0 300 1", "a paint poly")
        self.assertEqual(self.count_once_checked(), "a count 300 errors 0 pending")

    def test_what_is_painted_after_catching_up(self):
        # The seat claims the session as it catches up, and leaves it to the workers again.
        self.ask("%open a", "a box 0 0 1 10", "a paint poly", "a drc catchup", "a box 20 0 21 10", "a paint poly")
        self.assertEqual(self.count_once_checked(), "a count 20 errors 0 pending")
