"""Real streams that fail: what is written up to then, the message, and the status."""

import os
import socket
import unittest

from tests.serving import Ending, ran, serve

SCRIPT = b"%open a\na box 0 0 1 10\na paint poly\na drc catchup\na drc count\n"
WORKERS = ["--workers", "2"]
LIVE = ["--live", "--workers", "3"]


def broken_input(words, script):
    """Runs the program on an input that fails behind the script."""
    ours, theirs = socket.socketpair()
    with theirs:
        # An end that is closed before it has read all that came breaks the other one.
        theirs.send(b"unread")
        ours.sendall(script)
        ours.close()
        return ran(words, stdin=theirs)


def full_output(words):
    """Runs the program on an output that takes nothing, and returns its messages and its status."""
    with open("/dev/full", "wb") as output:
        ending = serve(words, SCRIPT, stdout=output)
    return ending.messages, ending.status


class Streams(unittest.TestCase):
    def test_input_that_fails(self):
        for words, output in (([], "a opened\na ok\n"), (WORKERS, ""), (LIVE, "a opened\na ok\n")):
            with self.subTest(words):
                ending = broken_input(words, SCRIPT[:30])
                self.assertEqual(ending, Ending(output, "magicd: input failed\n", 1))

    def test_output_that_fails(self):
        for words in ([], WORKERS, LIVE):
            with self.subTest(words):
                self.assertEqual(full_output(words), ("magicd: output failed\n", 1))

    def test_output_that_is_closed(self):
        for words in ([], LIVE):
            with self.subTest(words):
                ours, theirs = os.pipe()
                os.close(ours)
                with open(theirs, "wb") as output:
                    ending = serve(words, SCRIPT, stdout=output)
                self.assertEqual((ending.messages, ending.status), ("magicd: output failed\n", 1))

    def test_a_message_is_one_write(self):
        ours, theirs = socket.socketpair(socket.AF_UNIX, socket.SOCK_SEQPACKET)
        with ours, theirs:
            ending = serve(["--tech", "m.tech"], SCRIPT, {"m.tech": "tech\n  M\nend\nplanes\n"}, stderr=theirs)
            theirs.close()
            self.assertEqual(ending.status, 1)
            message = ours.recv(4096)
            self.assertTrue(message.startswith(b"magicd: tech line "), message)
            self.assertTrue(message.endswith(b"\n"), message)
            self.assertEqual(ours.recv(4096), b"")
