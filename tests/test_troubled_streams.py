"""Scripts from inputs and to outputs of which a call fails, is interrupted or moves few bytes, at each call in turn."""

import errno
import os
import pathlib
import subprocess
import tempfile
import unittest

from tests.serving import ROOT, Ending, in_parallel, serve

# Scripts each of whose lines has a reply: the quota, the lines, and the replies.
LOOKS = 5, [
    ("%open a", "a opened"), ("a box 0 0 4 4\r", "a ok"), ("a paint poly", "a ok"), ("a what", "a what 1 poly"),
    ("b what", "line 5 fault 4 not open"), ("a paint gold", "a refused 4 unknown type"),
]
HOLE = 9, [
    ("%open a", "a opened"), ("a box 0 0 10 10", "a ok"), ("a paint poly", "a ok"), ("a box 4 4 6 6", "a ok"),
    ("a erase poly", "a ok"),
    ("a save", "a saved 8\nmagic\ntech M\n<< poly >>\nrect 0 0 10 4\nrect 0 4 4 6\nrect 6 4 10 6\nrect 0 6 10 10\n"
     "<< end >>"),
]
MIXED = 1024, [
    ("%open a", "a opened"), ("%open b", "b opened"), ("a box 0 0 1 10", "a ok"), ("b box 0 0 2 2", "b ok"),
    ("a paint poly", "a ok"), ("b paint poly", "b ok"), ("%step b", "b step done"), ("a drc catchup", "a ok"),
    ("b box 3 3 5 5", "b ok"), ("b paint poly", "b ok"), ("a drc count", "a count 10 errors 0 pending"),
    ("b drc catchup", "b ok"), ("b drc count", "b count 8 errors 0 pending"),
]

# Lines without replies, carriage returns, and a last line without its end.
UNENDED = "# a comment\n\n \t\r\n%open a\r\n a \t what \r\na\rb what\na paint space"
UNENDED_REPLIES = "a opened\na refused 3 no box\nline 6 fault 3 name\na refused 3 no box\n"

INPUT_FAILED = "magicd: input failed\n", 1
OUTPUT_FAILED = "magicd: output failed\n", 1
ENDED_WELL = "", 0


def length_of(row):
    return sum(len(line) + 1 for line, _ in row[1])


def pieces_of(replies, most):
    """Returns what each write takes, where one takes at most so many bytes and each reply is written by itself."""
    return [text[at:at + most] for text in replies for at in range(0, len(text), most)]


class TroubledStreams(unittest.TestCase):
    @classmethod
    def setUpClass(cls):
        folder = tempfile.TemporaryDirectory()
        cls.addClassCleanup(folder.cleanup)
        cls.library = str(pathlib.Path(folder.name, "trouble.so"))
        source = ROOT / "tests/trouble.c"
        subprocess.run(["cc", "-O1", "-Wall", "-Werror", "-shared", "-fPIC", "-o", cls.library, source], check=True)

    def served(self, row, most, **trouble):
        """Returns how the program ends on a script, with a stream that has trouble, and which calls it has made."""
        quota, rows = row
        script = "".join(f"{line}\n" for line, _ in rows)
        with tempfile.NamedTemporaryFile() as calls:
            settings = {"LD_PRELOAD": self.library, "TROUBLE_MOST": str(most), "TROUBLE_CALLS": calls.name}
            settings |= {f"TROUBLE_{name}": str(value) for name, value in trouble.items()}
            ending = serve(["--quota", str(quota)], script, env=os.environ | settings)
            return ending, calls.read().decode()

    def expect(self, row, most, output, rest, **trouble):
        ending, calls = self.served(row, most, **trouble)
        self.assertEqual(ending, Ending(output, *rest), (row, most, trouble))
        return calls

    def test_bytes_one_at_a_time(self):
        for row in (LOOKS, HOLE, MIXED):
            self.expect(row, 1, "".join(f"{reply}\n" for _, reply in row[1]), ENDED_WELL)
        settings = {"LD_PRELOAD": self.library, "TROUBLE_MOST": "1"}
        ending = serve(["--quota", "5"], UNENDED, env=os.environ | settings)
        self.assertEqual(ending, Ending(UNENDED_REPLIES, *ENDED_WELL))

    def test_each_reply_is_written_before_more_is_read(self):
        lines = [line for line, _ in LOOKS[1]]
        ending, calls = self.served(LOOKS, 1000)
        self.assertEqual((ending.messages, ending.status), ENDED_WELL)
        self.assertEqual(calls.count("w"), len(lines))
        ending, calls = self.served(LOOKS, 1)
        replies = [f"{reply}\n" for _, reply in LOOKS[1]]
        wanted = [("r" * len(f"{line}\n")) + "w" * len(reply) for line, reply in zip(lines, replies)]
        self.assertEqual(calls, "".join(wanted) + "r")

    def test_each_read_fails_in_turn(self):
        def check(case):
            row, calls = case
            lines = [f"{line}\n" for line, _ in row[1]]
            whole = "".join(lines)[:calls].count("\n")
            output = "".join(f"{reply}\n" for _, reply in row[1][:whole])
            made = self.expect(row, 1, output, INPUT_FAILED, READ=calls, ERRNO=errno.EIO)
            self.assertTrue(made.endswith("!"), made)

        in_parallel(check, [(row, calls) for row in (LOOKS, HOLE, MIXED) for calls in range(length_of(row) + 1)])

    def test_each_read_is_interrupted_in_turn(self):
        def check(calls):
            self.expect(LOOKS, 1, output, ENDED_WELL, READ=calls, ERRNO=errno.EINTR)

        output = "".join(f"{reply}\n" for _, reply in LOOKS[1])
        in_parallel(check, range(length_of(LOOKS) + 1))

    def test_each_write_fails_in_turn(self):
        def check(case):
            row, most, calls = case
            pieces = pieces_of([f"{reply}\n" for _, reply in row[1]], most)
            if calls == len(pieces):
                self.expect(row, most, "".join(pieces), ENDED_WELL, WRITE=calls, ERRNO=errno.EPIPE)
                return
            made = self.expect(row, most, "".join(pieces[:calls]), OUTPUT_FAILED, WRITE=calls, ERRNO=errno.EPIPE)
            self.assertTrue(made.endswith("!"), made)

        in_parallel(check, [
            (row, most, calls) for row in (LOOKS, HOLE, MIXED) for most in (1, 9, 1000)
            for calls in range(len(pieces_of([f"{reply}\n" for _, reply in row[1]], most)) + 1)
        ])

    def test_each_write_is_interrupted_in_turn(self):
        def check(case):
            most, calls = case
            self.expect(LOOKS, most, "".join(replies), ENDED_WELL, WRITE=calls, ERRNO=errno.EINTR)

        replies = [f"{reply}\n" for _, reply in LOOKS[1]]
        in_parallel(check, [(most, calls) for most in (1, 9, 1000) for calls in range(len(pieces_of(replies, most)))])

    def test_output_that_takes_nothing_has_failed(self):
        self.expect(LOOKS, 1, "a o", OUTPUT_FAILED, WRITE=3, ERRNO=0)
