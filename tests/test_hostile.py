"""Scripts of strangers: lines that can't be read, bytes that are no text, words in wrong places, and long lines."""

import collections
import random
import re
import unittest

from tests.serving import parted, replies_in, serve, serve_by_bytes

LONG = "Name_of_32_bytes_0123456789_abcd"

# Lines, most of which can't be read; lines with bytes that no word of the language has; lines of many lengths, of which
# those of more than 1024 bytes are faults; and names.
TABLES = [
    [
        ("%foo", 1), ("%step", 3), ("%open a-b", 3), ("a what", 4), ("%open a", "a opened"), ("a box 1 2 3", 1),
        ("a box 0 0 4294967296 1", 2), ("a drc find", 1), ("%open a", "a refused open 1 open already"),
        ("a erase poly,", "a refused 3 no box"), ("x" * 1025, 1),
    ],
    [
        (b"%open a", "a opened"), (b"\0", 3), (b"\xff what", 3), (b"a\0 what", 3), (b"a what\xff", 1),
        (b"\0%open b", 3), (b"a paint \xff", "a refused 3 no box"), (b"a erase \0,poly", "a refused 3 no box"),
        (b"#\xff\0", None), (b" \t\r", None), (b"a box 0 0 \xff 4\r", 2), (b"a what\r", "a refused 3 no box"),
    ],
    [
        ("#" * 1024, None), (" " * 1024 + "\r", None), ("#" * 1025, 1), (" " * 1025 + "\r", 1), ("%" * 1023, 1),
        ("#" * 4096, 1), ("a" * 10000 + "\r", 1), ("", None), ("\t" * 1024 + "\r", None),
    ],
    [
        (f"%open {LONG}e", 3), (f"%open {LONG}", f"{LONG} opened"), (f"{LONG} what", f"{LONG} refused 3 no box"),
        (f"{LONG[:-1]}D what", 4), (f"{LONG}e what", 3),
    ],
]

# Lines that can be read.
READABLE = re.split(r"[|\n]", """%open a|%open b|%open c|%close a|%close b|%step a|%step b|%steps a 3|%audit a|%audit c
%save a|%stat b|%uses a|%marks b|%journal b|%why c 0 0 9 9|%errors a 0 0 9 9|%violations b 0 0 9 9|a box 0 0 4 4
a box 3 0 9 9|b box 0 0 1 10|b box 5 5 5 9
c box -1048576 0 -1048568 2|a paint poly|a paint ndiff|b paint m1|b paint gold|c paint p|a erase poly|b erase poly,m1
c erase gold|a dump c 0 0|b getcell c 0 0|a what|b what|a save|c save|a drc check|b drc catchup|c drc why|a drc count
b drc count""")

# Words of the language, and some that have no place in it.
WORDS = ["\t", *"""%open %close %step %steps %audit %save %stat %uses %marks %journal %why %errors %violations %foo a b c a-b
box paint erase dump getcell what save drc check catchup why count poly m1 gold poly,m1 , 0 4 -5 99999999999 +1 #""".split()]


def random_lines(count):
    """Returns lines of which half are of random words, and the others can be read."""
    dice = random.Random(2026)
    lengths = [dice.randrange(14) for _ in range(count)]
    return ["".join(f"{dice.choice(WORDS)} " for _ in range(n)) if n < 7 else dice.choice(READABLE) for n in lengths]


def has_reply(line):
    return not line.startswith("#") and bool(line.split())


def name_in(line):
    """Returns the name of the session that a line names: its first word that doesn't begin with `%`."""
    return next((word for word in line.split() if not word.startswith("%")), None)


def fault_in(reply):
    """Returns the number of the line whose fault a reply is, or nothing."""
    found = re.fullmatch(r"line (\d+) fault [1-4] [a-z ]+", reply)
    return found and int(found[1])


class Hostile(unittest.TestCase):
    def test_lines_that_cannot_be_read(self):
        for rows in TABLES:
            script, replies = parted(rows)
            for run in (serve, serve_by_bytes):
                self.assertEqual(run(["--quota", "5"], script), (replies, "", 0))

    def test_line_of_a_million_bytes(self):
        script, replies = parted([("x" * 1_000_000, 1), ("%open a", "a opened"), ("a what", "a refused 3 no box")])
        self.assertEqual(serve([], script), (replies, "", 0))

    def test_each_line_of_random_words_has_one_reply(self):
        lines = random_lines(100_000)
        ending = serve(["--quota", "64"], "\n".join(lines))
        self.assertEqual((ending.messages, ending.status), ("", 0))
        replied = [(number, line) for number, line in enumerate(lines, 1) if has_reply(line)]
        replies = replies_in(ending.output)
        self.assertEqual(len(replies), len(replied))
        for (number, line), reply in zip(replied, replies):
            fault = fault_in(reply)
            self.assertTrue(fault == number if fault else reply.startswith(f"{name_in(line)} "), (number, line, reply))

    def test_as_many_replies_as_lines_that_are_carried_out_as_they_come(self):
        lines = random_lines(20_000)
        for workers in ("0", "3"):
            ending = serve(["--live", "--workers", workers], "\n".join(lines))
            self.assertEqual((ending.messages, ending.status), ("", 0))
            replies = replies_in(ending.output)
            faults = collections.Counter(filter(None, map(fault_in, replies)))
            self.assertEqual(set(faults.values()), {1})
            self.assertTrue(all(has_reply(lines[number - 1]) for number in faults))
            others = [line for number, line in enumerate(lines, 1) if has_reply(line) and number not in faults]
            names = [reply.split(" ")[0] for reply in replies if not fault_in(reply)]
            self.assertEqual(collections.Counter(names), collections.Counter(map(name_in, others)))
