"""Technology M and cell files, cut at each byte and with each byte changed: what a second reader says of them.

The program shows the fault of a file by its message, a technology without one by its skipped lines and by replies, and
a cell by a saved text once it was dumped.
"""

import unittest

from tests.plain_files import CELL_FAULTS, Fault, Technology, last_line, read_cell, strips_of
from tests.probes import ending_of_technology, runs_of
from tests.serving import CELL, ROOT, in_parallel

M = (ROOT / "examples/m.tech").read_bytes()

# What a byte is replaced by, beside itself with a bit flipped.
BYTES = 0, 9, 10, 13, 32, 34, 47, 44, 126, 127, 255

# The lines of technology M that name a section, and those that end it.
SECTIONS = (1, 3), (4, 7), (8, 12), (13, 18)

# Sections of each kind, rectangles over one another and along the world's border, and a line that is never read.
AMPLE = b""" magic

tech M
magscale 1 1
<< nd >>\r
rect -2 -3 2 4
\trect 0 0 4 3\r
<< checkpaint >>
rect 0 0 9 9
<< p >>
rect 0 -1 1 02
<< checksubcell >>
tse x
<< m1 >>
rect 1 0 4 3
rect 7 -1048576 1048576 -1048575
<< error_s >>
tri 0 0 2 2 s
<< labels >>
use x
<< properties >>
use x
<< elements >>
use x
<< poly >>
<< ndiff >>
<< end >>
use y
"""

# Cell files with their faults and the lines of these, as they stand.
CELLS = {
    CELL.encode(): None, AMPLE: None, b"magic\n<< p >>\nuse x\n<< end >>\n": (3, 3),
    b"magic\n<< p >>\ntri 0 0 2 2 s\n<< end >>\n": (10, 3),
}


def damaged(file):
    """Returns a file with a byte changed, for each place and each byte."""
    return [file[:place] + bytes([byte]) + file[place + 1:] for place, old in enumerate(file)
            for byte in {*BYTES, *(old ^ 1 << bit for bit in range(8))} - {old}]


def beginnings(file):
    return [file[:length] for length in range(len(file) + 1)]


class DamagedTechnologies(unittest.TestCase):
    def expect_as_read(self, file):
        """Asserts that the program shows what the second reader says of a technology."""
        script, replies, messages = ending_of_technology(file)
        ending = runs_of(["--tech", "file"], script or b"%open a\n", file)
        self.assertEqual(ending, (replies, messages, 0 if script else 1), file)

    def test_whole(self):
        self.assertEqual(Technology(M).name, b"M")
        self.expect_as_read(M)
        self.expect_as_read(M.replace(b"\n", b"\r\n"))

    def test_each_beginning(self):
        accepted = 0
        for beginning in beginnings(M):
            line = open_section(beginning)
            accepted += line is None
            try:
                Technology(beginning)
                self.assertIsNone(line, beginning)
            except Fault as fault:
                self.assertEqual((fault.number, fault.line), (2, line), beginning)
        self.assertEqual(accepted, 9)
        in_parallel(self.expect_as_read, beginnings(M))

    def test_each_byte_changed(self):
        in_parallel(self.expect_as_read, damaged(M))


def open_section(beginning):
    """Returns the line of the section that a beginning of technology M leaves open, if it leaves one open."""
    last, is_end = last_line(beginning), beginning.endswith((b"end", b"end\n"))
    return next((name for name, end in SECTIONS if name <= last <= end and not (last == end and is_end)), None)


# ---- cells

TYPES = {b"poly": 1, b"p": 1, b"ndiff": 2, b"nd": 2, b"m1": 3}


def saved_text(rects):
    """Returns the saved text of what a cell shows, under technology M."""
    lines = [b"magic", b"tech M"]
    for kind, name in (1, b"poly"), (2, b"ndiff"), (3, b"m1"):
        strips = [sides for shown, sides in strips_of(rects, (1, 2) if kind < 3 else (3,)) if shown == kind]
        lines += [b"<< %s >>" % name] * bool(strips) + [b"rect %d %d %d %d" % sides for sides in strips]
    return [*lines, b"<< end >>"]


class DamagedCells(unittest.TestCase):
    def expect_as_read(self, file):
        """Asserts that the program shows what the second reader says of a cell."""
        try:
            text = saved_text(read_cell(file, TYPES))
            replies, messages = b"\n".join([b"a opened", b"a ok", b"a saved %d" % len(text), *text, b""]), b""
        except Fault as fault:
            text = CELL_FAULTS[fault.number].encode()
            replies, messages = b"", b"magicd: cell c line %d fault %d %s\n" % (fault.line, fault.number, text)
        ending = runs_of(["--pool", "6000", "c=file"], b"%open a\na dump c 0 0\na save\n", file)
        self.assertEqual(ending, (replies, messages, 1 if messages else 0), file)

    def test_whole(self):
        for file, wanted in CELLS.items():
            try:
                read_cell(file, TYPES)
                self.assertIsNone(wanted)
            except Fault as fault:
                self.assertEqual((fault.number, fault.line), wanted)
            self.expect_as_read(file)

    def test_each_beginning(self):
        accepted = 0
        for beginning in beginnings(CELL.encode()):
            try:
                read_cell(beginning, TYPES)
                accepted += 1
            except Fault as fault:
                self.assertEqual((fault.number, fault.line), (1, last_line(beginning)), beginning)
        self.assertEqual(accepted, 2)
        in_parallel(self.expect_as_read, [beginning for file in CELLS for beginning in beginnings(file)])

    def test_each_byte_changed(self):
        in_parallel(self.expect_as_read, [file for cell in CELLS for file in damaged(cell)])
