"""As many sessions, cells and tiles as there may be, and one more; and files of the system."""

import unittest

from tests.serving import CELL, parted, serve

FILES = {"c.mag": CELL}


def squares(count, first, is_tall=False):
    """Returns lines of so many squares, in a row or above each other, each with a gap behind."""
    places = (first + 2 * number for number in range(count))
    return "".join(f"rect 0 {at} 1 {at + 1}\n" if is_tall else f"rect {at} 0 {at + 1} 1\n" for at in places)


def wide_cell(first, count):
    """Returns a cell with so many squares in a row on each of two planes: 2046 of them have 4095 tiles on each."""
    row = squares(count, first)
    return f"magic\n<< poly >>\n{row}<< m1 >>\n{row}<< end >>\n"


def many(name, count):
    """Returns words that load a file as so many cells, with the greatest quota."""
    return ["--quota=16384", *(f"c{number}={name}" for number in range(count))]


class Limits(unittest.TestCase):
    def expect(self, words, rows, files=None):
        """Asserts the replies to lines."""
        script, replies = parted(rows)
        self.assertEqual(serve(words, script, files), (replies, "", 0))

    def expect_message(self, words, message, files):
        self.assertEqual(serve(words, "%open a\n", files), ("", f"magicd: {message}\n", 1))

    def test_sessions(self):
        self.expect([], [
            *((f"%open s{number}", f"s{number} opened") for number in range(64)),
            ("%open t", "t refused open 2 sessions full"), ("%open s9", "s9 refused open 1 open already"),
            ("%close s7", "s7 closed"), ("%open t", "t opened"), ("%open s7", "s7 refused open 2 sessions full"),
            ("s63 what", "s63 refused 3 no box"), ("t what", "t refused 3 no box"),
        ])

    def test_cells_of_a_library(self):
        rows = [("%open a", "a opened"), ("a dump c63 5 5", "a ok"), ("a dump c64 0 0", "a refused 7 unknown cell")]
        self.expect(many("c.mag", 64), rows, FILES)
        self.expect_message(many("c.mag", 65), "cell c64 line 0 fault 11 library full", FILES)

    def test_pool_that_cells_fill(self):
        # A session's two planes and its error plane take 49344 tiles of the pool's 262144, and each cell takes 8190.
        files = {"wide.mag": wide_cell(0, 2046)}
        for cells, reply in ((25, "a opened"), (26, "a refused open 3 pool full"), (32, "a refused open 3 pool full")):
            self.expect(many("wide.mag", cells), [("%open a", reply)], files)
        self.expect_message(many("wide.mag", 33), "cell c32 line 0 fault 8 pool full", files)
        self.expect_message(["--quota", "5", "--pool", "9", "c=c.mag"], "cell c line 0 fault 8 pool full", FILES)

    def test_cell_planes_of_4096_and_4097_tiles(self):
        # At the world's left border there is no space to the left of the squares.
        self.expect(["c=c.mag"], [], {"c.mag": wide_cell(-1048576, 2047)})
        files = {"c.mag": wide_cell(-1048575, 2047)}
        self.expect_message(["c=c.mag"], "cell c line 0 fault 6 too many tiles", files)

    def greatest_layout(self):
        """Returns the saved text of a layout of 16,384 tiles on each of two planes, and asserts how it came to be."""
        script, replies = "%open a\n", "a opened\n"
        for bottom in (0, 2, 4, 6):
            script, replies = script + f"a dump c 0 {bottom}\n", replies + "a ok\n"
        for left, reply in ((0, "ok"), (4, "ok"), (-1048576, "ok"), (8, "refused 5 quota")):
            script += f"a box {left} 10 {left + 1} 11\na paint poly\na paint m1\n"
            replies += f"a ok\na {reply}\na {reply}\n"
        ending = serve(["--quota=16384", "c=c.mag"], script + "a save\n", {"c.mag": wide_cell(0, 2046)})
        # A line for each of 16,374 squares, and five others.
        self.assertTrue(ending.output.startswith(replies + "a saved 16379\n"))
        return ending.output.partition("a saved 16379\n")[2]

    def test_layout_of_the_greatest_quota_as_a_cell(self):
        files = {"s.mag": self.greatest_layout()}
        ending = serve(["--quota=16384", "--cell-tiles=16384", "s=s.mag"], "%open a\na dump s 0 0\na save\n", files)
        self.assertEqual(ending, ("a opened\na ok\na saved 16379\n" + files["s.mag"], "", 0))
        for option in ("--quota=16384", "--cell-tiles=16383"):
            self.expect_message([option, "s=s.mag"], "cell s line 0 fault 6 too many tiles", files)

    def test_planes_of_4096_and_4097_tiles_with_their_cells(self):
        # A cell with squares above each other, whose plane has 4093 tiles. Squares beside three of these make one tile
        # more each, and then one beside a fourth.
        column = "<< poly >>\n" + squares(1023, 0, is_tall=True)
        files = {"c.mag": f"magic\n{column}<< end >>\n"}
        boxes = [f"1 {bottom} 2 {bottom + 1}" for bottom in (0, 2, 4, 6)]
        areas = ["-4 -4 5 2049", *(f"-3 {bottom - 4} 6 {bottom + 5}" for bottom in (0, 2, 4, 6))]
        texts = [
            "magic\ntech M\n<< checkpaint >>\n" + "".join(f"rect {area}\n" for area in areas[:count + 1]) + column
            + "<< ndiff >>\n" + "".join(f"rect {box}\n" for box in boxes[:count]) + "<< end >>" for count in (3, 4)
        ]
        painted = [row for box in boxes for row in ((f"a box {box}", "a ok"), ("a paint ndiff", "a ok"))]
        for quota, cell_tiles, is_refused in (
            (17, 4096, True), (4096, 4096, True), (4097, 4096, False), (17, 4097, False), (17, 16384, False),
        ):
            last = "a refused 5 quota" if is_refused else f"a marked 1038\n{texts[1]}"
            rows = [("%open a", "a opened"), ("a getcell c 0 0", "a ok"), *painted]
            rows.insert(8, ("%marks a", f"a marked 1036\n{texts[0]}"))
            words = [f"--quota={quota}", f"--cell-tiles={cell_tiles}", "c=c.mag"]
            self.expect(words, [*rows, ("%marks a", last)], files)

    def test_technology_of_a_large_file(self):
        comments = "# A comment that makes the file a large one.\n" * 3000
        rules = 'types\np3 last\nend\ndrc\nwidth last 3 "w"\noverhang last\nend\n'
        files = {"large.tech": f"planes\np0\np1\np2\np3\nend\n{comments}{rules}"}
        ending = serve(["--tech", "large.tech"], "%open a\na box 0 0 1 1\na paint last\na what\n", files)
        replies = "a opened\na ok\na ok\na what 1 last\n"
        self.assertEqual(ending, (replies, "magicd: tech line 3012 skipped overhang\n", 0))

    def test_files_that_cannot_be_read(self):
        for path in ("large.tech", "no ne.tech", "a/file" * 100, "."):
            self.expect_message(["--tech", path], f"cannot read {path}", FILES)
