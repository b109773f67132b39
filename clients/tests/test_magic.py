"""Magic's own window, painted in with the mouse and by keys: the server has what it holds, and it shows what is forbidden."""

import pathlib
import random
import re
import time
from dataclasses import replace

from tests.followed import ServedCase
from tests.magics import flattened_by_magic, violations_by_magic
from tests.serving import SERVER, limit_files, programs
from tests.verdicts import inexact, reach_of
from tests.windows import Window, needs_window
from tests.wires import Wire

from kolasieve.check import Check
from kolasieve.edges import LESS, MORE
from kolasieve.flat import flattened
from kolasieve.hierarchy import Library
from kolasieve.index import Index
from kolasieve.rects import grown

# What the file puts in the place of signs that Magic substitutes in the text of feedback.
PLAIN = str.maketrans({"[": "(", "]": ")", "{": "(", "}": ")", "$": None, "\\": "/", '"': "'", ";": ","})

# Where blocks of layers lie that the mouse paints with.
PALETTE = ["polysilicon", "ndiffusion", "pdiffusion", "metal1", "metal2", "pwell", "polycontact", "ndcontact", "m2contact"]
BLOCK = 10

# A cell that is used, and how far below all paint.
PART = "load part; box values 0 0 2 9; paint poly; box values 4 0 6 12; paint m1; box values 8 3 12 7; paint pc"
BELOW = 90

# After how many actions Magic itself flattens and checks what its window holds.
TURNS = 10


class MagicCase(ServedCase):
    def setUp(self):
        super().setUp()
        self.window = Window(self, self.process.path)
        self.window.tell("drc off")

    def connect(self, name="ben", *words):
        self.window.tell(" ".join(["kolasieve", "connect", str(self.address), name, *words]))

    def leave(self):
        """Leaves the sessions, and waits until they have all that the window held then."""
        self.window.tell("kolasieve leave")
        self.window.says("ben_top is left")

    def written(self, cell):
        """Has Magic write the cell that the window shows, and returns its file."""
        path = self.window.tell(f"::magic::*bypass writeall force {cell}; ::magic::*bypass cellname list filepath {cell}")
        return self.folder / f"{pathlib.Path(cell if path == 'default' else path).name}.mag"

    def is_followed(self, cell, session):
        """Returns whether the sessions show what Magic has in a cell, and the window all that is forbidden there."""
        path = self.written(cell)
        if self.squares(session) != self.told(flattened(Library(self.process, str(path)))):
            return False
        if path.read_text() != getattr(self, "checked", None):
            self.checked = path.read_text()
            report = Check(self.process, SERVER, lambda text: None).report(str(path))
            self.forbidden = {each.text.translate(PLAIN): sorted(each.strips) for each in report.violations}
        return self.window.marks() == self.forbidden

    def follow(self, cell="top", session="ben_top"):
        self.until(lambda: self.is_followed(cell, session), 0.25)


@needs_window
class Painting(MagicCase):
    COUNT = 50

    def click_box(self, dice):
        """Sets the box with the mouse."""
        left, bottom = dice.randrange(50), dice.randrange(50)
        self.window.click(1, left, bottom)
        self.window.click(3, left + dice.randrange(1, 16), bottom + dice.randrange(1, 16))

    def on_palette(self, dice):
        place = dice.randrange(len(PALETTE))
        return place * BLOCK + BLOCK / 2, 70 + BLOCK / 2

    def act(self, dice):
        """Does something with the mouse, by keys or by a command; returns what it was."""
        kinds = ["paint"] * 8 + ["erase", "keys", "keys", "keys"] + ["select"] * 4 + ["command"] * 3
        kind = dice.choice([*kinds, "use", "use"])
        if kind == "use":
            return self.use(dice)
        if kind == "keys":
            key = dice.choice(["u", "u", "U"])
            self.window.mouse("key", key)
            return key
        self.click_box(dice)
        if kind == "paint":
            self.window.click(2, *self.on_palette(dice))
        elif kind == "erase":
            self.window.click(2, *self.on_palette(dice), "shift")
        elif kind == "select":
            # The digits stretch by a square, and M to where the mouse is.
            key = dice.choice(["m", "c", "M", "M", "d", "r", "f", "F", *"2468"])
            self.window.mouse("key", "a")
            x, y = self.window.pixel(dice.randrange(50), dice.randrange(50))
            self.window.mouse("mousemove", x, y, "key", key)
            return key
        else:
            x, y = dice.randrange(40), dice.randrange(40)
            command = dice.choice([
                "paint ndc", "paint pc", "paint poly,m1", "fill right", "fill up m1", "erase m1,poly", "label here", "erase *",
                f"polygon m1 {x} {y} {x + 12} {y} {x + 12} {y + 9} {x + 6} {y + 9} {x + 6} {y + 4} {x} {y + 4}",
                f"wire segment poly 2 {x} {y} {x + 12} {y} {x + 12} {y + 9}", "straighten l",
                f"select area; array {dice.randrange(1, 4)} {dice.randrange(1, 3)}",
            ])
            self.window.tell(command)
            return command
        return kind

    def use(self, dice):
        """Uses a cell, or does something with one that is used; returns what it was."""
        x, y, used = dice.randrange(40), dice.randrange(40) - BELOW, f"part_{dice.randrange(4)}"
        commands = ["move r 3", "clockwise", "sideways", "copy u 2", "delete", "array {} {}".format(*dice.choices((1, 2, 3), k=2))]
        command = f"select cell {used}; {dice.choice(commands)}"
        if used not in self.window.tell("::magic::*bypass cellname list childinst top"):
            command = f"getcell part; identify {used}"
        self.window.tell(f"box values {x} {y} {x + 14} {y + 11}; {command}; select clear")
        return command

    def test_random_actions(self):
        self.window.tell(f"{PART}; save part; load top")
        for place, layer in enumerate(PALETTE):
            self.window.tell(f"box values {place * BLOCK} 70 {place * BLOCK + BLOCK - 2} 78; paint {layer}")
        self.connect()
        self.follow()
        self.window.show(-2, -2, 92, 82)
        dice, done = random.Random(1), []
        for _ in range(self.COUNT):
            done.append(self.act(dice))
            try:
                self.follow()
            except AssertionError as fault:
                raise AssertionError(f"after {done}; Magic has said {self.window.said}") from fault
            if len(done) % TURNS == 0:
                self.compare_with_magic()

    def compare_with_magic(self):
        """Compares the sessions with what Magic flattens, layer by layer, and the window's marks with its verdict."""
        self.written("top")
        path, process = flattened_by_magic(self.folder, ["top"], self.process.path)["top"], self.process
        self.assertEqual(self.squares("ben_top"), self.told(flattened(Library(process, path))))
        found = violations_by_magic(self.folder, [path], process.path)[path]
        for text in found.keys() - inexact(process, LESS):
            reach, strips = reach_of(process, text), self.forbidden.get(text.translate(PLAIN), [])
            marks = Index((strip, None) for strip in strips)
            self.assertEqual([box for box in found[text] if not marks.meeting(grown(box, reach))], [], text)
        if not found:
            self.assertEqual(set(self.forbidden) - {text.translate(PLAIN) for text in inexact(process, MORE)}, set())


class PaintingOnManyPlanes(Painting):
    """The same where a process has six groups."""

    technology = "SCN4M_SUBM.20"
    COUNT = 20


@needs_window
class Asking(MagicCase):
    """What the designer asks for, and a layout that was edited while nobody followed it."""

    log = True

    WIDTH = "Polysilicon width must be at least 2 (MOSIS rule #3.1)"

    def test_words(self):
        self.window.tell("load top; box values 0 0 1 20; paint poly")
        self.connect()
        self.follow()
        self.window.said = []
        self.window.tell("kolasieve list; kolasieve next; kolasieve why")
        self.assertEqual(self.window.said, [f"1 strips: {self.WIDTH}", f"1 of 1: {self.WIDTH}", self.WIDTH])
        self.assertEqual(self.window.tell("box values"), "1 0 2 20")
        self.window.tell("box values 40 0 42 9; kolasieve why; paint m1")
        self.assertEqual(self.window.said[-1], "nothing is forbidden in the box")
        self.follow()
        self.window.tell("kolasieve undo")
        self.until(lambda: "metal1" not in self.written("top").read_text(), 0.25)
        self.follow()
        self.leave()
        self.window.tell("box values 0 0 1 20; erase poly; box values 60 0 61 9; paint poly")
        self.connect()
        self.window.says("the window and the server differ")
        self.window.tell("box values 80 0 81 9; paint poly; kolasieve fetch")
        self.window.says("as the server has them")
        self.follow()
        self.assertRegex(self.written("top").read_text(), "<< polysilicon >>\nrect 0 0 1 20\nrect 80 0 81 9\n<<")


    def test_fetch_where_cells_are_used(self):
        """What the server has comes into the window's own cell; a used cell stays as it is, which is said."""
        there = {"polysilicon": [(20, 0, 22, 9)], "metal1": [(0, 0, 3, 9)]}
        self.window.tell("load part; box values 0 0 3 9; paint m1; load top; box values 20 0 22 9; paint poly")
        self.window.tell("box values 0 0 1 1; getcell part")
        self.connect()
        self.until(lambda: self.squares("ben_top") == self.told(there))
        self.leave()
        self.window.tell("box values 20 0 22 9; erase poly; select cell part_0; edit")
        self.window.tell("box values 0 0 3 4; erase m1; box values 6 0 10 9; paint m2")
        self.connect()
        self.window.says("the window and the server differ")
        with self.assertRaisesRegex(RuntimeError, "part is edited, and not the window's cell"):
            self.window.tell("kolasieve fetch")
        self.window.tell("select top cell; edit; kolasieve fetch")
        self.window.says("1 places stay as the window has them, since cells that it uses differ there")
        self.until(lambda: self.squares("ben_top") == self.told({**there, "metal2": [(6, 0, 10, 9)]}))
        self.written("part")
        self.follow()
        own = "<< polysilicon >>\nrect 20 0 22 9\n<< metal1 >>\nrect 0 0 3 4\nuse part"
        self.assertIn(own, self.written("top").read_text())
        self.window.tell("box values 0 0 3 4; erase m1")
        self.follow()
        self.window.tell("kolasieve undo")
        self.until(lambda: own in self.written("top").read_text())
        self.follow()


@needs_window
class OtherCells(MagicCase):
    def test_cells_scales_and_restarts(self):
        self.window.tell("load top; box values 0 0 1 20; paint poly; feedback add {of the designer} pale 50 50 60 60")
        self.connect("none")
        self.connect("ben")
        self.follow()
        self.window.said = []
        self.connect_to_nothing()
        self.connect("ben")
        self.follow()
        self.stays_as_it_was()
        self.window.tell("load next; box values 0 0 2 9; paint m1")
        self.follow("next", "ben_next")
        self.window.tell("cellname rename next renamed; box values 20 0 22 9; paint m2")
        self.follow("renamed", "ben_renamed")
        self.window.tell("load top")
        self.follow()
        self.window.tell("scalegrid 1 2; box values 0i 0i 3i 3i; paint m1")
        self.window.says("lambda is 2 squares in this window, and 1 of the server")
        self.window.tell("undo; box values 40i 0i 44i 8i; paint m1")
        self.follow_in_halves()
        self.end()
        self.window.tell("box values 20l 0l 21l 20l; paint poly")
        self.window.says("the server can't be reached")
        self.serve()
        self.follow_in_halves()
        self.use_cells()
        self.window.tell("kolasieve leave")
        self.until(lambda: self.squares("ben_user") == [None, None])
        self.assertEqual(self.window.tell("feedback count"), "1")

    def stays_as_it_was(self):
        """Looks at the window change nothing of it: neither selection nor box, nor what undo takes back."""
        asked = "list [what -list] [box values] [cellname list modified] [cellname list self]"
        self.window.tell("box values 30 0 33 9; paint m2; box values 0 0 5 5; select area; box values 1 2 3 4")
        before = self.window.tell(asked)
        self.assertIn("polysilicon", before)
        self.until(lambda: self.squares("ben_top") == self.told({"polysilicon": [(0, 0, 1, 20)], "metal2": [(30, 0, 33, 9)]}))
        self.window.tell("::kolasieve::look; ::kolasieve::look")
        self.assertEqual(self.window.tell(asked), before)
        self.window.tell("select clear; box values 30 0 33 9; erase m2; undo; erase m2")
        self.until(lambda: self.squares("ben_top") == self.told({"polysilicon": [(0, 0, 1, 20)]}))

    def connect_to_nothing(self):
        self.window.tell(f"kolasieve connect {self.folder}/nothing ben")
        self.window.says("nothing: No such file or directory")
        self.assertRaisesRegex(RuntimeError, "no cell is followed", self.window.tell, "kolasieve leave")

    def follow_in_halves(self):
        """The window's numbers are halves of lambda; those of the server and of files are whole."""
        self.window.marks = lambda marks=self.window.marks: {
            text: [tuple(at // 2 for at in box) for box in boxes] for text, boxes in marks().items()
        }
        self.follow()
        del self.window.marks

    def use_cells(self):
        """A cell is used by another one, and edited in place."""
        self.window.tell("scalegrid 2 1; load part; box values 0 0 2 9; paint poly; load user; box values 10 0 12 9; getcell part")
        self.until(lambda: self.squares("ben_user") == self.told({"polysilicon": [(10, 0, 12, 9)]}))
        self.window.tell("select cell part_0; edit; box values 11 0 12 9; erase poly")
        self.until(lambda: self.squares("ben_user") == self.told({"polysilicon": [(10, 0, 11, 9)]}))
        self.until(lambda: "(MOSIS rule #3.1)" in str(self.window.marks()))


@needs_window
class Troubled(MagicCase):
    """The designer goes on while the network is cut, the token is another one, and the disk is full."""

    log = True

    def setUp(self):
        super().setUp()
        self.wires = [Wire(self, self.port + number) for number in range(len(self.process.groups))]
        address = self.folder / "wired"
        replace(self.served, addresses=[wire.address for wire in self.wires]).write(address)
        self.window.tell(f"load top; box values 0 0 1 20; paint poly; kolasieve connect {address} ben")
        self.follow()

    def paint(self, column, layer="m1"):
        self.window.tell(f"box values {column} 0 {column + 2} 9; paint {layer}")

    def lacks(self, column):
        """Waits until the window says what is missing: it isn't known what is forbidden round this column."""
        path = self.folder / "awaiting"

        def is_said():
            self.window.said = []
            self.window.tell(f"kolasieve list; ::magic::*bypass feedback save {path}")
            boxes = re.findall(r"box (\S+) \S+ (\S+) \S+\nfeedback add \"kolasieve awaiting", path.read_text())
            is_there = any(int(left) <= column < int(right) for left, right in boxes)
            return is_there and "areas await" in self.window.said[-1]

        self.until(is_said)

    def test_a_cut_network(self):
        for wire in self.wires:
            wire.cut()
        end = time.monotonic() + 20
        self.paint(20)
        self.window.says("the server hasn't replied to all yet; the window goes on")
        for column in range(30, 80, 10):
            self.paint(column, "m2")
        self.window.tell("undo; box values 0 0 1 5; erase poly")
        self.lacks(20)
        time.sleep(max(0, end - time.monotonic()))
        for wire in self.wires:
            wire.mend()
        self.follow()

    def test_a_new_token(self):
        for wire in self.wires:
            wire.cut()
        self.paint(20)
        self.lacks(20)
        before = (self.folder / "token").read_text()
        self.end()
        self.words = ("--new-token",)
        self.serve()
        self.assertNotEqual((self.folder / "token").read_text(), before)
        self.paint(30)
        for wire in self.wires:
            wire.mend()
        self.window.says("ben_top is resumed")
        self.follow()

    def test_a_full_disk(self):
        limit_files(programs(self.server), 0)
        self.paint(20)
        self.window.says(" lost: ")
        self.paint(30, "m2")
        self.lacks(20)
        limit_files(programs(self.server))
        self.follow()
