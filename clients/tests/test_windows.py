"""Layouts checked by windows: the same whatever the windows are, and what one session and a second reading have."""

import io
import itertools
import json
import os
import pathlib
import random
import select
import signal
import subprocess
import tempfile
import unittest
from unittest import mock

from tests.magics import compiled, write_cell
from tests.second_reading import Reading, Window, union
from tests.serving import GENEROUS, HERE, SERVER
from tests.verdicts import technology

from kolasieve import overlaps
from kolasieve.bands import Bands
from kolasieve.batch import Batches, CheckFault
from kolasieve.check import Check, Choice
from kolasieve.compiling import Compiled
from kolasieve.hierarchy import AS_IT_IS, Library
from kolasieve.pool import PoolFault
from kolasieve.process import Process
from kolasieve.rects import strips
from kolasieve.script import side_by_side
from kolasieve.search import Search
from kolasieve.windows import Sizes
from kolasieve.windows import Window as Windowed

# Where random chips lie: over the lines where windows of all sizes are cut.
LOW, HIGH = -24, 40

NARROW, NEAR = "too narrow", "too near"


class Folder(unittest.TestCase):
    def setUp(self):
        folder = tempfile.TemporaryDirectory()
        self.addCleanup(folder.cleanup)
        self.folder = pathlib.Path(folder.name)
        self.process = self.made([f'width poly 2 "{NARROW}"', f'spacing poly poly 3 touching_ok "{NEAR}"'])

    def made(self, rules):
        """Returns a process with these rules, and the types poly, diff and metal on two planes."""
        path = self.folder / "few.tech"
        path.write_text(technology("few", {"poly": "active", "diff": "active", "metal": "metal"}, rules))
        Compiled.of(str(path)).write(str(self.folder / "few"))
        return Process.load(str(self.folder / "few"))

    def cell(self, sections=(), uses=(), name="chip"):
        return write_cell(self.folder, name, sections, uses, self.process.name)

    def report(self, path, sizes=Sizes(), jobs=1, choice=Choice(has_layers=True), server=SERVER):
        return Check(self.process, str(server), lambda text: None, jobs, sizes).report(path, choice=choice)

    def text(self, *words, **more):
        """Returns all that a report says."""
        made, file = self.report(*words, **more), io.StringIO()
        for write in (made.write_text, made.write_json, made.write_database, made.write_cell, made.write_feedback):
            write(file)
        return file.getvalue()

    def found(self, *words, **more):
        """Returns the strips of each rule that forbids something."""
        return {each.text: list(each.strips) for each in self.report(*words, **more).violations}

    def script(self, text):
        """Returns a program that is called as magicd is, but for the first time without words."""
        path = self.folder / "server"
        path.write_text(f"#!/bin/sh\n[ $# = 0 ] && exec {SERVER}\n{text}\nexec {SERVER} \"$@\"\n")
        path.chmod(0o755)
        return path


def random_sections(dice, types, count):
    """Returns rectangles of some types."""
    sections = {}
    for _ in range(count):
        left, bottom = dice.randrange(LOW, HIGH - 12), dice.randrange(LOW, HIGH - 12)
        rect = (left, bottom, left + dice.randrange(1, 12), bottom + dice.randrange(1, 12))
        sections.setdefault(dice.choice(types), []).append(rect)
    return list(sections.items())


class TheSame(Folder):
    def test_whatever_the_windows_are(self):
        self.process = compiled("scmos")
        types = ["polysilicon", "metal1", "ndiffusion", "pwell", "polycontact", "m2contact", "metal2"]
        dice = random.Random(1)
        self.cell(random_sections(dice, types, 9), name="part")
        uses = [("part", (0, 1, dice.randrange(-60, 60), 1, 0, 10 * place), (0, 0, 9, 9)) for place in range(6)]
        path = self.cell(random_sections(dice, types, 20), uses)
        whole = self.text(path)
        self.assertGreater(whole.count("<item>"), 100)
        self.assertIn("(by the client)", whole)
        for sizes, jobs in ((Sizes(side=8), 1), (Sizes(side=16, rects=40), 4), (Sizes(side=64), 1), (Sizes(rects=40), 4)):
            with self.subTest((sizes, jobs)):
                self.assertEqual(self.text(path, sizes, jobs), whole)

    def test_as_a_second_reading(self):
        self.process = self.made([
            f'width poly 4 "{NARROW}"', f'spacing poly poly 5 touching_ok "{NEAR}"', 'spacing poly diff 3 touching_illegal "beside"',
            'edge4way metal ~(metal)/metal 6 ~(poly)/active ~(metal)/metal 4 "over" active', 'width metal 3 "thin"',
        ])
        (group,) = self.process.groups
        reading = Reading(group.text)
        window = Window(reading, HIGH - LOW)
        every = ["poly", "diff", "metal"]
        chosen = [(4, every), (4, every), (16, every), (1 << 19, every), (16, every[:1]), (16, every[1:]), (16, every[::2])]
        for seed, (side, types) in enumerate(chosen):
            sections = random_sections(random.Random(seed), types, 24)
            found = self.found(self.cell(sections), Sizes(side=side))
            layout = window.layout([
                (name, tuple(number - LOW for number in rect)) for name, rects in sections for rect in rects
            ])
            told = {}
            for rule in reading.rules:
                if squares := window.forbidden(layout, rule) & window.squares(0, 0, HIGH - LOW, HIGH - LOW):
                    told[rule.why] = told.get(rule.why, 0) | squares
            self.assertGreater(len(told), 3 if types == every else 0)
            ours = {
                text: union(window.squares(*(number - LOW for number in rect)) for rect in rects) for text, rects in found.items()
            }
            with self.subTest((seed, side)):
                self.assertEqual({text: squares & window.all for text, squares in ours.items()}, told)

    def test_contacts_over_their_own_metal(self):
        self.process = compiled("SCN3ME_SUBM.30")
        types = ["metal1", "metal2", "metal3", "m2contact", "m3contact", "polycontact", "poly", "ndiffusion"]
        for seed, chosen in enumerate((types[:6], types[:6], types[:5], types[5:])):
            dice = random.Random(seed)
            self.cell(random_sections(dice, chosen, 8), name="part")
            uses = [("part", (1, 0, dice.randrange(-30, 30), 0, 1, 20 * place), (LOW, LOW, HIGH, HIGH)) for place in range(seed)]
            path = self.cell(random_sections(dice, chosen, 12), uses)
            found = self.found(path, choice=Choice())
            self.assertGreater(len(found), 2)
            self.assertEqual(found, self.found(path, choice=Choice(has_layers=True)))
            with mock.patch("kolasieve.search.gathered", lambda groups: [each for each in groups if each.rules]):
                self.assertEqual(found, self.found(path))

    def test_equal_windows_are_checked_once(self):
        self.cell([("poly", [(5, 5, 6, 9), (40, 30, 50, 31)])], name="part")
        path = self.cell((), [("part", AS_IT_IS, (0, 0, 50, 31), (0, 7, 64, 0, 7, 64))])
        checked, forbidden = [], Batches.forbidden

        def counted(*words):
            checked.append(words)
            return forbidden(*words)

        with mock.patch.object(Batches, "forbidden", counted):
            found = self.found(path, Sizes(side=64))
        self.assertEqual(len(checked), 1)
        self.assertEqual(found, self.found(path))
        self.assertEqual(len(found[NARROW]), 128)

    def test_equal_cells_of_windows_that_are_not_equal(self):
        path = self.cell([("poly", [(30, 5, 31, 9)])])
        search = Search(Library(self.process, path), Choice(), self.folder)
        search.use(str(SERVER), Sizes(), 1)
        for right, found in ((31, {}), (64, {NARROW: [(31, 5, 32, 9)]})):
            window = Windowed((0, 0, right, 64), search.border, {"poly": [(30, 5, 31, 9)]})
            self.assertEqual(side_by_side([each.violations([window]) for each in search.batches], 1), [found])


class Places(Folder):
    """Where a violation lies among the windows."""

    def test_over_a_corner_of_four_windows(self):
        self.process = self.made([f'width poly 2 "{NARROW}"', f'spacing poly poly 8 touching_ok "{NEAR}"'])
        path = self.cell([("poly", [(-12, -6, -3, 6), (-2, -6, 9, 6), (30, -5, 31, 20)])])
        for side in (1 << 19, 16, 4):
            found = self.found(path, Sizes(side=side))
            self.assertEqual(found, {NARROW: [(31, -5, 32, 20)], NEAR: [(-10, -6, -3, 6), (-2, -6, 5, 6)]}, side)

    def test_areas_over_a_corner(self):
        self.process = self.made(['area poly 12 3 "too small"'])
        path = self.cell([("poly", [(-2, -1, 3, 1), (30, -1, 36, 1), (-40, 0, -38, 20)])])
        for rects in (30000, 1):
            self.assertEqual(self.found(path, Sizes(rects=rects)), {"too small": [(-2, -1, 3, 1)]}, rects)

    def test_cells_that_abut_where_windows_do(self):
        self.process = compiled("scmos")
        self.cell([("polycontact", [(0, 0, 4, 4)])], name="contact")
        path = self.cell((), [("contact", (1, 0, left, 0, 1, 0), (0, 0, 4, 4)) for left in (-4, 0)])
        for rects in (30000, 1):
            found = self.found(path, Sizes(rects=rects), choice=Choice(words=("between subcells",)))
            self.assertEqual(found, {overlaps.EXACT: [(-1, 0, 1, 4)]}, rects)

    def test_no_window_has_anything(self):
        self.assertEqual(self.found(self.cell()), {})

    def test_a_window_of_one_type(self):
        path = self.cell([("poly", [(-100, -100, 100, 100)])])
        self.assertEqual(self.found(path, Sizes(side=32), jobs=2), {})

    def test_larger_than_a_world(self):
        far = 1 << 30
        path = self.cell([("poly", [(-far, 0, 1 - far, 9), (far - 1, far - 9, far, far)])])
        for sizes in (Sizes(), Sizes(rects=1)):
            found = self.found(path, sizes)
            self.assertEqual(found, {NARROW: [(1 - far, 0, 2 - far, 9), (far, far - 9, far + 1, far)]})

    def test_a_rule_as_far_as_may_be(self):
        self.process = self.made([f'spacing poly poly 100 touching_ok "{NEAR}"'])
        path = self.cell([("poly", [(-60, 0, -50, 10), (49, 0, 59, 10), (-60, 110, -50, 120)])])
        for side in (1 << 19, 64):
            self.assertEqual(self.found(path, Sizes(side=side))[NEAR], [(-51, 0, -50, 10), (49, 0, 50, 10)], side)


class TooLarge(Folder):
    """Windows that magicd refuses are halved."""

    def refused(self, path, sizes):
        """Returns what is found, and how often a window was refused."""
        refused, halved = [], Batches.halved

        def counted(batches, window):
            refused.append(window)
            return halved(batches, window)

        with mock.patch.object(Batches, "halved", counted):
            return self.found(path, sizes), len(refused)

    def test_a_cell(self):
        # Each of so many squares makes four tiles.
        path = self.cell([("poly", [(2 * at, 2 * at, 2 * at + 1, 2 * at + 1) for at in range(5000)])])
        found, count = self.refused(path, Sizes())
        self.assertGreater(count, 0)
        self.assertEqual(found, self.found(path, Sizes(side=1024)))
        self.assertEqual(sum(map(len, found.values())), 15000)

    def test_strips_of_all_rules_together(self):
        self.process = self.made([f'width poly {width} "{NARROW}: {width}"' for width in range(2, 8)])
        path = self.cell([("poly", [(9 * at, 4 * (at * 7 % 40), 9 * at + 1, 4 * (at * 7 % 40) + 1) for at in range(200)])])
        found, count = self.refused(path, Sizes(tiles=700))
        self.assertGreater(count, 0)
        self.assertEqual(found, self.found(path))

    def test_a_single_square(self):
        chequer = [(x, y, x + 1, y + 1) for x in range(240) for y in range(x % 2, 240, 2)]
        for distance, fits in ((62, True), (100, False)):
            self.process = self.made([f'spacing poly diff {distance} touching_ok "{NEAR}"'])
            path = self.cell([("poly", chequer), ("diff", [(120, 120, 121, 121)])])
            choice = Choice(region=(120, 120, 122, 122))
            with self.subTest(distance):
                if fits:
                    self.assertEqual(self.found(path, choice=choice), {NEAR: [(120, 120, 121, 121), (121, 121, 122, 122)]})
                    continue
                fault = r"within 101 squares of \(120,120\) there is too much for a session: .* more than 16384 tiles"
                with self.assertRaisesRegex(CheckFault, fault):
                    self.found(path, choice=choice)


class Choosing(Folder):
    def setUp(self):
        super().setUp()
        self.path = self.cell([("poly", [(0, 10 * y, 1, 10 * y + 5) for y in range(9)] + [(40, 0, 42, 9), (44, 0, 46, 9)])])

    def test_rules(self):
        self.assertEqual(set(self.found(self.path)), {NARROW, NEAR})
        self.assertEqual(set(self.found(self.path, choice=Choice(words=("near",)))), {NEAR})
        self.assertEqual(set(self.found(self.path, choice=Choice(words=("near", "narr")))), {NARROW, NEAR})
        with self.assertRaisesRegex(CheckFault, "no rule of few has gold in its text"):
            self.found(self.path, choice=Choice(words=("gold",)))

    def test_a_region(self):
        found = self.found(self.path, choice=Choice(region=(-7, 13, 41, 24)))
        self.assertEqual(found, {NARROW: [(1, 13, 2, 15), (1, 20, 2, 24)]})

        with self.assertRaisesRegex(CheckFault, "the region 5 5 5 9 has no square"):
            self.found(self.path, choice=Choice(region=(5, 5, 5, 9)))

    def test_a_region_of_an_array_that_nobody_could_unfold(self):
        self.cell([("poly", [(5, 5, 6, 9)])], name="part")
        path = self.cell((), [("part", AS_IT_IS, (5, 5, 6, 9), (0, 999999, 64, 0, 999999, -64))])
        low, high = 64 * 500000, 64 * 500001
        found = self.found(path, choice=Choice(region=(low, -high, high + 64, -low + 64)))
        columns, rows = (low, high), (-high, -low)
        self.assertEqual(found, {NARROW: [(x + 6, y + 5, x + 7, y + 9) for y in rows for x in columns]})

    def test_the_first_by_place(self):
        command = [str(HERE.parent / "process"), "check", str(self.process.folder), self.path, "--server", SERVER]
        ran = subprocess.run(
            [*command, "--limit", "2", "--json", "-j", "3"], capture_output=True, text=True, timeout=300, check=False
        )
        said = {rule["rule"]: (rule["count"], rule["strips"]) for rule in json.loads(ran.stdout)["rules"]}
        self.assertEqual(said, {NARROW: (9, [[1, 0, 2, 5], [1, 10, 2, 15]]), NEAR: (2, [[41, 0, 42, 9], [44, 0, 45, 9]])})


class Troubles(Folder):
    def test_a_killed_server_is_started_again_once(self):
        path = self.cell([("poly", [(0, 0, 1, 9), (90, 0, 91, 9)])])
        server = self.script(f"mkdir {self.folder}/once 2> /dev/null && {{ read line; echo w0 opened; kill -9 $$; }}")
        self.assertEqual(self.found(path, server=server), {NARROW: [(1, 0, 2, 9), (91, 0, 92, 9)]})
        server = self.script("read line; echo w0 opened; kill -9 $$")
        with self.assertRaisesRegex(CheckFault, r"g0\.tech: magicd was killed by signal 9"):
            self.found(path, server=server)

    def test_servers_that_fail_have_one_message(self):
        self.process = compiled("scmos")
        path = self.cell([("polysilicon", [(0, 0, 1, 9)]), ("metal1", [(0, 0, 1, 9)]), ("pwell", [(0, 0, 9, 9)])])
        command = [str(HERE.parent / "process"), "check", str(self.process.folder), path, "-j", "4", "--server"]
        for server, said in (("exit 3", "ended with status 3"), ("exec cat > /dev/null", "ended with status 0")):
            ran = subprocess.run([*command, str(self.script(server))], capture_output=True, text=True, timeout=300, check=False)
            self.assertEqual((ran.returncode, ran.stdout), (2, ""))
            self.assertRegex(ran.stderr, rf"\Aprocess: \S+/g[01]\.tech: magicd {said}\n\Z")

    def test_ended_by_a_signal(self):
        path = self.cell([("poly", [(9 * at, 0, 9 * at + 1, 9) for at in range(9000)])])
        fifo = self.folder / "started"
        os.mkfifo(fifo)
        started = os.open(fifo, os.O_RDWR)
        self.addCleanup(os.close, started)
        server = self.script(f"echo > {fifo}; exec sleep 3600")
        scratch = self.folder / "scratch"
        scratch.mkdir()
        for jobs, number in itertools.product(("1", "2"), (signal.SIGINT, signal.SIGTERM)):
            command = [str(HERE.parent / "process"), "check", str(self.process.folder), path, "--server", str(server), "-j", jobs]
            environment = {**os.environ, "TMPDIR": str(scratch)}
            with self.subTest((jobs, number)), subprocess.Popen(
                command, stderr=subprocess.PIPE, text=True, env=environment, start_new_session=True, preexec_fn=heed_interrupts
            ) as check:
                self.assertTrue(select.select([started], [], [], GENEROUS)[0])
                os.killpg(check.pid, number)
                self.assertEqual((check.communicate(timeout=GENEROUS)[1], check.returncode), ("", 128 + number))
                os.read(started, 64)
                self.assertEqual(list(scratch.iterdir()), [])

    def test_a_killed_process(self):
        path = self.cell([("poly", [(0, 0, 1, 9), (900, 0, 901, 9)])])
        with self.assertRaisesRegex(PoolFault, "a process of the check was killed"):
            self.found(path, Sizes(rects=1), 2, server=self.script("kill -9 $PPID"))

    def test_a_full_disk(self):
        bands = Bands("/nowhere", (0, 0, 9, 100), most=8)
        with self.assertRaisesRegex(OSError, "/nowhere/band-0-0"):
            bands.add("rule", [(0, 0, 1, 9), (4, 4, 5, 9), (4, 14, 5, 19)])


def heed_interrupts():
    """Has a process heed SIGINT, which a shell that runs the tests behind others may have had ignored."""
    signal.signal(signal.SIGINT, signal.SIG_DFL)


class Joining(unittest.TestCase):
    def test_as_strips_of_all(self):
        for seed in range(30):
            dice = random.Random(seed)
            every = {key: [] for key in "ab"}
            with tempfile.TemporaryDirectory() as folder:
                bands = Bands(folder, (-20, -20, 29, 29), most=dice.choice([0, 100, 1 << 20]))
                bands.height = dice.choice([1, 3, 8])
                for _ in range(dice.randrange(60)):
                    left, bottom = dice.randrange(-20, 20), dice.randrange(-20, 20)
                    rect = (left, bottom, left + dice.randrange(1, 9), bottom + dice.randrange(1, 9))
                    key = dice.choice("ab")
                    every[key].append(rect)
                    bands.add(key, [rect])
                for key, rects in every.items():
                    self.assertEqual(list(bands.joined([key])), strips(rects))
                self.assertEqual(list(bands.joined("ab")), strips(every["a"] + every["b"]))
