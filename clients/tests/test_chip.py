"""Layouts of a whole process: checked beside Magic, edited with refusals, and what goes wrong."""

import asyncio
import html
import json
import lzma
import os
import pathlib
import pty
import random
import re
import resource
import shutil
import subprocess
import tempfile
import unittest

from tests.magics import (
    compiled, copy_cells, flattened_by_magic, needs_cells, needs_magic, run_magic, violations_by_magic, write_cell,
)
from tests.second_reading import Reading, Window, union
from tests.serving import HERE, ROOT, SERVER, RelayCase
from tests.squares import squares_shown, squares_told
from tests.test_process_cells import SIDE, near
from tests.verdicts import reach_of

from kolasieve import mag, violations
from kolasieve.carrier import Carrier, Lost
from kolasieve.check import Check
from kolasieve.chip import Chip, Place, Refused
from kolasieve.index import Index
from kolasieve.lines import Line
from kolasieve.program import Program
from kolasieve.rects import bounds, clipped, grown

# 256 inverters of scmos, and a routed block of SCN4M_SUBM.20, flattened.
LAYOUTS = ROOT / "bench/layouts"


class Folder(unittest.TestCase):
    def setUp(self):
        folder = tempfile.TemporaryDirectory()
        self.addCleanup(folder.cleanup)
        self.folder = pathlib.Path(folder.name)
        self.process = compiled("scmos")

    def report(self, path):
        return Check(self.process, SERVER, lambda text: None).report(path)

    def check(self, *words, **more):
        """Runs `process check`, and returns its status and what it says."""
        command = [str(HERE.parent / "process"), "check", str(self.process.folder), *words]
        more = {"env": {**os.environ, "TMPDIR": str(self.scratch())}, **more}
        command += [] if "--server" in words else ["--server", SERVER]
        ran = subprocess.run(command, capture_output=True, text=True, timeout=300, check=False, cwd=self.folder, **more)
        self.assertEqual(list(self.scratch().iterdir()), [])
        return ran.returncode, ran.stdout, ran.stderr

    def scratch(self):
        path = self.folder / "scratch"
        path.mkdir(exist_ok=True)
        return path


def violations_by_klayout(path):
    """Returns the squares round each pair of edges that KLayout finds too near, by the rules' texts."""
    found, out = {}, path.with_suffix(".lyrdb")
    words = [f"{name}={value}" for name, value in {"input": path, "output": out, "threads": 1}.items()]
    script = str(HERE / "metal.drc")
    command = ["klayout", "-b", "-r", script, *(word for each in words for word in ("-rd", each))]
    subprocess.run(command, capture_output=True, timeout=600, check=True)
    for item in out.read_text().split("<item>")[1:]:
        text = html.unescape(re.search("<category>'(.*)'</category>", item)[1])
        numbers = re.findall(r"-?[0-9.]+", re.search("<value>edge-pair: (.*)</value>", item)[1])
        lines = [round(float(number)) for number in numbers]
        xs, ys = lines[::2], lines[1::2]
        found.setdefault(text, []).append((min(xs), min(ys), max(xs), max(ys)))
    return found


class Comparing(Folder):
    def compare(self, paths, technology="scmos"):
        """Compares rules and places, and returns the numbers of Magic's rectangles and of our strips."""
        by_magic, boxes, strips = violations_by_magic(self.folder, paths, technology), 0, 0
        for path in paths:
            with self.subTest(path):
                report = self.report(path)
                ours = {each.text: each.strips for each in report.violations}
                self.assertEqual(set(ours), set(by_magic[path]))
                for text, found in by_magic[path].items():
                    boxes, strips = boxes + len(found), strips + len(ours[text])
                    marks, theirs = (Index((rect, None) for rect in each) for each in (ours[text], found))
                    self.assertEqual([box for box in found if not marks.meeting(box)], [], text)
                    far = reach_of(self.process, text) * report.grid
                    self.assertEqual([strip for strip in ours[text] if not theirs.meeting(grown(strip, far))], [], text)
        return boxes, strips


class BesideMagic(Comparing):
    @needs_cells
    def test_cells_of_the_package(self):
        paths = list(flattened_by_magic(self.folder, copy_cells(self.folder)).values())
        self.assertEqual(self.compare(paths), (113, 137))

    @needs_magic
    def test_inverters(self):
        path = self.folder / "inverters.mag"
        path.write_bytes(lzma.decompress((LAYOUTS / "inverters.mag.xz").read_bytes()))
        self.assertEqual(self.compare([str(path)]), (0, 0))

    @needs_magic
    def test_arrays_of_narrow_wires(self):
        wires = [("poly", [(0, 0, 2, 20)]), ("metal1", [(4, 0, 6, 20)]), ("m2contact", [(10, 0, 14, 4), (16, 0, 20, 4)])]
        part = write_cell(self.folder, "part", wires)
        around = bounds([rect for _, rects in wires for rect in rects])
        uses = [("part", (0, 1, 5 * turn, 1, 0, 40 * turn), around, (0, 9, 24 + turn, 0, 4, 22 + turn)) for turn in range(2)]
        write_cell(self.folder, "array", (), uses)
        boxes, strips = self.compare(list(flattened_by_magic(self.folder, ["part", "array"]).values()))
        self.assertGreater(min(boxes, strips), 100)
        self.assertTrue(part)


class OnHalfOfLambda(Comparing):
    """Metal of a process with stacked contacts, on half of lambda: as routers leave it."""

    def setUp(self):
        super().setUp()
        self.process = compiled("SCN4M_SUBM.20")

    @needs_magic
    def test_a_routed_block(self):
        (self.folder / "block.mag").write_bytes(lzma.decompress((LAYOUTS / "routed.mag.xz").read_bytes()))
        again = flattened_by_magic(self.folder, ["block"], self.process.path)
        boxes, strips = self.compare(list(again.values()), self.process.path)
        self.assertGreater(min(boxes, strips), 700)

    @unittest.skipUnless(shutil.which("klayout"), "klayout isn't installed")
    def test_a_corner_beside_klayout(self):
        text = lzma.decompress((LAYOUTS / "routed.mag.xz").read_bytes()).decode()
        corner = [(name, clipped(rects, (1000, 1000, 3000, 3000))) for name, rects in mag.read(text).layers.items()]
        path = pathlib.Path(write_cell(self.folder, "corner", corner))
        path.write_text(path.read_text().replace("timestamp 1", "magscale 1 2"))
        theirs = violations_by_klayout(path)
        ours = {each.text.partition(" (")[0]: each.strips for each in self.report(str(path)).violations}
        self.assertEqual({text for text in ours if "contact" not in text}, set(theirs))
        for text, found in theirs.items():
            marks, sites = (Index((rect, None) for rect in each) for each in (ours[text], found))
            self.assertEqual([site for site in found if not marks.meeting(grown(site, 1))], [], text)
            self.assertEqual([strip for strip in ours[text] if not sites.meeting(grown(strip, 6))], [], text)

    @needs_magic
    def test_random_metal(self):
        dice, sections = random.Random(1), {}
        for layer, width, most in (("metal1", 6, 40), ("metal2", 6, 40), ("metal3", 6, 40), ("m2contact", 8, 8), ("m3contact", 8, 8)):
            for _ in range(60):
                left, bottom = dice.randrange(400), dice.randrange(400)
                sides = width - (dice.random() < 0.1), dice.randrange(width, most + 1)
                right, top = (left + each for each in (sides if dice.random() < 0.5 else sides[::-1]))
                sections.setdefault(layer, []).append((left, bottom, right, bottom + top - left))
        path = pathlib.Path(write_cell(self.folder, "metal", sections.items()))
        path.write_text(path.read_text().replace("timestamp 1", "magscale 1 2"))
        again = flattened_by_magic(self.folder, ["metal"], self.process.path)
        boxes, strips = self.compare(list(again.values()), self.process.path)
        self.assertGreater(min(boxes, strips), 100)


class Command(Folder):
    def narrow(self, name="narrow"):
        return write_cell(self.folder, name, [("poly", [(0, 0, 1, 20)])])

    def test_statuses_and_reports(self):
        clean = write_cell(self.folder, "clean", [("poly", [(0, 0, 2, 20)])])
        status, said, faults = self.check(clean)
        self.assertEqual((status, said.splitlines()[0], faults), (0, f"{clean}: scmos: nothing is forbidden", ""))
        self.assertEqual(self.check(write_cell(self.folder, "empty"))[0], 0)
        status, said, faults = self.check(self.narrow(), "-o", "out.lyrdb", "--json")
        rule = json.loads(said)["rules"][0]
        self.assertEqual((status, rule["rule"], faults), (1, "Polysilicon width must be at least 2 (MOSIS rule #3.1)", ""))
        self.assertEqual(rule["strips"], [[1, 0, 2, 20]])
        self.assertIn("box: (1,0;2,20)", (self.folder / "out.lyrdb").read_text())

    def test_rules_of_the_client(self):
        write_cell(self.folder, "contact", [("polycontact", [(0, 0, 4, 4)])])
        uses = [("contact", (1, 0, x, 0, 1, 0), (0, 0, 4, 4)) for x in (0, 4)]
        status, said, _ = self.check(write_cell(self.folder, "top", (), uses))
        self.assertEqual(status, 1)
        self.assertIn("This layer can't abut or partially overlap between subcells (by the client)", said)

    @needs_magic
    def test_a_stream_file(self):
        self.narrow("part")
        write_cell(self.folder, "top", (), [("part", (1, 0, 0, 0, 1, 0), (0, 0, 1, 20)), ("part", (1, 0, 9, 0, 1, 0), (0, 0, 1, 20))])
        run_magic(self.folder, ["drc off", "load top", "gds write top", "load part", "gds write part"])
        (self.folder / "top.mag").unlink()
        status, said, _ = self.check("top.gds", "--json")
        self.assertEqual((status, json.loads(said)["cell"], json.loads(said)["squares"]), (1, "top", 40))
        self.assertEqual(json.loads(self.check("top.gds", "--cell", "part", "--json")[1])["squares"], 20)
        self.assertEqual(self.check("top.gds", "--cell", "none")[0::2], (2, "process: top.gds: there is no cell none\n"))
        (self.folder / "bad.gds").write_bytes(b"\0\1\2\3" * 9)
        self.assertEqual(self.check("bad.gds")[0::2], (2, "process: bad.gds: Magic reads no cell of it\n"))

    def test_progress_on_a_terminal_alone(self):
        shown, terminal = pty.openpty()
        command = [str(HERE.parent / "process"), "check", str(self.process.folder), self.narrow(), "--server", SERVER]
        ran = subprocess.run(command, stdout=subprocess.PIPE, stderr=terminal, text=True, timeout=300, check=False)
        os.close(terminal)
        self.assertEqual(ran.returncode, 1)
        self.assertIn(b"checked 1 of 1 windows, 1 violations, 0 s to go", os.read(shown, 4096))
        os.close(shown)
        self.assertNotIn("windows", ran.stdout)

    def test_faults(self):
        narrow = self.narrow()
        write_cell(self.folder, "top", (), [("nowhere", (1, 0, 0, 0, 1, 0), (0, 0, 1, 1))])
        fine = pathlib.Path(write_cell(self.folder, "fine", [("poly", [(0, 0, 1, 1)])]))
        fine.write_text(fine.read_text().replace("timestamp 1", "magscale 1 60"))
        (self.folder / "cut.mag").write_text("magic\ntech scmos\n<< poly >>\nrect 0 0 1 1\nrect 0")
        killed = self.folder / "killed"
        killed.write_text("#!/bin/sh\nread line || exit 0\necho a opened\nkill -9 $$\n")
        killed.chmod(0o755)
        for words, fault in (
            (["top.mag"], "top.mag: line 4: there is no cell nowhere"),
            (["cut.mag"], "cut.mag: line 5: not 4 whole numbers behind `rect`"),
            ([narrow, "--region", "0", "0", "0", "9"], "the region 0 0 0 9 has no square"),
            (["fine.mag"], "lambda is 60 squares in this layout, and a rule reaches 120, over 100: "),
            ([narrow, "--server", str(killed)], ".tech: magicd was killed by signal 9"),
            ([narrow, "--server", "/nowhere/magicd"], "/nowhere/magicd: No such file or directory"),
            ([narrow, "-o", "/nowhere/out.lyrdb"], "/nowhere/out.lyrdb: No such file or directory"),
            ([narrow, "--cell", "other"], "a cell is named of a stream file (.gds) alone"),
            (["absent.gds"], "absent.gds: there is no such file"),
        ):
            with self.subTest(words):
                before = sorted(each.name for each in self.folder.iterdir())
                status, said, faults = self.check(*words)
                self.assertEqual((status, said, len(faults.splitlines())), (2, "", 1))
                self.assertIn(fault, faults)
                self.assertEqual(sorted(each.name for each in self.folder.iterdir()), sorted({*before, "scratch"}))

    def test_a_full_disk(self):
        narrow = write_cell(self.folder, "many", [("poly", [(5 * x, 0, 5 * x + 1, 9) for x in range(1500)])])
        for most, fault in ((200000, "process: out.lyrdb: File too large\n"), (1000, "File too large\n")):
            status, said, faults = self.check(
                narrow, "-o", "out.lyrdb", preexec_fn=lambda: resource.setrlimit(resource.RLIMIT_FSIZE, (most, most))
            )
            self.assertEqual((status, said, faults.endswith(fault), faults.count("\n")), (2, "", True, 1), faults)
            self.assertFalse(list(self.folder.glob("*out.lyrdb*")))


class Replacing(unittest.TestCase):
    """A chip is edited at random: after each edit its sessions show what its own copy says."""

    COUNT = 500

    def replace_at_random(self, seed, *options):
        self.process = compiled("scmos")
        return asyncio.run(self.replaced(random.Random(seed), options))

    async def replaced(self, dice, options):
        command = [SERVER, "--live", *options, "--tech"]
        programs = [await Program.start([*command, str(group.path)], lambda *_: None) for group in self.process.groups]
        places = [
            Place(f"g{number}", lambda line, program=program: program.ask(Line.of(line))) for number, program in enumerate(programs)
        ]
        try:
            chip = Chip(self.process, places)
            await chip.open()
            await chip.load({"polysilicon": [(0, 0, 40, 4)], "metal1": [(0, 0, 4, 40)]})
            return [await self.edited(chip, dice) for _ in range(self.COUNT)]
        finally:
            for program in programs:
                await program.stop()

    async def edited(self, chip, dice):
        """Replaces a rectangle, and returns the refusal where there is one."""
        left, bottom = dice.randrange(60), dice.randrange(60)
        rect = (left, bottom, left + dice.randrange(1, 30), bottom + dice.randrange(1, 30))
        names = ["polysilicon", "ndiffusion", "ntransistor", "metal1", "metal2", "pwell", "polycontact", "ndcontact", "m2contact"]
        layers = {}
        for _ in range(dice.randrange(6)):
            x, y = dice.randrange(rect[0] - 3, rect[2] + 3), dice.randrange(rect[1] - 3, rect[3] + 3)
            layers.setdefault(dice.choice(names), []).append((x, y, x + dice.randrange(1, 9), y + dice.randrange(1, 9)))
        refusal = ""
        before = {name: sorted(index.entries()) for name, index in chip.layers.items()}
        try:
            await chip.replace(rect, layers)
        except Refused as fault:
            refusal = str(fault).split(" ", 1)[1]
            self.assertEqual({name: sorted(index.entries()) for name, index in chip.layers.items()}, before)
        for number, place in enumerate(chip.places):
            text = (await place.look("save")).decode().partition("\n")[2]
            self.assertEqual(squares_shown(self.process, number, text), squares_told(self.process, number, chip.rects()))
        return refusal

    def test_without_refusals(self):
        self.COUNT = 100
        self.assertEqual(set(self.replace_at_random(1, "--quota", "16384", "--journal", "65536")), {""})

    def test_with_small_quotas_and_journals(self):
        replies = self.replace_at_random(2, "--quota", "60", "--journal", "500")
        self.assertGreater(replies.count(""), 100)
        self.assertGreater(replies.count("refused 5 quota"), 20)
        self.assertGreater(replies.count("refused 6 journal full"), 0)


class ByRule(unittest.TestCase):
    """What each rule forbids, in layouts round each rule's distance: the squares of a second reading of the group's file."""

    def test_as_a_second_reading(self):
        process = compiled("scmos")
        for number, group in enumerate(process.groups):
            with self.subTest(group.path):
                asyncio.run(self.compare(group, random.Random(number)))

    async def compare(self, group, dice):
        reading = Reading(group.text)
        window = Window(reading, SIDE)
        program = await Program.start([SERVER, "--tech", str(group.path)], lambda *_: None)
        place = Place("a", lambda line: program.ask(Line.of(line)))
        try:
            for rule in dice.sample(reading.rules, 20):
                await place.look("open")
                painted = near(dice, reading, rule)
                for name, rect in painted:
                    await place.ask("box %d %d %d %d" % tuple(rect))
                    await place.ask(f"paint {name}")
                part = (dice.randrange(10), dice.randrange(10), SIDE - 20, SIDE - 10)
                found = await violations.within(place, part, [each.why for each in reading.rules])
                told, layout = {}, window.layout(painted)
                for each in reading.rules:
                    told[each.why] = told.get(each.why, 0) | window.forbidden(layout, each) & window.squares(*part)
                squares = {text: union(window.squares(*strip) for strip in strips) for text, strips in found.items()}
                self.assertEqual(squares, {text: each for text, each in told.items() if each}, painted)
                await place.look("close")
        finally:
            await program.stop()


class Relay(RelayCase):
    """A relay for one group, as a part of another test."""

    def __init__(self, group):
        super().__init__()
        self.words = ("--tech", str(group.path))
        self.setUp()


class OverRelays(unittest.TestCase):
    """A chip whose sessions are at relays, one for each group."""

    BAR = (0, 0, 1, 20)
    WIDTH = "Polysilicon width must be at least 2 (MOSIS rule #3.1)"

    def setUp(self):
        self.process = compiled("scmos")
        self.relays = []
        for group in self.process.groups:
            self.relays.append(Relay(group))
            self.addCleanup(self.relays[-1].doCleanups)

    def test_loaded_edited_and_checked(self):
        asyncio.run(self.edited())

    async def edited(self):
        carriers = [await Carrier.connect(relay.path) for relay in self.relays]
        chip = Chip(self.process, [Place("a", carrier.carry) for carrier in carriers])
        await chip.open()
        await chip.load({
            "polycontact": [(10, 0, 14, 4), (16, 0, 20, 4)], "polysilicon": [self.BAR, (10, 0, 14, 4)], "metal1": [(10, 0, 20, 4)],
        })
        for place in chip.places:
            await place.ask("box 10 0 14 4")
            shown = (await place.ask("what")).decode().split()[3:]
            self.assertEqual([name for name in shown if not name.startswith("polycontact")], [], "a contact lies over its layers")
        found = await chip.violations((-50, -50, 50, 50))
        self.assertEqual(found[self.WIDTH], [(1, 0, 2, 20)])
        self.assertIn("Poly contact must be at least 3 from other poly (MOSIS rule #5B.4,5)", found)
        self.assertEqual(await chip.violations((-50, 5, 2, 9)), {self.WIDTH: [(1, 5, 2, 9)]})
        await chip.replace((-5, -5, 30, 30), {"poly": [(0, 0, 2, 20)]})
        self.assertEqual(await chip.violations((-50, -50, 50, 50)), {})
        with self.assertRaisesRegex(ValueError, "there is no layer gold"):
            await chip.replace((0, 0, 5, 5), {"gold": [(0, 0, 5, 5)]})
        for relay, carrier in zip(self.relays, carriers):
            relay.kill()
            with self.assertRaises(Lost):
                await chip.replace((0, 0, 5, 5), {})
            await carrier.close()
            relay.start()
        carriers = [await Carrier.connect(relay.path) for relay in self.relays]
        chip.places = [Place("a", carrier.carry) for carrier in carriers]
        await chip.replace((0, 5, 5, 30), {})
        self.assertEqual(await chip.violations((-50, -50, 50, 50)), {})
        self.assertEqual((await chip.places[0].look("save")).decode().splitlines()[-2:], ["rect 0 0 2 5", "<< end >>"])
        for carrier in carriers:
            await carrier.close()
