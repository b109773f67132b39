"""A served process and the companion of a window, which a test tells what the window holds."""

import os
import queue
import re
import signal
import sqlite3
import subprocess
import tempfile
import threading
import unittest

from tests.certificates import HAVE_OPENSSL, Team
from tests.etcds import HAVE_ETCD, Etcds
from tests.followed import ServedCase
from tests.magics import compiled
from tests.serving import GENEROUS, HERE, children_of, kill_programs, limit_files, programs, runs
from tests.squares import squares_told

BAR = {"polysilicon": [(0, 0, 1, 20)]}
WIDTH = "Polysilicon width must be at least 2 (MOSIS rule #3.1)"
METAL = "First-level metal width must be at least 3 (MOSIS rule #7.1)"


def text_of(layers, technology="scmos"):
    """Returns a cell's text as Magic writes it."""
    sections = "".join(f"<< {name} >>\n" + "".join("rect %d %d %d %d\n" % rect for rect in rects) for name, rects in layers.items())
    return f"magic\ntech {technology}\ntimestamp 1\n{sections}<< end >>\n"


class Companion:
    """The companion of a window."""

    def __init__(self, case, name, *words):
        self.case, self.name = case, name
        command = [str(HERE.parent / "follow"), str(case.address), name, *words]
        self.process = subprocess.Popen(command, stdin=subprocess.PIPE, stdout=subprocess.PIPE, text=True, cwd=case.folder)
        case.addCleanup(self.kill)
        self.lines = queue.Queue()
        # What the window would show, and all that was said.
        self.found, self.said, self.put = {}, [], []
        self.reading = threading.Thread(target=lambda: [self.lines.put(line) for line in self.process.stdout], daemon=True)
        self.reading.start()

    def ask(self, *words):
        self.process.stdin.write("\t".join(words) + "\n")
        self.process.stdin.flush()

    def look(self, layers, cell="top", others=()):
        """The window holds these layers now, and perhaps other cells, by name."""
        cells = {cell: text_of(layers), **dict(others)}
        backup = self.case.folder / f"backup.{self.name}"
        backup.write_text("".join(f"file {name}\n{text}" for name, text in cells.items()) + f"end {cell}\n")
        self.ask("look", str(self.case.folder / cell), cell, str(backup), " ".join(cells), str(self.case.folder))
        self.wait(lambda word, *_: word == "read")

    def wait(self, is_there):
        """Takes lines until there is one like this, and returns it."""
        while True:
            line = self.lines.get(timeout=GENEROUS).rstrip("\n")
            word, _, rest = line.partition(" ")
            if word == "violations":
                text, boxes = re.fullmatch(r'"(.*?)" \{(.*)\}', rest).groups()
                self.found[text] = [tuple(map(float, box.split())) for box in re.findall(r"\{(.*?)\}", boxes)]
                self.found = {each: boxes for each, boxes in self.found.items() if boxes}
            elif word == "say":
                self.said.append(rest.strip('"'))
            if is_there(word, rest):
                return line

    def says(self, part):
        """Waits until this is said."""
        self.wait(lambda word, rest: word == "say" and part in rest)

    def settled(self):
        """Waits until nothing awaits checking, and returns what is forbidden."""
        self.wait(lambda word, rest: (word, rest) == ("awaiting", "{}"))
        return self.found

    def kill(self):
        self.process.kill()
        self.process.wait()
        self.reading.join(GENEROUS)
        self.process.stdin.close()
        self.process.stdout.close()


class Following(ServedCase):
    def test_violations_come_and_go(self):
        follow = Companion(self, "ben", "--technology", self.process.path)
        follow.look(BAR)
        self.assertEqual(follow.settled(), {WIDTH: [(1, 0, 2, 20)]})
        stacked = {"polysilicon": [(0, 0, 2, 20)], "metal1": [(50, 0, 52, 9)], "polycontact": [(10, 0, 14, 4)]}
        follow.look(stacked)
        self.assertEqual(follow.settled(), {METAL: [(52, 0, 53, 9)]})
        self.compare("ben_top", stacked)
        follow.ask("undo")
        self.assertRegex(follow.wait(lambda word, _: word == "put"), r"^put \{1 0 2 20\} \{.*\} \{\}$")
        follow.look({}, others={"other": text_of(BAR)}.items())
        self.assertEqual(follow.settled(), {})
        self.compare("ben_top", {})
        follow.look(BAR, "next")
        self.assertEqual(follow.settled(), {WIDTH: [(1, 0, 2, 20)]})
        self.compare("ben_next", BAR)
        follow.ask("close")
        follow.wait(lambda word, _: word == "ended")
        self.assertEqual(self.squares("ben_next"), [None, None])

    def test_used_cells(self):
        part = text_of(BAR)
        use = "use part part_0\ntransform 1 0 100 0 1 0\nbox 0 0 1 20\n"
        (self.folder / "top.mag").write_text(text_of({}).replace("<< end", f"{use}<< end"))
        (self.folder / "part.mag").write_text(text_of({"polysilicon": [(0, 0, 2, 20)]}))
        follow = Companion(self, "ben")
        follow.ask("look", str(self.folder / "top"), "top", "", "", str(self.folder))
        self.assertEqual(follow.settled(), {})
        self.compare("ben_top", {"polysilicon": [(100, 0, 102, 20)]})
        (self.folder / "backup").write_text(f"file part\n{part}end top\n")
        follow.ask("look", str(self.folder / "top"), "top", str(self.folder / "backup"), "part", str(self.folder))
        self.assertEqual(follow.settled(), {WIDTH: [(101, 0, 102, 20)]})
        self.compare("ben_top", {"polysilicon": [(100, 0, 101, 20)]})

    def test_what_is_not_followed(self):
        follow = Companion(self, "ben")
        for text, fault in (
            (text_of({"gold": [(0, 0, 1, 1)]}), "there is no layer gold"), (text_of(BAR, "other"), "the technology is other"),
            (text_of(BAR).replace("timestamp", "magscale 1 2\ntimestamp"), "lambda is 2 squares in this window, and 1 of the server"),
            (text_of(BAR).replace("rect", "tri"), "a triangle"), (text_of({"poly": [(0, 0, 1, 2000000)]}), "outside the world"),
        ):
            (self.folder / "backup").write_text(f"file top\n{text}end top\n")
            follow.ask("look", str(self.folder / "top"), "top", str(self.folder / "backup"), "top", "")
            follow.says("the window isn't followed: ")
            self.assertIn(fault, follow.said[-1])
        (self.folder / "backup").write_text(f"file top\n{text_of(BAR)}"[:-5])
        follow.ask("look", str(self.folder / "top"), "top", str(self.folder / "backup"), "top", "")
        follow.says("isn't written to its end")
        follow.look(BAR)
        self.assertEqual(follow.settled(), {WIDTH: [(1, 0, 2, 20)]})

    def test_who_is_not_let_in(self):
        for words, fault in (
            (["ben", "--technology", compiled("scmos-sub").path], "the window's technology is "),
            (["ben", "--process", str(compiled("scmos-sub").folder)], "the server has another process"),
            (["ben/"], "a name has letters, digits and _"),
        ):
            follow = Companion(self, *words)
            follow.wait(lambda word, _: word == "ended")
            self.assertIn(fault, follow.said[-1])
        self.address.write_text("{}")
        follow = Companion(self, "ben")
        follow.wait(lambda word, _: word == "ended")
        self.assertIn("it is no address file", follow.said[-1])


@unittest.skipUnless(HAVE_OPENSSL, "openssl isn't installed")
class Certified(ServedCase):
    """Relays that want certificates."""

    @classmethod
    def setUpClass(cls):
        cls.team = Team(cls)

    def setUp(self):
        certificate, key, authority = self.team.machine()
        self.words = ("--tls", certificate, key, "--clients", authority)
        super().setUp()

    def test_by_certificates(self):
        self.assertIsNone(self.served.token)
        follow = Companion(self, "ben", "--tls", *self.team.make("ben"))
        follow.look(BAR)
        self.assertEqual(follow.settled(), {WIDTH: [(1, 0, 2, 20)]})
        follow = Companion(self, "ben", "--tls", *self.team.ended("late"))
        follow.look(BAR)
        follow.says("the server can't be reached")


class Served(ServedCase):
    def test_what_cannot_be_served(self):
        for command, fault in (
            (self.command(), f"the relay of {self.process.folder}/g"),
            (self.command("--log", "etcd://nowhere"), "etcd://nowhere: a log is FILE or etcd://HOST:PORT"),
            (self.command("--grid", "50"), "lambda is 50 squares in this layout, and a rule reaches "),
            ([*self.command()[:2], str(self.folder), "--listen", "127.0.0.1:1"], "groups.json: No such file or directory"),
            ([*self.command()[:3], "--listen", "127.0.0.1"], "an address is HOST:PORT"),
        ):
            ran = subprocess.run(command, stderr=subprocess.PIPE, text=True, timeout=GENEROUS, check=False)
            self.assertEqual((ran.returncode, fault in ran.stderr.splitlines()[-1]), (2, True), ran.stderr)


class OnHalfOfLambda(ServedCase):
    words = ("--grid", "2")

    def test_halves(self):
        follow = Companion(self, "ben")
        text = text_of({"polysilicon": [(0, 0, 3, 40)]}).replace("timestamp", "magscale 1 2\ntimestamp")
        (self.folder / "top.mag").write_text(text)
        follow.ask("look", str(self.folder / "top"), "top", "", "", "")
        self.assertEqual(follow.settled(), {WIDTH: [(1.5, 0, 2, 20)]})


class OfAreas(ServedCase):
    """A rule of areas forbids whole pieces, however far from a change they reach."""

    technology = "SCN4M_SUBM.20"

    def test_pieces_come_apart_and_together(self):
        [area] = self.process.areas
        follow, halves, joint = Companion(self, "ben"), [(0, 0, 1, 15), (0, 16, 1, 30)], [(1, 14, 3, 17)]
        # Where something is edited beside, an end of this one is looked at alone.
        long, beside = [(130, 0, 160, 1)], [(200, 0, 202, 9)]
        for rects, found in (([(0, 0, 1, 30)], []), (halves, halves), (halves + joint, []), (halves[:1], halves[:1])):
            for metal in ([], beside):
                follow.look({"psubstratepdiff": rects + long, "metal1": metal})
                self.assertEqual(follow.settled().get(area.why, []), found)


class Refusing(ServedCase):
    """Sessions that take little: what is refused is said, and tried again with the next change."""

    words = ("--quota", "40", "--journal", "60")

    def test_small_quotas_and_journals(self):
        follow = Companion(self, "ben")
        follow.look(BAR)
        follow.settled()
        comb = {"polysilicon": [(0, 0, 1, 20)] + [(4 * x, 30, 4 * x + 2, 40) for x in range(30)]}
        follow.look(comb)
        follow.says("refused 5 quota")
        for top in range(21, 40):
            follow.look({"polysilicon": [(0, 0, 2, top)]})
            self.assertEqual(follow.settled(), {})
        self.assertEqual(self.squares("ben_top")[0], squares_told(self.process, 0, {"polysilicon": [(0, 0, 2, 39)]}))


class NearAFullJournal(ServedCase):
    """The companion asks for checkpoints between changes: the relays never have to make one in the midst of lines."""

    log = True
    words = ("--journal", "100")

    def test_checkpoints_are_asked_for(self):
        follow = Companion(self, "ben")
        for right in range(2, 100):
            follow.look({"polysilicon": [(0, 0, right, 20)], "metal1": [(0, 50, right, 50 + right)]})
            follow.settled()
        self.compare("ben_top", {"polysilicon": [(0, 0, 99, 20)], "metal1": [(0, 50, 99, 149)]})
        for number in range(len(self.process.groups)):
            with sqlite3.connect(self.folder / "log" / f"g{number}.log") as log:
                rows = log.execute("select part from lines where cast(line as text) = '@compact ben_top'")
                parts = [part for part, in rows]
            self.assertGreater(len(parts), 2)
            # The relay's own have other parts.
            self.assertEqual(set(parts), {0})


class OverRestarts(ServedCase):
    """The relays are ended, killed and started again: the window goes on, and the sessions catch up."""

    log = True

    def kill(self):
        """Kills the relays at once. Their magicd end with their input."""
        kill_programs(self.server)
        self.server.kill()
        self.server.wait()

    def test_caught_up_after_a_kill(self):
        follow = Companion(self, "ben")
        follow.look(BAR)
        follow.settled()
        self.kill()
        follow.says("the server can't be reached")
        (self.folder / "token").unlink()
        follow.look({"metal1": [(0, 0, 2, 9)]})
        self.serve()
        follow.says("ben_top is resumed")
        self.assertEqual(follow.settled(), {METAL: [(2, 0, 3, 9)]})
        follow.ask("leave")
        follow.wait(lambda word, _: word == "ended")
        self.differ()

    def test_relays_end_with_who_serves(self):
        """Where `process serve` alone is killed, its relays leave the sessions and end, and others have their ports."""
        follow = Companion(self, "ben")
        follow.look(BAR)
        follow.settled()
        relays = programs(self.server)
        left = [*relays, *(number for relay in relays for number in children_of(relay))]
        self.server.kill()
        self.server.wait()
        follow.says("the server can't be reached")
        self.until(lambda: not any(map(runs, left)))
        follow.look({"metal1": [(0, 0, 2, 9)]})
        self.serve()
        follow.says("ben_top is resumed")
        self.assertEqual(follow.settled(), {METAL: [(2, 0, 3, 9)]})

    def test_silence(self):
        follow = Companion(self, "ben")
        follow.look(BAR)
        follow.settled()
        relays = programs(self.server)
        for number in relays:
            os.kill(number, signal.SIGSTOP)
        follow.look({"metal1": [(0, 0, 2, 9)]})
        follow.says("the server hasn't replied to all yet")
        follow.look({"metal1": [(0, 0, 2, 9)], "polysilicon": [(20, 0, 21, 9)]})
        follow.wait(lambda word, rest: word == "awaiting" and rest.count("} {") == 1)
        for number in relays:
            os.kill(number, signal.SIGCONT)
        follow.wait(lambda word, _: len(follow.found) == 2)
        self.assertEqual(follow.settled(), {METAL: [(2, 0, 3, 9)], WIDTH: [(21, 0, 22, 9)]})
        # What is under way when the relays end is sent again.
        for number in relays:
            os.kill(number, signal.SIGSTOP)
        follow.look(BAR)
        follow.wait(lambda word, rest: word == "awaiting" and rest != "{}")
        self.kill()
        self.serve()
        follow.wait(lambda word, _: follow.found == {WIDTH: [(1, 0, 2, 20)]})
        self.compare("ben_top", BAR)

    def differ(self):
        """The window has another layout than the sessions when it comes back."""
        follow = Companion(self, "ben")
        follow.look({"polysilicon": [(0, 50, 1, 60)]})
        follow.says("the window and the server differ")
        follow.look({"polysilicon": [(0, 50, 1, 60), (100, 0, 101, 9)]})
        follow.ask("fetch")
        put = follow.wait(lambda word, _: word == "put")
        self.assertRegex(put, r"^put \{0 0 2 9\} \{.*\} \{\{metal1 \{0 0 2 9\}\}\}$")
        follow.ask("done")
        follow.look({"metal1": [(0, 0, 2, 9)], "polysilicon": [(100, 0, 101, 9)]})
        self.assertEqual(follow.settled(), {METAL: [(2, 0, 3, 9)], WIDTH: [(101, 0, 102, 9)]})
        follow.ask("leave")
        follow.wait(lambda word, _: word == "ended")
        for side, found in (("window", {WIDTH: [(1, 0, 2, 20)]}), ("server", {WIDTH: [(1, 0, 2, 20)]})):
            follow = Companion(self, "ben", "--take", side)
            follow.look(BAR if side == "window" else {})
            follow.says("squares differ")
            if side == "server":
                self.assertIn("{0 0 1 20}", follow.wait(lambda word, _: word == "put"))
                follow.look(BAR)
            self.assertEqual(follow.settled(), found)
            follow.ask("leave")
            follow.wait(lambda word, _: word == "ended")


@unittest.skipUnless(HAVE_ETCD, "etcd or python3-etcd3 isn't installed")
class OverRestartsInEtcd(OverRestarts):
    """The same with logs in an etcd, one beside the other."""

    @classmethod
    def setUpClass(cls):
        folder = tempfile.TemporaryDirectory()
        cls.addClassCleanup(folder.cleanup)
        cls.etcds = Etcds(folder.name, 1)
        cls.addClassCleanup(cls.etcds.end)

    def where_logs_are(self):
        return self.etcds.log(name=self._testMethodName)

    def test_each_group_has_a_log(self):
        follow = Companion(self, "ben")
        follow.look(BAR)
        follow.settled()
        for number in range(len(self.process.groups)):
            lines = [line for _, line, _ in self.etcds.rows("ben_top", f"{self._testMethodName}_g{number}")]
            self.assertIn("ben_top box 0 0 1 20", lines)


class OnAFullDisk(ServedCase):
    log = True

    def test_a_full_disk(self):
        follow = Companion(self, "ben")
        follow.look(BAR)
        self.assertEqual(follow.settled(), {WIDTH: [(1, 0, 2, 20)]})
        limit_files(programs(self.server), 0)
        follow.look({"metal1": [(0, 0, 2, 9)]})
        follow.says(" lost: ")
        limit_files(programs(self.server))
        follow.wait(lambda word, _: follow.found == {METAL: [(2, 0, 3, 9)]})
        self.compare("ben_top", {"metal1": [(0, 0, 2, 9)]})


if __name__ == "__main__":
    unittest.main()
