"""A relay and its magicd, killed at any time: in undos, checkpoints and loads too."""

import random
import threading
import time
import unittest

from tests.etcds import HAVE_ETCD
from tests.serving import GENEROUS, Client, alone, kill_programs
from tests.test_checkpoints import LONG, Painter
from tests.test_etcd import EtcdCase
from tests.test_log import LoggedCase
from tests.test_undo import holding

BAR = "magic\ntech M\n<< m1 >>\nrect 0 0 6 6\n<< end >>\n"


class Careful:
    """A designer who sends lines one by one, again where the log hasn't got them, until all are done."""

    def __init__(self, case, path, folder, seed, count):
        self.case, self.path, self.folder = case, path, folder
        self.painter = Painter(seed)
        self.count = count
        self.client = None
        # The lines that are done, and the cells that are loaded.
        self.done = []
        self.cells = 0
        self.fault = None
        # Set once it may end.
        self.may_end = threading.Event()

    def run(self):
        try:
            while len(self.done) < self.count or not self.may_end.is_set():
                for line, begin in self.next():
                    self.do(line, begin)
        except Exception as fault:
            self.fault = fault

    def next(self):
        """Returns what comes next: what a painter does, a checkpoint, or a new cell and a dump of it."""
        chance = self.painter.dice.random()
        if chance < 0.06:
            return self.painter.add(("@compact a", "a compacted "))
        if chance < 0.1 and self.cells < 20:
            self.cells += 1
            name = f"c{self.cells}"
            self.painter.edits.append(len(self.painter.lines) + 1)
            self.painter.undone.clear()
            load = (f"@load {name} {self.folder / 'bar.mag'}", "@ loaded")
            return [load, *self.painter.add((f"a dump {name} {6 * self.cells} 0", "a ok"))]
        return self.painter.next()

    def do(self, line, begin):
        """Has a line done, whatever is killed meanwhile."""
        has_number = not line.startswith("@load")
        while True:
            try:
                if self.client is None and self.come_back(line) and has_number:
                    return
                reply = self.client.ask(line)[0]
                if reply == "" or reply.startswith("a lost: "):
                    raise ConnectionError(reply)
            except OSError:
                self.leave()
                time.sleep(0.02)
                continue
            if reply.startswith(("a refused compact ", "a refused 11 ")) and "magicd" in reply:
                # It wasn't done, since magicd has ended, and has a number nevertheless.
                self.leave()
                continue
            if reply == f"@ refused load {line.split()[1]}: magicd has ended":
                continue
            if reply.endswith(": name twice"):
                # It was loaded, and the reply was lost.
                reply = "@ loaded"
            self.case.assertTrue(reply.startswith(begin), (line, reply))
            if has_number:
                self.done.append(line)
            return

    def leave(self):
        if self.client is not None:
            self.client.close()
        self.client = None

    def come_back(self, line):
        """Opens or resumes the session. Returns whether a line of which the reply was lost is done."""
        self.client = Client(self.path)
        if not self.done and self.client.ask("%open a") == ["a opened"]:
            return False
        while " in use" in (reply := self.client.ask("@resume a")[0]):
            time.sleep(0.05)
        if not reply.startswith("a resumed "):
            raise ConnectionError(reply)
        number = int(reply.split()[2])
        if number == len(self.done) + 1:
            self.done.append(line)
            return True
        # Every line that was replied to is there, and none twice.
        self.case.assertEqual(number, len(self.done))
        return False


class Kills:
    """What is killed at random, while a careful designer works."""

    def check_kills(self, kills, lines, pause):
        dice = random.Random(kills)
        (self.folder / "bar.mag").write_text(BAR)
        designer = Careful(self, self.path, self.folder, kills, lines)
        thread = threading.Thread(target=designer.run, daemon=True)
        thread.start()
        for _ in range(kills):
            time.sleep(dice.uniform(*pause))
            dice.choice(self.KINDS)(self)
        designer.may_end.set()
        thread.join(5 * GENEROUS)
        if designer.fault is not None:
            raise designer.fault
        self.assertFalse(thread.is_alive())
        self.assertEqual([line for _, line, _ in self.rows("a")], designer.done)
        looks = ["a drc catchup", "%save a", "a drc count", "%uses a", "%marks a"]
        cells = [f"c{i}={self.folder}/bar.mag" for i in range(1, designer.cells + 1)]
        expected = alone(["%open a", *holding(designer.done), *looks], *LONG, *cells)[-len(looks) :]
        self.assertEqual(designer.client.ask(*looks), expected)
        designer.leave()


class InFile(Kills, LoggedCase):
    words = ("--journal", "100")

    def a_relay(self):
        self.kill()
        self.start()

    def a_magicd(self):
        self.kill_programs()

    def both(self):
        self.kill_programs()
        self.a_relay()

    KINDS = (a_relay, a_magicd, both)

    def test_kills(self):
        self.check_kills(10, 300, (0.1, 0.6))


@unittest.skipUnless(HAVE_ETCD, "etcd-server or python3-etcd3 isn't installed")
class InEtcd(Kills, EtcdCase):
    def setUp(self):
        super().setUp()
        self.one = self.machine("one", None, "--journal", "100")
        self.path = self.one.path

    def a_relay(self):
        """Its sessions are in use until its lease has ended."""
        self.one.kill()
        self.one.start()

    def a_magicd(self):
        kill_programs(self.one.relay)

    KINDS = (a_relay, a_magicd, a_magicd, a_magicd)

    def test_kills(self):
        self.check_kills(10, 300, (0.1, 0.6))
