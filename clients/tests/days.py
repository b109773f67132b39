"""Long days: 300,000 rectangles, a hundred kills, and how long a session takes to be made again."""

import threading
import time

from tests import test_kills
from tests.serving import Client, alone
from tests.test_checkpoints import Painter
from tests.test_etcd import EtcdCase
from tests.test_log import LoggedCase
from tests.test_undo import holding

RECTANGLES = 300000

# How many rows a session has that is made again without a checkpoint: below 90 % of the greatest journal.
ROWS = 58000
JOURNAL = ("--journal", "65536")

# How wide the painter's squares are, and the plane of each type.
SIDE = 6
PLANES = {"poly": "active", "ndiff": "active", "m1": "metal1"}


def squares_of(lines):
    """Returns which type each square has on each plane after these lines of a painter."""
    squares = {}
    box = ()
    for line in lines:
        _, what, *words = line.split()
        if what == "box":
            left, bottom, right, top = map(int, words)
            box = [(x, y) for x in range(left, right, SIDE) for y in range(bottom, top, SIDE)]
        elif what == "paint":
            squares.update(((PLANES[words[0]], *at), words[0]) for at in box)
        else:
            for at in box:
                for kind in words[0].split(","):
                    if squares.get((PLANES[kind], *at)) == kind:
                        del squares[PLANES[kind], *at]
    return squares


def painted(squares):
    """Returns lines that paint these squares."""
    lines = []
    for (_, x, y), kind in squares.items():
        lines += [f"a box {x} {y} {x + SIDE} {y + SIDE}", f"a paint {kind}"]
    return lines


class DayWithoutEnd(LoggedCase):
    def test_a_day_without_end(self):
        """300,000 rectangles of one designer in one session with the default journal, undos and redos among them."""
        client = self.client()
        client.ask("%open a")
        painter = Painter(3, undoes=0.002)
        while len(painter.lines) < 2 * RECTANGLES:
            some = [line for _ in range(200) for line in painter.next()]
            for (line, begin), reply in zip(some, client.ask(*(line for line, _ in some))):
                self.assertTrue(reply.startswith(begin), (line, reply, self.said()))
        looks = ["a drc catchup", "%save a", "%marks a"]
        expected = alone(["%open a", *painted(squares_of(holding(painter.lines))), *looks])[-len(looks) :]
        self.assertEqual(client.ask(*looks), expected)
        client.close()
        start = time.time()
        client = self.client()
        self.assertEqual(self.resumed(client, "@resume a"), f"a resumed {len(painter.lines) + 1}")
        print(f"{len(painter.lines)} rows of a day with checkpoints are resumed in {time.time() - start:.1f} s", flush=True)
        self.assertEqual(client.ask(*looks), expected)


class KillsInFile(test_kills.InFile):
    def test_kills(self):
        self.check_kills(100, 3000, (0.1, 0.6))


class KillsInEtcd(test_kills.InEtcd):
    def test_kills(self):
        self.check_kills(100, 3000, (0.1, 0.6))


class Restored:
    """How long a session takes to be made again, and another's looks meanwhile."""

    def fill(self, client, name, count):
        lines = []
        for i in range(count // 2):
            x, y = i * 7 % 400, i * 13 // 400 * 4 % 400
            lines += [f"{name} box {x} {y} {x + 4} {y + 4}", f"{name} paint m1" if i % 3 else f"{name} erase m1"]
        client.ask(f"%open {name}")
        for start in range(0, len(lines), 1000):
            client.ask(*lines[start : start + 1000])

    def check_restored(self, path, what):
        client, other = Client(path, patience=600), Client(path, patience=600)
        self.fill(client, "a", ROWS)
        self.fill(client, "b", 8000)
        start = time.time()
        self.assertRegex(client.ask("@undo b 8000")[0], "b undone 8000: ")
        undone = time.time() - start
        client.close()
        other.ask("%open c")
        times, ended = [], threading.Event()

        def look():
            while not ended.is_set():
                start = time.perf_counter()
                other.ask("%stat c")
                times.append(time.perf_counter() - start)
                time.sleep(0.002)

        client = Client(path, patience=600)
        thread = threading.Thread(target=look)
        thread.start()
        try:
            reply = "in use"
            while "in use" in reply:
                times.clear()
                start = time.time()
                reply = client.ask("@resume a")[0]
        finally:
            ended.set()
            thread.join()
        resumed = time.time() - start
        self.assertEqual(reply, f"a resumed {ROWS}")
        times.sort()
        print(f"| {what}: {ROWS} rows {resumed:.1f} s | an undo of the last of 4000 edits {undone:.2f} s |"
              f" another's look meanwhile {times[len(times) // 2] * 1e3:.1f}, {times[len(times) * 99 // 100] * 1e3:.1f} ms |",
              flush=True)
        client.close()
        other.close()


class RestoredFromFile(Restored, LoggedCase):
    words = JOURNAL

    def test_restored(self):
        self.check_restored(self.path, "SQLite")


class RestoredFromEtcd(Restored, EtcdCase):
    def test_restored(self):
        self.check_restored(self.machine("one", None, *JOURNAL).path, "three etcds")
