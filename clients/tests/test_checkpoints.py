"""Days without an end: a session goes on from checkpoints, however many lines it has."""

import pathlib
import random

from tests.serving import SERVER, alone, limit_files, programs
from tests.test_log import LoggedCase
from tests.test_undo import holding

# Enough for all lines of a test in one session, played alone.
LONG = ("--journal", "65536")


class Painter:
    """Random lines that paint, place, undo and redo, as a designer would send them who knows the replies."""

    def __init__(self, seed, undoes=0.04):
        self.dice = random.Random(seed)
        # How likely an undo is.
        self.undoes = undoes
        self.lines = []
        self.edits, self.undone = [], []

    def next(self):
        """Returns the next lines; each has a reply that begins so."""
        dice = self.dice
        if self.edits and dice.random() < self.undoes:
            self.undone.append(self.edits.pop())
            return self.add((f"@undo a {self.undone[-1]}", f"a undone {self.undone[-1]}: "))
        if self.undone and dice.random() < 0.5:
            self.edits.append(self.undone.pop())
            return self.add((f"@redo a {self.edits[-1]}", f"a redone {self.edits[-1]}: "))
        left, bottom = dice.randrange(-60, 60, 6), dice.randrange(-60, 60, 6)
        box = f"a box {left} {bottom} {left + dice.randrange(6, 20, 6)} {bottom + dice.randrange(6, 20, 6)}"
        edit = dice.choice(["paint poly", "paint m1", "paint ndiff", "erase m1,poly"])
        self.edits.append(len(self.lines) + 2)
        self.undone.clear()
        return self.add((box, "a ok"), (f"a {edit}", "a ok"))

    def add(self, *lines):
        self.lines += [line for line, _ in lines]
        return lines


class CheckpointCase(LoggedCase):
    words = ("--journal", "100")

    def paint(self, client, painter, count):
        """Has so many lines sent, some at a time."""
        sent = 0
        while sent < count:
            some = [line for _ in range(painter.dice.randrange(1, 40)) for line in painter.next()]
            sent += len(some)
            for (line, begin), reply in zip(some, client.ask(*(line for line, _ in some))):
                self.assertTrue(reply.startswith(begin), (line, reply, self.said()))

    def check_holds(self, client, lines, *words):
        """The session's layout and marks are those of the lines that hold, played alone."""
        looks = ["a drc catchup", "%save a", "a drc count", "%uses a", "%marks a"]
        expected = alone(["%open a", *holding(lines), *looks], *LONG, *words)[-len(looks) :]
        self.assertEqual(client.ask(*looks), expected)
        lines += [look for look in looks if look.startswith("a ")]

    def checkpoints(self):
        """Returns how many rows are checkpoints."""
        return sum(line.startswith("@compact") for _, line, _ in self.rows("a", "part >= 0"))


class Checkpoints(CheckpointCase):
    def test_many_journals(self):
        """3,000 rectangles with a journal of 100 entries, undos and redos among them, and kills."""
        client = self.client()
        client.ask("%open a")
        painter = Painter(1, undoes=0.01)
        for turn in range(4):
            self.paint(client, painter, 1500)
            self.check_holds(client, painter.lines)
            if turn % 2 == 0:
                self.kill_programs()
            else:
                self.kill()
                self.start()
                client = self.client()
                self.assertEqual(self.resumed(client, "@resume a"), f"a resumed {len(painter.lines)}")
            self.check_holds(client, painter.lines)
        self.assertGreater(self.checkpoints(), 30)
        self.assertNotIn("no checkpoint", self.said())

    def test_an_undo_over_two_checkpoints(self):
        client = self.client()
        lines = [line for i in range(4) for line in (f"a box {9 * i} 0 {9 * i + 2} 9", "a paint m1")]
        client.ask("%open a", *lines)
        for turn in range(2):
            self.assertRegex(client.ask("@compact a")[0], r"^a compacted [0-9a-f]{64}$")
            lines += ["@compact a", f"a box 0 {20 + 9 * turn} 4 {22 + 9 * turn}", "a paint poly"]
            client.ask(*lines[-2:])
        # What there is now: 1 to 8 painted, 9 a checkpoint, 10 and 11 painted, 12 a checkpoint, 13 and 14 painted.
        for number in (14, 11, 8, 6):
            lines.append(f"@undo a {number}")
            self.assertRegex(client.ask(lines[-1])[0], f"^a undone {number}: ")
        self.check_holds(client, lines)
        client.close()
        client = self.client()
        self.resumed(client, "@resume a")
        for number in (6, 8, 11):
            lines.append(f"@redo a {number}")
            self.assertRegex(client.ask(lines[-1])[0], f"^a redone {number}: ")
        self.check_holds(client, lines)

    def test_what_a_checkpoint_holds(self):
        """Placed cells, the box, what awaits checking: all as before; and its name is nobody's."""
        cell = self.folder / "bar.mag"
        cell.write_text("magic\ntech M\n<< m1 >>\nrect 0 0 1 9\n<< end >>\n")
        self.end()
        (self.folder / "log").unlink()
        self.words = (*self.words, f"bar={cell}")
        self.start()
        client = self.client()
        lines = ["a box 0 0 1 10", "a paint poly", "a getcell bar 3 3", "a getcell bar 9 9", "a dump bar 20 0",
                 "a drc check", "a box 0 0 99 99"]
        client.ask("%open a", *lines)
        self.assertRegex(client.ask("@compact a")[0], "^a compacted ")
        self.assertRegex(client.ask("%stat a")[0], r"^a stat 5 of 100 entries, ")
        lines.append("@compact a")
        words = [word for each in programs(self.relay) for word in self.words_of(each)]
        (name,) = {word.partition("=")[0] for word in words if word.startswith("checkpoint_")}
        self.assertEqual(client.ask("a what", "a dump none 0 0", f"a getcell {name} 1 1"), [
            "a what 2 poly m1", "a refused 7 unknown cell", "a refused 7 unknown cell",
        ])
        self.assertEqual(client.ask("%journal a")[0].split("\n")[-2:], ["a dump , 0 0", "a getcell , 1 1"])
        lines += ["a what"] * 3
        self.check_holds(client, lines, f"bar={cell}")
        # The layout is undone cell by cell behind the checkpoint.
        for number in (5, 4):
            lines.append(f"@undo a {number}")
            client.ask(lines[-1])
        self.check_holds(client, lines, f"bar={cell}")

    def words_of(self, program):
        return pathlib.Path(f"/proc/{program}/cmdline").read_text().split("\0")

    def test_a_magicd_that_nobody_needs_ends(self):
        client = self.client()
        client.ask("%open a", "a box 0 0 1 10", "a paint poly", "%open b", "b box 0 0 1 10")
        before = len(programs(self.relay))
        client.ask("@compact a", "@compact a", "@compact a")
        self.until(lambda: len(programs(self.relay)) == before + 1)
        client.ask("%close a")
        self.until(lambda: len(programs(self.relay)) == before)
        self.assertEqual(client.ask("b paint m1"), ["b ok"])

    def test_sessions_share_a_start(self):
        """Sixteen sessions that are made again from their checkpoints at once need a few magicds, not sixteen."""
        names = [f"s{i}" for i in range(16)]
        client = self.client()
        for name in names:
            client.ask(f"%open {name}", f"{name} box 0 0 9 9", f"{name} paint m1", f"@compact {name}")
        client.close()
        self.end()
        self.start()
        clients = [self.client() for _ in names]
        for client, name in zip(clients, names):
            client.send(f"@resume {name}")
        self.assertEqual([client.reply() for client in clients], [f"{name} resumed 3" for name in names])
        self.assertLess(len(programs(self.relay)), 8)

    def test_a_full_disk(self):
        """In the middle of a checkpoint: the session is what it was, and nothing that was replied to is lost."""
        client = self.client()
        lines = [line for i in range(20) for line in (f"a box {9 * i} 0 {9 * i + 2} 9", "a paint m1")]
        client.ask("%open a", *lines)
        # The file that grows last is the log: its rows may not take more room than now, or nothing has any.
        for most, said in ((0, "a refused compact "), ((self.folder / "log-wal").stat().st_size, "a lost: ")):
            limit_files([self.relay.pid], most)
            self.assertRegex(client.ask("@compact a")[0], f"^{said}.*(File too large|disk)")
            limit_files([self.relay.pid])
        client.close()
        client = self.client()
        self.assertEqual(self.resumed(client, "@resume a"), "a resumed 40")
        self.assertEqual(self.checkpoints(), 0)
        self.check_holds(client, lines)
        self.assertRegex(client.ask("@compact a")[0], "^a compacted ")
        self.check_holds(client, [*lines, "@compact a"])

    def test_a_checkpoint_that_differs(self):
        """A magicd that is given less than was painted: the session stays as it was, and a message says so."""
        server = self.folder / "server"
        server.write_text(f"""#!/bin/sh
for word in "$@"; do
    case $word in checkpoint_*) sed -i '/^rect 9 /d' "${{word#*=}}" ;; esac
done
exec {SERVER} "$@"
""")
        server.chmod(0o700)
        self.end()
        self.start("--server", str(server))
        client = self.client()
        lines = [line for i in range(43) for line in (f"a box {3 * i} 0 {3 * i + 2} 9", "a paint m1")]
        client.ask("%open a", *lines)
        self.assertEqual(client.ask("@compact a"), ["a refused compact %save a differs"])
        lines.append("@compact a")
        for i in range(4):
            lines += [f"a box 0 {20 * i + 20} 4 {20 * i + 22}", "a paint poly"]
            self.assertEqual(client.ask(*lines[-2:]), ["a ok", "a ok"])
        self.until(lambda: "has no checkpoint: %save a differs" in self.said())
        self.assertEqual(client.ask("%save a"), alone(["%open a", *holding(lines), "%save a"], *LONG)[-1:])
        self.assertEqual(self.checkpoints(), 0)
