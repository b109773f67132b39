"""Undo and redo: rows of the log, after which the session is that of the lines that hold."""

import random

from tests.serving import alone
from tests.test_log import LoggedCase


def holding(lines):
    """Returns the lines of a session that undo and redo have left."""
    undone = set()
    for line in lines:
        words = line.split()
        if words[0] == "@undo":
            undone.add(int(words[2]))
        elif words[0] == "@redo":
            undone.discard(int(words[2]))
    return [line for number, line in enumerate(lines, 1) if not line.startswith("@") and number not in undone]


class Undo(LoggedCase):
    def check_holds(self, client, lines):
        """The session's layout and marks are those of the lines that hold."""
        looks = ["a drc catchup", "%save a", "a drc count", "%uses a", "%marks a"]
        self.assertEqual(client.ask(*looks), alone(["%open a", *lines, *looks])[-len(looks) :])

    def test_undo_and_redo(self):
        client = self.client()
        client.ask("%open a", "a box 0 0 1 10", "a paint poly", "a box 4 0 6 10", "a erase poly", "a paint m1", "a what")
        self.assertEqual(client.ask("@undo a 2", "@undo a 5", "@undo a 5", "@undo a 4", "a what", "@undo a 2"), [
            "a refused undo edit 5 comes first",
            "a undone 5: a paint m1",
            "a undone 5: a paint m1",
            "a undone 4: a erase poly",
            "a what 0",
            "a undone 2: a paint poly",
        ])
        self.assertEqual(client.ask("@undo a 2", "@undo a 1", "@redo a 4", "@redo a 2", "@redo a 2"), [
            "a undone 2: a paint poly",
            "a refused undo no edit",
            "a refused redo edit 2 comes first",
            "a redone 2: a paint poly",
            "a redone 2: a paint poly",
        ])
        self.check_holds(client, ["a box 0 0 1 10", "a paint poly", "a box 4 0 6 10"])
        client.ask("@redo a 4", "@redo a 5")
        self.check_holds(client, ["a box 0 0 1 10", "a paint poly", "a box 4 0 6 10", "a paint m1"])
        self.assertEqual(client.ask("@undo a 5", "a paint ndiff", "@redo a 5"), [
            "a undone 5: a paint m1", "a ok", "a refused redo no edit",
        ])
        client.close()
        again = self.client()
        self.assertEqual(self.resumed(again, "@resume a 23"), "a resumed 25")
        self.assertEqual([again.reply(), again.reply()], ["@ 24 a undone 5: a paint m1", "@ 25 a ok"])
        self.check_holds(again, ["a box 0 0 1 10", "a paint poly", "a box 4 0 6 10", "a paint ndiff"])

    def test_lines_that_mean_no_edit(self):
        client = self.client()
        self.assertEqual(client.ask("@undo a 1", "%open a", "@undo a", "@undo a x", "@undo a 1 2", "@redo a 1"), [
            "line 1 fault 4 not open", "a opened", "line 3 fault 1 unknown command", "line 4 fault 2 bad number",
            "line 5 fault 1 unknown command", "a refused redo no edit",
        ])

    def test_an_undo_that_waits(self):
        """Lines behind an undo are carried out after it, however fast they come."""
        client = self.client()
        lines = []
        for i in range(60):
            lines += [f"a box {4 * i} 0 {4 * i + 2} 9", "a paint m1", "a drc check", "a drc catchup"]
            if i % 3 == 0:
                lines += [f"@undo a {len(lines) - 2}", "a what"]
        replies = client.ask("%open a", *lines)
        self.assertEqual(
            [each for each in replies if " undone " in each],
            [f"a undone {each.split()[2]}: a paint m1" for each in lines if each.startswith("@undo")],
        )
        self.assertEqual({each for each in replies if " what " in each}, {"a what 0"})
        self.check_holds(client, holding(lines))

    def test_an_undo_after_a_kill(self):
        """Whatever is killed, what was undone stays so, and the same can be redone."""
        dice = random.Random(5)
        client = self.client()
        client.ask("%open a")
        lines, edits, undone = [], [], []
        for turn in range(40):
            kind = dice.choice(["poly", "m1", "ndiff"])
            left, bottom = dice.randrange(-50, 50), dice.randrange(-50, 50)
            lines += [f"a box {left} {bottom} {left + 9} {bottom + 5}", f"a paint {kind}"]
            self.assertEqual(client.ask(*lines[-2:]), ["a ok", "a ok"])
            edits.append(len(lines))
            undone.clear()
            for _ in range(dice.randrange(3)):
                if edits:
                    undone.append(edits.pop())
                    lines.append(f"@undo a {undone[-1]}")
                    self.assertRegex(client.ask(lines[-1])[0], rf"a undone {undone[-1]}: ")
            if dice.random() < 0.2:
                client = self.killed(turn, client, len(lines))
            for _ in range(dice.randrange(2)):
                if undone:
                    edits.append(undone.pop())
                    lines.append(f"@redo a {edits[-1]}")
                    self.assertRegex(client.ask(lines[-1])[0], rf"a redone {edits[-1]}: ")
        self.check_holds(client, holding(lines))

    def killed(self, turn, client, number):
        """Kills the relay or its magicd, and returns a client that has the session."""
        if turn % 2 == 0:
            self.kill_programs()
            return client
        self.kill()
        self.start()
        client = self.client()
        self.assertEqual(self.resumed(client, "@resume a"), f"a resumed {number}")
        return client
