"""A magicd that ends: it is started again, but not for ever, and no line ends more of them than it must."""

import os
import re
import signal
import subprocess

from tests.ending import Ending
from tests.serving import RelayCase, programs


class EndingCase(RelayCase):
    """A relay before a magicd that ends."""

    log = True
    words = ("--longest-pause", "0.1")
    # It ends once it was asked lines that have all of these words.
    at = ("doom",)

    def command(self, *words):
        if not hasattr(self, "server"):
            self.server = Ending(self.folder, *self.at)
        command = super().command(*words)
        command[command.index("--server") + 1] = str(self.server.path)
        return command

    def count_starts(self):
        return len(re.findall("magicd ended with|magicd was killed", self.said()))


class Ends(EndingCase):
    """It ends at lines that have the word `doom`."""

    def test_a_line_that_ends_it(self):
        other, client = self.client(), self.client()
        other.ask("%open b", "b box 0 0 4 4", "b paint m1")
        client.ask("%open a", "a box 0 0 4 4", "a paint poly")
        self.assertEqual(
            client.ask("a doom", "a what", "a box 0 0 1 1", "a what"),
            ["a refused 11 magicd ends at this line", "a what 1 poly", "a ok", "a what 1 poly"],
        )
        self.assertEqual(other.ask("b what"), ["b what 1 m1"])
        # It was asked as any line is, and then alone: twice each.
        self.assertEqual(self.server.seen(), ["a doom"] * 4)
        self.assertRegex(self.said(), r"WARNING relay: session \S+/a: magicd ends at line 3, which isn't sent again: a doom")
        # The line is no row: the session is resumed without it.
        client.close()
        self.assertEqual(self.resumed(self.client(), "@resume a"), "a resumed 6")

    def test_lines_beside_it(self):
        """Lines of others that wait at the same time are carried out in the end, and once."""
        clients = [self.client() for _ in range(6)]
        for number, client in enumerate(clients):
            client.ask(f"%open s{number}", f"s{number} box 0 0 4 4")
        clients[0].send("s0 doom", "s0 what")
        for number, client in enumerate(clients[1:], 1):
            client.send(*(line for _ in range(30) for line in (f"s{number} paint m1", f"s{number} what")))
        self.assertEqual([clients[0].reply(), clients[0].reply()], ["s0 refused 11 magicd ends at this line", "s0 what 0"])
        for number, client in enumerate(clients[1:], 1):
            self.assertEqual([client.reply() for _ in range(60)], [f"s{number} ok", f"s{number} what 1 m1"] * 30)
        self.assertLessEqual(len(self.server.seen()), 4)

    def test_a_line_of_nobody(self):
        client, other = self.client(), self.client()
        other.ask("%open b", "b box 0 0 4 4")
        self.assertEqual(client.ask("x doom"), ["@ refused: magicd ended 2 times before it replied"])
        self.assertEqual(other.ask("b what"), ["b what 0"])

    def test_open(self):
        """The line that opens a session ends it."""
        client, other = self.client(), self.client()
        other.ask("%open b", "b box 0 0 4 4")
        self.assertEqual(client.ask("%open doom"), ["doom lost: magicd ends: magicd: these words end it"])
        self.assertEqual(len(self.server.seen()), 2)
        self.assertEqual(other.ask("b what"), ["b what 0"])
        self.assertEqual(client.ask("%open a"), ["a opened"])

    def test_the_first_one_doesn_t_start(self):
        self.end()
        self.server.end_at()
        refused = subprocess.run(self.command(), stderr=subprocess.PIPE, text=True, timeout=120)
        self.assertEqual(refused.returncode, 1)
        self.assertIn("magicd doesn't start: magicd: it can't start today", refused.stderr)

    def test_a_later_one_doesn_t_start(self):
        client, other = self.client(), self.client()
        client.ask("%open a", "a box 0 0 4 4")
        before = self.count_starts()
        self.server.end_at()
        self.kill_programs()
        lost = "lost: magicd ends: magicd: it can't start today"
        self.assertEqual(client.ask("a what"), [f"a {lost}"])
        self.assertEqual(other.ask("%open b"), [f"b {lost}"])
        self.assertIn(self.count_starts() - before, range(10, 14))
        self.server.end_at("doom")
        self.assertEqual(self.resumed_some_time(other), "a resumed 1")

    def resumed_some_time(self, client):
        def reply():
            text = client.ask("@resume a")[0]
            return None if "in use" in text or "magicd ends" in text else text

        return self.until(reply)

    def test_ends_in_the_middle(self):
        """Ctrl-C while one magicd after another ends."""
        self.end()
        self.start("--longest-pause", "1000")
        client = self.client()
        client.ask("%open a", "a box 0 0 4 4")
        self.server.end_at()
        self.kill_programs()
        client.send("a what")
        self.until(lambda: self.count_starts() > 6)
        self.end()


class EndsAtEach(EndingCase):
    """It ends at each line of a session."""

    at = (" ",)

    def test_a_session(self):
        client = self.client()
        self.assertEqual(client.ask("%open a"), ["a lost: magicd ends: magicd: these words end it"])
        self.assertLessEqual(self.count_starts(), 3)


class EndsAtTwo(EndingCase):
    """It ends once it was asked lines with both of two words, whosever they are."""

    at = ("type_one", "type_two")

    def test_two_sessions(self):
        one, two = self.client(), self.client()
        one.ask("%open a", "a box 0 0 4 4")
        two.ask("%open b", "b box 0 0 4 4")
        self.kill_programs()
        one.send("a paint type_one", "a what")
        two.send("b paint type_two", "b what")
        unknown = "refused 4 unknown type"
        self.assertEqual([one.reply(), one.reply()], [f"a {unknown}", "a what 0"])
        self.assertEqual([two.reply(), two.reply()], [f"b {unknown}", "b what 0"])
        # Their rows have the words too, so that they can't be made again in the same magicd.
        for turn in range(8):
            self.assertEqual(one.ask("a paint type_one", "a what"), [f"a {unknown}", "a what 0"])
            self.assertEqual(two.ask("b paint type_two", "b what"), [f"b {unknown}", "b what 0"])
            if turn == 5:
                before = self.count_starts()
        self.assertEqual(self.count_starts(), before)


class Stopping(RelayCase):
    log = True

    def test_a_magicd_that_replies_no_more(self):
        client = self.client()
        client.ask("%open a", "a box 0 0 4 4")
        for number in programs(self.relay):
            os.kill(number, signal.SIGSTOP)
        client.send("a what", "%open b", "@resume c")
        self.relay.send_signal(signal.SIGTERM)
        self.assertEqual(self.relay.wait(60), 0)
        self.assertEqual(programs(self.relay), [])

    def test_during_a_resume(self):
        client = self.client()
        client.ask("%open a", *("a box 0 0 4 4" for _ in range(2000)))
        client.close()
        self.end()
        self.start()
        for number in programs(self.relay):
            os.kill(number, signal.SIGSTOP)
        client = self.client()
        client.send("@resume a")
        self.until(lambda: self.client().ask("@sessions") == ["@ sessions 1"])
        self.relay.send_signal(signal.SIGINT)
        self.assertEqual(self.relay.wait(60), 0)
        self.start()
        self.assertEqual(self.resumed(self.client(), "@resume a"), "a resumed 2000")
