"""Several relays at one etcd: nothing is lost or done twice, whatever is killed, stopped or cut off."""

import contextlib
import getpass
import json
import pathlib
import re
import signal
import socket
import subprocess
import tempfile
import time
import unittest

from tests.certificates import HAVE_OPENSSL, Team
from tests.etcds import HAVE_ETCD, Etcds, SlowNetwork
from tests.serving import HERE, SERVER, Client, alone, kill_programs, random_lines
from tests.test_log import TeamCase, expected_rows


class Machine:
    """A relay, at a socket of its own unless told, and its magicd."""

    def __init__(self, folder, name, *words, where=None):
        self.path = str(folder / name)
        self.messages = open(folder / f"{name}.messages", "a+", encoding="utf-8")
        self.command = [HERE.parent / "relay", *(where or ["--socket", self.path]), "--server", SERVER, *words]
        self.relay = None
        self.start()

    def start(self):
        self.relay = subprocess.Popen(self.command, stderr=self.messages, start_new_session=True)

    def wait(self):
        for _ in range(400):
            try:
                with contextlib.closing(Client(self.path)) as client:
                    if client.ask("?") != [""]:
                        return
            except OSError:
                time.sleep(0.05)
        raise TimeoutError(self.said())

    def said(self):
        self.messages.seek(0)
        return self.messages.read()

    def kill(self):
        kill_programs(self.relay)
        self.relay.kill()
        self.relay.wait()

    def end(self):
        """Ends the relay in order, and returns its status."""
        self.relay.send_signal(signal.SIGCONT)
        self.relay.send_signal(signal.SIGINT)
        try:
            return self.relay.wait(30)
        finally:
            self.relay.kill()
            self.relay.wait()
            self.messages.close()


@unittest.skipUnless(HAVE_ETCD, "etcd-server or python3-etcd3 isn't installed")
class EtcdCase(TeamCase):
    """Three etcds, and as many relays as a test wants."""

    @classmethod
    def setUpClass(cls):
        folder = tempfile.TemporaryDirectory()
        cls.addClassCleanup(folder.cleanup)
        cls.etcds = Etcds(folder.name)
        cls.addClassCleanup(cls.etcds.end)

    def setUp(self):
        folder = tempfile.TemporaryDirectory()
        self.addCleanup(folder.cleanup)
        self.folder = pathlib.Path(folder.name)
        # Each test has a log of its own.
        self.name = re.sub(r"\W", "_", self.id().rpartition(".")[2])

    def machine(self, name, log=None, *words):
        machine = Machine(self.folder, name, "--log", log or self.etcds.log(name=self.name), *words)
        self.addCleanup(machine.end)
        machine.wait()
        return machine

    def client(self, machine):
        client = Client(machine.path)
        self.addCleanup(client.close)
        return client

    def rows(self, session):
        return self.etcds.rows(session, self.name)

    def resumed(self, client, line, seconds=30):
        """Resumes once the session isn't in use any more, and returns the reply."""
        for _ in range(seconds * 10):
            reply = client.ask(line)[0]
            if " in use" not in reply:
                return reply
            time.sleep(0.1)
        self.fail(f"the session stays in use: {reply}")


class SeveralRelays(EtcdCase):
    def test_a_session_is_resumed_anywhere(self):
        one, other = self.machine("one"), self.machine("other")
        client, second = self.client(one), self.client(other)
        lines = ["%open a", "a box 0 0 1 10", "a nonsense", "a paint poly", "a drc catchup", "%stat a", "a drc count"]
        self.assertEqual(client.ask(*lines), alone(lines))
        self.assertEqual(second.ask("%open a"), ["a refused open 1 open already"])
        refused = second.ask("@resume a")[0]
        self.assertRegex(refused, rf"a refused resume in use at {one.path} on .+$")
        self.assertRegex(second.ask("@sessions")[0], r"@ sessions 1$")
        self.assertRegex(second.replies.readline().decode(), rf"@ a in use at {one.path} on .+\n$")
        client.close()
        self.assertEqual(self.resumed(second, "@resume a 4"), "a resumed 5")
        self.assertEqual(second.reply(), "@ 5 a count 10 errors 0 pending")
        self.assertEqual(second.ask("a paint m1", "a what", "%close a", "@resume a"), [
            "a ok", "a what 2 poly m1", "a closed", "a refused resume no such session",
        ])
        self.assertEqual(self.client(one).ask("%open a", "a what"), ["a opened", "a refused 3 no box"])
        self.assertEqual(self.rows("a"), [(1, "a what", "a refused 3 no box\n")])

    def test_many_lines_at_once(self):
        """Batches stay below what etcd takes: hundreds of rows, and replies of four kilobytes."""
        one = self.machine("one")
        bars = [line for i in range(150) for line in (f"a box {2 * i} 0 {2 * i + 1} 90", "a paint m1")]
        lines = ["%open a", *bars, *["a save"] * 600, *random_lines("a", 300, 5)]
        self.assertEqual(self.client(one).ask(*lines), alone(lines))

    def test_rows_that_are_not_those_that_were_written(self):
        """A row changed, and the last one gone: each is refused with its number."""
        client = self.client(self.machine("one"))
        etcd = self.etcds.any()
        for name in "ab":
            lines = [f"{name} box 0 0 1 10", f"{name} paint poly", f"{name} what"]
            replies = client.ask(f"%open {name}", *lines, f"@leave {name}")
            self.assertEqual(replies, [*alone([f"%open {name}", *lines]), f"{name} left"])
        (changed,) = [about.key for _, about in etcd.get_prefix(f"{self.name}/lines/a.") if about.key.endswith(b"2")]
        etcd.put(changed, etcd.get(changed)[0].replace(b"poly", b"ndiff"))
        (last,) = [about.key for _, about in etcd.get_prefix(f"{self.name}/lines/b.") if about.key.endswith(b"3")]
        etcd.delete(last)
        self.assertEqual(client.ask("@resume a", "@resume b"), [
            "a refused resume row 2 doesn't follow the rows before it",
            "b refused resume behind row 2 rows are missing",
        ])

    def test_a_log_of_before_there_were_hashes(self):
        """It is taken over: its rows count, and are chained from then on."""
        etcd = self.etcds.any()
        etcd.put(f"{self.name}/options", "--live")
        owner = f"{getpass.getuser()}@{socket.gethostname()}"
        etcd.put(f"{self.name}/open/a", json.dumps({"id": "a.0", "owner": owner, "opened": 1.0}))
        for number, line in ((1, "box 0 0 1 10"), (3, "paint poly")):
            etcd.put(f"{self.name}/lines/a.0/{number:010d}", f"1732.123 a {line}\na ok\n")
        one = self.machine("one")
        client = self.client(one)
        self.assertEqual(client.ask("@resume a", "a what", "@leave a"), ["a resumed 3", "a what 1 poly", "a left"])
        key = f"{self.name}/lines/a.0/{1:010d}"
        etcd.put(key, etcd.get(key)[0].replace(b"10\n", b"20\n"))
        self.assertEqual(client.ask("@resume a"), ["a refused resume row 4 doesn't follow the rows before it"])
        etcd.put(key, etcd.get(key)[0].replace(b"20\n", b"10\n"))
        self.assertEqual(client.ask("@resume a", "@undo a 3"), ["a resumed 4", "a undone 3: a paint poly"])

    def test_a_checkpoint_and_a_cell_of_another_relay(self):
        """Texts come in pieces, and a cell is there at each relay from the next line that names it."""
        one, two = self.machine("one"), self.machine("two")
        bar = self.folder / "bar.mag"
        # A piece has half a megabyte.
        bar.write_text("magic\n<< m1 >>\n" + "rect 0 0 3 9\n" * 100000 + "<< end >>\n")
        client, other = self.client(one), self.client(two)
        other.ask("%open b")
        self.assertEqual(client.ask("%open a", f"@load bar {bar}", "a dump bar 0 0", "a box 0 0 2 20", "a paint poly"), [
            "a opened", "@ loaded bar", "a ok", "a ok", "a ok",
        ])
        self.assertEqual(other.ask("b getcell bar 5 5", "b getcell foo 5 5"), ["b ok", "b refused 7 unknown cell"])
        self.assertRegex(client.ask("@compact a")[0], "a compacted ")
        saved = client.ask("%save a")
        client.close()
        self.assertEqual(self.resumed(other, "@resume a"), "a resumed 4")
        self.assertEqual(other.ask("%save a", "@undo a 3", "a what", f"@load bar {bar}"), [
            *saved, "a undone 3: a paint poly", "a what 1 m1", "@ refused load bar: name twice",
        ])

    def test_other_options(self):
        self.machine("one")
        where = ["--socket", str(self.folder / "x"), "--log", self.etcds.log(name=self.name)]
        command = [HERE.parent / "relay", *where, "--quota", "99"]
        refused = subprocess.run(command, stderr=subprocess.PIPE, text=True, timeout=30, check=False)
        self.assertEqual(refused.returncode, 1)
        self.assertIn("it is of a server with other options", refused.stderr)

    def test_a_relay_that_was_stopped(self):
        """It can add nothing to a session that another has taken, nor has it a look at it.

        An append that it had under way comes late, when the session is its own again. With a comparison that said no
        more than whose the session is, it would be done.
        """
        slow = SlowNetwork(self.etcds.ports[0])
        self.addCleanup(slow.end)
        one = self.machine("one", self.etcds.log([slow.port, *self.etcds.ports[1:]], self.name))
        other = self.machine("other", self.etcds.log(self.etcds.ports[1:], self.name))
        client = self.client(one)
        self.assertEqual(client.ask("%open a", "a box 0 0 4 4", "a paint poly"), ["a opened", "a ok", "a ok"])
        slow.hold_back()
        client.send("a erase poly")
        time.sleep(0.5)
        one.relay.send_signal(signal.SIGSTOP)
        late = slow.freeze()
        self.assertTrue(late)
        client.send("%stat a", "a paint ndiff")
        second = self.client(other)
        self.assertEqual(self.resumed(second, "@resume a"), "a resumed 2")
        self.assertEqual(second.ask("a paint m1"), ["a ok"])
        second.close()
        one.relay.send_signal(signal.SIGCONT)
        for _ in range(3):
            self.assertRegex(client.reply(), r"^a lost: ")
        third = self.client(one)
        self.assertEqual(self.resumed(third, "@resume a"), "a resumed 3")
        slow.hand_on(late)
        time.sleep(1)
        self.assertEqual(third.ask("a what"), ["a what 2 poly m1"])
        texts = ["box 0 0 4 4", "paint poly", "paint m1", "what"]
        self.assertEqual(self.rows("a"), expected_rows("a", texts))

    def test_an_etcd_that_is_cut_off(self):
        """One etcd of three replies to nothing, and so the relay doesn't either: not even to a look."""
        one = self.machine("one", self.etcds.log(self.etcds.ports[:1], self.name))
        client = self.client(one)
        client.ask("%open a", "a box 0 0 4 4")
        for index in (1, 2):
            self.etcds.signal(index, signal.SIGSTOP)
        try:
            time.sleep(1)
            client.send("%stat a")
            self.assertEqual(client.replies.readline(), b"@ waiting: the log doesn't reply\n")
        finally:
            for index in (1, 2):
                self.etcds.signal(index, signal.SIGCONT)
        self.assertRegex(client.reply(), r"^a stat 1 of|^a lost: ")


@unittest.skipUnless(HAVE_ETCD and HAVE_OPENSSL, "etcd-server, python3-etcd3 or openssl isn't installed")
class SecuredEtcd(unittest.TestCase):
    def test_certificates_for_etcd(self):
        team, strangers = Team(type(self)), Team(type(self))
        folder = pathlib.Path(team.folder)
        etcds = Etcds(folder, 1, team.machine())
        self.addCleanup(etcds.end)
        words = ("--log", etcds.log(), "--etcd-tls")
        machine = Machine(folder, "one", *words, *team.make("one", "127.0.0.1"))
        self.addCleanup(machine.end)
        machine.wait()
        client = Client(machine.path)
        self.addCleanup(client.close)
        self.assertEqual(client.ask("%open a", "a box 0 0 4 4", "a what"), ["a opened", "a ok", "a what 0"])
        self.assertEqual(len(etcds.rows("a")), 2)
        stranger = Machine(folder, "two", *words, *strangers.make("one", "127.0.0.1")[:2], team.machine()[2])
        self.addCleanup(stranger.end)
        for _ in range(100):
            if "no etcd replies" in stranger.said():
                break
            time.sleep(0.1)
        self.assertIn("no etcd replies", stranger.said())
        self.assertNotIn("listening", stranger.said())


if __name__ == "__main__":
    unittest.main()
