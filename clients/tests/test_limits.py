"""One client takes no other's place: connections, sessions, files."""

import os
import resource
import socket
import subprocess

from tests.serving import PortCase, RelayCase


class Silence(PortCase):
    """Connections that nobody lets in."""

    words = ("--connections", "5")

    def test_the_silent_keep_nobody_out(self):
        silent = [socket.create_connection(("127.0.0.1", self.port), timeout=600) for _ in range(200)]
        for each in silent:
            self.addCleanup(each.close)
        newcomer = self.designer()
        self.assertEqual(newcomer.ask("%open a"), ["a opened"])
        ended = [self.rest(each) for each in silent]
        self.assertEqual(set(ended), {
            b"@ refused: too many connections wait to be let in\n", b"@ refused: no token within 5 seconds\n",
        })
        self.assertEqual(newcomer.ask("a what"), ["a refused 3 no box"])
        self.end()
        said = self.said()
        self.assertNotIn("Traceback", said)
        self.assertLess(len(said.splitlines()), 30)
        self.assertRegex(said, r"makes room for another one: \d+ times more")

    def rest(self, connection):
        """Returns all that is sent until the connection's end."""
        with connection.makefile("rb") as replies:
            return replies.read()

    def test_as_many_as_there_may_be(self):
        team = [self.designer() for _ in range(5)]
        self.assertEqual([each.ask(f"%open s{n}") for n, each in enumerate(team)], [[f"s{n} opened"] for n in range(5)])
        for _ in range(3):
            self.assertEqual(self.designer().reply(), "@ refused: 5 connections, as many as there may be")
        team.pop().close()
        self.until(lambda: self.designer().ask("%open t") == ["t opened"])
        self.end()
        self.assertIn("a connection is refused: 5 connections, as many as there may be: ", self.said())


class OfOneOwner(RelayCase):
    words = ("--connections-each", "4", "--sessions-each", "3")
    log = True

    def test_connections(self):
        team = [self.client() for _ in range(4)]
        for each in team:
            self.assertEqual(each.ask("@sessions"), ["@ sessions 0"])
        refused = self.client().reply()
        self.assertRegex(refused, "@ refused: 4 connections of .*@.*, as many as there may be of one owner")

    def test_sessions(self):
        client = self.client()
        full = "refused open 2 sessions full: 3 of one owner"
        self.assertEqual(client.ask(*(f"%open s{n}" for n in range(4))), [*(f"s{n} opened" for n in range(3)), f"s3 {full}"])
        self.assertEqual(client.ask("%close s0", "%open t", "%open u"), ["s0 closed", "t opened", f"u {full}"])
        # Those that are left count too.
        self.end()
        self.start()
        other = self.client()
        self.assertEqual(other.ask("%open u"), [f"u {full}"])
        self.assertEqual(self.resumed(other, "@resume t"), "t resumed 0")
        self.assertEqual(other.ask("%close t", "%open u"), ["t closed", "u opened"])
        self.assertIn("a session is refused: ", self.said())


class Texts(RelayCase):
    def memory(self):
        """Returns the relay's resident size in bytes."""
        with open(f"/proc/{self.relay.pid}/statm", encoding="ascii") as file:
            return int(file.read().split()[1]) * os.sysconf("SC_PAGESIZE")

    def test_a_reader_of_nothing_takes_no_memory(self):
        idle = self.client()
        bars = (line for i in range(800) for line in (f"a box {2 * i} 0 {2 * i + 1} 90", "a paint m1"))
        idle.ask("%open a", *bars, "%save a")
        before = self.memory()
        idle.socket.settimeout(3)
        with self.assertRaises(TimeoutError):
            idle.send(*["%save a"] * 200_000)
        self.assertEqual(self.client().ask("%open b", "b what"), ["b opened", "b refused 3 no box"])
        self.assertLess(self.memory() - before, 8 << 20)


class Files(RelayCase):
    def test_no_more_files(self):
        client = self.client()
        self.assertEqual(client.ask("%open a"), ["a opened"])
        used = len(os.listdir(f"/proc/{self.relay.pid}/fd"))
        before = resource.prlimit(self.relay.pid, resource.RLIMIT_NOFILE)
        resource.prlimit(self.relay.pid, resource.RLIMIT_NOFILE, (used + 2, before[1]))
        others = [self.client() for _ in range(20)]
        for each in others:
            each.send("@sessions")
        for each in others[:2]:
            self.assertEqual(each.reply(), "@ sessions 1")
        self.assertEqual(client.ask("a what"), ["a refused 3 no box"])
        resource.prlimit(self.relay.pid, resource.RLIMIT_NOFILE, before)
        for each in others[2:]:
            self.assertEqual(each.reply(), "@ sessions 1")
        self.end()
        said = self.said()
        self.assertIn("no connection can be accepted: Too many open files", said)
        self.assertNotIn("Traceback", said)
        self.assertLess(len(said.splitlines()), 10)

    def test_fewer_files_than_connections(self):
        self.end()

        def few_files():
            resource.setrlimit(resource.RLIMIT_NOFILE, (400, 400))

        refused = subprocess.run(self.command(), preexec_fn=few_files, stderr=subprocess.PIPE, text=True, timeout=600)
        self.assertEqual(refused.returncode, 1)
        self.assertIn("--connections 900: with a limit of 400 open files at most 100", refused.stderr)
