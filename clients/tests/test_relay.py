"""Many connections at one relay: each has its own replies, and stops nobody."""

import os
import re
import socket
import stat
import subprocess
import threading

from tests.serving import HERE, Client, PortCase, RelayCase, alone, random_lines


def unnumbered(replies):
    """Returns replies without the numbers of lines, which count a connection's lines."""
    return [re.sub(r"^line \d+ ", "line N ", reply) for reply in replies]


class ManyConnections(RelayCase):
    def test_one_client_as_alone(self):
        lines = ["%open a", *random_lines("a", 300, 1), "%uses a", "%save a", "%why a 0 0 9 9", "%close a", "a what"]
        self.assertEqual(self.client().ask(*lines), alone(lines))

    def test_64_clients_as_alone(self):
        clients = {f"s{i}": (self.client(), [f"%open s{i}", *random_lines(f"s{i}", 150, i)]) for i in range(64)}
        found = {}

        def run(name, client, lines):
            found[name] = client.ask(*lines)

        threads = [threading.Thread(target=run, args=(name, *each)) for name, each in clients.items()]
        for thread in threads:
            thread.start()
        for thread in threads:
            thread.join()
        for name, (_, lines) in clients.items():
            self.assertEqual(found[name], alone(lines), name)

    def test_a_session_is_its_connection_s(self):
        one, other = self.client(), self.client()
        self.assertEqual(one.ask("%open a"), ["a opened"])
        self.assertEqual(
            other.ask("%open a", "a what", "%save a", "%close a"),
            ["a refused open 1 open already", *(f"line {n} fault 4 not open" for n in (2, 3, 4))],
        )
        self.assertEqual(one.ask("%close a", "%open a"), ["a closed", "a opened"])

    def test_sessions_end_with_their_connection(self):
        one = self.client()
        one.ask("%open a")
        one.close()
        other = self.client()
        self.until(lambda: other.ask("%open a") == ["a opened"])

    def test_a_second_server_where_one_is_full(self):
        self.end()
        self.start("--sessions-each", "100")
        client = self.client()
        self.assertEqual(client.ask(*(f"%open s{i}" for i in range(70))), [f"s{i} opened" for i in range(70)])

    def test_a_reader_of_nothing_stops_nobody(self):
        idle = self.client()
        idle.ask("%open idle", *(f"idle {what}" for i in range(40) for what in (f"box {2 * i} 0 {2 * i + 1} 90", "paint m1")))
        idle.socket.settimeout(3)
        try:
            for _ in range(200_000):
                idle.send("%save idle")
        except (TimeoutError, socket.timeout):
            pass
        lines = ["%open a", *random_lines("a", 50, 2)]
        self.assertEqual(self.client().ask(*lines), alone(lines))

    def test_lines_that_are_none(self):
        client = self.client()
        client.send("%open a", b"\xff\xfe \x00 box\n", b"a" * 5000 + b"\n", "", "# silent", "a what")
        self.assertEqual(
            [client.reply() for _ in range(4)],
            ["a opened", "line 2 fault 3 name", "line 3 fault 1 unknown command", "a refused 3 no box"],
        )

    def test_a_hundred_megabytes_without_a_line_feed(self):
        client, other = self.client(), self.client()
        part = b"x" * (1 << 20)
        for _ in range(100):
            client.send(part)
        self.assertEqual(other.ask("%open a", "a what"), ["a opened", "a refused 3 no box"])
        client.send("", "%open b")
        self.assertEqual([client.reply(), client.reply()], ["line 1 fault 1 unknown command", "b opened"])

    def test_a_connection_that_is_cut_in_a_line(self):
        client = self.client()
        client.ask("%open a")
        client.send(b"a box 0 0 4")
        client.close()
        self.assertEqual(self.client().ask("%open b"), ["b opened"])

    def test_the_socket_is_its_owner_s(self):
        self.assertEqual(stat.S_IMODE(os.stat(self.path).st_mode), 0o600)

    def test_a_second_relay_at_the_socket(self):
        second = subprocess.run(self.command(), stderr=subprocess.PIPE, text=True, timeout=20)
        self.assertEqual(second.returncode, 1)
        self.assertRegex(second.stderr, rf"\A[-0-9]+ [:0-9]+ ERROR relay: {self.path}: another relay listens there\n\Z")

    def test_a_stale_socket(self):
        self.kill()
        self.assertTrue(os.path.exists(self.path))
        self.start()
        self.assertEqual(self.client().ask("%open a"), ["a opened"])

    def test_an_option_that_magicd_refuses(self):
        self.end()
        refused = subprocess.run(self.command("--quota", "x"), stderr=subprocess.PIPE, text=True, timeout=20)
        self.assertEqual(refused.returncode, 1)
        self.assertIn("magicd doesn't start", refused.stderr)


class Ports(PortCase):
    def test_the_token_opens(self):
        self.assertEqual(stat.S_IMODE(os.stat(self.token).st_mode), 0o600)
        right, wrong = (Client(("127.0.0.1", self.port)) for _ in range(2))
        right.send(self.token.read_text().strip())
        self.assertEqual(right.ask("%open a"), ["a opened"])
        wrong.send("guess", "%open b")
        self.assertEqual([wrong.reply(), wrong.reply()], ["@ token refused", ""])
        right.close()
        wrong.close()

    def test_a_port_in_use(self):
        words = [str(HERE.parent / "relay"), "--listen", f"127.0.0.1:{self.port}", "--token", str(self.folder / "other")]
        second = subprocess.run(words, stderr=subprocess.PIPE, text=True, timeout=20)
        self.assertEqual(second.returncode, 1)
        self.assertIn(f"127.0.0.1:{self.port}: Address already in use", second.stderr)

    def test_another_address(self):
        words = [str(HERE.parent / "relay"), "--listen", "0.0.0.0:7777"]
        refused = subprocess.run(words, stderr=subprocess.PIPE, text=True, timeout=20)
        self.assertEqual(refused.returncode, 1)
        self.assertIn("only the loopback address is listened at without --tls", refused.stderr)
