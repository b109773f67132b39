"""Nothing goes wrong in silence: each fault has a message that names what is wrong, and none has a traceback."""

import os
import pathlib
import signal
import stat
import subprocess
import tempfile
import unittest

from kolasieve import certificates
from tests.certificates import HAVE_OPENSSL, CertifiedCase
from tests.etcds import free_port
from tests.serving import GENEROUS, HERE, SERVER, Client, PortCase, RelayCase


def refusal(*words):
    """Returns the messages of a relay that can't start."""
    done = subprocess.run(
        [HERE.parent / "relay", "--server", SERVER, *map(str, words)], stderr=subprocess.PIPE, text=True, timeout=120,
        check=False,
    )
    return done.returncode, done.stderr


def talk(*words, text="%open a\n"):
    """Returns what `talk` has done with this input."""
    return subprocess.run(
        [HERE.parent / "talk", *map(str, words)], input=text, capture_output=True, text=True, timeout=120, check=False
    )


class Starts(unittest.TestCase):
    def setUp(self):
        folder = tempfile.TemporaryDirectory()
        self.addCleanup(folder.cleanup)
        self.folder = pathlib.Path(folder.name)

    def refused(self, says, *words, status=1):
        returned, said = refusal(*words)
        self.assertIn(says, said)
        self.assertNotIn("Traceback", said)
        self.assertEqual(returned, status)

    def test_what_is_refused(self):
        gone, socket = self.folder / "gone", self.folder / "socket"
        for says, words in {
            "127.0.0.1:99999: an address is HOST:PORT, with a port up to 65535": ("--listen", "127.0.0.1:99999"),
            "127.0.0.1:x: an address is HOST:PORT": ("--listen", "127.0.0.1:x"),
            f"{gone}/socket: No such file or directory": ("--socket", gone / "socket"),
            f"{gone}/log: No such file or directory": ("--socket", socket, "--log", gone / "log"),
            f"{gone}/token: No such file": ("--listen", f"127.0.0.1:{free_port()}", "--token", gone / "token"),
            f"magicd doesn't start: {gone}: No such file or directory": ("--socket", socket, "--server", gone),
        }.items():
            with self.subTest(says):
                self.refused(says, *words)
        self.refused("99999: a port is a number up to 65535", "--socket", socket, "--page", 99999, status=2)

    def test_a_token_that_others_may_know(self):
        path = self.folder / "token"
        words = ("--listen", f"127.0.0.1:{free_port()}", "--token", path)
        path.write_text("a_token_that_all_may_read\n")
        path.chmod(0o644)
        self.refused(f"{path}: others may have read it, its mode is 644; --new-token makes another", *words)
        path.unlink()
        other = self.folder / "other"
        other.write_text("another_file_of_the_user\n")
        other.chmod(0o600)
        path.symlink_to(other)
        self.refused(f"{path}: it is a symbolic link; --new-token makes another", *words)
        path.unlink()
        path.touch(0o600)
        self.refused(f"{path}: it has no token; --new-token makes another", *words)
        if os.getuid() == 0:
            path.write_text("a_token_of_somebody_else\n")
            os.chown(path, 65534, -1)
            self.refused(f"{path}: it is another user's; --new-token makes another", *words)
        self.assertEqual(other.read_text(), "another_file_of_the_user\n")


class Tokens(PortCase):
    def test_a_second_start_keeps_it(self):
        before = self.token.read_text()
        second = subprocess.run(self.command(), stderr=subprocess.PIPE, text=True, timeout=120, check=False)
        self.assertIn("Address already in use", second.stderr)
        self.assertEqual(self.token.read_text(), before)
        self.assertEqual(self.designer().ask("%open a"), ["a opened"])
        self.end()
        self.start()
        self.assertEqual(self.token.read_text(), before)
        self.assertEqual(self.designer().ask("%open a"), ["a opened"])
        self.end()
        self.start("--new-token")
        self.assertNotEqual(self.token.read_text(), before)
        self.assertEqual(stat.S_IMODE(self.token.stat().st_mode), 0o600)
        self.assertEqual(self.designer().ask("%open a"), ["a opened"])

    def test_talk(self):
        where = f"127.0.0.1:{self.port}"
        done = talk(where, "--token", self.token)
        self.assertEqual((done.returncode, done.stdout, done.stderr), (0, "a opened\n", ""))
        done = talk(where, text="guess\n")
        self.assertEqual((done.returncode, done.stdout, done.stderr), (1, "@ token refused\n", f"talk: {where}: refused\n"))
        done = talk("127.0.0.1:x")
        self.assertIn("talk: 127.0.0.1:x: an address is HOST:PORT", done.stderr)
        talking = subprocess.Popen(
            [HERE.parent / "talk", where, "--token", self.token], stdin=subprocess.PIPE, stdout=subprocess.PIPE,
            stderr=subprocess.PIPE,
        )
        self.addCleanup(talking.kill)
        talking.stdin.write(b"%open b\n")
        talking.stdin.flush()
        self.assertEqual(talking.stdout.readline(), b"b opened\n")
        self.relay.send_signal(signal.SIGINT)
        self.assertEqual(self.relay.wait(GENEROUS), 0)
        self.assertEqual(talking.wait(GENEROUS), 1)
        self.assertEqual(talking.stderr.read().decode(), f"talk: {where}: the relay has ended the connection\n")
        for stream in (talking.stdin, talking.stdout, talking.stderr):
            stream.close()


@unittest.skipUnless(HAVE_OPENSSL, "openssl isn't installed")
class Secured(CertifiedCase):
    def test_talk(self):
        where = f"localhost:{self.port}"
        done = talk(where)
        self.assertEqual((done.returncode, done.stdout), (1, "@ refused: this port wants --tls CERT KEY CA\n"))

    def test_who_has_no_name(self):
        nobody = Client(("127.0.0.1", self.port), certificates.of_client(*self.team.without_name()))
        self.addCleanup(nobody.close)
        self.assertEqual(nobody.reply(), "")
        self.assertIn("a connection is ended: its certificate has no name", self.said())


class Files(RelayCase):
    log = True

    def test_the_log_is_its_user_s(self):
        self.client().ask("%open a")
        modes = {stat.S_IMODE(each.stat().st_mode) for each in self.folder.glob("log*")}
        self.assertEqual(modes, {0o600})
        self.end()
        os.chmod(self.folder / "log", 0o644)
        self.start()
        self.client().ask("%open b")
        modes = {stat.S_IMODE(each.stat().st_mode) for each in self.folder.glob("log*")}
        self.assertEqual(modes, {0o600})
        self.assertIn("others could read it; its mode is 600 now", self.said())

    def test_messages_have_a_time_and_a_level(self):
        self.end()
        for line in self.said().splitlines():
            self.assertRegex(line, r"\A\d{4}-\d\d-\d\d \d\d:\d\d:\d\d (INFO|WARNING|ERROR) relay: ")
