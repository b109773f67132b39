"""Certificates: who gets in over a network, and whose a session is."""

import asyncio
import socket
import ssl
import subprocess
import unittest

from kolasieve import certificates
from tests.certificates import HAVE_OPENSSL, CertifiedCase
from tests.serving import HERE, Client
from tests.test_page import Watching

try:
    import aiohttp
except ImportError:
    aiohttp = None


@unittest.skipUnless(HAVE_OPENSSL, "openssl isn't installed")
class Certificates(CertifiedCase):
    def talk(self, *tls):
        return subprocess.run(
            [HERE.parent / "talk", f"localhost:{self.port}", *(("--tls", *tls) if tls else ())],
            input="%open a\na box 0 0 4 4\n@sessions\n", capture_output=True, text=True, timeout=30, check=False,
        )

    def test_who_gets_in(self):
        self.assertEqual(self.talk(*self.team.make("ben")).stdout, "a opened\na ok\n@ sessions 1\n@ a in use\n")
        refused = {
            "unknown ca": [*self.strangers.make("ben")[:2], self.team.make("ben")[2]],
            "certificate expired": self.team.ended("late"),
        }
        for reason, files in refused.items():
            talked = self.talk(*files)
            self.assertEqual((talked.returncode, talked.stdout), (1, ""))
            self.assertRegex(talked.stderr, rf"refused: .*{reason}")
        self.assertEqual(self.talk().stdout, "@ refused: this port wants --tls CERT KEY CA\n")
        without = Client(("127.0.0.1", self.port), ssl.create_default_context(cafile=self.team.make("ben")[2]))
        self.addCleanup(without.close)
        with self.assertRaisesRegex(ssl.SSLError, "certificate required"):
            without.ask("%open a")
        for reason in (
            "unable to get local issuer certificate", "certificate has expired", "peer did not return a certificate",
        ):
            self.assertIn(f"a connection is refused: {reason}", self.said())
        # Nor does a designer talk to a server of other people.
        stranger = self.talk(*self.team.make("ben")[:2], self.strangers.make("ben")[2])
        self.assertRegex(stranger.stderr, "refused: .*certificate")

    def test_who_is_silent(self):
        for port in (self.port, self.page):
            silent = socket.create_connection(("127.0.0.1", port), timeout=600)
            self.addCleanup(silent.close)
            with silent.makefile("rb") as replies:
                self.assertIn(b"no certificate within 5 seconds\n", replies.read())

    def test_a_session_is_its_designer_s(self):
        ben = self.designer("ben")
        ben.ask("%open a", "a box 0 0 4 4")
        ben.close()
        mia = self.designer("mia")
        self.assertEqual(mia.ask("@resume a", "a what", "@sessions"), [
            "a refused resume no such session", "line 2 fault 4 not open", "@ sessions 0",
        ])
        self.assertEqual(self.resumed(self.designer("ben"), "@resume a"), "a resumed 1")

    def test_addresses_that_are_refused(self):
        certificate, key, authority = self.team.machine()
        other_key = self.strangers.machine()[1]
        for words, why in {
            ("--listen", "0.0.0.0:1"): "only the loopback address is listened at",
            ("--listen", "[::]:1"): "only the loopback address is listened at",
            ("--listen", "0.0.0.0:1", "--tls", certificate, key): "--clients CA go together",
            ("--listen", "0.0.0.0:1", "--tls", certificate, other_key, "--clients", authority): "KEY_VALUES_MISMATCH",
        }.items():
            command = [HERE.parent / "relay", *words]
            refused = subprocess.run(command, stderr=subprocess.PIPE, text=True, timeout=20, check=False)
            self.assertEqual(refused.returncode, 1)
            self.assertIn(why, refused.stderr)

    @unittest.skipIf(aiohttp is None, "python3-aiohttp isn't installed")
    def test_the_page_shows_one_s_own(self):
        self.designer("ben").ask("%open b")
        self.designer("mia").ask("%open m", "m box 0 0 4 4", "m paint m1")

        async def seen(designer, wanted, until):
            """Returns the sessions that a designer's page lists, once this is so of it; it wants to watch one."""
            async with aiohttp.ClientSession() as http:
                context = self.team.context(designer)
                async with http.ws_connect(f"https://localhost:{self.page}/watch", ssl=context) as socket:
                    page = Watching(socket)
                    await page.watch(wanted)
                    await page.until(until)
                    return sorted(page.sessions), page.rects("own 3")

        async def stranger():
            async with aiohttp.ClientSession() as http:
                context = certificates.of_client(*self.strangers.make("ben")[:2], self.team.make("ben")[2])
                async with http.get(f"https://localhost:{self.page}/", ssl=context, timeout=20):
                    pass

        own = asyncio.run(seen("mia", "cert:mia/m", lambda page: page.rects("own 3")))
        self.assertEqual(own, (["cert:mia/m"], [(0, 0, 4, 4)]))
        others = asyncio.run(seen("ben", "cert:mia/m", lambda page: page.sessions.get("cert:ben/b", {}).get("entries") == 0))
        self.assertEqual(others, (["cert:ben/b"], []))
        with self.assertRaises(aiohttp.ClientError):
            asyncio.run(stranger())
        self.assertIn("a connection is refused: unable to get local issuer certificate", self.said())
