"""A session that its owner shares: colleagues see it on the page, and get its text."""

import asyncio
import unittest

from tests.certificates import HAVE_OPENSSL, CertifiedCase
from tests.test_page import Watching, aiohttp


@unittest.skipUnless(HAVE_OPENSSL and aiohttp, "openssl or python3-aiohttp isn't installed")
class Sharing(CertifiedCase):
    TEXT = ["b saved 5", "magic", "tech M", "<< m1 >>", "rect 0 0 4 4", "<< end >>"]

    def setUp(self):
        super().setUp()
        self.ben, self.mia, self.noa = map(self.designer, ("ben", "mia", "noa"))
        self.ben.ask("%open b", "b box 0 0 4 4", "b paint m1")

    def test_the_text(self):
        refused = ["b refused show no such session"]
        self.assertEqual(self.mia.ask("@show b"), refused)
        self.assertEqual(self.mia.ask("@share b all", "@share x"), ["line 2 fault 4 not open", "line 3 fault 1 unknown command"])
        self.assertEqual(self.ben.ask("@share b mia,cert:eve", "@show b"), ["b shared mia,cert:eve", "\n".join(self.TEXT)])
        self.assertEqual(self.mia.ask("@show b", "@show cert:ben/b", "@show cert:eve/b"),
                         ["\n".join(self.TEXT)] * 2 + ["cert:eve/b refused show no such session"])
        self.assertEqual(self.noa.ask("@show b"), refused)
        self.assertEqual(self.ben.ask("@share b all"), ["b shared all"])
        self.noa.ask("%open b")
        # One's own comes first, and others' are meant where there is but one.
        self.assertEqual(self.noa.ask("@show b", "@show cert:ben/b"), ["b saved 3\nmagic\ntech M\n<< end >>", "\n".join(self.TEXT)])
        self.noa.ask("@share b all")
        self.assertEqual(self.mia.ask("@show b"), ["b refused show several owners have one: say OWNER/NAME"])
        self.assertEqual(self.ben.ask("@share b none"), ["b shared none"])
        self.assertEqual(self.mia.ask("@show cert:ben/b"), ["cert:ben/b refused show no such session"])
        self.ben.ask("@share b all", "%close b", "%open b")
        self.assertEqual(self.mia.ask("@show cert:ben/b"), ["cert:ben/b refused show no such session"])

    def test_the_page(self):
        async def talk():
            async with aiohttp.ClientSession() as http:
                pages = {}
                for name in ("mia", "noa"):
                    context = self.team.context(name)
                    pages[name] = Watching(await http.ws_connect(f"https://localhost:{self.page}/watch", ssl=context))
                    await pages[name].watch("cert:ben/b")
                await asyncio.to_thread(self.ben.ask, "@share b mia")
                await pages["mia"].until(lambda page: page.rects("own 3") == [(0, 0, 4, 4)])
                await asyncio.to_thread(self.noa.ask, "%open n")
                await pages["noa"].until(lambda page: "cert:noa/n" in page.sessions)
                self.assertEqual((list(pages["noa"].sessions), pages["noa"].scene), (["cert:noa/n"], {}))
                await asyncio.to_thread(self.ben.ask, "@share b none", "b erase m1")
                await pages["mia"].until(lambda page: not page.sessions)
                self.assertEqual(pages["mia"].rects("own 3"), [(0, 0, 4, 4)])

        asyncio.run(talk())


if __name__ == "__main__":
    unittest.main()
