"""The page's connection: what it sends as sessions change, and to whom."""

import asyncio
import getpass
import json
import os
import pathlib
import re
import signal
import socket as sockets
import tempfile
import unittest

from tests.serving import GENEROUS, ROOT, RelayCase, programs

from kolasieve.planes import BUILT_IN, read_types

try:
    import aiohttp
except ImportError:
    aiohttp = None

OWNER = f"{getpass.getuser()}@{sockets.gethostname()}"

# A bar of poly that is too narrow, checked: its mark stands beside it.
BAR = ["box 0 0 1 10", "paint poly", "drc catchup"]


def applied(scene, message):
    """Returns a scene as the page has it after a message, whose lists are sets of rectangles."""
    lists = {} if "since" not in message else dict(scene["lists"])
    if "since" in message:
        assert message["since"] == scene["version"]
    for name, change in message["lists"].items():
        if change is None:
            del lists[name]
        elif isinstance(change, list):
            lists[name] = rectangles(change)
        else:
            kept = [each for place, each in enumerate(lists.get(name, [])) if place not in change["gone"]]
            lists[name] = kept + rectangles(change["new"])
    return {**scene, **message, "lists": lists}


def rectangles(numbers):
    return [tuple(numbers[place : place + 4]) for place in range(0, len(numbers), 4)]


@unittest.skipIf(aiohttp is None, "python3-aiohttp isn't installed")
class PageCase(RelayCase):
    words = ("--page", "0")

    def setUp(self):
        super().setUp()
        found = self.until(lambda: re.search(r"http://127\.0\.0\.1:(\d+)/\?token=(\S+)", self.said()))
        self.address, self.page_port, self.secret = found[0], int(found[1]), found[2]

    def at(self, path):
        return f"http://127.0.0.1:{self.page_port}{path}"

    def draw(self, name, *lines):
        """Opens a session with these lines, and returns the connection."""
        client = self.client()
        client.ask(f"%open {name}", *(f"{name} {line}" for line in lines))
        return client


class Watching:
    """What a page does, without a browser."""

    def __init__(self, socket):
        self.socket = socket
        self.scene = {}
        self.near = {}
        self.sessions = {}

    async def watch(self, title):
        await self.socket.send_str(json.dumps({"watch": title}))

    async def until(self, found):
        """Returns all messages up to the one that makes this true."""
        messages = []
        async with asyncio.timeout(GENEROUS):
            while not found(self):
                messages.append(await self.socket.receive_json())
                self.take(messages[-1])
        return messages

    def take(self, message):
        if "near" in message:
            self.near = message
        elif "sessions" in message:
            self.sessions = {row["title"]: row for row in message["sessions"]}
        elif "lists" in message:
            self.scene = applied(self.scene, message)

    def rects(self, name):
        return sorted(self.scene.get("lists", {}).get(name, []))


class Doors(PageCase):
    async def statuses(self, requests):
        """Returns the status of each request, a path and headers."""
        found = []
        async with aiohttp.ClientSession() as http:
            for path, headers in requests:
                async with http.get(self.at(path), headers=headers) as answer:
                    found.append(answer.status)
        return found

    def test_who_gets_in(self):
        token, here = {"Authorization": f"Bearer {self.secret}"}, f"http://127.0.0.1:{self.page_port}"
        good = [
            (f"/?token={self.secret}", {}), ("/", {}), ("/page.js", {}), ("/page.css", {}), ("/token", token),
            (f"/token?token={self.secret}", {}), ("/token", token | {"Origin": here}),
            ("/token", token | {"Host": f"localhost:{self.page_port}"}),
        ]
        self.assertEqual(asyncio.run(self.statuses(good)), [200, 200, 200, 200, 204, 204, 204, 204])
        bad = [
            ("/?token=guess", {}), ("/?token=%C3%A9", {}), ("/?token=%FF", {}), ("/?token=", {}), ("/token", {}), ("/watch", {}),
            (f"/?token={self.secret}&token=x", {}), ("/token", {"Authorization": "Bearer guess"}),
            ("/token", {"Authorization": "Bearer \u00e9"}), ("/watch", {"Sec-WebSocket-Protocol": "kolasieve, guess"}),
            ("/", {"Host": f"elsewhere:{self.page_port}"}), ("/token", token | {"Origin": "http://elsewhere"}),
            ("/token", token | {"Origin": here.replace("http", "https")}), ("/token", token | {"Origin": "https://"}),
            ("/token", token | {"Origin": "null"}),
        ]
        self.assertEqual(asyncio.run(self.statuses(bad)), [403] * len(bad))
        self.assertEqual(asyncio.run(self.statuses([("/page.py", token)])), [404])
        with sockets.create_connection(("127.0.0.1", self.page_port), timeout=GENEROUS) as other:
            other.sendall(b"what\n\n")
            self.assertIn(b" 400 ", other.makefile("rb").readline())
        self.end()
        self.assertNotIn("Traceback", self.said())

    def test_what_a_browser_may_do(self):
        async def answer():
            async with aiohttp.ClientSession() as http:
                async with http.get(self.address) as reply:
                    return reply.headers, await reply.text()

        headers, text = asyncio.run(answer())
        self.assertEqual(headers["Referrer-Policy"], "no-referrer")
        self.assertIn("default-src 'none'", headers["Content-Security-Policy"])
        self.assertNotIn("unsafe", headers["Content-Security-Policy"])
        self.assertNotRegex(text, r"<style|<script(?! src)| style=| on\w+=")

    def test_messages_that_are_none(self):
        async def code(text):
            async with aiohttp.ClientSession() as http:
                async with http.ws_connect(self.at("/watch"), protocols=("kolasieve", self.secret)) as socket:
                    await socket.send_str(text)
                    async for _ in socket:
                        pass
                    return socket.close_code

        async def codes():
            bad = [
                "1e999", '{"watch": 1e999}', "{", "[" * 1500, '{"watch": null}', "{}", '{"watch": "a", "near": [0, 0, 1, 1]}',
                '{"near": [0, 0, 1e999, 1]}', '{"near": [0, 0, 1, 1.5]}', '{"near": [0, 0, 0, 1]}', '{"near": [0, 0, 1, 9999999]}',
                '{"near": [0, 0, 1, true]}', '{"near": [0, 0, 1]}', '"' * 5000,
            ]
            return [await code(text) for text in bad]

        self.assertEqual(asyncio.run(codes()), [1008] * 13 + [1009])
        self.end()
        self.assertNotIn("Traceback", self.said())


class WatchCase(PageCase):
    def watched(self, talk, count=1):
        """Has this talk with connections of so many pages."""
        async def connected():
            async with aiohttp.ClientSession() as http:
                pages = [await http.ws_connect(self.at("/watch"), protocols=("kolasieve", self.secret)) for _ in range(count)]
                try:
                    return await talk(*map(Watching, pages))
                finally:
                    for page in pages:
                        await page.close()

        return asyncio.run(connected())


class Messages(WatchCase):
    def test_a_session_as_it_changes(self):
        client = self.draw("a", *BAR)
        title = f"{OWNER}/a"

        async def talk(page):
            first = await page.until(lambda page: title in page.sessions)
            await page.watch(title)
            await page.until(lambda page: page.rects("marks"))
            self.assertEqual((page.rects("own 1"), page.rects("marks")), ([(0, 0, 1, 10)], [(1, 0, 2, 10)]))
            self.assertEqual(page.scene["rules"], {"1": "poly width"})
            self.assertEqual((page.rects("rule 1"), page.scene["share"]), ([(1, 0, 2, 10)], 0))
            await asyncio.to_thread(client.ask, "a box 20 0 21 10", "a paint poly", "a drc catchup")
            await page.until(lambda page: len(page.rects("marks")) == 2)
            self.assertEqual(page.rects("marks"), [(1, 0, 2, 10), (21, 0, 22, 10)])
            await asyncio.to_thread(client.ask, "a box 0 0 99 99", "a erase poly", "a drc catchup")
            await page.until(lambda page: not page.rects("own 1") and page.scene["share"] == 0)
            self.assertEqual((page.rects("marks"), page.scene["rules"], page.scene["bounds"]), ([], {}, None))
            return first[0]

        greeting = self.watched(talk)
        self.assertEqual([each["name"] for each in greeting["types"]], ["poly", "ndiff", "m1"])

    def test_the_list(self):
        self.draw("a", *BAR)
        self.draw("b", "box 0 0 4 4", "paint m1", "drc catchup")
        self.draw("c")

        async def talk(page):
            def marks(page):
                return [page.sessions.get(f"{OWNER}/{name}", {}).get("marks") for name in "abc"]

            await page.until(lambda page: marks(page) == [1, 0, 0])
            row = page.sessions[f"{OWNER}/b"]
            self.assertEqual((row["state"], row["areas"], row["entries"], row["most"]), ("here", 0, 3, 4096))

        self.watched(talk)

    def test_all_get_the_same_difference(self):
        bars = [line for i in range(400) for line in (f"box {6 * i} 0 {6 * i + 1} 9", "paint m1")]
        client = self.draw("a", *bars, "drc catchup")
        title = f"{OWNER}/a"

        async def talk(*pages):
            for page in pages:
                await page.watch(title)
                await page.until(lambda page: len(page.rects("own 3")) == 400 and len(page.rects("marks")) == 400)
            await asyncio.to_thread(client.ask, "a box 0 20 1 29", "a paint m1", "a drc catchup")
            return [await page.until(lambda page: len(page.rects("marks")) == 401) for page in pages]

        changes = self.watched(talk, count=3)
        self.assertEqual(changes[0][-1]["lists"]["own 3"], {"gone": [], "new": [0, 20, 1, 29]})
        for messages in changes:
            self.assertLess(max(len(json.dumps(each)) for each in messages), 2000)

    def test_what_draws_is_killed(self):
        client = self.draw("a", *BAR)

        async def talk(page):
            await page.watch(f"{OWNER}/a")
            await page.until(lambda page: page.rects("marks"))
            self.kill_others_than("magicd")
            await asyncio.to_thread(client.ask, "a erase poly", "a drc catchup")
            await page.until(lambda page: page.scene["bounds"] is None)
            self.assertEqual(page.scene["version"], 2)

        self.watched(talk)

    def kill_others_than(self, name):
        """Kills each child of the relay that isn't this program."""
        for number in programs(self.relay):
            if pathlib.Path(f"/proc/{number}/comm").read_text(encoding="ascii").strip() != name:
                os.kill(number, signal.SIGKILL)

    def test_a_session_that_goes_and_comes(self):
        client = self.draw("a", *BAR)
        title = f"{OWNER}/a"

        async def talk(page):
            await page.watch(title)
            await page.until(lambda page: page.rects("marks"))
            await asyncio.to_thread(client.ask, "%close a")
            await page.until(lambda page: title not in page.sessions)
            await asyncio.to_thread(client.ask, "%open a", "a box 5 5 9 9", "a paint m1")
            await page.until(lambda page: page.rects("own 3"))
            self.assertEqual((page.rects("own 1"), page.rects("own 3")), ([], [(5, 5, 9, 9)]))

        self.watched(talk)


class CrowdedCase(PageCase):
    """Five rules forbid the same squares, and there are more strips than all of them may have in a reply."""

    def setUp(self):
        folder = tempfile.TemporaryDirectory()
        self.addCleanup(folder.cleanup)
        rules = "".join(f' width poly 2 "rule {number}"\n' for number in range(1, 6))
        path = pathlib.Path(folder.name) / "many.tech"
        path.write_text(f"tech\n many\nend\nplanes\n a\nend\ntypes\n a poly\nend\ndrc\n{rules}end\n", encoding="ascii")
        self.words = ("--page", "0", "--tech", str(path), "--quota", "64")
        super().setUp()
        self.draw("a", *(line for bar in range(20) for line in (f"box {9 * bar} 0 {9 * bar + 1} 9", "paint poly")), "drc catchup")


class Crowded(CrowdedCase, WatchCase):
    def test_rules_of_what_is_seen(self):
        async def talk(page):
            await page.watch(f"{OWNER}/a")
            await page.until(lambda page: len(page.rects("marks")) == 20)
            self.assertEqual((page.scene["rules"], page.scene["unknown"]), ({}, "5 quota"))
            await page.socket.send_str(json.dumps({"near": [-5, -5, 20, 20]}))
            await page.until(lambda page: page.near)
            self.assertEqual(page.near["rules"], {str(number): f"rule {number}" for number in range(1, 6)})
            self.assertEqual(page.near["lists"]["rule 5"], [1, 0, 2, 9, 10, 0, 11, 9, 19, 0, 20, 9])

        self.watched(talk)


class Placed(WatchCase):
    words = ("--page", "0", f"inv={ROOT / 'examples/inv.mag'}")

    def test_cells(self):
        self.draw("a", "getcell inv 20 0", "getcell inv 40 5")

        async def talk(page):
            await page.watch(f"{OWNER}/a")
            await page.until(lambda page: page.scene.get("uses"))
            self.assertEqual(page.scene["uses"], [["inv", 20, 0], ["inv", 40, 5]])
            self.assertEqual(page.rects("cell 1 inv"), [(0, 0, 2, 12)])

        self.watched(talk)


class Types(unittest.TestCase):
    def test_the_technology_that_is_built_in(self):
        self.assertEqual(read_types((ROOT / "examples/m.tech").read_text(encoding="utf-8")), BUILT_IN)

    def test_lines_that_go_on(self):
        text = "# types\ntech\n x\nend\nplanes\n a,b\n c\nend\nother\n a z\nend\ntypes\n -b one,o\n \\\n c two\r\n# a three\nend\n"
        self.assertEqual(read_types(text), ((("one", "o"), 0), (("two",), 1)))


if __name__ == "__main__":
    unittest.main()
