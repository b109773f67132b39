"""The longer tests, with their figures: /usr/bin/python3 -m tests.long

Prints a table of times. They take some minutes.
"""

import asyncio
import contextlib
import json
import os
import random
import re
import statistics
import sys
import time
import unittest

import aiohttp

from tests import test_magic
from tests.days import DayWithoutEnd, KillsInEtcd, KillsInFile, RestoredFromEtcd, RestoredFromFile
from tests.magics import flattened_by_magic, violations_by_magic, write_cell
from tests.serving import RelayCase, alone, fields_of, programs, random_lines
from tests.test_chip import Comparing
from tests.test_etcd import EtcdCase
from tests.test_log import LoggedCase, commands
from tests.test_machines import MachinesCase
from tests.test_page import OWNER
from tests.test_process import TECHNOLOGIES
from tests.test_process_beside import Beside, large, small
from tests.verdicts import reach_of

from kolasieve.index import Index
from kolasieve.rects import grown

CLIENTS = 64
LINES = 1000


@contextlib.asynccontextmanager
async def connected(path):
    """A connection to a relay, which ends with the block whatever waits in it."""
    reader, writer = await asyncio.open_unix_connection(path, limit=1 << 22)
    try:
        yield reader, writer
    finally:
        writer.transport.abort()


async def ask_each(path, name, lines, times):
    """Sends lines one by one, and returns their replies; the seconds that each took go to `times`."""
    replies = []
    async with connected(path) as (reader, writer):
        for line in lines:
            start = time.perf_counter()
            writer.write(line.encode() + b"\n")
            head = (await reader.readline()).decode()
            text = [head]
            words = head.split()
            if len(words) == 3 and words[1] in ("saved", "marked", "uses", "journal"):
                text += [(await reader.readline()).decode() for _ in range(int(words[2]))]
            times.append(time.perf_counter() - start)
            replies.append("".join(text).removesuffix("\n"))
    return replies


def processor_time(numbers):
    """Returns how many seconds of a processor these processes have used."""
    return sum(sum(map(int, fields_of(number)[11:13])) for number in numbers) / os.sysconf("SC_CLK_TCK")


class Many:
    """64 clients with 1,000 random lines each at once."""

    def relays(self):
        """Returns the relays, as processes and the sockets that they listen at."""
        return [(self.relay, self.path)]

    def others(self):
        """Returns processes whose time is reported beside that of the relays."""
        return []

    def measure(self, what, clients):
        scripts = [[f"%open s{i}", *random_lines(f"s{i}", LINES, i)] for i in range(clients)]
        relays = self.relays()
        times = []
        served = [pid for relay, _ in relays for pid in programs(relay)]
        parts = [[relay.pid for relay, _ in relays], served, self.others()]
        before = [processor_time(pids) for pids in parts]

        async def run():
            return await asyncio.gather(*(
                ask_each(relays[i % len(relays)][1], f"s{i}", lines, times) for i, lines in enumerate(scripts)
            ))

        start = time.perf_counter()
        found = asyncio.run(run())
        seconds = time.perf_counter() - start
        used = [processor_time(pids) - earlier for pids, earlier in zip(parts, before)]
        for lines, replies in zip(scripts, found):
            self.assertEqual(replies, alone(lines))
        times.sort()
        count = len(times)
        figures = [
            f"{statistics.median(times) * 1e3:.2f}", f"{times[count * 99 // 100] * 1e3:.2f}", f"{count / seconds:.0f}",
            *(f"{each / count * 1e3:.2f}" for each in used),
        ]
        print(f"| {what} | {' | '.join(figures)} |", flush=True)

    def test_many(self):
        self.measure(f"64 clients at once, {self.what}", CLIENTS)

    def test_one(self):
        self.measure(f"one client, {self.what}", 1)


class WithoutLog(Many, RelayCase):
    what = "without a log"


class WithEtcd(Many, EtcdCase):
    what = "three etcds"

    def setUp(self):
        super().setUp()
        self.machines = [self.machine("one")]

    def relays(self):
        return [(machine.relay, machine.path) for machine in self.machines]

    def others(self):
        return [process.pid for process in self.etcds.processes]

    def test_two_relays(self):
        self.machines.append(self.machine("two"))
        self.measure("64 clients at two relays, three etcds", CLIENTS)


class Machines(MachinesCase):
    def test_failures(self):
        """30 failures, at random."""
        done = self.check_failures(random.choices(self.FAILURES, k=30), lines=600, pause=0.3)
        print(*done, sep="\n", flush=True)


class Processes(Beside):
    def test_random_cells_of_each_technology(self):
        for seed in range(10):
            for technology in TECHNOLOGIES:
                self.check(technology, seed, small, 3)
                self.check(technology, seed, large, 1)


class PaintingForLong(test_magic.Painting):
    """500 random actions in Magic's window."""

    COUNT = 500


class PaintingOnManyPlanesForLong(test_magic.PaintingOnManyPlanes):
    COUNT = 500


class Pairs(Comparing):
    def test_each_pair_of_types(self):
        """Two types at a random distance, for each two: each rectangle of Magic lies within its rule's reach of our marks."""
        dice, names, boxes = random.Random(1), [layer.name for layer in self.process.layers if not layer.parts], 0
        for first in range(0, len(names), 19):
            sections = {name: [] for name in names}
            for column, one in enumerate(names[first : first + 19]):
                for row, other in enumerate(names):
                    x, y, width, height = 70 * column, 70 * row, dice.randrange(2, 14), dice.randrange(2, 14)
                    left, bottom = x + dice.randrange(-13, width + 13), y + dice.randrange(-13, height + 13)
                    sections[one].append((x, y, x + width, y + height))
                    sections[other].append((left, bottom, left + dice.randrange(2, 14), bottom + dice.randrange(2, 14)))
            write_cell(self.folder, "pairs", sections.items())
            path = flattened_by_magic(self.folder, ["pairs"])["pairs"]
            ours = {each.text: Index((strip, None) for strip in each.strips) for each in self.report(path).violations}
            for text, found in violations_by_magic(self.folder, [path])[path].items():
                reach, boxes = reach_of(self.process, text), boxes + len(found)
                self.assertEqual([box for box in found if not ours[text].meeting(grown(box, reach))], [], text)
        print("each pair of types of scmos:", boxes, "rectangles of Magic", flush=True)


class WithLog(Many, LoggedCase):
    what = "SQLite"

    def test_killed(self):
        self.check_killed(designers=16, lines=1000, kills=30)

    def test_a_day(self):
        """Eight designers write 10,000 lines; then their sessions are made again, and all replies are the log's."""
        scripts = {f"d{i}": [f"%open d{i}", *(f"d{i} {line}" for line in commands(1250, i))] for i in range(8)}

        async def run():
            await asyncio.gather(*(ask_each(self.path, name, lines, []) for name, lines in scripts.items()))

        asyncio.run(run())
        self.end()
        self.start()
        for name in scripts:
            self.assertEqual(self.client().ask(f"@resume {name}"), [f"{name} resumed 1250"])


class Stop(LoggedCase):
    words = ("--journal", "65536")

    def test_during_a_long_resume(self):
        """Ctrl-C while 58,000 rows are played."""
        client = self.client()
        client.ask("%open a", *("a box 0 0 4 4" for _ in range(58000)))
        self.end()
        self.start()
        client = self.client()
        client.send("@resume a")
        self.until(lambda: self.client().ask("@sessions") == ["@ sessions 1"], pause=0)
        start = time.perf_counter()
        self.end()
        print(f"| Ctrl-C during a resume of 58,000 rows, s | {time.perf_counter() - start:.2f} |", flush=True)
        self.start()
        self.assertEqual(self.resumed(self.client(), "@resume a"), "a resumed 58000")


async def watch_the_page(said, title):
    """Watches a session at the page of a relay that has said this, until it is cancelled."""
    found = re.search(r"(http://\S+)/\?token=(\S+)", said)
    async with aiohttp.ClientSession() as http:
        async with http.ws_connect(f"{found[1]}/watch", protocols=("kolasieve", found[2])) as socket:
            await socket.send_str(json.dumps({"watch": title}))
            while True:
                await socket.receive()


async def beside(others, measure):
    """Returns what is measured while others are at work, a second after they have begun."""
    tasks = [asyncio.create_task(each) for each in others]
    await asyncio.sleep(1 if tasks else 0)
    try:
        return await measure
    finally:
        for task in tasks:
            task.cancel()
        await asyncio.gather(*tasks, return_exceptions=True)


class Others(RelayCase):
    """One client's lines, while nine sessions check the world, one reads 5,000 `%marks`, and twenty look at the page."""

    words = ("--page", "0")

    LINES = 2000

    def measure(self, what, others):
        times = []
        lines = [f"%open {what}", *random_lines(what, self.LINES, 1), f"%close {what}"]
        asyncio.run(beside(others, ask_each(self.path, "d", lines, times)))
        times.sort()
        print(f"| a line, {what} | {statistics.median(times) * 1e3:.2f} | {times[len(times) * 99 // 100] * 1e3:.2f} |", flush=True)

    async def check_the_world(self, number):
        lines = [f"%open w{number}"]
        for bar in range(200):
            lines += [f"w{number} box {bar * 9000 - 900000} -1000000 {bar * 9000 - 899999} 1000000", f"w{number} paint poly"]
        lines += [f"w{number} box -1048576 -1048576 1048576 1048576"]
        lines += [f"w{number} drc check", f"w{number} drc catchup"] * 1000
        await ask_each(self.path, "w", lines, [])

    async def read_marks(self):
        lines = ["%open m"]
        for bar in range(900):
            lines += [f"m box {2 * bar} 0 {2 * bar + 1} 90", "m paint m1"]
        await ask_each(self.path, "m", lines, [])
        bars = b"".join(b"l box %d 0 %d 90\nl paint m1\n" % (2 * i, 2 * i + 1) for i in range(300))
        async with connected(self.path) as (reader, writer):
            writer.write(b"%open l\n" + bars + b"%marks l\n" * 5000)
            while await reader.read(1 << 16):
                pass

    def test_others(self):
        self.measure("alone", [])
        world = [self.check_the_world(number) for number in range(9)]
        watchers = [watch_the_page(self.said(), f"{OWNER}/w1") for _ in range(20)]
        self.measure("beside", [*world, self.read_marks(), *watchers])


class Watchers(RelayCase):
    """Twenty watch a session of 900 squares that is edited; the same without a watcher."""

    words = ("--page", "0", "--quota", "4096", "--journal", "65536")

    SECONDS = 8

    async def edit(self, name):
        """Edits a session of 900 squares again and again, some forty times a second, each time once all is checked."""
        async with connected(self.path) as (reader, writer):

            async def ask(*lines):
                writer.writelines(f"{line}\n".encode() for line in lines)
                for _ in lines:
                    await reader.readline()

            await ask(f"%open {name}")
            for number in range(900):
                left, bottom = number % 30 * 9, number // 30 * 9
                await ask(f"{name} box {left} {bottom} {left + 5} {bottom + 5}", f"{name} paint m1")
            await ask(f"{name} box 300 0 302 5")
            while True:
                for what in ("paint", "erase"):
                    await ask(f"{name} {what} m1", f"{name} drc catchup")
                    await asyncio.sleep(0.025)

    async def measure(self):
        """Returns how long each of many lines takes, and how much of a processor the relay has meanwhile."""
        # By then the squares are there.
        await asyncio.sleep(3)
        times, before, start = [], processor_time([self.relay.pid]), time.perf_counter()
        while time.perf_counter() - start < self.SECONDS:
            await ask_each(self.path, "d", ["%open d", *["d box 0 0 5 5"] * 100, "%close d"], times)
            await asyncio.sleep(0.1)
        return sorted(times), (processor_time([self.relay.pid]) - before) / (time.perf_counter() - start)

    def test_the_page(self):
        for what, count in (("edited", 0), ("watched", 20)) * 3:
            watchers = [watch_the_page(self.said(), f"{OWNER}/e") for _ in range(count)]
            times, share = asyncio.run(beside([self.edit("e"), *watchers], self.measure()))
            figures = f"{statistics.median(times) * 1e3:.2f} | {times[len(times) * 99 // 100] * 1e3:.2f}"
            print(f"| a line, {what}; the relay has {share * 100:.1f} % of a processor | {figures} |", flush=True)


if __name__ == "__main__":
    print("| a reply | median, ms | 99th of a hundred, ms | lines a second | relay, ms | magicd, ms | etcd, ms |")
    print("|---|---|---|---|---|---|---|", flush=True)
    sys.exit(not unittest.main(exit=False).result.wasSuccessful())
