"""A relay for each group of a process, under one address file and token."""

import asyncio
import os
import pathlib
import signal
import sys
import tempfile

from kolasieve.addresses import parse
from kolasieve.faults import Fault
from kolasieve.logs import is_file, log_of_part
from kolasieve.program import Program
from kolasieve.scaling import scaled
from kolasieve.served import Served, digests_of
from kolasieve.tokens import token_at
from kolasieve.windows import Sizes

# What the relays' magicd can hold at most.
LARGEST = {"--quota": Sizes.tiles, "--journal": 65536}

# What a relay says once it can be connected to, and how long its relays have to end, in seconds.
LISTENING = b"listening at "
LONGEST_END = 5


class RelayFault(Fault):
    """A relay has ended; its messages say why."""


class GroupRelay:
    """The relay of a group, which passes its messages on under a title."""

    def __init__(self, child, title):
        self.child = child
        self.title = title
        self.listens = asyncio.Event()
        self.telling = asyncio.create_task(self.tell())

    @classmethod
    async def start(cls, command, title):
        """Starts a relay, which gets no Ctrl-C of a terminal by itself.

        Nothing is written to its input, which ends with this process, however that comes.
        """
        pipe = asyncio.subprocess.PIPE
        child = await asyncio.create_subprocess_exec(*command, stdin=pipe, stderr=pipe, start_new_session=True)
        return cls(child, title)

    async def tell(self):
        """Passes messages on until the relay ends."""
        while line := await self.child.stderr.readline():
            if LISTENING in line:
                self.listens.set()
            sys.stderr.buffer.write(f"{self.title}: ".encode() + line)
            sys.stderr.buffer.flush()
        await self.child.wait()

    async def end(self):
        """Ends the relay in order, but doesn't wait for long."""
        if self.child.returncode is None:
            self.child.send_signal(signal.SIGINT)
        try:
            await asyncio.wait_for(self.child.wait(), LONGEST_END)
        except asyncio.TimeoutError:
            self.child.kill()


class Relays:
    """The relays of a process. The first one listens at a port, and those of the other groups at the next ones."""

    def __init__(self, process, words, others):
        """Takes the words of `process serve`, and those that are the relays' own."""
        self.process = process
        self.words = words
        self.others = others
        self.host, self.port = parse(words.listen)
        self.token = None if "--tls" in others else os.path.abspath(os.path.expanduser(words.token or self.named("token")))
        self.running = []

    def named(self, ending):
        """Returns where a file of these relays is by default."""
        return f"~/.kolasieve-{self.port}.{ending}"

    def address(self, number):
        return f"{self.host}:{self.port + number}"

    def command(self, number, technology):
        """Returns the command that starts a group's relay."""
        command = [str(pathlib.Path(__file__).resolve().parent.parent / "relay"), "--listen", self.address(number)]
        command += ["--until-input-ends", "--server", self.words.server, "--tech", technology]
        if self.token is not None:
            command += ["--token", self.token]
        if self.words.log:
            command += ["--log", log_of_part(self.words.log, f"g{number}")]
        if self.words.page is not None:
            command += ["--page", str(self.words.page + number)]
        for option, most in LARGEST.items():
            if not any(word.split("=")[0] == option for word in self.others):
                command += [option, str(most)]
        return command + self.others

    async def serve(self, asked):
        """Serves until that is asked for; fails where a relay ends by itself."""
        if self.token is not None:
            token_at(self.token, self.words.new_token)
        if self.words.log and is_file(self.words.log):
            os.makedirs(self.words.log, exist_ok=True)
        if fault := await Program.build([self.words.server]):
            raise RelayFault(fault)
        with tempfile.TemporaryDirectory(prefix="kolasieve-") as scratch:
            try:
                for number, technology in enumerate(self.technologies(scratch)):
                    self.running.append(await GroupRelay.start(self.command(number, technology), f"g{number}"))
                await self.wait_for(asyncio.create_task(self.all_listen()), asked)
                if not asked.done():
                    self.write_address_file()
                    await self.wait_for(asked, asked)
            finally:
                await asyncio.gather(*(relay.end() for relay in self.running))

    def technologies(self, scratch):
        """Returns the technology file of each group, for lambda on the grid that is wanted."""
        paths = [group.path for group in self.process.groups]
        if self.words.grid > 1:
            texts = [scaled(group.text, self.words.grid) for group in self.process.groups]
            paths = [os.path.join(scratch, os.path.basename(path)) for path in paths]
            for path, text in zip(paths, texts):
                pathlib.Path(path).write_text(text, encoding="utf-8")
        return paths

    async def all_listen(self):
        """Waits until all relays can be connected to."""
        for relay in self.running:
            await relay.listens.wait()

    async def wait_for(self, waiting, asked):
        """Waits for a future, or until the end is asked for; fails where a relay ends before."""
        ends = [relay.telling for relay in self.running]
        await asyncio.wait([waiting, asked, *ends], return_when=asyncio.FIRST_COMPLETED)
        if waiting is not asked:
            waiting.cancel()
        for group, end in zip(self.process.groups, ends):
            if end.done() and not asked.done():
                raise RelayFault(f"the relay of {group.path} has ended")

    def write_address_file(self):
        path = os.path.expanduser(self.words.address or self.named("address"))
        addresses = [self.address(number) for number in range(len(self.running))]
        folder = os.path.abspath(self.process.folder)
        Served(folder, digests_of(self.process), self.words.grid, addresses, self.token).write(path)
        print(f"process: {self.process.name} is served; its address file is {path}", file=sys.stderr)


def serve(process, words, others):
    """Serves a process until Ctrl-C or SIGTERM."""

    async def run():
        loop, asked = asyncio.get_running_loop(), asyncio.get_running_loop().create_future()
        for name in (signal.SIGINT, signal.SIGTERM):
            loop.add_signal_handler(name, lambda: asked.done() or asked.set_result(None))
        await Relays(process, words, others).serve(asked)

    asyncio.run(run())
