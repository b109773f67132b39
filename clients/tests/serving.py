"""A relay to test, its clients, and what magicd alone replies."""

import os
import pathlib
import random
import resource
import signal
import socket
import subprocess
import sys
import tempfile
import time
import unittest

HERE = pathlib.Path(__file__).resolve().parent
ROOT = HERE.parent.parent
SERVER = os.environ.get("KOLASIEVE_SERVER", str(ROOT / "crates/magicd/out/magicd"))

sys.path.insert(0, str(HERE.parent))

from kolasieve.lines import lines_after
from tests.etcds import free_port

# How long something is waited for that must come, in seconds: so long that it is there on a busy machine too.
GENEROUS = 120


class Client:
    """A designer's program, as short as it can be."""

    def __init__(self, address, tls=None, patience=60):
        self.socket = socket.socket(socket.AF_UNIX if isinstance(address, str) else socket.AF_INET)
        self.socket.settimeout(patience)
        try:
            self.socket.connect(address)
            if tls is not None:
                self.socket = tls.wrap_socket(self.socket, server_hostname="localhost")
        except OSError:
            self.socket.close()
            raise
        self.replies = self.socket.makefile("rb")

    def send(self, *lines):
        self.socket.sendall(b"".join(line if isinstance(line, bytes) else line.encode() + b"\n" for line in lines))

    def reply(self):
        """Returns the next reply whole, without its last line feed; nothing at the end."""
        while (head := self.replies.readline()).startswith(b"@ waiting: "):
            pass
        text = head + b"".join(self.replies.readline() for _ in range(lines_after(head)))
        return text.decode().removesuffix("\n")

    def ask(self, *lines):
        """Sends lines, each of which has a reply, and returns the replies."""
        self.send(*lines)
        return [self.reply() for _ in lines]

    def close(self):
        self.replies.close()
        self.socket.close()


class RelayCase(unittest.TestCase):
    """A relay at a socket of its own, in a folder that goes with the test."""

    log = False
    words = ()

    def setUp(self):
        folder = tempfile.TemporaryDirectory()
        self.addCleanup(folder.cleanup)
        self.folder = pathlib.Path(folder.name)
        self.path = str(self.folder / "socket")
        # The relay appends to it wherever it is read.
        self.messages = open(self.folder / "messages", "a+", encoding="utf-8")
        self.addCleanup(self.messages.close)
        self.relay = None
        self.addCleanup(self.end)
        self.start()

    def command(self, *words):
        command = [str(HERE.parent / "relay"), "--socket", self.path, "--server", SERVER, *self.words, *words]
        if self.log:
            command += ["--log", str(self.folder / "log")]
        return command

    def start(self, *words):
        self.relay = subprocess.Popen(self.command(*words), stderr=self.messages, start_new_session=True)
        self.wait_for(self.path)

    def wait_for(self, address):
        def is_there():
            if self.relay.poll() is not None:
                self.fail("the relay doesn't listen: " + self.said())
            try:
                client = Client(address)
                try:
                    # A fault, or a refused token: somebody is there.
                    return client.ask("?")[0] != ""
                finally:
                    client.close()
            except OSError:
                return False

        self.until(is_there)

    def until(self, found, pause=0.05):
        """Returns what this finds, once it finds something."""
        end = time.monotonic() + GENEROUS
        while time.monotonic() < end:
            if result := found():
                return result
            time.sleep(pause)
        self.fail("it doesn't come; the relay's messages are: " + self.said())

    def said(self):
        """Returns all messages of the relay."""
        self.messages.seek(0)
        return self.messages.read()

    def resumed(self, client, line):
        """Returns the reply to this line, asked until the session isn't in use."""

        def reply():
            text = client.ask(line)[0]
            return None if "in use" in text else text

        return self.until(reply)

    def client(self):
        client = Client(self.path)
        self.addCleanup(client.close)
        return client

    def kill(self):
        """Kills the relay at once. Its magicd ends with its input."""
        self.relay.send_signal(signal.SIGKILL)
        self.relay.wait()

    def kill_programs(self):
        kill_programs(self.relay)

    def end(self):
        if self.relay is not None and self.relay.poll() is None:
            self.relay.send_signal(signal.SIGINT)
            self.assertEqual(self.relay.wait(GENEROUS), 0)


class PortCase(RelayCase):
    """A relay at a port, which wants a token."""

    def command(self, *words):
        self.token = self.folder / "token"
        where = ["--listen", f"127.0.0.1:{self.port}", "--token", str(self.token)]
        log = ["--log", str(self.folder / "log")] if self.log else []
        return [str(HERE.parent / "relay"), *where, "--server", SERVER, *log, *self.words, *words]

    def start(self, *words):
        self.port = free_port()
        self.relay = subprocess.Popen(self.command(*words), stderr=self.messages, start_new_session=True)
        self.wait_for(("127.0.0.1", self.port))

    def designer(self):
        """Returns a connection that has shown the token."""
        client = Client(("127.0.0.1", self.port))
        self.addCleanup(client.close)
        client.send(self.token.read_text().strip())
        return client


def programs(relay):
    """Returns the number of each magicd of a relay."""
    return children_of(relay.pid)


def children_of(parent):
    """Returns the number of each process that another one has started."""
    numbers = [int(folder.name) for folder in pathlib.Path("/proc").iterdir() if folder.name.isdigit()]
    return [number for number in numbers if (fields := fields_of(number)) and int(fields[1]) == parent]


def fields_of(number):
    """Returns what stands of a process behind its command's name, which may have blanks itself: state, parent, .."""
    try:
        return pathlib.Path(f"/proc/{number}/stat").read_text(encoding="utf-8").rpartition(")")[2].split()
    except OSError:
        return None


def runs(number):
    """Returns whether a process hasn't ended."""
    return (fields_of(number) or "Z")[0] != "Z"


def kill_programs(relay):
    for number in programs(relay):
        try:
            os.kill(number, signal.SIGKILL)
        except ProcessLookupError:
            pass


def limit_files(numbers, most=resource.RLIM_INFINITY):
    """Has no file of processes grow beyond this many bytes, as on a full disk."""
    for number in numbers:
        resource.prlimit(number, resource.RLIMIT_FSIZE, (most, resource.RLIM_INFINITY))


def alone(lines, *words):
    """Returns the replies that magicd without workers gives to these lines."""
    text = "".join(line + "\n" for line in lines).encode()
    out = subprocess.run([SERVER, *words], input=text, stdout=subprocess.PIPE, check=True).stdout
    replies, rest = [], out.splitlines(keepends=True)
    while rest:
        count = 1 + lines_after(rest[0])
        replies.append(b"".join(rest[:count]).decode().removesuffix("\n"))
        rest = rest[count:]
    return replies


# Commands whose replies don't depend on check steps; each `drc count` stands behind a `drc catchup`.
def random_lines(name, count, seed):
    """Returns this many lines of a session, some of them with faults."""
    dice = random.Random(seed)
    lines = []
    while len(lines) < count:
        left, bottom = dice.randrange(-60, 60), dice.randrange(-60, 60)
        right, top = left + dice.randrange(0, 30), bottom + dice.randrange(1, 30)
        kind = dice.choice(["poly", "p", "ndiff", "m1", "m1", "space", "none"])
        lines += dice.choice([
            [f"{name} box {left} {bottom} {right} {top}", f"{name} paint {kind}"],
            [f"{name} box {left} {bottom} {right} {top}", f"{name} paint {kind}"],
            [f"{name} erase {kind},{dice.choice(['m1', 'poly'])}"],
            [f"{name} what"],
            [f"{name} drc check"],
            [f"{name} drc catchup", f"{name} drc count"],
            [f"{name} drc why"],
            [f"{name} save"],
            [f"{name} getcell none 1 2"],
            [f"{name} box 1 2 x 4", f"{name} nonsense"],
        ])
    return lines[:count]
