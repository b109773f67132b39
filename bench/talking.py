"""A running `magicd --live`, its replies sorted by session. For benches that talk with it."""
import itertools
import queue
import subprocess
import threading
import time

# How many seconds a reply may take, and the end of the program.
LIMIT = 60

# The first words of replies behind which so many more lines follow as their number says.
LISTS = {"saved", "marked", "errors", "violations", "uses", "journal"}


class Failed(Exception):
    """What ends a bench."""


class Late(Failed):
    """A reply took too long."""


class Program:
    """The program, which ends with the block that it is opened for."""

    def __init__(self, words, names, environment=None):
        self.process = subprocess.Popen(words, stdin=subprocess.PIPE, stdout=subprocess.PIPE, env=environment)
        self.replies = {name: queue.SimpleQueue() for name in names}
        self.strange = None
        self.reader = threading.Thread(target=self.read, daemon=True)
        self.reader.start()

    def __enter__(self):
        return self

    def __exit__(self, *failure):
        self.process.kill()
        self.process.wait()

    def read(self):
        """Sorts replies until the output ends, or has a line that is no session's reply."""
        for line in self.process.stdout:
            now = time.perf_counter()
            name, _, said = line.decode().rstrip("\n").partition(" ")
            if name not in self.replies:
                self.strange = f"{name} {said}"
                break
            self.skip_list(said)
            self.replies[name].put((now, said))
        for replies in self.replies.values():
            replies.put(None)

    def skip_list(self, said):
        """Reads the lines that belong to a reply, and drops them."""
        word, _, count = said.partition(" ")
        if word in LISTS:
            for _ in itertools.islice(self.process.stdout, int(count)):
                pass

    def send(self, lines):
        """Sends lines at once."""
        try:
            self.process.stdin.write("".join(f"{line}\n" for line in lines).encode())
            self.process.stdin.flush()
        except OSError as error:
            raise Failed(f"magicd reads no more lines: {error}") from None

    def reply(self, name, limit=LIMIT):
        """Returns when the next reply of a session was read, and what it says behind the name."""
        try:
            reply = self.replies[name].get(timeout=limit)
        except queue.Empty:
            raise Late(f"{name}: no reply within {limit} seconds") from None
        if reply is None:
            raise Failed(self.strange or "magicd has ended early")
        return reply

    def end(self):
        """Ends the input, and waits for the end of the program, which must have no further reply."""
        self.process.stdin.close()
        try:
            status = self.process.wait(LIMIT)
        except subprocess.TimeoutExpired:
            raise Failed(f"magicd hasn't ended within {LIMIT} seconds") from None
        self.reader.join(LIMIT)
        if status != 0:
            raise Failed(f"magicd failed with status {status}")
        for name, replies in self.replies.items():
            if replies.get() is not None:
                raise Failed(f"{name}: more replies than lines")
        if self.strange:
            raise Failed(self.strange)
