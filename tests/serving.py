"""How a test runs the program, and how it reads what that wrote."""

import concurrent.futures
import itertools
import os
import pathlib
import socket
import subprocess
import tempfile
import threading
import typing

ROOT = pathlib.Path(__file__).resolve().parent.parent
SERVER = os.path.abspath(os.environ.get("KOLASIEVE_SERVER", ROOT / "crates/magicd/out/magicd"))

# Two overlapping rectangles on two planes, as a cell.
CELL = "magic\ntech M\ntimestamp 7\n<< poly >>\nrect 0 0 2 4\n<< m1 >>\nrect 1 0 4 3\n<< end >>\n"

# Replies after which as many more lines follow as they say.
TEXTS = "saved", "marked", "errors", "violations", "uses", "journal"

FAULTS = {1: "unknown command", 2: "bad number", 3: "name", 4: "not open"}


class Ending(typing.NamedTuple):
    """How a run ended."""

    output: str
    messages: str
    status: int


def in_bytes(text):
    return text if isinstance(text, bytes) else text.encode()


def ran(words, **options):
    """Runs the program, and returns how it ended; a stream that the options give has written nothing to return."""
    options = {"stdout": subprocess.PIPE, "stderr": subprocess.PIPE, **options}
    run = subprocess.run([SERVER, *words], timeout=600, **options)
    return Ending((run.stdout or b"").decode(), (run.stderr or b"").decode(), run.returncode)


def serve(words, script, files=None, **options):
    """Runs the program in a folder of its own that has these files, and returns how it ended."""
    with tempfile.TemporaryDirectory() as folder:
        for name, text in (files or {}).items():
            pathlib.Path(folder, name).write_bytes(in_bytes(text))
        return ran(words, input=in_bytes(script), cwd=folder, **options)


def serve_by_bytes(words, script):
    """Runs the program on an input of which each read returns one byte."""
    ours, theirs = socket.socketpair(socket.AF_UNIX, socket.SOCK_SEQPACKET)

    def feed():
        with ours:
            for byte in in_bytes(script):
                ours.send(bytes([byte]))

    feeder = threading.Thread(target=feed)
    with theirs:
        feeder.start()
        ending = ran(words, stdin=theirs)
    feeder.join()
    return ending


def in_parallel(check, cases):
    """Calls a check of each case, as many at once as there are processors, and fails with the first that fails."""
    with concurrent.futures.ThreadPoolExecutor(os.cpu_count()) as pool:
        for _ in pool.map(check, cases):
            pass


def parted(rows):
    """Returns the script of rows, and the replies to it. A row is a line, and its reply or the number of its fault."""
    replies = [f"line {n} fault {it} {FAULTS[it]}" if it in FAULTS else it for n, (_, it) in enumerate(rows, 1)]
    return b"\n".join(in_bytes(line) for line, _ in rows), "".join(f"{reply}\n" for reply in replies if reply)


def replies_in(output):
    """Returns the replies of an output, each with the lines of its text, and without its last line feed."""
    *lines, rest = output.split("\n")
    assert not rest, f"half a line: {rest}"
    replies, lines = [], iter(lines)
    for head in lines:
        _, word, *words = head.split(" ")
        count = int(words[0]) if word in TEXTS else 0
        text = list(itertools.islice(lines, count))
        assert len(text) == count, f"half a text: {head}"
        replies.append("\n".join([head, *text]))
    return replies


def replies_to(name, output):
    """Returns the replies of the session of this name."""
    return [reply for reply in replies_in(output) if reply.startswith(name + " ")]
