"""Reads pages: sessions with the program, what goes in to the left and what comes out to the right.

README.md has their form.
"""

import dataclasses
import re
import shlex

ESCAPE = re.compile(rb"\\(x[0-9a-f]{2}|.)", re.DOTALL)
SIGNS = {b"\\": b"\\", b"n": b"\n", b"r": b"\r", b"t": b"\t", b"\n": b""}
MARGIN = "    "
REST = "..."


class PageFault(ValueError):
    """A line of a page that can't be read."""


@dataclasses.dataclass
class Case:
    """A session, and how it must end."""

    title: str
    line: int
    files: dict[str, bytes]
    commands: list[list[str]] = dataclasses.field(default_factory=list)
    script: bytes = b""
    output: bytes = b""
    status: int = 0
    messages: bytes = b""
    more_messages: bool = False


def line_bytes(text):
    """Returns the bytes of a line with its end, which a last backslash takes away."""

    def sign(escape):
        name = escape[1]
        return bytes.fromhex(name[1:].decode()) if len(name) == 3 else SIGNS[name]

    try:
        return ESCAPE.sub(sign, text.encode() + b"\n")
    except KeyError as fault:
        raise PageFault(f"no such escape: {fault}") from fault


def shown(line):
    """Returns a line as pages have it: what `line_bytes` makes these bytes of."""
    text = line.removesuffix(b"\n").decode("latin-1").encode("unicode_escape").decode()
    text = re.sub(" $", r"\\x20", text)
    return text if line.endswith(b"\n") else text + "\\"


class Reader:
    """Takes the lines of a page, one after another."""

    def __init__(self):
        self.files = {}
        self.cases = []
        # The files among which a block is, its name, and how many empty lines stand behind its last line.
        self.block = None
        self.empty = 0

    def take(self, number, line):
        if self.block is not None and self.take_line_of_file(line):
            return
        self.block = None
        word, _, rest = line.partition(" ")
        if "|" in line:
            self.take_row(line)
        elif word == "#":
            self.cases.append(Case(rest, number, dict(self.files)))
        elif word == "file":
            self.begin_file(rest)
        elif word == "$":
            self.take_command(shlex.split(rest))
        elif word == "status":
            self.case().status = int(rest)
        elif word == "message":
            self.take_message(rest)
        elif line:
            raise PageFault("neither a row nor a word of pages")

    def case(self):
        if not self.cases:
            raise PageFault("no title before it")
        return self.cases[-1]

    def begin_file(self, name):
        if "/" in name or not name:
            raise PageFault("no name of a file")
        self.block = (self.cases[-1].files if self.cases else self.files), name
        self.block[0][name] = b""
        self.empty = 0

    def take_line_of_file(self, line):
        """Takes a line of a file, or an empty one, which belongs to it if another line follows."""
        files, name = self.block
        if not line.strip():
            self.empty += 1
            return True
        if not line.startswith(MARGIN):
            return False
        files[name] += b"\n" * self.empty + line_bytes(line.removeprefix(MARGIN))
        self.empty = 0
        return True

    def take_command(self, words):
        if words[:1] != ["magicd"]:
            raise PageFault("another program")
        self.case().commands.append(words)

    def take_row(self, line):
        left, _, right = line.partition("|")
        left, right = left.rstrip(" "), right.removeprefix(" ").rstrip(" ")
        case = self.case()
        if left or not right:
            case.script += line_bytes(left)
        if right:
            case.output += line_bytes(right)

    def take_message(self, text):
        case = self.case()
        if text.endswith(REST):
            case.messages += line_bytes(text.removesuffix(REST) + "\\")
            case.more_messages = True
        else:
            case.messages += line_bytes(text)


def read(path):
    """Returns the cases of a page."""
    reader = Reader()
    lines = path.read_text(encoding="utf-8").split("\n")
    head = lines.index("") if "" in lines else 0
    for number, line in enumerate(lines[head:], head + 1):
        try:
            reader.take(number, line)
        except ValueError as fault:
            raise PageFault(f"{path.name}:{number}: {fault}") from fault
    for case in reader.cases:
        if not case.commands:
            raise PageFault(f"{path.name}:{case.line}: no command")
    if not reader.cases:
        raise PageFault(f"{path.name}: no case")
    return reader.cases
