"""Lines for magicd and its replies: whose each one is, and how many lines it has."""

import re
from dataclasses import dataclass

# How many bytes of a line are kept. One that is longer is a fault for magicd whatever it holds.
LONGEST_LINE = 1200

# How many bytes a command has at most.
LONGEST_COMMAND = 1024

# The commands that name a cell.
WITH_CELL = {b"dump", b"getcell"}

NAME = re.compile(rb"[A-Za-z0-9_]{1,32}\Z")

# Replies after which as many more lines follow as the third word says.
TEXTS = {b"saved", b"marked", b"errors", b"violations", b"uses", b"journal"}

# The lines that ask for them, beside `NAME save`.
FOR_TEXTS = {b"%save", b"%marks", b"%errors", b"%violations", b"%uses", b"%journal", b"@show"}

# The refusals after which a command has no entry in the journal: the journal is full, and out of memory.
UNJOURNALLED = {b"6", b"9"}

FAULT = re.compile(rb"line ([0-9]+) fault ")


@dataclass(frozen=True)
class Line:
    """A line as magicd reads it: its words, and the session that it is of, if it is of one."""

    text: bytes
    words: tuple

    @classmethod
    def of(cls, text):
        """Returns the line with this text; a final carriage return is no part of it."""
        text = text.removesuffix(b"\r")
        return cls(text, tuple(re.split(rb"[ \t]+", text.strip(b" \t"))) if text.strip(b" \t") else ())

    @property
    def is_silent(self):
        """Whether magicd gives no reply: the line has no word, or is a comment."""
        return not self.words or self.text.startswith(b"#")

    @property
    def is_command(self):
        """Whether the line begins with a name, so that it has a number in that session."""
        return not self.is_silent and not self.words[0].startswith((b"%", b"@"))

    @property
    def cell(self):
        """The name of the cell that a command dumps or places, or None."""
        return self.words[2] if len(self.words) == 5 and self.words[1] in WITH_CELL else None

    def without_cell(self):
        """Returns the line with a name that no cell has; one that is too long is a fault as it was."""
        if len(self.text) > LONGEST_COMMAND:
            return self
        return Line.of(re.sub(rb"\A([ \t]*[^ \t]+[ \t]+[^ \t]+[ \t]+)[^ \t]+", rb"\1,", self.text))

    @property
    def is_for_text(self):
        """Whether a reply that isn't a refusal has a text, which may be long."""
        return self.words[0] in FOR_TEXTS or self.words[1:] == (b"save",)

    @property
    def name(self):
        """The name of the session that the line is of, or None where it has none that is well formed."""
        if self.is_silent:
            return None
        word = self.words[0]
        if word.startswith((b"%", b"@")):
            word = self.words[1] if len(self.words) > 1 else b""
        return word if NAME.match(word) else None


def fault_of(head):
    """Returns the number of the line of which this first line of a reply reports a fault, or None."""
    found = FAULT.match(head)
    return int(found[1]) if found else None


def lines_after(head):
    """Returns how many lines follow this first line of a reply."""
    words = head.split()
    if len(words) == 3 and words[1] in TEXTS and words[2].isdigit() and fault_of(head) is None:
        return int(words[2])
    return 0


def is_journalled(line, reply):
    """Returns whether a session's journal has this command with this reply."""
    if not line.is_command or fault_of(reply) is not None:
        return False
    words = reply.split(b" ", 3)
    return not (words[1].rstrip() == b"refused" and words[2] in UNJOURNALLED)


def depends_on_checks(line):
    """Returns whether the reply to a command depends on how far its session is checked."""
    return line.words[1:] in ((b"drc", b"count"), (b"drc", b"catchup"))
