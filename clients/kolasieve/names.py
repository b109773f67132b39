"""Sessions of several owners may have the same name: in a magicd each has one of its own, as long as the owner's."""

import asyncio
import itertools
import re
import string

from kolasieve.lines import Line

LETTERS = (string.ascii_lowercase + string.ascii_uppercase + string.digits + "_").encode()


def free_name(name, taken):
    """Returns this name where it isn't taken, or another one as long as it, or None where all are taken."""
    if name not in taken:
        return name
    for ending in itertools.product(LETTERS, repeat=min(len(name), 3)):
        other = name[: len(name) - len(ending)] + bytes(ending)
        if other not in taken:
            return other
    return None


def renamed(line, name):
    """Returns a line as one of the session of this name."""
    text = re.sub(rb"\A([ \t]*(?:[%@][^ \t]*[ \t]+)?)" + line.name, lambda found: found[1] + name, line.text, count=1)
    return Line.of(text)


class Seat:
    """A session's place in a magicd, by a name that no other session has there. It is asked under the session's own name."""

    def __init__(self, program, name, name_there):
        self.program = program
        self.name = name
        self.name_there = name_there
        program.names.add(name_there)

    @classmethod
    def find(cls, program, name):
        """Takes a place in a magicd, or returns None where every name that is as long is taken."""
        name_there = free_name(name, program.names)
        return None if name_there is None else cls(program, name, name_there)

    @property
    def sessions(self):
        """The sessions that the magicd has."""
        return self.program.sessions

    @property
    def cells(self):
        """The names of the magicd's cells."""
        return self.program.cells

    def drain(self):
        return self.program.drain()

    @property
    def is_alone(self):
        """Whether the magicd is for this session alone."""
        return self.program.is_alone

    def give_back(self):
        self.program.names.discard(self.name_there)

    def ask(self, line):
        """Asks magicd a line of the session, and returns a future of the reply. A session that is closed has no place."""
        if self.name_there == self.name:
            answered = self.program.ask(line)
        else:
            answered = translated(self.program.ask(renamed(line, self.name_there)), self.own)
        if line.words[0] == b"%close":
            answered.add_done_callback(self.is_answered)
        return answered

    def ask_all(self, name, texts):
        """Sends lines of the session, each of which must have a reply, and returns a future of the list of replies."""
        if self.name_there == name:
            return self.program.ask_all(name, texts)
        there = [renamed(Line.of(text), self.name_there).text for text in texts]
        answered = self.program.ask_all(self.name_there, there)
        return translated(answered, lambda replies: [self.own(reply) for reply in replies])

    def is_answered(self, answered):
        if not answered.cancelled() and answered.exception() is None and answered.result() == b"%s closed\n" % self.name:
            self.give_back()

    def own(self, reply):
        """Returns a reply under the session's own name."""
        there, name = self.name_there, self.name
        if not reply.startswith(there + b" "):
            return reply
        reply = name + reply[len(there) :]
        if reply.startswith(name + b" journal "):
            # A session's lines begin with its name, or with a word and its name.
            reply = re.sub(rb"(?m)^(%steps )?" + there + b" ", lambda found: (found[1] or b"") + name + b" ", reply)
        return reply


def translated(answered, change):
    """Returns a future of what another one has, changed."""
    done = asyncio.get_running_loop().create_future()

    def settle(answered):
        if done.done():
            return
        if answered.cancelled():
            done.cancel()
        elif answered.exception() is not None:
            done.set_exception(answered.exception())
        else:
            done.set_result(change(answered.result()))

    answered.add_done_callback(settle)
    return done


def of_nobody(program, line):
    """Returns a line of a session that its connection hasn't, as one of no session that this magicd has.

    Returns None where every name that is as long is taken.
    """
    if line.name is None:
        return line
    name = free_name(line.name, program.names)
    return line if name == line.name else name and renamed(line, name)
