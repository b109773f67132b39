"""Sends random lines to `magicd --live` for so many seconds. Called by bench/soak.sh, which says what the rows are."""
import collections
import os
import pathlib
import random
import sys
import tempfile
import time

from talking import Failed, Program

NAMES = [f"s{number}" for number in range(64)]
OPTIONS = ["--live", "--workers", "4", "--quota", "64", "--journal", "256", "--pool", "24960"]

CELL = """magic
<< poly >>
rect 0 0 2 8
rect 4 0 5 8
<< ndiff >>
rect 2 2 4 4
<< m1 >>
rect 0 0 6 3
<< end >>
"""

# Without these caches of the C library, what grows is what the program holds.
CACHELESS = "glibc.malloc.arena_max=1:glibc.malloc.tcache_count=0:glibc.malloc.mxfast=0"

# How many random lines a turn has, and how many turns a session at most.
TURN = 8
TURNS = 64

# How memory may grow after the warm-up.
GROWTH = 1.05

# What the reply to each line says first, unless it is refused.
SAYS = {
    "box": "ok",
    "paint": "ok",
    "erase": "ok",
    "dump": "ok",
    "getcell": "ok",
    "what": "what",
    "save": "saved",
    "drc check": "ok",
    "drc catchup": "ok",
    "drc why": "why",
    "drc count": "count",
    "%save": "saved",
    "%why": "why",
    "%stat": "stat",
    "%uses": "uses",
    "%marks": "marked",
    "%errors": "errors",
    "%violations": "violations",
    "%journal": "journal",
    "%audit": "audited",
    "%close": "closed",
    "%open": "opened",
}


class Dice(random.Random):
    """Random lines, the same in each run."""

    def coordinate(self):
        """Returns where a box or a cell begins: mostly in the middle of the world, or at its border, or far beyond."""
        first = self.choices([0, 32_700, -32_800, 2**31 - 1300, -(2**31)], [60, 1, 1, 1, 1])[0]
        return first + self.randrange(96)

    def side(self):
        """Returns the width or the height of a box, which one in twelve doesn't have."""
        return self.randrange(12) * self.choices([1, 100], [31, 1])[0]

    def box(self):
        """Returns a box of a few squares, or of none, or across the world's border, or beyond it."""
        left, bottom = self.coordinate(), self.coordinate()
        return f"{left} {bottom} {left + self.side()} {bottom + self.side()}"

    def kind(self):
        """Returns a name of a type, or now and then one of none, or of space, which can't be painted."""
        names = ["poly", "p", "ndiff", "m1", "space", "gold", ","]
        return self.choices(names, [6, 2, 7, 7, 1, 1, 1])[0]

    def kinds(self):
        """Returns the names of some types for an erase, now and then with one of none."""
        names = ["poly", "ndiff", "m1", "poly,m1", "m1,p,nd", "space", "poly,gold", "gold"]
        return self.choices(names, [2, 2, 2, 2, 1, 1, 1, 1])[0]

    def place(self):
        """Returns a cell, now and then one that there is none of, and where it begins."""
        name = self.choices(["cell", "none"], [7, 1])[0]
        return f"{name} {self.coordinate()} {self.coordinate()}"

    def roll_line(self):
        """Returns the verb of a line, and what follows it and the session's name."""
        verb = self.choices(list(VERBS), list(VERBS.values()))[0]
        words = WORDS.get(verb)
        return verb, words(self) if words else ""

    def roll_turn(self):
        """Returns the lines of a turn. Where one catches up, the next counts what awaits checking."""
        lines = []
        for _ in range(TURN):
            lines.append(self.roll_line())
            if lines[-1][0] == "drc catchup":
                lines.append(("drc count", ""))
        return lines


# How often each line comes, beside the others.
VERBS = {
    "box": 10,
    "paint": 8,
    "erase": 3,
    "dump": 1,
    "getcell": 1,
    "what": 1,
    "save": 1,
    "drc check": 2,
    "drc catchup": 1,
    "drc why": 2,
    "drc count": 2,
    "%save": 0.5,
    "%why": 1,
    "%stat": 1,
    "%uses": 0.5,
    "%marks": 0.5,
    "%errors": 1,
    "%violations": 1,
    "%journal": 0.1,
}

# The other words of the lines that have some.
WORDS = {
    "box": Dice.box,
    "%why": Dice.box,
    "%errors": Dice.box,
    "%violations": Dice.box,
    "paint": Dice.kind,
    "erase": Dice.kinds,
    "dump": Dice.place,
    "getcell": Dice.place,
}


class Session:
    """A session: opened, sent turns of random lines, and closed once its journal is full or its turns are over."""

    def __init__(self, program, tally, name, seed):
        self.program = program
        self.tally = tally
        self.name = name
        self.dice = Dice(seed)
        self.sent = []
        self.is_open = False

    def text_of(self, verb, words):
        """Returns a line with the session's name."""
        line = f"{verb} {self.name} {words}" if verb.startswith("%") else f"{self.name} {verb} {words}"
        return line.rstrip()

    def send(self, lines):
        """Sends lines, each a verb and its other words, whose replies are taken later."""
        self.sent += lines
        self.program.send([self.text_of(*line) for line in lines])

    def take_turn(self):
        """Takes the replies of the turn before, and sends the lines of one. Opens a session where there is none."""
        self.take_replies()
        if self.is_open and (self.is_full or self.turns == 0):
            self.close()
        if not self.is_open:
            self.open()
        self.turns -= 1
        self.send(self.dice.roll_turn())

    def open(self):
        """Opens the session, and rolls how many turns it has at most."""
        self.is_open = True
        self.is_full = False
        self.entries = 0
        self.turns = self.dice.randint(1, TURNS)
        self.send([("%open", "")])

    def close(self):
        """Audits the session, and closes it."""
        self.is_open = False
        self.send([("%audit", ""), ("%close", "")])
        self.take_replies()

    def end(self):
        """Takes the replies of the last turn, and closes the session."""
        self.take_replies()
        self.close()

    def take_replies(self):
        """Takes the replies to all lines that were sent."""
        sent, self.sent = self.sent, []
        is_caught_up = False
        for verb, words in sent:
            said = self.program.reply(self.name)[1]
            try:
                self.judge(verb, said.split(" "), is_caught_up)
            except Failed as failed:
                raise Failed(f"{self.text_of(verb, words)}: {said}, but {failed}") from None
            is_caught_up = verb == "drc catchup" and said == "ok"

    def judge(self, verb, said, is_caught_up):
        """Fails where a reply can't be that of its line, and counts both."""
        is_refused = said[0] == "refused" and not verb.startswith(("%audit", "%open", "%close"))
        if not is_refused and said[0] != SAYS[verb]:
            raise Failed("such a line has another reply")
        refusal = int(said[1]) if is_refused else 0
        if verb == "%audit" and int(said[1]) != self.entries:
            raise Failed(f"the journal took {self.entries} commands")
        if verb == "drc count" and is_caught_up and refusal != 6 and said[-2:] != ["0", "pending"]:
            raise Failed("the line before caught up")
        self.tally[f"refused by {refusal}" if is_refused else verb] += 1
        self.count(verb, refusal)

    def count(self, verb, refusal):
        """Counts a line as a command or as a look, and a command as an entry of the journal unless it was left out."""
        if not verb.startswith("%"):
            self.tally["commands"] += 1
            self.entries += refusal not in (6, 9)
            self.is_full |= refusal == 6
        elif verb in VERBS:
            self.tally["looks"] += 1


class Memory:
    """How many kilobytes a process holds after the warm-up, and at most after that."""

    def __init__(self, process, warm):
        self.status = pathlib.Path(f"/proc/{process.pid}/status")
        self.next = time.monotonic() + warm
        self.first = 0
        self.most = 0

    def watch(self):
        """Looks at the process, if a second has passed."""
        if time.monotonic() < self.next:
            return
        self.next += 1
        for line in self.status.read_text().splitlines():
            if line.startswith("VmRSS:"):
                held = int(line.split()[1])
                self.first = self.first or held
                self.most = max(self.most, held)


def soak(program, tally, memory, seconds):
    """Lets the sessions take turns for so many seconds, and closes them."""
    sessions = [Session(program, tally, name, seed) for seed, name in enumerate(NAMES)]
    last = time.monotonic() + seconds
    while time.monotonic() < last:
        for session in sessions:
            session.take_turn()
            memory.watch()
    for session in sessions:
        session.end()


def print_rows(tally, memory, seconds, warm):
    commands = tally["commands"]
    rows = {"seconds": seconds, "commands": commands, "commands a second": commands // max(seconds, 1)}
    rows["looks"] = tally["looks"]
    rows |= {f"refused by {number}": tally[f"refused by {number}"] for number in range(1, 11)}
    rows["sessions opened"] = tally["%open"]
    rows["sessions audited"] = tally["%audit"]
    rows["sessions closed"] = tally["%close"]
    rows[f"kB after {warm} seconds"] = memory.first
    rows["kB at most after that"] = memory.most
    print("what", "number", sep="\t")
    for name, value in rows.items():
        print(name, value, sep="\t")


def main(path, seconds):
    warm = max(5, min(60, seconds // 10))
    tally = collections.Counter()
    with tempfile.TemporaryDirectory() as folder:
        cell = pathlib.Path(folder, "cell.mag")
        cell.write_text(CELL)
        environment = {**os.environ, "GLIBC_TUNABLES": CACHELESS}
        with Program([path, *OPTIONS, f"cell={cell}"], NAMES, environment) as program:
            memory = Memory(program.process, warm)
            try:
                soak(program, tally, memory, seconds)
                program.end()
            finally:
                print_rows(tally, memory, seconds, warm)
    if memory.most > memory.first * GROWTH:
        raise Failed("memory grew by more than 5 %")


try:
    main(sys.argv[1], int(sys.argv[2]))
except Failed as failed:
    sys.exit(str(failed))
