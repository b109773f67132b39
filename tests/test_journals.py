"""A session's journal, which is played again: random commands with check steps between them, or checked by workers."""

import random
import unittest

from tests.serving import CELL, replies_in, serve

TECHNOLOGY = """planes
active
metal1
end
types
active polysilicon,poly,p
active ndiffusion,ndiff,nd
metal1 metal1,m1
end
drc
width poly 2 "poly width"
spacing poly poly 3 touching_ok "poly spacing"
width m1 3 "m1 width"
end
"""

FILES = {
    "long.tech": TECHNOLOGY,
    "c.mag": "magic\n<< poly >>\nrect 0 0 3 2\nrect 5 1 6 7\n<< m1 >>\nrect 2 2 8 4\n<< end >>\n",
    "d.mag": CELL,
}

OPTIONS = ["--tech", "long.tech", "--quota", "4096", "c=c.mag", "d=d.mag"]

# As many commands as a journal has entries.
COMMANDS = 4096

OTHERS = (
    ["paint poly"] * 4 + ["paint nd"] * 3 + ["paint metal1"] * 3 + ["paint gold"] + ["erase poly,m1"] * 2
    + ["erase ndiffusion,space,p", "erase poly,gold", "paint space"] + ["what"] * 2 + ["drc check", "drc why"]
    + ["drc count", "drc catchup", "save", "erase space"]
)

CELLS = ["dump c", "dump none", "getcell none", "dump d", "dump d", "getcell c", "getcell d", "getcell d"]


def random_command(dice):
    x, y, number = dice.randrange(-40, 40), dice.randrange(-40, 40), dice.randrange(16)
    if number < 7:
        return f"a box {x} {y} {x + dice.randrange(13)} {y + dice.randrange(1, 13)}"
    return f"a {dice.choice(CELLS)} {x} {y}" if number == 7 else f"a {dice.choice(OTHERS)}"


def stepped(dice):
    """Returns random commands, a few of which have one to three check steps behind them."""
    lines = []
    for _ in range(COMMANDS):
        lines += [random_command(dice), *["%step a"] * max(dice.randrange(12) - 8, 0)]
    return lines


class Journals(unittest.TestCase):
    def run_of(self, words, lines):
        """Returns the replies to the commands among these lines, and the lines of the journal at their end."""
        ending = serve(words, "\n".join(["%open a", *lines, "%journal a"]), FILES)
        self.assertEqual((ending.messages, ending.status), ("", 0))
        *replies, journal = replies_in(ending.output)
        head, *entries = journal.split("\n")
        self.assertEqual(head, f"a journal {len(entries)}")
        return [reply for reply in replies if not reply.startswith("a step")], entries

    def expect_played(self, words, lines):
        """Asserts that the journal of these lines, played without workers, has their replies and the same journal."""
        replies, journal = self.run_of(words, lines)
        commands = [line for line in journal if not line.startswith("%steps a ")]
        self.assertEqual((len(replies), len(commands)), (1 + COMMANDS, COMMANDS))
        self.assertEqual(self.run_of(OPTIONS, journal), (replies, journal))

    def test_journal_with_check_steps_between(self):
        self.expect_played(OPTIONS, [*stepped(random.Random(11)), "%step a", "%step a"])

    def test_journal_of_a_session_that_workers_checked(self):
        dice = random.Random(12)
        self.expect_played([*OPTIONS, "--workers", "2"], [random_command(dice) for _ in range(COMMANDS)])
