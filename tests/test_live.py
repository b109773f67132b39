"""Lines that are carried out as they come: each session's replies, names that come again, and refused opens."""

import random
import unittest

from tests.serving import parted, replies_in, replies_to, serve

# A cell with 7 tiles on each of two planes.
BARS = "<< poly >>\nrect 0 0 2 6\n<< ndiff >>\nrect 3 0 5 6\n<< m1 >>\nrect 0 2 1 4\nrect 4 2 5 4\n"
FILES = {"c.mag": f"magic\n{BARS}<< end >>\n"}
LIVE = ["--live", "--workers", "3", "c=c.mag"]

# Lines of a session whose replies don't depend on check steps, with a box and a place.
LINES = [
    *["{0} box {1}"] * 6, *["{0} paint poly"] * 3, "{0} paint ndiff", "{0} paint m1", "{0} paint gold",
    "{0} erase poly", *["{0} getcell c {2}"] * 2, "{0} what", "{0} drc catchup\n{0} drc count", "{0} save",
    "{0} drc why", "{0} drc check", "%save {0}", "%audit {0}",
]


def random_line(dice, name, lines):
    """Returns a line, or two, of this session."""
    left, bottom = dice.randrange(38), dice.randrange(38)
    box = f"{left} {bottom} {left + dice.randrange(10)} {bottom + dice.randrange(1, 10)}"
    return dice.choice(lines).format(name, box, f"{dice.randrange(20)} {dice.randrange(20)}").split("\n")


class Live(unittest.TestCase):
    def expect_as_alone(self, words, limits, names, lines):
        """Asserts that each session has the replies that it has alone, without workers."""
        ending = serve(words + limits, "\n".join(lines), FILES)
        self.assertEqual((ending.messages, ending.status), ("", 0))
        for name in names:
            alone = serve(limits, "\n".join(line for line in lines if name in line.split()[:2]), FILES)
            self.assertEqual(replies_to(name, ending.output), replies_in(alone.output), f"session {name} of {lines}")

    def test_each_of_six_long_sessions_as_alone(self):
        for run in range(12):
            dice = random.Random(run)
            lines = [f"%open {name}" for name in "abcdef"]
            while len(lines) < 600:
                lines += random_line(dice, dice.choice("abcdef"), [*LINES, "%close {0}\n%open {0}"])
            self.expect_as_alone(LIVE[:3 if run % 3 else 1], ["c=c.mag"], "abcdef", lines)

    def test_each_of_eight_short_sessions_as_alone(self):
        # Room for the cell, for eight sessions, and for eight lines of each with a count behind.
        limits = ["--quota", "128", "--pool", str(14 + 8 * 3 * 192), "--journal", "16", "c=c.mag"]
        for run in range(100):
            dice = random.Random(run)
            lines = [f"%open {name}" for name in "abcdefgh"]
            for name in "abcdefgh" * 8:
                lines += random_line(dice, name, LINES)
            lines += [f"%audit {name}" for name in "abcdefgh"]
            self.expect_as_alone(["--live", "--workers", "4"], limits, "abcdefgh", lines)

    def test_name_that_is_closed_and_opened_a_thousand_times(self):
        script = "%open a\na box 0 0 1 900\na paint poly\na drc catchup\na drc count\n%close a\n"
        replies = "a opened\na ok\na ok\na ok\na count 900 errors 0 pending\na closed\n"
        self.assertEqual(serve(LIVE, script * 1000, FILES), (replies * 1000, "", 0))

    def test_more_names_than_threads(self):
        ending = serve(LIVE, "".join(f"%open s{number}\n" for number in range(70)), FILES)
        replies = [f"s{number} {'opened' if number < 64 else 'refused open 2 sessions full'}" for number in range(70)]
        self.assertEqual((sorted(replies_in(ending.output)), ending.status), (sorted(replies), 0))

    # How many are refused for what depends on the threads. At the end of the input sessions whose lines are done are
    # closed, so more than the first two may be opened.
    def test_each_of_many_openings_has_a_reply(self):
        words = ["--quota", "5", "--pool", "414", "--live"]
        ending = serve(words, "".join(f"%open s{number}\n" for number in range(3000)))
        replies = dict(reply.split(" ", 1) for reply in replies_in(ending.output))
        self.assertEqual((replies.keys(), ending.output.count("\n")), ({f"s{number}" for number in range(3000)}, 3000))
        said = list(replies.values())
        self.assertLessEqual(set(said), {"opened", "refused open 2 sessions full", "refused open 3 pool full"})
        self.assertGreaterEqual(said.count("opened"), 2)
        self.assertEqual((ending.messages, ending.status), ("", 0))

    def test_lines_of_no_session(self):
        script, replies = parted([
            ("# none", None), ("", None), ("b what", 4), ("%step a", 1), ("%steps a 3", 1), ("%open", 3),
            ("%open a-b", 3), ("%open x y", 1), ("%close", 3), ("%uses c", 4), ("c box 1", 1),
        ])
        ending = serve(LIVE, script, FILES)
        # The thread of the name `x` may be done with line 8 after the others.
        self.assertEqual(sorted(replies_in(ending.output)), sorted(replies_in(replies)))
        self.assertEqual((ending.messages, ending.status), ("", 0))

    def test_lines_of_one_session(self):
        script, replies = parted([
            ("%open a", "a opened"), ("%open a", "a refused open 1 open already"), ("%step a", 1), ("%foo a", 1),
            ("a box 0 0 1 10", "a ok"), ("a sing", 1), ("a paint poly", "a ok"), ("%close a b", 1),
            ("a drc why", "a why 0"), ("%audit a", "a audited 3"), ("%close a", "a closed"), ("a what", 4),
        ])
        self.assertEqual(serve(LIVE, script, FILES), (replies, "", 0))
