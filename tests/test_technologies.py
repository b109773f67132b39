"""Whole technology files: one line changed, lines put in behind the rules, and files that are large."""

import unittest

from tests.plain_files import TECH_FAULTS, Technology
from tests.probes import runs_of, script_and_replies
from tests.serving import ROOT

M = (ROOT / "examples/m.tech").read_bytes()

# Lines of technology M with a faulty text in place of each, and the number of the fault.
FAULTY_LINES = [
    (9, b"  active poly,poly", 5), (9, b"  gold poly,p", 3), (9, b"  active end,p", 8),
    (14, b'  width poly +2 "w"', 6), (14, b'  width poly 0 "w"', 9), (14, b'  width poly,~ 2 "w"', 7),
    (14, b'  width gold/nowhere 2 "w"', 4), (14, b'  width poly 2 "w', 8), (5, b"  active\xff", 1),
    (5, b"  active,0", 8), (6, b"  metal1 m", 8), (6, b"  metal1,active", 5), (9, b"  active space", 5),
    (9, b"  active poly,poly,(", 5), (14, b'  width poly 1234567890123456789012345678901234567890 "w"', 9),
    (14, b'  width poly/nowhere 2 "w"', 3), (14, b'  width ((poly) 2 "w"', 7), (14, b'  width poly/0 2 "w"', 7),
    (17, b"  edge m1 0 1 0 0 101 e nowhere", 9),
]

# The same with texts that are skipped, and their keywords.
SKIPPED_LINES = [
    (15, b'  spacing poly poly 3 elsewhere m1 "x"', b"spacing"), (14, b'  overhang poly ndiff 2 "oh"', b"overhang"),
    (17, b'  "end"', b"end"),
]

# The same with texts that say what technology M says.
SAME_LINES = [
    (14, b'  width poly \\\n  2 "poly width"'), (14, b'  width poly 00000000000000000002 "poly width"'),
    (14, b'  width ~~(poly,0)/active 2 "poly width"'), (11, b"  metal1 m1,a"), (2, b"  format 27\n  M and more\n  N"),
    (1, b"# \\\nignored\ntech whatever"), (9, b"  -active poly,p"),
    (7, b'end\nstyles\n  mos "1,( ~\n  end 1\nend\n"drc"\nend'),
    (10, b"end\nend\n  type\nend\ntypes\n  active ndiff,nd"),
    (16, b'  spacing\tp nd 001 "touching_illegal""poly to ndiff"\r'),
    (17, b'  "width"~space/metal1 3 "m1 width"\n# end'),
]

# Whole files with the line and the number of their fault.
FAULTY_FILES = [
    (b'drc\n  width poly 2 "w"\nend\ntypes\n  a poly\nend\n', 2, 4), (b"\nplanes\n  0\n  end x\n", 2, 2),
    (b"tech\n  M\nend\nend\n", 4, 2), (b"planes\n a\n b\n c\n d\n e\nend", 6, 9),
    (b"planes\n a\n b\n c\n d\n a\nend", 6, 5),
]

# Lines behind the rules of technology M whose lists lie on planes as they must.
RULES = [
    b'edge space poly 2 poly poly 2 "x"', b'edge space m1 1 space,ndiff 0 0 "e" active',
    b'edge4way space m1 1 space,ndiff 0 0 "e" active', b'spacing poly m1 1 touching_illegal "x"',
]

# The same with lists that don't.
BAD_RULES = [
    b'width poly,m1 2 "x"', b'width space/active 2 "x"', b'edge poly m1 1 poly poly 1 "x"',
    b'edge space ~space 2 poly poly 2 "x"',
]

MILLION = 1_000_000


def with_line(number, text):
    """Returns technology M with a text in place of a line, from 1."""
    lines = M.split(b"\n")
    return b"\n".join([*lines[:number - 1], text, *lines[number:]])


def with_rules(*lines):
    return with_line(18, b"\n".join([*lines, b"end"]))


def deep_list(opened, closed):
    """Returns a technology whose one rule has a list with so many parentheses, of which so many are closed."""
    return b"planes\n p\nend\ntypes\n p q\nend\ndrc\n width %sq%s 1 deep\nend\n" % (b"~(" * opened, b")" * closed)


def long_name(kind, number):
    return f"{number:_>100}_of_t{kind}"


def why_of(number):
    return f"{number:.>300}"


def large_technology():
    """Returns 4 planes, 63 types of eleven names each, most of them long, and 128 rules with long texts."""
    names = {kind: ",".join(long_name(kind, number) for number in range(10)) for kind in range(1, 64)}
    types = [f"p{kind % 4} t{kind},{names[kind]}" for kind in names]
    rules = [f'width t{number % 63 + 1} 2 "{why_of(number)}"' for number in range(1, 129)]
    return "\n".join(["planes\np0\np1\np2\np3\nend\ntypes", *types, "end\ndrc", *rules, "end\n"]).encode()


def large_rows():
    """Returns lines that show it, with their replies: each type painted as a single square, which is too narrow."""
    rows = [("%open a", "opened")]
    for kind in range(1, 64):
        left = 9 * kind
        rules = [f" [{number}] {why_of(number)}" for number in range(1, 129) if number % 63 + 1 == kind]
        rows += [
            (f"a box {left} 0 {left + 1} 1", "ok"), (f"a paint {long_name(kind, kind % 10)}", "ok"),
            ("a what", f"what 1 t{kind}"), (f"%why a {left} 0 {left + 4} 4", f"why {len(rules)}{''.join(rules)}"),
        ]
    return rows


class Technologies(unittest.TestCase):
    def expect(self, file, said_by, messages=b""):
        """Asserts that the program shows a technology that another file says, too."""
        script, replies = script_and_replies(Technology(said_by))
        self.assertEqual(runs_of(["--tech", "file"], script, file), (replies, messages, 0), file[:2000])

    def expect_fault(self, file, message):
        ending = runs_of(["--tech", "file"], b"%open a\n", file)
        self.assertEqual(ending, (b"", b"magicd: tech line %s\n" % message.encode(), 1), file[:2000])

    def expect_number(self, file, line, number):
        self.expect_fault(file, f"{line} fault {number} {TECH_FAULTS[number]}")

    def test_lines_with_faults(self):
        for line, text, number in FAULTY_LINES:
            self.expect_number(with_line(line, text), line, number)
        for file, line, number in FAULTY_FILES:
            self.expect_number(file, line, number)

    def test_lines_that_are_skipped(self):
        for line, text, keyword in SKIPPED_LINES:
            message = b"magicd: tech line %d skipped %s\n" % (line, keyword)
            self.expect(with_line(line, text), with_line(line, b""), message)

    def test_lines_that_say_the_same(self):
        for line, text in SAME_LINES:
            self.expect(with_line(line, text), with_line(11, b"  metal1 m1,a") if line == 11 else M)

    def test_rules(self):
        for line in RULES:
            self.expect(with_rules(line), with_rules(line))
        for line in BAD_RULES:
            self.expect_fault(with_rules(line), "18 rule fault 1 planes")

    def test_too_many_rules(self):
        lines = [b'width m1 3 "more"'] * 124
        self.expect(with_rules(*lines), with_rules(*lines))
        self.expect_fault(with_rules(*lines, BAD_RULES[0]), "142 rule fault 2 too many rules")

    def test_large_technology(self):
        file = large_technology()
        self.assertGreater(len(file), 100_000)
        lines, replies = zip(*large_rows())
        ending = runs_of(["--tech", "file"], "\n".join(lines).encode(), file)
        self.assertEqual(ending, ("".join(f"a {reply}\n" for reply in replies).encode(), b"", 0))

    def test_deep_lists(self):
        self.expect(deep_list(MILLION, MILLION), deep_list(2, 2))
        for closed in (0, MILLION - 1, MILLION + 1):
            self.expect_number(deep_list(MILLION, closed), 8, 7)

    def test_many_skipped_lines(self):
        file = b"planes\n p\nend\ndrc\n" + b' overhang poly ndiff 2 "oh"\n' * 10_000 + b"end\n"
        messages = b"".join(b"magicd: tech line %d skipped overhang\n" % line for line in range(5, 10_005))
        self.expect(file, b"planes\n p\nend\n", messages)

    def test_lines_of_a_million_bytes(self):
        long = b"x" * MILLION
        file = b"planes\n %s\n #%s\nend\nstyles %s\nend\ntypes\n %s" % (long, long, long, long)
        self.expect(file + b" q\nend\n", b"planes\n p\nend\ntypes\n p q\nend\n")
        for end, line, number in (
            (b" q q\nend\n", 8, 8), (b"x q\nend\n", 8, 3), (b" q\n", 7, 2), (b" q\nend\n\n\xff", 11, 1),
        ):
            self.expect_number(file + end, line, number)

    def test_file_of_16_megabytes(self):
        file = b"# sixteen bytes\n" * MILLION + b"styles\n"
        self.expect_number(file, MILLION + 1, 2)
        self.expect_number(file + b"end\nplanes\n a b\nend\n", MILLION + 4, 8)
