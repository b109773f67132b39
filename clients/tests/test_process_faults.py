"""What can't be compiled: one message with the file and the line, status 2, and nothing half written."""

import unittest

from tests.serving import alone
from tests.test_process import Folder, compiled
from tests.verdicts import technology

from kolasieve.compiling import Compiled
from kolasieve.process import Process
from kolasieve.technology import TechnologyFault

TYPES = {"a": "low", "b21": "low", "b22": "low", "h": "high", "t": "top"}

# What is wrong, the rules and contacts of the file, and what the message says behind the file; {n} is the rule's line.
FAULTS = [
    ("no rules", [], [], "line 31: there are no rules"),
    ("a rule over three planes", ['edge a,h t 2 a 0 0 "why"'], [],
     "line {n}: the types a,h and t don't lie on one plane"),
    ("corners on a third plane", ['edge a b21 2 h t 1 "why"'], [], "line {n}: the corner types t don't lie on low"),
    ("a distance of 0", ['width a 0 "why"'], [], "line {n}: a distance of 0 isn't in 1 to 100"),
    ("a distance of 101", ['width a 101 "why"'], [], "line {n}: a distance of 101 isn't in 1 to 100"),
    ("a corner distance of 101", ['edge a b21 1 a a 101 "why"'], [], "line {n}: a distance of 101 isn't in 0 to 100"),
    ("no number", ['width a +2 "why"'], [], "line {n}: bad number +2"),
    ("a contact of unknown types", ['width a 2 "why"'], ["a b21 gold"], "line 18: unknown type gold"),
    ("an unknown type", ['width gold 2 "why"'], [], "line {n}: unknown type gold"),
    ("a beginning of two names", ['width a 2 "why"', 'width b2 2 "why"'], [], "line {n}: unknown type b2"),
    ("an unknown plane", ['width a/gold 2 "why"'], [], "line {n}: unknown plane gold"),
    ("an open parenthesis", ['width ~(a 2 "why"'], [], "line {n}: bad list ~(a"),
    ("an unknown rule", ['thickness a 2 "why"'], [], "line {n}: unknown rule thickness"),
    ("too few words", ["width a 2"], [], "line {n}: width has 3 words"),
    ("an unknown adjacency", ['spacing a b21 2 touching "why"'], [], "line {n}: unknown adjacency touching"),
    ("touching on two planes", ['spacing a h 2 touching_ok "why"'], [],
     "line {n}: the types a and h don't lie on one plane"),
    ("a missing include", ["include gone"], [], "line {n}: there is no file gone to include"),
    ("an include of itself", ["include broken"], [], "line {n}: broken includes itself"),
]


def contents(folder):
    return {each.name: each.read_bytes() for each in folder.iterdir()}


class Faults(Folder):
    def setUp(self):
        super().setUp()
        good = self.folder / "good.tech"
        good.write_text(technology("good", TYPES, ['width a 2 "why"']))
        self.assertEqual(compiled(str(good), self.folder / "out").returncode, 0)

    def broken(self, text):
        """Compiles a text over what was compiled before, which is left as it was, and returns the message."""
        path = self.folder / "broken.tech"
        path.write_bytes(text if isinstance(text, bytes) else text.encode())
        before = contents(self.folder / "out")
        ended = compiled(str(path), self.folder / "out")
        self.assertEqual(contents(self.folder / "out"), before)
        self.assertEqual((ended.returncode, ended.stdout), (2, ""))
        return ended.stderr.replace(str(path), "FILE")

    def test_each_has_its_message(self):
        path = self.folder / "broken.tech"
        for what, rules, contacts, message in FAULTS:
            with self.subTest(what):
                text = technology("broken", TYPES, rules, contacts)
                lines = ["", *text.splitlines()]
                line = lines.index(f"  {rules[-1]}") if rules else 0
                path.write_text(text)
                with self.assertRaises(TechnologyFault) as caught:
                    Compiled.of(str(path))
                self.assertEqual(str(caught.exception), f"{path}: {message.format(n=line)}")

    def test_a_rule_over_three_planes(self):
        message = self.broken(technology("broken", TYPES, ['edge a,h t 2 a 0 0 "why"']))
        self.assertEqual(message, "process: FILE: line 32: the types a,h and t don't lie on one plane\n")

    def test_bytes_that_are_no_text(self):
        text = technology("broken", TYPES, ['width a 2 "why"']).replace("why", "wh\xff").encode("latin-1")
        place = text.decode("latin-1").splitlines().index('  width a 2 "wh\xff"') + 1
        self.assertEqual(self.broken(text), f"process: FILE: line {place}: bytes that are no text\n")

    def test_a_cut_file(self):
        text = technology("broken", TYPES, ['width a 2 "why"']).partition("\nextract")[0].removesuffix("\nend")
        place = text.splitlines().index("drc") + 1
        self.assertEqual(self.broken(text), f"process: FILE: line {place}: the section drc has no end\n")

    def test_no_such_technology(self):
        ended = compiled("gone", self.folder / "fresh")
        self.assertEqual((ended.returncode, ended.stdout), (2, ""))
        self.assertEqual(ended.stderr, "process: gone.tech: there is no such file here or in Magic's folders\n")

    def test_a_folder_that_cant_be_written(self):
        ended = compiled(str(self.folder / "good.tech"), self.folder / "good.tech" / "out")
        self.assertEqual((ended.returncode, ended.stdout), (2, ""))
        self.assertEqual(ended.stderr, f"process: {self.folder}/good.tech/out: Not a directory\n")

    def test_a_full_disk(self):
        before = contents(self.folder / "out")
        for place in ("out", "fresh"):
            ended = compiled(str(self.folder / "good.tech"), self.folder / place, limit=1)
            self.assertEqual((ended.returncode, ended.stdout), (2, ""))
            self.assertEqual(ended.stderr, f"process: {self.folder / place}: File too large\n")
        self.assertEqual(contents(self.folder / "out"), before)
        self.assertFalse((self.folder / "fresh").exists())


class Parted(Folder):
    """What is too much for one group is parted."""

    def groups(self, types, rules):
        (self.folder / "many.tech").write_text(technology("many", types, rules))
        ended = compiled(str(self.folder / "many.tech"), self.folder / "out")
        self.assertEqual(ended.returncode, 0, ended.stderr)
        return ended.stdout.split(": ")[1].split(" in ")[0]

    def test_129_rules_of_one_plane(self):
        rules = [f'width a {distance % 100 + 1} "why {distance}"' for distance in range(128)]
        self.assertEqual(self.groups({"a": "low"}, rules), "1 groups (1 types, 128 rules)")
        rules.append('width a 29 "one more"')
        self.assertEqual(self.groups({"a": "low"}, rules), "2 groups (1+1 types, 65+64 rules)")

    def test_70_types_that_are_told_apart(self):
        types = {f"a{number}": "low" for number in range(70)}
        rules = [f'width {each} 3 "why"' for each in types]
        self.assertEqual(self.groups(types, rules[:63]), "1 groups (63 types, 63 rules)")
        self.assertEqual(self.groups(types, rules), "2 groups (35+35 types, 35+35 rules)")

    def test_areas_alone(self):
        self.assertEqual(self.groups({"a": "low"}, ['area a 20 5 "why"']), "0 groups")
        self.assertEqual(Process.load(self.folder / "out").areas[0].squares, 20)

    def test_texts_and_empty_lists(self):
        rules = ['width a 2 ""', 'width a 3 "of \\"a\\""', 'width 0 3 "empty"']
        rules.append('widespacing a 5 b 2 touching_ok "wide"')
        self.assertEqual(self.groups({"a": "low", "b": "low"}, rules), "1 groups (2 types, 2 rules)")
        report = (self.folder / "out/report.md").read_text()
        self.assertIn("it looks at no edge, since a list is empty", report)
        self.assertIn("`widespacing`: not checked: no edge rule says it", report)
        process = Process.load(self.folder / "out")
        self.assertEqual([rule.why for rule in process.groups[0].rules], ["", 'of "a"'])
        lines = ["%open a", "a box 0 0 1 9", "a paint a", "a box 0 0 3 9", "a drc why"]
        replies = alone(lines, "--tech", str(process.groups[0].path))
        self.assertEqual(replies[-1], "a why 2 [1]  [2] of 'a'")

    def test_a_long_distance_where_that_is_allowed(self):
        (self.folder / "long.tech").write_text(technology("long", {"a": "low"}, ['width a 101 "why"']))
        ended = compiled(str(self.folder / "long.tech"), self.folder / "out", "--shorten")
        self.assertEqual(ended.returncode, 0)
        report = f"{self.folder}/out/report.md"
        self.assertEqual(ended.stderr, f"long: of 1 rule lines 1 may miss something ({report})\n")
        self.assertIn("a distance of 101 is taken as 100", (self.folder / "out/report.md").read_text())


if __name__ == "__main__":
    unittest.main()
