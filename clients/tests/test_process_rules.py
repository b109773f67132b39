"""Compiled rules beside Magic's: by cells on both sides of each keyword's limit, and by Magic's list of its rules."""

import pathlib
import shutil
import tempfile
import unittest

from tests.printed_rules import Comparison, printed_by_magic
from tests.test_process import is_there
from tests.verdicts import by_groups, by_magic, technology

from kolasieve.compiling import Compiled
from kolasieve.edges import Rules
from kolasieve.process import Process
from kolasieve.technology import Technology, find_technology

# A contact of both planes, and a second one of the upper and a third plane, which stacks on it.
TYPES = {"v": "low", "lo": "low", "hi": "high", "vv": "high", "up": "top"}
CONTACTS = ["v lo hi", "vv hi up", "stackable v vv vvv"]


def square(side, left=0, bottom=0):
    return left, bottom, left + side, bottom + side


def box(width, height, left=0, bottom=0):
    return left, bottom, left + width, bottom + height


def frame(inner, width):
    """Returns the rectangles that surround one, this wide."""
    left, bottom, right, top = inner
    return [
        (left - width, bottom - width, right + width, bottom), (left - width, top, right + width, top + width),
        (left - width, bottom, left, top), (right, bottom, right + width, top),
    ]


# What is left and right of a square of 4.
BESIDE = [box(3, 4, -3), box(3, 4, 4)]


def filled(inner, width):
    left, bottom, right, top = inner
    return [(left - width, bottom - width, right + width, top + width)]


# A rule line, its types with their planes, and cells: what each is, its rectangles, and whether Magic and we forbid it.
LIMITS = [
    ("width w 3", {"w": "low"}, [
        ("as wide", {"w": [box(3, 9)]}, False, False),
        ("narrower", {"w": [box(2, 9)]}, True, True),
        ("a neck as wide", {"w": [square(6), square(6, 3, 6)]}, False, False),
        ("a narrower neck", {"w": [square(6), square(6, 4, 6)]}, True, True),
        ("a narrower neck the other way", {"w": [square(6), square(6, -4, 6)]}, True, True),
    ]),
    ("width v 4", {}, [
        ("a contact as wide", {"v": [square(4)]}, False, False),
        ("a narrower contact", {"v": [box(3, 4)]}, True, True),
        ("a contact under a stack", {"v": [square(4)], "vv": [box(2, 4)]}, False, False),
        ("a narrower contact under a stack", {"v": [box(3, 4)], "vv": [box(2, 4)]}, True, True),
    ]),
    ("spacing s s 4 touching_ok", {"s": "low"}, [
        ("as far", {"s": [square(5), square(5, 9)]}, False, False),
        ("nearer", {"s": [square(5), square(5, 8)]}, True, True),
        ("nearer upward", {"s": [square(5), square(5, 0, 8)]}, True, True),
        ("nearer by corners", {"s": [square(5), square(5, 8, 8)]}, True, True),
        ("as far by corners", {"s": [square(5), square(5, 9, 8)]}, False, False),
    ]),
    ("spacing t1 t2 4 touching_ok", {"t1": "low", "t2": "low"}, [
        ("touching", {"t1": [square(5)], "t2": [square(5, 5)]}, False, False),
        ("as far", {"t1": [square(5)], "t2": [square(5, 9)]}, False, False),
        ("nearer", {"t1": [square(5)], "t2": [square(5, 8)]}, True, True),
        ("nearer by corners", {"t2": [square(5)], "t1": [square(5, 8, 8)]}, True, True),
        ("beyond what touches", {"t1": [square(2)], "t2": [box(2, 9, 2), square(5, 12)]}, False, False),
        ("seen from the second list alone", {"t2": [box(2, 5), box(1, 5, 3)], "t1": [square(5, 4)]}, True, True),
    ]),
    ("spacing i1 i2 4 touching_illegal", {"i1": "low", "i2": "low"}, [
        ("as far", {"i1": [square(5)], "i2": [square(5, 9)]}, False, False),
        ("nearer", {"i1": [square(5)], "i2": [square(5, 8)]}, True, True),
        ("touching", {"i1": [square(5)], "i2": [square(5, 5)]}, True, True),
        ("touching by corners", {"i1": [square(5)], "i2": [square(5, 5, 5)]}, True, True),
        ("as far by corners", {"i1": [square(5)], "i2": [square(5, 8, 9)]}, False, False),
    ]),
    ("spacing x1 x2 4 touching_illegal", {"x1": "low", "x2": "high"}, [
        ("as far", {"x1": [square(5)], "x2": [square(5, 9)]}, False, False),
        ("nearer", {"x1": [square(5)], "x2": [square(5, -8)]}, True, True),
        ("across", {"x1": [square(5)], "x2": [square(5, 3, 3)]}, True, True),
        ("within", {"x1": [square(20)], "x2": [square(5, 7, 7)]}, True, True),
        ("around", {"x1": [square(5, 7, 7)], "x2": [square(20)]}, True, True),
        ("the same squares", {"x1": [square(5)], "x2": [square(5)]}, True, True),
    ]),
    ("spacing r1 r2 4 surround_ok", {"r1": "low", "r2": "high"}, [
        ("as far", {"r1": [square(5)], "r2": [square(5, 9)]}, False, False),
        ("nearer", {"r1": [square(5)], "r2": [square(5, 8)]}, True, True),
        ("surrounded", {"r1": [square(5)], "r2": [square(9, -2, -2)]}, False, False),
        ("around", {"r1": [square(9)], "r2": [square(5, 2, 2)]}, False, True),
    ]),
    ("spacing c1 c2 4 corner_ok c3", {"c1": "low", "c2": "low", "c3": "low"}, [
        ("as far", {"c1": [square(5)], "c2": [square(5, 9)]}, False, False),
        ("nearer", {"c1": [square(5)], "c2": [square(5, 8)]}, True, True),
        ("nearer behind the third", {"c1": [square(5)], "c3": [box(2, 5, 5)], "c2": [square(5, 8)]}, False, False),
    ]),
    ("spacing y1,y2 y3 4 touching_illegal", {"y1": "low", "y2": "high", "y3": "low"}, [
        ("the first nearer", {"y1": [square(5)], "y3": [square(5, 8)]}, True, True),
        ("the second nearer, at which Magic doesn't look", {"y2": [square(5)], "y3": [square(5, 8)]}, False, False),
    ]),
    ("spacing yy1,v/high yy2 4 touching_illegal", {"yy1": "low", "yy2": "low"}, [
        ("the one whose plane is said nearer", {"v": [square(5)], "yy2": [square(5, 8)]}, True, True),
        ("the other nearer, at which Magic doesn't look", {"yy1": [square(5)], "yy2": [square(5, 8)]}, False, False),
    ]),
    ("edge e1 e2 3 e2 0 0", {"e1": "low", "e2": "low"}, [
        ("as deep", {"e1": [square(5)], "e2": [box(3, 5, 5)]}, False, False),
        ("less deep", {"e1": [square(5)], "e2": [box(2, 5, 5)]}, True, True),
        ("less deep to the left", {"e1": [square(5)], "e2": [box(2, 5, -2)]}, False, False),
    ]),
    ("edge l1 l2 3 ~(l3)/low l1,l2 3", {"l1": "low", "l2": "low", "l3": "low"}, [
        ("at the other flank", {"l1": [box(5, 10)], "l2": [box(5, 5, 5, 5)], "l3": [box(3, 3, 6, 1)]}, False, True),
        ("at Magic's flank", {"l1": [box(5, 10)], "l2": [box(5, 5, 5)], "l3": [box(3, 3, 6, 6)]}, True, True),
    ]),
    ("edge ~(ll1)/low ll1 3 ll1 ll1 3", {"ll1": "low"}, [
        ("as wide", {"ll1": [box(3, 9)]}, False, False),
        ("a narrower neck", {"ll1": [square(6), square(6, 4, 6)]}, True, True),
        ("a narrower neck the other way", {"ll1": [square(6), square(6, -4, 6)]}, True, True),
    ]),
    ("edge4way f1 f2 3 f2 0 0", {"f1": "low", "f2": "low"}, [
        ("as deep", {"f1": [square(5)], "f2": [box(3, 5, -3)]}, False, False),
        ("less deep", {"f1": [square(5)], "f2": [box(5, 2, 0, -2)]}, True, True),
    ]),
    ("edge4way g1 ~(g1)/low 2 ~(g2)/high ~(g1)/low 2", {"g1": "low", "g2": "high"}, [
        ("as far", {"g1": [square(5)], "g2": [square(5, 7)]}, False, False),
        ("nearer", {"g1": [square(5)], "g2": [square(5, 6)]}, True, True),
        ("nearer by corners", {"g1": [square(5)], "g2": [square(5, -6, -6)]}, True, True),
        ("within", {"g1": [square(9)], "g2": [square(5, 2, 2)]}, False, False),
    ]),
    ("edge4way gg1 ~(gg1)/low 2 gg2 ~(gg1)/low 2", {"gg1": "low", "gg2": "high"}, [
        ("as far", {"gg1": [square(5)], "gg2": filled(square(5), 2)}, False, False),
        ("less far", {"gg1": [square(5)], "gg2": filled(square(5), 1)}, True, True),
        ("less far at a corner", {"gg1": [square(5)], "gg2": [box(9, 7, -2, -2), box(8, 2, -2, 5)]}, True, True),
    ]),
    ("edge4way k1 k2 4 ~(k3)/low k2 2", {"k1": "low", "k2": "low", "k3": "low"}, [
        ("in the row", {"k1": [square(5)], "k2": [box(3, 5, 5)], "k3": [box(3, 5, 8)]}, True, True),
        ("beyond it", {"k1": [square(5)], "k2": [box(4, 5, 5)], "k3": [box(3, 5, 9)]}, False, False),
        ("in Magic's deeper block alone",
         {"k1": [square(5)], "k2": [box(4, 5, 5), box(5, 4, 0, 5)], "k3": [box(1, 3, 8, 5)]}, True, False),
    ]),
    ("edge4way j1,j2 j2,j3 3 j2,j3 0 0", {"j1": "low", "j2": "low", "j3": "low"}, [
        ("of one type", {"j2": [square(5)]}, False, False),
        ("as deep", {"j1": [square(5)], "j2": [box(3, 5, 5)]}, False, False),
        ("less deep", {"j1": [square(5)], "j2": [box(2, 5, 5)]}, True, True),
    ]),
    ("rect_only q", {"q": "low"}, [
        ("a rectangle", {"q": [box(5, 3)]}, False, False),
        ("an L", {"q": [box(5, 3), box(2, 3, 0, 3)]}, True, True),
        ("an L turned", {"q": [box(5, 3, 0, 3), box(3, 3, 2)]}, True, True),
        ("a T", {"q": [box(6, 3), box(2, 3, 2, 3)]}, True, True),
    ]),
    ("rectangle z 6 even", {"z": "low"}, [
        ("a rectangle", {"z": [box(4, 6)]}, False, False),
        ("an L", {"z": [box(4, 2), box(2, 2, 0, 2)]}, True, True),
        ("an odd rectangle", {"z": [box(4, 5)]}, True, False),
        ("too large a rectangle", {"z": [box(4, 8)]}, True, False),
    ]),
    ("overhang o2 o1 3", {"o1": "low", "o2": "low", "o3": "low"}, [
        ("as far", {"o1": [square(4)], "o2": [box(4, 3, 0, -3), box(4, 3, 0, 4)], "o3": BESIDE}, False, False),
        ("less far", {"o1": [square(4)], "o2": [box(4, 3, 0, -3), box(4, 2, 0, 4)], "o3": BESIDE}, True, True),
        ("not at all", {"o1": [square(4)], "o3": BESIDE}, True, True),
    ]),
    ("overhang p2 p1 3", {"p1": "below", "p2": "above"}, [
        ("as far on another plane", {"p2": [square(4)], "p1": [box(4, 10, 0, -3)]}, False, False),
        ("less far on another plane", {"p2": [square(4)], "p1": [box(4, 8, 0, -2)]}, True, False),
    ]),
    ("surround u1 u2 3 absence_ok", {"u1": "low", "u2": "low"}, [
        ("as wide", {"u1": [square(4)], "u2": frame(square(4), 3)}, False, False),
        ("narrower", {"u1": [square(4)], "u2": frame(square(4), 2)}, True, True),
        ("none", {"u1": [square(4)]}, False, False),
    ]),
    ("surround a1 a2 3 absence_illegal", {"a1": "low", "a2": "low"}, [
        ("as wide", {"a1": [square(4)], "a2": frame(square(4), 3)}, False, False),
        ("narrower", {"a1": [square(4)], "a2": frame(square(4), 2)}, True, True),
        ("none", {"a1": [square(4)]}, True, True),
    ]),
    ("surround b1 b2 3 absence_ok", {"b1": "low", "b2": "high"}, [
        ("as wide", {"b1": [square(4)], "b2": filled(square(4), 3)}, False, False),
        ("narrower", {"b1": [square(4)], "b2": filled(square(4), 2)}, True, True),
        ("none", {"b1": [square(4)]}, False, False),
    ]),
    ("surround d1 d2 3 absence_illegal", {"d1": "low", "d2": "high"}, [
        ("as wide", {"d1": [square(4)], "d2": filled(square(4), 3)}, False, False),
        ("narrower", {"d1": [square(4)], "d2": filled(square(4), 2)}, True, True),
        ("none", {"d1": [square(4)]}, True, True),
    ]),
    ("surround h1 h2 3 exact_surround", {"h1": "low", "h2": "low"}, [
        ("as wide", {"h1": [square(4)], "h2": frame(square(4), 3)}, False, False),
        ("narrower", {"h1": [square(4)], "h2": frame(square(4), 2)}, True, True),
        ("wider", {"h1": [square(4)], "h2": frame(square(4), 4)}, True, False),
    ]),
    ("surround n1 n2 3 directional", {"n1": "low", "n2": "low"}, [
        ("narrower", {"n1": [square(4)], "n2": frame(square(4), 2)}, True, False),
    ]),
    ("extend m1 m2 3", {"m1": "low", "m2": "low"}, [
        ("as far", {"m2": [square(4)], "m1": [box(3, 4, 4)]}, False, False),
        ("less far", {"m2": [square(4)], "m1": [box(2, 4, 4)]}, True, True),
        ("none", {"m2": [square(4)]}, False, False),
    ]),
    ("extend aa1 aa2 3 exact_extend", {"aa1": "low", "aa2": "low"}, [
        ("as far", {"aa2": [square(4)], "aa1": [box(3, 4, 4)]}, False, False),
        ("less far, which Magic 8.3.105 doesn't see", {"aa2": [square(4)], "aa1": [box(2, 4, 4)]}, False, True),
        ("farther", {"aa2": [square(4)], "aa1": [box(4, 4, 4)]}, True, False),
    ]),
    ("extend bb1 bb2 3", {"bb1": "low", "bb2": "high"}, [
        ("less far on another plane", {"bb2": [square(4)], "bb1": [box(6, 4)]}, True, False),
    ]),
    ("area cc 20 5", {"cc": "low"}, [
        ("as many squares", {"cc": [box(4, 5)]}, False, False),
        ("fewer", {"cc": [box(4, 4)]}, True, True),
        ("fewer, of a bent piece", {"cc": [box(4, 3), box(1, 4, 0, 3)]}, True, True),
        ("as many, of a bent piece", {"cc": [box(4, 3), box(2, 4, 0, 3)]}, False, False),
    ]),
    ("widespacing dd 8 dd 6 touching_ok", {"dd": "low"}, [
        ("nearer than wide types may be", {"dd": [square(12), square(12, 16)]}, True, False),
    ]),
    ("maxwidth ee 6 bend_illegal", {"ee": "low"}, [
        ("wider than may be", {"ee": [square(9)]}, True, False),
    ]),
    ("angles ff 90", {"ff": "low"}, [
        ("no triangle", {"ff": [square(5)]}, False, False),
    ]),
]


def why_of(rule):
    return "limit of " + rule.replace("/", " on ").replace("~", "not ")


@unittest.skipUnless(shutil.which("magic"), "magic isn't installed")
class Limits(unittest.TestCase):
    def test_cells_on_both_sides(self):
        types = dict(TYPES)
        for _, more, _ in LIMITS:
            types |= more
        rules = [f'{rule} "{why_of(rule)}"' for rule, _, _ in LIMITS]
        rules += ["stepsize 400", "option wide-width-noninclusive", "exact_overlap v", "no_overlap w s"]
        cells = [cell for _, _, cells in LIMITS for _, cell, _, _ in cells]
        with tempfile.TemporaryDirectory() as folder:
            folder = pathlib.Path(folder)
            path = folder / "limits.tech"
            path.write_text(technology("limits", types, rules, CONTACTS))
            Compiled(Technology(str(path))).write(folder / "limits")
            process = Process.load(folder / "limits")
            theirs = iter(by_magic(path, cells, folder))
            ours = iter(by_groups(process, cells))
            lines = path.read_text().splitlines()
        for rule, text, (_, _, cells) in zip(rules, map(why_of, [each[0] for each in LIMITS]), LIMITS):
            sides = {each["side"] for each in process.remarks if each["line"] == lines.index(f"  {rule}") + 1}
            for what, _, by_them, by_us in cells:
                with self.subTest(f"{rule}: {what}"):
                    expected = [{text} if each else set() for each in (by_them, by_us)]
                    self.assertEqual([next(theirs), next(ours)], expected)
                    # What differs is listed, but for the one fault of Magic.
                    if by_them != by_us and "Magic 8.3.105" not in what:
                        self.assertIn("less" if by_them else "more", sides)


@unittest.skipUnless(shutil.which("magic"), "magic isn't installed")
class PrintedRules(unittest.TestCase):
    def test_each_printed_rule_is_a_compiled_one(self):
        mosis = ("osu050/SCN3ME_SUBM.30", "osu018/SCN6M_SUBM.10")
        for word in ("scmos-tm", *(f"/usr/share/qflow/tech/{each}" for each in mosis)):
            with self.subTest(word):
                if not is_there(word):
                    self.skipTest(f"{word}.tech isn't installed")
                technology = Technology(find_technology(word))
                with tempfile.TemporaryDirectory() as folder:
                    text = printed_by_magic(technology.path, pathlib.Path(folder))
                compared = Comparison(technology, Rules(technology), text)
                self.assertEqual(compared.missing, [])
                self.assertGreater(sum(compared.kinds.values()), 7000)
                # Magic drops few lines because others cover them.
                self.assertLess(len(compared.dropped), 8)


# A technology in all the spellings that Magic reads.
SPELLINGS = """tech
  format 29
  spellings
end
planes
  low,l
  high,hi
  top
end
types
  low aa,a1,alpha
  -low bb,beta
  low cc
  high dd,delta
  high ee
  top ff
  low v,via
  high w
  alias ab aa,bb
end
contact
  v cc ee
  w ee ff
  stackable v w vw,both
end
styles
  styletype mos
end
aliases
  star *cc
  first alpha
  cuts v,w
end
compose
end
connect
end
cifoutput
end
cifinput
end
drc
  style one variants (x),(y)
  width ab 2 "two \\
    types"
  spacing alp,bet \\
# a comment between
    cc 3 touching_ok "beginnings"
  variants (x)
    width first 3 "the first variant"
  variants (y)
    width first 4 "the second variant"
  variants *
  width *ee/high 3 "contacts of a type"
  width star 3 "an alias of contacts"
  edge4way ~(*cc)/low aa,bb 2 ~v/l 0 0 "all but"
  edge4way (aa,(bb,cc))/l ~(aa,*cc,bb)/low 2 ~(cuts)/hi ~(aa,*cc,bb)/l 2 "nested" high
  spacing v dd 2 touching_illegal "a contact and a type of its plane"
  spacing w/high v/hi 2 touching_illegal "two contacts that stack"
  spacing cuts/hi delta 2 touching_ok "an alias on a plane"
  include more
  option wide-width-noninclusive
  style two
  scalefactor 2
  width aa 5 "scaled"
  area bb 9 5 "scaled area"
  rect_only cc "scaled to one"
end
extract
end
"""

INCLUDED = """  # Rules of another file.
  surround v *dd 1 absence_illegal "included"
  width v,both 4 "a stack by its name"
"""


@unittest.skipUnless(shutil.which("magic"), "magic isn't installed")
class Spellings(unittest.TestCase):
    def test_magic_reads_the_same_rules(self):
        for style, lines in ((None, 12), ("one(x)", 12), ("one(y)", 12), ("two", 3)):
            with self.subTest(style), tempfile.TemporaryDirectory() as folder:
                folder = pathlib.Path(folder)
                (folder / "spellings.tech").write_text(SPELLINGS)
                (folder / "more.tech").write_text(INCLUDED)
                technology = Technology(str(folder / "spellings.tech"), style)
                self.assertEqual(len([line for line in technology.rules if line.words[0] != "option"]), lines)
                text = printed_by_magic(technology.path, folder, style)
                compared = Comparison(technology, Rules(technology), text)
                self.assertEqual(compared.missing, [])
                self.assertGreater(sum(compared.kinds.values()), 5 * lines)


if __name__ == "__main__":
    unittest.main()
