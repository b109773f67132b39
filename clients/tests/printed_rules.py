"""The rules that Magic itself makes of a technology, as its `drc printrules` lists them, beside the compiled ones.

    /usr/bin/python3 -m tests.printed_rules TECH ..        shows how many there are of each kind
"""

import pathlib
import re
import subprocess
import sys
import tempfile
from collections import Counter, defaultdict, namedtuple

import tests.serving  # where kolasieve is found
from kolasieve.edges import Rules
from kolasieve.technology import SPACE, Technology, find_technology

# A printed rule: between two types, in the direction from the first to the second.
Printed = namedtuple("Printed", "one two distance corner_distance fine check corner flags")

HEAD = re.compile(r"(?:(\S+) +(\S+) +)? *(\d+) x (\d+)   (\S+) \((\S+)\)$")

# What a printed rule is beside the compiled ones.
SAME = "the same"
WIDER = "the same, by one flank or fewer directions"
ELSEWHERE = "the same, on another plane of its contacts"
MIRRORED = "looked at from the other list"
WITHIN = "what lies within the other list"
VOID = "never broken, for the contact itself lies there"
AREA = "area"
MISSING = "not found"


def printed_by_magic(path, folder, style=None):
    """Returns the text of `drc printrules` for a technology file, in a style of it."""
    words = ["magic", "-dnull", "-noconsole", "-rcfile", "/dev/null", "-T", str(path).removesuffix(".tech")]
    script = (f"drc style {style}\n" if style else "") + "drc printrules printed\nquit -noprompt\n"
    subprocess.run(words, input=script, cwd=folder, capture_output=True, text=True, check=True)
    return (folder / "printed").read_text()


def read(technology, text):
    """Yields the printed rules. Magic cuts names to eight bytes."""
    numbers = {each.short[:8]: each.number for each in technology.types}

    def types(word):
        return frozenset(numbers[name] for name in word.split(",") if name in numbers)

    pair, head = None, None
    for block in re.split(r"\n(?=.{19}\d+ x \d+   )", text.partition("\nTile type ")[0].partition("\nTypes that ")[0]):
        lines = block.strip("\n").split("\n")
        head = HEAD.match(lines[0].strip())
        pair = head.groups()[:2] if head[1] else pair
        distances, fine, check = (int(head[3]), int(head[4])), types(head[5]), head[6]
        flags = set(lines[2].split()) if len(lines) > 2 else set()
        one, two = (numbers[name] for name in (reversed(pair) if "reverse" in flags else pair))
        yield Printed(one, two, *distances, fine, check, types(lines[1].strip()), flags)


class Comparison:
    """How many printed rules there are of each kind, and which compiled rules Magic drops as covered by others."""

    def __init__(self, technology, rules, text):
        self.technology = technology
        self.rules = rules
        self.kinds = Counter()
        self.missing = []
        self.met = set()
        self.here = defaultdict(list)
        self.there = defaultdict(list)
        self.mirrored = defaultdict(list)
        self.spacings = []
        for edge in rules.edges:
            self._index(edge)
        for printed in read(technology, text):
            kind, edges = self.kind(printed)
            self.kinds[kind] += 1
            self.met.update(edges)
            if kind == MISSING:
                self.missing.append(printed)
        self.dropped = [edge for edge in rules.edges if edge not in self.met]

    def _index(self, edge):
        self.here[edge.check, edge.distance, edge.fine].append(edge)
        others = [self.technology.planes_of(each) for each in edge.fine] if edge.trigger == edge.check else []
        for plane in set.intersection(*map(set, others)) - {edge.check} if others else ():
            types = self.technology.seen(plane)
            fine = frozenset(each for each in types if self.seen(each, edge.check) in edge.fine)
            self.there[plane, edge.distance, fine].append(edge)
        if edge.line.words[0] == "spacing":
            self.spacings.append(edge)
            others = self.technology.seen(edge.trigger) - edge.one
            self.mirrored[edge.trigger, edge.distance, others].append(edge)

    def seen(self, number, plane):
        """Returns what a type is on a plane: itself, the contact of a stack that lies there, or None."""
        each = self.technology.types[number]
        if plane in each.planes:
            return number
        return next((part for part in each.parts if plane in self.technology.types[part].planes), None)

    def kind(self, printed):
        """Returns of which kind a printed rule is, and the compiled rules that say it."""
        if "area" in printed.flags:
            return AREA if any(printed.fine >= area.types for area in self.rules.areas) else MISSING, []
        kinds = [self.kind_at(printed, *place) for place in self.places(printed)]
        return next((found for found in kinds if found[0] != MISSING), kinds[0])

    def places(self, printed):
        """Yields the plane that a rule checks with the types that are fine, then others with all types that aren't."""
        bad = self.technology.on(printed.check) - printed.fine
        yield printed.check, self.technology.seen(printed.check) - bad
        for plane in self.technology.planes:
            if plane != printed.check and bad and bad <= self.technology.on(plane) - {SPACE}:
                yield plane, self.technology.seen(plane) - bad

    def kind_at(self, printed, check, fine):
        key = check, printed.distance, fine
        for edge in self.here[key]:
            if self.is_same(printed, edge):
                both = "both-corners" in printed.flags
                same = SAME if both == edge.four_ways and (both or not edge.corner) else WIDER
                return same if check == printed.check else ELSEWHERE, [edge]
        for edge in self.here[key] + self.there[key]:
            if self.is_elsewhere(printed, edge):
                return ELSEWHERE, [edge]
        found = [edge for edge in self.mirrored[key] if self.is_mirrored(printed, edge)]
        if found:
            return MIRRORED, found
        found = [edge for edge in self.spacings if self.is_within(printed, check, fine, edge)]
        if found:
            return WITHIN, found
        is_void = printed.distance == 1 and not printed.corner and self.seen(printed.two, check) in fine
        return VOID if is_void else MISSING, []

    def is_same(self, printed, edge):
        one, two = self.seen(printed.one, edge.trigger), self.seen(printed.two, edge.trigger)
        return one in edge.one and two in edge.two and self.is_same_corner(printed, edge)

    def is_same_corner(self, printed, edge):
        corner = printed.corner & self.technology.seen(edge.trigger)
        if not edge.corner_distance:
            return not corner or not printed.corner_distance
        return corner == edge.corner and printed.corner_distance == edge.corner_distance

    def is_elsewhere(self, printed, edge):
        """Whether contacts of the rule have this edge on a plane that the compiled rule needn't look at."""
        one, two = self.seen(printed.one, edge.trigger), self.seen(printed.two, edge.trigger)
        inside, outside = (printed.one, two) if one in edge.one and two is None else (printed.two, one)
        if outside is not None or not (one in edge.one or two in edge.two):
            return False
        return len(self.technology.planes_of(inside)) > 1

    def is_mirrored(self, printed, edge):
        """Whether the rule is that of a spacing, seen from the list that the compiled rule checks."""
        other = self.technology.seen(edge.check) - edge.fine
        return self.seen(printed.one, edge.check) in other and self.seen(printed.two, edge.check) not in other

    def is_within(self, printed, check, fine, edge):
        """Whether the rule is about what lies within the first list, which is looked at from the second one."""
        if printed.distance != 1 or printed.corner or edge.distance != 1 or edge.corner:
            return False
        other = self.technology.seen(edge.trigger) - edge.two
        inside = self.technology.seen(edge.check) - edge.fine
        return check == edge.trigger and fine == other and self.seen(printed.two, edge.check) in inside


def main():
    """Shows the numbers for technologies, as rows of a table."""
    kinds = (SAME, WIDER, ELSEWHERE, MIRRORED, WITHIN, VOID, AREA, MISSING)
    print("technology", "printed", *kinds, "dropped by Magic", sep=" | ")
    for word in sys.argv[1:]:
        technology = Technology(find_technology(word))
        with tempfile.TemporaryDirectory() as folder:
            text = printed_by_magic(technology.path, pathlib.Path(folder))
        compared = Comparison(technology, Rules(technology), text)
        counts = [compared.kinds[kind] for kind in kinds]
        dropped = f"{len(compared.dropped)} of {len(compared.rules.edges)}"
        print(pathlib.Path(technology.path).stem, sum(counts), *counts, dropped, sep=" | ")


if __name__ == "__main__":
    main()
