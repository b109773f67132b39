"""Lines of a `drc` section as edge rules on one plane or two, as magicd has them, with what they can't say exactly.

The rules are those that Magic 8.3 itself makes of a line (Maintainer's Manual 2; `drc printrules` lists them), but for
which squares of a violation they mark. docs/PROCESS.md has what each keyword becomes.
"""

from dataclasses import dataclass

from kolasieve.forms import CELLS, CLIENT, LESS, LONGEST, MORE
from kolasieve.technology import SPACE

SIDES = {
    MORE: "may mark what the rule allows",
    LESS: "may miss what the rule forbids",
    CLIENT: "are checked by the client, without a proof",
    CELLS: "speak of different cells, and of no flat layout",
}


TWO_PLANES = "not checked: whether an edge counts depends on types of two planes beside it"


@dataclass(frozen=True)
class Edge:
    """An edge rule: between `one` and `two` on the plane `trigger`, `fine` types within the distances on `check`."""

    line: object
    why: str
    trigger: str
    check: str
    one: frozenset
    two: frozenset
    distance: int
    fine: frozenset
    corner: frozenset
    corner_distance: int
    four_ways: bool

    @property
    def planes(self):
        return frozenset((self.trigger, self.check))


@dataclass(frozen=True)
class Remark:
    """What of a line isn't said exactly, or isn't said at all."""

    line: object
    side: str
    reason: str


@dataclass(frozen=True)
class Area:
    """The squares that a connected piece of these types must have at least, on a plane."""

    line: object
    why: str
    plane: str
    types: frozenset
    squares: int


@dataclass(frozen=True)
class Overlap:
    """A rule on types of different cells: `exact_overlap` has one list, `no_overlap` two."""

    line: object
    keyword: str
    types: tuple


class Rules:
    """The edge rules of a technology, its rules of areas and of overlaps, and what isn't exact."""

    def __init__(self, technology, shorten=False):
        self.technology = technology
        self.shorten = shorten
        self.edges = []
        self.areas = []
        self.overlaps = []
        self.remarks = []
        for line in technology.rules:
            self._compile(line)

    def _compile(self, line):
        keyword = self._keyword(line)
        least, most, compile_line = KEYWORDS[keyword]
        if not least <= len(line.words) - 1 <= most:
            raise line.fault(f"{keyword} has {least}" + (f" to {most}" if least < most else "") + " words")
        if compile_line is not None:
            before = self._count()
            compile_line(self, line, *line.words[1:])
            if self._count() == before:
                self.remark(line, LESS, "it looks at no edge, since a list is empty")

    def _count(self):
        return sum(map(len, (self.edges, self.areas, self.overlaps, self.remarks)))

    @staticmethod
    def _keyword(line):
        word = line.words[0]
        found = [word] if word in KEYWORDS else [each for each in KEYWORDS if each.startswith(word)]
        if len(found) != 1:
            raise line.fault(f"unknown rule {word}")
        return found[0]

    def remark(self, line, side, reason):
        self.remarks.append(Remark(line, side, reason))

    # Words of a line.

    def _distance(self, word, line, least=1):
        """Returns a distance in the scale of the section; where that is asked for, at most the longest."""
        value = self._scaled(self.technology.number(word, line, 0, 10**6))
        if value > LONGEST and self.shorten:
            self.remark(line, LESS, f"a distance of {value} is taken as {LONGEST}")
            return LONGEST
        if not least <= value <= LONGEST:
            raise line.fault(f"a distance of {value} isn't in {least} to {LONGEST}")
        return value

    def _scaled(self, number, power=1):
        """Returns a distance of the file in squares, rounded up; a power of 2 for an area."""
        parts, units = self.technology.scale
        return -(-number * units**power // parts**power)

    def _list(self, text, line):
        """Returns the types of a list that lie together on one plane or more, space only where it has a plane."""
        listed = self.technology.listed(text, line)
        if not listed.planes:
            raise line.fault(f"the types {text} don't lie on one plane")
        if SPACE in listed.types and len(listed.planes) > 1:
            raise line.fault(f"space has no plane in {text}")
        return listed

    def _lowest(self, listed):
        return self.technology.lowest(listed.planes)

    def _shared(self, one, other):
        """Returns a plane of each list, the same one where there is one."""
        both = self.technology.lowest(set(one.planes) & set(other.planes))
        return (both, both) if both else (self._lowest(one), self._lowest(other))

    def _add(self, line, why, trigger, check, one, two, distance, fine, corner, corner_distance, four_ways=True):
        """Adds an edge rule, restricted to its planes, without edges between two squares of one type."""
        on, below = self.technology.seen(trigger), self.technology.seen(check)
        for types, plane in ((one, trigger), (two, trigger), (corner, trigger), (fine, check)):
            self._look_for_stacks(line, types, plane)
        one, two, fine, corner = one & on, two & on, fine & below, corner & on
        if not corner or not corner_distance:
            corner, corner_distance = frozenset(), 0
        for first, second in apart(one, two):
            self.edges.append(
                Edge(line, why, trigger, check, first, second, distance, fine, corner, corner_distance, four_ways)
            )

    def _look_for_stacks(self, line, types, plane):
        """Remarks a list that has a stacked contact but not its part, on a plane where it is seen as that part."""
        for each in self.technology.types:
            for part in each.parts:
                contact = self.technology.types[part]
                if plane in contact.planes and plane not in each.planes and (each.number in types) != (part in types):
                    self.remark(line, LESS, f"on {plane}, {each.name} is seen as {contact.name}")

    def _look_for_shared_stacks(self, line, types):
        """Remarks stacks of contacts that mustn't touch: Magic marks these beside some types."""
        for number in sorted(types):
            if self.technology.types[number].parts:
                self.remark(line, LESS, f"{self.technology.types[number].name} itself isn't marked")

    # Keywords.

    def _width(self, line, types, distance, why):
        listed, distance = self._list(types, line), self._distance(distance, line)
        plane = self._lowest(listed)
        others = self.technology.on(plane) - listed.types
        self._add(line, why, plane, plane, others, listed.types, distance, listed.types, listed.types, distance, False)

    def _spacing(self, line, one, other, distance, adjacency, *rest):
        if adjacency == "corner_ok" and len(rest) == 2:
            self._spacing_of_corners(line, one, other, distance, *rest)
            return
        if len(rest) != 1:
            raise line.fault("spacing has 5 words")
        (why,) = rest
        distance = self._distance(distance, line)
        first, second = (self.technology.listed(text, line) for text in (one, other))
        if adjacency not in ("touching_ok", "touching_illegal", "surround_ok"):
            raise line.fault(f"unknown adjacency {adjacency}")
        if not first.planes or not second.planes:
            self._spacing_of_mixed(line, (one, first), (other, second), distance, adjacency, why)
            return
        first, second = self._list(one, line), self._list(other, line)
        together = set(first.planes) & set(second.planes)
        if adjacency == "touching_illegal":
            if one != other and len({*first.planes, *second.planes}) > 1:
                self._look_for_shared_stacks(line, first.types & second.types)
            self._touching_illegal(line, why, first.types, second.types, *self._shared(first, second), distance)
        elif adjacency == "surround_ok" and not together:
            self._surround_ok(line, why, first, second, distance)
        elif together:
            self._touching_ok(line, why, first.types, second.types, self.technology.lowest(together), distance)
        else:
            raise line.fault(f"the types {one} and {other} don't lie on one plane")

    def _touching_ok(self, line, why, one, other, plane, distance):
        on = self.technology.on(plane)
        rest = on - one - other
        self._add(line, why, plane, plane, one, rest, distance, on - other, rest, distance)
        if one != other:
            self._add(line, why, plane, plane, other, rest, distance, on - one, rest, distance)

    def _touching_illegal(self, line, why, one, other, trigger, check, distance):
        on, below = self.technology.on(trigger), self.technology.on(check)
        self._add(line, why, trigger, check, one, on - one, distance, below - other, on - one, distance)
        if trigger != check:
            # What lies within the first list, of which no edge of it tells.
            nothing, deep = frozenset(), self._scaled(1)
            self._add(line, why, check, trigger, below - other, other, deep, on - one, nothing, 0, four_ways=False)

    def _spacing_of_mixed(self, line, first, second, distance, adjacency, why):
        """Takes a list of types of several planes as Magic does: of each list only what lies on its first plane."""
        if adjacency != "touching_illegal":
            raise line.fault(f"the types of {adjacency} don't lie on one plane")
        planes, taken = [], []
        for text, listed in (first, second):
            for plane in listed.spread:
                on = listed.types & self.technology.on(plane)
                if any(on & self.technology.on(other) - {SPACE} for other in listed.spread if other != plane):
                    raise line.fault(f"types of {text} lie on several planes")
            planes.append(self.technology.lowest(listed.spread))
            taken.append(listed.types & self.technology.on(planes[-1]))
            left = sorted(listed.types - taken[-1])
            if left and not listed.planes:
                names = ", ".join(self.technology.types[number].name for number in left)
                self.remark(line, LESS, f"as Magic looks at {planes[-1]} alone, so not at {names}")
        self._touching_illegal(line, why, *taken, *planes, distance)

    def _surround_ok(self, line, why, first, second, distance):
        trigger, check = self._lowest(second), self._lowest(first)
        rest = self.technology.on(trigger) - second.types
        fine = self.technology.on(check) - first.types
        self._add(line, why, trigger, check, second.types, rest, distance, fine, rest, distance)
        self.remark(line, MORE, "what crosses a border of the second list is too near, too")

    def _spacing_of_corners(self, line, one, other, distance, third, why):
        lists = [self._list(text, line) for text in (one, other, third)]
        plane = self.technology.lowest(set.intersection(*(set(listed.planes) for listed in lists)))
        if plane is None:
            raise line.fault("the types of corner_ok don't lie on one plane")
        distance, on = self._distance(distance, line), self.technology.on(plane)
        rest = on - lists[0].types - lists[2].types
        self._add(line, why, plane, plane, lists[0].types, rest, distance, on - lists[1].types, rest, distance)

    def _edge(self, line, one, two, distance, fine, corner, corner_distance, why, plane=None):
        technology = self.technology
        lists = [technology.listed(text, line) for text in (one, two, corner)]
        trigger = technology.lowest(set(lists[0].planes) & set(lists[1].planes))
        if trigger is None:
            raise line.fault(f"the types {one} and {two} don't lie on one plane")
        if trigger not in lists[2].planes:
            raise line.fault(f"the corner types {corner} don't lie on {trigger}")
        check = self._check_plane(line, fine, trigger, plane and technology.plane(plane, line))
        distance, corner_distance = self._distance(distance, line), self._distance(corner_distance, line, least=0)
        on = technology.on(trigger)
        first, second, at_corner = (listed.types & on for listed in lists)
        four_ways = self._keyword(line) == "edge4way"
        fine = technology.listed(fine, line).types
        # Of the gaps between the types of one list, Magic finds from other edges what it doesn't look for at one flank.
        is_gap = trigger == check and second == at_corner == fine & on == on - first and distance == corner_distance
        if not is_gap:
            self._remark_corners(line, first, at_corner, on, distance, corner_distance, four_ways)
        self._add(line, why, trigger, check, first, second, distance, fine, at_corner, corner_distance, four_ways)

    def _check_plane(self, line, text, trigger, said):
        """Returns the plane of the types that are fine, of which `space` and `0` say none."""
        listed = self.technology.listed(text, line)
        if listed.types == {SPACE} and len(listed.planes) > 1:
            return said or trigger
        if text == "0":
            return trigger
        if not listed.planes:
            raise line.fault(f"the types {text} don't lie on one plane")
        if said and said not in listed.planes:
            raise line.fault(f"the types {text} don't lie on {said}")
        if SPACE in listed.types:
            return self._lowest(listed)
        return trigger if trigger in listed.planes else said or self._lowest(listed)

    def _remark_corners(self, line, one, corner, on, distance, corner_distance, four_ways):
        if not corner or not corner_distance:
            return
        if not four_ways:
            self.remark(line, MORE, "Magic looks at one flank of an edge, magicd at both")
        if corner_distance != distance:
            side = LESS if corner_distance < distance else MORE
            size = f"{distance} deep and {corner_distance} wide, here {corner_distance} by {corner_distance}"
            self.remark(line, side, f"Magic's block at a corner is {size}")
        if corner_distance > 1 and one & corner and corner != on:
            self.remark(line, MORE, "corners are looked at along an edge, too, and not at its ends alone")

    def _rectangular(self, line, why, listed):
        plane = self._lowest(listed)
        on = self.technology.on(plane)
        others, deep = on - listed.types, self._scaled(1)
        self._add(line, why, plane, plane, listed.types, others, deep, others, on, deep)

    def _rect_only(self, line, types, why):
        self._rectangular(line, why, self._list(types, line))

    def _rectangle(self, line, types, most, parity, why):
        if parity not in ("any", "even", "odd"):
            raise line.fault(f"unknown parity {parity}")
        self._rectangular(line, why, self._list(types, line))
        if self.technology.number(most, line, 0, 10**6):
            size = f"at most {most} squares" + ("" if parity == "any" else f", {parity}")
            self.remark(line, LESS, f"that it is a rectangle is checked, and not that its sides are {size}")

    def _overhang(self, line, outside, inside, distance, why):
        """The words are the wrong way round: what is outside comes first."""
        first, second = self._list(inside, line), self._list(outside, line)
        distance = self._distance(distance, line)
        plane = self.technology.lowest(set(first.planes) & set(second.planes))
        if plane is None:
            self.remark(line, LESS, TWO_PLANES)
            return
        both = first.types | second.types
        corner = both if distance == 1 else second.types - first.types
        beside = second.types | {SPACE}
        self._add(line, why, plane, plane, first.types, beside, distance, both, corner, distance)
        if distance > 1:
            self.remark(line, LESS, "corners count only beside types of the first list")

    def _surround(self, line, inside, outside, distance, presence, why):
        first, second = self._list(inside, line), self._list(outside, line)
        distance = self._distance(distance, line)
        if presence.startswith("directional"):
            self.remark(line, LESS, "not checked: which edges count depends on the opposite ones")
            return
        if not presence.startswith("exact_") and presence not in ("absence_ok", "absence_illegal"):
            raise line.fault(f"unknown presence {presence}")
        within, around = self._shared(first, second)
        beside = self.technology.on(around) - second.types
        fine = self.technology.on(within) - first.types
        self._add(line, why, around, within, beside, second.types, distance, fine, second.types, distance)
        if presence == "absence_ok":
            return
        if presence != "absence_illegal":
            self.remark(line, LESS, "that it goes this far around is checked, and not that it goes no farther")
        rest = self.technology.on(within) - first.types
        nothing = frozenset()
        if within == around:
            rest -= second.types
            self._add(line, why, within, within, first.types, rest, distance, nothing, rest, distance)
        else:
            self._add(line, why, within, around, first.types, rest, distance, second.types, rest, distance)

    def _extend(self, line, outer, base, distance, *rest):
        if len(rest) == 2 and not rest[0].startswith("exact_"):
            raise line.fault(f"unknown word {rest[0]}")
        first, second = self._list(outer, line), self._list(base, line)
        distance = self._distance(distance, line)
        plane = self.technology.lowest(set(first.planes) & set(second.planes))
        if plane is None:
            self.remark(line, LESS, TWO_PLANES)
            return
        both, nothing = first.types | second.types, frozenset()
        self._add(line, rest[-1], plane, plane, second.types, first.types, distance, both, nothing, 0)
        if len(rest) == 2:
            self.remark(line, LESS, "that it goes this far is checked, and not that it goes no farther")

    def _area(self, line, types, squares, horizon, why):
        listed = self._list(types, line)
        plane = self._lowest(listed)
        squares = self._scaled(self.technology.number(squares, line, 0, 10**9), power=2)
        self.areas.append(Area(line, why, plane, listed.types & self.technology.on(plane), squares))
        self.remark(line, CLIENT, "the squares of connected pieces are counted")

    def _overlap(self, line, *lists):
        types = tuple(self.technology.listed(text, line).types for text in lists)
        self.overlaps.append(Overlap(line, self._keyword(line), types))
        self.remark(line, CELLS, "overlaps of cells")

    def _angles(self, line, *words):
        self.remark(line, LESS, "not checked: a layout of rectangles has no other angles")

    def _not_said(self, line, *words):
        self.remark(line, LESS, "not checked: no edge rule says it")


def apart(one, two):
    """Yields pairs of sets of types that have each type of the first with each other type of the second."""
    both = one & two
    if two and one - both:
        yield one - both, two
    if both and two - both:
        yield both, two - both
    numbers = sorted(both)
    for bit in range(max(len(numbers) - 1, 0).bit_length()):
        with_bit = frozenset(number for index, number in enumerate(numbers) if index >> bit & 1)
        yield with_bit, both - with_bit
        yield both - with_bit, with_bit


# How many words follow each keyword, and what its lines are compiled by.
KEYWORDS = {
    "angles": (3, 3, Rules._angles),
    "edge": (7, 8, Rules._edge),
    "edge4way": (7, 8, Rules._edge),
    "exact_overlap": (1, 1, Rules._overlap),
    "extend": (4, 5, Rules._extend),
    "no_overlap": (2, 2, Rules._overlap),
    "option": (1, 1, None),
    "overhang": (4, 4, Rules._overhang),
    "rect_only": (2, 2, Rules._rect_only),
    "spacing": (5, 6, Rules._spacing),
    "stepsize": (1, 1, None),
    "surround": (5, 5, Rules._surround),
    "width": (3, 3, Rules._width),
    "widespacing": (6, 7, Rules._not_said),
    "area": (4, 4, Rules._area),
    "maxwidth": (3, 4, Rules._not_said),
    "off_grid": (3, 3, Rules._not_said),
    "cifstyle": (1, 1, None),
    "cifwidth": (3, 3, Rules._not_said),
    "cifspacing": (5, 5, Rules._not_said),
    "cifarea": (4, 4, Rules._not_said),
    "cifmaxwidth": (4, 4, Rules._not_said),
    "rectangle": (4, 4, Rules._rectangle),
}
