"""Edge rules parted into groups, each of which fits one magicd: at most 4 planes, 63 types besides space, 128 rules."""

import functools
import itertools
import operator
from collections import defaultdict

PLANES = 4
TYPES = 63
RULES = 128

# How many sets of planes are tried for each number of groups before the search goes on to the next number.
STEPS = 1500


class Group:
    """Some planes with rules on them. Where their types are too many, those that no rule tells apart are one type."""

    def __init__(self, technology, planes):
        self.technology = technology
        self.planes = planes
        self.edges = []

    @property
    def is_merged(self):
        return sum(len(self.technology.seen(plane)) - 1 for plane in self.planes) > TYPES

    def classes(self):
        """Returns the sets of types of each plane that are one type here, the one with space first."""
        if not self.is_merged:
            return {plane: [(number,) for number in sorted(self.technology.seen(plane))] for plane in self.planes}
        return {plane: told_apart(self.technology, plane, self.edges) for plane in self.planes}

    def takes(self, edge):
        """Adds the edge rule, and returns whether it fits."""
        planes = {*self.planes, *edge.planes}
        if len(planes) > PLANES or len(self.edges) == RULES:
            return False
        before = self.planes
        self.planes = tuple(plane for plane in self.technology.planes if plane in planes)
        self.edges.append(edge)
        if size(self.classes()) <= TYPES:
            return True
        self.planes = before
        self.edges.pop()
        return False


def size(classes):
    """Returns how many types besides space there are."""
    return sum(len(each) - 1 for each in classes.values())


def told_apart(technology, plane, edges):
    """Returns the sets of a plane's types that these rules don't tell apart."""
    lists = []
    for edge in edges:
        if edge.trigger == plane:
            lists += [edge.one, edge.two, edge.corner]
        if edge.check == plane:
            lists.append(edge.fine)
    classes = defaultdict(list)
    for number in sorted(technology.seen(plane)):
        classes[tuple(number in types for types in lists)].append(number)
    return [tuple(numbers) for numbers in classes.values()]


def part(technology, edges):
    """Returns groups that have all these rules, as few as were found, and how many there must be at least."""
    needs = defaultdict(list)
    for edge in edges:
        needs[edge.planes].append(edge)
    least = -(-len(edges) // RULES)
    candidates = Candidates(technology, needs)
    covers, bound = candidates.fewest()
    groups = [Group(technology, planes) for planes in covers]
    for edge in deal(needs, groups):
        if not any(group.takes(edge) for group in groups):
            groups.append(Group(technology, ()))
            groups[-1].takes(edge)
    # Planes that a group took for what was left over can have their share of the other rules, too.
    groups = dealt(technology, needs, [group.planes for group in groups]) or groups
    groups = less_merged(technology, needs, groups)
    return [in_order(group, edges) for group in groups if group.edges], max(least, bound)


def deal(needs, groups):
    """Gives each rule to the group with the fewest rules of those with its planes; returns what no group can take."""
    left = []
    for need in sorted(needs, key=lambda need: (-len(need), sum(need <= set(group.planes) for group in groups))):
        for edge in needs[need]:
            fitting = [group for group in groups if need <= set(group.planes) and len(group.edges) < RULES]
            if fitting:
                min(fitting, key=lambda group: len(group.edges)).edges.append(edge)
            else:
                left.append(edge)
    return left


def dealt(technology, needs, sets):
    """Returns groups of these planes with all rules, or None where they don't fit."""
    groups = [Group(technology, planes) for planes in sets]
    if not deal(needs, groups) and all(size(group.classes()) <= TYPES for group in groups):
        return groups
    return None


def less_merged(technology, needs, groups):
    """Returns groups of which fewer have merged types, where a plane of such a one fits another; else the same."""
    for place, group in enumerate(groups):
        for plane, other in itertools.product(group.planes if group.is_merged else (), range(len(groups))):
            sets = [{*each.planes} for each in groups]
            sets[place].remove(plane)
            sets[other].add(plane)
            if max(map(len, sets)) > PLANES or not all(any(need <= planes for planes in sets) for need in needs):
                continue
            ordered = [tuple(each for each in technology.planes if each in planes) for planes in sets]
            found = dealt(technology, needs, ordered)
            if found and sum(each.is_merged for each in found) < sum(each.is_merged for each in groups):
                return found
    return groups


def in_order(group, edges):
    """Gives a group's rules the order of their lines, and drops planes that none looks at."""
    places = {id(edge): place for place, edge in enumerate(edges)}
    group.edges.sort(key=lambda edge: places[id(edge)])
    used = set().union(*(edge.planes for edge in group.edges))
    group.planes = tuple(plane for plane in group.planes if plane in used)
    return group


class Candidates:
    """The sets of planes that a group can have, as bits of the sets of planes that rules need."""

    def __init__(self, technology, needs):
        self.technology = technology
        self.needs = needs
        self.planes = [plane for plane in technology.planes if any(plane in need for need in needs)]
        self.sizes = {plane: len(technology.seen(plane)) - 1 for plane in self.planes}
        self.signs = {(plane, need): self._sign(plane, need) for need in needs for plane in need}
        greatest = [need for need in needs if not any(need < other for other in needs)]
        self.plain, self.merged, self.others = self._possible(greatest)
        self.bits = {need: 1 << place for place, need in enumerate(greatest)}
        self.stars = [sum(bit for need, bit in self.bits.items() if plane in need) for plane in self.planes]
        self.plain_masks = {planes: self._mask(planes) for planes in self.plain}
        self.masks = {**self.plain_masks, **{planes: self._mask(planes) for planes in self.merged}}

    def _sign(self, plane, need):
        """Returns a number for each type of a plane, the same where rules of these planes don't tell types apart."""
        classes = told_apart(self.technology, plane, self.needs[need])
        return {number: place for place, numbers in enumerate(classes) for number in numbers}

    def _possible(self, greatest):
        """Returns the sets of planes that fit, those that do once types that no rule tells apart are one, others."""
        plain, merged, others = [], [], []
        for count in range(1, PLANES + 1):
            for planes in itertools.combinations(self.planes, count):
                if not any(need <= set(planes) for need in greatest):
                    continue
                if sum(self.sizes[plane] for plane in planes) <= TYPES:
                    plain.append(planes)
                elif self._merged_size(planes) <= TYPES:
                    merged.append(planes)
                else:
                    others.append(planes)
        return plain, merged, others

    def _merged_size(self, planes):
        within = [need for need in self.needs if need <= set(planes)]
        total = 0
        for plane in planes:
            signs = [self.signs[plane, need] for need in within if plane in need]
            total += len({tuple(sign[number] for sign in signs) for number in self.technology.seen(plane)}) - 1
        return total

    def _mask(self, planes):
        within = set(planes)
        return sum(bit for need, bit in self.bits.items() if need <= within)

    def fewest(self):
        """Returns the fewest sets of planes that were found to have all needs that can be had, and a lower bound.

        The bound is that of sets with any number of types, since a group needn't have all rules of its planes.
        """
        masks = greatest_of(self.masks.values())
        every = greatest_of([*masks, *map(self._mask, self.others)])
        full, needed = union(masks), union(every)
        bound = Search(every, self.stars).bound(needed)
        for count in itertools.count(bound):
            search = Search(masks, self.stars)
            chosen = search.cover(full, count)
            if chosen is not None:
                chosen = Search(greatest_of(self.plain_masks.values()), self.stars).cover(full, count) or chosen
                return [self._smallest(mask) for mask in chosen], bound
            if search.steps and bound == count and Search(every, self.stars).shows_none(needed, count):
                bound += 1

    def _smallest(self, mask):
        """Returns the planes with the fewest types that have these needs."""
        fitting = [planes for planes, each in self.masks.items() if mask & ~each == 0]
        return min(fitting, key=lambda planes: sum(self.sizes[plane] for plane in planes))


class Search:
    """A search for few masks that have all bits, which gives up once its steps are used up."""

    def __init__(self, masks, stars):
        self.masks = masks
        self.stars = stars
        self.steps = STEPS

    def bound(self, left):
        """Returns how many masks there must be at least: of a plane's pairs one has at most 3, of all pairs 6."""
        pairs = max(((left & star).bit_count() for star in self.stars), default=0)
        most = max(((left & mask).bit_count() for mask in self.masks), default=1)
        return max(-(-pairs // (PLANES - 1)), -(-left.bit_count() // max(most, 1)))

    def cover(self, left, count, masks=None):
        """Returns at most so many masks that have all bits that are left, or None."""
        if not left:
            return []
        masks = self.masks if masks is None else masks
        if count == 0 or self.steps == 0:
            return None
        self.steps -= 1
        if not self._can(left, count, masks):
            return None
        rarest = rarest_of(masks)
        for mask in greatest_of(mask for mask in masks if mask & rarest):
            rest = self.cover(left & ~mask, count - 1, {each & ~mask for each in masks} - {0})
            if rest is not None:
                return [mask, *rest]
        return None

    def shows_none(self, left, count):
        """Returns whether the search has shown that no such masks are there."""
        return self.cover(left, count) is None and self.steps > 0

    def _can(self, left, count, masks):
        most = max((mask.bit_count() for mask in masks), default=0)
        if most * count < left.bit_count():
            return False
        return all((left & star).bit_count() <= (PLANES - 1) * count for star in self.stars)


def union(masks):
    return functools.reduce(operator.or_, masks, 0)


def rarest_of(masks):
    """Returns a bit that is in as few masks as any."""
    counts = defaultdict(int)
    for mask in masks:
        while mask:
            bit = mask & -mask
            counts[bit] += 1
            mask ^= bit
    return min(counts, key=lambda bit: (counts[bit], bit))


def greatest_of(masks):
    """Returns the masks that are in no other, those with many bits first."""
    kept = []
    for mask in sorted(set(masks), key=lambda mask: (-mask.bit_count(), mask)):
        if mask and not any(mask & ~other == 0 for other in kept):
            kept.append(mask)
    return kept
