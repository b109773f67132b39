"""Which rules of a group can forbid something where only some of its types are painted, and what they look at.

A rule looks at edges between two lists of types, and forbids what isn't of a third. Where none of the types of the first
or of the second list is there, or all that are there are of the third, it forbids nothing.
"""

from kolasieve.planes import lines_of
from kolasieve.scaling import joined, parted, words_of

# How many rules a group may have.
MOST = 128

SPACE = frozenset(["space"])


class Types:
    """A list of types: those with these names, or all of a plane but those. The plane is what an element says, if one does."""

    def __init__(self, text):
        """Takes the list as a rule has it: `a,b`, `space/p,b`, `~(a,b)/p`, `~0/p`, or `0`."""
        self.is_without = text.startswith("~")
        words, _, plane = text[1:].rpartition("/") if self.is_without else (text, "", "")
        elements = [word.partition("/") for word in words.strip("()").split(",")]
        self.names = {name for name, _, _ in elements}
        self.plane = plane or elements[0][2]

    def has(self, names):
        """Returns whether the type with these names is in the list."""
        return names.isdisjoint(self.names) == self.is_without


class Rule:
    """A rule that can forbid something: its line, its text, and the planes that it looks at, how far."""

    def __init__(self, line, why, planes, reach):
        self.line = line
        self.why = why
        self.planes = planes
        self.reach = reach


class Live:
    """A group's technology where only some types are painted."""

    def __init__(self, number, group, painted, has_rule):
        """Takes the types that are painted, and a function that says whether a rule with this text is wanted."""
        self.number = number
        self.group = group
        text = group.text
        # The plane of each name; of each plane the types, by names, and those that are there.
        self.planes = {}
        self.types = {plane: set() for plane in group.planes}
        self.there = {plane: [SPACE] for plane in group.planes}
        for section, words in lines_of(text):
            if section == "types":
                plane, names = words[0], words[1].split(",")
                self.planes.update(dict.fromkeys(names, plane))
                self.types[plane].add(frozenset(names[:-1]))
                if names[-1] in painted:
                    self.there[plane].append(frozenset(names))
        self.head, lines = parted(text)
        found = zip(group.rules, lines, strict=True)
        self.rules = [rule for each, line in found if has_rule(each.why) and (rule := self.rule(line, each.why))]

    def rule(self, line, why):
        """Returns the rule of a line, or None where it can't forbid anything."""
        words, places = words_of(line)
        reach = max(int(words[place]) for place in places)
        if words[2] == "width":
            fine = Types(words[3])
            plane = self.plane_of(fine)
            return Rule(line, why, {plane}, reach) if any(map(fine.has, self.there[plane])) else None
        one, two, fine = Types(words[3]), Types(words[4]), Types(words[6])
        plane = self.plane_of(one) or self.plane_of(two)
        check = words[9].rpartition('"')[2].strip() or plane
        if plane is None or not any(map(one.has, self.there[plane])) or not any(map(two.has, self.there[plane])):
            return None
        if all(map(fine.has, self.there[check])):
            return None
        return Rule(line, why, {plane, check}, reach)

    def plane_of(self, types):
        """Returns the plane of a list of types, or None for one that has none."""
        return types.plane or next((self.planes[name] for name in types.names if name in self.planes), None)

    @property
    def looked_at(self):
        """The planes that some rule looks at."""
        return set().union(*(rule.planes for rule in self.rules))

    def take(self, other):
        """Takes the rules of another group, if they look at planes alone that this one's do, with the same types."""
        planes = other.looked_at
        if len(self.rules) + len(other.rules) > MOST or not planes <= self.looked_at:
            return False
        if any(self.types[plane] != other.types[plane] for plane in planes):
            return False
        self.rules += other.rules
        other.rules = []
        return True

    def with_rules(self):
        """Returns the text of the technology file that has these rules."""
        return joined(self.head, [rule.line for rule in self.rules])


def gathered(groups):
    """Returns the groups that have rules, once those that can be were taken by others, whose planes they look at."""
    for each in sorted(groups, key=lambda live: len(live.rules)):
        any(other.take(each) for other in groups if other is not each and other.rules and each.rules)
    return [each for each in groups if each.rules]
