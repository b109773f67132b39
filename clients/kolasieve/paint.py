"""Layouts of a Magic process as planes of types, and what painting makes of them.

A contact is on each of its planes, and consists of a type on each, its residues. Two contacts that may be stacked make
a type of their own on the plane that they share. What a type makes of another is said plane by plane, as in Magic.
"""

from kolasieve.index import Index
from kolasieve.rects import common, outside, overlapping, strips, without

SPACE = "space"

# How many rectangles are taken from one in turn; where there are more, a sweep takes them together.
FEW = 8


class PaintRules:
    """What a type makes of another on a plane, for the layers of a compiled process."""

    def __init__(self, process):
        self.planes = process.planes
        self.layers = {layer.name: layer for layer in process.layers}
        self.residues = {
            layer.name: {self.layers[name].planes[0]: name for name in layer.residues}
            for layer in process.layers
            if layer.residues
        }
        self.stacks = {frozenset((stack.one.name, stack.other.name)): stack.both for stack in process.stacks}
        self.lines = {line[:3]: line[3] for line in self.lines_of(process.compositions)}
        self.known = {}
        self.plain = {}
        self.reached = {name: self.planes_reached(layer) for name, layer in self.layers.items()}
        # By type and plane, what a line says that painting the type changes on a plane that it hasn't.
        self.crossing = {}
        for plane, there, name in self.lines:
            if plane not in self.layers[name].planes and self.result(plane, there, name) != there:
                self.crossing.setdefault(name, {}).setdefault(plane, set()).add(there)

    def lines_of(self, compositions):
        """Yields the plane, the type that is there, the one that is painted, and what they make, of each line."""
        for keyword, there, painted, made, *plane in compositions:
            if keyword == "paint" and there != SPACE:
                yield plane[0] if plane else self.home(there), there, painted, made
            elif keyword in ("compose", "decompose"):
                yield from ((self.home(made), made, each, made) for each in (there, painted))
            if keyword == "compose":
                yield self.home(made), there, painted, made
                yield self.home(made), painted, there, made

    def home(self, name):
        """Returns the plane on which Magic looks for a type when it saves a cell."""
        return self.layers[name].planes[0]

    def planes_reached(self, painted):
        """Returns the planes on which painting a type may change something, those of contacts that it breaks too."""
        found = set(painted.planes)
        for name, residues in self.residues.items():
            if name != painted.name and found & set(residues):
                found |= set(residues)
        found |= {plane for plane, _, name in self.lines if name == painted.name}
        return tuple(plane for plane in self.planes if plane in found)

    def result(self, plane, there, painted):
        """Returns the type that a square of a plane has once another type was painted over the one that is there."""
        asked = plane, there, painted
        if asked not in self.known:
            self.known[asked] = self.find(plane, self.layers[there], self.layers[painted])
        return self.known[asked]

    def find(self, plane, there, painted):
        if line := self.lines.get((plane, there.name, painted.name)):
            return line
        if there is painted:
            return there.name
        if there.parts:
            return self.over_stack(plane, there, painted)
        if there.name in self.residues and set(painted.planes) & set(there.planes):
            return self.over_contact(plane, there, painted)
        return painted.name if plane in painted.planes else there.name

    def over_contact(self, plane, there, painted):
        """Returns what is left of a contact, or takes its place. A residue, or what one absorbs, changes nothing."""
        residues = self.residues[there.name]
        if painted.name in residues.values():
            return there.name
        if any(self.lines.get((each, residue, painted.name)) == residue for each, residue in residues.items()):
            return there.name
        if stack := self.stacks.get(frozenset((there.name, painted.name))):
            return stack.name if plane in stack.planes else there.name
        return painted.name if plane in painted.planes else residues[plane]

    def over_stack(self, plane, there, painted):
        """Returns what is left of two contacts, one over the other, or what takes their place."""
        left = []
        for part in there.parts:
            result = part if painted.name in there.parts else self.result(plane, part, painted.name)
            if result == painted.name:
                return result
            if result in self.residues:
                left.append(result)
        if len(left) == 2:
            return there.name
        return left[0] if left else self.residues[there.parts[0]][plane]


    def reachable(self, names):
        """Returns the types that layers of these names may become where they come together, these among them."""
        found = set(names)
        while True:
            made = {self.lines[line] for line in self.lines if found.issuperset(line[1:])} - {SPACE}
            made.update(*(self.residues.get(name, {}).values() for name in found))
            made.update(*(self.layers[name].parts for name in found))
            made.update(stack.name for pair, stack in self.stacks.items() if found >= pair)
            if made <= found:
                return found
            found |= made

    def is_plain(self, one, other):
        """Returns whether two types that lie over each other are in all groups what `in_order` makes of them."""
        pair = frozenset((one, other))
        if pair not in self.plain:
            self.plain[pair] = self.find_plain(self.layers[one], self.layers[other])
        return self.plain[pair]

    def find_plain(self, one, other):
        """A contact hides the metal that it consists of, and two that may be stacked make a type of their own."""
        over = self.stacks.get(frozenset((one.name, other.name))) or self.hiding(one, other) or self.hiding(other, one)
        if over is None:
            return False
        shown = {(image.group, image.plane) for image in over.images}
        for there, painted in ((one, other), (other, one)):
            for plane in there.planes:
                is_both = plane in painted.planes
                top = over.name if is_both and plane in over.planes else there.name
                if self.result(plane, there.name, painted.name) != top or is_both and top != over.name:
                    return False
                if is_both and any(image.plane == plane and (image.group, plane) not in shown for image in there.images):
                    return False
        return True

    def hiding(self, one, other):
        """Returns a contact that consists of another type, or None."""
        return one if other.name in self.residues.get(one.name, {}).values() else None

    def are_plain(self, layers):
        """Returns whether all types that lie over each other are so; `layers` has rectangles of each."""
        for plane in self.planes:
            here = [name for name in layers if plane in self.layers[name].planes]
            risky = [name for name in here if not all(name == each or self.is_plain(name, each) for each in here)]
            entries = [(rect, name) for name in risky for rect in layers[name]]
            if any(a[1] != b[1] and not self.is_plain(a[1], b[1]) for a, b in overlapping(entries)):
                return False
        names = {*layers, *(stack.name for pair, stack in self.stacks.items() if pair <= layers.keys())}
        return all(names.isdisjoint(there) for name in layers for there in self.crossing.get(name, {}).values())


class Planes:
    """The planes of a layout: disjoint rectangles with types, and space."""

    def __init__(self, rules):
        self.rules = rules
        self.planes = {plane: Index() for plane in rules.planes}

    def paint(self, name, rect):
        """Paints a type on all planes, as a command and a file do."""
        for plane in self.rules.reached[name]:
            if self.planes[plane].levels or plane in self.rules.layers[name].planes:
                self.paint_plane(plane, name, rect)

    def paint_plane(self, plane, name, rect):
        """Paints a type on one plane."""
        index, covered = self.planes[plane], []
        for old, there in index.meeting(rect):
            made = self.rules.result(plane, there, name)
            if made == there:
                covered.append(old)
                continue
            index.remove(old, there)
            for part in without(old, rect):
                index.add(part, there)
            if made not in (name, SPACE):
                index.add(common(old, rect), made)
            if made != name:
                covered.append(common(old, rect))
        if plane in self.rules.layers[name].planes:
            for part in outside(rect, covered) if len(covered) <= FEW else strips([rect], covered):
                index.add(part, name)

    def rects(self, plane):
        """Returns the rectangles of a plane by type."""
        found = {}
        for rect, name in self.planes[plane].entries():
            found.setdefault(name, []).append(rect)
        return found


def painted(rules, entries):
    """Returns what is on each plane once rectangles with types were painted in turn, in two parts.

    The second has what is left of those that lay over one of another type.
    """
    own = {plane: [] for plane in rules.planes}
    for entry in entries:
        for plane in rules.layers[entry[1]].planes:
            own[plane].append(entry)
    mixed = set().union(*map(mixed_in, own.values()))
    mixed |= crossed(rules, entries, own, mixed)
    if not mixed:
        return own, {}
    planes = Planes(rules)
    for entry in entries:
        if entry in mixed:
            planes.paint(entry[1], entry[0])
    apart = {plane: [entry for entry in found if entry not in mixed] for plane, found in own.items()}
    return apart, {plane: index.entries() for plane, index in planes.planes.items()}


def composed(rules, planes, mixed):
    """Returns the same of planes, each painted by itself, of which the second part has at least what is mixed."""
    mixed = mixed.union(*map(mixed_in, planes.values()))
    if not mixed:
        return planes, {}
    apart, together = {}, Planes(rules)
    for plane, entries in planes.items():
        apart[plane] = [entry for entry in entries if entry not in mixed]
        for entry in entries:
            if entry in mixed:
                together.paint_plane(plane, entry[1], entry[0])
    return apart, {plane: index.entries() for plane, index in together.planes.items()}


def mixed_in(entries):
    """Returns the rectangles that have a square in common with one of another type."""
    return {entry for pair in overlapping(entries) if pair[0][1] != pair[1][1] for entry in pair}


def crossed(rules, entries, own, mixed):
    """Returns the rectangles that may change others on planes that their types don't have, and these."""
    crossing = [entry for entry in entries if entry[1] in rules.crossing]
    found = set()
    for plane in rules.planes if crossing else ():
        over = [entry for entry in crossing if plane in rules.crossing[entry[1]]]
        index = Index(own[plane] if over else ())
        for entry in over:
            changed = rules.crossing[entry[1]][plane]
            if others := [each for each in index.meeting(entry[0]) if each in mixed or each[1] in changed]:
                found.update(others, [entry])
    return found


def in_order(process, layers):
    """Returns layers as they are painted in turn: contacts last, and two stacked ones as what they are together."""
    found = {
        layer.name: layers[layer.name]
        for layer in sorted(process.layers, key=lambda layer: bool(layer.residues))
        if layer.name in layers
    }
    for stack in process.stacks:
        one, other = stack.one.name, stack.other.name
        if one in layers and other in layers:
            pairs = overlapping([(rect, name) for name in (one, other) for rect in layers[name]])
            found[stack.both.name] = sorted(common(a[0], b[0]) for a, b in pairs if a[1] != b[1])
    return found
