"""What a layout of cells is once it is flat, rectangle by rectangle, as Magic's `flatten` makes it.

Where squares of two cells come together on a plane, one is painted over the other, those of a user before those of what
it uses. What becomes of a square depends on what is painted on it alone, so each part of a layout can be made by itself.
"""

from kolasieve.hierarchy import AS_IT_IS, moved_by
from kolasieve.index import Index
from kolasieve.paint import PaintRules, composed, painted
from kolasieve.rects import clipped, common, covers, strips

# Cells with as many rectangles at most are painted once, and not anew wherever they are used.
SMALL = 2000


class Flat:
    """A flat layout, of the top cell of a library."""

    def __init__(self, library, watched=()):
        """Takes the types of which it says what each placed cell has."""
        self.rules = PaintRules(library.process)
        self.top = library.top
        self.grid = library.grid
        self.watched = watched
        # Else a contact may lie over its own metal, and over one that it is stacked with: `in_order` is enough for them.
        self.is_exact = True
        self.whole = {}

    def within(self, rect):
        """Returns what lies in a rectangle by layer, and the watched types there with the places of their cells.

        Rectangles of one layer may lie over each other.
        """
        return not self.is_exact and self.plain(rect) or self.exact(rect)

    def plain(self, rect):
        """Returns the same where types lie over each other only as contacts may, else None."""
        layers, watched = {}, []
        cells = [(place, transform, cell.own.within(seen)) for place, cell, transform, seen in self.top.elements(rect)]
        cells = [each for each in cells if each[2]]
        for _, transform, found in cells:
            for name, rects in found:
                layers.setdefault(name, []).extend(moved_rects(rects, transform))
        if not self.rules.are_plain(layers):
            return None
        for place, transform, found in cells if self.watched and len(cells) > 1 else ():
            seen = [(name, rects) for name, rects in found if name in self.watched or name in self.rules.residues]
            watched.append((place, [moved(part, transform) for part in painted(self.rules, entries_of(seen))]))
        return {name: layers[name] for name in self.rules.layers if name in layers}, self.placed(watched)

    def exact(self, rect):
        """Returns what lies in a rectangle, each square in as many layers as a file has it."""
        cells = []
        for place, cell, transform, seen in self.top.elements(rect):
            parts = self.painted(cell, seen)
            if any(entries for part in parts for entries in part.values()):
                cells.append((place, [moved(part, transform) for part in parts]))
        if not cells:
            return {}, []
        if len(cells) == 1:
            return layers_of(self.rules, *cells[0][1]), []
        planes, mixed = {plane: [] for plane in self.rules.planes}, set()
        for _, parts in cells:
            for part in parts:
                for plane, entries in part.items():
                    planes[plane] += entries
            mixed.update(*parts[1].values())
        return layers_of(self.rules, *composed(self.rules, planes, mixed)), self.placed(cells)

    def painted(self, cell, rect):
        """Returns what a cell itself has in a rectangle by plane, that apart which lay over another type."""
        if cell.own.count > SMALL:
            return painted(self.rules, entries_of(cell.own.within(rect)))
        if cell not in self.whole:
            own = cell.own.within(cell.own.bounds) if cell.own.count else []
            self.whole[cell] = painted(self.rules, entries_of(own))
        if not cell.own.count or covers(rect, cell.own.bounds):
            return self.whole[cell]
        return [{plane: clipped_entries(entries, rect) for plane, entries in part.items()} for part in self.whole[cell]]

    def placed(self, cells):
        """Returns what each placed cell has of the watched types: the cell's place, the type, and a rectangle."""
        return [
            (place, name, rect)
            for place, parts in cells
            for part in parts
            for plane, entries in part.items()
            for rect, name in entries
            if name in self.watched and self.rules.home(name) == plane
        ]


def flattened(library):
    """Returns the strips of each layer of the whole."""
    if library.top.bounds is None:
        return {}
    layers, _ = Flat(library).within(library.top.bounds)
    return {name: strips(rects) for name, rects in layers.items()}


def entries_of(layers):
    """Returns rectangles with types of types with rectangles."""
    return [(rect, name) for name, rects in layers for rect in rects]


def moved(part, transform):
    """Returns planes with rectangles with types, once a transform has led them."""
    if transform == AS_IT_IS:
        return part
    return {plane: [(moved_by(transform, rect), name) for rect, name in entries] for plane, entries in part.items()}


def moved_rects(rects, transform):
    """Returns rectangles once a transform has led them."""
    a, b, c, d, e, f = transform
    if (a, b, d, e) == AS_IT_IS[:2] + AS_IT_IS[3:5]:
        return [(left + c, bottom + f, right + c, top + f) for left, bottom, right, top in rects] if c or f else rects
    return [moved_by(transform, rect) for rect in rects]


def clipped_entries(entries, rect):
    """Returns what rectangles with types have in common with one."""
    return [(part, name) for each, name in entries for part in clipped([each], rect)]


def layers_of(rules, apart, mixed):
    """Returns the layers that a file has of planes, those of stacked contacts as the two that are stacked.

    A contact is where its home plane has it. Of what lay over another type, its other planes may disagree; there the
    file is read again, as Magic would.
    """
    layers, unlike = agreed_layers(rules, mixed) if mixed else ({}, [])
    homes = {name: layer.planes[0] for name, layer in rules.layers.items()}
    for plane, entries in apart.items():
        for rect, name in entries:
            if homes[name] == plane:
                layers.setdefault(name, []).append(rect)
    if unlike:
        unlike = strips(unlike)
        again = layers_of(rules, *painted(rules, common_entries(rules, layers, unlike)))
        for name, rects in layers.items():
            again[name] = again.get(name, []) + strips(rects, unlike)
        layers = again
    return {name: layers[name] for name in rules.layers if layers.get(name)}


def agreed_layers(rules, planes):
    """Returns the layers of planes, and the rectangles where a contact's planes disagree."""
    by_type = {}
    for plane, entries in planes.items():
        for rect, name in entries:
            by_type.setdefault((plane, name), []).append(rect)
    layers, unlike = {}, []
    for name in {part for _, name in by_type for part in rules.layers[name].parts or [name]}:
        with_stacks = [name, *(stack.name for stack in rules.layers.values() if name in stack.parts)]
        home, *others = (
            strips([rect for each in with_stacks for rect in by_type.get((plane, each), ())])
            for plane in rules.layers[name].planes
        )
        layers[name] = home
        for other in others:
            if other != home:
                unlike += strips(home, other) + strips(other, home)
    return layers, unlike


def common_entries(rules, layers, rects):
    """Returns what layers have in some rectangles, with types, in the order in which a file is painted."""
    index = Index((rect, None) for rect in rects)
    return [
        (common(each, rect), name)
        for name in rules.layers
        for each in layers.get(name, ())
        for rect, _ in index.meeting(each)
    ]
