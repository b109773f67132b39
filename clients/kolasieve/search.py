"""What the rules of a process forbid in windows of a layout, those that magicd checks, and those that clients do."""

import os
from collections import namedtuple

from kolasieve.areas import small_pieces
from kolasieve.batch import Batches, Part, write
from kolasieve.flat import Flat
from kolasieve.live import Live, gathered
from kolasieve.overlaps import NEAR, TEXTS, OverlapRules
from kolasieve.paint import in_order
from kolasieve.rects import clipped, grown
from kolasieve.scaling import scaled
from kolasieve.script import side_by_side
from kolasieve.windows import Window, fitting


class Named(namedtuple("Named", "text is_proved", defaults=[True])):
    """A rule as a report has it: its text, and whether the proved server finds what it forbids."""


def rules_of(process):
    """Returns the rules of a process in the order of a report."""
    lines = {rule.why: rule.line for group in process.groups for rule in group.rules}
    by_client = [*TEXTS, *(area.why for area in process.areas)]
    return [*map(Named, sorted(lines, key=lines.get)), *(Named(text, False) for text in by_client)]


class Search:
    """Finds what is forbidden in a layout, window by window."""

    def __init__(self, library, choice, folder):
        """Takes what was chosen, and a folder for files."""
        process = library.process
        self.process = process
        self.choice = choice
        self.folder = folder
        self.overlaps = OverlapRules(process)
        self.flat = Flat(library, self.overlaps.watched if any(map(choice.has_rule, TEXTS)) else ())
        # The layers that the layout may have once it is flat.
        names = self.flat.rules.reachable(library.names)
        self.areas = [
            area.on(library.grid)
            for area in process.areas
            if choice.has_rule(area.why) and not names.isdisjoint(area.layers)
        ]
        self.flat.is_exact = choice.has_layers or bool(self.areas)
        images = [self.images(number, names) for number in range(len(process.groups))]
        lives = [
            Live(number, group, {image.type for each in images[number].values() for image in each}, choice.has_rule)
            for number, group in enumerate(process.groups)
        ]
        self.parts, reach = [], 0
        for live in gathered(lives):
            self.parts.append(self.part(live, images[live.number], library.grid))
            reach = max(reach, *(rule.reach * library.grid for rule in live.rules))
        # How far round a window the layout is looked at.
        self.border = max(NEAR, reach + 1)
        # How far round a square the layout says what is forbidden there: a piece with fewer squares isn't as long.
        self.reach = max([self.border, *(area.squares for area in self.areas)])
        self.batches = []
        self.sizes = None
        self.at_once = 1

    def images(self, number, names):
        """Returns what a group has of each layer, of those alone that have these names."""
        return {
            layer.name: [image for image in layer.images if image.group == number and layer.name in names]
            for layer in self.process.layers
        }

    def part(self, live, images, grid):
        """Returns what is checked of a group, whose technology it writes for lambda on this grid."""
        path = os.path.join(self.folder, os.path.basename(live.group.path))
        text = scaled(live.with_rules(), grid)
        write(path, text)
        planes = live.looked_at
        shown = {name: [image for image in found if image.plane in planes] for name, found in images.items()}
        return Part(live.group, path, text, [rule.why for rule in live.rules], shown)

    def use(self, server, sizes, at_once):
        """Has so many servers at a time check windows of these sizes."""
        self.batches = [Batches(part, server, sizes, self.folder) for part in self.parts]
        self.sizes = sizes
        self.at_once = at_once

    def __call__(self, item):
        """Returns an item's number, what is forbidden in its windows by rule, and layers, where the report has these."""
        number, cores = item
        windows, found, shown = [], {}, {}
        for core in cores:
            layers, placed = self.flat.within(grown(core, self.border))
            windows.append(self.window(core, layers))
            add(found, self.by_client(core, layers, placed))
            if self.choice.has_layers:
                add(shown, ((name, clipped(rects, core)) for name, rects in layers.items()))
        add(found, self.by_servers(windows))
        return number, found, shown

    def window(self, core, layers):
        """Returns a window with what groups look at, as it is painted in turn."""
        shown = {
            name: rects
            for name, rects in in_order(self.process, layers).items()
            if rects and any(part.images[name] for part in self.parts)
        }
        return Window(core, self.border, shown)

    def by_servers(self, windows):
        """Yields what groups forbid."""
        fit = [part for window in windows for part in fitting(window, self.sizes, self.parts)]
        for found in side_by_side([each.violations(fit) for each in self.batches], self.at_once):
            for text, rects in found.items():
                yield Named(text), rects

    def by_client(self, core, layers, placed):
        """Yields what the rules forbid that speak of areas, or of several cells."""
        for text, rects in self.overlaps.violations(placed).items():
            if self.choice.has_rule(text):
                yield Named(text, False), clipped(rects, core)
        for area in self.areas:
            if set(area.layers) & set(layers):
                near, _ = self.flat.within(grown(core, area.squares))
                pieces = small_pieces(area, near)
                yield Named(area.why, False), clipped([rect for piece in pieces for rect in piece], core)


def add(found, more):
    """Adds to lists by key."""
    for key, rects in more:
        found.setdefault(key, []).extend(rects)
