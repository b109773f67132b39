"""A whole layout of a process, checked by windows in as many magicd at a time as there are processes."""

import contextlib
import os
from collections import namedtuple

from kolasieve import pool
from kolasieve.bands import Bands
from kolasieve.batch import CheckFault
from kolasieve.hierarchy import SUFFIX, Library
from kolasieve.placed import Placed
from kolasieve.progress import Progress
from kolasieve.rects import common, grown, meet
from kolasieve.report import Report, Violation
from kolasieve.scratch import scratch_folder
from kolasieve.search import Search, rules_of
from kolasieve.windows import Sizes, around, plan

# How the name of a file in the stream format ends, which Magic reads.
STREAM = ".gds"

# How often each process takes a window at least, so that all end together, and how many rectangles are worth it.
TURNS = 3
LEAST = 4000


class Task(namedtuple("Task", "cores moves weight")):
    """Windows to check together, moves to all places that show the same, and about how many rectangles windows have."""


def joined(tasks, most):
    """Returns tasks, those for one place each together as far as they have no more rectangles than one may have."""
    done, alone = [], []
    for task in tasks:
        if len(task.moves) > 1:
            done.append(task)
        elif alone and alone[-1].weight + task.weight <= most:
            alone[-1] = Task(alone[-1].cores + task.cores, task.moves, alone[-1].weight + task.weight)
        else:
            alone.append(task)
    return done + alone


class Choice:
    """What is checked: a cell of a stream file, a region in lambda, the rules with one of some words in their texts.

    `has_layers` says whether the report has the flat layout.
    """

    def __init__(self, cell=None, region=None, words=(), has_layers=False):
        self.cell = cell
        self.region = region
        self.words = words
        self.has_layers = has_layers

    def has_rule(self, text):
        """Returns whether a rule with this text is checked."""
        return not self.words or any(word in text for word in self.words)


class Check:
    """Checks of layouts of a process."""

    def __init__(self, process, server, say, jobs=1, sizes=Sizes()):
        """Takes a process, the command that starts magicd, and a function that is told how far the check is."""
        self.process = process
        self.server = server
        self.say = say
        self.jobs = jobs
        self.sizes = sizes

    def report(self, path, folders=(), choice=Choice()):
        """Returns the report on a file of Magic, or on a cell of a stream file, its only top cell by default."""
        if choice.cell is not None and not path.endswith(STREAM):
            raise CheckFault(f"{path}: a cell is named of a stream file ({STREAM}) alone")
        rules = [rule for rule in rules_of(self.process) if choice.has_rule(rule.text)]
        if choice.words and not rules:
            raise CheckFault(f"no rule of {self.process.name} has {' or '.join(choice.words)} in its text")
        if choice.region and not meet(choice.region, choice.region):
            raise CheckFault(f"the region {' '.join(map(str, choice.region))} has no square")
        with scratch_folder() as scratch:
            self.say(f"reading {path}")
            top = self.top(path, choice.cell, scratch)
            library = Library(self.process, top, folders)
            self.build()
            search = Search(library, choice, scratch)
            bands = self.bands(search, self.tasks(search, library, choice), scratch)
            self.say("joining what was found")
            rules = [rule for rule in rules if bands.has(rule)]
            violations = [Violation(rule.text, bands.joined([rule]), rule.is_proved) for rule in rules]
            marks = bands.joined(rules)
            layers = {name: bands.joined([name]) for name in search.flat.rules.layers if bands.has(name)}
        notes = [notice for notice in [self.process.notice()] if notice]
        name = os.path.basename(top).removesuffix(SUFFIX)
        unit = (self.process.unit or 1000) / 1000
        return Report(path, name, self.process.name, unit, library.grid, layers, violations, marks, notes)

    def top(self, path, cell, scratch):
        """Returns the cell file of a layout, which Magic writes where the layout is a stream file."""
        if not path.endswith(STREAM):
            return path
        # It is imported where it is needed, as what else takes long to import: most checks are short.
        from kolasieve.stream import cell_of

        return cell_of(self.process.path, path, cell, scratch)

    def build(self):
        """Starts and ends a magicd that is a script: the launcher's first call builds it; several would side by side."""
        with contextlib.suppress(OSError), open(self.server, "rb") as file:
            if file.read(2) != b"#!":
                return
        import asyncio

        from kolasieve.program import Program, pass_on

        pass_on(self.say)
        if fault := asyncio.run(Program.build([self.server])):
            raise CheckFault(fault)

    def tasks(self, search, library, choice):
        """Returns what processes do at a time: windows, and where else the same is found."""
        top = library.top
        if top.bounds is None:
            return []
        most = self.sizes.rects
        if self.jobs > 1:
            most = min(most, max(LEAST, top.size // (TURNS * self.jobs)))
        region = around(grown(top.bounds, search.border))
        if choice.region:
            region = tuple(number * library.grid for number in choice.region)
        return joined(self.parts(search, top, region, most), most)

    def parts(self, search, top, region, most):
        """Yields a task for each window of a region, of those that show the same for one."""
        for part, moves in Placed(top, search.reach, self.sizes.large).parts(region):
            near = grown(part, search.border)
            for core, weight in plan(part, lambda rect, near=near: top.weight(common(rect, near)), search.border, most):
                yield Task([common(core, part)], moves, weight)

    def bands(self, search, tasks, scratch):
        """Returns all that is found by tasks."""
        jobs = max(1, min(self.jobs, len(tasks)))
        search.use(self.server, self.sizes, max(1, self.jobs // jobs))
        bands = Bands(scratch, search.flat.top.bounds)
        progress = Progress([task.weight for task in tasks], self.say)
        items = enumerate(task.cores for task in tasks)
        with contextlib.closing(pool.results(search, items, jobs)) as results:
            for number, found, layers in results:
                task = tasks[number]
                for key, rects in [*found.items(), *layers.items()]:
                    for x, y in task.moves:
                        bands.add(key, [(l + x, b + y, r + x, t + y) for l, b, r, t in rects])
                progress.add(task.weight, sum(map(len, found.values())) * len(task.moves))
        return bands
