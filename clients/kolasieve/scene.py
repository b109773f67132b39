"""What pages draw of a session, made from magicd's texts by a process of its own: whole, or how it differs from before.

A scene has lists of rectangles, each under a name: `own N` for own paint of type N, `cell N NAME` for type N of a cell,
`marks`, `unchecked`, and `rule N` for what a rule forbids.
"""

import json
import os
import pathlib
import sys
from collections import Counter

sys.path.insert(0, str(pathlib.Path(__file__).resolve().parent.parent))

from kolasieve import mag
from kolasieve.frames import framed, read_frame
from kolasieve.rects import bounds, common, meet, squares, strips
from kolasieve.violations import listed

# How much less of the processor than the relay's own work this takes.
NICE = 10


class SceneFault(Exception):
    """A session can't be drawn; the text says why."""


class Scene:
    """The lists of a session, and what there is beside them."""

    def __init__(self, library, saved, uses, errors, violations, paths):
        own = library.by_number(mag.read(text_of(saved)))
        self.lists = {f"own {number}": rects for number, rects in own.items()}
        self.uses = [use_of(line) for line in text_of(uses).splitlines()]
        cells = {cell: library.cell(cell, paths) for cell, _, _ in self.uses}
        for name, cell in cells.items():
            self.lists |= {f"cell {number} {name}": rects for number, rects in cell.items()}
        found = mag.read(text_of(errors)).sections
        self.lists["marks"] = found.get(mag.MARKS, [])
        self.lists["unchecked"] = found.get(mag.UNCHECKED, [])
        self.rules, self.unknown, lists = read_violations(violations)
        self.lists |= lists
        rects = [rect for each in own.values() for rect in each] + self.lists["marks"] + list(placed(cells, self.uses))
        self.bounds = bounds(rects) if rects else None

    def share(self):
        """Returns how many of a thousand squares within the bounds await checking; 1 where it is less, but some do."""
        unchecked = self.lists["unchecked"]
        if not unchecked or self.bounds is None:
            return 1000 if unchecked else 0
        waiting = strips([common(each, self.bounds) for each in unchecked if meet(each, self.bounds)])
        return max(1, squares(waiting) * 1000 // squares([self.bounds]))

    def facts(self):
        """Returns all but the lists."""
        return {
            "uses": self.uses, "rules": self.rules, "unknown": self.unknown, "bounds": self.bounds, "share": self.share(),
        }


class Shown:
    """A scene as pages have it, whose lists are in the order in which they got them."""

    def __init__(self, session):
        self.session = session
        self.version = 0
        self.lists = {}
        self.facts = {}

    def show(self, scene, version):
        """Has pages show a scene from now on; returns whether the message is of all of it, and the message."""
        facts, changes, lists = scene.facts(), {}, {}
        for name, rects in scene.lists.items():
            lists[name], change = difference(self.lists.get(name, []), rects)
            if change is not None:
                changes[name] = change
        changes |= {name: None for name in self.lists.keys() - lists.keys()}
        change = {"session": self.session, "since": self.version, "version": version, "lists": changes}
        change |= {key: value for key, value in facts.items() if self.facts.get(key, self) != value}
        is_new = not self.facts
        self.version, self.lists, self.facts = version, lists, facts
        whole, change = self.whole(), encoded(change)
        return (b"whole", whole) if is_new or len(whole) <= len(change) else (b"change", change)

    def whole(self):
        lists = {name: flat(rects) for name, rects in self.lists.items()}
        return encoded({"session": self.session, "version": self.version, "lists": lists} | self.facts)


def read_violations(reply):
    """Returns the text of each rule that forbids squares, why that isn't known, and the list of each rule."""
    head = reply.partition(b"\n")[0].decode()
    if " refused " in head:
        return {}, head.split(" refused ")[1], {}
    found = listed(reply)
    return {number: text for number, text, _ in found}, None, {f"rule {number}": rects for number, _, rects in found}


def near(session, box, reply):
    """Returns the message of what each rule forbids in a box."""
    rules, unknown, lists = read_violations(reply)
    lists = {name: flat(rects) for name, rects in lists.items()}
    return encoded({"session": session, "near": json.loads(box), "rules": rules, "unknown": unknown, "lists": lists})


def difference(before, now):
    """Returns the rectangles of a list in the order that it has after a change, and the change, if there is one.

    The change is which ones of before are gone, by their places, and which ones come behind the others.
    """
    left, kept, gone = Counter(now), [], []
    for place, rect in enumerate(before):
        if left[rect] > 0:
            left[rect] -= 1
            kept.append(rect)
        else:
            gone.append(place)
    new = list(left.elements())
    if not gone and not new:
        return before, None
    return kept + new, {"gone": gone, "new": flat(new)}


def flat(rects):
    return [number for rect in rects for number in rect]


def encoded(message):
    return json.dumps(message, separators=(",", ":")).encode()


def placed(cells, uses):
    """Yields the bounds of each placed cell that isn't empty."""
    around = {name: bounds(sum(cell.values(), [])) for name, cell in cells.items() if cell}
    for name, right, up in uses:
        if name in around:
            left, bottom, to_right, top = around[name]
            yield left + right, bottom + up, to_right + right, top + up


def text_of(reply):
    """Returns what follows the first line of a reply. Raises SceneFault where it is a refusal."""
    head, _, text = reply.decode("utf-8", "replace").partition("\n")
    if " refused " in head:
        raise SceneFault(head)
    return text


def use_of(line):
    _, cell, right, up = line.split()
    return cell, int(right), int(up)


class Library:
    """The types by their names, and the cells that were read."""

    def __init__(self, types):
        self.numbers = {name: number for number, (names, _) in enumerate(types, 1) for name in names}
        self.cells = {}

    def by_number(self, cell):
        """Returns the rectangles of a cell's layers by the numbers of their types."""
        found = {}
        for name, rects in cell.layers.items():
            if name not in self.numbers:
                raise SceneFault(f"there is no type {name}")
            found.setdefault(self.numbers[name], []).extend(rects)
        return found

    def cell(self, name, paths):
        """Returns a cell, from its file unless it was read before: cells don't change."""
        if name not in self.cells:
            if name not in paths:
                raise SceneFault(f"there is no file of the cell {name}")
            with open(paths[name], encoding="utf-8", errors="replace") as file:
                self.cells[name] = self.by_number(mag.read(file))
        return self.cells[name]


class Maker:
    """Replies to requests, which are a session's title, a word and what it needs."""

    def __init__(self, types):
        self.library = Library(types)
        self.shown = {}

    def reply(self, session, word, *rest):
        """Returns the reply to a request."""
        title = session.decode()
        if word == b"show":
            return self.show(title, *rest)
        if word == b"near":
            return b"near", near(title, *rest)
        if word == b"whole" and title in self.shown:
            return str(self.shown[title].version).encode(), self.shown[title].whole()
        self.shown.pop(title, None)
        return b"fault", b"it isn't shown"

    def show(self, title, version, paths, *texts):
        """Has a session be shown in this version, from texts and the paths of cells' files."""
        scene = Scene(self.library, *texts, json.loads(paths))
        return self.shown.setdefault(title, Shown(title)).show(scene, int(version))


def serve(requests, replies):
    """Replies to each request until there are no more."""
    maker = Maker(json.loads(read_frame(requests)[0]))
    while True:
        request = read_frame(requests)
        try:
            reply = maker.reply(*request)
        except (SceneFault, mag.MagFault, OSError, LookupError, ValueError) as fault:
            reply = b"fault", str(fault).encode()
        replies.write(framed(reply))
        replies.flush()


if __name__ == "__main__":
    os.nice(NICE)
    try:
        serve(sys.stdin.buffer, sys.stdout.buffer)
    except (EOFError, BrokenPipeError):
        # The relay has ended.
        pass
