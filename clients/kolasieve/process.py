"""A compiled process: what clients know of it, from the folder that `clients/process compile` writes.

    process = Process.load("DIR")             ProcessFault, whose text says what is wrong, where it can't be
    process.name                              what `tech` lines of its cell files say
    process.path                              the technology file that was compiled
    process.unit                              the side of a square in nanometres, or None where the technology says none
    process.notice()                          the line to show whenever the process is used, "" where all is exact
    process.groups[g].path, .text             the technology file of a group, for `magicd --tech`, and what it has
    process.groups[g].rules[n - 1].why        the text of rule n of a group (`drc why`, `%why`, ..)
    process.groups[g].planes, .halo           its planes in order, and how far its rules reach
    process.groups[g].types                   its types, short names, each with its plane; one `erase` takes all
    process.bound                             how many groups there must be at least
    process.layers                            the layers, without space: types, contacts, stacked contacts
    process.layer("m2c")                      a layer by any of its names, or a beginning that no other has; or None
    layer.images                              where it is painted: Image(group, type, name, plane, order)

A layer is painted, in each group that an image names, as the image's `type`, a short name; `name` is the long one.
`order` is the place of its plane in the group. A layer without an image in a group is nothing there: no rule of the
group tells it from space. Layers that have an image of the same `type` in a group are one type there.

Where two contacts of `process.stacks` overlap, the layer of both is painted after them: `stack.one`, `stack.other`,
`stack.both` are layers. In a cell file only `one` and `other` stand.

    process.compositions                      the lines of the section `compose`, by names of layers:
                                              ("compose" or "decompose", ONE, OTHER, RESULT),
                                              ("paint" or "erase", HAVE, DONE, RESULT[, PLANE])
    process.overlaps                          Overlap(line, keyword, lists): `exact_overlap` and `no_overlap`
    process.areas                             Area(line, why, plane, squares, layers), which clients check themselves
    small_pieces(area, layout)                the pieces that an area's rule forbids, of areas.py

`layout` is {layer's first name: rectangles}, a rectangle (left, bottom, right, top).
"""

import json
import os

from kolasieve.areas import Area, small_pieces
from kolasieve.faults import Fault
from kolasieve.forms import CELLS, CLIENT, FILE, FORM, LESS, MORE, REPORT, digest

__all__ = ["Area", "Group", "Image", "Layer", "Overlap", "Process", "ProcessFault", "Rule", "Stack", "small_pieces"]

# What the notice says of rule lines.
NOTICES = (
    ((MORE,), "may mark too much"),
    ((LESS,), "may miss something"),
    ((CLIENT, CELLS), "are left to the client, without a proof"),
)


class ProcessFault(Fault):
    """The folder holds no compiled process; the text says why."""


class Image:
    """Where a layer is painted in a group: a type on a plane."""

    def __init__(self, group, type, name, plane, order):
        self.group = group
        self.type = type
        self.name = name
        self.plane = plane
        self.order = order


class Layer:
    """A type of the process: its planes, and its images. A contact has residues, a stacked contact parts."""

    def __init__(self, names, planes, residues, parts, images):
        self.names = names
        self.name = names[0]
        self.planes = planes
        self.residues = residues
        self.parts = parts
        self.images = images


class Stack:
    """Two contacts, and the layer that they are where both lie."""

    def __init__(self, one, other, both):
        self.one = one
        self.other = other
        self.both = both


class Rule:
    """A rule of a group: the line of the technology that it comes from, and its text."""

    def __init__(self, line, keyword, why):
        self.line = line
        self.keyword = keyword
        self.why = why


class Group:
    """A technology file for one magicd. Its types are short names, each with its plane."""

    def __init__(self, path, planes, types, halo, rules):
        self.path = path
        self.planes = planes
        self.types = types
        self.halo = halo
        self.rules = rules

    @property
    def text(self):
        """What the file has."""
        with open(self.path, encoding="utf-8") as file:
            return file.read()


class Overlap:
    """A rule on layers of different cells: `exact_overlap` has one list of layers' names, `no_overlap` two."""

    def __init__(self, line, keyword, lists):
        self.line = line
        self.keyword = keyword
        self.lists = lists


class Process:
    """A compiled process."""

    def __init__(self, folder, document):
        self.folder = folder
        self.name = document["technology"]
        self.path = document["path"]
        self.unit = document["unit"]
        self.planes = tuple(document["planes"])
        self.lines = document["lines"]
        self.bound = document["bound"]
        self.groups = tuple(self._group(each) for each in document["groups"])
        self.layers = tuple(self._layer(each) for each in document["layers"])
        self._by_name = {name: layer for layer in self.layers for name in layer.names}
        self.stacks = tuple(
            Stack(*(self._by_name[part] for part in layer.parts), layer) for layer in self.layers if layer.parts
        )
        self.compositions = tuple(tuple(each) for each in document["compositions"])
        self.areas = tuple(
            Area(each["line"], each["why"], each["plane"], each["squares"], tuple(each["layers"]))
            for each in document["areas"]
        )
        self.overlaps = tuple(
            Overlap(each["line"], each["keyword"], tuple(map(tuple, each["lists"]))) for each in document["overlaps"]
        )
        self.remarks = document["remarks"]

    @classmethod
    def load(cls, folder):
        """Reads a folder that `clients/process compile` has written, and checks that its files belong together."""
        path = os.path.join(folder, FILE)
        try:
            with open(path, encoding="utf-8") as file:
                document = json.load(file)
            if document["form"] != FORM:
                raise ProcessFault(f"{path}: another version has compiled it; compile again")
            process = cls(os.fspath(folder), document)
            for group, each in zip(process.groups, document["groups"]):
                if digest(group.text) != each["sha256"]:
                    raise ProcessFault(f"{group.path}: it isn't the file that was compiled; compile again")
            return process
        except OSError as fault:
            raise ProcessFault(f"{fault.filename}: {fault.strerror}") from None
        except (ValueError, LookupError, TypeError, AttributeError):
            raise ProcessFault(f"{path}: it is no compiled process") from None

    def _group(self, each):
        rules = tuple(Rule(rule["line"], rule["keyword"], rule["why"]) for rule in each["rules"])
        path = os.path.join(self.folder, each["file"])
        return Group(path, tuple(each["planes"]), dict(each["types"]), each["halo"], rules)

    def _layer(self, each):
        images = tuple(
            Image(image["group"], image["type"], image["name"], image["plane"],
                  self.groups[image["group"]].planes.index(image["plane"]))
            for image in each["images"]
        )
        lists = (tuple(each[word]) for word in ("names", "planes", "residues", "parts"))
        return Layer(*lists, images)

    def layer(self, word):
        """Returns the layer with this name, or with the only name that begins so; else None."""
        if word in self._by_name:
            return self._by_name[word]
        found = [layer for name, layer in self._by_name.items() if name.startswith(word)]
        return found[0] if word and len(found) == 1 else None

    def notice(self):
        """Returns in one line how many rules aren't exact, and where they are listed; "" where all are."""
        counts = []
        for sides, words in NOTICES:
            lines = {remark["line"] for remark in self.remarks if remark["side"] in sides}
            if lines:
                counts.append(f"{len(lines)} {words}")
        if not counts:
            return ""
        return f"{self.name}: of {self.lines} rule lines {', '.join(counts)} ({os.path.join(self.folder, REPORT)})"
