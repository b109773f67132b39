"""Lines that show what a technology is: how many planes there are, what each name paints and erases, and, on a layout
strewn with all types, how many squares are marked, and which rules forbid some in each of many boxes.
"""

import functools
import pathlib
import random
import subprocess
import tempfile

from tests import squares
from tests.plain_files import TECH_FAULTS, Fault, Technology
from tests.serving import SERVER, Ending

# A layout on which rules are looked at lies this far from the border of a window.
MARGIN, SIDE = 16, 80
WINDOW = squares.Window(-MARGIN, -MARGIN, SIDE)
BOXES = [(x, y, x + 12, y + 12) for x in range(0, 48, 12) for y in range(0, 48, 12)]


def runs_of(words, script, file):
    """Runs the program on a file that is called `file`, and returns how it ended."""
    with tempfile.TemporaryDirectory() as folder:
        pathlib.Path(folder, "file").write_bytes(file)
        run = subprocess.run([SERVER, *words], input=script, capture_output=True, cwd=folder, timeout=600)
    return Ending(run.stdout, run.stderr, run.returncode)


@functools.cache
def strewn(kind):
    """Returns the rectangles of a type on the layout on which rules are looked at."""
    dice = random.Random(kind)
    corners = [(dice.randrange(44), dice.randrange(44)) for _ in range(12)]
    return [(x, y, x + dice.randrange(1, 5), y + dice.randrange(1, 5)) for x, y in corners]


@functools.cache
def forbidden_by(rules, planes, painted):
    """Returns the squares that each rule forbids on that layout, where these types are painted in their order."""
    layout = dict.fromkeys((kind for plane in planes for kind in plane), 0)
    for kind in painted:
        plane = next(plane for plane in planes if kind in plane)
        for sides in strewn(kind):
            area = WINDOW.area(sides)
            layout |= {other: layout[other] & ~area for other in plane}
            layout[kind] |= area
    return [WINDOW.forbidden(layout, on_squares(rule, planes)) for rule in rules]


def on_squares(rule, planes):
    assert rule.distance < MARGIN and rule.corner_distance in (0, rule.distance)
    first, second, fine, corner = ({kind or "space" for kind in kinds} for kinds in rule[1:5])
    corner = corner if rule.corner_distance else set()
    return squares.Rule(
        planes[rule.trigger], first, second, corner, planes[rule.check], fine, rule.distance, rule.four_way, b"",
    )


def why(rules, whys, area):
    """Returns what is said of the rules that forbid a square of an area."""
    found = [b" [%d] %s" % (number, text) for number, (bad, text) in enumerate(zip(rules, whys), 1) if bad & area]
    return b"why %d%s" % (len(found), b"".join(found))


class Probe:
    """Lines that show a technology, with their replies."""

    def __init__(self, technology):
        self.technology, self.rows = technology, []
        kinds = range(1, len(technology.type_planes))
        # A name that ends in a carriage return can't end a line.
        self.names = {technology.types[name]: name for name in technology.types if not name.endswith(b"\r")}
        self.painted = tuple(kind for kind in kinds if kind in self.names)
        self.planes = tuple(tuple(sorted(technology.of_plane(plane) - {0})) for plane in range(technology.plane_count))
        self.ask(b"%open a", b"opened")
        self.ask(b"%stat a", b"stat 0 of 4096 entries, 0 steps since, 0 dirty, %sof 1024 tiles, 1 of 1024 mark tiles"
                 % (b"1 " * technology.plane_count))
        self.look_at_rules()
        for place, name in enumerate(technology.types):
            self.look_at_name(200 + 9 * place, name)

    def ask(self, line, reply):
        self.rows.append((line, b"a " + reply))

    def box(self, sides):
        self.ask(b"a box %d %d %d %d" % sides, b"ok")

    def look_at_rules(self):
        for kind in self.painted:
            for sides in strewn(kind):
                self.box(sides)
                self.ask(b"a paint " + self.names[kind], b"ok")
        self.ask(b"a drc catchup", b"ok")
        bad = forbidden_by(tuple(self.technology.compiled()), self.planes, self.painted)
        self.ask(b"a drc count", b"count %d errors 0 pending" % squares.union(bad).bit_count())
        for sides in BOXES:
            reply = why(bad, self.technology.whys(), WINDOW.area(sides))
            self.ask(b"%%why a %d %d %d %d" % sides, reply)

    def look_at_name(self, left, name):
        """Shows that a name erases its type alone, and which name is printed of each."""
        self.box((left, 100, left + 1, 101))
        for kind in self.painted:
            self.ask(b"a paint " + self.names[kind], b"ok")
            self.ask(b"a what", self.types_shown([kind]))
            self.ask(b"a erase %s,space" % name, b"ok")
            self.ask(b"a what", self.types_shown([kind] if self.technology.types[name] != kind else []))
            self.ask(b"a erase %s,space" % self.names[kind], b"ok")

    def types_shown(self, kinds):
        names = [b" " + self.technology.first_names[kind] for kind in kinds]
        return b"what %d%s" % (len(names), b"".join(names))


def script_and_replies(technology):
    lines, replies = zip(*Probe(technology).rows)
    return b"\n".join(lines), b"".join(reply + b"\n" for reply in replies)


def ending_of_technology(file):
    """Returns the lines that show a technology, and how the program ends on them."""
    try:
        technology = Technology(file)
    except Fault as fault:
        return b"", b"", b"magicd: tech line %d fault %d %s\n" % (
            fault.line, fault.number, TECH_FAULTS[fault.number].encode())
    messages = b"".join(b"magicd: tech line %d skipped %s\n" % skipped for skipped in technology.skipped)
    try:
        return *script_and_replies(technology), messages
    except Fault as fault:
        return b"", b"", messages + b"magicd: tech line %d rule fault 1 planes\n" % fault.line
