"""Cell files of Magic: rectangles by section, uses of other cells, and the scale that all numbers are in."""

import io
from math import gcd
from operator import ge

# Sections without rectangles of a layer.
WORDS = {"labels", "properties", "elements"}
UNCHECKED = "checkpaint"
MARKS = "error_p"

# How much of a file is read at a time, in characters.
CHUNK = 1 << 20


class MagFault(Exception):
    """The text is no cell file."""


class Use:
    """A cell placed in another one.

    A transform is a b c d e f, and leads x y to (a x + b y + c, d x + e y + f). An array is the numbers of its first
    and last column and the step between two, and the same of its rows; the transform leads the whole array.
    """

    def __init__(self, name, line, path=""):
        self.name = name
        self.line = line
        self.path = path
        self.transform = None
        self.array = (0, 0, 0, 0, 0, 0)

    @property
    def elements(self):
        """How many columns and rows there are."""
        first, last, _, bottom, top, _ = self.array
        return abs(last - first) + 1, abs(top - bottom) + 1


class Cell:
    """A cell as its file has it: left, bottom, right and top of each rectangle, which are in lambda times the scale.

    The scale is two numbers, one to be divided by the other, in lowest terms.
    """

    def __init__(self):
        self.tech = ""
        self.scale = (1, 1)
        self.sections = {}
        self.uses = []

    @property
    def layers(self):
        """The rectangles of each layer, those of marks and of unchecked areas left out."""
        return {name: rects for name, rects in self.sections.items() if is_layer(name)}


def is_layer(section):
    """Returns whether a section has what was painted."""
    return section not in (UNCHECKED, "checksubcell") and not section.startswith("error_")


def read(text):
    """Returns the cell of a text, or of an open file. One that Magic would read only in part is refused."""
    cell = read_packed(text, list)
    cell.sections = {name: list(rects_of(numbers)) for name, numbers in cell.sections.items()}
    return cell


def rects_of(numbers):
    """Returns the rectangles of numbers, four by four."""
    return zip(*[iter(numbers)] * 4)


def rects_in(lines):
    """Returns the numbers of lines that are all rectangles, one behind the other, or None."""
    words, count = lines.split(), lines.count("\n")
    if len(words) != 5 * count or words[::5] != ["rect"] * count:
        return None
    if not lines.startswith("rect ") or lines.count("\nrect ") + 1 != count:
        return None
    del words[::5]
    try:
        numbers = list(map(int, words))
    except ValueError:
        return None
    if any(map(ge, numbers[0::4], numbers[2::4])) or any(map(ge, numbers[1::4], numbers[3::4])):
        return None
    return numbers


def read_packed(text, new, numbers_in=rects_in):
    """Returns the same, each section in what `new` makes, with the numbers of its rectangles one behind the other.

    `numbers_in` reads lines of rectangles, as `rects_in`.
    """
    file = io.StringIO(text, None) if isinstance(text, str) else text
    reading = Reading(file, new, numbers_in)
    while not reading.is_whole and (chunk := file.read(CHUNK)):
        reading.take(chunk + file.readline())
    if not reading.is_whole:
        raise MagFault("the file ends without `<< end >>`")
    return finished(reading.cell)


class Reading:
    """How far a file is read: its cell, the section, and the numbers of this one."""

    def __init__(self, file, new, numbers_in):
        self.new = new
        self.numbers_in = numbers_in
        self.cell = Cell()
        self.is_whole = False
        self.section = None
        self.numbers = None
        # How many lines are read.
        self.count = 0
        heads = (line.split() for line in self.heads(file) if line.strip() and not line.startswith("#"))
        if next(heads, None) != ["magic"]:
            raise MagFault("the first line isn't `magic`")

    def heads(self, file):
        """Yields lines, counted."""
        while line := file.readline():
            self.count += 1
            yield line

    def take(self, text):
        """Reads whole lines: a section's rectangles together where there is nothing else, else line by line."""
        for place, part in enumerate(text.removesuffix("\n").split("\n<<")):
            part = f"<<{part}\n" if place else f"{part}\n"
            if part.startswith("<<"):
                line, _, part = part.partition("\n")
                self.take_line(line)
            if self.is_whole:
                return
            if part and not (self.numbers is not None and self.section not in WORDS and self.take_rects(part)):
                for line in part.removesuffix("\n").split("\n"):
                    self.take_line(line)

    def take_rects(self, lines):
        """Reads lines that are all rectangles, and returns whether they are."""
        numbers = self.numbers_in(lines)
        if numbers is None:
            return False
        self.numbers.extend(numbers)
        self.count += len(numbers) // 4
        return True

    def take_line(self, line):
        """Reads a line."""
        self.count += 1
        number = self.count
        if line.startswith("rect ") and self.section not in WORDS:
            if self.numbers is None:
                raise MagFault(f"line {number}: a rectangle outside sections")
            self.numbers.extend(rect_of(number, line))
        elif line.startswith("<<"):
            self.section = section_of(number, line)
            self.is_whole = self.section == "end"
            if not self.is_whole and self.section not in WORDS:
                self.numbers = self.cell.sections.setdefault(self.section, self.new())
        elif line.strip() and not line.startswith("#"):
            read_other(self.cell, self.section, number, line)


def rect_of(number, line):
    """Returns the rectangle of a line."""
    try:
        _, left, bottom, right, top = line.split()
        left, bottom, right, top = int(left), int(bottom), int(right), int(top)
    except ValueError:
        left, bottom, right, top = numbers_of(number, line, 4)
    if left >= right or bottom >= top:
        raise MagFault(f"line {number}: a rectangle without a square")
    return left, bottom, right, top


def numbers_of(number, line, count):
    """Returns this many whole numbers, which are all that stands behind the first word of a line."""
    words = line.split()
    try:
        if len(words) == count + 1:
            return tuple(map(int, words[1:]))
    except ValueError:
        pass
    raise MagFault(f"line {number}: not {count} whole numbers behind `{words[0]}`")


def section_of(number, line):
    words = line.split()
    if len(words) != 3 or words[0] != "<<" or words[2] != ">>":
        raise MagFault(f"line {number}: no section: {line.strip()}")
    return words[1]


def read_other(cell, section, number, line):
    """Reads a line that is neither a section nor a rectangle. Magic writes uses below any section."""
    words = line.split()
    if words[0] == "use":
        if len(words) < 2:
            raise MagFault(f"line {number}: a use of no cell")
        cell.uses.append(Use(words[1], number, words[3] if len(words) > 3 else ""))
    elif words[0] in ("transform", "array") and cell.uses:
        setattr(cell.uses[-1], words[0], numbers_of(number, line, 6))
    elif words[0] == "tri" and section not in WORDS:
        raise MagFault(f"line {number}: a triangle")
    elif section is None:
        read_head(cell, number, line)
    elif section not in WORDS and is_layer(section) and words[0] not in ("box", "timestamp"):
        raise MagFault(f"line {number}: no line of a layer: {line.strip()}")


def read_head(cell, number, line):
    """Reads a line above all sections; unknown ones say nothing of the layout."""
    word, _, rest = line.strip().partition(" ")
    if word == "tech":
        cell.tech = rest.strip()
    elif word == "magscale":
        over, under = numbers_of(number, line, 2)
        if over < 1 or under < 1:
            raise MagFault(f"line {number}: a scale that isn't positive")
        cell.scale = over // gcd(over, under), under // gcd(over, under)


def finished(cell):
    """Returns the cell without sections that have nothing."""
    for use in cell.uses:
        if use.transform is None:
            raise MagFault(f"line {use.line}: a use of {use.name} without a transform")
    cell.sections = {name: numbers for name, numbers in cell.sections.items() if numbers}
    return cell


def write(file, tech, sections, scale=(1, 1)):
    """Writes sections, each a name and rectangles, to an open file, as a flat cell."""
    file.write(f"magic\ntech {tech}\n")
    if scale != (1, 1):
        file.write("magscale %d %d\n" % scale)
    for name, rects in sections:
        file.write(f"<< {name} >>\n")
        file.writelines("rect %d %d %d %d\n" % rect for rect in rects)
    file.write("<< end >>\n")
