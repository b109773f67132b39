"""What a check has found, as text and in the files of marker browsers."""

import contextlib
import json
import os
from itertools import islice

from kolasieve import mag
from kolasieve.rects import squares


class Violation:
    """A rule that forbids something: its text, strips of what it forbids, and whether the proved server found them."""

    def __init__(self, text, strips, is_proved=True):
        self.text = text
        self.strips = strips
        self.is_proved = is_proved

    @property
    def squares(self):
        return squares(self.strips)


class Report:
    """What is forbidden in a layout, by rule, and the strips of all of it together, whatever forbids them.

    Lambda is `grid` squares wide, and has so many micrometres. Strips come by bottom and then left; `most` of each rule
    are listed, or all.
    """

    def __init__(self, layout, cell, tech, micrometres, grid, layers, violations, marks, notes=(), most=None):
        self.layout = layout
        self.cell = cell
        self.tech = tech
        self.micrometres = micrometres
        self.grid = grid
        self.layers = layers
        self.violations = violations
        self.marks = marks
        self.notes = list(notes)
        self.most = most

    def listed(self, violation):
        """Returns the strips of a rule that are listed."""
        return islice(violation.strips, self.most)

    def write_text(self, file):
        """Writes a line for each rule, and one for all of them."""
        lines = [
            f"{violation.squares:9d} squares {len(violation.strips):6d} strips  {violation.text}"
            f"{'' if violation.is_proved else ' (by the client)'}"
            for violation in self.violations
        ]
        found = "nothing is forbidden"
        if lines:
            found = f"{len(lines)} rules forbid {squares(self.marks)} squares"
        file.write("\n".join([*lines, f"{self.layout}: {self.tech}: {found}", *self.notes, ""]))

    def write_json(self, file):
        """Writes the same for programs, with the strips. These are left, bottom, right and top, in squares."""
        said = {
            "layout": self.layout,
            "cell": self.cell,
            "technology": self.tech,
            "micrometres": self.micrometres,
            "grid": self.grid,
            "squares": squares(self.marks),
            "notes": self.notes,
        }
        file.write(f'{json.dumps(said)[:-1]}, "rules": [')
        for place, each in enumerate(self.violations):
            rule = {"rule": each.text, "squares": each.squares, "count": len(each.strips), "proved": each.is_proved}
            file.write(f'{", " if place else ""}{json.dumps(rule)[:-1]}, "strips": [')
            for number, strip in enumerate(self.listed(each)):
                file.write(f'{", " if number else ""}{list(strip)}')
            file.write("]}")
        file.write("]}\n")

    def write(self, path):
        """Writes a file, whose ending says of which kind it is; it is there whole or not at all."""
        kind = os.path.splitext(path)[1]
        with replaced(path) as file:
            WRITERS[kind](self, file)

    def write_database(self, file):
        """Writes KLayout's report database: a category for each rule, an item for each strip, in micrometres."""
        file.write('<?xml version="1.0" encoding="utf-8"?>\n<report-database>\n')
        file.write(f" <description>Design rules of {escape(self.tech)}</description>\n")
        file.write(f" <original-file>{escape(self.layout)}</original-file>\n <generator>process check</generator>\n")
        file.write(f" <top-cell>{escape(self.cell)}</top-cell>\n <tags/>\n <categories>\n")
        for each in self.violations:
            file.write(f"  <category><name>{escape(each.text)}</name><description/><categories/></category>\n")
        file.write(" </categories>\n <cells>\n")
        file.write(f"  <cell><name>{escape(self.cell)}</name><variant/><references/></cell>\n </cells>\n <items>\n")
        for each in self.violations:
            category = escape(klayout_word(each.text))
            for strip in self.listed(each):
                left, bottom, right, top = (f"{at * self.micrometres / self.grid:.9g}" for at in strip)
                file.write(
                    f"  <item><tags/><category>{category}</category><cell>{escape(self.cell)}</cell>"
                    "<visited>false</visited><multiplicity>1</multiplicity><image/>"
                    f"<values><value>box: ({left},{bottom};{right},{top})</value></values></item>\n"
                )
        file.write(" </items>\n</report-database>\n")

    def write_cell(self, file):
        """Writes the flat layout with all that is forbidden as `error_p`."""
        mag.write(file, self.tech, [(mag.MARKS, self.marks), *self.layers.items()], (1, self.grid))

    def write_feedback(self, file):
        """Writes commands for a Magic that shows the layout: feedback for each strip, in lambda."""
        file.write("feedback clear\n")
        for each in self.violations:
            for strip in self.listed(each):
                sides = " ".join(f"{at / self.grid:.9g}l" for at in strip)
                file.write(f"box values {sides}\nfeedback add {tcl_word(each.text)} medium\n")


WRITERS = {
    ".txt": Report.write_text,
    ".json": Report.write_json,
    ".lyrdb": Report.write_database,
    ".mag": Report.write_cell,
    ".tcl": Report.write_feedback,
}


@contextlib.contextmanager
def replaced(path):
    """Gives a file to write, which takes the place of the one of this path once all is written."""
    # It is imported here, since it takes long to import, and few reports are written to a file.
    import tempfile

    folder, name = os.path.split(path)
    try:
        number, written = tempfile.mkstemp(prefix=f".{name}.", dir=folder or ".", text=True)
    except OSError as fault:
        raise OSError(fault.errno, fault.strerror, path) from None
    try:
        with os.fdopen(number, "w", encoding="utf-8") as file:
            yield file
            file.flush()
            os.fsync(number)
        os.chmod(written, 0o666 & ~umask())
        os.replace(written, path)
    except BaseException as fault:
        os.unlink(written)
        if isinstance(fault, OSError):
            raise OSError(fault.errno, fault.strerror, path) from None
        raise


def escape(text):
    """Returns a text as XML has it."""
    return text.replace("&", "&amp;").replace("<", "&lt;").replace(">", "&gt;")


def umask():
    """Returns which rights new files don't have."""
    mask = os.umask(0)
    os.umask(mask)
    return mask


def klayout_word(text):
    """Returns the word by which an item of KLayout's report database names the category of this name."""
    return "'" + text.replace("\\", "\\\\").replace("'", "\\'") + "'"


def tcl_word(text):
    """Returns a word of Tcl that stands for this text."""
    return '"' + "".join("\\" + each if each in '"\\$[]{}' else each for each in text.replace("\n", " ")) + '"'
