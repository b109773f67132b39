"""What a window of Magic is told: lines that are lists of Tcl, with numbers in lambda.

    read                                  the look's files are read
    say TEXT                              for the designer
    put BOX NAMES {{NAME BOX ..} ..}      in a box the window's cell is to have these layers, and none else of the names
    violations TEXT {BOX ..}              what a rule forbids from now on
    awaiting {BOX ..}                     where it isn't known yet what is forbidden
    ended
"""

import sys

from kolasieve.layout import Layout
from kolasieve.window import EVERYWHERE
from kolasieve.report import tcl_word


class Shown:
    """What a window shows: what is forbidden, by the rules' texts, and where that isn't known."""

    def __init__(self, grid):
        self.grid = grid
        # Maximal strips by the rules' texts.
        self.found = Layout()
        self.awaiting = []
        self.said = None

    def tell(self, *words):
        """Writes a line to the window."""
        sys.stdout.write(" ".join(words) + "\n")
        sys.stdout.flush()

    def say(self, text):
        """Shows a text to the designer, once until another one is shown."""
        if text != self.said:
            self.said = text
            self.tell("say", tcl_word(text))

    def box(self, rect):
        """Returns a rectangle as the window reads it."""
        return "{%s}" % " ".join(f"{at / self.grid:.9g}" for at in rect)

    def boxes(self, rects):
        return "{%s}" % " ".join(map(self.box, rects))

    def put(self, names, changes):
        """Has the window hold layers in boxes, and of all these names nothing else."""
        for box, layers in changes:
            painted = " ".join("{%s %s}" % (name, " ".join(map(self.box, rects))) for name, rects in layers.items())
            self.tell("put", self.box(box), "{%s}" % " ".join(names), "{%s}" % painted)

    def take(self, rect, found):
        """Takes what some rules forbid in a rectangle, by their texts; what they forbid outside it they still do."""
        for text, rects in found.items():
            if self.found.keep_layer(text, rect, rects):
                self.tell("violations", tcl_word(text), self.boxes(self.found.strips(text)))

    def forget(self):
        """Nothing is known any more, as of another cell."""
        self.take(EVERYWHERE, {text: [] for text in self.found.layers})

    def wait_for(self, rects):
        """Tells the window where it isn't known what is forbidden."""
        if rects != self.awaiting:
            self.awaiting = rects
            self.tell("awaiting", self.boxes(rects))
