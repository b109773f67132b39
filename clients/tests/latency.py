"""From the mouse's press, which paints, to the mark on the screen: /usr/bin/python3 -m tests.latency

Prints milliseconds, with 10,000 rectangles in the window: of the marks, and of these those in the window's thread; with
one designer, and with ten, each with such a window.
"""

import itertools
import lzma
import os
import statistics
import threading
import time
import unittest

from tests.serving import ROOT
from tests.test_following import Companion
from tests.test_magic import MagicCase
from tests.windows import needs_window

from kolasieve import mag

EDITS = 100

# How many designers there are besides.
OTHERS = 9

# Says when the mouse has painted, when marks are drawn, and how long the look at the window took.
CLOCKS = """
proc clock_of {what args} { ::kolasieve::say "clock $what [::tcl::clock::microseconds]" }
trace add execution ::*bypass enter {clock_of mouse}
trace add execution ::kolasieve::look enter {clock_of look}
trace add execution ::kolasieve::look leave {clock_of looked}
trace add execution ::kolasieve::told_violations leave {clock_of marked}
"""


class Designer(threading.Thread):
    """Another designer: a companion whose window, with as many rectangles, has an edit each second."""

    def __init__(self, case, name, layers):
        super().__init__(daemon=True)
        self.companion, self.layers = Companion(case, name), layers
        self.stops = threading.Event()
        self.edit(50)
        self.start()

    def edit(self, left):
        bar = [(-left, -40, 1 - left, -30)]
        self.companion.look({**self.layers, "polysilicon": self.layers["polysilicon"] + bar})
        self.companion.settled()

    def run(self):
        for edit in itertools.count():
            if self.stops.wait(1):
                return
            self.edit(51 + edit % 20)

    def end(self):
        self.stops.set()
        self.join()


@needs_window
class Latency(MagicCase):
    def text(self):
        """Returns a cell of 10,088 rectangles."""
        text = lzma.decompress((ROOT / "bench/layouts/inverters.mag.xz").read_bytes()).decode()
        squares = "".join(f"rect {x} {y} {x + 4} {y + 4}\n" for x in range(2000, 2400, 8) for y in range(0, 288, 8))
        return text.replace("<< end >>", f"<< metal3 >>\n{squares}<< end >>")

    def test_marks_after_the_mouse(self):
        (self.folder / "top.mag").write_text(self.text())
        self.window.tell("load top; box values -50 -60 -40 -50; paint poly")
        self.connect()
        self.window.tell("proc settled {} { return [expr {$::kolasieve::awaiting eq {}}] }")
        self.window.says("is opened")
        self.until(lambda: self.window.tell("settled") == "1", 1)
        self.window.show(-60, -70, 60, -10)
        self.window.tell(CLOCKS)
        self.measure("one designer")
        layers = mag.read(self.text()).layers
        others = [Designer(self, f"other{number}", layers) for number in range(OTHERS)]
        self.measure(f"{OTHERS + 1} designers")
        for other in others:
            other.end()

    def measure(self, who):
        """Prints how long marks take after the mouse, and of these the looks."""
        marks, looks, start = [], [], time.monotonic()
        for edit in range(EDITS):
            if edit % 2 == 0:
                self.window.tell(f"box values {edit % 50} -40 {edit % 50 + 1} -30")
            self.window.said = []
            self.window.click(2, -45, -55, *(["shift"] if edit % 2 else []))
            times = self.until(self.times, 0.2)
            marks.append((times["marked"] - times["mouse"]) / 1000)
            looks.append((times["looked"] - times["look"]) / 1000)
        load = f"load {os.getloadavg()[0]:.0f} on {os.cpu_count()} cores"
        print(f"{who}, {EDITS} edits in {time.monotonic() - start:.0f} s, {load}")
        for what, times in (("mouse to mark", marks), ("look", looks)):
            figures = f"median {statistics.median(times):.0f} ms, 99th of a hundred {sorted(times)[-2]:.0f} ms"
            print(f"{what}: {figures}", flush=True)

    def times(self):
        """Returns the first time of each clock since the mouse, once marks are drawn."""
        self.window.tell("update")
        times = {}
        for line in self.window.said:
            if line.startswith("clock ") and ("mouse" in times or "mouse" in line):
                times.setdefault(line.split()[1], int(line.split()[2]))
        return times if "marked" in times else None


if __name__ == "__main__":
    unittest.main()
