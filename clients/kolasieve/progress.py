"""How far a check is."""

import time


class Progress:
    """Says how many windows of all are checked, what was found, and how long the rest will take."""

    def __init__(self, weights, say):
        """Takes how much there is to do in each window, and a function that shows a line."""
        self.whole = sum(weights)
        self.count = len(weights)
        self.say = say
        self.begun = time.monotonic()
        self.windows = self.done = self.found = 0

    def add(self, weight, found):
        """Counts a window, and what was found in it."""
        self.windows += 1
        self.done += weight
        self.found += found
        left = (time.monotonic() - self.begun) * (self.whole - self.done) / max(self.done, 1)
        self.say(f"checked {self.windows} of {self.count} windows, {self.found} violations, {left:.0f} s to go")
