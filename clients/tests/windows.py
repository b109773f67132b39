"""Magic with a window on a display of its own, which a test moves the mouse over and types in."""

import os
import queue
import re
import shutil
import subprocess
import threading
import unittest

from tests.serving import GENEROUS, HERE

needs_window = unittest.skipUnless(
    shutil.which("magic") and shutil.which("Xvfb") and shutil.which("xdotool"), "magic, xvfb or xdotool isn't installed"
)


def open_display(case):
    """Starts a display server that ends with a test, and returns its name."""
    reading, writing = os.pipe()
    command = ["Xvfb", "-displayfd", str(writing), "-screen", "0", "900x700x24", "-nolisten", "tcp"]
    server = subprocess.Popen(command, pass_fds=[writing], stderr=subprocess.DEVNULL)
    case.addCleanup(server.wait)
    case.addCleanup(server.terminate)
    os.close(writing)
    with os.fdopen(reading) as file:
        return f":{file.readline().strip()}"


class Window:
    """A Magic with its window, in a folder."""

    def __init__(self, case, technology="scmos", **variables):
        self.case = case
        self.folder = case.folder
        self.display = open_display(case)
        command = ["magic", "-noconsole", "-rcfile", "/dev/null", "-T", technology]
        variables = {**os.environ, **variables, "DISPLAY": self.display, "TMPDIR": str(self.folder)}
        self.process = subprocess.Popen(
            command, stdin=subprocess.PIPE, stdout=subprocess.PIPE, stderr=subprocess.STDOUT, text=True, cwd=self.folder, env=variables,
        )
        case.addCleanup(self.end)
        # What Magic has said, and of this what was said by the file to test.
        self.lines, self.count, self.said = queue.Queue(), 0, []
        self.reading = threading.Thread(target=lambda: [self.lines.put(line) for line in self.process.stdout], daemon=True)
        self.reading.start()
        self.tell(f"source {HERE.parent / 'magic.tcl'}")

    def tell(self, script):
        """Has Magic carry a script out, and returns its result and all that was said since the last one."""
        self.count += 1
        mark = f"@@{self.count}"
        self.process.stdin.write(f"puts \"\\n{mark} [catch {{{script}}} result] $result\\n{mark} end\"\n")
        self.process.stdin.flush()
        said = []
        while f"{mark} end" not in (line := self.lines.get(timeout=GENEROUS)):
            said.append(line)
        text = "".join(said)
        before, _, result = text.partition(f"{mark} ")
        self.said += [line.removeprefix("kolasieve: ") for line in before.splitlines() if line.startswith("kolasieve: ")]
        status, _, result = result.partition(" ")
        if status != "0":
            raise RuntimeError(f"{script}: {result}")
        return result.removesuffix("\n")

    def says(self, part):
        """Waits until this is said, and forgets it."""
        self.case.until(lambda: self.tell("update") is not None and any(part in line for line in self.said), 0.25)
        self.said = []

    def mouse(self, *words):
        """Moves and clicks by words of xdotool, in pixels of the layout window."""
        subprocess.run(["xdotool", *map(str, words)], env={**os.environ, "DISPLAY": self.display}, check=True, timeout=GENEROUS)
        self.tell("update")

    def click(self, button, column, row, *keys):
        """Clicks at a square."""
        x, y = self.pixel(column, row)
        self.mouse("mousemove", x, y, *(word for key in keys for word in ("keydown", key)), "click", button,
                   *(word for key in keys for word in ("keyup", key)))

    def show(self, left, bottom, right, top):
        """Has the window show these squares."""
        self.tell(f"box values {left} {bottom} {right} {top}; findbox zoom; update")
        window = "[lindex [windownames layout] 0]"
        x, y, width, height = map(int, self.tell(
            f"list [winfo rootx {window}] [winfo rooty {window}] [winfo width {window}] [winfo height {window}]"
        ).split())
        left, bottom, right, top = map(int, self.tell("view get").split())
        self.pixel = lambda column, row: (
            round(x + (column - left) * width / (right - left)), round(y + (top - row) * height / (top - bottom))
        )

    def marks(self):
        """Returns the boxes of the feedback of each text, as Magic saves it."""
        path = self.folder / "feedback"
        self.tell(f"::magic::*bypass feedback save {path}")
        found, box = {}, None
        for line in path.read_text().splitlines():
            if line.startswith("box "):
                box = tuple(map(int, line.split()[1:]))
            elif rule := re.match(r'feedback add "kolasieve \d+: (.*)"', line):
                found.setdefault(rule[1], []).append(box)
        return {text: sorted(boxes) for text, boxes in found.items()}

    def flat(self):
        """Returns the file to which Magic writes what the window shows, flattened."""
        self.count += 1
        name = f"flat{self.count}"
        commands = (f"flatten -nolabels {name}", f"cellname filepath {name} {self.folder}", f"writeall force {name}")
        self.tell("; ".join(f"::magic::*bypass {command}" for command in commands))
        return self.folder / f"{name}.mag"

    def end(self):
        if self.process.poll() is None:
            try:
                self.process.stdin.write("quit -noprompt\n")
                self.process.stdin.flush()
                self.process.wait(30)
            except (OSError, subprocess.TimeoutExpired):
                self.process.kill()
                self.process.wait()
        self.reading.join(GENEROUS)
        self.process.stdin.close()
        self.process.stdout.close()
