"""Windows checked by magicd, some of them by one, each as a cell in a session of its own."""

import hashlib
import json
import os
import re
from itertools import islice

from kolasieve import violations
from kolasieve.faults import Fault
from kolasieve.hierarchy import SUFFIX
from kolasieve.script import Run
from kolasieve.windows import fitting, is_square

# How many cells a magicd takes, and how many tiles it allows a cell's plane at least.
CELLS = 64
LEAST_CELL_TILES = 4096

# How many tiles magicd keeps for a plane of a session beside its quota.
SPARE_TILES = 64

# What magicd says where a cell has too many tiles, and its refusal where marks or a layout have.
CELL_REFUSED = re.compile(r"cell w(\d+) line 0 fault 6 ")
REFUSED = ["refused", "5"]


class CheckFault(Fault):
    """The layout can't be checked."""


class TooLarge(Exception):
    """A window has more tiles than a cell may have; its violations would stand in the file of this path."""

    def __init__(self, path):
        super().__init__(path)
        self.path = path


class Killed(Exception):
    """A signal has ended a magicd."""


class Part:
    """What is checked of a group: a technology file, its text, the texts of its rules, and what layers are painted as."""

    def __init__(self, group, path, tech, texts, images):
        self.group = group
        self.path = path
        self.tech = tech
        self.texts = texts
        self.images = images


class Batches:
    """Checks of the windows of a part. Of those that show the same only one is checked."""

    def __init__(self, part, server, sizes, folder):
        """Takes a folder for the windows' files, which those who check other windows of the same layout use too."""
        self.part = part
        self.sizes = sizes
        self.folder = folder
        cell_tiles = max(sizes.tiles, LEAST_CELL_TILES)
        pool = (cell_tiles * CELLS + sizes.tiles + SPARE_TILES) * (len(part.group.planes) + 1)
        options = {"tech": part.path, "quota": sizes.tiles, "cell-tiles": cell_tiles, "pool": pool, "journal": CELLS}
        self.command = [server, *(word for name, value in options.items() for word in (f"--{name}", str(value)))]

    def violations(self, windows):
        """Returns rectangles of what is forbidden in windows, by the rules' texts; yields where others may go on."""
        waiting, found = [each for each in windows if any(self.part.images[name] for name in each.layers)], {}
        while waiting:
            batch = [(each, *self.cell_of(each)) for each in waiting[:CELLS]]
            del waiting[:CELLS]
            yield from self.check({path: (each, text) for each, path, text in batch if not os.path.exists(path)})
            for each, path, _ in batch:
                with open(path, encoding="utf-8") as file:
                    forbidden = json.load(file)
                if forbidden is None:
                    waiting += self.halved(each)
                    continue
                x, y, *_ = each.core
                for number, rects in forbidden:
                    moved = [(l + x, b + y, r + x, t + y) for l, b, r, t in rects]
                    found.setdefault(self.part.texts[number - 1], []).extend(moved)
        return found

    def cell_of(self, window):
        """Returns the file for what a window forbids, whose name stands for all that this depends on, and its cell."""
        text = window.text(self.part.images)
        left, bottom, right, top = window.core
        digest = hashlib.sha256(f"{self.part.tech}\n{right - left} {top - bottom}\n{text}".encode())
        return os.path.join(self.folder, digest.hexdigest()), text

    def halved(self, window):
        """Returns the halves of a window that was refused, those left out that are empty."""
        if is_square(window.core):
            x, y, *_ = window.core
            raise CheckFault(
                f"{self.part.group.path}: within {window.border} squares of ({x},{y}) there is too much for a session: "
                f"a plane has more than {self.sizes.tiles} tiles"
            )
        return [each for half in window.halves for each in fitting(half, self.sizes, [self.part])]

    def check(self, cells):
        """Writes what windows forbid to files, or null where one is too large; `cells` has windows and texts."""
        was_killed = False
        while cells:
            try:
                yield from self.check_by_one(cells)
            except TooLarge as fault:
                write(fault.path, "null")
            except Killed as fault:
                if was_killed:
                    raise CheckFault(f"{self.part.group.path}: {fault}") from None
                was_killed = True
            cells = {path: each for path, each in cells.items() if not os.path.exists(path)}

    def check_by_one(self, cells):
        """Writes what windows forbid to files, once the magicd that checks them has ended."""
        names = {f"w{number}": each for number, each in enumerate(cells.items())}
        files = {name: f"{path}.{os.getpid()}{SUFFIX}" for name, (path, _) in names.items()}
        run, script = None, []
        try:
            for name, (_, (window, text)) in names.items():
                write(files[name], text)
                script += script_of(name, window)
            words = [f"{name}={path}" for name, path in files.items()]
            run = Run([*self.command, *words], "\n".join([*script, ""]), files["w0"])
            yield
            status, replies, said = run.wait()
            if status < 0:
                raise Killed(said)
            if status > 0:
                refused = CELL_REFUSED.search(said)
                raise TooLarge(names[f"w{refused[1]}"][0]) if refused else CheckFault(f"{self.part.group.path}: {said}")
            lines = iter(replies.split(b"\n"))
            for path, (window, _) in names.values():
                write(path, json.dumps(self.forbidden(lines, len(window.boxes), said)))
        finally:
            if run:
                run.end()
            for path in files.values():
                remove(path)

    def forbidden(self, lines, boxes, said):
        """Returns what magicd has replied for a window, pairs of a rule's number and rectangles; None for too large."""
        found, is_too_large = {}, False
        for _ in range(boxes + 3):
            head = next(lines, b"").decode()
            words = [*head.split(), "", ""]
            if words[1] == "violations":
                for number, _, rects in violations.rules_of(islice(lines, int(words[2]))):
                    found.setdefault(number, []).extend(rects)
            elif words[1:3] == REFUSED:
                is_too_large = True
            elif words[1] not in ("opened", "ok", "closed"):
                raise CheckFault(f"{self.part.group.path}: {head or said}")
        return None if is_too_large else sorted(found.items())


def script_of(name, window):
    """Returns the lines of a session that shows a window's cell, and lists what is forbidden in it."""
    looks = ["%%violations %s %d %d %d %d" % (name, *box) for box in window.boxes]
    return [f"%open {name}", f"{name} getcell {name} 0 0", *looks, f"%close {name}"]


def write(path, text):
    """Writes a file, which is there whole or not at all."""
    part = f"{path}.{os.getpid()}"
    try:
        with open(part, "w", encoding="utf-8") as file:
            file.write(text)
        os.replace(part, path)
    except OSError as fault:
        raise OSError(fault.errno, fault.strerror, path) from None


def remove(path):
    """Removes a file, if it is there."""
    try:
        os.unlink(path)
    except FileNotFoundError:
        pass
