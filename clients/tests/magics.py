"""Magic as tests run it, the cells of its package, and compiled processes."""

import atexit
import functools
import glob
import gzip
import pathlib
import shutil
import subprocess
import tempfile
import unittest

from kolasieve.compiling import Compiled
from kolasieve.process import Process

CELLS = pathlib.Path("/usr/share/doc/magic/tutorial")

needs_magic = unittest.skipUnless(shutil.which("magic"), "magic isn't installed")
needs_cells = unittest.skipUnless(shutil.which("magic") and any(CELLS.glob("*.mag")), "magic's tutorial isn't installed")


@functools.cache
def compiled(technology):
    """Returns the process of a technology of Debian's packages, compiled once; its folder goes when the tests end."""
    found = glob.glob(f"/usr/share/qflow/tech/*/{technology}.tech")
    kept = tempfile.TemporaryDirectory()
    atexit.register(kept.cleanup)
    Compiled.of(found[0] if found else technology).write(kept.name)
    return Process.load(kept.name)


def run_magic(where, script, technology="scmos"):
    """Runs commands in a Magic without a window, and returns what it says."""
    command = ["magic", "-dnull", "-noconsole", "-rcfile", "/dev/null", "-T", technology]
    text = "\n".join([*script, "quit -noprompt", ""])
    ran = subprocess.run(
        command, input=text, stdout=subprocess.PIPE, stderr=subprocess.STDOUT, text=True, cwd=where, timeout=300, check=False,
    )
    return ran.stdout


def copy_cells(where, technology="scmos"):
    """Copies the cells of Magic's package that are of a technology to a folder, and returns their names."""
    names = []
    for path in sorted(CELLS.glob("*.mag*")):
        text = path.read_bytes()
        text = gzip.decompress(text) if path.suffix == ".gz" else text
        if f"\ntech {technology}\n".encode() in text:
            names.append(path.name.partition(".")[0])
            (pathlib.Path(where) / f"{names[-1]}.mag").write_bytes(text)
    return names


def write_cell(where, name, sections=(), uses=(), technology="scmos"):
    """Writes a cell file. A use is a name, a transform, the bounds of the cell that is used, and perhaps an array."""
    lines = ["magic", f"tech {technology}", "timestamp 1"]
    for section, rects in sections:
        lines += [f"<< {section} >>", *("rect %d %d %d %d" % rect for rect in rects)]
    for number, (used, transform, bounds, *array) in enumerate(uses):
        lines += [f"use {used} {used}_{number}", *("array %d %d %d %d %d %d" % each for each in array), "timestamp 1"]
        lines += ["transform %d %d %d %d %d %d" % transform, "box %d %d %d %d" % bounds]
    path = pathlib.Path(where) / f"{name}.mag"
    path.write_text("\n".join([*lines, "<< end >>", ""]))
    return str(path)


def flattened_by_magic(where, names, technology="scmos"):
    """Flattens cells in Magic, saves them, has Magic read them again, and returns the files that it saves then."""
    script = ["drc off"]
    for name in names:
        script += [
            f"load {name} -force", "select top cell", "expand", f"flatten -nolabels {name}__flat", f"load {name}__flat",
            f"save {name}__flat",
        ]
    run_magic(where, script, technology)
    again = [command for name in names for command in (f"load {name}__flat -force", f"save {name}__again")]
    run_magic(where, ["drc off", *again], technology)
    return {name: str(pathlib.Path(where) / f"{name}__again.mag") for name in names}


def violations_by_magic(where, paths, technology="scmos"):
    """Returns what Magic forbids in each cell: its rectangles by the rules' texts."""
    script = ["drc on"]
    for number, path in enumerate(paths):
        script += [
            f"load {path.removesuffix('.mag')} -force", "select top cell", "foreach {l b r t} [box values] {}",
            "box values [expr $l-40]i [expr $b-40]i [expr $r+40]i [expr $t+40]i", "drc check", "drc catchup",
            f"foreach {{text boxes}} [drc listall why] {{ foreach box $boxes {{ puts \"@{number}\\t$text\\t$box\" }} }}",
        ]
    found = {path: {} for path in paths}
    for line in run_magic(where, script, technology).splitlines():
        if line.startswith("@"):
            number, text, box = line[1:].split("\t")
            found[paths[int(number)]].setdefault(text.replace('"', "'"), set()).add(tuple(map(int, box.split())))
    return found
