"""Whole layouts in Magic, clients/process and KLayout: see chips.sh."""

import argparse
import contextlib
import lzma
import math
import os
import pathlib
import re
import shutil
import signal
import subprocess
import sys
import tempfile
import time
from dataclasses import dataclass

HERE = pathlib.Path(__file__).resolve().parent
CLIENTS = HERE.parent / "clients"
sys.path.insert(0, str(CLIENTS))

from kolasieve import mag
from kolasieve.rects import bounds

TECHNOLOGY = pathlib.Path("/usr/share/qflow/tech/osu035/SCN4M_SUBM.20.tech")

# After how many seconds a check is ended.
LIMIT = float(os.environ.get("LIMIT", "400"))

# What is checked where nothing else is said.
COUNTS = ["10000", "100000", "1000000", "10000000", "10000000placed"]

# Who looks at each use of a cell as if the layout were flat.
FLAT = ("one thread", "threads")

# How far copies lie apart, so that nothing of one is too near to another.
GAP = 20

CORES = len(os.sched_getaffinity(0))

MAGIC = """drc off
drc euclidean off
load {layout} -force
select top cell
drc check
drc catchup
foreach {{why boxes}} [drc listall why] {{ puts "found $why" }}
quit -noprompt
"""

# A rule of the width or the distance of metal, in what any of the three says of it.
RULE = re.compile(r"Metal[1-4] (?:width|spacing) (?:<|&lt;) 3")


@dataclass
class Ran:
    """What a check took: seconds of a processor, and by the clock, and megabytes; and which rules it found broken.

    One that was ended before it was through has no rules.
    """

    processor: float
    clock: float
    memory: float
    rules: set = None


def descendants(first):
    """Returns a process and all that it has started, as long as they run."""
    started = {}
    for path in pathlib.Path("/proc").glob("[0-9]*/stat"):
        try:
            parent = int(path.read_text().rpartition(")")[2].split()[1])
        except OSError:
            continue
        started.setdefault(parent, []).append(int(path.parent.name))
    found = [first]
    for each in found:
        found += started.get(each, [])
    return found


def memory(first):
    """Returns how many megabytes a process has with all that it has started, shared ones once."""
    count = 0
    for each in descendants(first):
        try:
            text = pathlib.Path(f"/proc/{each}/smaps_rollup").read_text()
        except OSError:
            continue
        count += int(found[1]) if (found := re.search(r"(?m)^Pss: +(\d+)", text)) else 0
    return count / 1024


def run(command, said, text="", found=None):
    """Runs a check, which writes what it finds to a file; returns what it took."""
    most, begun = 0.0, time.monotonic()
    with tempfile.TemporaryFile("w+") as script, open(said, "w", encoding="utf-8") as out:
        script.write(text)
        script.seek(0)
        process = subprocess.Popen(command, stdin=script, stdout=out, stderr=subprocess.STDOUT, start_new_session=True)
        ended, late = 0, False
        while not ended:
            most = max(most, memory(process.pid))
            late = late or time.monotonic() - begun > LIMIT
            if late:
                for each in reversed(descendants(process.pid)):
                    with contextlib.suppress(ProcessLookupError):
                        os.kill(each, signal.SIGKILL)
            ended, _, used = os.wait4(process.pid, 0 if late else os.WNOHANG)
            if not ended:
                time.sleep(min(1, 0.05 + (time.monotonic() - begun) / 20))
    ran = Ran(used.ru_utime + used.ru_stime, time.monotonic() - begun, most)
    if not late:
        with open(found or said, encoding="utf-8", errors="replace") as lines:
            # KLayout's file names all rules, and those again of which it has found something.
            named = (line for line in lines if not found or "<category>'" in line)
            ran.rules = {each.replace("&lt;", "<") for line in named for each in RULE.findall(line)}
    return ran


def by_magic(layout):
    said = layout.with_suffix(".magic")
    command = ["magic", "-dnull", "-noconsole", "-rcfile", "/dev/null", "-T", str(TECHNOLOGY.with_suffix(""))]
    return run(command, said, MAGIC.format(layout=layout.with_suffix("")))


def by_client(layout, program, process, jobs):
    return run(
        [CLIENTS / "process", "check", process, layout, "--server", program, "-j", str(jobs)], layout.with_suffix(".said")
    )


def by_klayout(layout, threads):
    found = layout.with_suffix(".lyrdb")
    values = {"input": layout, "output": found, "threads": threads}
    words = [word for name, value in values.items() for word in ("-rd", f"{name}={value}")]
    return run(["klayout", "-b", "-r", CLIENTS / "tests/metal.drc", *words], layout.with_suffix(".klayout"), found=found)


def write(path, cell, count, placed):
    """Writes a layout of about so many rectangles; returns how many it has."""
    each = sum(map(len, cell.layers.values()))
    left, bottom, right, top = bounds([rect for rects in cell.layers.values() for rect in rects])
    if count < each:
        # A part with as much of the block's height.
        line = bottom + (top - bottom) * count // each
        layers = {name: [rect for rect in rects if rect[3] <= line] for name, rects in cell.layers.items()}
        with open(path, "w", encoding="utf-8") as file:
            mag.write(file, cell.tech, layers.items(), cell.scale)
        return sum(map(len, layers.values()))
    copies = max(1, round(count / each))
    columns = math.isqrt(copies - 1) + 1
    wide, high = right - left + GAP, top - bottom + GAP
    moves = [(place % columns * wide, place // columns * high) for place in range(copies)]
    with open(path, "w", encoding="utf-8") as file:
        file.write(f"magic\ntech {cell.tech}\nmagscale {cell.scale[0]} {cell.scale[1]}\ntimestamp 1\n")
        if placed:
            for place, (x, y) in enumerate(moves):
                file.write(f"use block block_{place}\ntransform 1 0 {x} 0 1 {y}\nbox {left} {bottom} {right} {top}\n")
        for name, rects in {} if placed else cell.layers.items():
            file.write(f"<< {name} >>\n")
            for x, y in moves:
                file.writelines(f"rect {l + x} {b + y} {r + x} {t + y}\n" for l, b, r, t in rects)
        file.write("<< end >>\n")
    return copies * each


def compare(layout, count, is_placed, checks, paces):
    """Prints the rows of a layout. `paces` has what a rectangle took before: what would take too long isn't tried."""
    ran = {}
    for who, check in checks.items():
        kind = who, is_placed and who not in FLAT
        if paces.get(kind, 0) * count <= LIMIT:
            ran[who] = check(layout)
            paces[kind] = ran[who].clock / count
    title = f"{count:,}{' placed' if is_placed else ''}"
    one = [ran.get(who) for who in ("Magic", "one process", "one thread")]
    many = [None, ran.get("processes"), ran.get("threads")]
    row(title, "processor", [figure(each, "processor") for each in one])
    row(title, "clock", [figure(each, "clock") for each in many])
    row(title, "memory", [figure(each, "memory") for each in (one[0], many[1], many[2])])
    row(title, "found", [str(len(each.rules)) if each and each.rules is not None else "" for each in one])


def figure(ran, what):
    """Returns a figure as a row has it, that of an ended check as what there was at least."""
    if ran is None:
        return ""
    number = getattr(ran, what)
    return f"{'over ' if ran.rules is None else ''}{f'{number:.3g}' if number < 1000 else f'{number:.0f}'}"


def row(title, what, figures):
    print(title, what, *figures, sep="\t", flush=True)


def main():
    parser = argparse.ArgumentParser()
    parser.add_argument("program", type=pathlib.Path)
    parser.add_argument("counts", nargs="*", default=COUNTS, help="a number, or one and `placed`")
    words = parser.parse_args()
    missing = [each for each in ("magic", "klayout") if not shutil.which(each)]
    if missing or not TECHNOLOGY.exists():
        raise SystemExit("chips: Debian's magic, klayout and qflow-tech-osu035 must be installed")
    print("rectangles", "what", "Magic", "Kolasieve", "KLayout", sep="\t", flush=True)
    with tempfile.TemporaryDirectory() as name:
        folder, paces = pathlib.Path(name), {}
        process = folder / "process"
        subprocess.run([CLIENTS / "process", "compile", TECHNOLOGY, "-o", process], capture_output=True, check=True)
        checks = {
            "Magic": by_magic,
            "one process": lambda layout: by_client(layout, words.program, process, 1),
            "one thread": lambda layout: by_klayout(layout, 1),
            "processes": lambda layout: by_client(layout, words.program, process, CORES),
            "threads": lambda layout: by_klayout(layout, CORES),
        }
        text = lzma.decompress((HERE / "layouts/routed.mag.xz").read_bytes()).decode()
        (folder / "block.mag").write_text(text)
        cell = mag.read(text)
        # The first check has what Python compiles, as every later one of a user.
        os.environ.pop("PYTHONDONTWRITEBYTECODE", None)
        by_client(folder / "block.mag", words.program, process, 1)
        for word in words.counts:
            layout = folder / "chip.mag"
            is_placed = word.endswith("placed")
            count = write(layout, cell, int(word.removesuffix("placed")), is_placed)
            compare(layout, count, is_placed, checks, paces)


main()
