"""Magic, KLayout and magicd on the same layouts: see beside.sh."""

import argparse
import gzip
import io
import lzma
import os
import pathlib
import re
import shutil
import statistics
import subprocess
import sys
import tempfile
import time

HERE = pathlib.Path(__file__).resolve().parent
ROOT = HERE.parent
sys.path.insert(0, str(ROOT / "clients"))

from kolasieve.flat import flattened
from kolasieve.hierarchy import Library
from kolasieve.mag import read, write
from kolasieve.process import Process
from kolasieve.scaling import scaled

# How often each thing is timed.
ROUNDS = 5

# How many edits and looks are timed together, and how many times over with magicd, whose start is taken away.
TIMES = 50
OVER = 20

# How many rectangles of a cell are checked together with magicd, by as many checks as it takes.
CHECKED = 20_000

# The technology M for Magic, which reads it for magicd too.
TECHNOLOGY = ROOT / "examples/m_magic.tech"

# Magic's own cells, which are checked where they are installed.
CELLS = pathlib.Path("/usr/share/doc/magic/tutorial")

OPTIONS = ["--quota", "16384", "--journal", "65536", "--cell-tiles", "16384"]

# What is timed, in the order of the table, and in which unit it is shown.
MEASURES = [
    ("paint a rectangle", "us"),
    ("erase a rectangle", "us"),
    ("an edit of 8 by 8 and its check", "us"),
    ("the rules of 20 by 20", "us"),
    ("the whole check", "ms"),
    ("save", "ms"),
    ("load", "ms"),
]
SCALE = {"us": 1e6, "ms": 1e3}


class Roll:
    """A fixed generator (Park and Miller 1988)."""

    def __init__(self):
        self.seed = 2026

    def below(self, limit):
        self.seed = self.seed * 16807 % 2147483647
        return self.seed % limit


def strewn(count, side=1160):
    """Returns rectangles on a grid of 4, each with its type: three of four are poly."""
    roll, out = Roll(), []
    for number in range(count):
        left, bottom = 4 * roll.below(side // 4), 4 * roll.below(side // 4)
        width, height = 4 + 4 * roll.below(4), 4 + 4 * roll.below(4)
        out.append(("m1" if number % 4 == 3 else "poly", (left, bottom, left + width, bottom + height)))
    return out


def places(side=1160):
    roll = Roll()
    return [(4 * roll.below(side // 4) + 1, 4 * roll.below(side // 4) + 1) for _ in range(TIMES)]


def cell(rectangles, technology="M"):
    """Returns the text of a cell file."""
    lines = ["magic", f"tech {technology}", "timestamp 1"]
    for name in dict.fromkeys(kind for kind, _ in rectangles):
        lines.append(f"<< {name} >>")
        lines += ["rect {} {} {} {}".format(*box) for kind, box in rectangles if kind == name]
    return "\n".join([*lines, "<< end >>", ""])


def around(rectangles, halo=16):
    """Returns the box round all rectangles, and so much more on each side."""
    boxes = [box for _, box in rectangles]
    least, most = (min(each[i] for each in boxes) for i in (0, 1)), (max(each[i] for each in boxes) for i in (2, 3))
    return tuple(each - halo for each in least) + tuple(each + halo for each in most)


def line(box):
    return "box {} {} {} {}".format(*box)


class Magicd:
    """The program: each time is that of a script less that of the script without the lines that are timed."""

    def __init__(self, program, folder):
        self.program, self.folder = program, folder

    def seconds(self, script, words=()):
        path = self.folder / "script"
        path.write_text("\n".join(script) + "\n")
        with open(path, "rb") as file, open(self.folder / "replies", "wb") as out:
            start = time.perf_counter()
            subprocess.run([self.program, *OPTIONS, *words], stdin=file, stdout=out, stderr=subprocess.DEVNULL, check=True)
            return time.perf_counter() - start

    def took(self, before, after, times=1, words=(), less_words=None):
        """Returns the seconds that one of so many lines takes."""
        less_words = words if less_words is None else less_words
        rounds = [(self.seconds(before, less_words), self.seconds(before + after, words)) for _ in range(ROUNDS)]
        refused = re.search(rb"(?m)^a refused .*$|^line .* fault .*$", (self.folder / "replies").read_bytes())
        if refused:
            raise SystemExit(f"beside: magicd: {refused[0].decode()}")
        less, more = (statistics.median(each) for each in zip(*rounds))
        return max(0.0, more - less) / times

    def measure(self, rectangles):
        """Returns the seconds of each measure on a layout of technology M."""
        (self.folder / "c.mag").write_text(cell(rectangles))
        words = [f"c={self.folder / 'c.mag'}"]
        boxes = [f"a {line(box)}" for _, box in rectangles]
        painted = [text for box, (kind, _) in zip(boxes, rectangles) for text in (box, f"a paint {kind}")]
        erased = [text for box, (kind, _) in zip(boxes, rectangles) for text in (box, f"a erase {kind}")]
        laid = ["%open a", "a dump c 0 0"]
        checked = [*laid, "a drc catchup"]
        edits, looks = [], []
        for number, (left, bottom) in enumerate(places()):
            edits += [f"a {line((left, bottom, left + 8, bottom + 8))}", ("a paint poly", "a erase poly")[number % 2], "a drc catchup"]
            looks += [f"a {line((left, bottom, left + 20, bottom + 20))}", "a drc why"]
        return {
            "paint a rectangle": self.took(["%open a"], painted, len(rectangles)),
            "erase a rectangle": self.took(["%open a", *painted], erased, len(rectangles)),
            "an edit of 8 by 8 and its check": self.took(checked, edits * OVER, TIMES * OVER, words),
            "the rules of 20 by 20": self.took(checked, looks * OVER, TIMES * OVER, words),
            "the whole check": self.took(laid, ["a drc catchup"], words=words),
            "save": self.took(laid, ["a save"] * 10, 10, words),
            "load": self.took(["%open a"], ["a dump c 0 0"], words=words, less_words=()),
        }

    def whole_check(self, technology, rectangles):
        """Returns the seconds of the whole check of a group's part of a layout, which is asked for again and again."""
        (self.folder / "c.mag").write_text(cell(rectangles))
        words = ["--tech", technology, f"c={self.folder / 'c.mag'}"]
        checked = ["%open a", "a dump c 0 0", "a drc catchup", f"a {line(around(rectangles))}"]
        times = max(1, CHECKED // len(rectangles))
        return self.took(checked, ["a drc check", "a drc catchup"] * times, times, words)


class Magic:
    """Magic without a screen: it times itself."""

    # Prints how long a body takes, in microseconds.
    BEGIN = "proc took {name body} {set t [::tcl::clock::microseconds]; uplevel 1 $body; puts \"took $name [expr {[::tcl::clock::microseconds] - $t}]\"}\n"

    def __init__(self, folder):
        self.folder = folder

    def run(self, technology, script):
        """Returns the median seconds of all that a script times, by its name."""
        (self.folder / "script.tcl").write_text(self.BEGIN + script + "quit -noprompt\n")
        words = ["magic", "-dnull", "-noconsole", "-rcfile", "/dev/null", "-T", str(technology)]
        run = subprocess.run(words, cwd=self.folder, input="source script.tcl\n", capture_output=True, text=True, check=True)
        took = {}
        for name, micros in re.findall(r"(?m)^took (.*) (\d+)$", run.stdout):
            took.setdefault(name.replace("_", " "), []).append(int(micros) / 1e6)
        if not took or any(len(each) != ROUNDS for each in took.values()):
            raise SystemExit(f"beside: magic ended early: {(run.stderr or run.stdout).strip().splitlines()[-1]}")
        return {name: statistics.median(each) for name, each in took.items()}

    def measure(self, rectangles):
        (self.folder / "c.mag").write_text(cell(rectangles))
        boxes = [line(box) for _, box in rectangles]
        (self.folder / "paint.tcl").write_text("".join(f"{box}; paint {kind}\n" for box, (kind, _) in zip(boxes, rectangles)))
        (self.folder / "erase.tcl").write_text("".join(f"{box}; erase {kind}\n" for box, (kind, _) in zip(boxes, rectangles)))
        edits, looks = "", ""
        for number, (left, bottom) in enumerate(places()):
            edits += f"{line((left, bottom, left + 8, bottom + 8))}; {('paint', 'erase')[number % 2]} poly; drc catchup\n"
            looks += f"{line((left, bottom, left + 20, bottom + 20))}; drc why\n"
        (self.folder / "edits.tcl").write_text(edits)
        (self.folder / "looks.tcl").write_text(looks)
        script = "drc off\nsnap internal\n"
        for number in range(ROUNDS):
            shutil.copy(self.folder / "c.mag", self.folder / f"c{number}.mag")
            script += (
                f"load painted{number}\ntook paint_a_rectangle {{source paint.tcl}}\ntook erase_a_rectangle {{source erase.tcl}}\n"
                f"took load {{load c{number}}}\n{line(around(rectangles))}\ndrc check\ntook the_whole_check {{drc catchup}}\n"
                f"took an_edit_of_8_by_8_and_its_check {{source edits.tcl}}\ntook the_rules_of_20_by_20 {{source looks.tcl}}\n"
                f"took save {{save s{number}}}\n"
            )
        took = self.run(TECHNOLOGY, script)
        parts = {name: len(rectangles) for name in ("paint a rectangle", "erase a rectangle")}
        parts |= {name: TIMES for name in ("an edit of 8 by 8 and its check", "the rules of 20 by 20")}
        return {name: seconds / parts.get(name, 1) for name, seconds in took.items()}

    def whole_check(self, technology, text, box):
        """Returns the seconds of the whole check of a cell."""
        (self.folder / "c.mag").write_text(text)
        check = f"{line(box)}\ndrc check\ntook check {{drc catchup}}\n"
        return self.run(technology, "drc off\nsnap internal\nload c\n" + check * ROUNDS)["check"]


KLAYOUT = """
import os, pya, statistics, time

def layers(layout):
    return {layout.get_info(i).name: pya.Region(layout.top_cell().begin_shapes_rec(i)).merged() for i in layout.layer_indexes()}

def check(by_name):
    poly, m1 = (by_name.get(each, pya.Region()) for each in ("poly", "m1"))
    ndiff = by_name.get("ndiff", pya.Region())
    unit = 1000
    return [poly.width_check(2 * unit).count(), poly.space_check(3 * unit).count(),
            poly.separation_check(ndiff, unit).count(), m1.width_check(3 * unit).count()]

took = {}
for _ in range(ROUNDS):
    options = pya.LoadLayoutOptions()
    options.mag_lambda = 1.0
    layout = pya.Layout()
    layout.read("c.mag", options)
    for name, body in (("the whole check", lambda: check(layers(layout))), ("save", lambda: layout.write("k.gds")),
                       ("load", lambda: pya.Layout().read("k.gds"))):
        start = time.perf_counter()
        body()
        took.setdefault(name, []).append(time.perf_counter() - start)
for name, each in took.items():
    print("took", statistics.median(each), name)
"""


def measured_by_klayout(folder, rectangles):
    (folder / "c.mag").write_text(cell(rectangles))
    (folder / "k.py").write_text(f"ROUNDS = {ROUNDS}\n" + KLAYOUT)
    environment = {**os.environ, "QT_QPA_PLATFORM": "offscreen"}
    run = subprocess.run(["klayout", "-b", "-r", "k.py"], cwd=folder, env=environment, capture_output=True, text=True, check=True)
    return {name: float(seconds) for seconds, name in re.findall(r"(?m)^took (\S+) (.*)$", run.stdout)}


def row(layout, measure, unit, programs):
    """Prints a row, whose last cell names the program that is quickest, and how many times as long ours takes."""

    def shown(seconds):
        if seconds is None:
            return ""
        value = seconds * SCALE[unit]
        return f"< 0.01 {unit}" if value < 0.005 else f"{value:.{0 if value >= 10 else 2}f} {unit}"

    there = {name: seconds for name, seconds in programs.items() if seconds is not None}
    quickest = min(there, key=there.get)
    said = f"{quickest}, {there['Kolasieve'] / there[quickest]:.1f} times" if quickest != "Kolasieve" else quickest
    said = said if len(there) > 1 else ""
    print(layout, measure, *map(shown, programs.values()), said, sep="\t", flush=True)


def compare_strewn(program, folder, count):
    rectangles = strewn(count)
    ours, magic, klayout = Magicd(program, folder).measure(rectangles), Magic(folder).measure(rectangles), measured_by_klayout(folder, rectangles)
    for measure, unit in MEASURES:
        row(f"{count:,} rectangles", measure, unit, {"Magic": magic.get(measure), "Kolasieve": ours[measure], "KLayout": klayout.get(measure)})


def compiled(technology, folder):
    """Returns a technology of Magic's as groups of planes."""
    command = [ROOT / "clients/process", "compile", technology, "-o", folder / "process"]
    run = subprocess.run(command, capture_output=True, text=True, check=False)
    if run.returncode:
        raise SystemExit(f"beside: {run.stderr.strip()}")
    return Process.load(folder / "process")


def compare_groups(program, folder, title, technology, text, is_halved):
    """The whole check of a layout of a process: Magic's, and ours of each group of planes that has something of it."""
    process = compiled(technology, folder)
    layers = [(process.layer(name), box) for name, boxes in read(text).sections.items() for box in boxes if process.layer(name)]
    scale = "magscale 1 2\n" if is_halved else ""
    magic = Magic(folder).whole_check(technology, text.replace("\ntimestamp", f"\n{scale}timestamp", 1), around(layers))
    ours = []
    for group in process.groups:
        part = [(image.type, box) for layer, box in layers for image in layer.images if process.groups[image.group] is group]
        if part:
            path = folder / "group.tech"
            path.write_text(scaled(group.text, 2 if is_halved else 1))
            ours.append(Magicd(program, folder).whole_check(path, part))
            row(title, f"the check of {', '.join(group.planes)}", "ms", {"Magic": None, "Kolasieve": ours[-1], "KLayout": None})
    row(title, "the whole check", "ms", {"Magic": magic, "Kolasieve": sum(ours), "KLayout": None})


def compare_cells(program, folder):
    """Cells of Magic's package with others in them, flattened by the client."""
    process = compiled("scmos", folder)
    for packed in CELLS.glob("*.mag.gz"):
        (folder / packed.stem).write_bytes(gzip.decompress(packed.read_bytes()))
    for name in ("tut6c", "tut4a", "tut11a") if CELLS.exists() else ():
        path = str(CELLS / f"{name}.mag")
        flat = flattened(Library(process, path, [str(folder)]))
        text = io.StringIO()
        write(text, "scmos", flat.items())
        count = sum(map(len, flat.values()))
        compare_groups(program, folder, f"{count:,} rectangles of Magic's {name}", "scmos", text.getvalue(), False)


def compare_inverters(program, folder):
    text = lzma.decompress((HERE / "layouts/inverters.mag.xz").read_bytes()).decode()
    compare_groups(program, folder, "256 inverters of scmos", "scmos", text, False)


def compare_routed(program, folder):
    """A corner of a routed block, in half squares, since the whole has more strips than a plane of a session may have."""
    technology = pathlib.Path("/usr/share/qflow/tech/osu035/SCN4M_SUBM.20.tech")
    if not technology.exists():
        print("beside: without Debian's qflow-tech-osu035 there is no row of a routed block", file=sys.stderr)
        return
    text = lzma.decompress((HERE / "layouts/routed.mag.xz").read_bytes()).decode().replace("magscale 1 2\n", "")
    sections = read(text).sections
    left, bottom, right, top = around([(None, box) for boxes in sections.values() for box in boxes], 0)
    inside = lambda box: box[2] <= (left + right) // 2 and box[3] <= (bottom + top) // 2
    part = [(name, box) for name, boxes in sections.items() for box in boxes if inside(box)]
    compare_groups(program, folder, f"{len(part):,} rectangles of a routed block", technology, cell(part, "scmos"), True)


def main():
    parser = argparse.ArgumentParser()
    parser.add_argument("program", type=pathlib.Path)
    parser.add_argument("counts", nargs="*", type=int, default=[1000, 4000, 16000])
    words = parser.parse_args()
    missing = [each for each in ("magic", "klayout") if not shutil.which(each)]
    if missing:
        raise SystemExit(f"beside: Debian's {' and '.join(missing)} must be installed")
    print("layout", "what", "Magic", "Kolasieve", "KLayout", "quickest", sep="\t", flush=True)
    with tempfile.TemporaryDirectory() as name:
        folder = pathlib.Path(name)
        for count in words.counts:
            compare_strewn(words.program, folder, count)
        compare_cells(words.program, folder)
        compare_inverters(words.program, folder)
        compare_routed(words.program, folder)


main()
