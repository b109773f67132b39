"""Times checks of the whole world. Called by bench/world.sh, which says what the rows are."""
import dataclasses
import pathlib
import random
import resource
import subprocess
import sys
import tempfile
import time

from talking import Failed, Late, Program

RUNS = 3
TIMES = 1, 64
WORLD = -1048576, -1048576, 1048576, 1048576
# How many seconds a line or the workers may take, with `--live`, before the row has a dash.
PATIENCE = 10
OPTIONS = ["--quota", "16384", "--journal", "65536"]

SPACE_FORBIDDEN = "planes\np\nend\ntypes\np q\nend\ndrc\nedge space space 1 q 0 0 \"q only\"\nend\n"


def box(sides):
    return "box {} {} {} {}".format(*sides)


def paint(*sides, kind="poly"):
    return [box(sides), f"paint {kind}"]


def flat(commands):
    return [line for group in commands for line in group]


def strewn(kind, rows):
    """Returns rectangles of a type: as many rows as there are in each, of one height each, and 16 apart."""
    dice = random.Random(kind)
    for row in range(rows):
        top = 16 * row + dice.randint(1, 8)
        for column in range(rows):
            left = 16 * column + dice.randint(0, 7)
            yield paint(left, 16 * row, left + dice.randint(1, 8), top, kind=kind)


SQUARES = [(2 * x + WORLD[0], 2 * y + WORLD[1]) for x in range(56) for y in range(56)]
CORNER = flat(paint(x, y, x + 1, y + 1) for x, y in SQUARES)
BARS = flat(paint(64 * n - 32000, WORLD[1], 64 * n - 31998, WORLD[3]) for n in range(1000))
ROWS = flat(paint(WORLD[0], 64 * n - 32000, WORLD[2], 64 * n - 31998) for n in range(1000))
STREWN = flat([*strewn("poly", 71), *strewn("m1", 71)])
STREWN_BOX = 0, 0, 1136, 1136



@dataclasses.dataclass
class Layout:
    """A layout as lines, the technology if that isn't M, the box that is checked, and a cell's rectangles of poly."""

    lines: list
    technology: str = None
    box: tuple = WORLD
    cell: list = ()


USE = ["getcell c 0 0"]
FAR = [(WORLD[0], WORLD[1], WORLD[0] + 4, WORLD[1] + 4), (WORLD[2] - 4, WORLD[3] - 4, WORLD[2], WORLD[3])]

LAYOUTS = {
    "empty": Layout([]),
    "painted": Layout(paint(*WORLD)),
    "corner": Layout(CORNER),
    "bars": Layout(BARS),
    "rows": Layout(ROWS),
    "marked": Layout([], SPACE_FORBIDDEN),
    "strewn": Layout(STREWN),
    "alone": Layout(STREWN, box=STREWN_BOX),
    "far": Layout(USE, cell=FAR),
    "filled": Layout(USE, cell=[WORLD]),
    "barred": Layout(USE, cell=[(64 * n - 32000, WORLD[1], 64 * n - 31998, WORLD[3]) for n in range(1000)]),
}


def setting(layout, sides):
    """Returns the lines up to the checks: the layout, all of it checked, and the box."""
    return [*layout, "drc catchup", box(sides)]


def spent():
    """Returns the seconds of a processor that all ended programs took."""
    used = resource.getrusage(resource.RUSAGE_CHILDREN)
    return used.ru_utime + used.ru_stime


def run(program, words, lines):
    """Runs a script of one session, and returns the processor's seconds and the replies, without the name."""
    script = "%open a\n" + "".join(f"a {line}\n" for line in lines)
    before = spent()
    ran = subprocess.run([program, *words], input=script.encode(), capture_output=True, check=True, timeout=600)
    return spent() - before, [line.partition(" ")[2] for line in ran.stdout.decode().splitlines()]


def catching_up(program, words, layout, sides, times):
    """Returns how many seconds checks take that are asked for so many times and caught up with."""
    lines = setting(layout, sides)
    checks = [*lines, *["drc check"] * times, "drc catchup", "drc count"]
    bare, checked = [], []
    for _ in range(RUNS):
        seconds, before = run(program, words, [*lines, "drc count"])
        bare.append(seconds)
        seconds, after = run(program, words, checks)
        checked.append(seconds)
        if set(after[1:-1]) != {"ok"} or before[-1] != after[-1] or not after[-1].endswith(" 0 pending"):
            raise Failed(f"{after[-1]} after {before[-1]}, or a line that isn't ok: {set(after[1:-1])}")
    return min(checked) - min(bare)


def by_workers(program, words, layout, sides, times):
    """Returns how many seconds one worker takes for checks that are asked for so many times, or nothing."""
    with Program([program, *words, "--live", "--workers", "1"], ["a"]) as live:
        live.send(["%open a", *(f"a {line}" for line in setting(layout, sides))])
        try:
            for _ in range(len(layout) + 3):
                live.reply("a", PATIENCE)
        except Late:
            return None
        begin = time.perf_counter()
        live.send(["a drc check"] * times)
        for _ in range(times):
            live.reply("a")
        while True:
            live.send(["a drc count"])
            now, said = live.reply("a")
            if said.endswith(" 0 pending"):
                return now - begin
            if now - begin > PATIENCE:
                return None
            time.sleep(0.001)


def shown(seconds):
    if seconds is None:
        return "-"
    return "< 1 ms" if seconds < 0.001 else f"{seconds * 1e3:.0f} ms"


def files(folder, layout):
    """Writes the layout's technology and cell, and returns the words that name them."""
    words = []
    if layout.technology:
        path = folder / "t.tech"
        path.write_text(layout.technology)
        words += ["--tech", str(path)]
    if layout.cell:
        path = folder / "c.mag"
        path.write_text("\n".join(["magic", "<< poly >>", *("rect {} {} {} {}".format(*e) for e in layout.cell), "<< end >>", ""]))
        words += ["--cell-tiles", "16384", f"c={path}"]
    return words


def main(program, asked):
    with tempfile.TemporaryDirectory() as folder:
        titles = [f"{by} {n} check{'s' * (n > 1)}" for by in ("catching up with", "one worker,") for n in asked]
        print("layout", *titles, sep="\t", flush=True)
        for name, layout in LAYOUTS.items():
            words = [*OPTIONS, *files(pathlib.Path(folder), layout)]
            each = [(timed, times) for timed in (catching_up, by_workers) for times in asked]
            row = [shown(timed(program, words, layout.lines, layout.box, times)) for timed, times in each]
            print(name, *row, sep="\t", flush=True)


if __name__ == "__main__":
    try:
        main(sys.argv[1], [int(word) for word in sys.argv[2:]] or TIMES)
    except Failed as failure:
        sys.exit(f"world: {failure}")
