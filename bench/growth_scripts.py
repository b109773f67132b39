"""The scripts that magicd serves while growths of memory are refused."""
import pathlib

from growth_trials import LiveTrial, Trial, WorkersTrial, replying_in

EXAMPLES = pathlib.Path(__file__).resolve().parent.parent / "examples"

BARS = """%open a
a box 0 0 1 10
a paint poly
a box 0 0 2 10
a drc why
%step a
%open b
b box 0 0 300 1
b paint poly
b dump inv 10 20
b getcell inv 20 16
# a comment
b drc catchup
a drc count
b drc count
b save
a erase poly,m1
a what
%stat a
%save b
%uses b
%marks b
%journal b
%why b 0 0 300 1
%errors b 0 0 300 20
%violations b 0 0 300 20
%audit a
b box 0 0 400 20
b what
b save
b gold rush
%step b
%close a
%open a
a drc why
a box 5 5 400 50
a drc why
a paint m1
a drc check
a drc catchup
a drc count
a save
%audit b
"""

FULL = """%open one
one box 0 0 10 10
one paint poly
one save
%open two
%open three
two box 0 20 1 21
two paint poly
two drc catchup
two drc count
two save
%close one
%open three
three dump c 0 0
three drc why
three box 0 0 4 4
three drc why
three drc catchup
three save
%marks three
%errors three 0 0 4 4
%violations three 0 0 4 4
three what
"""
# Each count follows a catchup, so that it depends on no check step of the workers.
WORKERS = """%open a
%open b
%open a
a box 0 0 300 1
b box 0 0 2 10
a paint poly
b paint m1
a drc why
%step a
a drc catchup
a drc count
a save
b getcell c 0 0
b box 0 0 4 4
b what
b drc why
b drc catchup
b drc count
c what
%save b
%uses b
%why b 0 0 2 10
%audit a
%open c
c dump c 5 5
c box 5 5 400 50
a box 300 0 301 9
c drc catchup
c drc count
c save
a paint m1
a drc catchup
a drc count
%audit b
%audit a
%audit c
"""
# Each name is opened once: where that is refused, none of its lines is carried out.
LIVE = """%open a
%open b
c what
a box 0 0 300 1
b box 0 0 2 10
a paint poly
b paint m1
a drc why
%step a
a drc catchup
a drc count
a save
b getcell c 0 0
b box 0 0 4 4
b what
b drc why
b drc catchup
b drc count
%save b
%uses b
%why b 0 0 2 10
%audit a
%open c
c dump c 5 5
c box 5 5 400 50
a box 300 0 301 9
c drc catchup
c drc count
c save
a paint m1
a drc catchup
a drc count
%audit b
%close b
b what
%audit a
%close a
%audit c
"""

CELL = """magic
tech M
<< poly >>
rect 0 0 2 4
<< m1 >>
rect 1 0 4 3
<< end >>
"""

# Room for a cell and two sessions, of four commands each.
SMALL = ["--quota", "5", "--pool", "424", "--journal", "4"]


class Script:
    """A script with the words of its command line, and how it is tried."""

    def __init__(self, name, words, text, trial=None):
        self.name, self.words, self.lines, self.trial = name, words, text.splitlines(), trial or Trial
        self.replying = replying_in(self.lines)


def scripts(folder):
    """Returns the scripts, the first two for a short run."""
    with open(f"{folder}/c.mag", "w") as it:
        it.write(CELL)

    def example(name, *words):
        return Script(name, [*words], (EXAMPLES / f"{name}.txt").read_text())

    return [
        Script("bars", [f"inv={folder}/c.mag"], BARS),
        Script("full", ["--tech", f"{EXAMPLES}/m.tech", *SMALL, f"c={folder}/c.mag"], FULL),
        example("first_run"),
        example("two_sessions"),
        example("wells", "--tech", f"{EXAMPLES}/wells.tech", "--quota", "9"),
        example("library", f"inv={EXAMPLES}/inv.mag"),
        Script("workers", ["--workers", "2", f"c={folder}/c.mag"], WORKERS, WorkersTrial),
        Script("live", ["--live", "--workers", "2", f"c={folder}/c.mag"], LIVE, LiveTrial),
    ]
