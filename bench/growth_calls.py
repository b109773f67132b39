"""Calls that take memory, each made by the program mls_growths, while their growths are refused."""
import itertools

from growth_runs import Failed, Run

SHORT = 3

# What is printed of a call that is refused, which leaves everything as it was.
PLAIN = {
    "tech_read": ["fault 10 memory"],
    "pool_new": ["memory"],
    "server_new": ["memory"],
    "library_load": ["line 0 fault 9 memory"],
    "server_load": ["line 0 fault 9 memory"],
    "open": ["c refused open 4 memory"],
    "save": ["a refused 9 memory", "kept"],
    "why": ["a refused 9 memory"],
    "why_dense": ["a refused 9 memory"],
    "what": ["a refused 9 memory"],
    "grab": ["a grab memory"],
    "step": ["a step memory"],
    "check": ["memory"],
    "check_dense": ["memory"],
    "run": ["memory"],
    "seat": ["c refused open 4 memory"],
}
# Rows of calls that are refused halfway. Each number has something else done in the call's place; the line that this
# prints, and the one of the refused call, which stands where it stands.
HALFWAY = {
    "catchup": {0: ("left out", "a refused 9 memory 1 pending")},
    "catchup_in_two_pieces": {
        0: ("left out", "a refused 9 memory 1 pending"),
        1: ("left out", "a refused 9 memory 1 pending"),
    },
    "steps_in_two_pieces": {
        0: ("left out", "a steps 0 memory"),
        1: ("left out", "a steps 1 memory"),
    },
    "run": {
        0: ("left out", "c refused open 4 memory"),
        1: ("left out", "a refused 9 memory"),
        2: ("left out", "a refused 9 memory"),
        3: ("left out", "a grab memory"),
        4: ("left out", "a step memory"),
        5: ("left out", "b refused 9 memory 1 pending"),
        6: ("b step done", "b refused 9 memory 1 pending"),
    },
    "work": {
        0: ("finished 1 stale 0 full 0 refused 0", "finished 1 stale 0 full 0 refused 1"),
        1: ("finished 1 stale 0 full 0 refused 0", "finished 1 stale 0 full 0 refused 1"),
    },
}
# Rows of dense pieces: so many growths at least make no difference, those of the maps.
MAPS = {"check_dense": 9, "why_dense": 9}
SERVED_LINES = 7
# Rows of calls that take no memory.
FRUGAL = ["retire", "smallest_quota", "whole_world", "other_calls", "placed_cells"]
ROWS = [*dict.fromkeys([*PLAIN, *HALFWAY, "serve"])]


def takes_of(out):
    """Returns the lines that a row prints after each `done`: with no call, with one, and with two."""
    lines = out.decode().split("\n")
    if lines[-1]:
        raise Failed("its last line has no end")
    takes = "\n".join(lines[1:-1]).split("setup\nmade\ndone\n")
    if takes[0] or len(takes) != 4:
        raise Failed("it did not set the row up three times")
    return [it.splitlines() for it in takes[1:]]


def ample(program, folder, row):
    ran = Run([program], f"{row}\n".encode(), folder)
    if ran.status or ran.messages:
        raise Failed(f"nothing was refused, and {row!r} ended with status {ran.status}, {ran.messages}")
    if b"memory" in ran.out:
        raise Failed(f"nothing was refused, and {row!r} says that memory ran out")
    return takes_of(ran.out)


def replaced(take, old, new):
    at = take.index(old)
    return [*take[:at], new, *take[at + 1 :]]


def endings(program, folder, row):
    """Returns what a row may print where a growth of its call is refused, each with the answer that it is."""
    usual = ample(program, folder, row)
    found = {}
    if row in PLAIN:
        # nothing has changed; and once more the call has its usual answer
        answer = PLAIN[row]
        found[answer[0]] = [usual[0], [*answer, *usual[0]], [*answer, *usual[1]]]
    for number, (old, new) in HALFWAY.get(row, {}).items():
        takes = ample(program, folder, f"{row} {number}")
        found[f"{new} ({number})"] = [takes[0], *[replaced(it, old, new) for it in takes[1:]]]
    if row == "serve":
        for count in range(1, SERVED_LINES + 1):
            takes = ample(program, folder, f"serve {count}")
            cut = [[*it[: count - 1], "left: memory", *it[count + 1 :]] for it in takes[1:]]
            found[f"left: memory, after {count - 1} lines"] = [takes[0], *cut]
    found["usual"] = usual
    return found


def try_row(program, folder, row, most):
    """Refuses each growth of the row's call, and returns how many there are and how often each answer was met."""
    ends = endings(program, folder, row)
    met = dict.fromkeys(ends, 0)
    for n in itertools.count(1):
        ran = Run([program], f"{row}\n".encode(), folder, n, window=True)
        if ran.status or ran.messages:
            raise Failed(f"growth {n}: status {ran.status}, {ran.messages}")
        if not ran.refused:
            if takes_of(ran.out) != ends["usual"]:
                raise Failed(f"growth {n}: nothing was refused, and the row is another")
            return n - 1, met
        if n > most:
            return n - 1, met
        takes = takes_of(ran.out)
        answer = next((it for it, wanted in ends.items() if wanted == takes), None)
        if answer is None:
            shown = "\n".join(takes[1])
            raise Failed(f"growth {n}: it may not return this, or this may not stand:\n{shown}")
        met[answer] += 1


def try_setup(program, folder, row):
    """Refuses the first growths of the whole program: nothing is made before the row is set up."""
    for n in range(1, SHORT + 1):
        ran = Run([program], f"{row}\n".encode(), folder, n)
        if ran.out not in (b"", f"{row}\nsetup\n".encode()) or ran.status != 1:
            raise Failed(f"growth {n} of the whole program: status {ran.status}, it wrote {ran.out}")


def try_frugal(program, folder, row):
    """Refuses every growth of calls that take no memory, of which there must be none."""
    usual = ample(program, folder, row)
    ran = Run([program], f"{row}\n".encode(), folder, 1, on=True, window=True)
    if ran.growths or ran.status or takes_of(ran.out) != usual:
        raise Failed(f"its calls took {ran.growths} growths, status {ran.status}, or other answers")
