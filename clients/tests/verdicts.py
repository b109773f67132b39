"""What Magic and the groups of a compiled process say of flat cells: the texts of the rules that each violates.

A cell is {layer: rectangles}, of which no two of one plane overlap, but for contacts that stack.
"""

import re

from tests.magics import run_magic, write_cell
from tests.serving import alone

from kolasieve.areas import small_pieces
from kolasieve.flat import flattened
from kolasieve.hierarchy import Library
from kolasieve.technology import Technology

# Beyond the reach of every rule.
FAR = 120

TECHNOLOGY = """tech
  format 29
  {name}
end
planes
{planes}
end
types
{types}
end
contact
{contacts}
end
styles
  styletype mos
end
compose
end
connect
end
cifoutput
end
cifinput
end
drc
{rules}
end
extract
end
"""


def technology(name, types, rules, contacts=(), planes=()):
    """Returns the text of a technology that Magic takes too. The types are said by plane, in order."""
    planes = planes or dict.fromkeys(plane for plane in types.values())
    lines = {
        "planes": planes,
        "types": [f"{plane} {each}" for each, plane in types.items()],
        "contacts": contacts,
        "rules": rules,
    }
    sections = {word: "\n".join(f"  {line}" for line in each) for word, each in lines.items()}
    return TECHNOLOGY.format(name=name, **sections)


def bounds(cell):
    lefts, bottoms, rights, tops = zip(*(rect for rects in cell.values() for rect in rects))
    return min(lefts) - FAR, min(bottoms) - FAR, max(rights) + FAR, max(tops) + FAR


def reach_of(process, text):
    """Returns how far the rules with this text reach; those of areas don't."""
    return max((group.halo for group in process.groups if any(rule.why == text for rule in group.rules)), default=0)


def inexact(process, side):
    """Returns the texts of lines that may mark more than what they forbid, or miss something of it."""
    lines = {remark["line"] for remark in process.remarks if remark["side"] == side}
    return {rule.why for group in process.groups for rule in group.rules if rule.line in lines}


def painted(process, place, session, cell):
    """Returns lines that paint a cell into a session of a group."""
    lines = []
    for layer, rects in cell.items():
        for image in process.layer(layer).images:
            if image.group == place:
                for rect in rects:
                    lines += [f"{session} box {' '.join(map(str, rect))}", f"{session} paint {image.type}"]
    return lines


def by_groups(process, cells):
    """Returns for each cell the texts of the rules that are violated, as magicd and the client find them."""
    found = [set() for _ in cells]
    for place, group in enumerate(process.groups):
        lines = []
        for cell in cells:
            box = " ".join(map(str, bounds(cell)))
            lines += ["%open a", *painted(process, place, "a", cell), f"a box {box}", "a drc why", "%close a"]
        replies = alone(lines, "--tech", str(group.path), "--journal", "65536")
        refused = [reply for reply in replies if " refused " in reply or " fault " in reply]
        if refused:
            raise AssertionError(refused)
        for each, reply in zip(found, (reply for reply in replies if reply.startswith("a why "))):
            each.update(group.rules[int(number) - 1].why for number in re.findall(r" \[(\d+)\] ", reply))
    for each, cell in zip(found, cells):
        layout = {process.layer(layer).name: rects for layer, rects in cell.items()}
        each.update(area.why for area in process.areas if small_pieces(area, layout))
    return found


SCRIPT = """
foreach cell {%s} {
    load $cell
    box values -%d -%d %d %d
    drc check
    drc catchup
    set file [open $cell.why w]
    foreach {text boxes} [drc listall why] { puts $file $text }
    close $file
    save ${cell}_saved
}
"""


def by_magic(path, cells, folder):
    """Returns for each cell the texts of the rules that are violated, as Magic finds them; it saves each cell again."""
    name = Technology(str(path)).name
    for place, cell in enumerate(cells):
        write_cell(folder, f"cell{place}", cell.items(), technology=name)
    names = [f"cell{place}" for place in range(len(cells))]
    far = max(abs(edge) for cell in cells for edge in bounds(cell))
    said = run_magic(folder, [SCRIPT % (" ".join(names), far, far, far, far)], str(path).removesuffix(".tech"))
    if not (folder / f"{names[-1]}_saved.mag").exists():
        raise AssertionError(said)
    return [set((folder / f"{each}.why").read_text().splitlines()) for each in names]


def as_saved(process, cells, folder):
    """Returns the cells as Magic has saved them: flat layers, stacks among them."""
    paths = [str(folder / f"cell{place}_saved.mag") for place in range(len(cells))]
    return [flattened(Library(process, path)) for path in paths]
