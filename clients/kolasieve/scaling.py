"""Technology files of groups for layouts on a finer grid than lambda."""

from kolasieve.forms import LONGEST
from kolasieve.hierarchy import LayoutFault

# Where the words of a rule's line have distances: after two blanks `width S d WHY`, or `edge A B d OK C d WHY`.
WIDTH = (4,)
EDGE = (5, 8)


def words_of(line):
    """Returns the words of a rule's line, as `process compile` writes it, and the places of its distances."""
    places = WIDTH if line.startswith("  width ") else EDGE
    return line.split(" ", places[-1] + 1), places


def parted(text):
    """Returns what stands above the rules of a group's file, and their lines."""
    head, rules = text.removesuffix("end\n").split("\ndrc\n")
    return head, rules.splitlines()


def joined(head, rules):
    """Returns the text of a group's file that has these rules."""
    return "\n".join([head, "drc", *rules, "end", ""])


def scaled(text, grid):
    """Returns the text of a group's file for a lambda of this many squares."""
    head, rules = parted(text)
    return joined(head, [scaled_rule(line, grid) for line in rules])


def scaled_rule(line, grid):
    """Returns the line of a rule with distances that are so many times as long."""
    words, places = words_of(line)
    for place in places:
        distance = int(words[place]) * grid
        if distance > LONGEST:
            raise LayoutFault(
                f"lambda is {grid} squares in this layout, and a rule reaches {distance}, over {LONGEST}: {words[-1]}"
            )
        words[place] = str(distance)
    return " ".join(words)
