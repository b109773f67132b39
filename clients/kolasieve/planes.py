"""The planes and types of a technology as magicd reads it, by their numbers."""

from collections import namedtuple


class Type(namedtuple("Type", "names plane")):
    """A type by its names, and the number of its plane."""


# Those of the technology that is built in.
BUILT_IN = (Type(("poly", "p"), 0), Type(("ndiff", "nd"), 0), Type(("m1",), 1))


def read_types(text):
    """Returns the types of a technology that magicd takes, in the order of their numbers, from 1."""
    planes, types = {}, []
    for section, words in lines_of(text):
        if section == "planes":
            number = len(set(planes.values()))
            planes.update((name, number) for name in words[0].split(","))
        elif section == "types":
            types.append(Type(tuple(words[1].split(",")), planes[words[0].removeprefix("-")]))
    return tuple(types)


def lines_of(text):
    """Yields the lines of each section as its name and their words."""
    section = None
    for line in text.replace("\r\n", "\n").replace("\\\n", " ").split("\n"):
        words = line.split()
        if not words or words[0].startswith("#"):
            continue
        if section is None:
            section = words[0]
        elif words == ["end"]:
            section = None
        else:
            yield section, words
