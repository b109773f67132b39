"""A Magic technology: its planes, types, contacts, lists of types, and the lines that state its rules.

Read as Magic 8.3 reads it, as far as layouts and design rules depend on it: the sections `tech`, `planes`, `types`,
`contact`, `aliases`, `compose` and `drc`, and of `cifoutput` the unit. Where Magic reports a fault and goes on without
the line, this is a fault too: a rule isn't dropped in silence.
"""

import glob
import os
import pathlib
from dataclasses import dataclass, field

from kolasieve.faults import Fault

SPACE = 0

# Names of Magic's own planes and types, which an abbreviation may meet too. Lists of rules can do nothing with them.
OWN_PLANES = ("router", "designRuleError", "designRuleCheck", "mhint", "fhint", "rhint")
OWN_TYPES = (
    "checkpaint", "CP", "checksubcell", "CS", "error_p", "EP", "error_s", "ES", "error_ps", "EPS",
    "magnet", "mag", "fence", "f", "rotate", "r",
)
BUILT_IN = -1

SUFFIX = ".tech"


class TechnologyFault(Fault):
    """The technology can't be used; the text says where and why."""


@dataclass(frozen=True)
class Line:
    """A line of a technology file: its words, and where its first byte stands."""

    path: str
    number: int
    words: tuple

    def fault(self, text):
        return TechnologyFault(f"{self.path}: line {self.number}: {text}")


@dataclass
class Type:
    """A type by its number. A contact has residues; a stacked contact has the two contacts that it consists of.

    A stacked contact is given to squares of its own plane alone, the one that its parts share; it extends over theirs.
    """

    number: int
    names: list
    planes: tuple
    home: str = ""
    residues: tuple = ()
    parts: tuple = ()
    extent: tuple = ()
    # The shortest of the names that it was defined with, in Magic's lists.
    short: str = ""

    def __post_init__(self):
        self.short = min(self.names, key=len)

    @property
    def name(self):
        return self.names[0]


@dataclass(frozen=True)
class Listed:
    """A list of types as a rule has it: a set of numbers, and the planes on which each of them lies.

    Where no plane has all types, there is none in `planes`, and `spread` has those that the list names.
    """

    types: frozenset
    planes: tuple
    spread: tuple


@dataclass
class Names:
    """Names of planes or of types; one may be said by a beginning that no other name has."""

    kind: str
    values: dict = field(default_factory=dict)

    def add(self, name, value, line):
        if name in self.values:
            raise line.fault(f"the {self.kind} {name} is there already")
        self.values[name] = value

    def find(self, word):
        """Returns the value, or None where no name or more than one begins so."""
        if word in self.values:
            return self.values[word]
        found = [value for name, value in self.values.items() if name.startswith(word)]
        return found[0] if word and len(found) == 1 else None


def system_folders():
    """Returns the folders in which Magic looks for technologies, after the one where it was started."""
    said = os.environ.get("CAD_ROOT")
    roots = [said] if said else [*sorted(glob.glob("/usr/lib/*/")), "/usr/local/lib"]
    return [path for root in roots for path in (f"{root}/magic/sys", f"{root}/magic/sys/current")]


def find_technology(word):
    """Returns the path of a technology that is named as for `magic -T`."""
    name = word.removesuffix(SUFFIX)
    folders = [""] if name.startswith(("/", "./", "../", "~")) else [".", *system_folders()]
    for folder in folders:
        path = os.path.join(folder, os.path.expanduser(name)) + SUFFIX
        if os.path.isfile(path):
            return os.path.normpath(path)
    raise TechnologyFault(f"{name}{SUFFIX}: there is no such file here or in Magic's folders")


def read_lines(path, base=None, within=()):
    """Yields the lines of a technology file and of the files that it includes. `base` is the first file's folder."""
    base = base or os.path.dirname(path) or "."
    try:
        raw = pathlib.Path(path).read_bytes()
    except OSError as fault:
        raise TechnologyFault(f"{path}: {fault.strerror}") from None
    begun, first = "", None
    for number, each in enumerate(raw.split(b"\n"), 1):
        each = each.removesuffix(b"\r")
        if each.lstrip().startswith(b"#"):
            continue
        try:
            text = begun + each.decode()
        except UnicodeDecodeError:
            raise TechnologyFault(f"{path}: line {number}: bytes that are no text") from None
        first = first or number
        if text.endswith("\\"):
            begun = text[:-1]
            continue
        line = Line(path, first, tuple(split(text)))
        begun, first = "", None
        if line.words[:1] == ("include",) and len(line.words) > 1:
            yield from included(line, base, (*within, os.path.realpath(path)))
        elif line.words:
            yield line


def included(line, base, within):
    name = line.words[1]
    folders = [".", *system_folders(), base]
    tries = [os.path.join(folder, each) for folder in folders for each in (name, name + SUFFIX)]
    path = next((each for each in tries if os.path.isfile(each)), None)
    if path is None:
        raise line.fault(f"there is no file {name} to include")
    if os.path.realpath(path) in within:
        raise line.fault(f"{name} includes itself")
    return read_lines(os.path.normpath(path), base, within)


def split(text):
    """Returns the words of a line. A quote begins one that goes on to the next; a backslash takes what follows."""
    if '"' not in text and "\\" not in text:
        return text.split()
    words, at = [], 0
    while True:
        while at < len(text) and text[at].isspace():
            at += 1
        if at == len(text):
            return words
        quoted = text[at] == '"'
        at += quoted
        word = []
        while at < len(text) and not (text[at] == '"' if quoted else text[at].isspace()):
            if text[at] == "\\" and at + 1 < len(text):
                at += 1
            word.append(text[at])
            at += 1
        at += at < len(text)
        words.append("".join(word))


class Technology:
    """What a technology file says of layouts and rules. Types are numbers, planes names in the order of the file."""

    def __init__(self, path, style=None):
        self.path = path
        self.name = ""
        self.planes = []
        self.types = [Type(SPACE, ["space"], ())]
        self.rules = []
        self.compositions = []
        # The unit of coordinates, in nanometres, where the file says it.
        self.unit = None
        self.style = style
        self.styles = []
        self.scale = (1, 1)
        # Whether the rules that follow are of the style, and of its variant.
        self._in_style = True
        self._in_variant = True
        self._plane_names = Names("plane", dict.fromkeys(OWN_PLANES))
        self._type_names = Names("type", {"space": SPACE, **dict.fromkeys(OWN_TYPES, BUILT_IN)})
        self._aliases = {}
        self._stacks = {}
        self._users = 1
        self._on = {}
        self._read()

    def _read(self):
        readers = {
            "tech": self._tech, "planes": self._plane, "types": self._type, "contact": self._contact,
            "images": self._contact, "aliases": self._alias, "compose": self._compose, "drc": self._rule,
            "cifoutput": self._unit,
        }
        section = rules = None
        for line in read_lines(self.path):
            if section is None:
                section = line
                rules = line if line.words[0] == "drc" else rules
            elif line.words == ("end",):
                self._end(section.words[0])
                section = None
            elif section.words[0] in readers:
                readers[section.words[0]](line)
        if section is not None:
            raise section.fault(f"the section {section.words[0]} has no end")
        if self.style is not None and self.style not in self.styles:
            raise TechnologyFault(f"{self.path}: there is no drc style {self.style}")
        if rules is None:
            raise TechnologyFault(f"{self.path}: there is no section drc")
        if not self.rules:
            raise rules.fault("there are no rules")

    def _end(self, section):
        if section == "types":
            self._users = len(self.types)
        self.types[SPACE].planes = tuple(self.planes)

    def _tech(self, line):
        if line.words[0] != "format" and not self.name:
            self.name = line.words[0]

    def _plane(self, line):
        if len(line.words) != 1:
            raise line.fault("a plane is one word")
        names = [name for name in line.words[0].split(",") if name]
        for name in names:
            self._plane_names.add(name, names[0], line)
        self.planes.append(names[0])

    def _type(self, line):
        if line.words[0] == "alias" and len(line.words) == 3:
            self._alias(Line(line.path, line.number, line.words[1:]))
            return
        if len(line.words) < 2:
            raise line.fault("a type is a plane and names")
        plane = self.plane(line.words[0].removeprefix("-"), line)
        names = [name for name in line.words[1].split(",") if name]
        self._add_type(Type(len(self.types), names, (plane,), plane), line)

    def _add_type(self, each, line):
        for name in each.names:
            self._type_names.add(name, each.number, line)
        self.types.append(each)

    def _alias(self, line):
        if len(line.words) < 2:
            raise line.fault("an alias is a name and a list of types")
        name, text = line.words[:2]
        if name in self._type_names.values or name in self._aliases:
            raise line.fault(f"the type {name} is there already")
        types = self.listed(text, line).types
        if len(types) == 1 and types != {SPACE}:
            (number,) = types
            self._name(self.types[number], name, line)
        else:
            self._aliases[name] = types

    def _contact(self, line):
        words = line.words
        if words[0] == "stackable":
            self._stackable(line)
            return
        if words[0] in ("contact", "device") and self._type_names.find(words[0]) is None:
            words = words[1:]
        contact = self._one_type(words[0] if words else "", line)
        residues = [self._one_type(word, line) for word in words[1:]]
        for residue in residues:
            if residue.residues:
                raise line.fault(f"{residue.name} is a contact itself")
        planes = {residue.planes[0] for residue in residues}
        if len(planes) < len(residues):
            raise line.fault("a contact's types lie on different planes")
        if contact.home not in planes:
            raise line.fault(f"no type lies on {contact.home}, the plane of {contact.name}")
        contact.residues = tuple(residue.number for residue in residues)
        contact.planes = tuple(plane for plane in self.planes if plane in planes)

    def _stackable(self, line):
        contacts = [each for each in self.types[: self._users] if each.residues]
        words = line.words[1:]
        if not words:
            for index, one in enumerate(contacts):
                for other in contacts[index + 1 :]:
                    self._stack(one, other)
            return
        one = self._one_type(words[0], line)
        if len(words) == 1:
            for other in contacts:
                self._stack(one, other)
            return
        stacked = None
        for word in words[1:]:
            number = self._type_names.find(word)
            if number is not None:
                stacked = self._stack(one, self.types[number])
                if stacked is None:
                    raise line.fault(f"{one.name} and {word} don't stack")
            elif stacked is not None:
                self._name(stacked, word, line)
            else:
                raise line.fault(f"unknown type {word}")

    def _name(self, each, word, line):
        """Gives a type more names."""
        for name in filter(None, word.split(",")):
            self._type_names.add(name, each.number, line)
            each.names.append(name)

    def _stack(self, one, other):
        """Returns the type of two contacts that lie one over the other; None where they don't share just one plane."""
        shared = [plane for plane in one.planes if plane in other.planes]
        if one is other or not one.residues or not other.residues or len(shared) != 1:
            return None
        if not set(one.residues) & set(other.residues):
            return None
        pair = frozenset((one.number, other.number))
        if pair not in self._stacks:
            names, parts = [f"{one.short}+{other.short}"], (one.number, other.number)
            extent = tuple(plane for plane in self.planes if plane in one.planes + other.planes)
            self._stacks[pair] = Type(len(self.types), names, (shared[0],), shared[0], parts=parts, extent=extent)
            self._type_names.values[names[0]] = len(self.types)
            self.types.append(self._stacks[pair])
        return self._stacks[pair]

    def _compose(self, line):
        keyword, words = line.words[0], line.words[1:]
        if keyword in ("compose", "decompose"):
            if len(words) < 3 or len(words) % 2 == 0:
                raise line.fault(f"{keyword} has a type and pairs of types")
            result, *pairs = (self._one_type(word, line).name for word in words)
            self.compositions += [(keyword, *pair, result) for pair in zip(pairs[::2], pairs[1::2])]
        elif keyword in ("paint", "erase"):
            if len(words) not in (3, 4):
                raise line.fault(f"{keyword} has three types")
            names = [self._one_type(word, line).name for word in words[:3]]
            plane = [self.plane(word, line) for word in words[3:]]
            self.compositions.append((keyword, *names, *plane))
        else:
            raise line.fault(f"unknown rule {keyword}")

    def _unit(self, line):
        """Takes the unit of the first style: hundredths of a micrometre, or nanometres."""
        if self.unit is None and line.words[0] == "scalefactor" and len(line.words) > 1:
            try:
                self.unit = float(line.words[1]) * (1 if "nanometers" in line.words else 10)
            except ValueError:
                raise line.fault(f"bad number {line.words[1]}") from None

    def _rule(self, line):
        keyword = line.words[0]
        if keyword == "style":
            self._begin_style(line)
        elif keyword.startswith("variant") and len(line.words) == 2:
            ends = [each.strip() for each in line.words[1].split(",")]
            self._in_variant = any(end.startswith("*") or (self.style or "").endswith(end) for end in ends)
        elif not (self._in_style and self._in_variant):
            return
        elif keyword == "scalefactor" and len(line.words) in (2, 3):
            self.scale = tuple(self.number(word, line, 1, 10**6) for word in (*line.words[1:], "1")[:2])
        else:
            self.rules.append(line)

    def _begin_style(self, line):
        """Takes the rules of the style that was asked for, else of the first."""
        words = line.words
        if len(words) not in (2, 4):
            raise line.fault("a style is a name, or a name, `variants` and a list")
        ends = words[3].split(",") if len(words) == 4 else [""]
        names = [words[1] + end for end in ends]
        self.styles += names
        if self.style is None:
            self.style = names[0]
        self._in_style = self.style in names
        self._in_variant = True

    # Names and lists of types.

    def plane(self, word, line):
        """Returns the plane of this name."""
        plane = self._plane_names.find(word)
        if plane is None:
            raise line.fault(f"unknown plane {word}")
        return plane

    def _one_type(self, word, line):
        number = self._type_names.find(word)
        if number is None or number == BUILT_IN:
            raise line.fault(f"unknown type {word}")
        return self.types[number]

    def lowest(self, planes):
        """Returns the first of these planes in the order of the file, or None."""
        return next((plane for plane in self.planes if plane in planes), None)

    def on(self, plane):
        """Returns the types that lie on a plane."""
        if plane not in self._on:
            self._on[plane] = frozenset(number for number in self.all() if plane in self.planes_of(number))
        return self._on[plane]

    def seen(self, plane):
        """Returns the types that a plane's squares are given: a stacked contact only where both of its parts lie."""
        return frozenset(each.number for each in self.types if plane in each.planes)

    def planes_of(self, number):
        """Returns the planes over which a type extends."""
        return self.types[number].extent or self.types[number].planes

    def all(self):
        return frozenset(range(len(self.types)))

    def listed(self, text, line):
        """Returns the types of a list and where they lie."""
        types, named = self._items(text, line)
        if types <= {SPACE} and not named:
            named = set(self.planes)
        planes = set(named)
        for number in types - {SPACE}:
            planes &= set(self.planes_of(number))
        ordered = [tuple(plane for plane in self.planes if plane in each) for each in (planes, named)]
        return Listed(frozenset(types), *ordered)

    def _items(self, text, line):
        """Returns the types of a list, and the planes that it names: one behind a slash takes the place of others."""
        types, named, at = set(), set(), 0
        while at < len(text):
            negated = text[at] == "~"
            at += negated
            if text[at : at + 1] == "(":
                end = closing(text, at, line)
                found, within = self._items(text[at + 1 : end], line)
                named |= within
                at = end + 1
            else:
                end = min(index for index in (text.find("/", at), text.find(",", at), len(text)) if index >= 0)
                found = self._item(text[at:end], text, line)
                at = end
            found = set(self.all() - found if negated else found)
            if text[at : at + 1] == "/":
                end = text.find(",", at)
                end = len(text) if end < 0 else end
                plane = self.plane(text[at + 1 : end], line)
                found = {number for number in found if number == SPACE or plane in self.planes_of(number)}
                named = {plane}
                at = end
            else:
                for number in found:
                    if SPACE < number < self._users:
                        named |= set(self.planes_of(number))
            types |= found
            if at < len(text) and text[at] != ",":
                raise line.fault(f"bad list {text}")
            while text[at : at + 1] == ",":
                at += 1
        return types, named

    def _item(self, word, text, line):
        """Returns the types of a name: with each contact those in which it is stacked, with * those that contain it."""
        if word == "0":
            return set()
        if word in self._aliases:
            return set(self._aliases[word])
        starred = word.startswith("*")
        number = self._type_names.find(word.removeprefix("*"))
        if number is None:
            raise line.fault(f"unknown type {word}" if word else f"bad list {text}")
        if number == BUILT_IN:
            return set()
        types = {number}
        if starred:
            types |= {each.number for each in self.types if number in each.residues}
        return types | {each.number for each in self._stacks.values() if types & set(each.parts)}

    @staticmethod
    def number(word, line, least, most):
        """Returns a whole number of a line."""
        if not (word.isascii() and word.isdigit()):
            raise line.fault(f"bad number {word}")
        if not least <= int(word) <= most:
            raise line.fault(f"{word} isn't in {least} to {most}")
        return int(word)


def closing(text, at, line):
    """Returns where the parenthesis at this place is closed."""
    depth = 0
    for end in range(at, len(text)):
        depth += {"(": 1, ")": -1}.get(text[end], 0)
        if depth == 0:
            return end
    raise line.fault(f"bad list {text}")
