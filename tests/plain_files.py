"""Technology files and cell files, read as docs/TECHNOLOGY.md, docs/RULES.md and docs/CELLS.md define them."""

import re
import typing

WORLD = 1048576

TECH_FAULTS = {
    1: "not UTF-8", 2: "no end", 3: "unknown plane", 4: "unknown type", 5: "name twice", 6: "bad number",
    7: "bad list", 8: "bad form", 9: "limit",
}

CELL_FAULTS = {1: "form", 2: "unknown layer", 3: "hierarchy", 4: "scale", 5: "outside the world", 10: "triangle"}

RESERVED = {b"end", b"labels", b"properties", b"elements", b"checkpaint", b"checksubcell"}

NAME = rb'[^ \t,~()/"]+'


class Fault(Exception):
    """The number of the first fault of a file, and its line."""

    def __init__(self, number, line=None):
        super().__init__(number, line)
        self.number, self.line = number, line


class Rule(typing.NamedTuple):
    """An edge rule: planes by number, sets of types by number, 0 being space."""

    trigger: int
    types1: frozenset
    types2: frozenset
    fine: frozenset
    corner: frozenset
    distance: int
    corner_distance: int
    four_way: bool
    check: int


def lines_apart(file):
    """Returns the lines of a file without their ends."""
    *ended, last = file.split(b"\n")
    return [line.removesuffix(b"\r") for line in ended] + [last]


def last_line(file):
    """Returns the number of the last line of a file, which is 0 where the file is empty."""
    return file.count(b"\n") + (not file.endswith(b"\n") and file != b"")


def words_of(line):
    return re.findall(rb"[^ \t]+", line)


# ---- technology files

def joined_lines(file):
    """Returns the lines of a technology file, each with the number of its first."""
    lines, is_joined = [], False
    for number, line in enumerate(lines_apart(file), 1):
        text = line[:-1] + b" " if line.endswith(b"\\") else line
        if is_joined:
            lines[-1] = lines[-1][0], lines[-1][1] + text
        else:
            lines.append((number, text))
        is_joined = line.endswith(b"\\")
    return lines


def quoted_words(line):
    """Returns the words of a line of the section `drc`."""
    words, rest = [], line.lstrip(b" \t")
    while rest:
        if rest.startswith(b'"'):
            word, quote, rest = rest[1:].partition(b'"')
            if not quote:
                raise Fault(8)
        else:
            word = words_of(rest)[0]
            rest = rest[len(word):]
        words.append(word)
        rest = rest.lstrip(b" \t")
    return words


def number_in(word, least):
    if not re.fullmatch(rb"[0-9]+", word):
        raise Fault(6)
    if not least <= int(word) <= 100:
        raise Fault(9)
    return int(word)


class Technology:
    """What a technology file states, or its first fault."""

    def __init__(self, file):
        self.name = None
        self.planes, self.plane_count = {}, 0
        # Type 0 is space, which is on every plane.
        self.types, self.type_planes, self.first_names = {b"space": 0}, [None], [b"space"]
        self.rules, self.skipped = [], []
        try:
            file.decode()
        except UnicodeDecodeError as error:
            raise Fault(1, file.count(b"\n", 0, error.start) + 1) from None
        self.read(joined_lines(file))

    def read(self, lines):
        section = None
        for place, (number, text) in enumerate(lines):
            words = words_of(text)
            if not words or words[0].startswith(b"#"):
                continue
            try:
                if section is None:
                    if not any(words_of(later) == [b"end"] for _, later in lines[place + 1:]):
                        raise Fault(2)
                    section = words[0]
                elif words == [b"end"]:
                    section = None
                elif section == b"drc":
                    self.read_rule(number, quoted_words(text))
                elif section in (b"tech", b"planes", b"types"):
                    getattr(self, f"read_{section.decode()}")(words)
            except Fault as fault:
                raise Fault(fault.number, number) from None

    def read_tech(self, words):
        if self.name is None and words[0] != b"format":
            self.name = words[0]

    def read_planes(self, words):
        if len(words) != 1:
            raise Fault(8)
        add_names(self.planes, words[0], self.plane_count, set())
        if self.plane_count == 4:
            raise Fault(9)
        self.plane_count += 1

    def read_types(self, words):
        if len(words) != 2:
            raise Fault(8)
        plane = self.plane_of_name(words[0].removeprefix(b"-"))
        add_names(self.types, words[1], len(self.type_planes), RESERVED)
        if len(self.type_planes) == 64:
            raise Fault(9)
        self.type_planes.append(plane)
        self.first_names.append(words[1].partition(b",")[0])

    def plane_of_name(self, name):
        if name not in self.planes:
            raise Fault(3)
        return self.planes[name]

    def of_plane(self, plane):
        """Returns the types of a plane, of which space is one."""
        return {0} | {kind for kind, of in enumerate(self.type_planes) if of == plane and kind}

    # ---- type lists

    def types_in(self, word):
        """Returns the types of a list: first its spelling is looked at, then its names from the left."""
        tokens = re.findall(rb"[,~()/]|" + NAME, word)
        if sum(map(len, tokens)) != len(word):
            raise Fault(7)
        _, rest = self.list_at(tokens, is_known=False)
        if rest:
            raise Fault(7)
        return self.list_at(tokens, is_known=True)[0]

    def list_at(self, tokens, is_known):
        """Returns the types of the list at the front, and the tokens behind it. Names count where they are known."""
        types, rest = self.item_at(tokens, is_known)
        while rest[:1] == [b","]:
            more, rest = self.item_at(rest[1:], is_known)
            types = types | more
        return types, rest

    def item_at(self, tokens, is_known):
        types, rest = self.term_at(tokens, is_known)
        if rest[:1] == [b"/"]:
            name = rest[1] if len(rest) > 1 else b","
            if not re.fullmatch(NAME, name) or name == b"0":
                raise Fault(7)
            types, rest = types & self.of_plane(self.plane_of_name(name)) if is_known else types, rest[2:]
        return types, rest

    def term_at(self, tokens, is_known):
        first, rest = (tokens[0], tokens[1:]) if tokens else (b",", [])
        if first == b"~":
            types, rest = self.term_at(rest, is_known)
            return set(range(len(self.type_planes))) - types, rest
        if first == b"(":
            types, rest = self.list_at(rest, is_known)
            if rest[:1] != [b")"]:
                raise Fault(7)
            return types, rest[1:]
        if first in (b",", b")", b"/"):
            raise Fault(7)
        if first == b"0" or not is_known:
            return set(), rest
        if first not in self.types:
            raise Fault(4)
        return {self.types[first]}, rest

    # ---- rules

    def read_rule(self, line, words):
        keyword, *words = words
        counts = {b"width": (3,), b"spacing": (5,), b"edge": (7, 8), b"edge4way": (7, 8)}.get(keyword)
        adjacencies = b"touching_ok", b"touching_illegal"
        if counts is None or keyword == b"spacing" and len(words) >= 5 and words[3] not in adjacencies:
            self.skipped.append((line, keyword))
            return
        if len(words) not in counts:
            raise Fault(8)
        if keyword == b"width":
            said = self.types_in(words[0]), number_in(words[1], 1)
        elif keyword == b"spacing":
            said = self.types_in(words[0]), self.types_in(words[1]), number_in(words[2], 1), words[3]
        else:
            first, second, distance = self.types_in(words[0]), self.types_in(words[1]), number_in(words[2], 1)
            fine, corner = self.types_in(words[3]), self.types_in(words[4])
            said = first, second, distance, fine, corner, number_in(words[5], 0)
            said += (self.plane_of_name(words[7]) if len(words) == 8 else None,)
        self.rules.append((line, keyword, said, words[{b"width": 2, b"spacing": 4}.get(keyword, 6)]))

    def whys(self):
        return [why for _, _, _, why in self.rules]

    def compiled(self):
        """Returns the edge rules of the lines, or the line of the first one whose lists lie on the wrong planes."""
        rules = []
        for line, keyword, said, _ in self.rules:
            try:
                rules.append(getattr(self, f"rule_of_{keyword.decode()}")(*said))
            except Fault as fault:
                raise Fault(fault.number, line) from None
        return rules

    def plane_of_list(self, types):
        """Returns the plane of a list that lies on one, and has a type but not space."""
        planes = {self.type_planes[kind] for kind in types}
        if len(planes) != 1 or 0 in types:
            raise Fault(1)
        return planes.pop()

    def rule_of_width(self, types, distance):
        plane = self.plane_of_list(types)
        others = self.of_plane(plane) - types
        return edge_rule(plane, others, types, types, types, (distance, distance), False, plane)

    def rule_of_spacing(self, first, second, distance, adjacency):
        trigger, check = self.plane_of_list(first), self.plane_of_list(second)
        if adjacency == b"touching_ok" and trigger != check:
            raise Fault(1)
        others = self.of_plane(trigger) - first - (second if adjacency == b"touching_ok" else set())
        fine = self.of_plane(check) - second
        return edge_rule(trigger, first, others, fine, others, (distance, distance), True, check)

    def rule_of_edge(self, first, second, distance, fine, corner, corner_distance, check, four_way=False):
        planes = range(self.plane_count)
        on = [plane for plane in planes if first & self.of_plane(plane) and second & self.of_plane(plane)]
        if len(on) != 1:
            raise Fault(1)
        trigger, check = on[0], on[0] if check is None else check
        on_trigger, on_check = self.of_plane(trigger), self.of_plane(check)
        lists = first & on_trigger, second & on_trigger, fine & on_check, corner & on_trigger
        return edge_rule(trigger, *lists, (distance, corner_distance), four_way, check)

    def rule_of_edge4way(self, *said):
        return self.rule_of_edge(*said, four_way=True)


def edge_rule(trigger, first, second, fine, corner, distances, four_way, check):
    sets = map(frozenset, (first, second, fine, corner))
    return Rule(trigger, *sets, *distances, four_way, check)


def add_names(names, word, number, reserved):
    """Adds the names of a list with commas, up to the first fault."""
    for name in word.split(b","):
        is_reserved = name in reserved or bool(reserved) and name.startswith(b"error_")
        if not re.fullmatch(NAME, name) or name == b"0" or is_reserved:
            raise Fault(8)
        if name in names:
            raise Fault(5)
        names[name] = number


# ---- cell files

def read_cell(file, types):
    """Returns the rectangles of a cell file in their order, each with the number of its type. Types are by name."""
    worded = [(number, words_of(line)) for number, line in enumerate(lines_apart(file), 1) if words_of(line)]
    section, rects = None, []
    for place, (number, words) in enumerate(worded):
        try:
            if place == 0:
                if words != [b"magic"]:
                    raise Fault(1)
            elif words[0] == b"<<":
                section = section_named(words, types)
                if section == b"end":
                    return rects
            else:
                rects += read_cell_line(section, words, types)
        except Fault as fault:
            raise Fault(fault.number, number) from None
    raise Fault(1, last_line(file))


def is_text(section):
    return section in (b"labels", b"properties", b"elements")


def is_finding(section):
    return section in (b"checkpaint", b"checksubcell") or section is not None and section.startswith(b"error_")


def section_named(words, types):
    if len(words) != 3 or words[2] != b">>":
        raise Fault(1)
    name = words[1]
    if not (name == b"end" or is_text(name) or is_finding(name) or types.get(name)):
        raise Fault(2)
    return name


def read_cell_line(section, words, types):
    """Returns the rectangle of a line below the first, as a list of one or none."""
    if is_text(section):
        return []
    if words[0] == b"use":
        raise Fault(3)
    if is_finding(section):
        return []
    if words[0] == b"tri":
        raise Fault(10)
    if section is None:
        if words[0] == b"magscale" and words[1:] != [b"1", b"1"]:
            raise Fault(4)
        return []
    if len(words) != 5 or words[0] != b"rect" or not all(re.fullmatch(rb"-?[0-9]+", word) for word in words[1:]):
        raise Fault(1)
    left, bottom, right, top = map(int, words[1:])
    if any(abs(line) > WORLD for line in (left, bottom, right, top)):
        raise Fault(5)
    if left >= right or bottom >= top:
        raise Fault(1)
    return [(types[section], (left, bottom, right, top))]


def strips_of(rects, on):
    """Returns the maximal horizontal strips of what rectangles of these types show, a later one over those before.

    A strip is its type and its sides; they are in the order of their bottoms and then their lefts.
    """
    rects = [(kind, sides) for kind, sides in rects if kind in on]
    rows = sorted({side for _, sides in rects for side in sides[1::2]})
    columns = sorted({side for _, sides in rects for side in sides[0::2]})
    strips, begun = [], {}
    for bottom, top in [*zip(rows, rows[1:]), (None, None)]:
        runs = []
        for left, right in zip(columns, columns[1:]):
            shown = [kind for kind, (l, b, r, t) in rects if top is not None and l <= left < r and b <= bottom < t]
            if shown and runs and runs[-1][0] == shown[-1] and runs[-1][2] == left:
                runs[-1] = shown[-1], runs[-1][1], right
            elif shown:
                runs.append((shown[-1], left, right))
        strips += [(kind, (left, at[0], right, at[1])) for (kind, left, right), at in begun.items()
                   if (kind, left, right) not in runs]
        begun = {run: (begun[run][0] if run in begun else bottom, top) for run in runs}
    return sorted(strips, key=lambda strip: (strip[1][1], strip[1][0]))
