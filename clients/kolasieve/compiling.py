"""What a technology is compiled to: a technology file for each group, groups.json, and report.md."""

import json
import os
import pathlib
import shutil
import tempfile

from kolasieve.edges import SIDES, Rules
from kolasieve.forms import CELLS, CLIENT, FILE, FORM, LESS, MORE, REPORT, digest
from kolasieve.groups import PLANES, RULES, TYPES, part, size
from kolasieve.technology import SPACE, Technology, find_technology


class Compiled:
    """A compiled technology, in memory."""

    def __init__(self, technology, shorten=False):
        self.technology = technology
        self.rules = Rules(technology, shorten)
        self.groups, self.bound = part(technology, self.rules.edges)
        self.written = [WrittenGroup(technology, group) for group in self.groups]

    @classmethod
    def of(cls, word, style=None, shorten=False):
        """Compiles the technology that is named as for `magic -T`."""
        return cls(Technology(find_technology(word), style), shorten)

    def write(self, folder):
        """Writes all files, each of them whole, the one that names the others last."""
        texts = {f"g{place}.tech": group.text() for place, group in enumerate(self.written)}
        document = self.document({name: digest(text) for name, text in texts.items()})
        texts[REPORT] = self.report()
        texts[FILE] = json.dumps(document, indent=1) + "\n"
        write_whole(pathlib.Path(folder), texts)

    # groups.json

    def document(self, digests):
        technology = self.technology
        return {
            "form": FORM,
            "technology": technology.name,
            "path": technology.path,
            "style": technology.style,
            "unit": technology.unit,
            "planes": technology.planes,
            "lines": len(technology.rules),
            "bound": self.bound,
            "groups": [
                {"file": name, "sha256": each, **group.document()}
                for (name, each), group in zip(digests.items(), self.written)
            ],
            "layers": [self._layer(each) for each in technology.types if each.number != SPACE],
            "compositions": [list(each) for each in technology.compositions],
            "areas": [
                {"line": area.line.number, "why": area.why, "plane": area.plane, "squares": area.squares,
                 "layers": self._names(area.types)}
                for area in self.rules.areas
            ],
            "overlaps": [
                {"line": each.line.number, "keyword": each.keyword, "lists": list(map(self._names, each.types))}
                for each in self.rules.overlaps
            ],
            "remarks": [
                {"line": each.line.number, "keyword": each.line.words[0], "side": each.side, "reason": each.reason}
                for each in self.rules.remarks
            ],
        }

    def _names(self, types):
        return [self.technology.types[number].name for number in sorted(types - {SPACE})]

    def _layer(self, each):
        images = [
            {"group": place, "plane": plane, "type": group.short[image], "name": group.name[image]}
            for place, group in enumerate(self.written)
            for plane in group.planes
            if (image := (plane, each.number)) in group.short
        ]
        return {
            "names": each.names,
            "planes": list(each.planes),
            "residues": self._names(frozenset(each.residues)),
            "parts": self._names(frozenset(each.parts)),
            "images": images,
        }

    # report.md

    def report(self):
        lines = [f"# {self.technology.name}: {len(self.groups)} groups", ""]
        lines += [f"Compiled from `{self.technology.path}`.", ""]
        lines += ["| group | planes | types | rules |", "|---|---|---|---|"]
        for place, group in enumerate(self.written):
            lines.append(f"| g{place} | {', '.join(group.planes)} | {group.size} | {len(group.edges)} |")
        lines += ["", self.about_number(), ""]
        for side in (MORE, LESS, CLIENT, CELLS):
            remarks = [remark_line(each) for each in self.rules.remarks if each.side == side]
            if remarks:
                lines += [f"## Lines that {SIDES[side]}", "", *remarks, ""]
        return "\n".join(lines)

    def about_number(self):
        limits = f"{PLANES} planes, {TYPES} types and {RULES} rules a group"
        if len(self.groups) == self.bound:
            return f"With at most {limits}, there can't be fewer groups."
        found = f"fewer than {len(self.groups)} weren't found"
        return f"With at most {limits}, there are at least {self.bound} groups; {found}."


def remark_line(remark):
    """Returns a line of the report: the rule's line, its text where it has one, and the reason."""
    texts = [f" ({word})" for word in remark.line.words if " " in word]
    return f"- line {remark.line.number}, `{remark.line.words[0]}`{''.join(texts[-1:])}: {remark.reason}"


class WrittenGroup:
    """A group with the names of its types: one for each layer, and a short one for all that are one type."""

    def __init__(self, technology, group):
        self.technology = technology
        self.planes = group.planes
        self.edges = group.edges
        self.classes = group.classes()
        self.size = size(self.classes)
        self.name = {}
        self.short = {}
        self.types = []
        taken = {name for each in technology.types for name in each.names}
        fresh = (f"t{count}" for count in range(1, 10**6) if f"t{count}" not in taken)
        for plane in self.planes:
            for numbers in self.classes[plane]:
                if SPACE in numbers:
                    continue
                short = next(fresh)
                names = [self._image(number, plane) for number in numbers]
                self.types.append((plane, [*names, short]))
                self.name.update({(plane, number): name for number, name in zip(numbers, names)})
                self.short.update({(plane, number): short for number in numbers})

    def _image(self, number, plane):
        each = self.technology.types[number]
        return each.name if each.home == plane else f"{each.name}@{plane}"

    def document(self):
        return {
            "planes": list(self.planes),
            "types": [[names[-1], plane] for plane, names in self.types],
            "halo": 1 + max(max(edge.distance, edge.corner_distance) for edge in self.edges),
            "rules": [
                {"line": edge.line.number, "keyword": edge.line.words[0], "why": edge.why} for edge in self.edges
            ],
        }

    def text(self):
        """Returns the technology file."""
        lines = ["tech", f"  {self.technology.name}", "end", "planes"]
        lines += [f"  {plane}" for plane in self.planes]
        lines += ["end", "types"]
        lines += [f"  {plane} {','.join(names)}" for plane, names in self.types]
        lines += ["end", "drc"]
        lines += [f"  {self._rule(edge)}" for edge in self.edges]
        return "\n".join([*lines, "end", ""])

    def _rule(self, edge):
        why = '"' + edge.why.replace('"', "'") + '"'
        fine, two = self._list(edge.fine, edge.check), self._list(edge.two, edge.trigger)
        on = self.technology.seen(edge.trigger)
        is_width = (
            edge.trigger == edge.check and not edge.four_ways and edge.two == edge.fine == edge.corner
            and edge.one == on - edge.two and SPACE not in edge.two and edge.corner_distance == edge.distance
        )
        if is_width:
            return f"width {two} {edge.distance} {why}"
        keyword = "edge4way" if edge.four_ways else "edge"
        corner = self._list(edge.corner, edge.trigger)
        other = "" if edge.trigger == edge.check else f" {edge.check}"
        lists = f"{self._list(edge.one, edge.trigger)} {two} {edge.distance} {fine} {corner} {edge.corner_distance}"
        return f"{keyword} {lists} {why}{other}"

    def _list(self, types, plane):
        """Returns a list of a plane's types, or of those that aren't in it where these are fewer."""
        others = self.technology.seen(plane) - types
        if not types:
            return "0"
        if len(others) + 1 < len(types):
            return f"~({self._plain(others, plane)})/{plane}" if others else f"~0/{plane}"
        return self._plain(types, plane)

    def _plain(self, types, plane):
        first = [numbers[0] for numbers in self.classes[plane] if numbers[0] in types]
        return ",".join(self.name.get((plane, number), f"space/{plane}") for number in first)


def write_whole(folder, texts):
    """Writes files, moves them to their places once all are written, and drops those of groups that are no more."""
    made = not folder.exists()
    folder.mkdir(parents=True, exist_ok=True)
    try:
        with tempfile.TemporaryDirectory(dir=folder, prefix=".compile-") as beside:
            for name, text in texts.items():
                with open(os.path.join(beside, name), "w", encoding="utf-8") as file:
                    file.write(text)
                    file.flush()
                    os.fsync(file.fileno())
            for name in texts:
                os.replace(os.path.join(beside, name), folder / name)
    except OSError:
        if made:
            shutil.rmtree(folder, ignore_errors=True)
        raise
    for each in folder.glob("g*.tech"):
        if each.name not in texts and each.stem[1:].isdigit():
            each.unlink()
