"""A layout of a whole process, kept as one session for each group of its planes.

A chip speaks to its sessions through anything that carries lines: a magicd of its own, or a connection to a relay.
"""

import asyncio
from dataclasses import dataclass
from typing import Callable

from kolasieve import violations
from kolasieve.layout import Layout
from kolasieve.paint import in_order
from kolasieve.rects import common, meet, strips

# How many bytes a line may have, and a session's name with the blank behind it.
LONGEST = 1024
LONGEST_NAME = 33


class Refused(Exception):
    """A session has refused what the others took; it was put back in all of them."""


class OutOfStep(Exception):
    """The sessions don't show the chip's layout, and can't be made again."""


@dataclass(frozen=True)
class Place:
    """Where a group's session is: its name, and what carries a line there and returns a future of the reply."""

    name: str
    carry: Callable

    async def ask(self, line):
        """Sends a line that begins with the session's name, and returns the reply."""
        return await self.carry(f"{self.name} {line}".encode())

    async def look(self, word, rest=""):
        """Sends a line that begins with a `%` word, and returns the reply."""
        return await self.carry(f"%{word} {self.name} {rest}".rstrip().encode())


class Chip(Layout):
    """A layout by layers, and its sessions, which show it group by group.

    Layers are as in a cell file of Magic: where two contacts are stacked, both have the squares.
    """

    def __init__(self, process, places):
        super().__init__()
        self.process = process
        self.places = places
        self.images = [images_by_layer(process, number) for number in range(len(places))]
        self.is_in_step = True

    async def open(self):
        """Opens the sessions, whose names must be free."""
        for place in self.places:
            await self.opened(place)

    async def opened(self, place):
        reply = await place.look("open")
        if not reply.endswith(b" opened\n"):
            raise OutOfStep(f"{place.name} can't be opened: {reply.decode().strip()}")

    async def load(self, layers):
        """Takes these layers, each a list of rectangles, for the whole layout; the sessions are empty."""
        self.take(layers)
        self.is_in_step = False
        if refusal := await self.show():
            raise Refused(refusal)
        self.is_in_step = True

    def take(self, layers):
        """Takes these layers for what the sessions show."""
        self.fill({name: strips(rects) for name, rects in known(self.process, layers).items()})

    async def show(self):
        """Paints the whole layout in empty sessions; returns the first refusal, or None."""
        shown = in_order(self.process, self.rects())
        return await self.send({place: painting(images, shown) for images, place in zip(self.images, self.places)})

    async def send(self, lines):
        """Sends lines to places, to all at once; returns the first refusal, or None."""
        asked = [place.ask(line) for place, each in lines.items() for line in each]
        replies = await asyncio.gather(*asked)
        return next((reply.decode().strip() for reply in replies if not reply.endswith(b" ok\n")), None)

    async def replace(self, rect, layers):
        """Makes these layers what the layout holds in a rectangle from now on; what of them lies outside is left out.

        A session that already shows this isn't asked. Where one refuses, the rectangle is put back in all, and
        `Refused` is raised; where that is refused too, all sessions are made again from the layout as it was. So they
        are first where an earlier call has ended in between, as when a connection was lost.
        """
        if not self.is_in_step:
            await self.make_again()
        new = {
            name: strips([common(each, rect) for each in rects if meet(each, rect)])
            for name, rects in known(self.process, layers).items()
        }
        new = {name: rects for name, rects in new.items() if rects}
        old = self.within(rect)
        if new == old:
            return
        changed = [name for name in {**old, **new} if old.get(name) != new.get(name)]
        concerned = [number for number, images in enumerate(self.images) if any(images.get(name) for name in changed)]
        self.is_in_step = False
        if refusal := await self.change(concerned, rect, new):
            if await self.change(concerned, rect, old):
                await self.make_again()
            self.is_in_step = True
            raise Refused(refusal)
        self.keep(rect, new)
        self.is_in_step = True

    async def change(self, concerned, rect, layers):
        """Erases a rectangle and paints layers in it, in some groups; returns the first refusal, or None."""
        shown = in_order(self.process, layers)
        return await self.send({
            self.places[number]: [*erasing(self.images[number], rect), *painting(self.images[number], shown)]
            for number in concerned
        })

    async def repair(self, rect):
        """Shows in all sessions what the chip's own copy has in a rectangle, whatever they have there."""
        if refusal := await self.change(range(len(self.places)), rect, self.within(rect)):
            raise Refused(refusal)

    async def make_again(self):
        """Closes the sessions, opens them again, and paints the chip's own copy."""
        for place in self.places:
            await place.look("close")
            await self.opened(place)
        if refusal := await self.show():
            raise OutOfStep(f"the layout can't be made again: {refusal}")
        self.is_in_step = True

    async def violations(self, rect):
        """Returns the strips of what is forbidden in a rectangle, by the rules' texts, whichever group has them."""
        found = await asyncio.gather(*(
            violations.within(place, rect, [rule.why for rule in group.rules])
            for place, group in zip(self.places, self.process.groups)
        ))
        return joined(found)


def joined(found):
    """Returns strips by text from several groups' as one."""
    together = {}
    for each in found:
        for text, rects in each.items():
            together.setdefault(text, []).extend(rects)
    return {text: strips(rects) for text, rects in together.items()}


def known(process, layers):
    """Returns layers by their first names, whatever names of theirs they have."""
    found = {}
    for name, rects in layers.items():
        layer = process.layer(name)
        if layer is None:
            raise ValueError(f"there is no layer {name}")
        found.setdefault(layer.name, []).extend(rects)
    return found


def images_by_layer(process, number):
    """Returns the types that each layer is painted as in a group."""
    return {layer.name: [image.type for image in layer.images if image.group == number] for layer in process.layers}


def painting(images, layers):
    """Returns lines that paint layers as these images, in their order."""
    lines, box = [], None
    for name, rects in layers.items():
        for rect in rects:
            for image in images[name]:
                if rect != box:
                    lines.append("box %d %d %d %d" % rect)
                    box = rect
                lines.append(f"paint {image}")
    return lines


def erasing(images, rect):
    """Returns lines that erase all images in a rectangle, each line short enough behind any session's name."""
    lines, types = ["box %d %d %d %d" % rect], []
    for image in sorted({image for each in images.values() for image in each}):
        if len(",".join([*types, image])) > LONGEST - len("erase ") - LONGEST_NAME:
            lines.append(f"erase {','.join(types)}")
            types = []
        types.append(image)
    return [*lines, f"erase {','.join(types)}"]
