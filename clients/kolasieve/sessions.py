"""The sessions of a chip at relays: connected to, opened or resumed, compared with a layout, and read."""

import asyncio

from kolasieve import mag, violations
from kolasieve.carrier import Carrier, Lost
from kolasieve.chip import Chip, Place, images_by_layer
from kolasieve.layout import differing
from kolasieve.paint import in_order
from kolasieve.rects import strips

# How often a session is asked for that another connection still has, and how many seconds lie between.
TRIES = 20
PAUSE = 0.5

# From which share of its journal on a session is to go on in a short one. A relay sees to that itself at 90 %, in the
# midst of lines.
NEARLY_FULL = 0.7

# What a relay says that can't make journals short.
NO_LOG = "there is no log"


class InUse(Exception):
    """A session can't be had; the text says why."""


class Sessions:
    """One session in each group of a served process, all of the same name."""

    def __init__(self, served, process, tls=None):
        self.served = served
        self.process = process
        self.tls = tls
        self.carriers = []
        self.name = None
        self.places = []
        # How many entries journals had after a checkpoint was asked for.
        self.entries = {}

    async def connect(self):
        """Connects to all relays."""
        token = self.served.read_token()
        for address in self.served.addresses:
            self.carriers.append(await Carrier.connect(address, token, self.tls))

    def ends(self):
        """Returns what ends when a connection does."""
        return [carrier.reading for carrier in self.carriers]

    async def open(self, name):
        """Opens the sessions of a name, or resumes them. Returns whether all are new."""
        self.name = name
        self.entries = {}
        self.places = [Place(name, carried(carrier)) for carrier in self.carriers]
        are_new = [await self.opened(place) for place in self.places]
        return all(are_new)

    async def opened(self, place):
        """Opens or resumes a session; returns whether it is new."""
        reply = await place.look("open")
        if reply.endswith(b" opened\n"):
            return True
        for _ in range(TRIES if b" refused open 1 " in reply else 0):
            reply = await place.carry(f"@resume {place.name}".encode())
            if reply.split()[1] == b"resumed":
                return False
            if b" in use" not in reply:
                break
            await asyncio.sleep(PAUSE)
        raise InUse(reply.decode("utf-8", "replace").strip())

    async def make_room(self):
        """Asks for a checkpoint where a journal is nearly full. Returns what is said where there can't be one."""
        refused = []
        for place in self.places:
            entries, most = await journal_of(place)
            # After a checkpoint that is refused or that doesn't help, the rest is used before another one is asked for.
            if entries > max(NEARLY_FULL * most, (self.entries.get(place, 0) + most) / 2):
                reply = (await place.carry(f"@compact {place.name}".encode())).decode("utf-8", "replace").strip()
                self.entries[place] = (await journal_of(place))[0]
                if " refused " in reply and not reply.endswith(NO_LOG):
                    refused.append(reply)
        return refused

    def chip(self):
        return Chip(self.process, self.places)

    async def leave(self):
        """Leaves the sessions; those that no log keeps are closed. Returns whether all are left."""
        are_left = True
        for place in self.places:
            if not (await place.carry(f"@leave {place.name}".encode())).endswith(b" left\n"):
                await place.look("close")
                are_left = False
        self.places = []
        return are_left

    async def close(self):
        """Closes the sessions for good."""
        for place in self.places:
            await place.look("close")
        self.places = []

    async def hang_up(self):
        carriers, self.carriers, self.places = self.carriers, [], []
        await asyncio.gather(*(carrier.close() for carrier in carriers))

    async def read(self):
        """Returns the rectangles of each type in each group's session."""
        found = []
        for number, place in enumerate(self.places):
            text = violations.expect(await place.look("save"), b"saved").decode().partition("\n")[2]
            short = {image.name: image.type for image in images_of(self.process, number)}
            found.append({short.get(name, name): rects for name, rects in mag.read(text).layers.items()})
        return found


async def journal_of(place):
    """Returns how many entries a session's journal has, and how many it may have."""
    words = violations.expect(await place.look("stat"), b"stat").split()
    return int(words[2]), int(words[4])


def carried(carrier):
    """Returns a function that carries lines, and fails where the relay has lost the session."""

    async def carry(line):
        reply = await carrier.carry(line)
        if reply.split(None, 2)[1:2] == [b"lost:"]:
            raise Lost(reply.decode("utf-8", "replace").strip())
        return reply

    return lambda line: asyncio.ensure_future(carry(line))


def images_of(process, number):
    """Returns all images in a group."""
    return [image for layer in process.layers for image in layer.images if image.group == number]


def shown(process, number, layers):
    """Returns the rectangles of each type that a group's session shows of a layout."""
    planes = {image.type: image.plane for image in images_of(process, number)}
    images, found = images_by_layer(process, number), {}
    for name, rects in in_order(process, layers).items():
        for image in images[name] if rects else ():
            for other in [other for part in process.layer(name).parts for other in images[part]]:
                if planes[other] == planes[image]:
                    found[other] = strips(found[other], rects)
            found.setdefault(image, []).extend(rects)
    return found


def apart(process, layers, held):
    """Returns rectangles of the squares where sessions show something else than a layout."""
    found = []
    for number, types in enumerate(held):
        found += differing(shown(process, number, layers), types)
    return found


def layers_of(process, held):
    """Returns the layout that sessions show. Of layers that are one type in all groups it is the first one."""
    sharing = {}
    for layer in process.layers:
        for image in layer.images:
            sharing.setdefault((image.group, image.type), []).append(layer)
    found = {}
    for layer in process.layers:
        own = [image for image in layer.images if sharing[image.group, image.type] == [layer]]
        first = [image for image in layer.images if sharing[image.group, image.type][0] is layer]
        if image := next(iter(own or (first if len(first) == len(layer.images) else [])), None):
            rects = held[image.group].get(image.type, [])
            for name in layer.parts or [layer.name]:
                found.setdefault(name, []).extend(rects)
    return {name: strips(rects) for name, rects in found.items() if rects}
