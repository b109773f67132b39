"""What sessions of a process show, by planes and squares, and what a layout says that they show."""

from kolasieve import mag
from kolasieve.chip import images_by_layer
from kolasieve.paint import in_order


def squares_of(rects, type):
    """Returns the type of each square of rectangles."""
    return {
        (x, y): type for left, bottom, right, top in rects for x in range(left, right) for y in range(bottom, top)
    }


def squares_shown(process, number, text):
    """Returns the paint of a group's session, whose text this is."""
    planes = {image.name: (image.plane, image.type) for layer in process.layers for image in layer.images if image.group == number}
    planes |= {each: (plane, each) for plane, each in planes.values()}
    found = {}
    for name, rects in mag.read(text).sections.items():
        plane, short = planes[name]
        found.setdefault(plane, {}).update(squares_of(rects, short))
    return found


def squares_told(process, number, layers):
    """Returns what a layout says that a group's session shows."""
    planes = {image.type: image.plane for layer in process.layers for image in layer.images if image.group == number}
    images, found = images_by_layer(process, number), {}
    for name, rects in in_order(process, layers).items():
        for image in images[name] if rects else ():
            found.setdefault(planes[image], {}).update(squares_of(rects, image))
    return found
