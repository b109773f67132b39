"""What each rule forbids in a session's layout, as it is now."""

from kolasieve.rects import strips


class NotChecked(Exception):
    """The session has refused to say what the rules forbid."""


async def within(place, rect, texts):
    """Returns the strips of what is forbidden in a rectangle by the rules' texts; `texts` has these, rule by rule."""
    found = {}
    for rule, _, rects in listed(expect(await place.look("violations", "%d %d %d %d" % rect), b"violations")):
        found.setdefault(texts[rule - 1], []).extend(rects)
    return {text: strips(rects) for text, rects in found.items()}


def expect(reply, word):
    """Returns a reply whose second word is this one."""
    if reply.split(None, 2)[1] != word:
        raise NotChecked(reply.decode().strip())
    return reply


def listed(reply):
    """Returns the number and the text of each rule in the reply to `%violations`, and the strips of what it forbids."""
    return rules_of(reply.split(b"\n")[1:])


def rules_of(lines):
    """Returns the same of the lines below the reply's first one."""
    rules = []
    for line in lines:
        word, _, rest = line.partition(b" ")
        if word == b"rule":
            number, _, text = rest.partition(b" ")
            rules.append((int(number), text.decode(errors="replace"), []))
        elif word == b"rect":
            rules[-1][2].append(tuple(map(int, rest.split())))
    return rules
