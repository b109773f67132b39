"""What is asked of a session to show it. Here alone stands by which lines its marks are known, and what is forbidden."""

# The box of all squares.
WORLD = b"-1048576 -1048576 1048576 1048576"

MARKS = b"<< error_p >>\n"

# Of more marks than these it isn't looked where they are.
MOST_MARKS = 1000


async def replies_of(session, looks):
    """Returns the replies to looks at a session, all of the same moment; a look is its word, and what follows the name."""
    lines = [b"%%%s %s %s" % (word, session.name, rest) for word, _, rest in (each.partition(b" ") for each in looks)]
    replies = await session.program.ask_all(session.name, lines)
    if session.held is not None:
        await session.held.confirm()
    return replies


async def texts_of(session):
    """Returns the reply to `%stat`, how many marks there are, and the replies from which a session is drawn.

    These are own paint, uses, marks with unchecked areas, and what each rule forbids round the marks.
    """
    stat, *texts, errors = await replies_of(session, [b"stat", b"save", b"uses", b"errors " + WORLD])
    strips = strips_of(errors)
    violations = await violations_in(session, around(strips)) if strips else b""
    return stat, len(strips), [*texts, errors, violations]


async def marks_of(session):
    """Returns the reply to `%stat`, and how many marks there are."""
    stat, errors = await replies_of(session, [b"stat", b"errors " + WORLD])
    return stat, len(strips_of(errors))


async def violations_in(session, box):
    """Returns the reply to a look at what each rule forbids in a box, four numbers."""
    [reply] = await replies_of(session, [b"violations " + box])
    return reply


def strips_of(errors):
    """Returns the numbers of each strip of marked squares, as they stand in a line."""
    section = errors.partition(MARKS)[2].partition(b"<<")[0]
    return [line.partition(b" ")[2] for line in section.splitlines()]


def around(strips):
    """Returns the numbers of a box that has these strips."""
    if len(strips) > MOST_MARKS:
        return WORLD
    lefts, bottoms, rights, tops = zip(*(map(int, strip.split()) for strip in strips))
    return b"%d %d %d %d" % (min(lefts), min(bottoms), max(rights), max(tops))
