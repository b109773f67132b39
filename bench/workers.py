"""Times workers behind the lock on `magicd --live`. Called by bench/workers.sh, which says what the rows are."""
import contextlib
import sys
import time

from talking import LIMIT, Failed, Program

NAMES = [f"s{number}" for number in range(8)]
OPTIONS = ["--live", "--quota", "16384", "--pool", "1048576", "--journal", "65536"]

# A layout has so many rows, and as many squares in each; the squares and the rows begin so far apart.
ROWS = 86
PITCH = 8
SIDE = 2
THIN = 1
# From where a square begins to an edit beside it, which is too close.
GAP = 3

ROUNDS = 10
# Checks of each layout in a round, which make the time long beside the one between two looks.
CHECKS = 4
# Edits of a session in a round, and timed paints of all of them: as many are painted as erased.
EDITS = 250
PAINTS = 1024
# Seconds from one paint to the next, and from a look at what awaits checking to the next.
PAUSE = 0.0005
LOOK = 0.001


def box_at(left, bottom, width, height):
    return f"box {left} {bottom} {left + width} {bottom + height}"


WHOLE = box_at(0, 0, PITCH * ROWS, PITCH * ROWS)


def layout(number):
    """Returns the commands that paint a layout. Its thin squares begin elsewhere than those of the others."""
    commands = []
    for row in range(ROWS):
        for column in range(ROWS):
            width = SIDE if (row + column + number) % 4 else THIN
            commands += [box_at(PITCH * column, PITCH * row, width, SIDE), "paint poly"]
    return commands


def forbidden(number):
    """Returns how many squares of a layout are forbidden: those that its thin squares lack."""
    thin = sum((row + column + number) % 4 == 0 for row in range(ROWS) for column in range(ROWS))
    return thin * (SIDE - THIN) * SIDE


MARKS = {name: forbidden(number) for number, name in enumerate(NAMES)}


def edit(number):
    """Returns the commands of an edit. The even ones paint, each elsewhere, and the one behind each erases."""
    place = number // 2
    row, column = place * 13 % ROWS, place * 29 % ROWS
    return [box_at(PITCH * column + GAP, PITCH * row, SIDE, SIDE), "erase poly" if number % 2 else "paint poly"]


def take_ok(program, name):
    """Takes a reply, which must be `ok`, and returns when it was read."""
    read, said = program.reply(name)
    if said != "ok":
        raise Failed(f"{name}: {said}")
    return read


def carry_out(program, name, commands):
    """Sends commands of a session at once, and returns when the last reply was read."""
    program.send(f"{name} {command}" for command in commands)
    return max([take_ok(program, name) for _ in commands])


def count(program, name):
    """Asks how many squares are marked and areas await checking, and returns when the reply was read, and it."""
    program.send([f"{name} drc count"])
    return program.reply(name)


def await_checked(program, name):
    """Waits until no area of a session awaits checking, and returns when that was read."""
    last = time.perf_counter() + LIMIT
    read, said = count(program, name)
    while not said.endswith(" 0 pending"):
        if read > last:
            raise Failed(f"{name}: areas await checking for {LIMIT} seconds")
        time.sleep(LOOK)
        read, said = count(program, name)
    if said != f"count {MARKS[name]} errors 0 pending":
        raise Failed(f"{name}: {said}, and {MARKS[name]} squares are forbidden")
    return read


def await_all_checked(program):
    """Waits until no area of any session awaits checking, and returns when that was read."""
    return max([await_checked(program, name) for name in NAMES])


def start(program):
    """Opens the sessions and paints their layouts."""
    for number, name in enumerate(NAMES):
        program.send([f"%open {name}"])
        if program.reply(name)[1] != "opened":
            raise Failed(f"{name} can't be opened")
        carry_out(program, name, layout(number))


def time_lines(program, lines):
    """Sends lines, as many of each session, and returns how many seconds pass until all of them and checks are done."""
    begin = time.perf_counter()
    program.send(lines)
    for name in NAMES:
        for _ in range(len(lines) // len(NAMES)):
            take_ok(program, name)
    return await_all_checked(program) - begin


def time_whole(program):
    """Returns how many seconds it takes to check all layouts as a whole so many times."""
    for name in NAMES:
        carry_out(program, name, [WHOLE])
    return time_lines(program, [f"{name} drc check" for _ in range(CHECKS) for name in NAMES])


def time_edits(program):
    """Returns how many seconds edits of all sessions, by turns, and their checks take."""
    lines = [f"{name} {command}" for number in range(EDITS) for name in NAMES for command in edit(number)]
    return time_lines(program, lines)


def time_paint(program, name, number):
    """Makes an edit of a session, and returns how many seconds that takes."""
    begin = time.perf_counter()
    return carry_out(program, name, edit(number)) - begin


def check_again(program, name):
    """Asks for a check of a layout as a whole, where no area of it awaits checking."""
    if count(program, name)[1].endswith(" 0 pending"):
        carry_out(program, name, [WHOLE, "drc check"])


def time_paints(program, workers):
    """Returns the seconds of all timed paints, least first."""
    times = []
    for number in range(PAINTS):
        name = NAMES[number % len(NAMES)]
        if workers:
            check_again(program, name)
        times.append(time_paint(program, name, number // len(NAMES)))
        time.sleep(PAUSE)
    return sorted(times)


def print_row(*columns):
    print(*columns, sep="\t", flush=True)


def print_least(step, number, rounds):
    """Prints the least time of a step, which does so many in a session, with each number of workers."""
    for workers, times in rounds.items():
        least = min(times)
        each = number * len(NAMES) / least
        aim = "2.50" if (step, workers) == ("whole", 4) else "-"
        print_row(step, workers, f"{least * 1e3:.2f}", f"{each:.0f}", f"{min(rounds[1]) / least:.2f}", aim)


def print_steps(programs):
    """Prints how long whole checks and edits take with each program, which take turns."""
    print_row("step", "workers", "ms", "a second", "times", "aim")
    for step, time_step, number in [("whole", time_whole, CHECKS), ("edits", time_edits, EDITS)]:
        rounds = {workers: [] for workers in programs}
        for _ in range(ROUNDS):
            for workers, program in programs.items():
                rounds[workers].append(time_step(program))
        print_least(step, number, rounds)


def print_paints(programs):
    """Prints how long paints take with each program."""
    print_row("step", "workers", "half within us", "99 of 100 within us", "longest us", "aim us")
    for workers, program in programs.items():
        times = time_paints(program, workers)
        micros = [f"{times[place] * 1e6:.0f}" for place in (PAINTS // 2, PAINTS * 99 // 100, -1)]
        print_row("paint", workers, *micros, "2000" if workers == 4 else "-")


def print_all(programs):
    """Prints all rows. What awaits checking before and after is checked, where there are workers."""
    crews = {workers: program for workers, program in programs.items() if workers}
    for program in crews.values():
        await_all_checked(program)
    print_steps(crews)
    print_paints(programs)
    for program in crews.values():
        await_all_checked(program)


def main():
    with contextlib.ExitStack() as stack:
        programs = {}
        for workers in [0, 1, 2, 4]:
            words = [sys.argv[1], *OPTIONS, "--workers", str(workers)]
            programs[workers] = stack.enter_context(Program(words, NAMES))
            start(programs[workers])
        print_all(programs)
        for program in programs.values():
            program.end()


try:
    main()
except Failed as failed:
    sys.exit(str(failed))
