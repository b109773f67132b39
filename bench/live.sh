#!/usr/bin/env bash
# How long a line waits for its reply with --live, while another session checks and while none does.
#
# 64 sessions are open, with 4 workers. A scatter of 8,900 rectangles of 4 to 16 squares a side, poly and m1 by turns, is
# strewn over 1,160 by 1,160 squares in one of them by a fixed generator (Park and Miller 1988): 14,373 tiles of poly and
# 14,488 of m1. The others have a few squares of poly each. One line after another goes through the pipe, a hundred of
# each kind, each to the next of the others and 7 milliseconds after the last reply. Its time is that until its reply was
# read:
#
#   box       sets a box of 8 by 8 squares
#   paint     paints it
#   what      lists the types in it
#   catchup   checks what the paint made dirty
#
#   quiet     nothing else happens
#   busy      meanwhile the box round the scatter is checked again and again: `drc check` and `drc catchup`
#
# Rows have the median and the 99th of the hundred. The last rows have what that of the scatter took, and how often.
set -eu
. "$(dirname "${BASH_SOURCE[0]}")/head.sh"
exec python3 /dev/fd/3 "$program" 3<<'PY'
import queue
import subprocess
import sys
import threading
import time

OTHERS = [f"s{i}" for i in range(63)]
KINDS = ["box", "paint", "what", "catchup"]
ROUNDS = 100
PAUSE = 0.007


class Server:
    """A running magicd, whose replies are sorted by session."""

    def __init__(self, program):
        self.process = subprocess.Popen(
            [program, "--live", "--workers", "4", "--quota", "16384", "--pool", "3400000", "--journal", "65536"],
            stdin=subprocess.PIPE,
            stdout=subprocess.PIPE,
        )
        self.replies = {name: queue.SimpleQueue() for name in ["busy", *OTHERS]}
        self.lock = threading.Lock()
        self.reader = threading.Thread(target=self.read, daemon=True)
        self.reader.start()

    def read(self):
        for line in self.process.stdout:
            self.replies[line.split()[0].decode()].put((time.perf_counter(), line.decode().rstrip("\n")))

    def send(self, *lines):
        with self.lock:
            self.process.stdin.write("".join(line + "\n" for line in lines).encode())
            self.process.stdin.flush()

    def reply(self, name, line):
        """Sends a line of a session, waits for its reply, and returns how long that took, in seconds."""
        before = time.perf_counter()
        self.send(line)
        after, said = self.replies[name].get()
        if " refused " in said or " fault " in said:
            sys.exit(f"{line}: {said}")
        return after - before

    def end(self):
        self.process.stdin.close()
        self.reader.join()
        if self.process.wait() != 0:
            sys.exit("magicd failed")


class Roll:
    """The generator."""

    def __init__(self):
        self.seed = 2026

    def below(self, limit):
        self.seed = self.seed * 16807 % 2147483647
        return self.seed % limit


def strew(server, roll):
    """Paints the scatter, and checks it."""
    lines = []
    for i in range(8900):
        left, bottom = roll.below(1160), roll.below(1160)
        right, top = left + 4 + roll.below(13), bottom + 4 + roll.below(13)
        lines += [f"busy box {left} {bottom} {right} {top}", f"busy paint {'m1' if i % 2 else 'poly'}"]
    lines += ["busy box 0 0 1176 1176", "busy drc catchup"]
    server.send(*lines)
    for _ in lines:
        server.replies["busy"].get()


def check_again(server, done, took):
    """Checks the box round the scatter again and again until the other lines are done."""
    while not done.is_set():
        server.reply("busy", "busy drc check")
        took.append(server.reply("busy", "busy drc catchup"))


def measure(server, roll):
    """Returns the times of the lines of each kind."""
    times = {kind: [] for kind in KINDS}
    for i in range(ROUNDS):
        name = OTHERS[i % len(OTHERS)]
        left, bottom = roll.below(100) * 20, roll.below(100) * 20
        lines = [f"box {left} {bottom} {left + 8} {bottom + 8}", "paint poly", "what", "drc catchup"]
        for kind, line in zip(KINDS, lines):
            time.sleep(PAUSE)
            times[kind].append(server.reply(name, f"{name} {line}"))
    return times


def main():
    server, roll = Server(sys.argv[1]), Roll()
    for name in ["busy", *OTHERS]:
        server.reply(name, f"%open {name}")
    strew(server, roll)
    quiet = measure(server, roll)
    done, took = threading.Event(), []
    checker = threading.Thread(target=check_again, args=(server, done, took), daemon=True)
    checker.start()
    busy = measure(server, roll)
    done.set()
    checker.join()
    server.end()
    print("line", "quiet median", "quiet 99th", "busy median", "busy 99th", sep="\t")
    for kind in KINDS:
        cells = []
        for times in (quiet[kind], busy[kind]):
            ordered = sorted(times)
            cells += [f"{ordered[ROUNDS // 2] * 1e3:.3f} ms", f"{ordered[ROUNDS * 99 // 100 - 1] * 1e3:.3f} ms"]
        print(kind, *cells, sep="\t")
    ordered = sorted(took)
    print("catchup of the scatter", f"{ordered[len(ordered) // 2] * 1e3:.0f} ms", f"{len(took)} times", sep="\t")


main()
PY
