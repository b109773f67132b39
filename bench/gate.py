#!/usr/bin/env python3
"""gate.py FILE COMMAND..: runs the command, as `rt ci`, and writes to FILE how many minutes of a processor each crate took.

Once a second it looks at the prover's processes in its own session: which crate each one checks, and whether it proves the
crate, its tests, or a wrong body, which is checked in a folder of its own. What a process took after it was last seen isn't
counted.
Ends with the command's status.
"""

import collections
import os
import resource
import subprocess
import sys
import time

TICKS = 60 * os.sysconf("SC_CLK_TCK")
KINDS = ("proof", "tests", "wrong bodies")


def checked_by(process):
    """Returns the crate that a process checks, which of KINDS, and the minutes that it has taken; None where it checks none."""
    try:
        if os.getsid(int(process)) != os.getsid(0):
            return None
        with open(f"/proc/{process}/cmdline", "rb") as file:
            words = file.read().decode(errors="replace").split("\0")
        if os.path.basename(words[0]) != "rattle" or "--crate-name" not in words:
            return None
        crate = words[words.index("--crate-name") + 1]
        is_edited = os.path.basename(os.readlink(f"/proc/{process}/cwd")).startswith("rt-edit-")
        with open(f"/proc/{process}/stat", encoding="utf-8") as file:
            user, system = file.read().rpartition(")")[2].split()[11:13]
    except OSError:
        return None
    kind = "wrong bodies" if is_edited else "tests" if "--test" in words else "proof"
    return crate, kind, (int(user) + int(system)) / TICKS


def minutes_by_crate(command):
    """Runs a command, and returns its status, and the minutes of each process of the prover by its number."""
    ran, seen = subprocess.Popen(command), {}
    while ran.poll() is None:
        for process in filter(str.isdigit, os.listdir("/proc")):
            if found := checked_by(process):
                seen[process, found[:2]] = found[2]
        time.sleep(1)
    return ran.returncode, seen


def main(path, *command):
    began = time.monotonic()
    status, seen = minutes_by_crate(command)
    took = (time.monotonic() - began) / 60
    used = resource.getrusage(resource.RUSAGE_CHILDREN)
    whole = (used.ru_utime + used.ru_stime) / 60
    table = collections.defaultdict(lambda: dict.fromkeys(KINDS, 0.0))
    for (_, (crate, kind)), minutes in seen.items():
        table[crate][kind] += minutes
    with open(path, "w", encoding="utf-8") as file:
        print("| crate | proof | tests | wrong bodies |\n|---|---|---|---|", file=file)
        for crate, row in sorted(table.items(), key=lambda each: -sum(each[1].values())):
            print(f"| `{crate}` |", " | ".join(f"{row[kind]:.1f}" for kind in KINDS), "|", file=file)
        sums = [sum(row[kind] for row in table.values()) for kind in KINDS]
        print("| all |", " | ".join(f"{each:.0f}" for each in sums), "|", file=file)
        print(f"{whole:.0f} minutes of a processor, {took:.0f} by the clock on {os.cpu_count()} processors", file=file)
    return status


if __name__ == "__main__":
    sys.exit(main(*sys.argv[1:]))
