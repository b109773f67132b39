#!/usr/bin/env bash
# The whole world awaits checking: how long `drc catchup` takes, and how long workers.
#
# A session has technology M, a quota of 16,384 tiles and one of these layouts, whose marks are right. Then `drc check`
# with the world's box is asked for once, or 64 times.
#
#   empty     nothing
#   painted   poly in the whole world
#   corner    squares of 1 by 1 on a pitch of 2 in the lower left corner, all marked: more than half of the quota
#   bars      a thousand bars as high as the world, 2 wide on a pitch of 64
#   rows      the same with x and y exchanged
#   marked    a technology whose rule forbids every square of the empty layout, which is all marked
#   strewn    10,082 rectangles of poly and metal, with sides of 1 to 8, over 1,136 by 1,136 squares
#   alone     the same, but their box alone is checked
#   far       one use of a cell with squares in two opposite corners of the world
#   filled    one use of a cell that is poly in the whole world
#   barred    one use of a cell with the thousand bars
#
# Columns: milliseconds of the processor that a script with the checks and `drc catchup` takes more than one without
# them, for one check and for 64, the least of three runs; then, with `--live`, milliseconds by the clock from the first
# `drc check` until `drc count`, asked each millisecond, has no area pending, with one worker, for one check and for 64.
# A dash stands for more than ten seconds. With numbers as arguments as many checks are asked for. It fails where other
# squares are marked at the end.
#
# Aims: 20 for empty; for strewn 1.2 of alone and empty together; 100 for the others; 64 checks as long as one. It runs the
# program that it builds, or PROGRAM. It needs Python 3. Nothing of it runs in the gate.
set -eu
. "$(dirname "${BASH_SOURCE[0]}")/head.sh"
exec python3 -B "$here/bench/world.py" "$program" "$@"
