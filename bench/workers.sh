#!/usr/bin/env bash
# Workers behind the lock: whole checks, edits that are checked meanwhile, and paints beside both, with 1, 2 and 4
# workers.
#
# For each number of workers a `magicd --live` has eight sessions, with technology M and a quota of 16,384 tiles. Each
# has 86 rows of 86 squares of poly, 2 by 2 on a pitch of 8, of which every fourth is one square too thin: 14,965 tiles,
# in 9 pieces. Nothing else should run meanwhile.
#
#   whole     each layout is asked to be checked as a whole four times, by lines `drc check`, which are sent at once,
#             and workers check them (`drc catchup` would check in the session's own thread): milliseconds until no area
#             is left, layouts a second, and how many times as fast as one worker
#   edits     the lines of 250 edits of each session, by turns, are sent as fast as they are read, while workers check:
#             milliseconds from the first line until no area is left, edits a second, and the same. An edit sets the box
#             to 2 by 2 squares too close to one of the layout's and paints it, and the next one erases it
#   paint     such an edit, made in the sessions by turns, half a millisecond after the one before, while workers check:
#             a session of which no area is left when its turn comes is first asked to be checked as a whole. The
#             microseconds from sending its two lines until the second reply was read, within which half of the 1,024
#             paints and 99 of a hundred were done, and the longest. With 0 workers nothing is checked
#
# Of `whole` and `edits` there are ten rounds, in which the numbers of workers take turns; the row has the least time.
# `drc count`, asked each millisecond, says when no area of a session is left. The bench fails where one is after a
# minute, or where other than the forbidden squares are marked then. The last column has the aims: four workers are 2.5
# times as fast as one, and 99 of a hundred paints take at most 2 ms.
#
# It runs the program that it builds, or PROGRAM. It needs Python 3. Nothing of it runs in the gate.
set -eu
. "$(dirname "${BASH_SOURCE[0]}")/head.sh"
exec python3 -B "$here/bench/workers.py" "$program"
