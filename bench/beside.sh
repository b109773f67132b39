#!/usr/bin/env bash
# Magic and KLayout, as Debian ships them, and magicd on the same layouts, in one run.
#
#     bench/beside.sh [COUNT ..]
#
# A layout is 1,000, 4,000 and 16,000 rectangles (or as many as the numbers say) with sides of 4 to 16 squares on a grid of
# 4, strewn over 1,160 by 1,160 squares by a fixed generator (Park and Miller 1988), three quarters poly and a quarter m1, in
# technology M.
#
#   paint, erase      each rectangle, after its box
#   an edit           poly is painted in a square of 8 by 8, or erased there, at 50 places by turns, and checked
#   the rules         that are violated in a box of 20 by 20
#   the whole check   of all rectangles at once
#   save, load        the rectangles as a cell file, by KLayout as GDS; magicd's load paints the cell into a session, too
#
# The last layouts are three cells of Magic's package in scmos, flattened by the client; 256 inverters that were drawn in
# scmos, flattened, 8,288 rectangles; and a corner of a block that qflow placed and routed on cells of 0.35 micrometres,
# 8,212 rectangles of metal and contacts with random pieces over them. Magic checks each at once, magicd as groups of planes
# (clients/process), one after another; both again and again.
#
# Each time is by the clock, the median of five, without the start: Magic and KLayout time themselves, and magicd's is that
# of a script less that of the script without the lines. All run in one thread. The last column names the program that is
# quickest, and how many times as long magicd takes. KLayout has no paint that replaces, and no check of an edit alone.
#
# It needs Debian's magic and klayout, for the last layout qflow-tech-osu035, and Python 3.11.
set -eu
. "$(dirname "${BASH_SOURCE[0]}")/head.sh"
exec /usr/bin/python3 -B "$here/bench/beside.py" "$program" "$@"
