#!/usr/bin/env bash
# A routed block, so many times over, checked by Magic, by clients/process and by KLayout, in one run.
#
#     bench/chips.sh [COUNT | COUNTplaced] ..
#
# A layout has about 10,000 to 10,000,000 rectangles, or as many as the numbers say: copies of the block of bench/layouts
# beside each other, or a part of it, in one flat cell; as `10000000placed`, the copies are uses of one cell. Magic and
# clients/process check all rules of SCN4M_SUBM.20, KLayout the widths and distances of metal alone, in tiles.
#
#   processor   seconds of a processor that all took, with reading; clients/process with one process, KLayout one thread
#   clock       seconds by the clock, with as many processes and threads as there are cores
#   memory      megabytes of all processes together at the most (Pss), looked at once a second
#   found       how many of the eight rules of widths and distances of metal forbid something
#
# What would take over LIMIT seconds by the clock (400), if a rectangle took as long as in the layout before, isn't tried:
# its column is empty. What takes over LIMIT all the same is ended: its row says `over` what it had taken by then. The
# whole takes about 18 minutes on four quiet cores. It needs Debian's magic, klayout and qflow-tech-osu035, Python 3.11.
set -eu
. "$(dirname "${BASH_SOURCE[0]}")/head.sh"
exec /usr/bin/python3 -B "$here/bench/chips.py" "$program" "$@"
