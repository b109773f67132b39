#!/usr/bin/env bash
# An hour of load, or as many seconds as are asked for: 64 sessions, 4 workers, random lines, and memory watched.
#
#   bench/soak.sh [SECONDS]
#
# A `magicd --live` is sent eight random lines of each of 64 sessions, by turns, and the next eight of a session once
# those before have their replies: boxes in the world, across its border, beyond it and without squares, paints and
# erases of types and of what is none, dumps of a cell and of none, the same placed, all that can be asked, and all
# looks. A plane may have 64 tiles and a journal 256 entries, so that both refusals come. A session ends where its
# journal is full, or after at most 64 turns: it is audited and closed, and one of its name is opened.
#
# The rows are the seconds; how many commands were made, and how many in a second; how many looks; how many lines were
# refused by each number; how many sessions were opened, audited and closed; and how many kilobytes the program held
# after one minute, or of less than ten the first tenth, but at least five seconds, and at most after that.
#
# It fails where a line has a fault, another line's reply, or none within a minute; where an audit differs, or the
# journal has other than all commands that weren't refused by 6 or 9; where an area awaits checking just after a
# catching up; where the program hasn't ended a minute after its input, or not with status 0; or where the last row is
# 5 % more than the one before.
#
# The C library keeps freed blocks for the thread that freed them, and fills these caches up for hours; GLIBC_TUNABLES
# turns them off here, so that what grows is what the program holds.
#
# It runs the program that it builds, or PROGRAM. It needs Python 3. Nothing of it runs in the gate.
set -eu
. "$(dirname "${BASH_SOURCE[0]}")/head.sh"
exec python3 -B "$here/bench/soak.py" "$program" "${1:-3600}"
