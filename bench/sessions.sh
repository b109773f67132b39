#!/usr/bin/env bash
# Many sessions on one server, beside one session alone.
#
# Each session paints 1,000 squares of poly with a side of 10, each 10 apart from the others, a box and a paint a square, into
# a layout of its own: some 2,000 tiles. The sessions take turns, a line each. The pool has room for 64 of them.
#
# The columns are how many sessions there are, how many lines they have together, the microseconds a line, how many
# times as long that is as with one session, and the most memory that the program held, in megabytes. The time is the
# processor's, the difference of a script in which each session paints its squares ten times over and of one that opens
# the sessions alone, of each the least of three runs. A last row has 64 sessions of which one paints, and the others
# are open.
set -eu
. "$(dirname "${BASH_SOURCE[0]}")/head.sh"
work=$(mktemp -d)
trap 'rm -rf "$work"' EXIT

# opened N: N lines that open sessions
opened() {
    awk -v n="$1" 'BEGIN { for (s = 0; s < n; s++) printf "%%open s%d\n", s }'
}

# painted N TIMES: the boxes and paints of N sessions, a line of each in turn, so many times over
painted() {
    awk -v n="$1" -v times="$2" 'BEGIN {
        for (p = 0; p < 1000 * times; p++) {
            left = 20 * (p % 32); bottom = 20 * int(p % 1000 / 32)
            for (s = 0; s < n; s++) printf "s%d box %d %d %d %d\n", s, left, bottom, left + 10, bottom + 10
            for (s = 0; s < n; s++) printf "s%d paint %s\n", s, int(p / 1000) % 2 ? "ndiff" : "poly"
        }
    }'
}

options=(--quota 4096 --pool 1048576 --journal 65536)

# run_timed I SCRIPT: runs magicd on a script
run_timed() {
    spent "$program" "${options[@]}" < "$2" > "$work/out"
    if grep -qE 'refused|fault' "$work/out"; then echo "a line was refused" >&2; exit 1; fi
    keep "$1"
}

# memory_of SCRIPT: the most memory that magicd held, in kilobytes, once it has answered a script of which each line has one
# line of reply; its input is held open until then
memory_of() {
    local lines
    lines=$(wc -l < "$1")
    mkfifo "$work/input"
    "$program" "${options[@]}" < "$work/input" > "$work/out" &
    exec 3> "$work/input"
    cat "$1" >&3
    until [ "$(wc -l < "$work/out")" -ge "$lines" ]; do kill -0 "$!"; sleep 0.1; done
    sed -n 's/^VmHWM:[^0-9]*\([0-9]*\) kB$/\1/p' "/proc/$!/status"
    exec 3>&-
    wait "$!"
    rm "$work/input"
}

# row OPEN PAINTING: the row of so many open sessions, of which so many paint
row() {
    local lines memory
    opened "$1" > "$work/less"
    opened "$1" > "$work/more"
    painted "$2" 10 >> "$work/more"
    lines=$(($2 * 20000))
    least=()
    for _ in 1 2 3; do
        run_timed 0 "$work/less"
        run_timed 1 "$work/more"
    done
    { opened "$1"; painted "$2" 1; } > "$work/more"
    memory=$(memory_of "$work/more" | awk '{ printf "%.1f", $1 / 1024 }')
    us=$(each "$((least[1] - least[0]))" "$lines")
    alone=${alone:-$us}
    printf '%s\t%s\t%s\t%s\t%s\n' "$1" "$lines" "$us" "$(ratio "$us" "$alone")" "$memory"
}

alone=
printf '%s\t%s\t%s\t%s\t%s\n' sessions lines us times MB
row 1 1
row 8 8
row 64 64
row 64 1
