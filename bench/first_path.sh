#!/usr/bin/env bash
# Lines a second through magicd, and how the cost of one paint grows with the tiles of the plane and their shape.
#
# A grid is k times k squares of poly, each apart from the others, which makes 2 k k + 2 k + 1 tiles. A comb is n tall
# bars beside a ladder of n short ones, as high together as each tall bar, which makes 6 n + 1 tiles: every band between
# two of the ladder's edges crosses all tall bars. A scatter is the first n of 16,000 rectangles of 4 to 16 squares a
# side, strewn over 1,160 by 1,160 squares by a fixed generator (Park and Miller 1988), poly and ndiff by turns. The
# lines repaint the squares, the short bars or the rectangles, one after another, now with ndiff and now with poly, and
# look at each. The last rows paint all 16,000 rectangles, once the quota is full those that still fit, and have 60,000 lines
# that only set a box, and 1,000,000 blank ones.
set -eu
. "$(dirname "${BASH_SOURCE[0]}")/head.sh"
scripts=$(mktemp -d)
trap 'rm -rf "$scripts"' EXIT

# grid K ROUNDS: paints the squares, and then repaints ROUNDS squares and looks at each
grid() {
    awk -v k="$1" -v rounds="$2" '
        function box(i, j) { printf "a box %d %d %d %d\n", 20 * j, 20 * i, 20 * j + 10, 20 * i + 10 }
        BEGIN {
            print "%open a"
            for (i = 0; i < k; i++) for (j = 0; j < k; j++) { box(i, j); print "a paint poly" }
            for (r = 0; r < rounds; r++) {
                box(r % k, int(r / k) % k)
                print (int(r / (k * k)) % 2 == 0) ? "a paint ndiff" : "a paint poly"
                print "a what"
            }
        }'
}

# comb N ROUNDS: paints the ladder and the tall bars, and then repaints ROUNDS short bars and looks at each
comb() {
    awk -v n="$1" -v rounds="$2" '
        function short(i) { printf "a box 0 %d 10 %d\n", 20 * i, 20 * i + 10 }
        BEGIN {
            print "%open a"
            for (i = 0; i < n; i++) { short(i); print "a paint poly" }
            for (j = 1; j <= n; j++) {
                printf "a box %d 0 %d %d\na paint poly\n", -20 * j, -20 * j + 10, 20 * n - 10
            }
            for (r = 0; r < rounds; r++) {
                short(r % n)
                print (int(r / n) % 2 == 0) ? "a paint ndiff" : "a paint poly"
                print "a what"
            }
        }'
}

# scatter N ROUNDS: paints N rectangles, and then repaints ROUNDS of them and looks at each
scatter() {
    awk -v n="$1" -v rounds="$2" '
        function roll(limit) { seed = seed * 16807 % 2147483647; return seed % limit }
        function box(i) { printf "a box %d %d %d %d\n", left[i], bottom[i], right[i], top[i] }
        BEGIN {
            seed = 2026
            print "%open a"
            for (i = 0; i < n; i++) {
                left[i] = roll(1160); bottom[i] = roll(1160)
                right[i] = left[i] + 4 + roll(13); top[i] = bottom[i] + 4 + roll(13)
                box(i)
                print (i % 2 == 0) ? "a paint poly" : "a paint ndiff"
            }
            for (r = 0; r < rounds; r++) {
                box(r % n)
                print ((r + int(r / n)) % 2 == 0) ? "a paint ndiff" : "a paint poly"
                print "a what"
            }
        }'
}

# boxes N: N lines that only set a box
boxes() {
    echo "%open a"
    awk -v n="$1" 'BEGIN { for (i = 0; i < n; i++) printf "a box %d 0 %d 10\n", i % 100, i % 100 + 5 }'
}

# blanks N: N blank lines
blanks() {
    echo "%open a"
    awk -v n="$1" 'BEGIN { for (i = 0; i < n; i++) print "" }'
}

# took FILE: how many microseconds of a processor magicd takes for a script, the least of three runs
took() {
    local least=()
    for _ in 1 2 3; do
        spent "$program" --quota 16384 --journal 65536 < "$1" > "$scripts/out"
        keep 0
    done
    echo "${least[0]}"
}

# line SHAPE N: the row of a line of this shape, of which there are N
line() {
    "$1" 0 > "$scripts/before"
    "$1" "$2" > "$scripts/after"
    printf '%s\t%s us each\n' "$1" "$(each "$(($(took "$scripts/after") - $(took "$scripts/before")))" "$2")"
}

# micros SHAPE N ROUNDS: microseconds for one round of a box, a paint and a look
micros() {
    local before after
    "$1" "$2" 0 > "$scripts/before"
    "$1" "$2" "$3" > "$scripts/after"
    before=$(took "$scripts/before")
    after=$(took "$scripts/after")
    if grep -q refused "$scripts/out"; then echo "a line was refused" >&2; exit 1; fi
    each "$((after - before))" "$3"
}

# row SHAPE N TILES MICROS: a row of the table; a round has three lines
row() {
    printf '%s\t%s\t%s\t%s\n' "$1 of $2" "$3" "$(awk -v us="$4" 'BEGIN { print (us + 0 > 0 ? int(3e3 / us) * 1000 : "-") }')" "$4"
}

printf '%s\t%s\t%s\t%s\n' shape tiles lines/s us/round
for k in 7 12 22 34; do
    grid_us=$(micros grid "$k" 15000)
    row grid "$((k * k))" "$((2 * k * k + 2 * k + 1))" "$grid_us"
done
comb_us=$(micros comb 400 15000)
row comb 400 2401 "$comb_us"
printf 'comb/grid of 1156\t%s times\n' "$(ratio "$comb_us" "$grid_us")"
for size in 270:1020 1100:3924 4450:14932; do
    scatter_us=$(micros scatter "${size%:*}" 15000)
    row scatter "${size%:*}" "${size#*:}" "$scatter_us"
    if [ -z "${first_us:-}" ]; then first_us=$scatter_us; fi
done
printf 'scatter of 4450/of 270\t%s times\n' "$(ratio "$scatter_us" "$first_us")"
scatter 16000 0 > "$scripts/all"
printf '16000 boxes and paints\t%s us each\n' "$(each "$(took "$scripts/all")" 16000)"
line boxes 60000
line blanks 1000000
