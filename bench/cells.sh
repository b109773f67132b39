#!/usr/bin/env bash
# Erasing, saving, loading and dumping through magicd.
#
# A grid is k times k squares of poly with a side of 10, each 10 apart from the others, which makes 2 k k + 2 k + 1 tiles.
#
#   paint      paints the squares of a grid into an empty session, one after another
#   erase      on grids of some 100, 1,000 and 4,000 tiles: erases one square, and paints it again
#   save       a grid of 4,900 squares on each of two planes, 9,800 rectangles together, saved sixty times
#   load       a file of 10,000 rectangles that overlap, so that their plane has few tiles, and 32 times a file of the
#              most squares in a grid that a cell's plane has room for
#   dump       a cell of some 1,000 tiles, into an empty session and then over itself, one square to the right and back
#
# Each time is the processor's, the difference of two scripts or of two command lines, of each the least of five runs
# that take turns. The last column is how many times as long a step takes as the first one, the paint of one square.
set -eu
. "$(dirname "${BASH_SOURCE[0]}")/head.sh"
work=$(mktemp -d)
trap 'rm -rf "$work"' EXIT

# grid K: boxes and paints of the squares
grid() {
    awk -v k="$1" 'BEGIN {
        for (i = 0; i < k; i++) for (j = 0; j < k; j++)
            printf "a box %d %d %d %d\na paint poly\n", 20 * j, 20 * i, 20 * j + 10, 20 * i + 10
    }'
}

# erase K ROUNDS: the grid, and then ROUNDS times erases a square and paints it again
erase() {
    echo "%open a"
    grid "$1"
    awk -v k="$1" -v rounds="$2" 'BEGIN {
        for (r = 0; r < rounds; r++) {
            i = int(r / k) % k; j = r % k
            printf "a box %d %d %d %d\na erase poly\na paint poly\n", 20 * j, 20 * i, 20 * j + 10, 20 * i + 10
        }
    }'
}

# save K TIMES: the grid on two planes, saved TIMES times
save() {
    echo "%open a"
    grid "$1"
    grid "$1" | sed 's/poly/m1/'
    awk -v times="$2" 'BEGIN { for (r = 0; r < times; r++) print "a save" }'
}

# dump TIMES: dumps the cell c TIMES times, each time a step farther
dump() {
    awk -v times="$1" 'BEGIN {
        print "%open a"
        for (r = 0; r < times; r++) printf "a dump c %d 0\n", r % 2
    }'
}

# cell_of_grid K: the squares of a grid as a cell file
cell_of_grid() {
    awk -v k="$1" 'BEGIN {
        print "magic\ntech M\n<< poly >>"
        for (i = 0; i < k; i++) for (j = 0; j < k; j++)
            printf "rect %d %d %d %d\n", 20 * j, 20 * i, 20 * j + 10, 20 * i + 10
        print "<< end >>"
    }'
}

# overlapping N: a cell file of N rectangles, each of which covers most of the one before
overlapping() {
    awk -v n="$1" 'BEGIN {
        print "magic\ntech M\n<< poly >>"
        for (i = 0; i < n; i++) printf "rect %d %d %d %d\n", i % 100, int(i / 100), i % 100 + 50, int(i / 100) + 50
        print "<< end >>"
    }'
}

# run_timed I SCRIPT WORD..: runs magicd on a script with these words
run_timed() {
    spent "$program" --quota 16384 --journal 65536 "${@:3}" < "$2" > "$work/out"
    if grep -q refused "$work/out"; then echo "a line was refused" >&2; exit 1; fi
    keep "$1"
}

# row STEP SIZE N: the row of a step that is taken N times more by the script "more" and the words "more_words" than by
# "less" and "less_words"
row() {
    local us
    least=()
    for _ in 1 2 3 4 5; do
        run_timed 0 "$work/less" "${less_words[@]}"
        run_timed 1 "$work/more" "${more_words[@]}"
    done
    us=$(each "$((least[1] - least[0]))" "$3")
    paint=${paint:-$us}
    printf '%s\t%s\t%s\t%s\n' "$1" "$2" "$us" "$(ratio "$us" "$paint")"
}

paint=
printf '%s\t%s\t%s\t%s\n' step size us 'times a paint'
less_words=()
more_words=()
cp /dev/null "$work/less"
erase 88 0 > "$work/more"
row 'paint one square' '7744 squares' 7744
for k in 7 22 44; do
    erase "$k" 0 > "$work/less"
    erase "$k" 15000 > "$work/more"
    row 'erase and paint one square' "$((2 * k * k + 2 * k + 1)) tiles" 15000
done
save 70 0 > "$work/less"
save 70 60 > "$work/more"
row 'save one rectangle' '9800 squares' $((60 * 9800))
cp /dev/null "$work/less"
cp /dev/null "$work/more"
overlapping 10000 > "$work/many.mag"
more_words=("c=$work/many.mag")
row 'load one rectangle' '10000 that overlap' 10000
cell_of_grid 44 > "$work/grid.mag"
more_words=()
for ((i = 0; i < 32; i++)); do more_words+=("c$i=$work/grid.mag"); done
row 'load one rectangle' '1936 squares' $((32 * 1936))
cell_of_grid 22 > "$work/cell.mag"
dump 0 > "$work/less"
dump 200 > "$work/more"
less_words=("c=$work/cell.mag")
more_words=("c=$work/cell.mag")
row 'dump one cell' '1013 tiles' 200
