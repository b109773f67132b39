#!/usr/bin/env bash
# Design rule checks through magicd, with technology M.
#
# A scatter is n rectangles of 4 to 16 squares a side, strewn over a square of a given side by a fixed generator (Park and
# Miller 1988), of poly and m1 by turns. So each of two planes has half of them, and they are as dense as the quota of 16,384
# tiles lets them be: 8,900 over 1,160 by 1,160 squares make 14,373 tiles of poly and 14,488 of m1, and 16,000 over 800 by 800
# make 14,840 and 15,199, and marks of 15,636 tiles.
#
#   catch up, first   a scatter is painted, and then checked at once; all but the last paints lie in one area
#   check the box     the box round the scatter is checked once more, ten times
#   edit              a square of 8 by 8 is painted with poly in a scatter that was checked, or poly is erased in it; it lies
#                     at 20 places by turns, so that the plane keeps about its tiles
#   catch up          the same, and checked after each edit; less the time of the edits
#   count             the number of marks in a scatter that was checked
#   why               the rules that are violated in a box of 20 by 20 somewhere in a scatter
#   why, world        the rules that are violated anywhere in the world, where the layout is three bars
#   empty world       the whole world is checked, which is empty: 67,108,864 pieces; 500 times
#
# Each time is the processor's, the difference of two scripts, of each the least of three runs that take turns. The rows
# of scatters have the number of marked squares at the end.
set -eu
. "$(dirname "${BASH_SOURCE[0]}")/head.sh"
work=$(mktemp -d)
trap 'rm -rf "$work"' EXIT

# scatter N SIDE STEP ROUNDS: paints a scatter, and then takes a step so many times
#
#   nothing   nothing; the areas are left to be checked
#   checked   checks the scatter, and then nothing
#   box       checks the scatter, and then the box round it
#   count     checks the scatter, and then counts its marks
#   edit      checks the scatter, and then edits
#   catchup   checks the scatter, and then edits and checks after each edit
#   look      checks the scatter, and then sets the box of a look
#   why       the same, and looks for the rules that are violated in it
scatter() {
    awk -v n="$1" -v side="$2" -v step="$3" -v rounds="$4" '
        function roll(limit) { seed = seed * 16807 % 2147483647; return seed % limit }
        function box(l, b, w, h) { printf "a box %d %d %d %d\n", l, b, l + w, b + h }
        BEGIN {
            seed = 2026
            print "%open a"
            for (i = 0; i < n; i++) {
                l = roll(side); b = roll(side); w = 4 + roll(13); h = 4 + roll(13)
                box(l, b, w, h)
                print (i % 2 == 0) ? "a paint poly" : "a paint m1"
            }
            if (step == "nothing") exit
            print "a drc catchup"
            for (r = 0; r < rounds; r++) {
                if (step == "box") {
                    box(0, 0, side + 16, side + 16)
                    print "a drc check\na drc catchup"
                } else if (step == "count") {
                    print "a drc count"
                } else if (step == "edit" || step == "catchup") {
                    if (r < 20) { left[r] = roll(side); bottom[r] = roll(side) }
                    box(left[r % 20], bottom[r % 20], 8, 8)
                    print (int(r / 20) % 2 == 0) ? "a paint poly" : "a erase poly"
                    if (step == "catchup") print "a drc catchup"
                } else if (step == "look" || step == "why") {
                    box(roll(side), roll(side), 20, 20)
                    if (step == "why") print "a drc why"
                }
            }
            print "a drc count"
        }'
}

# world LINE TIMES: three bars, the box round the world, and a line so many times
world() {
    echo "%open a"
    for bar in '0 0 1 10' '20 0 22 10' '24 0 26 10'; do
        printf 'a box %s\na paint poly\n' "$bar"
    done
    echo "a box -1048576 -1048576 1048576 1048576"
    awk -v line="$1" -v times="$2" 'BEGIN { for (r = 0; r < times; r++) print line }'
}

# empty LINE..: the box round the world, and these lines
empty() {
    printf '%%open a\na box -1048576 -1048576 1048576 1048576\n'
    if [ "$#" -gt 0 ]; then printf '%s\n' "$@"; fi
}

# run_timed I SCRIPT: runs magicd on a script
run_timed() {
    spent "$program" --quota 16384 --journal 65536 < "$2" > "$work/out"
    if grep -qE 'refused|fault' "$work/out"; then echo "a line was refused" >&2; exit 1; fi
    keep "$1"
}

# row STEP SIZE N: the row of a step that is taken N times more by the script "more" than by the script "less"
row() {
    local errors
    least=()
    for _ in 1 2 3; do
        run_timed 0 "$work/less"
        run_timed 1 "$work/more"
    done
    errors=$(sed -n 's/^a count \([0-9]*\) errors .*/\1/p' "$work/out" | tail -n 1)
    printf '%s\t%s\t%s\t%s\n' "$1" "$2" "${errors:--}" "$(each "$((least[1] - least[0]))" "$3")"
}

printf '%s\t%s\t%s\t%s\n' step size errors us

for size in '8900 1160' '16000 800' '4000 500'; do
    read -r n side <<< "$size"
    scatter "$n" "$side" nothing 0 > "$work/less"
    scatter "$n" "$side" checked 0 > "$work/more"
    row 'catch up, first' "$n over $side" 1
    cp "$work/more" "$work/less"
    scatter "$n" "$side" box 10 > "$work/more"
    row 'check the box' "$n over $side" 10
    scatter "$n" "$side" count 30000 > "$work/more"
    row count "$n over $side" 30000
done
for size in 540:1014 2200:3937 8900:14373; do
    n=${size%:*}
    scatter "$n" 1160 checked 0 > "$work/less"
    scatter "$n" 1160 edit 5000 > "$work/more"
    row edit "${size#*:} tiles of poly" 5000
    cp "$work/more" "$work/less"
    scatter "$n" 1160 catchup 5000 > "$work/more"
    row 'catch up' "${size#*:} tiles of poly" 5000
    scatter "$n" 1160 look 15000 > "$work/less"
    scatter "$n" 1160 why 15000 > "$work/more"
    row why "${size#*:} tiles of poly" 15000
done
world 'a drc why' 0 > "$work/less"
world 'a drc why' 1000 > "$work/more"
row 'why, world' '3 bars' 1000
mapfile -t checks < <(for ((i = 0; i < 500; i++)); do printf '%s\n' 'a drc check' 'a drc catchup'; done)
empty > "$work/less"
empty "${checks[@]}" 'a drc count' > "$work/more"
row 'empty world' '67108864 pieces' 500
