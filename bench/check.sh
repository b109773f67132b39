#!/usr/bin/env bash
# Design rule checks alone, through magicd: lines that check a piece of 256 by 256 squares, and lines that ask which
# rules are violated in it.
#
# Each of two planes has a grid of rectangles, which makes 1, 81, 353 or 1,001 strips; the rectangles are apart from
# each other, so that no square is forbidden. The rules are the 4 of technology M, then 40 of distances from 1 to 4, and
# then the 80 of a group of planes of Magic's scmos, as `clients/process compile` makes them, which needs Debian's magic and
# Python 3.11. The layout was checked before.
#
#   check     `drc check` of the box that lies the rules' halo inside the piece, so that just the piece awaits checking,
#             and `%step`, which reads the piece and the halo round it from both planes, and finds the forbidden squares
#             of the piece
#   why       `drc why` of the piece, which reads it and the halo, too, and finds the rules that forbid some square of
#             it
#   look      `drc why` of a box of 20 by 20 in the piece with the most strips; its strips are those that are read of a
#             plane
#
# Each time is the processor's, in the program and in the system, for one such step, with the reading of its lines and
# the writing of their replies, in microseconds. It is the difference of two scripts, one with hundreds or thousands of
# steps and one without, of each the least of three runs that take turns. The bench fails where a rule is violated, a
# square is marked, or an area is left to be checked.
#
# It runs the program that it builds, or PROGRAM.
set -eu
. "$(dirname "${BASH_SOURCE[0]}")/head.sh"
work=$(mktemp -d)
trap 'rm -rf "$work"' EXIT

# cells ROWS COLUMNS: paints a rectangle in each of so many rows and columns of cells of the piece, poly and ndiff by
# turns and m1 over both, and checks them. Where there are 24 columns, rectangles are 6 squares wide and 4 apart
cells() {
    echo '%open a'
    awk -v rows="$1" -v columns="$2" -v poly="${types[0]}" -v ndiff="${types[1]}" -v m1="${types[2]}" 'BEGIN {
        for (i = 0; i < rows; i++) for (j = 0; j < columns; j++) {
            height = int(256 / rows); bottom = height * i; top = bottom + int(height * 6 / 10)
            width = int(256 / columns); left = width * j; right = left + int(width * 6 / 10)
            printf "a box %d %d %d %d\n", left, bottom, right, top
            print "a paint", (i + j) % 2 == 0 ? poly : ndiff
            print "a paint", m1
        }
    }'
    echo 'a drc catchup'
}

# forty_rules: the technology of 40 rules, ten lines with each distance from 1 to 4
forty_rules() {
    printf '%s\n' planes active metal1 end types 'active poly' 'active ndiff' 'metal1 m1' end drc
    for distance in 1 2 3 4; do
        printf '%s\n' "width poly $distance \"\"" "width ndiff $distance \"\"" "width poly,ndiff $distance \"\"" \
            "width m1 $distance \"\"" "spacing poly poly $distance touching_ok \"\"" \
            "spacing ndiff ndiff $distance touching_ok \"\"" "spacing poly ndiff $distance touching_illegal \"\"" \
            "spacing ndiff poly $distance touching_illegal \"\"" "spacing m1 m1 $distance touching_ok \"\"" \
            "edge4way space m1 $distance space,poly,ndiff 0 0 \"\" active"
    done
    echo end
}

# repeat N LINE..: these lines, so many times
repeat() {
    printf '%s\n' "${@:2}" | awk -v n="$1" '
        { lines = lines $0 "\n" }
        END { for (i = 0; i < n; i++) printf "%s", lines }'
}

# run_timed I SCRIPT: runs magicd on a script
run_timed() {
    spent "$program" --quota 16384 --journal 65536 "${words[@]}" < "$2" > "$work/out"
    if grep -m 1 -vxE 'a (opened|ok|step done|why 0|count 0 errors 0 pending)' "$work/out" >&2; then exit 1; fi
    keep "$1"
}

# row STEP STRIPS N LEFT SIDE LINE..: the row of a step that is these lines, taken N times on the layout, for the box of
# this side whose left and lower edges lie at LEFT
row() {
    local step=$1 strips=$2 n=$3 box="a box $4 $4 $(($4 + $5)) $(($4 + $5))"
    shift 5
    least=()
    { cat "$work/layout"; echo "$box"; echo 'a drc count'; } > "$work/less"
    { cat "$work/layout"; echo "$box"; repeat "$n" "$@"; echo 'a drc count'; } > "$work/more"
    for _ in 1 2 3; do
        run_timed 0 "$work/less"
        run_timed 1 "$work/more"
    done
    printf '%s\t%s\t%s\t%s\n' "$step" "$rules" "$strips" "$(each "$((least[1] - least[0]))" "$n")"
}

forty_rules > "$work/forty"
"$here/clients/process" compile scmos -o "$work/scmos" > "$work/messages" 2>&1 || { cat "$work/messages" >&2; exit 1; }
printf '%s\t%s\t%s\t%s\n' step rules strips us
for rules in 4 40 80; do
    types=(poly ndiff m1)
    case $rules in
        4) words=() halo=4 ;;
        40) words=(--tech "$work/forty") halo=5 ;;
        80) words=(--tech "$work/scmos/g0.tech") halo=13 types=(polysilicon ndiffusion metal1) ;;
    esac
    for size in '0 0 1 20000' '5 7 81 2000' '11 15 353 400' '20 24 1001 200'; do
        read -r rows columns strips n <<< "$size"
        cells "$rows" "$columns" > "$work/layout"
        row check "$strips" "$n" "$halo" "$((256 - 2 * halo))" 'a drc check' '%step a'
        row why "$strips" "$n" 0 256 'a drc why'
    done
    row look 24 10000 118 20 'a drc why'
done
