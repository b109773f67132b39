#!/usr/bin/env bash
# Cells that are placed, beside the same cells dumped.
#
#     bench/uses.sh
#
# A layout is 256 uses of one cell, or 256 dumps of it at the same places:
#
#   apart     a cell of 5 by 5 squares of poly with a side of 4, 8 from one to the next, so that 16 by 16 of them are a
#             grid of 80 by 80 squares, 12,961 tiles when dumped; technology M forbids nothing in it
#   on top    the same cell, each time at the same place: 25 squares, 61 tiles when dumped
#   deep      a cell of 88 by 23 squares of 1, 2 from one to the next, each time at the same place: 4,095 tiles in one
#             piece, one less than a plane of a cell may have
#   shifted   the same cell at 16 by 16 places, 2 from one to the next: 103 by 38 squares, 7,905 tiles when dumped, and
#             a million strips of cells in one piece
#   far       one use of a cell of two squares of 4, in opposite corners of the world
#   spread    one use of a cell of 44 by 44 squares of 1, 45,000 from one to the next, all over the world
#   overlaid  20 uses of that cell, each 1,700 to the right of the one before and 1,300 above it: more squares than may
#             be dumped
#
# The rule of the last five is `spacing poly poly 1 touching_illegal` alone, which forbids nothing in them. The rows of
# the first two layouts are:
#
#   place             a line `getcell` or `dump`
#   first check       all areas that the 256 lines left are checked
#   check the box     the box round all is checked once more
#   edit              a square of 2 by 2 of ndiff in a gap is painted or erased, at 20 places by turns
#   edit, catch up    the same, and checked after each edit; less the time of the edits
#   what, why         the types, and the rules that are violated, in a box of 20 by 20 somewhere in the layout; less the
#                     time of its `box`
#   of all, of the world      the same in the box round all, and in that of the world
#
# Those of the others are:
#
#   what, why         in a box of 250 by 250, the whole of a piece but for its halo
#   step              `drc check` of that box, and the check step of the one piece that it is
#
# of deep and shifted, which were checked before, `what` and `why` of the world of far and spread, which weren't, and the
# first check of overlaid.
#
# Each time is the processor's, in the program and in the system: that of a script less that of one without the lines,
# of each the least of three runs that take turns. The columns are the row, the layout, the microseconds a line with
# cells that are placed and with cells that are dumped, and how many times as long the first take. It runs the program
# that it builds, or PROGRAM. With ROWS=PATTERN it takes only the rows whose text and layout have the pattern.
set -eu
. "$(dirname "${BASH_SOURCE[0]}")/head.sh"
work=$(mktemp -d)
trap 'rm -rf "$work"' EXIT

# cell COLUMNS ROWS SIDE PITCH [FROM]: squares of poly as a cell file, the first at (FROM, FROM), or at (0, 0)
cell() {
    awk -v columns="$1" -v rows="$2" -v side="$3" -v pitch="$4" -v from="${5:-0}" 'BEGIN {
        print "magic\n<< poly >>"
        for (j = 0; j < rows; j++) for (i = 0; i < columns; i++)
            printf "rect %d %d %d %d\n", from + pitch * i, from + pitch * j, from + pitch * i + side, from + pitch * j + side
        print "<< end >>"
    }'
}

# laid LAYOUT: opens a session, and places the cell as often as the layout has it; PLACE stands for the word that places it or dumps it
laid() {
    awk -v layout="$1" 'BEGIN {
        pitch = layout == "apart" ? 40 : layout == "shifted" ? 2 : 0
        uses = layout == "far" || layout == "spread" ? 1 : layout == "overlaid" ? 20 : 256
        print "%open a"
        for (i = 0; i < uses; i++) {
            if (layout == "overlaid") printf "a PLACE c %d %d\n", 1700 * i - 17000, 1300 * i - 13000
            else printf "a PLACE c %d %d\n", pitch * (i % 16), pitch * int(i / 16)
        }
    }'
}

# edits K TIMES [LINE]: edits in the gaps of a grid of K by K squares, and this line after each, if there is one
edits() {
    awk -v k="$1" -v times="$2" -v line="${3:-}" '
        function roll(limit) { seed = seed * 16807 % 2147483647; return seed % limit }
        BEGIN {
            seed = 2026
            for (r = 0; r < 20; r++) { left[r] = 8 * roll(k - 1) + 5; bottom[r] = 8 * roll(k - 1) + 5 }
            for (r = 0; r < times; r++) {
                l = left[r % 20]; b = bottom[r % 20]
                printf "a box %d %d %d %d\n", l, b, l + 2, b + 2
                print int(r / 20) % 2 == 0 ? "a paint ndiff" : "a erase ndiff"
                if (line != "") print line
            }
        }'
}

# looks K TIMES [LINE]: boxes of 20 by 20 in a grid of K by K squares, and this line after each, if there is one
looks() {
    awk -v k="$1" -v times="$2" -v line="${3:-}" '
        function roll(limit) { seed = seed * 16807 % 2147483647; return seed % limit }
        BEGIN {
            seed = 2026
            for (r = 0; r < times; r++) {
                l = roll(8 * k - 23); b = roll(8 * k - 23)
                printf "a box %d %d %d %d\n", l, b, l + 20, b + 20
                if (line != "") print line
            }
        }'
}

# repeated TIMES LINE..: these lines, so many times
repeated() {
    local times=$1
    shift
    for ((i = 0; i < times; i++)); do printf '%s\n' "$@"; done
}

# took I SCRIPT: runs magicd on a script
took() {
    spent "$program" "${words[@]}" < "$2" > "$work/out"
    if grep -qE 'refused|fault|full' "$work/out"; then
        echo "a line was refused" >&2
        grep -E -m 1 'refused|fault|full' "$work/out" >&2
        exit 1
    fi
    keep "$1"
}

# row TEXT TIMES: the row of what the script "more" takes longer than the script "less", by lines taken so many times
row() {
    local word placed dumped
    if ! [[ "$1, $layout" =~ ${ROWS:-} ]]; then return 0; fi
    least=()
    for word in getcell dump; do
        sed "s/PLACE/$word/" "$work/less" > "$work/less.$word"
        sed "s/PLACE/$word/" "$work/more" > "$work/more.$word"
    done
    for _ in 1 2 3; do
        took 0 "$work/less.getcell"
        took 1 "$work/more.getcell"
        took 2 "$work/less.dump"
        took 3 "$work/more.dump"
    done
    placed=$(each "$((least[1] - least[0]))" "$2")
    dumped=$(each "$((least[3] - least[2]))" "$2")
    printf '%s\t%s\t%s\t%s\t%s\n' "$1" "$layout" "$placed" "$dumped" "$(ratio "$placed" "$dumped")"
}

# checked LINE..: the script of the layout, checked, and these lines
checked() {
    laid "$layout"
    printf '%s\n' 'a drc catchup' "$@"
}

# usual K CHECKS TIMES: the rows of a layout that is a grid of K by K squares, where lines about all of it come so often
usual() {
    local k=$1 checks=$2 times=$3 line all="a box 0 0 $((8 * $1)) $((8 * $1))"
    words=(--quota 16384 --journal 65536 "c=$work/small.mag")
    echo '%open a' > "$work/less"
    laid "$layout" > "$work/more"
    row place 256
    laid "$layout" > "$work/less"
    checked > "$work/more"
    row 'first check' 1
    checked "$all" > "$work/less"
    { cat "$work/less"; repeated "$checks" 'a drc check' 'a drc catchup'; } > "$work/more"
    row 'check the box' "$checks"
    checked > "$work/less"
    { checked; edits "$k" 5000; } > "$work/more"
    row edit 5000
    cp "$work/more" "$work/less"
    { checked; edits "$k" 5000 'a drc catchup'; } > "$work/more"
    row 'edit, catch up' 5000
    for line in what 'drc why'; do
        { checked; looks "$k" 15000; } > "$work/less"
        { checked; looks "$k" 15000 "a $line"; } > "$work/more"
        row "${line#drc }" 15000
        checked "$all" > "$work/less"
        { cat "$work/less"; repeated "$times" "a $line"; } > "$work/more"
        row "${line#drc } of all" "$times"
        checked 'a box -1048576 -1048576 1048576 1048576' > "$work/less"
        { cat "$work/less"; repeated "$times" "a $line"; } > "$work/more"
        row "${line#drc } of the world" "$times"
    done
}

# worst TIMES: the rows of cells with as many tiles as they may have
worst() {
    local times=$1 line
    words=(--tech "$work/tech" --quota 16384 --journal 65536 "c=$work/large.mag")
    checked 'a box 3 3 253 253' > "$work/less"
    for line in what 'drc why'; do
        { cat "$work/less"; repeated "$times" "a $line"; } > "$work/more"
        row "${line#drc }" "$times"
    done
    { cat "$work/less"; repeated "$times" 'a drc check' '%step a'; } > "$work/more"
    row step "$times"
}

# wide TIMES: the rows of a cell whose squares lie all over the world
wide() {
    local times=$1 line
    words=(--tech "$work/tech" --quota 16384 "c=$work/$layout.mag")
    { laid "$layout"; echo 'a box -1048576 -1048576 1048576 1048576'; } > "$work/less"
    for line in what 'drc why'; do
        { cat "$work/less"; repeated "$times" "a $line"; } > "$work/more"
        row "${line#drc } of the world" "$times"
    done
}

# placed_alone: the first check of cells that are too many squares to be dumped
placed_alone() {
    if ! [[ "first check, $layout" =~ ${ROWS:-} ]]; then return 0; fi
    words=(--tech "$work/tech" --quota 16384 "c=$work/spread.mag")
    laid "$layout" | sed 's/PLACE/getcell/' > "$work/less"
    { cat "$work/less"; echo 'a drc catchup'; } > "$work/more"
    least=()
    for _ in 1 2 3; do
        took 0 "$work/less"
        took 1 "$work/more"
    done
    printf 'first check\t%s\t%s\t\t\n' "$layout" "$(each "$((least[1] - least[0]))" 1)"
}

cell 5 5 4 8 > "$work/small.mag"
cell 88 23 1 2 > "$work/large.mag"
printf '%s\n' magic '<< poly >>' 'rect -1048576 -1048576 -1048572 -1048572' 'rect 1048572 1048572 1048576 1048576' '<< end >>' \
    > "$work/far.mag"
cell 44 44 1 45000 -970000 > "$work/spread.mag"
printf '%s\n' planes active metal1 end types 'active poly' 'active ndiff' 'metal1 m1' end \
    drc 'spacing poly poly 1 touching_illegal "d"' end > "$work/tech"

printf '%s\t%s\t%s\t%s\t%s\n' row layout 'us placed' 'us dumped' times
layout=apart
usual 80 10 20
layout='on top'
usual 5 2000 4000
layout=deep
worst 200
layout=shifted
worst 10
layout=far
wide 400
layout=spread
wide 20
layout=overlaid
placed_alone
