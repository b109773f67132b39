#!/usr/bin/env bash
# Nanoseconds of each call on a plane of stitched tiles, and how they grow with the tiles of the plane.
#
# A grid is k times k squares with a side of 10, each 10 apart from the others, which makes 2 k k + 2 k + 1 tiles. The
# program builds the plane of a grid, and then takes these steps, 1,000 times each:
#
#   find near         from a square of the grid to the space beside it, and back
#   find far          from the first square of the grid to the last, and back
#   area              all tiles of an area of 20 by 20, of which there are 7
#   paint in gap      paints a square in the space between two squares of the grid, which gives way to five tiles, and
#                     clears it, so that the five give way to one; the space has 4 neighbours
#   paint in lane     the same in the space between two rows of the grid, which has 4 k + 2 neighbours
#
# Each time is that of one such step, the least of three runs of all 1,000; of a build the least of three builds.
#
# The program, bench/inner, is proved and built over a copy of the crates that it stands on, with what is proved of
# them: the gate doesn't wait for it. That takes up to a quarter of an hour where they are proved, and again only where a
# source is newer. PROGRAM names one that was built so.
set -eu
builds_own=yes
. "$(dirname "${BASH_SOURCE[0]}")/head.sh"
built=$here/bench/inner/out/mls_bench
below=(mls_kinds mls_geom mls_tilepool mls_stitch mls_paint)

# Whether the program is built, and no source of it is newer.
is_built() {
    local name folders=("$here/bench/inner")
    [ -x "$built" ] || return 1
    for name in "${below[@]}"; do folders+=("$here/crates/$name"/{src,specs,proofs}); done
    [ -z "$(find "${folders[@]}" -path "*/out" -prune -o -type f -newer "$built" -print -quit)" ]
}

# Makes the copy: the crates below, and the program as a crate of its own, with the files' names without `.in`.
copy() {
    local name file crate=$work/crates/mls_bench
    mkdir -p "$crate/src" "$crate/proofs/sheet/Builder/build"
    for name in "${below[@]}"; do
        cp -r "$here/crates/$name" "$work/crates/"
        grep "^$name:" "$here/crates.txt"
    done > "$work/crates.txt"
    echo "mls_bench: ${below[*]} anyhow" >> "$work/crates.txt"
    for file in "$here"/bench/inner/*.rt.in; do
        name=${file##*/}
        cp "$file" "$crate/src/${name%.in}"
    done
    cp "$here/bench/inner/build_answers.antt.in" "$crate/proofs/sheet/Builder/build/Answers.antt"
    cp "$here/bench/inner/stdout" "$crate/stdout"
}

# Builds the program, and compares what it prints of itself.
build() {
    work=$(mktemp -d)
    trap 'rm -rf "$work"' EXIT
    copy
    if ! (cd "$work/crates/mls_bench" && rt run > "$work/steps" 2> "$work/log"); then
        grep -v '^checked ' "$work/log" | tail -n 50 >&2
        echo "the build failed" >&2
        exit 1
    fi
    "$work/crates/mls_bench/out/mls_bench" | diff "$here/bench/inner/stdout" - >&2
    mkdir -p "${built%/*}"
    install "$work/crates/mls_bench/out/mls_bench" "$built"
}

if [ -z "$program" ]; then
    is_built || build
    program=$built
fi
printf '%s\t%s\t%s\n' step tiles ns
"$program" time
