#!/usr/bin/env bash
# Refuses each growth of memory in turn, and judges what is returned and what stands. docs/GATE.md says what passes.
#
# A library (bench/refuse.c) stands before the C library's calls that take memory, and returns null at the n-th growth.
# `mls_growths` makes each call that takes memory, and `magicd` serves scripts, for n = 1, 2, .. until a run meets no
# refusal; the scripts once more with every growth after the n-th refused too. bench/growths.py judges each run: it must
# end by itself within 20 seconds, and return and leave what it may. With --short the first three growths of each call
# and two scripts are tried.
#
# The programs are those that `rt ci` left, or PROGRAM and GROWTHS. It needs cc and Python 3.
set -eu
PROGRAM=${PROGRAM:-$(dirname "${BASH_SOURCE[0]}")/../crates/magicd/out/magicd}
. "$(dirname "${BASH_SOURCE[0]}")/head.sh"
growths=${GROWTHS:-$here/crates/mls_growths/out/mls_growths}
[ -x "$growths" ] || { echo "no program $growths: rt ci builds it, and so does rt run in its crate" >&2; exit 1; }
folder=$(mktemp -d)
trap 'rm -rf "$folder"' EXIT
cc -O1 -Wall -shared -fPIC -o "$folder/refuse.so" "$here/bench/refuse.c" -ldl
python3 "$here/bench/growths.py" "$@" "$program" "$growths" "$folder"
