#!/usr/bin/env bash
# Makes a layout of counter.v, and checks it: examples/routed.sh DIR [WORD..], with further words of `process check`.
#
# Debian's qflow synthesizes, places and routes the counter in DIR, which must not be there yet, on the cells of
# qflow-tech-osu035. Magic reads what was routed, and writes it as counter.mag and counter.gds, and once more with a bar of
# metal that is too narrow as narrow.mag and narrow.gds. Each is checked by `clients/process check`, and the .mag files by
# Magic. What the tools say stands in DIR/qflow.log and DIR/magic.log.
set -eu
here=$(cd "$(dirname "${BASH_SOURCE[0]}")/.." && pwd)
if [ $# = 0 ] || [ "${1#-}" != "$1" ]; then
    echo "usage: examples/routed.sh DIR [WORD..]" >&2
    exit 2
fi
for tool in qflow magic; do
    type "$tool" > /dev/null 2>&1 || { echo "routed.sh: Debian's $tool isn't installed" >&2; exit 2; }
done
technology=/usr/share/qflow/tech/osu035
[ -e "$technology" ] || { echo "routed.sh: Debian's qflow-tech-osu035 isn't installed" >&2; exit 2; }
mkdir "$1"
cd "$1"
shift

mkdir source
cp "$here/examples/counter.v" source
qflow synthesize place route -T osu035 counter > qflow.log 2>&1 || { tail qflow.log >&2; exit 1; }
[ -s counter.def ] || { echo "routed.sh: nothing was routed: see $PWD/qflow.log" >&2; exit 1; }

"$here/clients/process" compile "$technology/SCN4M_SUBM.20.tech" -o process 2> /dev/null

magic -dnull -noconsole -rcfile /dev/null -T "$technology/SCN4M_SUBM.20" > magic.log 2>&1 << END
lef read $technology/osu035_stdcells.lef
def read counter.def
writeall force
gds write counter.gds
flatten -nolabels narrow
load narrow
select top cell
box values [lindex [box values] 0] [expr {[lindex [box values] 1] - 10}] [lindex [box values] 2] [expr {[lindex [box values] 1] - 8}]
paint metal2
writeall force narrow
gds write narrow.gds
foreach cell {counter narrow} {
    load \$cell
    select top cell
    drc check
    drc catchup
    foreach {why boxes} [drc listall why] { puts "by Magic: \$cell.mag: \$why" }
}
puts "by Magic: done"
quit -noprompt
END
grep -q "^by Magic: done" magic.log || { tail magic.log >&2; exit 1; }
grep "^by Magic: .*mag" magic.log || true
for layout in counter.mag counter.gds narrow.mag narrow.gds; do
    status=0
    "$here/clients/process" check process "$layout" "$@" 2>&1 || status=$?
    [ "$status" -lt 2 ] || exit "$status"
done
