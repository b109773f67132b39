# Begins each bench, which sources it: sets `here`, the top of the repository, and `program`: PROGRAM, or this repository's
# own, which is built first; a bench that has set `builds_own` does that itself. With --help as its first word a bench shows
# what stands at its head.
case ${1:-} in
    -h | --help)
        awk 'NR > 1 { if (!/^#/) exit; sub(/^# ?/, ""); print }' "$0"
        exit
        ;;
esac
here=$(cd "$(dirname "${BASH_SOURCE[0]}")/.." && pwd)
program=${PROGRAM:-}
if [ -n "$program" ]; then
    program=$(realpath -e -- "$program") || exit 1
elif [ -z "${builds_own:-}" ]; then
    "$here/magicd" < /dev/null > /dev/null
    program=$here/crates/magicd/out/magicd
fi

# spent WORD..: runs a command; sets `us`, how many microseconds of a processor it took, in the program and in the system
spent() {
    local TIMEFORMAT='%3U %3S' took user system
    { took=$({ time "$@" 2>&3 >&4; } 2>&1); } 3>&2 4>&1
    read -r user system <<< "$took"
    us=$(((10#${user/./} + 10#${system/./}) * 1000))
}

# keep I: keeps in `least` the least microseconds of all commands with this I
keep() {
    if [ -z "${least[$1]:-}" ] || [ "$us" -lt "${least[$1]}" ]; then least[$1]=$us; fi
}

# In how many microseconds two runs of one script may differ.
grain=2000

# each MICROSECONDS TIMES: what one of so many steps takes, in microseconds, of what all together take; below the grain, only
# that it is less; and where they seem to take less than nothing, a dash: other programs have disturbed it
each() {
    awk -v us="$1" -v times="$2" -v grain="$grain" '
        function shown(x) { return sprintf(x >= 100 ? "%.0f" : x >= 10 ? "%.1f" : x >= 0.1 ? "%.2f" : "%.3f", x) }
        BEGIN { print (us < -grain ? "-" : us < grain ? "< " shown(grain / times) : shown(us / times)) }'
}

# ratio TIME OTHER: how many times as long one time takes as the other, as `each` shows them; nothing where one isn't known
ratio() {
    case "$1$2" in *['<-']*) echo - ;; *) awk -v a="$1" -v b="$2" 'BEGIN { printf "%.2f\n", a / b }' ;; esac
}
