#!/usr/bin/env bash
# Large and hostile files and scripts: how long the program takes for 1, 2, 4, 8 and 16 megabytes of each.
#
#   comments   a technology file of comments of 15 bytes, with a fault in the line after them
#   parens     a rule whose list is half opening and half closing parentheses round a type
#   open       a rule whose list only opens parentheses: a fault
#   skipped    rule lines with an unknown keyword, each of which is reported
#   name       a plane whose name is one word
#   joined     lines that are joined with the next, of 15 bytes each
#   rects      a cell file whose lines are one rectangle over and over
#   skip       a cell file whose section is skipped
#   digits     a cell file with a number of so many digits: a fault
#   line       a script that is one line: a fault
#   faults     a script of lines of 8 bytes, none of which can be read
#
# Each time is the least of three runs, in milliseconds of processor time, less that of an empty script. The last
# column is how many times as long 16 megabytes take as 8; the bench fails where that is more than 3, or a run has
# another message or status than is wanted. The program is crates/magicd/out/magicd, or PROGRAM.
set -eu
. "$(dirname "${BASH_SOURCE[0]}")/head.sh"
folder=$(mktemp -d)
trap 'rm -rf "$folder"' EXIT
megabyte=1000000

# repeat COUNT TEXT: the text over and over
repeat() {
    python3 -c 'import sys; n, t = sys.argv[1:]; sys.stdout.write(t.encode().decode("unicode_escape") * int(n))' "$@"
}

# one KIND MEGABYTES: writes the file `input`, and leaves the options, the status and the last message that are wanted
one() {
    local bytes=$(($2 * megabyte)) lines
    lines=$((bytes / 16))
    options=(--tech "$folder/input")
    status=1
    case $1 in
        comments) { repeat "$lines" '# fifteen bytes\n'; printf 'planes\n a b\nend\n'; }
            message="magicd: tech line $((lines + 2)) fault 8 bad form" ;;
        parens) { printf 'planes\n p\nend\ntypes\n p q\nend\ndrc\n width '; repeat $((bytes / 2)) '('; printf q
            repeat $((bytes / 2)) ')'; printf ' 1 w\nend\n'; }
            status=0 message= ;;
        open) { printf 'planes\n p\nend\ntypes\n p q\nend\ndrc\n width '; repeat "$bytes" '('; printf 'q 1 w\nend\n'; }
            message='magicd: tech line 8 fault 7 bad list' ;;
        skipped) { printf 'planes\n p\nend\ndrc\n'; repeat "$lines" ' overhang q q 1\n'; printf 'end\n'; }
            status=0 message="magicd: tech line $((lines + 4)) skipped overhang" ;;
        name) { printf 'planes\n '; repeat "$bytes" 'x'; printf '\nend\n'; }
            status=0 message= ;;
        joined) { printf 'planes\n p\nend\ndrc\n width '; repeat "$lines" ' fifteen bytes\\\n'; printf '\nend\n'; }
            message='magicd: tech line 5 fault 8 bad form' ;;
        rects) { printf 'magic\n<< poly >>\n'; repeat "$lines" 'rect 0 0 12 345\n'; printf '<< end >>\n'; }
            options=("c=$folder/input") status=0 message= ;;
        skip) { printf 'magic\n<< labels >>\n'; repeat "$lines" 'rlabel poly 0 0\n'; printf '<< poly >>\nrect\n'; }
            options=("c=$folder/input") message="magicd: cell c line $((lines + 4)) fault 1 form" ;;
        digits) { printf 'magic\n<< poly >>\nrect 0 0 1 '; repeat "$bytes" '9'; printf '\n<< end >>\n'; }
            options=("c=$folder/input") message='magicd: cell c line 3 fault 5 outside the world' ;;
        line) repeat "$bytes" 'x'
            options=() status=0 message='line 1 fault 1 unknown command' ;;
        faults) repeat $((bytes / 8)) 'a b c d\n'
            options=() status=0 message="line $((bytes / 8)) fault 1 unknown command" ;;
    esac >"$folder/input"
}

# timed KIND: the least of three runs of `input`, in milliseconds
timed() {
    local script=$folder/empty ended times=()
    case $1 in line | faults) script=$folder/input ;; esac
    for _ in 1 2 3; do
        ended=0
        TIMEFORMAT='%3U %3S'
        { time "$program" "${options[@]}" <"$script" >"$folder/out" 2>"$folder/messages"; } 2>"$folder/time" || ended=$?
        [ "$ended" = "$status" ] || { echo "$1: status $ended, not $status" >&2; exit 1; }
        [ "$(cat "$folder/messages" "$folder/out" | tail -n 1 | head -c 200)" = "$message" ] || {
            echo "$1: $(cat "$folder/messages" "$folder/out" | tail -n 1 | head -c 200)" >&2
            exit 1
        }
        times+=("$(awk '{ printf "%d", ($1 + $2) * 1000 }' "$folder/time")")
    done
    printf '%s\n' "${times[@]}" | sort -n | head -n 1
}

: >"$folder/empty"
: >"$folder/input"
options=()
status=0
message=
base=$(timed empty)

printf '%s\t%s\t%s\t%s\t%s\t%s\t%s\n' 'file: ms of' '1 MB' '2 MB' '4 MB' '8 MB' '16 MB' '16 MB/8 MB'
for kind in comments parens open skipped name joined rects skip digits line faults; do
    row=()
    for size in ${SIZES:-1 2 4 8 16}; do
        one "$kind" "$size"
        took=$(timed "$kind")
        row+=($((took > base ? took - base : 0)))
    done
    # Of a few milliseconds a ratio says nothing.
    times=$(awk -v a="${row[3]}" -v b="${row[4]}" 'BEGIN { printf "%.2f", (b + 10) / (a + 10) }')
    printf '%s\t%s\t%s\t%s\t%s\t%s\t%s\n' "$kind" "${row[@]}" "$times"
    awk -v t="$times" 'BEGIN { exit t > 3 }' || { echo "$kind: not linear" >&2; exit 1; }
done
