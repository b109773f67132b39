#!/usr/bin/env bash
# Real streams and files that misbehave: what the program then writes, and the status that it ends with.
#
# Each row gives the program an input, an output or a file that can't be used, and compares what it writes and its
# status with what docs/OPERATING.md says. A run that doesn't end within LIMIT seconds has failed. The program is
# crates/magicd/out/magicd, or PROGRAM. As root the file that may not be read is tried as another user (`setpriv`),
# else as the one who runs this.
set -u
. "$(dirname "${BASH_SOURCE[0]}")/head.sh"
limit=${LIMIT:-20}
folder=$(mktemp -d)
trap 'rm -rf "$folder"' EXIT
chmod 755 "$folder"
cp "$program" "$folder/magicd"
program=$folder/magicd
cd "$folder"

printf '%%open a\na box 0 0 4 4\na paint poly\na what\n' >script
printf 'a opened\na ok\na ok\na what 1 poly\n' >replies
printf 'tech\n  M\nend\nplanes\n  active,a\nend\ntypes\n  active poly,p\nend\n' >m.tech
printf 'magic\n<< poly >>\nrect 0 0 2 4\n<< end >>\n' >c.mag
: >empty
mkdir directory
cp m.tech secret
chmod 000 secret
# Many lines with long replies, so that an output that takes nothing more is met.
{ printf '%%open a\n'; for _ in $(seq 20000); do echo 'a what is this'; done; } >long

failures=0
rows=0

# expect NAME STATUS OUTPUT MESSAGES: compares the last run with a status and two files
expect() {
    rows=$((rows + 1))
    local wrong=
    [ "$status" = "$2" ] || wrong="status $status, not $2"
    [ "$3" = - ] || cmp -s out "$3" || wrong="$wrong; another output"
    cmp -s messages "$4" || wrong="$wrong; another message: $(head -c 200 messages)"
    if [ -n "$wrong" ]; then
        failures=$((failures + 1))
        printf '%-44s failed: %s\n' "$1" "$wrong"
    else
        printf '%-44s %s  %s\n' "$1" "$status" "$(head -n 1 messages)"
    fi
}

# message TEXT: the file that the messages are compared with
message() { printf '%s\n' "$1" >wanted; }

# run WORD..: runs the program as it is redirected
run() { timeout -s KILL "$limit" "$program" "$@"; }

for workers in 0 2; do
    options=(--workers "$workers")
    with="workers $workers:"

    status=0; run "${options[@]}" <script >out 2>messages || status=$?
    expect "$with a script" 0 replies empty

    status=0; run "${options[@]}" <empty >out 2>messages || status=$?
    expect "$with an empty input" 0 empty empty

    status=0; run "${options[@]}" </dev/null >out 2>messages || status=$?
    expect "$with an input without bytes" 0 empty empty

    message 'magicd: input failed'
    status=0; run "${options[@]}" <&- >out 2>messages || status=$?
    expect "$with an input that isn't open" 1 empty wanted

    status=0; run "${options[@]}" <directory >out 2>messages || status=$?
    expect "$with an input that is a directory" 1 empty wanted

    message 'magicd: output failed'
    status=0; run "${options[@]}" <script >/dev/full 2>messages || status=$?
    expect "$with a full disk" 1 - wanted

    status=0; run "${options[@]}" <script >&- 2>messages || status=$?
    expect "$with an output that isn't open" 1 - wanted

    # The reader ends before the program begins: its end of the pipe is closed then.
    mkfifo pipe
    true <pipe &
    status=0
    { wait $!; run "${options[@]}" <long; } >pipe 2>messages || status=$?
    rm pipe
    expect "$with a broken pipe" 1 - wanted

    # The reader ends in the middle.
    { run "${options[@]}" <long 2>messages; echo $? >status; } | head -n 1 >/dev/null
    status=$(cat status)
    expect "$with a pipe that breaks in the middle" 1 - wanted

    message 'magicd: cannot read none.tech'
    status=0; run "${options[@]}" --tech none.tech <script >out 2>messages || status=$?
    expect "$with a file that isn't there" 1 empty wanted

    message 'magicd: cannot read directory'
    status=0; run "${options[@]}" --tech directory <script >out 2>messages || status=$?
    expect "$with a technology that is a directory" 1 empty wanted
    status=0; run "${options[@]}" d=directory <script >out 2>messages || status=$?
    expect "$with a cell that is a directory" 1 empty wanted

    message 'magicd: cannot read c.mag/file'
    status=0; run "${options[@]}" d=c.mag/file <script >out 2>messages || status=$?
    expect "$with a path below a file" 1 empty wanted

    message 'magicd: cannot read '
    status=0; run "${options[@]}" d= <script >out 2>messages || status=$?
    expect "$with an empty path" 1 empty wanted

    message 'magicd: cannot read secret'
    as_other=()
    [ "$(id -u)" != 0 ] || as_other=(setpriv --reuid=65534 --regid=65534 --clear-groups)
    status=0
    timeout -s KILL "$limit" "${as_other[@]}" "$program" "${options[@]}" --tech secret \
        <script >out 2>messages || status=$?
    expect "$with a file that may not be read" 1 empty wanted

    # A file that has no length of its own, and more bytes than its length says.
    message 'magicd: tech line 1 fault 2 no end'
    status=0; run "${options[@]}" --tech <(printf 'tech\n') <script >out 2>messages || status=$?
    expect "$with a technology from a pipe" 1 empty wanted
    status=0; run "${options[@]}" c=<(cat c.mag) <script >out 2>messages || status=$?
    expect "$with a cell from a pipe" 0 replies empty
    message 'magicd: cell c line 1 fault 1 form'
    status=0; run "${options[@]}" c=/proc/self/status <script >out 2>messages || status=$?
    expect "$with a file whose length is 0 and isn't" 1 empty wanted

    # A file that grows and shrinks while it is read: it is one of its states, or some of its lines.
    (while :; do cat c.mag c.mag c.mag c.mag >changing; : >changing; done) &
    changer=$!
    worst=0
    for _ in $(seq 100); do
        status=0; run "${options[@]}" c=changing <script >out 2>messages || status=$?
        case $status in
            0) cmp -s out replies && cmp -s messages empty || worst=1 ;;
            1) grep -qx 'magicd: cell c line [0-9]* fault 1 form' messages && [ ! -s out ] || worst=1 ;;
            *) worst=1 ;;
        esac
    done
    kill "$changer" && wait "$changer" 2>/dev/null
    status=$worst
    : >messages
    expect "$with a file that changes its length" 0 - empty

    # An input that grows: what is written to a pipe later is read later.
    { head -n 2 script; sleep 0.2; tail -n +3 script; } | run "${options[@]}" >out 2>messages
    status=${PIPESTATUS[1]}
    expect "$with an input that comes in two parts" 0 replies empty

    # Messages that can't be written don't change the status.
    : >messages
    status=0; run "${options[@]}" --tech none.tech <script >out 2>/dev/full || status=$?
    expect "$with messages to a full disk" 1 empty empty
done
echo "$rows rows, $failures failed"
[ "$failures" = 0 ]
