# What a first user meets, said before the program starts: sourced by ./magicd, which sets `here` and `say`. The program's
# own messages come behind it.

# The status with which the program will end for its words or its files, as far as is seen here.
fault=0

# A file that is read whole has mostly less than this, in bytes.
usual_size=$((64 << 20))

# Whether a path is a device that may have no end.
may_be_endless() { [ -c "$1" ] && ! [ "$1" -ef /dev/null ]; }

# Says why the file $1 can't be read, or what is unusual about it; returns whether it is a plain file of a usual size.
look_at_file() {
    local reason size
    if [ -d "$1" ]; then
        reason='Is a directory'
    elif [ -p "$1" ]; then
        return 1
    elif may_be_endless "$1"; then
        say "$1: a device is read to its end, and may have none"
        return 1
    else
        reason=$(LC_ALL=C && { : <"$1"; } 2>&1) || true
        reason=${reason##*: }
    fi
    if [ -n "$reason" ]; then
        say "$1: $reason"
        [ "$fault" -ne 0 ] || fault=1
        return 1
    fi
    size=$(stat -L -c %s -- "$1")
    if [ "$size" -gt "$usual_size" ]; then
        say "$1: it has $((size >> 20)) MB, and is read whole"
        return 1
    fi
}

# Whether a technology file has a line in its section `types`.
has_types() {
    awk '
        { sub(/\r$/, "") }
        /^[ \t]*#/ || NF == 0 { next }
        section == "" { section = $1; next }
        NF == 1 && $1 == "end" { section = ""; next }
        section == "types" { found = 1; exit }
        END { exit !found }
    ' "$1"
}

look_at_technology() {
    if look_at_file "$1" && ! has_types "$1"; then
        say "$1: it names no types, so that nothing can be painted"
    fi
}

look_at_cell() {
    case $1 in
        *=*) look_at_file "${1#*=}" || true ;;
        *)
            say "$1: a cell of the library is NAME=FILE"
            fault=2
            ;;
    esac
}

look_at_option() {
    if ! grep -qF -- " ${1%%=*} " "$here/launcher/help.txt"; then
        say "$1: there is no such option; --help shows all"
        fault=2
    fi
}

# Looks at the words of a command line, and sets `fault`.
look_at_words() {
    local is_option=yes
    while [ $# -gt 0 ]; do
        case $is_option$1 in
            yes--) is_option= ;;
            yes--tech)
                [ $# -eq 1 ] || look_at_technology "$2"
                [ $# -eq 1 ] || shift
                ;;
            yes--tech=*) look_at_technology "${1#*=}" ;;
            yes--quota | yes--pool | yes--journal | yes--cell-tiles | yes--workers) [ $# -eq 1 ] || shift ;;
            yes-*) look_at_option "$1" ;;
            *) look_at_cell "$1" ;;
        esac
        shift
    done
}

# Says what is unusual about standard input.
look_at_input() {
    if [ -t 0 ]; then
        say "lines are read from this terminal, as \`%open a\`; docs/SCRIPTS.md describes them, and Ctrl-D ends them"
    elif may_be_endless /dev/stdin; then
        say "standard input is a device, which may have no end"
    fi
}
