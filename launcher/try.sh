# Compiling and running the program without a proof: sourced by ./magicd, which sets `here` and `say`.

# Runs the program with these words. Each file that a word names is handed on as a copy.
try() {
    local word path status words=() copies=()
    # Hands on the file $1, and sets `path` to the name of its copy.
    hand_on() {
        path=$1
        if [ -f "$path" ] && [ -r "$path" ]; then
            copies+=(--data "file$((${#copies[@]} / 2 + 1))=$(realpath -- "$path")")
            path=file$((${#copies[@]} / 2))
        fi
    }
    while [ $# -gt 0 ]; do
        word=$1
        shift
        case $word in
            --tech)
                words+=("$word")
                if [ $# -gt 0 ]; then
                    hand_on "$1"
                    words+=("$path")
                    shift
                fi
                ;;
            --tech=*)
                hand_on "${word#*=}"
                words+=(--tech "$path")
                ;;
            -*) words+=("$word") ;;
            *=*)
                hand_on "${word#*=}"
                words+=("${word%%=*}=$path")
                ;;
            *) words+=("$word") ;;
        esac
    done
    if [ -t 0 ]; then
        say "standard input is a terminal, which --try doesn't read: give it a file"
        exit 2
    fi
    say "nothing is proved yet: compiling takes a minute or two, then the program has one minute and one megabyte" \
        "of output, and all replies come at its end"
    cd "$here/crates/magicd"
    # What rt says of a run that ended isn't shown.
    {
        rt try "${copies[@]}" -- "${words[@]}" 2>&1 >&3 3>&- |
            sed -u '/^checked: ended status=/d; /^races: /d; /^run=ended .* proved=no$/d' >&2
        status=${PIPESTATUS[0]}
    } 3>&1
    exit "$status"
}
