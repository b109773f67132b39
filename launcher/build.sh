# Proving and building the program: sourced by ./magicd, which sets `here`, `program` and `say`.

# The crates of crates.txt below and with the one named, lowest first, each with those that it stands on.
declare -A below=() height=()
crates=()
read_crates() {
    local name uses use
    declare -A all=()
    while IFS=: read -r name uses; do
        name=${name%% *}
        if [ -n "$name" ] && [ "${name#\#}" = "$name" ]; then
            all[$name]=${uses%%#*}
        fi
    done <"$here/crates.txt"
    add() {
        local crate=$1 use list=()
        if [ -n "${below[$crate]+known}" ]; then
            return
        fi
        for use in ${all[$crate]}; do
            if [ -n "${all[$use]+known}" ]; then
                add "$use"
                list+=("$use")
            fi
        done
        below[$crate]="${list[*]}"
        crates+=("$crate")
    }
    add "$1"
    # How many crates a chain upward from each one has at most: those with the longest chain go first.
    local i crate
    for ((i = ${#crates[@]} - 1; i >= 0; i--)); do
        crate=${crates[i]}
        : "${height[$crate]:=1}"
        for use in ${below[$crate]}; do
            if [ "${height[$use]:-0}" -le "${height[$crate]}" ]; then
                height[$use]=$((height[$crate] + 1))
            fi
        done
    done
}

# Whether the program is built, and no source of it, nor a folder of sources, is newer.
is_built() {
    local crate folder folders=("$here/crates.txt")
    [ -x "$program" ] || return 1
    for crate in "${crates[@]}"; do
        for folder in "$here/crates/$crate"/{src,specs,proofs}; do
            [ ! -d "$folder" ] || folders+=("$folder")
        done
    done
    [ -z "$(find "${folders[@]}" -newer "$program" -print -quit)" ]
}

# How many crates are proved at once: one for each processor, and for each 4 GB of free memory.
count_at_once() {
    local most free
    most=$(nproc)
    free=$(awk '/^MemAvailable:/ { print int($2 / 4194304) }' /proc/meminfo)
    [ "$most" -le "$free" ] || most=$free
    [ "$most" -ge 1 ] || most=1
    echo "$most"
}

# Shows each minute how many crates are proved, and how many functions of those under way.
show_minutes() {
    local log crate now finished
    shopt -s nullglob
    while sleep 60; do
        now=''
        finished=("$logs"/*.done)
        for log in "$logs"/*.log; do
            crate=$(basename "$log" .log)
            if [ ! -e "$logs/$crate.done" ]; then
                now+=", $crate$(sed -n 's/^so far: \([0-9]* of [0-9]*\) .*/ (\1)/p' "$log" | tail -n 1)"
            fi
        done
        say "$(minutes) min: ${#finished[@]} of ${#crates[@]} crates proved, at work on${now#,}"
    done
}

minutes() { echo $((SECONDS / 60)); }

# Proves one crate, or proves and builds the program.
prove() {
    local verb=lib
    if [ ! -e "$here/crates/$1/src/lib.rt" ]; then
        verb=run
    fi
    (cd "$here/crates/$1" && exec rt "$verb" </dev/null >"$logs/$1.log" 2>&1)
}

stop_all() {
    local job
    trap - EXIT
    for job in "${!running[@]}" $watch; do
        { kill -- "-$job" && wait "$job"; } 2>/dev/null || true
    done
    rm -rf "$logs"
}

# Sets `next` to the crate with the longest chain above it of those that wait for no other, or to nothing.
find_next() {
    local crate use ready
    next=''
    for crate in "${crates[@]}"; do
        ready=yes
        [[ -z "${proved[$crate]+done}" && " ${running[*]} " != *" $crate "* ]] || ready=''
        for use in ${below[$crate]}; do
            [ -n "${proved[$use]+done}" ] || ready=''
        done
        if [ -n "$ready" ] && [ "${height[$crate]}" -gt "${height[${next:-none}]:-0}" ]; then
            next=$crate
        fi
    done
}

# Proves all crates, each once those below it are, as many at once as the machine takes.
declare -A running=() proved=()
build() {
    local at_once crate next job
    SECONDS=0
    at_once=$(count_at_once)
    logs=$(mktemp -d)
    watch=''
    trap stop_all EXIT
    trap 'exit 130' INT TERM HUP
    # Each job is a group of its own, so that it can be ended with all that it started.
    set -m
    say "proving and building ${#crates[@]} crates, $at_once at once, which takes half an hour to an hour on four cores" \
        "the first time"
    show_minutes &
    watch=$!
    while [ ${#proved[@]} -lt ${#crates[@]} ]; do
        while [ ${#running[@]} -lt "$at_once" ]; do
            find_next
            [ -n "$next" ] || break
            prove "$next" &
            running[$!]=$next
        done
        if ! wait -n -p job "${!running[@]}"; then
            crate=${running[$job]}
            grep -v '^so far: \|^checked ' "$logs/$crate.log" | tail -n 50 >&2
            say "the build failed at $crate"
            exit 1
        fi
        crate=${running[$job]}
        unset "running[$job]"
        proved[$crate]=1
        : >"$logs/$crate.done"
        say "$(minutes) min: crate ${#proved[@]} of ${#crates[@]} proved: $crate"
    done
    stop_all
    set +m
    touch "$program"
}
