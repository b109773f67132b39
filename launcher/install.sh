# Installing: sourced by ./magicd, which sets `here`, `program` and `say`.

# Copies the files of the repository that clients and readers need.
copy_shared() {
    local lib=$1/lib/kolasieve doc=$1/share/doc/kolasieve
    rm -rf "$lib" "$doc"
    mkdir -p "$lib" "$doc"
    cp -r "$here/clients" "$lib/"
    find "$lib" -name __pycache__ -prune -exec rm -rf {} +
    rm -rf "$lib/clients/tests"
    cp -r "$here/README.md" "$here/docs" "$here/examples" "$doc/"
    show_version > "$doc/VERSION"
}

# Installs the program, the clients as kolasieve-NAME, the man page, completion, and the relay's unit for systemd in $1.
install_in() {
    local to client
    mkdir -p "$1"
    to=$(cd "$1" && pwd)
    mkdir -p "$to/bin" "$to/share/man/man1" "$to/share/bash-completion/completions" "$to/lib/systemd/system"
    copy_shared "$to"
    install -m 755 "$program" "$to/bin/magicd"
    ln -s ../../bin/magicd "$to/lib/kolasieve/magicd"
    for client in "$here"/clients/*; do
        if [ -f "$client" ] && [ -x "$client" ]; then
            ln -sfn "../lib/kolasieve/clients/${client##*/}" "$to/bin/kolasieve-${client##*/}"
        fi
    done
    "$here/launcher/man_page" > "$to/share/man/man1/magicd.1"
    install -m 644 "$here/launcher/completion.bash" "$to/share/bash-completion/completions/magicd"
    sed "s|@DIR@|$to|g" "$here/launcher/kolasieve-relay.service" > "$to/lib/systemd/system/kolasieve-relay.service"
    say "installed in $to: bin/magicd, bin/kolasieve-*, the man page, bash's completion, and" \
        "lib/systemd/system/kolasieve-relay.service"
}
