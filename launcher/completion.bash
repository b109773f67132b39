# Completes the words of magicd, the launcher's own too: sourced by bash, or found where `./magicd --install` puts it.

_magicd() {
    local word=${COMP_WORDS[COMP_CWORD]} before=${COMP_WORDS[COMP_CWORD - 1]}
    case $before in
        --quota | --pool | --journal | --cell-tiles | --workers) return ;;
        --install) mapfile -t COMPREPLY < <(compgen -d -- "$word") ;;
        --tech | =) mapfile -t COMPREPLY < <(compgen -f -- "${word#=}") ;;
        *)
            case $word in
                =) mapfile -t COMPREPLY < <(compgen -f) ;;
                -*)
                    mapfile -t COMPREPLY < <(compgen -W "--tech --quota --pool --journal --cell-tiles --workers --live
                        --help --try --version --install" -- "$word")
                    ;;
            esac
            ;;
    esac
}
complete -o filenames -F _magicd magicd
