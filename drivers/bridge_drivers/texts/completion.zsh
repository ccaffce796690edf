#compdef %(all)s
# zsh completion of nl-bridge and its drivers; made by `nl-bridge completion zsh`

_nl_bridge() {
    local -a words_of dashed
    if [[ $PREFIX == *=* ]]; then
        local name=${PREFIX%%%%=*}
        compset -P '*='
        case $name in
%(values)s
        esac
        return
    fi
    if [[ $service == nl-bridge ]]; then
        if (( CURRENT == 2 )); then
            words_of=(
%(commands)s
            )
            _describe -t commands command words_of
            return
        fi
        case $words[2] in
%(behind)s
        esac
        _files
        return
    fi
    if (( CURRENT == 2 )) && [[ $PREFIX != -* ]]; then
        _files -g '*.(nl|mps)(|.gz|.bz2|.xz)'
        return
    fi
    case $service in
%(options)s
    esac
    dashed=(
%(dashed)s
    )
    _describe -t values option words_of -S '='
    [[ $service == bridge-certify ]] || _describe -o word dashed
}

_nl_bridge "$@"
