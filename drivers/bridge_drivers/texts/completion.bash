# bash completion of nl-bridge and its drivers; made by `nl-bridge completion bash`

_nl_bridge_value() {        # of the option before the sign =
    case $1 in
%(values)s
    esac
}

_nl_bridge_options() {      # of a command
    case $1 in
%(options)s
    esac
}

_nl_bridge_add() {          # what compgen finds by these words, a name a line: names may have blanks
    local found
    while IFS= read -r found; do
        COMPREPLY+=("$found")
    done < <(compgen "$@" -- "$cur")
}

_nl_bridge() {
    local command=${COMP_WORDS[0]##*/} cur=${COMP_WORDS[COMP_CWORD]}
    local prev=${COMP_WORDS[COMP_CWORD-1]} name= end=
    COMPREPLY=()
    if [[ $cur == = ]]; then
        name=$prev cur=
    elif [[ $prev == = ]]; then
        name=${COMP_WORDS[COMP_CWORD-2]}
    elif [[ $cur == *=* ]]; then
        name=${cur%%%%=*} cur=${cur#*=}
    fi
    if [[ -n $name ]]; then
        _nl_bridge_value "$name"
    elif [[ $command == nl-bridge && $COMP_CWORD -eq 1 ]]; then
        _nl_bridge_add -W '%(commands)s'
    elif [[ $command == nl-bridge ]]; then
        case ${COMP_WORDS[1]} in
%(behind)s
        esac
        compopt -o filenames 2>/dev/null
        _nl_bridge_add -f
    elif [[ $COMP_CWORD -eq 1 && $cur != -* ]]; then
        compopt -o filenames 2>/dev/null
        for end in %(ends)s; do _nl_bridge_add -f -X "!*$end"; done
        _nl_bridge_add -d
    else
        compopt -o nospace 2>/dev/null
        _nl_bridge_add -W "$(_nl_bridge_options "$command")"
    fi
}

complete -F _nl_bridge %(all)s
