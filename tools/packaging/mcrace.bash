# Completions of mcrace for bash.
_mcrace() {
    local before=${COMP_WORDS[COMP_CWORD-1]} at=' ' words=
    [ "$COMP_CWORD" = 1 ] || at="${COMP_WORDS[1]} $before"
    case $at in
%(bash)s
    esac
    # After `<` and `>` come files.
    [[ $before == [\<\>] ]] && compopt -o default && return
    COMPREPLY=($(compgen -W "$words" -- "${COMP_WORDS[COMP_CWORD]}"))
}
complete -F _mcrace mcrace
