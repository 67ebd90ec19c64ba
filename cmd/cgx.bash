# Completion of cgx for bash. Words and options are those that `cgx --help` and `cgx WORD --help` print, so that a new word needs
# nothing here. To use it: source it, or put it as `cgx` into ~/.local/share/bash-completion/completions.
_cgx() {
    local cgx=$1 now=$2 word=${COMP_WORDS[1]} options
    [ "$now" != = ] || now= # of --output=
    if [ "$COMP_CWORD" -eq 1 ]; then
        mapfile -t COMPREPLY < <(compgen -W "$("$cgx" --help | sed -n 's/^  \([a-z]*\)  .*/\1/p') --help --version" -- "$now")
    elif [[ $now == -* ]]; then
        options=$("$cgx" "$word" --help 2>/dev/null | grep -oE '^ +(-[a-z], +)?--[a-z]+=?' | tr ',' ' ')
        mapfile -t COMPREPLY < <(compgen -W "$options" -- "$now")
        [[ ${COMPREPLY[0]-} == *= ]] && compopt -o nospace 2>/dev/null
    else
        mapfile -t COMPREPLY < <(compgen -f -- "$now")
    fi
    return 0
}
complete -o filenames -F _cgx cgx
