# Completion of lardsim, and of its tools lardsim-NAME, for bash. The options of a tool are those of which its --help speaks at
# the start of a line or behind a bracket; all other words are names of files.

_lardsim() {
    COMPREPLY=()
    if [ "$COMP_CWORD" = 1 ]; then
        mapfile -t COMPREPLY < <(compgen -W 'replay generate audit lab --help --version' -- "$2")
    elif [ "$COMP_CWORD" = 2 ] && [ "${COMP_WORDS[1]}" = lab ]; then
        mapfile -t COMPREPLY < <(compgen -W 'rr hash lard lardr' -- "$2")
    fi
}

_lardsim_tool() {
    COMPREPLY=()
    if [[ $2 == -* ]]; then
        mapfile -t COMPREPLY < <(compgen -W "--help $("$1" --help 2>/dev/null | grep -oE '(^ *|\[)--[a-z][a-z-]*' | tr -d ' [' | sort -u)" -- "$2")
    fi
}

complete -F _lardsim lardsim
for _lardsim_name in $(compgen -c lardsim-); do
    complete -o default -F _lardsim_tool "$_lardsim_name"
done
unset _lardsim_name
