#compdef lardsim -P lardsim-*
# Completion of lardsim, and of its tools lardsim-NAME, for zsh. The options of a tool are those of which its --help speaks at
# the start of a line or behind a bracket; all other words are names of files.

if [[ $service == lardsim ]]; then
    ((CURRENT == 2)) && compadd -- replay generate audit lab --help --version
    ((CURRENT == 3)) && [[ ${words[2]} = lab ]] && compadd -- rr hash lard lardr
elif [[ $PREFIX == -* ]]; then
    compadd -- --help ${(f)"$(${words[1]} --help 2>/dev/null | grep -oE '(^ *|\[)--[a-z][a-z-]*' | tr -d ' [')"}
else
    _files
fi
