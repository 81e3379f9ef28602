# Completion of twkb_tool for bash: the commands, the file, and how a window begins.
_twkb_tool() {
    local word=${COMP_WORDS[COMP_CWORD]} command=${COMP_WORDS[1]}
    COMPREPLY=()
    if ((COMP_CWORD == 1)); then
        mapfile -t COMPREPLY < <(compgen -W 'check list scan help --help' -- "$word")
    elif [[ $command == help ]]; then
        # After help comes a command, and no file.
        ((COMP_CWORD > 2)) || mapfile -t COMPREPLY < <(compgen -W 'check list scan help' -- "$word")
    elif [[ $command == check && $word == -* ]]; then
        COMPREPLY=('--tight')
    elif [[ $word == -* ]]; then
        ((COMP_CWORD > 2)) || mapfile -t COMPREPLY < <(compgen -W '--help' -- "$word")
    elif ((COMP_CWORD == 2)) || [[ $COMP_CWORD == 3 && ${COMP_WORDS[2]} == --tight ]]; then
        # As names of files are quoted, and a folder ends with a slash; outside of a completion there is nothing to set.
        compopt -o filenames 2> /dev/null
        mapfile -t COMPREPLY < <(compgen -f -- "$word")
    elif [[ $command == scan && -z $word ]]; then
        compopt -o nospace 2> /dev/null
        COMPREPLY=('x=')
    fi
}
complete -F _twkb_tool twkb_tool
