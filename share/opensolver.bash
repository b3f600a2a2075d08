# Completion for bash of the words of opensolver.
_opensolver() {
    local word=${COMP_WORDS[COMP_CWORD]} before=${COMP_WORDS[COMP_CWORD - 1]}
    COMPREPLY=()
    case $before in
    --pick) mapfile -t COMPREPLY < <(compgen -W 'depth best oldest' -- "$word") ;;
    --gen) mapfile -t COMPREPLY < <(compgen -W '1 2 3 4 5 6 7 8 9 10 11 12' -- "$word") ;;
    --budget) ;;
    *)
        if [[ $word == -* ]]; then
            mapfile -t COMPREPLY < <(compgen -W '--names --budget --pick --gen' -- "$word")
        else
            compopt -o filenames 2>/dev/null
            mapfile -t COMPREPLY < <(compgen -f -X '!*.csv' -- "$word"; compgen -d -- "$word")
        fi
        ;;
    esac
}
complete -F _opensolver opensolver
