# Completes the words of camlheap, history_check and heap_picture in bash: `source tools/completion/camlheap.bash`.
_camlheap() {
    local word=${COMP_WORDS[COMP_CWORD]} first=${COMP_WORDS[1]-}
    [ "$first" != try ] || first=${COMP_WORDS[2]-}
    case ${COMP_WORDS[COMP_CWORD - 1]} in
        --domains) mapfile -t COMPREPLY < <(compgen -W "1 2 3 4 5 6 7 8" -- "$word") && return ;;
        --minor) mapfile -t COMPREPLY < <(compgen -W "4096 8192 16384 32768 65536" -- "$word") && return ;;
        --pools | --states) return ;;
    esac
    if [ "$first" = "$word" ]; then
        mapfile -t COMPREPLY < <(compgen -W "run replay table gen load try --help --version" -- "$word")
    elif [[ $first =~ ^(run|replay|table)$ ]]; then
        mapfile -t COMPREPLY < <(compgen -W "--domains --minor --pools" -- "$word"; compgen -f -- "$word")
    fi
}
complete -F _camlheap camlheap ./camlheap
complete -W "try --schedule --domains --minor --pools --states --help" history_check ./history_check
complete -o default -W "try --help" heap_picture ./heap_picture
