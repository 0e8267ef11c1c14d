# Completions of calvin for bash, made by scripts/manual.py from the program's help.
_calvin() {
    local word=${COMP_WORDS[COMP_CWORD]} options=
    case ${COMP_WORDS[1]-} in
        run) options='--rows --alone --progress --follow --workers --lanes --coarsen --arena -h --help' ;;
        rows) options='--rows --alone --progress --follow --table --document --workers --lanes --coarsen --arena -h --help' ;;
        filter) options='--workers --lanes --coarsen --arena -h --help' ;;
        replicas) options='--rows --progress --workers --lanes --coarsen --arena -h --help' ;;
        locks) options='--rows --workers --lanes --coarsen --arena -h --help' ;;
        check) options='--rows --workers --lanes --coarsen --arena -h --help' ;;
    esac
    if ((COMP_CWORD == 1)); then
        mapfile -t COMPREPLY < <(compgen -W 'run rows filter replicas locks check help -h --help -V --version' -- "$word")
    elif [[ $word == -* ]]; then
        mapfile -t COMPREPLY < <(compgen -W "$options" -- "$word")
    else
        mapfile -t COMPREPLY < <(compgen -f -- "$word")
    fi
}
complete -o filenames -F _calvin calvin
